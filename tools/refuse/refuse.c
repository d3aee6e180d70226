/* Loaded before the C library (LD_PRELOAD): counts the calls of one kind that a program makes, and has the Nth fail.

   REFUSE_KIND    growth: malloc, calloc, realloc, aligned_alloc and posix_memalign
                  write, read: write and read
                  cut: write, of which the Nth moves one byte, and the one after it fails
   REFUSE_NUMBER  N, from 1
   REFUSE_FILE    a file of 16 or 24 bytes, two or three counts: the calls that were counted, of these those that failed,
                  and the blocks that were taken and aren't freed
   REFUSE_OBJECT  where it is set, the loaded file whose name ends so, which stands for the program's file
   REFUSE_BEGIN, REFUSE_END
                  where they are set, calls count only behind a write that begins with the first text and before one
                  that begins with the second

   A call counts where the program's own code makes it: the address that it returns to lies in the program's file. So
   what the loader takes before main, and what the C library takes for itself, is neither counted nor refused. */
#define _GNU_SOURCE
#include <errno.h>
#include <fcntl.h>
#include <link.h>
#include <stdint.h>
#include <stdlib.h>
#include <string.h>
#include <sys/mman.h>
#include <sys/types.h>
#include <unistd.h>

/* The C library's own, under the names that this file leaves to it. */
void *__libc_malloc(size_t size);
void *__libc_calloc(size_t count, size_t size);
void *__libc_realloc(void *block, size_t size);
void *__libc_memalign(size_t alignment, size_t size);
void __libc_free(void *block);
ssize_t __write(int file, const void *bytes, size_t size);
ssize_t __read(int file, void *bytes, size_t size);

enum kind { NOTHING, GROWTH, WRITE, CUT, READ };

static enum kind kind = NOTHING;
static uint64_t number;
/* The calls that were counted, those that failed, and the blocks that are held. */
static uint64_t *counts;
static const char *begin_text, *end_text, *object;
static int counting;
/* Where the program's code begins and ends. */
static uintptr_t first_address, last_address;

static int ends_with(const char *name, const char *end) {
  size_t length = strlen(name), tail = strlen(end);
  return length >= tail && !strcmp(name + length - tail, end);
}

static int keep_program(struct dl_phdr_info *info, size_t size, void *data) {
  (void)size, (void)data;
  if (object && !ends_with(info->dlpi_name, object)) return 0;
  for (int i = 0; i < info->dlpi_phnum; i++) {
    const ElfW(Phdr) *part = &info->dlpi_phdr[i];
    if (part->p_type != PT_LOAD || !(part->p_flags & PF_X)) continue;
    uintptr_t begin = info->dlpi_addr + part->p_vaddr, end = begin + part->p_memsz;
    if (!last_address || begin < first_address) first_address = begin;
    if (end > last_address) last_address = end;
  }
  return 1; /* The first object is the program, and the others aren't looked at, unless one is named. */
}

static enum kind kind_of(const char *word) {
  if (!strcmp(word, "growth")) return GROWTH;
  if (!strcmp(word, "write")) return WRITE;
  if (!strcmp(word, "cut")) return CUT;
  return strcmp(word, "read") ? NOTHING : READ;
}

__attribute__((constructor)) static void prepare(void) {
  const char *word = getenv("REFUSE_KIND"), *nth = getenv("REFUSE_NUMBER"), *path = getenv("REFUSE_FILE");
  if (!word || !nth || !path) return;
  int file = open(path, O_RDWR);
  void *place = mmap(NULL, 3 * sizeof *counts, PROT_READ | PROT_WRITE, MAP_SHARED, file, 0);
  if (file < 0 || place == MAP_FAILED) _exit(125);
  close(file);
  object = getenv("REFUSE_OBJECT");
  dl_iterate_phdr(keep_program, NULL);
  begin_text = getenv("REFUSE_BEGIN");
  end_text = getenv("REFUSE_END");
  counting = !begin_text;
  counts = place;
  number = strtoull(nth, NULL, 10);
  kind = kind_of(word);
}

static int is_ours(const void *address) {
  if (object && !last_address) dl_iterate_phdr(keep_program, NULL); /* It may be loaded later. */
  return first_address <= (uintptr_t)address && (uintptr_t)address < last_address;
}

/* Whether a call of this kind, which returns to this address, is the one that fails. */
static int fails(enum kind made, const void *address) {
  uint64_t failing = kind == CUT ? number + 1 : number;
  if (made != kind || !counting || !is_ours(address) || ++counts[0] != failing) return 0;
  counts[1]++;
  return 1;
}

static void *no_memory(void) {
  errno = ENOMEM;
  return NULL;
}

/* Counts a block that code at this address took, and answers it. */
static void *taken(void *block, const void *address) {
  if (block && kind == GROWTH && is_ours(address)) counts[2]++;
  return block;
}

void *malloc(size_t size) {
  const void *address = __builtin_return_address(0);
  return fails(GROWTH, address) ? no_memory() : taken(__libc_malloc(size), address);
}

void *calloc(size_t count, size_t size) {
  const void *address = __builtin_return_address(0);
  return fails(GROWTH, address) ? no_memory() : taken(__libc_calloc(count, size), address);
}

void *realloc(void *block, size_t size) {
  const void *address = __builtin_return_address(0);
  if (fails(GROWTH, address)) return no_memory();
  return block ? __libc_realloc(block, size) : taken(__libc_realloc(block, size), address);
}

void free(void *block) {
  if (block && kind == GROWTH && is_ours(__builtin_return_address(0))) counts[2]--;
  __libc_free(block);
}

void *aligned_alloc(size_t alignment, size_t size) {
  return fails(GROWTH, __builtin_return_address(0)) ? no_memory() : __libc_memalign(alignment, size);
}

int posix_memalign(void **block, size_t alignment, size_t size) {
  void *got = fails(GROWTH, __builtin_return_address(0)) ? NULL : __libc_memalign(alignment, size);
  if (!got) return ENOMEM;
  *block = got;
  return 0;
}

static int begins_with(const void *bytes, size_t size, const char *text) {
  size_t length = text ? strlen(text) : 0;
  return length && size >= length && !memcmp(bytes, text, length);
}

ssize_t write(int file, const void *bytes, size_t size) {
  const void *address = __builtin_return_address(0);
  if (fails(kind == CUT ? CUT : WRITE, address)) {
    errno = EIO;
    return -1;
  }
  if (kind == CUT && is_ours(address) && counts[0] == number && size > 1) size = 1;
  if (is_ours(address) && begins_with(bytes, size, end_text)) counting = 0;
  ssize_t moved = __write(file, bytes, size);
  if (is_ours(address) && begins_with(bytes, size, begin_text)) counting = 1;
  return moved;
}

ssize_t read(int file, void *bytes, size_t size) {
  if (fails(READ, __builtin_return_address(0))) {
    errno = EIO;
    return -1;
  }
  return __read(file, bytes, size);
}
