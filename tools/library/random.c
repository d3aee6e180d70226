/* Random calls of the library: random bytes, and handles of any kind, null among them.
 *
 *     random COUNT [SEED [CHANCE]]
 *
 * It makes COUNT calls, frees what is left, and prints how many calls were good, how many were refused, and of these how
 * many for want of memory. Messages that calls made are passed on, some with a bit turned; now and then a candidate is
 * added and joins, a message goes to all members, what is sealed to all conversations, and a conversation goes on as one
 * that was saved. Where CHANCE isn't 0, each allocation of the library fails with a chance of 1 in CHANCE. The program
 * ends with status 1 where a call answers 0 and makes no handle that is due, or makes one where it is refused; where a
 * handle is null and the answer isn't 130, or is of another kind and the answer isn't 131; where a member or a
 * conversation that refused a call isn't saved as before; or where one that goes on isn't saved as the other.
 *
 * It is linked with -Wl,--wrap=malloc,--wrap=realloc, by which allocations fail.
 */
#include <inttypes.h>
#include <stdbool.h>
#include <stdio.h>
#include <stdlib.h>
#include <string.h>

#include "mls.h"

#define SLOTS 24
#define TEXTS 48
#define ROOM (1 << 16)

enum kind { NOTHING, BYTES, CANDIDATE, MEMBER, CONVERSATION };

struct slot {
    void *handle;
    enum kind kind;
};

struct text {
    uint8_t *bytes;
    size_t length;
};

/* What a call makes of a handle. */
struct made {
    struct slot slot;
    mls_bytes *bytes, *other;
};

static struct slot slots[SLOTS];
static struct text texts[TEXTS];
static uint64_t state, good, refused, without_memory, chance;
static bool is_refusing;

/* ---- chance, and memory */

static uint64_t next(uint64_t below) {
    state ^= state << 13;
    state ^= state >> 7;
    state ^= state << 17;
    return state % below;
}

void *__real_malloc(size_t size);
void *__real_realloc(void *block, size_t size);

static bool fails(void) { return is_refusing && chance > 0 && next(chance) == 0; }

void *__wrap_malloc(size_t size) { return fails() ? NULL : __real_malloc(size); }

void *__wrap_realloc(void *block, size_t size) { return fails() ? NULL : __real_realloc(block, size); }

static void fail(const char *what, uint32_t answer) {
    printf("%s: a call answered %" PRIu32 "\n", what, answer);
    exit(1);
}

/* ---- what calls are given */

static struct slot any(void) { return next(16) == 0 ? (struct slot){NULL, NOTHING} : slots[next(SLOTS)]; }

/* One of a kind, mostly. */
static struct slot one(enum kind kind) {
    size_t at = next(SLOTS);
    for (size_t i = 0; i < SLOTS && next(24) > 0; i++) {
        if (slots[(at + i) % SLOTS].kind == kind) {
            return slots[(at + i) % SLOTS];
        }
    }
    return any();
}

/* Bytes: random ones, or those of a message, at times with a bit turned. */
static struct text any_text(void) {
    static uint8_t rooms[3][ROOM];
    static size_t turn;
    uint8_t *room = rooms[turn++ % 3];
    const struct text *text = &texts[next(TEXTS)];
    if (next(32) == 0) {
        return (struct text){NULL, next(2)};
    }
    if (text->length > 0 && text->length < ROOM && next(4) > 0) {
        memcpy(room, text->bytes, text->length);
        if (next(4) == 0) {
            room[next(text->length)] ^= (uint8_t)(1 << next(8));
        }
        return (struct text){room, text->length};
    }
    size_t length = next(80);
    for (size_t i = 0; i < length; i++) {
        room[i] = (uint8_t)next(256);
    }
    return (struct text){room, length};
}

/* A seed, mostly of 32 bytes. */
static struct text seed(void) {
    static uint8_t room[34];
    for (size_t i = 0; i < sizeof room; i++) {
        room[i] = (uint8_t)next(256);
    }
    return (struct text){room, next(32) == 0 ? next(34) : 32};
}

/* The list of a commit: that of a removal, or any bytes. */
static struct text list(void) {
    static uint8_t removal[] = {7, 1, 0, 3, 0, 0, 0, 0};
    removal[7] = (uint8_t)next(4);
    return next(2) == 0 ? (struct text){removal, sizeof removal} : any_text();
}

/* The list of a commit that adds the client of a KeyPackage's message in full. */
static struct text addition(struct text message) {
    static uint8_t room[ROOM];
    if (message.length >= 1 << 14) {
        return message;
    }
    size_t length = message.length - 4 + 3;
    const uint8_t head[] = {(uint8_t)(0x40 | length >> 8), (uint8_t)length, 1, 0, 1};
    memcpy(room, head, sizeof head);
    memcpy(room + sizeof head, message.bytes + 4, message.length - 4);
    return (struct text){room, length + 2};
}

/* Extensions of a group, or any bytes. */
static struct text extensions(void) {
    static uint8_t one[] = {4, 0xf0, 1, 1, 0};
    one[4] = (uint8_t)next(256);
    return next(2) == 0 ? (struct text){one, sizeof one} : any_text();
}

/* A number: mostly a small one. */
static uint64_t number(uint64_t below) { return next(16) == 0 ? UINT64_MAX - next(3) : next(below); }

/* ---- what calls make */

static void keep(struct slot made) {
    struct slot *slot = &slots[next(SLOTS)];
    if (slot->handle != NULL && mls_free(slot->handle) != 0) {
        fail("free", 1);
    }
    *slot = made;
}

/* Copies the bytes of a handle, and frees it. */
static struct text take(mls_bytes *made) {
    uint64_t length = 0, byte = 0;
    if (mls_bytes_length(made, &length) != 0) {
        fail("length", 1);
    }
    struct text text = {malloc(length > 0 ? (size_t)length : 1), (size_t)length};
    uint32_t copied = text.bytes == NULL ? 1 : mls_bytes_copy(made, text.bytes, text.length);
    uint64_t at = next(length + 1);
    uint32_t found = mls_bytes_at(made, at, &byte);
    if (copied != 0 || found != (at < length ? 0 : 135) || (at < length && byte != text.bytes[at])) {
        fail("bytes", copied);
    }
    if (mls_bytes_copy(made, text.bytes, text.length + 1) != 135 || mls_free(made) != 0) {
        fail("bytes", 135);
    }
    return text;
}

static void keep_bytes(mls_bytes *made) {
    if (made == NULL) {
        return;
    }
    if (next(8) == 0) {
        keep((struct slot){made, BYTES});
        return;
    }
    struct text *text = &texts[next(TEXTS)];
    free(text->bytes);
    *text = take(made);
}

/* ---- calls */

static uint32_t call_candidate(struct slot on, struct made *made) {
    struct text a = any_text(), s = seed();
    void **out = &made->slot.handle;
    switch (next(6)) {
    case 0:
        made->slot.kind = CANDIDATE;
        return mls_candidate_new(a.bytes, a.length, s.bytes, s.length, (mls_candidate **)out);
    case 1:
        return mls_candidate_key_package(on.handle, &made->bytes);
    case 2:
        return mls_candidate_save(on.handle, &made->bytes);
    case 3:
        made->slot.kind = CANDIDATE;
        return mls_candidate_load(a.bytes, a.length, (mls_candidate **)out);
    case 4:
        made->slot.kind = MEMBER;
        return mls_member_create(on.handle, a.bytes, a.length, s.bytes, s.length, (mls_member **)out);
    default:
        made->slot.kind = MEMBER;
        return mls_member_join(on.handle, a.bytes, a.length, (mls_member **)out);
    }
}

static uint32_t ask_member(struct slot on, struct made *made) {
    struct text a = any_text(), b = any_text();
    uint64_t told = 0;
    switch (next(13)) {
    case 0:
        return mls_member_epoch(on.handle, next(4) > 0 ? &told : NULL);
    case 1:
        return mls_member_group_id(on.handle, &made->bytes);
    case 2:
        return mls_member_leaf_index(on.handle, &told);
    case 3:
        return mls_member_leaf_count(on.handle, &told);
    case 4:
        return mls_member_at(on.handle, number(4), &made->bytes, next(2) == 0 ? NULL : &made->other);
    case 5:
        return mls_member_save(on.handle, &made->bytes);
    case 6:
        return mls_member_export(on.handle, a.bytes, a.length, b.bytes, b.length, number(9000), &made->bytes);
    case 7:
        return mls_member_extensions(on.handle, &made->bytes);
    case 8:
        return mls_member_reference(on.handle, a.bytes, a.length, &made->bytes);
    case 9:
        return mls_member_pending_commit(on.handle, &made->bytes);
    case 10:
        made->slot.kind = MEMBER;
        return mls_member_inspect(on.handle, a.bytes, a.length, &told, (mls_member **)&made->slot.handle);
    case 11:
        return mls_member_missing_proposal(on.handle, a.bytes, a.length, number(3), &made->bytes);
    default:
        made->slot.kind = CONVERSATION;
        return mls_conversation_new(on.handle, (mls_conversation **)&made->slot.handle);
    }
}

static uint32_t change_member(struct slot on, struct made *made) {
    struct text a = any_text(), l = list(), e = extensions(), s = seed();
    uint64_t told = 0;
    switch (next(11)) {
    case 0:
        return mls_member_propose_add(on.handle, a.bytes, a.length, &made->bytes);
    case 1:
        return mls_member_propose_update(on.handle, s.bytes, s.length, &made->bytes);
    case 2:
        return mls_member_propose_remove(on.handle, number(4), &made->bytes);
    case 3:
        return mls_member_propose_extensions(on.handle, e.bytes, e.length, &made->bytes);
    case 4:
        return mls_member_commit(on.handle, l.bytes, l.length, next(2), s.bytes, s.length, &made->bytes, &made->other);
    case 5:
    case 6:
        return mls_member_commit_kept(on.handle, next(2), s.bytes, s.length, &made->bytes, &made->other);
    case 7:
        return next(4) > 0 ? mls_member_epoch(on.handle, &told) : mls_member_drop_pending(on.handle, &told);
    case 8:
        return mls_member_forget_proposal(on.handle, a.bytes, a.length, &told);
    default:
        return mls_member_process(on.handle, a.bytes, a.length, &told);
    }
}

static uint32_t call_conversation(struct slot on, struct made *made) {
    struct text a = any_text(), b = any_text(), s = seed();
    uint64_t sender = 0, padding = number(100);
    switch (next(8)) {
    case 0:
        return mls_conversation_member_at(on.handle, number(4), &made->bytes, next(2) == 0 ? NULL : &made->other);
    case 1:
        return mls_conversation_save(on.handle, &made->bytes);
    case 2:
        return mls_conversation_restore(on.handle, a.bytes, a.length);
    case 3:
    case 4:
        return mls_conversation_seal(on.handle, a.bytes, a.length, b.bytes, b.length, padding, s.bytes, s.length,
                                     &made->bytes);
    default:
        return mls_conversation_open(on.handle, a.bytes, a.length, &made->bytes, &made->other, &sender);
    }
}

static uint32_t call_other(struct slot on, struct made *made) {
    struct text a = any_text();
    if (next(3) == 0) {
        return mls_refusal_name(number(200), &made->bytes);
    }
    if (next(2) == 0) {
        return mls_key_package_identity(a.bytes, a.length, &made->bytes, &made->other);
    }
    if (next(2) == 0) {
        return mls_message_place(a.bytes, a.length, &made->bytes, NULL);
    }
    if (on.kind == NOTHING) {
        return mls_free(NULL) == 130 ? 0 : 130;
    }
    made->slot.kind = MEMBER;
    return mls_member_load(a.bytes, a.length, (mls_member **)&made->slot.handle);
}

/* ---- what must hold */

/* What a member or a conversation is saved as, or nothing of another handle. */
static struct text save(struct slot slot) {
    mls_bytes *made = NULL;
    bool was_refusing = is_refusing;
    is_refusing = false;
    uint32_t answer = 0;
    if (slot.kind == MEMBER) {
        answer = mls_member_save(slot.handle, &made);
    } else if (slot.kind == CONVERSATION) {
        answer = mls_conversation_save(slot.handle, &made);
    }
    struct text text = made == NULL ? (struct text){NULL, 0} : take(made);
    is_refusing = was_refusing;
    if (answer != 0) {
        fail("save", answer);
    }
    return text;
}

static bool is_same(struct text a, struct text b) {
    return a.length == b.length && (a.length == 0 || memcmp(a.bytes, b.bytes, a.length) == 0);
}

/* Counts a call, and answers whether it was good. */
static bool is_good(uint32_t answer) {
    is_refusing = false;
    *(answer == 0 ? &good : &refused) += 1;
    without_memory += answer == 1;
    return answer == 0;
}

/* A call on a handle, whose refusal changes nothing. */
static void call_on(struct slot on, enum kind wanted, uint32_t (*call)(struct slot, struct made *)) {
    struct made made = {{NULL, NOTHING}, NULL, NULL};
    bool compares = next(8) == 0;
    struct text before = compares ? save(on) : (struct text){NULL, 0};
    is_refusing = true;
    uint32_t answer = call(on, &made);
    is_good(answer);
    if (answer != 0 && (made.slot.handle != NULL || made.bytes != NULL || made.other != NULL)) {
        fail("something was made", answer);
    }
    if (answer == 0 && made.slot.kind != NOTHING && made.slot.handle == NULL) {
        fail("nothing was made", answer);
    }
    if (wanted != NOTHING && on.kind != wanted && answer != (on.kind == NOTHING ? 130 : 131)) {
        fail("another handle", answer);
    }
    if (compares) {
        struct text after = save(on);
        if (answer != 0 && !is_same(before, after)) {
            fail("a handle was changed", answer);
        }
        free(before.bytes);
        free(after.bytes);
    }
    if (made.slot.handle != NULL) {
        keep(made.slot);
    }
    keep_bytes(made.bytes);
    keep_bytes(made.other);
}

/* ---- several calls */

/* What a call made is kept as one of the texts, which it answers. */
static struct text put(mls_bytes *made) {
    struct text *text = &texts[next(TEXTS)];
    free(text->bytes);
    return *text = take(made);
}

/* A member adds a candidate, which joins. */
static void grow(void) {
    struct slot maker = one(MEMBER), joiner = one(CANDIDATE);
    mls_bytes *package = NULL, *commit = NULL, *welcome = NULL;
    mls_member *joined = NULL;
    struct text s = seed();
    uint64_t told = 0;
    is_refusing = true;
    if (!is_good(mls_candidate_key_package(joiner.handle, &package))) {
        return;
    }
    struct text list = addition(put(package));
    is_refusing = true;
    if (!is_good(mls_member_commit(maker.handle, list.bytes, list.length, next(2), s.bytes, s.length, &commit, &welcome))) {
        return;
    }
    struct text message = take(commit), invitation = take(welcome);
    is_refusing = true;
    is_good(mls_member_process(maker.handle, message.bytes, message.length, &told));
    is_refusing = true;
    is_good(mls_member_join(joiner.handle, invitation.bytes, invitation.length, &joined));
    free(message.bytes);
    free(invitation.bytes);
    if (joined != NULL) {
        keep((struct slot){joined, MEMBER});
    }
}

/* A message goes to all members. */
static void spread(void) {
    struct text message = any_text();
    uint64_t told = 0;
    for (size_t i = 0; i < SLOTS; i++) {
        if (slots[i].kind == MEMBER) {
            is_refusing = true;
            is_good(mls_member_process(slots[i].handle, message.bytes, message.length, &told));
        }
    }
}

/* A conversation for each member, then what one seals goes to all. */
static void talk(void) {
    struct text data = any_text(), s = seed();
    mls_bytes *made = NULL;
    mls_conversation *all[SLOTS] = {NULL};
    size_t speaker = next(SLOTS);
    for (size_t i = 0; i < SLOTS; i++) {
        if (slots[i].kind == MEMBER) {
            is_refusing = true;
            is_good(mls_conversation_new(slots[i].handle, &all[i]));
        }
    }
    for (size_t i = 0; i < SLOTS && all[speaker] == NULL; i++) {
        speaker = (speaker + 1) % SLOTS;
    }
    is_refusing = true;
    if (is_good(mls_conversation_seal(all[speaker], data.bytes, data.length, NULL, 0, next(9), s.bytes, s.length, &made))) {
        struct text message = put(made);
        for (size_t i = 0; i < SLOTS; i++) {
            if (i == speaker) {
                continue;
            }
            uint64_t sender = 0;
            made = NULL;
            is_refusing = true;
            is_good(mls_conversation_open(all[i], message.bytes, message.length, &made, NULL, &sender));
            if (made != NULL) {
                struct text heard = take(made);
                if (!is_same(heard, data)) {
                    fail("something else was heard", 0);
                }
                free(heard.bytes);
            }
        }
    }
    for (size_t i = 0; i < SLOTS; i++) {
        mls_free(all[i]);
    }
}

/* A member's conversation seals, and a new one goes on as the one that is saved then. */
static void resume(void) {
    struct slot member = one(MEMBER), first = {NULL, CONVERSATION}, second = {NULL, CONVERSATION};
    struct text data = any_text(), s = seed(), saved = {NULL, 0}, after = {NULL, 0};
    mls_bytes *made = NULL;
    is_refusing = true;
    is_good(mls_conversation_new(member.handle, (mls_conversation **)&first.handle));
    is_refusing = true;
    is_good(mls_conversation_new(member.handle, (mls_conversation **)&second.handle));
    if (first.handle != NULL && second.handle != NULL) {
        is_refusing = true;
        if (is_good(mls_conversation_seal(first.handle, data.bytes, data.length, NULL, 0, 0, s.bytes, s.length, &made))) {
            put(made);
        }
        saved = save(first);
        is_refusing = true;
        uint32_t answer = mls_conversation_restore(second.handle, saved.bytes, saved.length);
        bool is_restored = is_good(answer);
        after = save(second);
        if (is_restored ? !is_same(saved, after) : answer != 1) {
            fail("a conversation doesn't go on", answer);
        }
    }
    free(saved.bytes);
    free(after.bytes);
    mls_free(first.handle);
    mls_free(second.handle);
}

static void call_any(void) {
    switch (next(40) == 0 ? 12 + next(4) : next(12)) {
    case 12:
        grow();
        return;
    case 13:
        spread();
        return;
    case 14:
        talk();
        return;
    case 15:
        resume();
        return;
    case 0:
    case 1:
        call_on(one(CANDIDATE), NOTHING, call_candidate);
        return;
    case 2:
    case 3:
    case 4:
        call_on(one(MEMBER), MEMBER, ask_member);
        return;
    case 5:
    case 6:
    case 7:
    case 8:
        call_on(one(MEMBER), MEMBER, change_member);
        return;
    case 9:
        call_on(one(CONVERSATION), CONVERSATION, call_conversation);
        return;
    default:
        call_on(any(), NOTHING, call_other);
    }
}

int main(int count, char **words) {
    uint64_t calls = count > 1 ? strtoull(words[1], NULL, 10) : 1000;
    state = (count > 2 ? strtoull(words[2], NULL, 10) : 1) * 2654435761u | 1;
    chance = count > 3 ? strtoull(words[3], NULL, 10) : 0;
    while (good + refused < calls) {
        call_any();
    }
    for (size_t i = 0; i < SLOTS; i++) {
        if (slots[i].handle != NULL) {
            mls_free(slots[i].handle);
        }
    }
    for (size_t i = 0; i < TEXTS; i++) {
        free(texts[i].bytes);
    }
    printf("%" PRIu64 " calls were good, %" PRIu64 " refused", good, refused);
    printf(", of these %" PRIu64 " for want of memory\n", without_memory);
    return chance == 0 && without_memory > 0 ? 1 : 0;
}
