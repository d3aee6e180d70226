/* Loaded before the C library (LD_PRELOAD): writes to the errors, a line for each write to the standard output, how many
 * nanoseconds of processor time the program has had before it. */
#include <stdio.h>
#include <sys/syscall.h>
#include <time.h>
#include <unistd.h>

ssize_t write(int fd, const void *bytes, size_t count) {
    if (fd == STDOUT_FILENO) {
        struct timespec now;
        char line[32];
        clock_gettime(CLOCK_PROCESS_CPUTIME_ID, &now);
        int length = snprintf(line, sizeof line, "%lld\n", now.tv_sec * 1000000000LL + now.tv_nsec);
        syscall(SYS_write, STDERR_FILENO, line, (size_t)length);
    }
    return syscall(SYS_write, fd, bytes, count);
}
