/* What the code of the programs calls that is no function of the C library: errno, and the arguments; and reads and
 * writes that wait. */
#include <errno.h>
#ifdef __GLIBC__
#include <malloc.h>
#endif
#include <poll.h>
#include <signal.h>
#include <stddef.h>
#include <string.h>
#include <sys/types.h>

int rattle_errno(void);
void rattle_set_errno(int error);
size_t rattle_arg_count(void);
ptrdiff_t rattle_arg(size_t at, char *out, size_t out_len);
int __real_main(int count, char **words);
int __wrap_main(int count, char **words);
ssize_t __real_read(int file, void *bytes, size_t len);
ssize_t __wrap_read(int file, void *bytes, size_t len);
ssize_t __real_write(int file, const void *bytes, size_t len);
ssize_t __wrap_write(int file, const void *bytes, size_t len);

int rattle_errno(void) {
    return errno;
}

void rattle_set_errno(int error) {
    errno = error;
}

static size_t argument_count;
static char **arguments;

/* The programs are linked with --wrap=main: this is called in the place of their main, and keeps what it is given. */
int __wrap_main(int count, char **words) {
    argument_count = count > 0 ? (size_t)count : 0;
    arguments = words;
#ifdef M_TRIM_THRESHOLD
    /* what a long line takes is kept for the next one, and not given back to the system */
    mallopt(M_TOP_PAD, 1 << 20);
    mallopt(M_MMAP_THRESHOLD, 1 << 20);
    mallopt(M_TRIM_THRESHOLD, 1 << 23);
#endif
    return __real_main(count, words);
}

size_t rattle_arg_count(void) {
    return argument_count;
}

/* Copies an argument to the front of a buffer, and returns its length: -1 where there is none, -2 where it is longer
 * than the buffer, which is full then. */
ptrdiff_t rattle_arg(size_t at, char *out, size_t out_len) {
    if (at >= argument_count || arguments[at] == NULL) {
        return -1;
    }
    size_t len = strlen(arguments[at]);
    memcpy(out, arguments[at], len < out_len ? len : out_len);
    return len <= out_len ? (ptrdiff_t)len : -2;
}

/* Whether a call failed because the file has nothing, or no room, at this moment; then waits until it has. */
static int has_waited(int file, short events) {
    struct pollfd it = {file, events, 0};
    if (errno != EAGAIN && errno != EWOULDBLOCK) {
        return 0;
    }
    while (poll(&it, 1, -1) < 0) {
        if (errno != EINTR && errno != EAGAIN) {
            return 0;
        }
    }
    return 1;
}

/* The programs are linked with --wrap=read and --wrap=write: theirs wait also where a file does not block. */
ssize_t __wrap_read(int file, void *bytes, size_t len) {
    ssize_t found;
    do {
        found = __real_read(file, bytes, len);
    } while (found < 0 && has_waited(file, POLLIN));
    return found;
}

ssize_t __wrap_write(int file, const void *bytes, size_t len) {
    ssize_t found;
    do {
        found = __real_write(file, bytes, len);
    } while (found < 0 && has_waited(file, POLLOUT));
    return found;
}

#ifndef __GLIBC__
/* glibc's name for signal as System V has it, with which a handler is gone once it was called. */
void (*__sysv_signal(int number, void (*handler)(int)))(int);

void (*__sysv_signal(int number, void (*handler)(int)))(int) {
    return signal(number, handler);
}
#endif
