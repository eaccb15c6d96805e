/* tests/second/watched.sh loads this before the C library, so that it watches a program.
 *
 * Fresh memory has bytes that are not zero, and memory that was given back has others. The bytes in front of a block
 * and behind it have to stay as they are: if one changed, the program ends with status 97. Requests for memory, reads
 * and writes of the program itself are counted, with a sum of their sizes; those of the C library are not. At the end a
 * line with the counts is added to the file that WATCH_TOLD names.
 *
 * WATCH_REFUSES is the number of a request for memory that is refused. WATCH_FAILS is `read` or `write`, the number of
 * the call that fails, and the error. WATCH_PIECES is how many bytes a read or write takes at most, in turn fewer. */
#define _GNU_SOURCE
#include <dlfcn.h>
#include <errno.h>
#include <fcntl.h>
#include <link.h>
#include <stdint.h>
#include <stdio.h>
#include <stdlib.h>
#include <string.h>
#include <sys/syscall.h>
#include <unistd.h>

enum { FRONT = 64, BEHIND = 64, FILLED = 1024, GUARD = 0x5c, FRESH = 0xa5, GONE = 0x6b, BROKEN = 97 };
static const uint64_t OURS = 0x6c696e6b77617463;

struct block {
    uint64_t ours, size;
};

static struct counts {
    unsigned long count, bytes;
    uint64_t sum;
} asked, reads, writes;
static long left;
static uintptr_t first, last;
static void *(*next_malloc)(size_t);
static void *(*next_realloc)(void *, size_t);
static void (*next_free)(void *);

static void breaks(const char *what) {
    static const char said[] = "watch: bytes beside memory are written: ";
    syscall(SYS_write, 2, said, sizeof said - 1);
    syscall(SYS_write, 2, what, strlen(what));
    syscall(SYS_write, 2, "\n", 1);
    _exit(BROKEN);
}

static void count(struct counts *to, size_t size) {
    to->count++, to->bytes += size;
    to->sum = (to->sum ^ size) * 0x100000001b3;
    to->sum ^= to->sum >> 29;
}

/* Where the program itself lies. */
static int find(struct dl_phdr_info *of, size_t size, void *data) {
    (void)size, (void)data;
    first = UINTPTR_MAX;
    for (unsigned i = 0; i < of->dlpi_phnum; i++) {
        uintptr_t from = of->dlpi_addr + of->dlpi_phdr[i].p_vaddr, to = from + of->dlpi_phdr[i].p_memsz;
        if (of->dlpi_phdr[i].p_type != PT_LOAD)
            continue;
        first = from < first ? from : first;
        last = to > last ? to : last;
    }
    return 1;
}

static void begin(void) {
    if (next_free)
        return;
    next_malloc = (void *(*)(size_t))dlsym(RTLD_NEXT, "malloc");
    next_realloc = (void *(*)(void *, size_t))dlsym(RTLD_NEXT, "realloc");
    next_free = (void (*)(void *))dlsym(RTLD_NEXT, "free");
    dl_iterate_phdr(find, NULL);
}

/* Whether a call comes from the program itself. */
static int is_own(const void *from) {
    begin();
    return (uintptr_t)from >= first && (uintptr_t)from < last;
}

/* ** memory */

static int is_refused(size_t size) {
    const char *which = getenv("WATCH_REFUSES");
    count(&asked, size);
    return which && asked.count == strtoul(which, NULL, 10);
}

/* Puts bytes where memory begins and ends. */
static void fill(uint8_t *at, size_t len, int with) {
    memset(at, with, len < FILLED ? len : FILLED);
    if (len > FILLED)
        memset(at + len - FILLED, with, FILLED);
}

static void *guarded(size_t size) {
    if (size > SIZE_MAX - FRONT - BEHIND)
        return NULL;
    uint8_t *made = next_malloc(FRONT + size + BEHIND);
    if (!made)
        return NULL;
    struct block it = {OURS, size};
    memset(made, GUARD, FRONT);
    memcpy(made, &it, sizeof it);
    fill(made + FRONT, size, FRESH);
    memset(made + FRONT + size, GUARD, BEHIND);
    left++;
    return made + FRONT;
}

/* The block that memory is of, with the bytes around it as they were; none where it is another's. */
static struct block *block_of(uint8_t *memory) {
    struct block *it = (struct block *)(memory - FRONT);
    if (!memory || it->ours != OURS)
        return NULL;
    for (uint8_t *at = memory - FRONT + sizeof *it; at < memory; at++)
        if (*at != GUARD)
            breaks("in front of a block");
    for (size_t i = 0; i < BEHIND; i++)
        if (memory[it->size + i] != GUARD)
            breaks("behind a block");
    return it;
}

static void drop(struct block *it) {
    fill((uint8_t *)it + FRONT, it->size, GONE);
    it->ours = 0;
    left--;
    next_free(it);
}

void *malloc(size_t size) {
    if (is_own(__builtin_return_address(0)) && is_refused(size)) {
        errno = ENOMEM;
        return NULL;
    }
    return guarded(size);
}

void *realloc(void *memory, size_t size) {
    if (is_own(__builtin_return_address(0)) && is_refused(size)) {
        errno = ENOMEM;
        return NULL;
    }
    struct block *it = block_of(memory);
    if (memory && !it)
        return next_realloc(memory, size);
    void *made = guarded(size);
    if (made && it) {
        memcpy(made, memory, it->size < size ? it->size : size);
        drop(it);
    }
    return made;
}

void free(void *memory) {
    begin();
    struct block *it = block_of(memory);
    if (it)
        drop(it);
    else
        next_free(memory);
}

/* ** reads and writes */

/* The error by which this call fails, or none. */
static int error_of(const char *what, unsigned long number) {
    const char *fails = getenv("WATCH_FAILS");
    size_t len = strlen(what);
    char *end;
    return fails && strncmp(fails, what, len) == 0 && strtoul(fails + len, &end, 10) == number ? atoi(end) : 0;
}

static size_t piece_of(size_t len, unsigned long number) {
    const char *pieces = getenv("WATCH_PIECES");
    size_t most = pieces ? 1 + (strtoul(pieces, NULL, 10) + 7919 * number) % strtoul(pieces, NULL, 10) : len;
    return len < most ? len : most;
}

ssize_t read(int file, void *bytes, size_t len) {
    if (!is_own(__builtin_return_address(0)))
        return syscall(SYS_read, file, bytes, len);
    count(&reads, len);
    if ((errno = error_of("read", reads.count)) != 0)
        return -1;
    return syscall(SYS_read, file, bytes, piece_of(len, reads.count));
}

ssize_t write(int file, const void *bytes, size_t len) {
    if (!is_own(__builtin_return_address(0)))
        return syscall(SYS_write, file, bytes, len);
    count(&writes, len);
    if ((errno = error_of("write", writes.count)) != 0)
        return -1;
    return syscall(SYS_write, file, bytes, piece_of(len, writes.count));
}

__attribute__((destructor)) static void tell(void) {
    const char *name = getenv("WATCH_TOLD");
    char said[256];
    int file = name ? open(name, O_WRONLY | O_CREAT | O_APPEND, 0600) : -1;
    if (file < 0)
        return;
    int len = snprintf(said, sizeof said, "asked %lu %lu %016llx left %ld read %lu %016llx wrote %lu %016llx\n",
                       asked.count, asked.bytes, (unsigned long long)asked.sum, left, reads.count,
                       (unsigned long long)reads.sum, writes.count, (unsigned long long)writes.sum);
    syscall(SYS_write, file, said, (size_t)len);
    close(file);
}
