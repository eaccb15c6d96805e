/* Prints the most memory that reading a message, and making its canonical text in memory, hold at once, for the longest
 * message of a file: peak FILE. Linked with --wrap for malloc, realloc and free. */
#include <malloc.h>

#include "compare.h"

void *__real_malloc(size_t size);
void *__real_realloc(void *old, size_t size);
void __real_free(void *old);

static size_t held, most, calls;

static void add(size_t size) {
    held += size;
    most = held > most ? held : most;
    calls++;
}

void *__wrap_malloc(size_t size) {
    void *block = __real_malloc(size);
    add(block == NULL ? 0 : malloc_usable_size(block));
    return block;
}

void *__wrap_realloc(void *old, size_t size) {
    size_t before = old == NULL ? 0 : malloc_usable_size(old);
    void *block = __real_realloc(old, size);
    if (block != NULL) {
        held -= before;
        add(malloc_usable_size(block));
    }
    return block;
}

void __wrap_free(void *old) {
    held -= old == NULL ? 0 : malloc_usable_size(old);
    __real_free(old);
}

static void print(const char *name, ptrdiff_t result, size_t before, size_t len) {
    if (result < 0) {
        stop(name, "refuses the message");
    }
    printf("%-46s %9.2f at once, %zu calls for memory\n", name, (double)(most - before) / len, calls);
}

static size_t fresh(void) {
    most = held;
    calls = 0;
    return held;
}

int main(int argc, char **argv) {
    if (argc != 2) {
        stop("peak", "wants a file of messages");
    }
    struct messages messages = read_messages(argv[1]);
    struct message last = messages.all[messages.count - 1];
    size_t cap = 2 * last.len + 1024;
    uint8_t *out = malloc(cap);
    printf("bytes of memory for each byte of a message of %zu\n", last.len);
    size_t before = fresh();
    print("LinkMessage::parse", bench_parse(last.bytes, last.len), before, last.len);
    before = fresh();
    print("canonical, into memory taken", bench_canonical(last.bytes, last.len, out, cap), before, last.len);
#ifdef WITH_CRATE
    before = fresh();
    print(CRATE_VERSION ": parse", debian_parse(last.bytes, last.len), before, last.len);
#endif
    return 0;
}
