/* What the code calls for memory, over the C library's. The toolchain's own C says the same, and is for x86-64 alone.
 * It names no header, so that a compiler without a C library builds it too. */
typedef __SIZE_TYPE__ size;
void *malloc(size);
void *realloc(void *, size);
void free(void *);

/* Whether there was memory, and where it is. */
struct tried {
    _Bool ok;
    void *at;
};
struct tried rattle_alloc(size count, size align);
struct tried rattle_realloc(void *block, size kept, size count, size align);
void rattle_dealloc(void *block);

static char nothing;

static struct tried answer(void *at) {
    struct tried it = {at != 0, at != 0 ? at : &nothing};
    return it;
}

struct tried rattle_alloc(size count, size align) {
    return answer(malloc(count != 0 ? count : align));
}

struct tried rattle_realloc(void *block, size kept, size count, size align) {
    (void)kept;
    return answer(realloc(block, count != 0 ? count : align));
}

void rattle_dealloc(void *block) {
    free(block);
}
