/* Loaded before the C library: refuses one call for memory, the one whose number REFUSED_CALL has, and then makes the
 * file that REFUSED_MARK names. */
#define _GNU_SOURCE
#include <dlfcn.h>
#include <fcntl.h>
#include <stddef.h>
#include <stdlib.h>
#include <unistd.h>

static int is_refused(void) {
    static long calls;
    const char *refused = getenv("REFUSED_CALL");
    if (refused == NULL || ++calls != atol(refused)) {
        return 0;
    }
    close(open(getenv("REFUSED_MARK"), O_CREAT | O_WRONLY, 0600));
    return 1;
}

void *malloc(size_t size) {
    void *(*next)(size_t) = dlsym(RTLD_NEXT, "malloc");
    return is_refused() ? NULL : next(size);
}

void *realloc(void *block, size_t size) {
    void *(*next)(void *, size_t) = dlsym(RTLD_NEXT, "realloc");
    return is_refused() ? NULL : next(block, size);
}
