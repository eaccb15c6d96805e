/* Keeps the marks of mutants.py in the file that SEEN names. */
#include <fcntl.h>
#include <stdlib.h>
#include <sys/mman.h>
_Alignas(4096) __attribute__((visibility("hidden"))) char mutants_seen[1 << 20];
__attribute__((constructor)) static void keep(void) {
    int seen = open(getenv("SEEN"), O_RDWR);
    if (mmap(mutants_seen, sizeof mutants_seen, PROT_READ | PROT_WRITE, MAP_SHARED | MAP_FIXED, seen, 0) == MAP_FAILED)
        abort();
}
