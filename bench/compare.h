/* The messages of a file, and the functions of crates/link_speed, bench/rust_crate.rs and bench/debian_crate.rs. */
#ifndef COMPARE_H
#define COMPARE_H

#include <stddef.h>
#include <stdint.h>
#include <stdio.h>
#include <stdlib.h>
#include <string.h>

/* Of crates/link_speed. */
ptrdiff_t bench_parse(const uint8_t *bytes, size_t len);
ptrdiff_t bench_emits(const uint8_t *bytes, size_t len, uint8_t *out, size_t cap, size_t times);
ptrdiff_t bench_canonical(const uint8_t *bytes, size_t len, uint8_t *out, size_t cap);

/* The same of the crate in rust/. */
int32_t cargo_check(const uint8_t *bytes, size_t len);
ptrdiff_t cargo_canonical(const uint8_t *bytes, size_t len, uint8_t *out, size_t cap);
ptrdiff_t cargo_canonical_vec(const uint8_t *bytes, size_t len, uint8_t *out, size_t cap);
ptrdiff_t cargo_parse(const uint8_t *bytes, size_t len);
ptrdiff_t cargo_emits(const uint8_t *bytes, size_t len, uint8_t *out, size_t cap, size_t times);

/* The same of the Debian crate. */
ptrdiff_t debian_parse(const uint8_t *bytes, size_t len);
ptrdiff_t debian_emits(const uint8_t *bytes, size_t len, uint8_t *out, size_t cap, size_t times);

struct message {
    const uint8_t *bytes;
    size_t len;
    size_t place; /* among the messages of its file */
};

struct messages {
    struct message *all;
    size_t count, bytes, longest;
};

static inline void stop(const char *what, const char *why) {
    fprintf(stderr, "%s: %s\n", what, why);
    exit(1);
}

static inline uint8_t *read_file(const char *path, size_t *len) {
    FILE *file = fopen(path, "rb");
    if (file == NULL || fseek(file, 0, SEEK_END) != 0) {
        stop(path, "cannot be read");
    }
    *len = (size_t)ftell(file);
    uint8_t *bytes = malloc(*len + 1);
    rewind(file);
    if (bytes == NULL || fread(bytes, 1, *len, file) != *len) {
        stop(path, "cannot be read");
    }
    fclose(file);
    return bytes;
}

/* The messages of a file, in which each stands after its length, a little-endian number of four bytes. */
static inline struct messages read_messages(const char *path) {
    size_t len;
    uint8_t *bytes = read_file(path, &len);
    struct messages read = {calloc(len / 20 + 1, sizeof *read.all), 0, 0, 0};
    for (size_t at = 0; at + 4 <= len;) {
        uint32_t own;
        memcpy(&own, bytes + at, 4);
        if (read.all == NULL || own < 16 || own > len - at - 4) {
            stop(path, "is no file of messages");
        }
        read.all[read.count] = (struct message){bytes + at + 4, own, read.count};
        read.count++;
        read.bytes += own;
        read.longest = own > read.longest ? own : read.longest;
        at += 4 + own;
    }
    return read;
}

#endif
