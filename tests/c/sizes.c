/* Calls each function of linkwire.h on messages from 5 kB to 20 MB, beside what is known of how they were made. */
#include <stdio.h>
#include <stdlib.h>
#include <string.h>

#include "linkwire.h"

static const size_t sizes[] = {5000, 70000, 1200000, 20000000};
static const size_t lengths[] = {0, 1, 2, 3, 5, 8, 100, 1000, 4096, 65531};
enum { LENGTHS = sizeof lengths / sizeof *lengths, LONGEST = 65531, SLACK = 1 << 17 };
/* Numbers of linux/if_link.h, and the first of those that no kernel has. */
enum { IFNAME = 3, MTU = 4, CARRIER_CHANGES = 35, UNKNOWN = 300 };
enum { CHANGE_MASK = 12, FLAGS = 0xc000 };

static int failures;
static size_t size_at_work;

static void expect(int line, const char *what, long found, long want) {
    if (found != want) {
        fprintf(stderr, "sizes.c:%d: of %zu bytes %s is %ld and not %ld\n", line, size_at_work, what, found, want);
        failures++;
    }
}

#define EXPECT(call, want) expect(__LINE__, #call, (long)(call), (long)(want))

static uint8_t *room(size_t size) {
    uint8_t *bytes = malloc(size);
    if (bytes == NULL) {
        fprintf(stderr, "sizes: no memory\n");
        exit(1);
    }
    return bytes;
}

/* Bytes that are made one after another. */
struct made {
    uint8_t *bytes;
    size_t len;
};

static void add(struct made *to, unsigned kind, const uint8_t *payload, size_t len, uint8_t padding) {
    size_t length = len + 4;
    const uint8_t frame[] = {length & 0xff, length >> 8 & 0xff, kind & 0xff, kind >> 8 & 0xff};
    memcpy(to->bytes + to->len, frame, 4);
    memcpy(to->bytes + to->len + 4, payload, len);
    memset(to->bytes + to->len + length, padding, -length & 3);
    to->len += (length + 3) & ~(size_t)3;
}

/* A message whose padding, flags and reserved byte are not zero, its canonical encoding, and its state encoding. */
struct known {
    struct made message, canonical, state;
    size_t mtu, count;
};

static void add_both(struct known *it, unsigned kind, const uint8_t *payload, size_t len) {
    add(&it->message, kind, payload, len, 0xaa);
    add(&it->canonical, kind, payload, len, 0);
    it->count++;
}

static void make(struct known *it, size_t size) {
    static const uint8_t header[] = {0, 9, 1, 0, 7, 0, 0, 0, 0x43, 0, 0, 0, 0x55, 0, 0, 0};
    static const uint8_t mtu[] = {0xdc, 5, 0, 0}, changes[] = {5, 0, 0, 0};
    static uint8_t payload[LONGEST];
    it->message = (struct made){room(size + SLACK), sizeof header};
    it->canonical = (struct made){room(size + SLACK), sizeof header};
    memcpy(it->message.bytes, header, sizeof header);
    memcpy(it->canonical.bytes, header, sizeof header);
    it->canonical.bytes[1] = 0;
    add(&it->message, IFNAME, (const uint8_t *)"eth0", 4, 0xaa);
    add(&it->canonical, IFNAME, (const uint8_t *)"eth0", 5, 0);
    it->mtu = it->message.len + 4;
    add(&it->message, MTU | FLAGS, mtu, sizeof mtu, 0xaa);
    add(&it->canonical, MTU, mtu, sizeof mtu, 0);
    it->count = 2;
    for (size_t i = 0; it->message.len < size; i++) {
        for (size_t at = 0; at < lengths[i % LENGTHS]; at++) {
            payload[at] = (uint8_t)(i + at * 7 + (at >> 8));
        }
        add_both(it, UNKNOWN + i % 1000, payload, lengths[i % LENGTHS]);
    }
    add_both(it, CARRIER_CHANGES, changes, sizeof changes);
    it->state = (struct made){room(size + SLACK), it->canonical.len};
    memcpy(it->state.bytes, it->canonical.bytes, it->canonical.len);
    it->state.bytes[CHANGE_MASK] = 0;
    it->state.bytes[it->state.len - 4] = 0;
}

typedef ptrdiff_t writer(const uint8_t *message, size_t len, uint8_t *out, size_t cap);

/* In room for just the encoding, in more, and in less. */
static void writes(writer *write, const struct made *message, const struct made *want) {
    uint8_t *out = room(want->len + 1);
    out[want->len] = 0x55;
    EXPECT(write(message->bytes, message->len, out, want->len - 1), LINKWIRE_NO_ROOM);
    EXPECT(write(message->bytes, message->len, out, want->len), want->len);
    EXPECT(memcmp(out, want->bytes, want->len), 0);
    memset(out, 0, want->len);
    EXPECT(write(message->bytes, message->len, out, want->len + 1), want->len);
    EXPECT(memcmp(out, want->bytes, want->len), 0);
    EXPECT(out[want->len], 0x55);
    free(out);
}

static void compares(const struct known *it) {
    const struct made *one = &it->message, *other = &it->canonical;
    EXPECT(linkwire_same_message(one->bytes, one->len, other->bytes, other->len), 1);
    EXPECT(linkwire_same_message(one->bytes, one->len, it->state.bytes, it->state.len), 0);
    EXPECT(linkwire_same_state(one->bytes, one->len, it->state.bytes, it->state.len), 1);
    it->message.bytes[it->mtu] ^= 1;
    EXPECT(linkwire_same_message(one->bytes, one->len, other->bytes, other->len), 0);
    EXPECT(linkwire_same_state(one->bytes, one->len, other->bytes, other->len), 0);
    it->message.bytes[it->mtu] ^= 1;
}

/* Goes over the attributes of the canonical encoding, and puts each where it came from. */
static void goes_over(const struct known *it) {
    const uint8_t *list = it->canonical.bytes + LINKWIRE_HEADER_SIZE;
    size_t len = it->canonical.len - LINKWIRE_HEADER_SIZE, at = 0, put = 0, count = 0;
    uint8_t *out = room(len);
    struct linkwire_attribute attribute;
    while (linkwire_next(list, len, &at, &attribute) == 1) {
        int answer = linkwire_put(out, len, &put, attribute.kind, list + attribute.payload, attribute.payload_len);
        if (answer != 1 || put != at) {
            EXPECT(answer, 1);
            EXPECT(put, at);
            break;
        }
        count++;
    }
    EXPECT(count, it->count);
    EXPECT(at, len);
    EXPECT(memcmp(out, list, len), 0);
    EXPECT(linkwire_put(out, len, &put, MTU, list, 0), LINKWIRE_NO_ROOM);
    free(out);
}

/* An MTU of three bytes at the end. */
static void refuses(const struct known *it) {
    static const uint8_t cut[] = {7, 0, MTU, 0, 1, 2, 3};
    struct made faulty = {room(it->message.len + sizeof cut), it->message.len + sizeof cut};
    memcpy(faulty.bytes, it->message.bytes, it->message.len);
    memcpy(faulty.bytes + it->message.len, cut, sizeof cut);
    uint8_t out[1] = {0x55};
    size_t at = 0;
    struct linkwire_path path;
    EXPECT(linkwire_check(faulty.bytes, faulty.len), LINKWIRE_WRONG_LENGTH);
    EXPECT(linkwire_canonical_len(faulty.bytes, faulty.len), LINKWIRE_WRONG_LENGTH);
    EXPECT(linkwire_canonical(faulty.bytes, faulty.len, out, 1), LINKWIRE_WRONG_LENGTH);
    EXPECT(linkwire_state(faulty.bytes, faulty.len, out, 1), LINKWIRE_WRONG_LENGTH);
    EXPECT(out[0], 0x55);
    EXPECT(linkwire_same_message(it->message.bytes, it->message.len, faulty.bytes, faulty.len), LINKWIRE_WRONG_LENGTH);
    EXPECT(linkwire_same_state(it->message.bytes, it->message.len, faulty.bytes, faulty.len), LINKWIRE_WRONG_LENGTH);
    EXPECT(linkwire_fault_at(faulty.bytes, faulty.len, &at), LINKWIRE_WRONG_LENGTH);
    EXPECT(at, it->message.len);
    EXPECT(linkwire_fault_path(faulty.bytes, faulty.len, &path), LINKWIRE_WRONG_LENGTH);
    EXPECT(path.at, it->message.len);
    EXPECT(path.depth, 1);
    EXPECT(path.numbers[0], MTU);
    free(faulty.bytes);
}

int main(void) {
    for (size_t i = 0; i < sizeof sizes / sizeof *sizes; i++) {
        struct known it;
        size_at_work = sizes[i];
        make(&it, sizes[i]);
        EXPECT(linkwire_check(it.message.bytes, it.message.len), 0);
        EXPECT(linkwire_canonical_len(it.message.bytes, it.message.len), it.canonical.len);
        writes(linkwire_canonical, &it.message, &it.canonical);
        writes(linkwire_state, &it.message, &it.state);
        compares(&it);
        goes_over(&it);
        refuses(&it);
        free(it.message.bytes);
        free(it.canonical.bytes);
        free(it.state.bytes);
    }
    if (failures > 0) {
        fprintf(stderr, "%d failures\n", failures);
        return 1;
    }
    puts("sizes: each call on messages from 5 kB to 20 MB: ok");
    return 0;
}
