/* Reads and writes lists of attributes, nested ones too, and calls the static functions of linkwire.h. */
#include <linux/if_link.h>
#include <stdio.h>
#include <string.h>

#include "linkwire.h"

static int failures;

static void expect(int line, const char *what, long found, long want) {
    if (found != want) {
        fprintf(stderr, "lists.c:%d: %s is %ld and not %ld\n", line, what, found, want);
        failures++;
    }
}

#define EXPECT(call, want) expect(__LINE__, #call, (long)(call), (long)(want))

/* What stands in memory that nobody wrote. */
static const struct linkwire_attribute dirty = {0x5555, 0x5555, 0x5555};

static int is(struct linkwire_attribute found, unsigned kind, size_t payload, size_t payload_len) {
    return found.kind == kind && found.payload == payload && found.payload_len == payload_len;
}

static int is_dirty(struct linkwire_attribute found) {
    return is(found, dirty.kind, dirty.payload, dirty.payload_len);
}

/* A name of three bytes, no bytes, and a number with both flag bits; the last lacks its padding. */
static const uint8_t list[] = {7, 0, 3, 0, 'l', 'o', 0, 0xaa, 4, 0, 0x99, 0x3f, 6, 0, 4, 0xc0, 1, 2};

static void goes_over_a_list(void) {
    size_t at = 0;
    struct linkwire_attribute found = dirty;
    EXPECT(linkwire_next(list, sizeof list, &at, &found), 1);
    EXPECT(is(found, 3, 4, 3), 1);
    EXPECT(at, 8);
    EXPECT(linkwire_next(list, sizeof list, &at, &found), 1);
    EXPECT(is(found, 0x3f99, 12, 0), 1);
    EXPECT(at, 12);
    EXPECT(linkwire_next(list, sizeof list, &at, &found), 1);
    EXPECT(is(found, 0xc004, 16, 2), 1);
    EXPECT(linkwire_number(found.kind), 4);
    EXPECT(at, sizeof list);
    found = dirty;
    EXPECT(linkwire_next(list, sizeof list, &at, &found), 0);
    EXPECT(at, sizeof list);
    EXPECT(is_dirty(found), 1);
}

static void ends(void) {
    struct linkwire_attribute found = dirty;
    size_t at = 0;
    EXPECT(linkwire_next(list, 0, &at, &found), 0);
    EXPECT(at, 0);
    at = sizeof list + 1;
    EXPECT(linkwire_next(list, sizeof list, &at, &found), 0);
    EXPECT(at, sizeof list + 1);
    at = (size_t)-1;
    EXPECT(linkwire_next(list, sizeof list, &at, &found), 0);
    EXPECT(at, -1);
    EXPECT(is_dirty(found), 1);
}

/* Two of one number, one with a flag, and numbers that the list has not. */
static void picks(void) {
    static const uint8_t twice[] = {5, 0, 3, 0, 1, 0, 0, 0, 6, 0, 4, 0, 1, 2, 0, 0, 4, 0, 3, 0x80};
    struct linkwire_attribute found[] = {dirty, dirty, dirty, dirty};
    for (uint16_t i = 0; i < 3; i++) {
        found[i].kind = (uint16_t)(i + 3);
    }
    found[3].kind = 0xc004;
    for (int turn = 0; turn < 2; turn++) {
        EXPECT(linkwire_pick(twice, sizeof twice, found, 4), 0);
        EXPECT(is(found[0], 0x8003, 20, 0), 1);
        EXPECT(is(found[1], 4, 12, 2), 1);
        EXPECT(is(found[2], 5, 0, 0), 1);
        EXPECT(is(found[3], 4, 12, 2), 1);
    }
    EXPECT(linkwire_pick(twice, 0, found, 4), 0);
    EXPECT(is(found[0], 0x8003, 0, 0) && is(found[1], 4, 0, 0), 1);
    EXPECT(linkwire_pick(twice, sizeof twice, found, 0), 0);
    EXPECT(is(found[0], 0x8003, 0, 0), 1);
}

/* Three attributes of a message, as docs/C.md has it. */
static void picks_three(void) {
    static const uint8_t message[] = {0, 0, 1, 0, 1, 0, 0, 0, 0, 0, 0, 0, 0, 0, 0, 0,
                                      7, 0, 3, 0, 'l', 'o', 0, 0, 8, 0, 4, 0, 0xdc, 5, 0, 0};
    size_t len = sizeof message;
    struct linkwire_attribute found[3] = {{.kind = IFLA_IFNAME}, {.kind = IFLA_MTU}, {.kind = IFLA_OPERSTATE}};
    const uint8_t *attributes = message + LINKWIRE_HEADER_SIZE;
    int32_t fault = linkwire_pick(attributes, len - LINKWIRE_HEADER_SIZE, found, 3);
    uint32_t mtu = 0;
    EXPECT(fault, 0);
    EXPECT(found[0].payload_len == 3 && memcmp(attributes + found[0].payload, "lo", 3) == 0, 1);
    EXPECT(linkwire_u32(attributes, &found[1], &mtu) && mtu == 1500, 1);
    EXPECT(found[2].payload, 0);
}

/* What stands in front of a fault is found, and the fault is told though nothing is looked for behind it. */
static void picks_in_front_of_a_fault(void) {
    static const uint8_t bytes[] = {7, 0, 3, 0, 'l', 'o', 0, 0, 9, 0, 3, 0, 1, 2, 3, 4};
    struct linkwire_attribute found = dirty;
    found.kind = 3;
    EXPECT(linkwire_pick(bytes, sizeof bytes, &found, 1), LINKWIRE_FRAME_OVER);
    EXPECT(is(found, 3, 4, 3), 1);
    EXPECT(linkwire_pick(bytes, 10, &found, 1), LINKWIRE_FRAME_SHORT);
    EXPECT(is(found, 3, 4, 3), 1);
    EXPECT(linkwire_pick(bytes, sizeof bytes, &found, 0), LINKWIRE_FRAME_OVER);
}

/* A whole attribute and then one at fault, cut after so many bytes. */
static void refuses(size_t len, uint8_t low, int32_t answer) {
    uint8_t bytes[] = {7, 0, 3, 0, 'l', 'o', 0, 0, 0, 0, 4, 0, 1, 2, 3, 4};
    bytes[8] = low;
    size_t at = 0;
    struct linkwire_attribute found = dirty;
    EXPECT(linkwire_next(bytes, len, &at, &found), 1);
    found = dirty;
    EXPECT(linkwire_next(bytes, len, &at, &found), answer);
    EXPECT(linkwire_next(bytes, len, &at, &found), answer);
    EXPECT(at, 8);
    EXPECT(is_dirty(found), 1);
}

static void refuses_each(void) {
    for (size_t len = 9; len < 12; len++) {
        refuses(len, 8, LINKWIRE_FRAME_SHORT);
    }
    for (size_t len = 12; len < 16; len++) {
        refuses(len, 8, LINKWIRE_FRAME_OVER);
    }
    refuses(16, 9, LINKWIRE_FRAME_OVER);
    for (uint8_t low = 0; low < 4; low++) {
        refuses(16, low, LINKWIRE_FRAME_UNDER);
    }
}

/* A list of functions, of which one has a list of vlans with one vlan, four levels deep, and then a number. */
static const uint8_t message[] = {
    0x00, 0x00, 0x01, 0x00, 0x07, 0x00, 0x00, 0x00, 0x43, 0x00, 0x01, 0x00, 0x00, 0x00, 0x00, 0x00, /* the header */
    0x20, 0x00, 0x16, 0x80, 0x1c, 0x00, 0x01, 0x80, 0x18, 0x00, 0x0c, 0x80, 0x14, 0x00, 0x01, 0x00, /* the functions */
    0x01, 0x00, 0x00, 0x00, 0x64, 0x00, 0x00, 0x00, 0x00, 0x00, 0x00, 0x00, 0x88, 0xa8, 0x12, 0x34, /* the vlan */
    0x08, 0x00, 0x04, 0x00, 0xdc, 0x05, 0x00, 0x00,                                                 /* the MTU */
};

static void goes_into_nests(void) {
    static const unsigned kinds[] = {0x8016, 0x8001, 0x800c, 0x0001};
    EXPECT(linkwire_check(message, sizeof message), 0);
    const uint8_t *nest = message;
    size_t len = sizeof message, at = LINKWIRE_HEADER_SIZE;
    struct linkwire_attribute found = dirty;
    for (size_t level = 0; level < 4; level++) {
        EXPECT(linkwire_next(nest, len, &at, &found), 1);
        EXPECT(found.kind, kinds[level]);
        EXPECT(found.payload_len, 28 - 4 * level);
        if (level == 0) {
            EXPECT(at, 48);
            EXPECT(linkwire_next(nest, len, &at, &found), 1);
            EXPECT(is(found, 4, 52, 4), 1);
            at = LINKWIRE_HEADER_SIZE;
            EXPECT(linkwire_next(nest, len, &at, &found), 1);
        }
        nest += found.payload;
        len = found.payload_len;
        at = 0;
    }
    EXPECT(nest - message, 32);
    EXPECT(len, 16);
}

static int all_bytes_are(const uint8_t *bytes, size_t len, uint8_t want) {
    for (size_t i = 0; i < len; i++) {
        if (bytes[i] != want) {
            return 0;
        }
    }
    return 1;
}

/* Each length of payload, at two places, into each room from none to more than enough. */
static void puts_each(void) {
    static const uint8_t payload[] = {1, 2, 3, 4, 5, 6, 7};
    for (size_t len = 0; len <= sizeof payload; len++) {
        size_t need = 4 + (len + 3) / 4 * 4;
        for (size_t start = 0; start <= 8; start += 8) {
            for (size_t cap = 0; cap <= start + need + 1; cap++) {
                uint8_t out[32];
                size_t at = start;
                memset(out, 0x55, sizeof out);
                int32_t done = linkwire_put(out, cap, &at, 0xc123, payload, len);
                if (cap < start + need) {
                    EXPECT(done, LINKWIRE_NO_ROOM);
                    EXPECT(at, start);
                    EXPECT(all_bytes_are(out, sizeof out, 0x55), 1);
                    continue;
                }
                EXPECT(done, 1);
                EXPECT(at, start + need);
                EXPECT(all_bytes_are(out, start, 0x55), 1);
                EXPECT(out[start], 4 + len);
                EXPECT(out[start + 1], 0);
                EXPECT(out[start + 2] | out[start + 3] << 8, 0xc123);
                EXPECT(memcmp(out + start + 4, payload, len), 0);
                EXPECT(all_bytes_are(out + start + 4 + len, need - 4 - len, 0), 1);
                EXPECT(all_bytes_are(out + start + need, sizeof out - start - need, 0x55), 1);
            }
        }
    }
    uint8_t out[8];
    size_t at = (size_t)-1;
    EXPECT(linkwire_put(out, sizeof out, &at, 1, payload, 0), LINKWIRE_NO_ROOM);
    EXPECT(at, -1);
}

static void puts_the_longest(void) {
    static uint8_t payload[65532], out[65536];
    size_t at = 0;
    memset(out, 0x55, sizeof out);
    EXPECT(linkwire_put(out, sizeof out, &at, 1, payload, 65532), LINKWIRE_UNFIT);
    EXPECT(linkwire_put(out, 0, &at, 1, payload, 65532), LINKWIRE_UNFIT);
    EXPECT(at, 0);
    EXPECT(all_bytes_are(out, sizeof out, 0x55), 1);
    EXPECT(linkwire_put(out, sizeof out - 1, &at, 1, payload, 65531), LINKWIRE_NO_ROOM);
    EXPECT(linkwire_put(out, sizeof out, &at, 1, payload, 65531), 1);
    EXPECT(at, 65536);
    EXPECT(out[0] | out[1] << 8, 65535);
}

/* The message above, put together from the inside to the outside. */
static void puts_nests(void) {
    uint8_t nests[2][64];
    size_t len = 16;
    memcpy(nests[0], message + 32, len);
    static const uint16_t kinds[] = {0x0001, 0x800c, 0x8001, 0x8016};
    for (size_t level = 0; level < 4; level++) {
        size_t at = 0;
        EXPECT(linkwire_put(nests[(level + 1) % 2], 64, &at, kinds[level], nests[level % 2], len), 1);
        len = at;
    }
    size_t at = len;
    EXPECT(linkwire_put(nests[0], 64, &at, 4, message + 52, 4), 1);
    EXPECT(at, sizeof message - 16);
    EXPECT(memcmp(nests[0], message + 16, at), 0);
}

static void reads_values(void) {
    static const uint8_t bytes[] = {0x11, 0x22, 0x33, 0x44, 0x55, 0x66, 0x77, 0x88, 0x99};
    uint8_t u8 = 0;
    uint16_t u16 = 0;
    uint32_t u32 = 0;
    uint64_t u64 = 0;
    for (size_t len = 0; len <= 8; len++) {
        struct linkwire_attribute found = {1, 1, len};
        EXPECT(linkwire_u8(bytes, &found, &u8), len == 1);
        EXPECT(linkwire_u16(bytes, &found, &u16), len == 2);
        EXPECT(linkwire_u32(bytes, &found, &u32), len == 4);
        EXPECT(linkwire_u64(bytes, &found, &u64), len == 8);
        EXPECT(u8, len < 1 ? 0 : 0x22);
        EXPECT(u16, len < 2 ? 0 : 0x3322);
        EXPECT(u32, len < 4 ? 0 : 0x55443322);
        EXPECT(u64 == (len < 8 ? 0 : 0x9988776655443322), 1);
    }
}

static void measures_texts(void) {
    static const uint8_t bytes[] = {'l', 'o', 0, 0};
    static const size_t lens[] = {0, 1, 2, 2, 3};
    for (size_t len = 0; len <= 4; len++) {
        struct linkwire_attribute found = {3, 0, len};
        EXPECT(linkwire_text_len(bytes, &found), lens[len]);
    }
}

static void tells_answers_apart(void) {
    static const int answers[] = {0, -1, -2, -3, -4, -5, -6, -7, -16, -17, -18, -19, -20, -21, -22};
    enum { COUNT = sizeof answers / sizeof *answers };
    for (size_t i = 0; i < COUNT; i++) {
        for (size_t k = 0; k < i; k++) {
            EXPECT(strcmp(linkwire_answer_text(answers[i]), linkwire_answer_text(answers[k])) != 0, 1);
        }
    }
    EXPECT(strcmp(linkwire_answer_text(LINKWIRE_OUT_OF_MEMORY), "out of memory"), 0);
    EXPECT(strcmp(linkwire_answer_text(-8), linkwire_answer_text(-22)), 0);
    EXPECT(strcmp(linkwire_answer_text(1), linkwire_answer_text(1000000)), 0);
}

int main(void) {
    goes_over_a_list();
    ends();
    picks();
    picks_three();
    picks_in_front_of_a_fault();
    refuses_each();
    goes_into_nests();
    puts_each();
    puts_the_longest();
    puts_nests();
    reads_values();
    measures_texts();
    tells_answers_apart();
    return failures != 0;
}
