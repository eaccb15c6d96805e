/* Calls the functions of linkwire.h that read leniently: what is kept whole, each refusal, buffers that are too short,
 * and what `linkwire_refusal_next` tells. */
#include <stdio.h>
#include <stdlib.h>
#include <string.h>

#include "linkwire.h"

static int failures;

static void expect(int line, const char *what, long found, long want) {
    if (found != want) {
        fprintf(stderr, "lenient.c:%d: %s is %ld and not %ld\n", line, what, found, want);
        failures++;
    }
}

#define EXPECT(call, want) expect(__LINE__, #call, (long)(call), (long)(want))

#define HEADER 0, 0, 1, 0, 7, 0, 0, 0, 0x43, 0, 1, 0, 9, 0, 0, 0
/* The header of the state encoding, whose change mask is zero. */
#define STATE_HEADER 0, 0, 1, 0, 7, 0, 0, 0, 0x43, 0, 1, 0, 0, 0, 0, 0

/* A name without its NUL; an MTU of three bytes with both flags; an alias that is not UTF-8; a counter of one byte; a
 * list of names of which the second is not UTF-8; and an MTU. */
static const uint8_t message[] = {
    HEADER,
    6, 0, 3, 0, 'l', 'o', 0xaa, 0xbb,
    7, 0, 4, 0xc0, 1, 2, 3, 0xcc,
    6, 0, 20, 0, 'a', 0xe9, 0xdd, 0xee,
    5, 0, 35, 0, 0xa5, 1, 2, 3,
    18, 0, 52, 0, 6, 0, 53, 0, 'a', 0, 0, 0, 6, 0, 53, 0, 0xff, 0, 0, 0,
    8, 0, 4, 0, 0xdc, 5, 0, 0,
};

/* The name has its NUL and the padding is zeros; else each that is refused is as it was. */
#define TEXT                                                                                                           \
    7, 0, 3, 0, 'l', 'o', 0, 0, 7, 0, 4, 0xc0, 1, 2, 3, 0, 6, 0, 20, 0, 'a', 0xe9, 0, 0
#define MORE_TEXT                                                                                                      \
    18, 0, 52, 0, 6, 0, 53, 0, 'a', 0, 0, 0, 6, 0, 53, 0, 0xff, 0, 0, 0, 8, 0, 4, 0, 0xdc, 5, 0, 0

static const uint8_t text[] = {HEADER, TEXT, 5, 0, 35, 0, 0xa5, 0, 0, 0, MORE_TEXT};
/* The counter is zero, though it is refused. */
static const uint8_t state[] = {STATE_HEADER, TEXT, 5, 0, 35, 0, 0, 0, 0, 0, MORE_TEXT};

typedef ptrdiff_t writer(const uint8_t *bytes, size_t len, uint8_t *out, size_t cap);

static int all_bytes_are(const uint8_t *bytes, size_t len, uint8_t want) {
    for (size_t i = 0; i < len; i++) {
        if (bytes[i] != want) {
            return 0;
        }
    }
    return 1;
}

/* In each buffer up to some bytes more than the text has. */
static void writes(writer *write, const uint8_t *bytes, size_t len, const uint8_t *want, size_t size) {
    uint8_t out[sizeof message + 9];
    for (size_t cap = 0; cap <= size + 8; cap++) {
        memset(out, 0x55, sizeof out);
        if (cap < size) {
            EXPECT(write(bytes, len, out, cap), LINKWIRE_NO_ROOM);
            EXPECT(all_bytes_are(out, sizeof out, 0x55), 1);
        } else {
            EXPECT(write(bytes, len, out, cap), size);
            EXPECT(memcmp(out, want, size), 0);
            EXPECT(all_bytes_are(out + size, sizeof out - size, 0x55), 1);
        }
    }
}

static void keeps(void) {
    EXPECT(linkwire_check(message, sizeof message), LINKWIRE_WRONG_LENGTH);
    EXPECT(linkwire_canonical_lenient_len(message, sizeof message), sizeof text);
    writes(linkwire_canonical_lenient, message, sizeof message, text, sizeof text);
    writes(linkwire_canonical_lenient, text, sizeof text, text, sizeof text);
    writes(linkwire_state_lenient, message, sizeof message, state, sizeof state);
    writes(linkwire_state_lenient, state, sizeof state, state, sizeof state);
}

/* The refusals that are left: a header and a frame that do not fit, what grows too much, and an empty list of ports. */
static void refuses(const uint8_t *bytes, size_t len, ptrdiff_t answer) {
    uint8_t *out = malloc((size_t)LINKWIRE_GROWTH * len + 1);
    if (out == NULL) {
        fprintf(stderr, "no memory\n");
        exit(1);
    }
    memset(out, 0x55, (size_t)LINKWIRE_GROWTH * len + 1);
    EXPECT(linkwire_canonical_lenient_len(bytes, len), answer);
    EXPECT(linkwire_canonical_lenient(bytes, len, out, (size_t)LINKWIRE_GROWTH * len + 1), answer);
    EXPECT(linkwire_state_lenient(bytes, len, out, (size_t)LINKWIRE_GROWTH * len + 1), answer);
    EXPECT(linkwire_canonical_lenient(bytes, len, out, 0), answer);
    EXPECT(linkwire_state_lenient(bytes, len, out, 0), answer);
    EXPECT(all_bytes_are(out, (size_t)LINKWIRE_GROWTH * len + 1, 0x55), 1);
    free(out);
}

static void refuses_each(void) {
    static const uint8_t cut[] = {HEADER, 7, 0, 4, 0, 1, 2, 3, 0, 8, 0, 4};
    static const uint8_t over[] = {HEADER, 7, 0, 4, 0, 1, 2, 3, 0, 9, 0, 4, 0, 1, 2, 3, 4};
    static const uint8_t under[] = {HEADER, 7, 0, 4, 0, 1, 2, 3, 0, 3, 0, 4, 0, 1, 2, 3, 4};
    static const uint8_t ports[] = {HEADER, 7, 0, 4, 0, 1, 2, 3, 0, 8, 0, 24, 0, 4, 0, 2, 0};
    static uint8_t many[16 + 8 + 4 + 4 * 16382] = {HEADER, 7, 0, 4, 0, 1, 2, 3, 0};
    refuses(message, 0, LINKWIRE_TOO_SHORT);
    refuses(message, 15, LINKWIRE_TOO_SHORT);
    refuses(cut, sizeof cut, LINKWIRE_FRAME_SHORT);
    refuses(over, sizeof over, LINKWIRE_FRAME_OVER);
    refuses(under, sizeof under, LINKWIRE_FRAME_UNDER);
    refuses(ports, sizeof ports, LINKWIRE_EMPTY_PORTS);
    /* a list of names of no bytes, each of which grows from four bytes to eight */
    many[24] = (4 + 4 * 16382) & 0xff;
    many[25] = (4 + 4 * 16382) >> 8;
    many[26] = 52;
    for (size_t at = 28; at < sizeof many; at += 4) {
        many[at] = 4;
        many[at + 2] = 53;
    }
    refuses(many, sizeof many, LINKWIRE_UNFIT);
}

/* What `linkwire_refusal_next` is to tell: why, of which attribute, where its fault is, and what leads there. */
struct told {
    size_t offset;
    int32_t fault;
    uint16_t kind;
    size_t payload_len, next, at, depth;
    uint16_t numbers[LINKWIRE_DEPTH];
};

static void tells(const uint8_t *bytes, size_t len, size_t from, const struct told *told, size_t count) {
    struct linkwire_refusal found, kept;
    size_t at = from, end;
    for (size_t i = 0; i < count; i++, told++) {
        memset(&found, 0x55, sizeof found);
        EXPECT(linkwire_refusal_next(bytes, len, &at, &found), 1);
        EXPECT(at, told->next);
        EXPECT(found.offset, told->offset);
        EXPECT(found.fault, told->fault);
        EXPECT(found.is_attribute, told->depth > 0);
        EXPECT(found.attribute.kind, told->kind);
        EXPECT(found.attribute.payload, told->depth > 0 ? told->offset + 4 : 0);
        EXPECT(found.attribute.payload_len, told->payload_len);
        EXPECT(found.path.at, told->at);
        EXPECT(found.path.depth, told->depth);
        EXPECT(memcmp(found.path.numbers, told->numbers, sizeof told->numbers), 0);
    }
    memset(&found, 0x55, sizeof found);
    kept = found;
    end = at;
    EXPECT(linkwire_refusal_next(bytes, len, &at, &found), 0);
    EXPECT(at, end);
    EXPECT(memcmp(&found, &kept, sizeof kept), 0);
}

static void tells_refusals(void) {
    static const struct told told[] = {
        {24, LINKWIRE_WRONG_LENGTH, 0xc004, 3, 32, 24, 1, {4}},
        {32, LINKWIRE_NOT_UTF8, 20, 2, 40, 32, 1, {20}},
        {40, LINKWIRE_WRONG_LENGTH, 35, 1, 48, 40, 1, {35}},
        {48, LINKWIRE_NOT_UTF8, 52, 14, 68, 60, 2, {52, 53}},
    };
    static const uint8_t header[] = {HEADER};
    tells(message, sizeof message, 0, told, 4);
    tells(message, sizeof message, 1, told, 4);
    tells(message, sizeof message, LINKWIRE_HEADER_SIZE, told, 4);
    tells(message, sizeof message, 24, told, 4);
    tells(message, sizeof message, 32, told + 1, 3);
    tells(message, sizeof message, sizeof message, NULL, 0);
    tells(message, sizeof message, (size_t)-1, NULL, 0);
    tells(header, sizeof header, 0, NULL, 0);
    /* the last has no padding, so that the next place is the end */
    static const struct told last[] = {
        {24, LINKWIRE_WRONG_LENGTH, 0xc004, 3, 32, 24, 1, {4}},
        {32, LINKWIRE_NOT_UTF8, 20, 2, 38, 32, 1, {20}},
    };
    tells(message, 38, 0, last, 2);
}

/* Bytes that are no attribute are told last. */
static void tells_strays(void) {
    static const uint8_t bytes[] = {HEADER, 7, 0, 4, 0, 1, 2, 3, 0, 8, 0, 4, 0, 0xdc, 5, 0, 0, 3, 0, 4, 0, 1};
    static const struct told told[] = {
        {16, LINKWIRE_WRONG_LENGTH, 4, 3, 24, 16, 1, {4}},
        {32, LINKWIRE_FRAME_UNDER, 0, 0, 37, 32, 0, {0}},
    };
    static const struct told cut[] = {
        {16, LINKWIRE_WRONG_LENGTH, 4, 3, 24, 16, 1, {4}},
        {32, LINKWIRE_FRAME_SHORT, 0, 0, 34, 32, 0, {0}},
    };
    tells(bytes, sizeof bytes, 0, told, 2);
    tells(bytes, sizeof bytes, 24, told + 1, 1);
    tells(bytes, 34, 0, cut, 2);
    for (size_t len = 0; len < LINKWIRE_HEADER_SIZE; len++) {
        struct linkwire_refusal found, kept;
        size_t at = 5;
        memset(&found, 0x55, sizeof found);
        kept = found;
        EXPECT(linkwire_refusal_next(bytes, len, &at, &found), LINKWIRE_TOO_SHORT);
        EXPECT(at, 5);
        EXPECT(memcmp(&found, &kept, sizeof kept), 0);
    }
}

int main(void) {
    EXPECT(linkwire_lenient_form(), LINKWIRE_LENIENT_FORM);
    keeps();
    refuses_each();
    tells_refusals();
    tells_strays();
    return failures != 0;
}
