/* Calls each function of linkwire.h on messages: accepted texts, each refusal, and buffers that are too short. */
#include <stdio.h>
#include <stdlib.h>
#include <string.h>

#include "linkwire.h"

static int failures;

static void expect(int line, const char *what, long found, long want) {
    if (found != want) {
        fprintf(stderr, "calls.c:%d: %s is %ld and not %ld\n", line, what, found, want);
        failures++;
    }
}

#define EXPECT(call, want) expect(__LINE__, #call, (long)(call), (long)(want))

/* A header of family 0 and index 7, and attributes after it. */
#define HEADER 0, 0, 1, 0, 7, 0, 0, 0, 0x43, 0, 1, 0, 0, 0, 0, 0
/* A header whose second byte, which is not read, is not zero. */
#define HEADER_RESERVED 0, 9, 1, 0, 7, 0, 0, 0, 0x43, 0, 1, 0, 0, 0, 0, 0

struct fault {
    const char *name;
    int answer;
    size_t len;
    size_t at;
    uint8_t bytes[48];
};

static const struct fault faults[] = {
    {"no bytes", LINKWIRE_TOO_SHORT, 0, 0, {0}},
    {"15 bytes", LINKWIRE_TOO_SHORT, 15, 0, {0}},
    {"three bytes after the header", LINKWIRE_FRAME_SHORT, 19, 16, {HEADER, 8, 0, 4}},
    {"a length that passes the end", LINKWIRE_FRAME_OVER, 20, 16, {HEADER, 5, 0, 1, 0}},
    {"a length of 3", LINKWIRE_FRAME_UNDER, 20, 16, {HEADER, 3, 0, 1, 0}},
    {"an empty list that needs a member", LINKWIRE_EMPTY_LIST, 20, 16, {HEADER, 4, 0, 43, 0}},
    {"a number of three bytes", LINKWIRE_WRONG_LENGTH, 23, 16, {HEADER, 7, 0, 4, 0, 1, 2, 3}},
    {"a name that is not UTF-8", LINKWIRE_NOT_UTF8, 22, 16, {HEADER, 6, 0, 3, 0, 0xff, 0}},
    {"the first of two faults", LINKWIRE_NOT_UTF8, 29, 16, {HEADER, 6, 0, 3, 0, 0xff, 0, 0, 0, 7, 0, 4, 0, 1}},
    {"after an attribute", LINKWIRE_WRONG_LENGTH, 29, 24, {HEADER, 7, 0, 3, 0, 'l', 'o', 0, 0, 5, 0, 4, 0, 1}},
    {"a name in a list", LINKWIRE_NOT_UTF8, 26, 20, {HEADER, 10, 0, 52, 0, 6, 0, 53, 0, 0xff, 0}},
    {"stray bytes in a list", LINKWIRE_FRAME_SHORT, 30, 28, {HEADER, 14, 0, 52, 0, 6, 0, 53, 0, 'a', 0, 0, 0, 1, 0}},
};

/* A name with no NUL and a number with both flag bits, and its canonical text. */
static const uint8_t message[] = {HEADER_RESERVED, 6, 0, 3, 0, 'l', 'o', 0xaa, 0xbb, 8, 0, 4, 0xc0, 0xdc, 5, 0, 0};
static const uint8_t text[] = {HEADER, 7, 0, 3, 0, 'l', 'o', 0, 0, 8, 0, 4, 0, 0xdc, 5, 0, 0};
static const uint8_t other[] = {HEADER, 7, 0, 3, 0, 'l', 'o', 0, 0, 8, 0, 4, 0, 0xdd, 5, 0, 0};

static int all_bytes_are(const uint8_t *bytes, size_t len, uint8_t want) {
    for (size_t i = 0; i < len; i++) {
        if (bytes[i] != want) {
            return 0;
        }
    }
    return 1;
}

static void refuses(void) {
    uint8_t out[LINKWIRE_GROWTH * 48];
    for (size_t i = 0; i < sizeof faults / sizeof *faults; i++) {
        const struct fault *fault = &faults[i];
        if (linkwire_check(fault->bytes, fault->len) != fault->answer) {
            fprintf(stderr, "%s: %d\n", fault->name, (int)linkwire_check(fault->bytes, fault->len));
            failures++;
        }
        memset(out, 0x55, sizeof out);
        EXPECT(linkwire_canonical_len(fault->bytes, fault->len), fault->answer);
        EXPECT(linkwire_canonical(fault->bytes, fault->len, out, sizeof out), fault->answer);
        EXPECT(linkwire_canonical(fault->bytes, fault->len, out, 0), fault->answer);
        EXPECT(all_bytes_are(out, sizeof out, 0x55), 1);
        EXPECT(linkwire_same_message(fault->bytes, fault->len, text, sizeof text), fault->answer);
        EXPECT(linkwire_same_message(text, sizeof text, fault->bytes, fault->len), fault->answer);
        EXPECT(linkwire_same_message(fault->bytes, fault->len, faults[0].bytes, 0), fault->answer);
    }
}

static void writes(void) {
    uint8_t out[sizeof message + 9];
    EXPECT(linkwire_check(message, sizeof message), 0);
    EXPECT(linkwire_check(text, sizeof text), 0);
    EXPECT(linkwire_canonical_len(message, sizeof message), sizeof text);
    for (size_t cap = 0; cap <= sizeof out; cap++) {
        memset(out, 0x55, sizeof out);
        if (cap < sizeof text) {
            EXPECT(linkwire_canonical(message, sizeof message, out, cap), LINKWIRE_NO_ROOM);
            EXPECT(all_bytes_are(out, sizeof out, 0x55), 1);
        } else {
            EXPECT(linkwire_canonical(message, sizeof message, out, cap), sizeof text);
            EXPECT(memcmp(out, text, sizeof text), 0);
            EXPECT(all_bytes_are(out + sizeof text, sizeof out - sizeof text, 0x55), 1);
        }
    }
}

static void compares(void) {
    static const uint8_t header[] = {HEADER};
    EXPECT(linkwire_same_message(message, sizeof message, text, sizeof text), 1);
    EXPECT(linkwire_same_message(text, sizeof text, text, sizeof text), 1);
    EXPECT(linkwire_same_message(message, sizeof message, other, sizeof other), 0);
    EXPECT(linkwire_same_message(header, sizeof header, text, sizeof text), 0);
}

/* A list of 16,382 names of no bytes: each grows from four bytes to eight, so that the list no longer fits. */
static void refuses_what_does_not_fit(void) {
    enum { NAMES = 16382, PAYLOAD = 4 * NAMES, LEN = 16 + 4 + PAYLOAD };
    uint8_t *bytes = calloc(LEN, 1);
    uint8_t *out = malloc((size_t)LINKWIRE_GROWTH * LEN);
    if (bytes == NULL || out == NULL) {
        fprintf(stderr, "no memory\n");
        exit(1);
    }
    bytes[16] = (PAYLOAD + 4) & 0xff;
    bytes[17] = (PAYLOAD + 4) >> 8;
    bytes[18] = 52;
    for (size_t at = 20; at < LEN; at += 4) {
        bytes[at] = 4;
        bytes[at + 2] = 53;
    }
    memset(out, 0x55, (size_t)LINKWIRE_GROWTH * LEN);
    EXPECT(linkwire_check(bytes, LEN), 0);
    EXPECT(linkwire_canonical_len(bytes, LEN), LINKWIRE_UNFIT);
    EXPECT(linkwire_canonical(bytes, LEN, out, (size_t)LINKWIRE_GROWTH * LEN), LINKWIRE_UNFIT);
    EXPECT(linkwire_canonical(bytes, LEN, out, 0), LINKWIRE_UNFIT);
    EXPECT(all_bytes_are(out, (size_t)LINKWIRE_GROWTH * LEN, 0x55), 1);
    EXPECT(linkwire_same_message(text, sizeof text, bytes, LEN), LINKWIRE_UNFIT);
    EXPECT(linkwire_same_message(bytes, LEN, faults[0].bytes, faults[0].len), LINKWIRE_UNFIT);
    free(out);
    free(bytes);
}

/* The one entry has another number than 1 and is dropped, and the empty list of ports has no canonical encoding. */
static void refuses_empty_ports(void) {
    static const uint8_t bytes[] = {HEADER, 8, 0, 24, 0, 4, 0, 2, 0};
    uint8_t out[LINKWIRE_GROWTH * sizeof bytes];
    EXPECT(linkwire_check(bytes, sizeof bytes), 0);
    EXPECT(linkwire_canonical_len(bytes, sizeof bytes), LINKWIRE_EMPTY_PORTS);
    memset(out, 0x55, sizeof out);
    EXPECT(linkwire_canonical(bytes, sizeof bytes, out, sizeof out), LINKWIRE_EMPTY_PORTS);
    EXPECT(linkwire_canonical(bytes, sizeof bytes, out, 0), LINKWIRE_EMPTY_PORTS);
    EXPECT(all_bytes_are(out, sizeof out, 0x55), 1);
    EXPECT(linkwire_same_message(bytes, sizeof bytes, faults[0].bytes, faults[0].len), LINKWIRE_EMPTY_PORTS);
    EXPECT(linkwire_same_message(text, sizeof text, bytes, sizeof bytes), LINKWIRE_EMPTY_PORTS);
}

static void tells_where_a_fault_is(void) {
    size_t at = 0x5555;
    EXPECT(linkwire_fault_at(message, sizeof message, &at), 0);
    EXPECT(at, 0x5555);
    for (size_t i = 0; i < sizeof faults / sizeof *faults; i++) {
        at = 0x5555;
        EXPECT(linkwire_fault_at(faults[i].bytes, faults[i].len, &at), faults[i].answer);
        if (at != faults[i].at) {
            fprintf(stderr, "%s: at %zu and not %zu\n", faults[i].name, at, faults[i].at);
            failures++;
        }
    }
}

/* A counter of a virtual function that is one byte long, after one that is read: functions, one of them, its counters,
 * and the counter. */
static const uint8_t deep[] = {HEADER, 29, 0, 22, 0, 25, 0, 1, 0, 21, 0, 8, 0, 12, 0,
                               0,      0,  1, 2,  3, 4,  5, 6, 7, 8,  5, 0, 1, 0,  9};

static int leads(const struct linkwire_path *path, size_t at, size_t depth, const uint16_t *numbers) {
    static const uint16_t none[LINKWIRE_DEPTH];
    return path->at == at && path->depth == depth && memcmp(path->numbers, numbers, depth * sizeof *numbers) == 0
           && memcmp(path->numbers + depth, none, (LINKWIRE_DEPTH - depth) * sizeof *none) == 0;
}

static void tells_which_attributes_lead_to_a_fault(void) {
    static const uint16_t all[] = {22, 1, 8, 1}, list[] = {52, 53};
    struct linkwire_path path, kept;
    memset(&path, 0x55, sizeof path);
    kept = path;
    EXPECT(linkwire_fault_path(message, sizeof message, &path), 0);
    EXPECT(memcmp(&path, &kept, sizeof path), 0);
    EXPECT(linkwire_fault_path(deep, sizeof deep, &path), LINKWIRE_WRONG_LENGTH);
    EXPECT(leads(&path, 40, 4, all), 1);
    EXPECT(linkwire_fault_path(deep, 15, &path), LINKWIRE_TOO_SHORT);
    EXPECT(leads(&path, 0, 0, all), 1);
    for (size_t i = 0; i < sizeof faults / sizeof *faults; i++) {
        EXPECT(linkwire_fault_path(faults[i].bytes, faults[i].len, &path), faults[i].answer);
        EXPECT(path.at, faults[i].at);
    }
    EXPECT(linkwire_fault_path(faults[10].bytes, faults[10].len, &path), LINKWIRE_NOT_UTF8);
    EXPECT(leads(&path, 20, 2, list), 1);
    EXPECT(linkwire_fault_path(faults[11].bytes, faults[11].len, &path), LINKWIRE_FRAME_SHORT);
    EXPECT(leads(&path, 28, 1, list), 1);
}

int main(void) {
    EXPECT(linkwire_canonical_form(), LINKWIRE_CANONICAL_FORM);
    refuses();
    writes();
    compares();
    refuses_what_does_not_fit();
    refuses_empty_ports();
    tells_where_a_fault_is();
    tells_which_attributes_lead_to_a_fault();
    return failures != 0;
}
