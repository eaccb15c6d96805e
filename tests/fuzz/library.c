/* Reads a pair of messages from its input, the length of the first in two bytes in front, and aborts where a law of
 * linkwire.h does not hold of them. scripts/test/fuzz.sh builds it for AFL++, with the library's text instrumented. */
#include <stdbool.h>
#include <stdio.h>
#include <stdlib.h>
#include <string.h>

#include "linkwire.h"

enum { MOST = 4096, SHOWN = 1 << 20, KEPT = 0x5a };

#define HOLDS(law)                                                                                                    \
    do {                                                                                                              \
        if (!(law)) {                                                                                                 \
            fprintf(stderr, "library: not so: %s\n", #law);                                                           \
            abort();                                                                                                  \
        }                                                                                                             \
    } while (0)

struct texts {
    int32_t fault;
    ptrdiff_t canonical, state, lenient, lenient_state;
    uint8_t *at[4];
};

typedef ptrdiff_t encode(const uint8_t *message, size_t len, uint8_t *out, size_t cap);

/* What a call writes: nothing else of the buffer, nothing after a refusal, and nothing where there is too little room.
 * What it writes is its own encoding. */
static ptrdiff_t written(encode *call, const uint8_t *message, size_t len, uint8_t **made) {
    size_t room = LINKWIRE_GROWTH * len + 16;
    uint8_t *out = malloc(room), *again = malloc(room);
    if (!out || !again)
        exit(0);
    memset(out, KEPT, room);
    ptrdiff_t got = call(message, len, out, room);
    size_t used = got < 0 ? 0 : (size_t)got;
    for (size_t i = used; i < room; i++)
        HOLDS(out[i] == KEPT);
    if (got >= 0) {
        HOLDS(used >= LINKWIRE_HEADER_SIZE && used <= LINKWIRE_GROWTH * len);
        HOLDS(call(message, len, again, used - 1) == -19);
        HOLDS(call(out, used, again, used) == got && memcmp(out, again, used) == 0);
    }
    free(again);
    *made = out;
    return got;
}

static struct texts texts_of(const uint8_t *message, size_t len) {
    struct texts all = {.fault = linkwire_check(message, len)};
    all.canonical = written(linkwire_canonical, message, len, &all.at[0]);
    all.state = written(linkwire_state, message, len, &all.at[1]);
    all.lenient = written(linkwire_canonical_lenient, message, len, &all.at[2]);
    all.lenient_state = written(linkwire_state_lenient, message, len, &all.at[3]);
    HOLDS(all.canonical == linkwire_canonical_len(message, len));
    HOLDS(all.lenient == linkwire_canonical_lenient_len(message, len));
    HOLDS(all.state == all.canonical && all.lenient_state == all.lenient);
    HOLDS(all.fault ? all.canonical == all.fault : all.canonical >= 0 || all.canonical == -16 || all.canonical == -17);
    if (all.canonical >= 0) {
        size_t used = (size_t)all.canonical;
        HOLDS(all.lenient == all.canonical && memcmp(all.at[0], all.at[2], used) == 0);
        HOLDS(memcmp(all.at[1], all.at[3], used) == 0);
    }
    return all;
}

/* The fault's place is in the message, and each refusal behind the one before; without a fault there is none. */
static void faults_of(const uint8_t *message, size_t len, int32_t fault) {
    struct linkwire_path path = {0};
    struct linkwire_refusal refusal = {0};
    size_t at = 0, found = 0;
    HOLDS(linkwire_fault_path(message, len, &path) == fault);
    HOLDS(path.at <= len && path.depth <= LINKWIRE_DEPTH);
    HOLDS(linkwire_fault_at(message, len, &found) == fault && found == path.at);
    size_t count = 0, before = 0;
    for (int32_t more; (more = linkwire_refusal_next(message, len, &at, &refusal)) == 1; count++) {
        HOLDS(refusal.fault <= -1 && refusal.fault >= -7 && refusal.offset >= before && at <= len);
        if (count == 0)
            HOLDS(refusal.fault == fault && refusal.path.at == path.at);
        before = refusal.offset;
    }
    HOLDS(len < LINKWIRE_HEADER_SIZE || (count > 0) == (fault != 0));
}

static bool is_same(ptrdiff_t one, ptrdiff_t two, const uint8_t *a, const uint8_t *b) {
    return one == two && memcmp(a, b, (size_t)one) == 0;
}

/* Two messages are the same where their encodings are, and nothing is told where their states are. */
static void two(const uint8_t *a, size_t a_len, const uint8_t *b, size_t b_len, const struct texts *one,
                const struct texts *other) {
    static char told[SHOWN];
    ptrdiff_t no = one->canonical < 0 ? one->canonical : other->canonical < 0 ? other->canonical : 0;
    int32_t same = linkwire_same_message(a, a_len, b, b_len), state = linkwire_same_state(a, a_len, b, b_len);
    ptrdiff_t len = linkwire_diff(a, a_len, b, b_len, LINKWIRE_ORDER_UNKNOWN, 0, told, sizeof told);
    if (no) {
        HOLDS(same == no && state == no && len == no);
        return;
    }
    HOLDS(same == is_same(one->canonical, other->canonical, one->at[0], other->at[0]));
    HOLDS(state == is_same(one->state, other->state, one->at[1], other->at[1]));
    HOLDS((len == 0) == state);
    if (len > 0 && (size_t)len <= sizeof told)
        HOLDS(told[0] == '[' && told[len - 1] == ']');
}

static void show(const uint8_t *message, size_t len) {
    static char shown[SHOWN];
    for (uint32_t flags = 0; flags <= LINKWIRE_LENIENT; flags += LINKWIRE_LENIENT) {
        ptrdiff_t got = linkwire_show(message, len, LINKWIRE_ORDER_SINCE, flags, shown, sizeof shown);
        HOLDS(got > 1 && ((size_t)got > sizeof shown || (shown[0] == '{' && shown[got - 1] == '}')));
    }
}

int main(void) {
    static uint8_t read[2 * MOST];
    size_t len = fread(read, 1, sizeof read, stdin);
    if (len < 2)
        return 0;
    size_t first = (size_t)read[0] | (size_t)read[1] << 8;
    if (first > len - 2)
        first = len - 2;
    size_t second = len - 2 - first;
    if (first > MOST || second > MOST)
        return 0;
    /* of just so many bytes, so that a sanitizer, or the C library, sees what is touched beside */
    uint8_t *a = malloc(first + 1), *b = malloc(second + 1);
    if (!a || !b)
        return 0;
    memcpy(a, read + 2, first);
    memcpy(b, read + 2 + first, second);
    struct texts one = texts_of(a, first), other = texts_of(b, second);
    faults_of(a, first, one.fault);
    faults_of(b, second, other.fault);
    two(a, first, b, second, &one, &other);
    show(a, first);
    for (int i = 0; i < 4; i++) {
        free(one.at[i]);
        free(other.at[i]);
    }
    free(a);
    free(b);
    return 0;
}
