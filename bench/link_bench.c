/* Times the functions of linkwire.h on the same 50,000 messages of 20 to 2,000 bytes, beside a plain copy of each
 * message, in processor time: the best of several rounds, in which the functions take turns. `link_bench 3 sums` makes
 * three rounds, and prints what the answers add up to instead, which is the same each time. */
#include <stdio.h>
#include <stdlib.h>
#include <string.h>
#include <time.h>

#include "linkwire.h"

enum { MESSAGES = 50000, SHORTEST = 20, LONGEST = 2000, ROUNDS = 9, HEADER = 16 };

/* What the value of an attribute is made of. */
enum form { ADDRESS, TEXT, NUMBER, NAMES, FOREIGN };

struct row {
    uint16_t kind;
    enum form form;
};

static const struct row rows[] = {
    {1, ADDRESS}, {3, TEXT}, {4, NUMBER}, {52, NAMES}, {8, FOREIGN}, {70, FOREIGN}, {300, FOREIGN},
};

static uint64_t state = 0x9e3779b97f4a7c15;

/* A number below `bound`, by xorshift. */
static size_t below(size_t bound) {
    state ^= state << 13;
    state ^= state >> 7;
    state ^= state << 17;
    return (state >> 16) % bound;
}

static size_t padded(size_t len) {
    return (len + 3) / 4 * 4;
}

static size_t put_text(uint8_t *at) {
    size_t len = 1 + below(15);
    for (size_t i = 0; i < len; i++) {
        at[i] = 'a' + below(26);
    }
    at[len] = 0;
    return len + 1;
}

static size_t put_bytes(uint8_t *at, size_t len) {
    for (size_t i = 0; i < len; i++) {
        at[i] = below(256);
    }
    return len;
}

/* Closes an attribute around a value that stands at at + 4, and returns how many bytes it takes. */
static size_t close_attribute(uint8_t *at, uint16_t kind, size_t value) {
    size_t len = 4 + value;
    at[0] = len & 0xff;
    at[1] = len >> 8;
    at[2] = kind & 0xff;
    at[3] = kind >> 8;
    memset(at + len, 0, padded(len) - len);
    return padded(len);
}

static size_t put_names(uint8_t *at) {
    size_t len = 0;
    for (size_t names = below(4); names > 0; names--) {
        len += close_attribute(at + len, 53, put_text(at + len + 4));
    }
    return len;
}

static size_t put_value(uint8_t *at, enum form form) {
    switch (form) {
    case ADDRESS:
        return put_bytes(at, 6);
    case TEXT:
        return put_text(at);
    case NUMBER:
        return put_bytes(at, 4);
    case NAMES:
        return put_names(at);
    default:
        return put_bytes(at, below(64));
    }
}

/* A message of about `want` bytes, rounded up to a multiple of four. */
static size_t put_message(uint8_t *at, size_t want) {
    uint8_t one[256];
    put_bytes(at, HEADER);
    at[0] = 0;
    size_t len = HEADER;
    want = padded(want);
    for (;;) {
        const struct row *row = &rows[below(sizeof rows / sizeof *rows)];
        size_t more = close_attribute(one, row->kind, put_value(one + 4, row->form));
        if (more > want - len) {
            break;
        }
        memcpy(at + len, one, more);
        len += more;
    }
    if (len < want) {
        len += close_attribute(at + len, 9, put_bytes(at + len + 4, want - len - 4));
    }
    return len;
}

static uint8_t *bytes;
static size_t starts[MESSAGES + 1];
static uint8_t out[LINKWIRE_GROWTH * LONGEST];

static long copy(const uint8_t *message, size_t len) {
    memcpy(out, message, len);
    __asm__ volatile("" : : "r"(out) : "memory");
    return 0;
}

static long check(const uint8_t *message, size_t len) {
    return linkwire_check(message, len);
}

static long measure(const uint8_t *message, size_t len) {
    return linkwire_canonical_len(message, len);
}

static long canonical(const uint8_t *message, size_t len) {
    return linkwire_canonical(message, len, out, sizeof out);
}

static long state_of(const uint8_t *message, size_t len) {
    return linkwire_state(message, len, out, sizeof out);
}

static struct call {
    const char *name;
    long (*run)(const uint8_t *, size_t);
    double best;
} calls[] = {
    {"memcpy", copy, 1e300},
    {"linkwire_check", check, 1e300},
    {"linkwire_canonical", canonical, 1e300},
    {"linkwire_canonical_len", measure, 1e300},
    {"linkwire_state", state_of, 1e300},
};

enum { CALLS = sizeof calls / sizeof *calls };

static long sum;

static double seconds(void) {
    struct timespec now;
    clock_gettime(CLOCK_PROCESS_CPUTIME_ID, &now);
    return now.tv_sec + now.tv_nsec * 1e-9;
}

/* One round over all messages. */
static void time_round(struct call *call) {
    double start = seconds();
    for (size_t i = 0; i < MESSAGES; i++) {
        long answer = call->run(bytes + starts[i], starts[i + 1] - starts[i]);
        if (answer < 0) {
            fprintf(stderr, "%s refuses message %zu\n", call->name, i);
            exit(1);
        }
        sum += answer;
    }
    double took = seconds() - start;
    if (took < call->best) {
        call->best = took;
    }
}

int main(int argc, char **argv) {
    int rounds = argc > 1 ? atoi(argv[1]) : ROUNDS;
    bytes = malloc((size_t)MESSAGES * (LONGEST + 4));
    if (bytes == NULL) {
        return 1;
    }
    for (size_t i = 0; i < MESSAGES; i++) {
        starts[i + 1] = starts[i] + put_message(bytes + starts[i], SHORTEST + below(LONGEST - SHORTEST + 1));
    }
    for (int round = 0; round < rounds; round++) {
        for (int i = 0; i < CALLS; i++) {
            time_round(&calls[i]);
        }
    }
    printf("%d messages, %zu bytes\n", MESSAGES, starts[MESSAGES]);
    if (argc > 2) {
        printf("the answers add up to %ld\n", sum);
        return 0;
    }
    printf("%-24s %12s %10s\n", "", "ns a message", "MB/s");
    for (int i = 0; i < CALLS; i++) {
        double took = calls[i].best;
        printf("%-24s %12.0f %10.0f\n", calls[i].name, took / MESSAGES * 1e9, starts[MESSAGES] / took * 1e-6);
    }
    printf("linkwire_check / linkwire_canonical      %.2f (at most 0.50 is wanted)\n", calls[1].best / calls[2].best);
    return 0;
}
