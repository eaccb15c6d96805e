/* Calls one function of linkwire.h for each message of the standard input, a line of lower-case hexadecimal digits:
 * calls NAME. What compares two messages compares each with itself, and in a call `unlike_..` or `diff..` with
 * the one before. Nothing here copies or clears bytes, since those would be counted too. */
#include <stdio.h>
#include <string.h>

#include "linkwire.h"

enum { MOST = 1 << 20 };

struct message {
    uint8_t *bytes;
    size_t len;
};

static uint8_t out[MOST];

static void check(struct message it, struct message before) {
    (void)before;
    linkwire_check(it.bytes, it.len);
}

static void canonical_len(struct message it, struct message before) {
    (void)before;
    linkwire_canonical_len(it.bytes, it.len);
}

static void canonical(struct message it, struct message before) {
    (void)before;
    linkwire_canonical(it.bytes, it.len, out, sizeof out);
}

static void state(struct message it, struct message before) {
    (void)before;
    linkwire_state(it.bytes, it.len, out, sizeof out);
}

static void same_message(struct message it, struct message before) {
    (void)before;
    linkwire_same_message(it.bytes, it.len, it.bytes, it.len);
}

static void unlike_message(struct message it, struct message before) {
    linkwire_same_message(before.bytes, before.len, it.bytes, it.len);
}

static void same_state(struct message it, struct message before) {
    (void)before;
    linkwire_same_state(it.bytes, it.len, it.bytes, it.len);
}

static void unlike_state(struct message it, struct message before) {
    linkwire_same_state(before.bytes, before.len, it.bytes, it.len);
}

/* All attributes, one after the other. */
static void next(struct message it, struct message before) {
    (void)before;
    struct linkwire_attribute attribute;
    size_t at = 0;
    while (linkwire_next(it.bytes + LINKWIRE_HEADER_SIZE, it.len - LINKWIRE_HEADER_SIZE, &at, &attribute) == 1) {
    }
}

/* Name, MTU and state. */
static void pick(struct message it, struct message before) {
    (void)before;
    struct linkwire_attribute found[3] = {{.kind = 3}, {.kind = 4}, {.kind = 16}};
    linkwire_pick(it.bytes + LINKWIRE_HEADER_SIZE, it.len - LINKWIRE_HEADER_SIZE, found, 3);
}

/* All attributes, which are found by their lengths alone, so that no other call is counted. */
static void put(struct message it, struct message before) {
    (void)before;
    size_t to = LINKWIRE_HEADER_SIZE;
    for (size_t at = LINKWIRE_HEADER_SIZE; at < it.len && it.len - at >= 4;) {
        const uint8_t *frame = it.bytes + at;
        size_t size = linkwire_le(frame, 2);
        if (size < 4 || size > it.len - at) {
            break;
        }
        linkwire_put(out, sizeof out, &to, (uint16_t)linkwire_le(frame + 2, 2), frame + 4, size - 4);
        at += (size + 3) / 4 * 4;
    }
}

static void fault_at(struct message it, struct message before) {
    (void)before;
    size_t at;
    linkwire_fault_at(it.bytes, it.len, &at);
}

static void fault_path(struct message it, struct message before) {
    (void)before;
    struct linkwire_path path;
    linkwire_fault_path(it.bytes, it.len, &path);
}

static void canonical_lenient_len(struct message it, struct message before) {
    (void)before;
    linkwire_canonical_lenient_len(it.bytes, it.len);
}

static void canonical_lenient(struct message it, struct message before) {
    (void)before;
    linkwire_canonical_lenient(it.bytes, it.len, out, sizeof out);
}

static void state_lenient(struct message it, struct message before) {
    (void)before;
    linkwire_state_lenient(it.bytes, it.len, out, sizeof out);
}

/* All refusals, one after the other. */
static void refusal_next(struct message it, struct message before) {
    (void)before;
    struct linkwire_refusal refusal;
    size_t at = 0;
    while (linkwire_refusal_next(it.bytes, it.len, &at, &refusal) == 1) {
    }
}

static void show(struct message it, struct message before) {
    (void)before;
    linkwire_show(it.bytes, it.len, LINKWIRE_ORDER_UNKNOWN, 0, (char *)out, sizeof out);
}

static void show_leniently(struct message it, struct message before) {
    (void)before;
    linkwire_show(it.bytes, it.len, LINKWIRE_ORDER_UNKNOWN, LINKWIRE_LENIENT, (char *)out, sizeof out);
}

static void diff_by(struct message it, struct message before, uint32_t flags) {
    linkwire_diff(before.bytes, before.len, it.bytes, it.len, LINKWIRE_ORDER_UNKNOWN, flags, (char *)out, sizeof out);
}

static void diff(struct message it, struct message before) {
    diff_by(it, before, 0);
}

static void diff_leniently(struct message it, struct message before) {
    diff_by(it, before, LINKWIRE_LENIENT);
}

static const struct {
    const char *name;
    void (*call)(struct message it, struct message before);
} calls[] = {
    {"check", check},
    {"canonical_len", canonical_len},
    {"canonical", canonical},
    {"state", state},
    {"same_message", same_message},
    {"unlike_message", unlike_message},
    {"same_state", same_state},
    {"unlike_state", unlike_state},
    {"next", next},
    {"pick", pick},
    {"put", put},
    {"fault_at", fault_at},
    {"fault_path", fault_path},
    {"canonical_lenient_len", canonical_lenient_len},
    {"canonical_lenient", canonical_lenient},
    {"state_lenient", state_lenient},
    {"refusal_next", refusal_next},
    {"show", show},
    {"show_leniently", show_leniently},
    {"diff", diff},
    {"diff_leniently", diff_leniently},
};

static unsigned digit(char c) {
    return (unsigned)(c <= '9' ? c - '0' : c - 'a' + 10);
}

/* The message of a line, in this room. */
static struct message message_of(const char *line, uint8_t *room) {
    size_t len = 0;
    for (; line[2 * len] > ' ' && line[2 * len + 1] > ' '; len++) {
        room[len] = (uint8_t)(digit(line[2 * len]) << 4 | digit(line[2 * len + 1]));
    }
    return (struct message){room, len};
}

int main(int count, char **words) {
    static char line[2 * MOST + 2];
    static uint8_t rooms[2][MOST];
    for (size_t i = 0; count == 2 && i < sizeof calls / sizeof *calls; i++) {
        if (strcmp(calls[i].name, words[1]) == 0) {
            struct message before = {rooms[1], 0};
            for (int turn = 0; fgets(line, sizeof line, stdin) != NULL; turn = !turn) {
                struct message it = message_of(line, rooms[turn]);
                calls[i].call(it, before);
                before = it;
            }
            return 0;
        }
    }
    fputs("usage: calls NAME <LINES\n", stderr);
    return 2;
}
