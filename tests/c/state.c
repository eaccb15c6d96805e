/* Calls linkwire_state and linkwire_same_state: each row of the table before and after at each nesting, the rows at
 * places that are not theirs, payloads of other lengths, undecoded data with a fault in it, and each refusal. */
#include <stdio.h>
#include <stdlib.h>

#include "mask.h"

enum { MOST = 1 << 16, FAMILY = -1, LINKINFO = 18 };

static int failures;

static void expect(int line, const char *what, long found, long want) {
    if (found != want) {
        fprintf(stderr, "state.c:%d: %s is %ld and not %ld\n", line, what, found, want);
        failures++;
    }
}

#define EXPECT(call, want) expect(__LINE__, #call, (long)(call), (long)(want))

/* A message that is being made. */
struct text {
    uint8_t bytes[MOST];
    size_t len;
};

static void start(struct text *text, uint8_t family) {
    const uint8_t header[LINKWIRE_HEADER_SIZE] = {family, 0, 1, 0, 7, 0, 0, 0, 0x43, 0x10, 1, 0, 9, 9, 9, 9};
    memcpy(text->bytes, header, sizeof header);
    text->len = sizeof header;
}

static void put(struct text *text, unsigned kind, const void *payload, size_t len) {
    EXPECT(linkwire_put(text->bytes, sizeof text->bytes, &text->len, (uint16_t)kind, payload, len), 1);
}

/* Opens an attribute that holds others, which stand in it until it is closed. */
static size_t open_list(struct text *text, unsigned kind) {
    size_t at = text->len;
    put(text, kind, "", 0);
    return at;
}

/* So many of its last bytes are padding of its own, and not of its list. */
static void close_before(struct text *text, size_t at, size_t padding) {
    size_t len = text->len - at - padding;
    text->bytes[at] = (uint8_t)len;
    text->bytes[at + 1] = (uint8_t)(len >> 8);
}

static void close_list(struct text *text, size_t at) {
    close_before(text, at, 0);
}

/* So many bytes, none of which is zero. */
static const uint8_t *filled(size_t len) {
    static uint8_t bytes[400];
    memset(bytes, 0xa5, sizeof bytes);
    EXPECT(len <= sizeof bytes, 1);
    return bytes;
}

static uint8_t canonical[MOST], state[MOST], again[MOST], marks[MOST];

/* How many bytes the state encoding has at zero that the canonical encoding has not. Both are as long; the state is
 * canonical, and its own state; and it is the canonical encoding with zeros where mask.h says so. */
static long cleared(int line, const struct text *text) {
    ptrdiff_t len = linkwire_canonical(text->bytes, text->len, canonical, sizeof canonical);
    long count = 0;
    expect(line, "a made message's length", linkwire_state(text->bytes, text->len, state, sizeof state), len);
    if (len < LINKWIRE_HEADER_SIZE) {
        expect(line, "a made message", len, 0);
        return -1;
    }
    mark(canonical, (size_t)len, marks);
    for (ptrdiff_t i = 0; i < len; i++) {
        expect(line, "a byte of the state", state[i], marks[i] ? 0 : canonical[i]);
        count += state[i] != canonical[i];
    }
    expect(line, "the state's own", linkwire_state(state, (size_t)len, again, sizeof again), len);
    expect(line, "the state of the state", memcmp(again, state, (size_t)len), 0);
    expect(line, "the canonical encoding's state", linkwire_state(canonical, (size_t)len, again, sizeof again), len);
    expect(line, "the state of the canonical encoding", memcmp(again, state, (size_t)len), 0);
    expect(line, "the state's canonical", linkwire_canonical(state, (size_t)len, again, sizeof again), len);
    expect(line, "the canonical encoding of the state", memcmp(again, state, (size_t)len), 0);
    expect(line, "one state", linkwire_same_state(text->bytes, text->len, state, (size_t)len), 1);
    return count;
}

#define CLEARED(text, want) expect(__LINE__, "the count of cleared bytes", cleared(__LINE__, text), (want) + 4)

/* The rows: the families and kinds that they are bound to, the numbers that lead there, outermost first, the length
 * that kernels send, and how many bytes are cleared. Numbers end with END. */
enum { END = 0xffff, NESTED = 0x8000 };

static const struct place {
    const char *name;
    int family; /* of the header, or FAMILY: any */
    const char *kind, *slave;
    unsigned numbers[5];
    size_t len;
    long count;
} places[] = {
    {"IFLA_STATS", FAMILY, NULL, NULL, {7, END}, 96, 96},
    {"IFLA_STATS64", FAMILY, NULL, NULL, {23, END}, 200, 200},
    {"IFLA_CARRIER_CHANGES", FAMILY, NULL, NULL, {35, END}, 4, 4},
    {"IFLA_CARRIER_UP_COUNT", FAMILY, NULL, NULL, {47, END}, 4, 4},
    {"IFLA_CARRIER_DOWN_COUNT", FAMILY, NULL, NULL, {48, END}, 4, 4},
    {"IFLA_EVENT", FAMILY, NULL, NULL, {44, END}, 4, 4},
    {"IFLA_VF_STATS_RX_PACKETS", FAMILY, NULL, NULL, {22, 1, 8, 0, END}, 8, 8},
    {"IFLA_VF_STATS_TX_PACKETS", FAMILY, NULL, NULL, {22, 1, 8, 1, END}, 8, 8},
    {"IFLA_VF_STATS_RX_BYTES", FAMILY, NULL, NULL, {22, 1, 8, 2, END}, 8, 8},
    {"IFLA_VF_STATS_TX_BYTES", FAMILY, NULL, NULL, {22, 1, 8, 3, END}, 8, 8},
    {"IFLA_VF_STATS_BROADCAST", FAMILY, NULL, NULL, {22, 1, 8, 4, END}, 8, 8},
    {"IFLA_VF_STATS_MULTICAST", FAMILY, NULL, NULL, {22, 1, 8, 5, END}, 8, 8},
    {"IFLA_VF_STATS_RX_DROPPED", FAMILY, NULL, NULL, {22, 1, 8, 7, END}, 8, 8},
    {"IFLA_VF_STATS_TX_DROPPED", FAMILY, NULL, NULL, {22, 1, 8, 8, END}, 8, 8},
    {"IFLA_VF_BROADCAST", FAMILY, NULL, NULL, {22, 1, 13, END}, 32, 32},
    {"IFLA_INET6_STATS", 0, NULL, NULL, {26, 10, 3, END}, 312, 312},
    {"IFLA_INET6_CACHEINFO", 0, NULL, NULL, {26, 10, 5, END}, 16, 8},
    {"IFLA_INET6_ICMP6STATS", 0, NULL, NULL, {26, 10, 6, END}, 56, 56},
    {"IFLA_INET6_STATS in IFLA_PROTINFO", 10, NULL, NULL, {12, 3, END}, 304, 304},
    {"IFLA_INET6_CACHEINFO in IFLA_PROTINFO", 10, NULL, NULL, {12, 5, END}, 16, 8},
    {"IFLA_INET6_ICMP6STATS in IFLA_PROTINFO", 10, NULL, NULL, {12, 6, END}, 56, 56},
    {"IFLA_INFO_XSTATS", FAMILY, NULL, NULL, {LINKINFO, 3, END}, 24, 24},
    {"IFLA_INFO_XSTATS of a kind", FAMILY, "can", NULL, {LINKINFO, 3, END}, 24, 24},
    {"IFLA_BR_HELLO_TIMER", FAMILY, "bridge", NULL, {LINKINFO, 2, 16, END}, 8, 8},
    {"IFLA_BR_TCN_TIMER", FAMILY, "bridge", NULL, {LINKINFO, 2, 17, END}, 8, 8},
    {"IFLA_BR_TOPOLOGY_CHANGE_TIMER", FAMILY, "bridge", NULL, {LINKINFO, 2, 18, END}, 8, 8},
    {"IFLA_BR_GC_TIMER", FAMILY, "bridge", NULL, {LINKINFO, 2, 19, END}, 8, 8},
    {"IFLA_BR_FDB_N_LEARNED", FAMILY, "bridge", NULL, {LINKINFO, 2, 48, END}, 4, 4},
    {"BRIDGE_QUERIER_IP_OTHER_TIMER", FAMILY, "bridge", NULL, {LINKINFO, 2, 47, 3, END}, 8, 8},
    {"BRIDGE_QUERIER_IPV6_OTHER_TIMER", FAMILY, "bridge", NULL, {LINKINFO, 2, 47, 7, END}, 8, 8},
    {"IFLA_BRPORT_TOPOLOGY_CHANGE_ACK", FAMILY, NULL, "bridge", {LINKINFO, 5, 19, END}, 1, 1},
    {"IFLA_BRPORT_CONFIG_PENDING", FAMILY, NULL, "bridge", {LINKINFO, 5, 20, END}, 1, 1},
    {"IFLA_BRPORT_MESSAGE_AGE_TIMER", FAMILY, NULL, "bridge", {LINKINFO, 5, 21, END}, 8, 8},
    {"IFLA_BRPORT_FORWARD_DELAY_TIMER", FAMILY, NULL, "bridge", {LINKINFO, 5, 22, END}, 8, 8},
    {"IFLA_BRPORT_HOLD_TIMER", FAMILY, "veth", "bridge", {LINKINFO, 5, 23, END}, 8, 8},
    {"IFLA_BRPORT_MCAST_EHT_HOSTS_CNT", FAMILY, NULL, "bridge", {LINKINFO, 5, 38, END}, 4, 4},
    {"IFLA_BRPORT_MCAST_N_GROUPS", FAMILY, NULL, "bridge", {LINKINFO, 5, 41, END}, 4, 4},
    {"IFLA_BRPORT_TOPOLOGY_CHANGE_ACK in IFLA_PROTINFO", 7, NULL, NULL, {12, 19, END}, 1, 1},
    {"IFLA_BRPORT_CONFIG_PENDING in IFLA_PROTINFO", 7, NULL, NULL, {12, 20, END}, 1, 1},
    {"IFLA_BRPORT_MESSAGE_AGE_TIMER in IFLA_PROTINFO", 7, NULL, NULL, {12, 21, END}, 8, 8},
    {"IFLA_BRPORT_FORWARD_DELAY_TIMER in IFLA_PROTINFO", 7, NULL, NULL, {12, 22, END}, 8, 8},
    {"IFLA_BRPORT_HOLD_TIMER in IFLA_PROTINFO", 7, NULL, NULL, {12, 23, END}, 8, 8},
    {"IFLA_BRPORT_MCAST_EHT_HOSTS_CNT in IFLA_PROTINFO", 7, NULL, NULL, {12, 38, END}, 4, 4},
    {"IFLA_BRPORT_MCAST_N_GROUPS in IFLA_PROTINFO", 7, NULL, NULL, {12, 41, END}, 4, 4},
    {"IFLA_HSR_SEQ_NR", FAMILY, "hsr", NULL, {LINKINFO, 2, 5, END}, 2, 2},
    {"IFLA_CAN_BERR_COUNTER", FAMILY, "can", NULL, {LINKINFO, 2, 8, END}, 4, 4},
    {"IFLA_CAN_BERR_COUNTER of vcan", FAMILY, "vcan", NULL, {LINKINFO, 2, 8, END}, 4, 4},
    {"IFLA_BOND_SLAVE_LINK_FAILURE_COUNT", FAMILY, NULL, "bond", {LINKINFO, 5, 3, END}, 4, 4},
};

enum { PLACES = sizeof places / sizeof *places };

/* How a message is made of a row: what else it has, and what is otherwise than in the row. */
struct making {
    int family;
    const char *kind, *slave;
    const char *first, *first_slave; /* if not null, in front of these */
    int more_nuls; /* behind each kind than one; -1: it has none */
    size_t len;
    int is_kind_last, has_flags;
    int is_last; /* nothing stands behind it in any list, and not its padding either */
    const struct text *list; /* if not null, in place of the innermost list */
};

/* What stays at each level: an attribute of a number that no list reads, with bytes that are no list. */
static void put_other(struct text *text) {
    put(text, 0x3aaa, filled(5), 5);
}

static void put_kinds(struct text *text, const struct making *making) {
    const char *const kinds[] = {making->first, making->kind, making->first_slave, making->slave};
    const unsigned numbers[] = {1, 1, 4, 4};
    for (size_t i = 0; i < sizeof kinds / sizeof *kinds; i++) {
        if (kinds[i] != NULL) {
            char payload[20] = "";
            size_t len = strlen(kinds[i]);
            memcpy(payload, kinds[i], len);
            len = (size_t)((long)len + 1 + making->more_nuls);
            put(text, numbers[i] | (making->has_flags ? 0xc000 : 0), payload, len);
        }
    }
}

static void put_place(struct text *text, const unsigned *numbers, const struct making *making) {
    unsigned flags = making->has_flags ? NESTED : 0;
    if (numbers[1] == END) {
        put(text, numbers[0] | flags, filled(making->len), making->len);
        return;
    }
    if (numbers[2] == END && making->list != NULL) {
        put(text, numbers[0], making->list->bytes, making->list->len);
        return;
    }
    size_t at = open_list(text, numbers[0] | flags);
    put_other(text);
    if (numbers[0] == LINKINFO && !making->is_kind_last) {
        put_kinds(text, making);
    }
    put_place(text, numbers + 1, making);
    if (making->is_last) {
        close_before(text, at, (4 - making->len % 4) % 4);
        return;
    }
    put_other(text);
    if (numbers[0] == LINKINFO && making->is_kind_last) {
        put_kinds(text, making);
    }
    close_list(text, at);
}

static void make(struct text *text, const struct place *place, const struct making *making) {
    start(text, (uint8_t)making->family);
    put(text, 3, "eth0", 5);
    put_place(text, place->numbers, making);
    put_other(text);
}

static const int families[] = {0, 2, 7, 10, 28};

enum { FAMILIES_TRIED = sizeof families / sizeof *families };

static struct making as_it_is(const struct place *place) {
    int family = place->family == FAMILY ? 0 : place->family;
    return (struct making){.family = family, .kind = place->kind, .slave = place->slave, .len = place->len};
}

static void expect_count(const struct place *place, const struct making *making, long want) {
    static struct text text;
    make(&text, place, making);
    long found = cleared(__LINE__, &text) - 4;
    if (found != want) {
        fprintf(stderr, "state.c: %s: family %d, kind %s, slave kind %s, %zu bytes: %ld cleared and not %ld\n",
                place->name, making->family, making->kind == NULL ? "none" : making->kind,
                making->slave == NULL ? "none" : making->slave, making->len, found, want);
        failures++;
    }
}

/* In each family that it is bound to, with the kind in front and at the end, and with flags. */
static void clears_rows(void) {
    for (const struct place *place = places; place < places + PLACES; place++) {
        for (size_t i = 0; i < FAMILIES_TRIED; i++) {
            struct making making = as_it_is(place);
            making.family = families[i];
            expect_count(place, &making, place->family == FAMILY || place->family == families[i] ? place->count : 0);
        }
        struct making making = as_it_is(place);
        making.is_kind_last = 1;
        expect_count(place, &making, place->count);
        making.has_flags = 1;
        expect_count(place, &making, place->count);
    }
}

/* Kinds that are not the row's clear nothing of it, nor do texts that only begin alike. */
static void asks_kinds(void) {
    static const char *const others[] = {"bridge_slave", "bridg", "", "dummy", "hs", "cann", "bonding", "team"};
    for (const struct place *place = places; place < places + PLACES; place++) {
        if (place->numbers[0] != LINKINFO || place->numbers[1] == 3) {
            continue;
        }
        struct making making = as_it_is(place);
        int is_slave = place->numbers[1] == 5;
        const char **asked = is_slave ? &making.slave : &making.kind;
        *asked = NULL;
        *(is_slave ? &making.kind : &making.slave) = is_slave ? place->slave : place->kind;
        expect_count(place, &making, 0);
        for (size_t i = 0; i < sizeof others / sizeof *others; i++) {
            *asked = others[i];
            expect_count(place, &making, 0);
        }
    }
}

/* A kind is a text, which one NUL may end; more are of the text. */
static void asks_texts(void) {
    for (const struct place *place = places; place < places + PLACES; place++) {
        if (place->numbers[0] != LINKINFO || place->numbers[1] == 3) {
            continue;
        }
        struct making making = as_it_is(place);
        making.more_nuls = -1;
        expect_count(place, &making, place->count);
        making.more_nuls = 1;
        expect_count(place, &making, 0);
    }
}

/* Of two names of kinds that have the same numbers the same one. */
static const char *numbers_of(const char *kind) {
    return strcmp(kind, "vcan") == 0 ? "can" : kind;
}

/* Of several kinds the first decides, whatever it is. */
static void asks_first_kinds(void) {
    static const char *const kinds[] = {"bridge", "hsr", "can", "vcan", "bond", "vrf", "veth", "dummy", "bonding", ""};
    for (const struct place *place = places; place < places + PLACES; place++) {
        if (place->numbers[0] != LINKINFO || place->numbers[1] == 3) {
            continue;
        }
        struct making making = as_it_is(place);
        int is_slave = place->numbers[1] == 5;
        const char **first = is_slave ? &making.first_slave : &making.first;
        const char *own = is_slave ? place->slave : place->kind;
        for (size_t i = 0; i < sizeof kinds / sizeof *kinds; i++) {
            *first = kinds[i];
            expect_count(place, &making, strcmp(numbers_of(kinds[i]), numbers_of(own)) == 0 ? place->count : 0);
        }
    }
}

/* A payload of another length than the kernel's is cleared all the same, where a message may have it. */
static void clears_lengths(void) {
    static const size_t lengths[] = {0, 1, 2, 3, 4, 5, 6, 7, 9, 11, 12, 13, 15, 20, 33, 250};
    for (const struct place *place = places; place < places + PLACES; place++) {
        for (size_t i = 0; i < sizeof lengths / sizeof *lengths; i++) {
            struct making making = as_it_is(place);
            static struct text text;
            making.len = lengths[i];
            make(&text, place, &making);
            if (place->numbers[0] == LINKINFO) {
                expect_count(place, &making, (long)lengths[i]);
            } else if (linkwire_check(text.bytes, text.len) == 0) {
                (void)cleared(__LINE__, &text);
            }
        }
    }
}

/* So does one that ends its list, where that has no padding behind it. */
static void clears_ends(void) {
    for (const struct place *place = places; place < places + PLACES; place++) {
        for (size_t len = 0; len < 14; len++) {
            struct making making = as_it_is(place);
            static struct text text;
            making.len = len;
            making.is_last = 1;
            make(&text, place, &making);
            if (place->numbers[0] == LINKINFO) {
                expect_count(place, &making, (long)len);
            } else if (linkwire_check(text.bytes, text.len) == 0) {
                (void)cleared(__LINE__, &text);
            }
        }
    }
}

/* Faults in undecoded data: what begins no attribute. Bytes that are too few for one stand at the end alone. */
static const struct {
    const char *name;
    size_t len;
    uint8_t bytes[4];
} broken[] = {
    {"a length of 0", 4, {0}}, {"a length of 3", 4, {3, 0, 9, 0}},
    {"a length that passes the end", 4, {0xff, 0xff, 9, 0}},
    {"a byte at the end", 1, {8}}, {"three bytes at the end", 3, {8, 0, 9}},
};

/* At each place that is undecoded: a member that is cleared, a fault, and that member again, which stays. */
static void stops_at_faults(void) {
    static struct text list;
    for (const struct place *place = places; place < places + PLACES; place++) {
        int is_undecoded = place->numbers[0] == LINKINFO && place->numbers[2] != END;
        for (size_t i = 0; is_undecoded && i < sizeof broken / sizeof *broken; i++) {
            struct making making = as_it_is(place);
            unsigned number = 0;
            for (size_t at = 0; place->numbers[at] != END; at++) {
                number = place->numbers[at];
            }
            list.len = 0;
            put(&list, number, filled(place->len), place->len);
            memcpy(list.bytes + list.len, broken[i].bytes, broken[i].len);
            list.len += broken[i].len;
            if (broken[i].len == 4) {
                put(&list, number, filled(place->len), place->len);
            }
            making.list = &list;
            expect_count(place, &making, place->count);
        }
    }
}

/* The kind by which the list of a row is looked into, or "". */
static const char *asked_kind(const struct place *place) {
    const char *kind = place->numbers[0] != LINKINFO ? NULL : place->numbers[1] == 5 ? place->slave : place->kind;
    return kind == NULL ? "" : kind;
}

/* Whether a row is of the same list as one whose number is the last but END at this place. */
static int is_beside(const struct place *it, const struct place *place, size_t last) {
    return it->family == place->family && strcmp(asked_kind(it), asked_kind(place)) == 0 &&
           memcmp(it->numbers, place->numbers, last * sizeof *it->numbers) == 0 && it->numbers[last] != END &&
           it->numbers[last + 1] == END;
}

/* A list of undecoded data with each number up to 127, each of eight bytes: those of the table alone are cleared. */
static void keeps_numbers(void) {
    static struct text list;
    list.len = 0;
    for (unsigned number = 0; number < 128; number++) {
        put(&list, number, filled(8), 8);
    }
    for (const struct place *place = places; place < places + PLACES; place++) {
        struct making making = as_it_is(place);
        long want = 0;
        size_t last = 0;
        if (place->numbers[0] != 12 && (place->numbers[0] != LINKINFO || place->numbers[2] == END)) {
            continue;
        }
        while (place->numbers[last + 1] != END) {
            last++;
        }
        for (const struct place *it = places; it < places + PLACES; it++) {
            want += !is_beside(it, place, last) ? 0 : it->count == (long)it->len ? 8 : 4; /* a part starts at 4 */
        }
        making.list = &list;
        expect_count(place, &making, want);
    }
}

/* What is counted moves, and the state stays; what is set moves, and the state does too. */
static void compares(void) {
    static struct text a, b;
    for (const struct place *place = places; place < places + PLACES; place++) {
        struct making making = as_it_is(place);
        make(&a, place, &making);
        ptrdiff_t len = linkwire_canonical(a.bytes, a.len, canonical, sizeof canonical);
        mark(canonical, (size_t)len, marks);
        memcpy(b.bytes, canonical, (size_t)len);
        for (ptrdiff_t i = 0; i < len; i++) {
            b.bytes[i] = marks[i] ? (uint8_t)(canonical[i] ^ (i * 7 + 1)) : canonical[i];
        }
        EXPECT(linkwire_same_message(a.bytes, a.len, b.bytes, (size_t)len), 0);
        EXPECT(linkwire_same_state(a.bytes, a.len, b.bytes, (size_t)len), 1);
        EXPECT(linkwire_same_state(b.bytes, (size_t)len, a.bytes, a.len), 1);
        for (ptrdiff_t i = 0; i < len; i++) { /* each byte of its payloads and of the header that is not cleared */
            memcpy(b.bytes, canonical, (size_t)len);
            b.bytes[i] ^= 1;
            ptrdiff_t other = linkwire_state(b.bytes, (size_t)len, again, sizeof again);
            int is_same = linkwire_same_state(a.bytes, a.len, b.bytes, (size_t)len);
            EXPECT(linkwire_state(a.bytes, a.len, state, sizeof state), len);
            EXPECT(is_same, other < 0 ? other : other == len && memcmp(again, state, (size_t)len) == 0);
            if (marks[i]) {
                EXPECT(is_same, 1);
            }
        }
    }
}

/* Each buffer up to one that is longer than the encoding, and refusals, after which it is unchanged. */
static void fits(void) {
    static struct text text;
    struct making making = as_it_is(&places[1]);
    make(&text, &places[1], &making);
    ptrdiff_t len = linkwire_canonical_len(text.bytes, text.len);
    EXPECT(linkwire_state(text.bytes, text.len, state, sizeof state), len);
    for (size_t cap = 0; cap < (size_t)len + 9; cap++) {
        memset(again, 0x55, sizeof again);
        EXPECT(linkwire_state(text.bytes, text.len, again, cap), cap < (size_t)len ? LINKWIRE_NO_ROOM : len);
        if (cap >= (size_t)len) {
            EXPECT(memcmp(again, state, (size_t)len), 0);
        }
        for (size_t i = cap < (size_t)len ? 0 : (size_t)len; i < (size_t)len + 9; i++) {
            EXPECT(again[i], 0x55);
        }
    }
}

/* Refusals are those of the canonical encoding, of the first message that has one. */
static void refuses(void) {
    static const struct {
        ptrdiff_t answer;
        size_t len;
        uint8_t bytes[40];
    } refused[] = {
        {LINKWIRE_TOO_SHORT, 15, {0}},
        {LINKWIRE_FRAME_SHORT, 19, {[16] = 8, 0, 4}},
        {LINKWIRE_FRAME_OVER, 20, {[16] = 5, 0, 1, 0}},
        {LINKWIRE_FRAME_UNDER, 20, {[16] = 3, 0, 1, 0}},
        {LINKWIRE_EMPTY_LIST, 20, {[16] = 4, 0, 43, 0}},
        {LINKWIRE_WRONG_LENGTH, 23, {[16] = 7, 0, 35, 0, 1, 2, 3}},
        {LINKWIRE_NOT_UTF8, 22, {[16] = 6, 0, 3, 0, 0xff, 0}},
        {LINKWIRE_EMPTY_PORTS, 24, {[16] = 8, 0, 24, 0, 4, 0, 2, 0}},
    };
    static const uint8_t good[LINKWIRE_HEADER_SIZE] = {0};
    for (size_t i = 0; i < sizeof refused / sizeof *refused; i++) {
        memset(again, 0x55, sizeof again);
        EXPECT(linkwire_canonical_len(refused[i].bytes, refused[i].len), refused[i].answer);
        EXPECT(linkwire_state(refused[i].bytes, refused[i].len, again, sizeof again), refused[i].answer);
        EXPECT(linkwire_state(refused[i].bytes, refused[i].len, again, 0), refused[i].answer);
        for (size_t at = 0; at < 4096; at++) {
            EXPECT(again[at], 0x55);
        }
        EXPECT(linkwire_same_state(refused[i].bytes, refused[i].len, good, sizeof good), refused[i].answer);
        EXPECT(linkwire_same_state(good, sizeof good, refused[i].bytes, refused[i].len), refused[i].answer);
        EXPECT(linkwire_same_state(refused[i].bytes, refused[i].len, refused[0].bytes, 0), refused[i].answer);
    }
}

int main(void) {
    EXPECT(linkwire_state_form(), LINKWIRE_STATE_FORM);
    clears_rows();
    asks_kinds();
    asks_texts();
    asks_first_kinds();
    clears_lengths();
    clears_ends();
    stops_at_faults();
    keeps_numbers();
    compares();
    fits();
    refuses();
    if (failures == 0) {
        printf("state: %d places\n", PLACES);
    }
    return failures != 0;
}
