/* Calls linkwire_show, linkwire_diff and linkwire_order: answers, refusals, flags, and buffers that are too short.
 *
 * With words it answers the standard input, lines of hexadecimal messages, and scripts/test/call_answers.py compares:
 *     shown show ORDER FLAGS     what each message says
 *     shown diff ORDER FLAGS     of each two lines what changed from the first message to the second */
#include <stdio.h>
#include <stdlib.h>
#include <string.h>

#include "linkwire.h"

static int failures;

static void expect(int line, const char *what, long found, long want) {
    if (found != want) {
        fprintf(stderr, "shown.c:%d: %s is %ld and not %ld\n", line, what, found, want);
        failures++;
    }
}

#define EXPECT(call, want) expect(__LINE__, #call, (long)(call), (long)(want))

#define HEADER 0, 0, 1, 0, 7, 0, 0, 0, 0x43, 0, 1, 0, 0, 0, 0, 0
#define NAME 7, 0, 3, 0, 'l', 'o', 0, 0
#define MTU(low) 8, 0, 4, 0, low, 5, 0, 0
#define CHANGES(low) 8, 0, 35, 0, low, 0, 0, 0

#define ALIAS(last) 6, 0, 20, 0, 'a', last, 0, 0

static const uint8_t message[] = {HEADER, NAME, MTU(0xdc), CHANGES(1)};
static const uint8_t turned[] = {HEADER, NAME, MTU(0xdd), CHANGES(2), ALIAS(0)};
static const uint8_t counted[] = {HEADER, NAME, MTU(0xdc), CHANGES(2)};
static const uint8_t wrong[] = {HEADER, 6, 0, 3, 0, 0xff, 0};
static const uint8_t kept[] = {HEADER, NAME, ALIAS(0xe9), MTU(0xdc), CHANGES(1)};
static const uint8_t kept_too[] = {HEADER, NAME, ALIAS(0xe8), MTU(0xdc), CHANGES(1)};
static const uint8_t ports[] = {HEADER, 8, 0, 24, 0, 4, 0, 2, 0};

/* A port of a bridge with one VLAN, and with another one behind it: a list of one element, and of two. */
#define BRIDGE_PORT 7, 0, 0, 0, 2, 0, 0, 0, 0, 0, 0, 0, 0, 0, 0, 0
static const uint8_t one_vlan[] = {BRIDGE_PORT, 12, 0, 26, 0, 8, 0, 2, 0, 6, 0, 1, 0};
static const uint8_t vlans[] = {BRIDGE_PORT, 20, 0, 26, 0, 8, 0, 2, 0, 6, 0, 1, 0, 8, 0, 2, 0, 0, 0, 9, 0};
/* The one VLAN, and behind it a damaged element: of two bytes, and of three. */
static const uint8_t damaged[] = {BRIDGE_PORT, 20, 0, 26, 0, 8, 0, 2, 0, 6, 0, 1, 0, 6, 0, 2, 0, 'a', 'b', 0, 0};
static const uint8_t damaged_too[] = {BRIDGE_PORT, 20, 0, 26, 0, 8, 0, 2, 0, 6, 0, 1, 0, 7, 0, 2, 0, 'a', 'b', 'c', 0};
static const char one_said[] = "{\"ifi-family\":7,\"ifi-type\":0,\"ifi-index\":2,\"ifi-flags\":[],\"ifi-change\":0,"
                               "\"af-spec\":{\"vlan-info\":[{\"flags\":[\"pvid\",\"untagged\"],\"vid\":1}]}}";
static const char vlans_said[] = "{\"ifi-family\":7,\"ifi-type\":0,\"ifi-index\":2,\"ifi-flags\":[],\"ifi-change\":0,"
                                 "\"af-spec\":{\"vlan-info\":[{\"flags\":[\"pvid\",\"untagged\"],\"vid\":1},"
                                 "{\"flags\":[],\"vid\":9}]}}";
static const char vlan_came[] = "[{\"path\":\"af-spec.vlan-info[vid=9]\",\"new\":{\"flags\":[],\"vid\":9}}]";
static const char damage_turned[] = "[{\"path\":\"af-spec.vlan-info.1\",\"old\":\"6162\",\"new\":\"616263\"}]";
static const char damage_went[] = "[{\"path\":\"af-spec.vlan-info.0.flags\",\"old\":[\"pvid\",\"untagged\"]},"
                                  "{\"path\":\"af-spec.vlan-info.0.vid\",\"old\":1},"
                                  "{\"path\":\"af-spec.vlan-info.1\",\"old\":\"6162\"},"
                                  "{\"path\":\"af-spec.vlan-info[vid=1]\",\"new\":{\"flags\":[\"pvid\",\"untagged\"],"
                                  "\"vid\":1}}]";
/* The VLANs from 10 to 20, and those that get untagged or go: 10 to 14, which are a range, and 15. */
static const uint8_t range[] = {BRIDGE_PORT, 20, 0, 26, 0, 8, 0, 2, 0, 8, 0, 10, 0, 8, 0, 2, 0, 16, 0, 20, 0};
static const uint8_t less[] = {BRIDGE_PORT, 36, 0, 26, 0, 8, 0, 2, 0, 12, 0, 10, 0, 8, 0, 2, 0, 20, 0, 14, 0,
                               8,           0,  2, 0, 8, 0, 16, 0, 8, 0, 2, 0, 16, 0, 20, 0};
static const char range_turned[] = "[{\"path\":\"af-spec.vlan-info[vid=10-14].flags\",\"old\":[],"
                                   "\"new\":[\"untagged\"]},"
                                   "{\"path\":\"af-spec.vlan-info[vid=15]\",\"old\":{\"flags\":[],\"vid\":15}}]";
static const char range_came[] = "[{\"path\":\"af-spec.vlan-info[vid=1]\",\"old\":{\"flags\":[\"pvid\",\"untagged\"],"
                                 "\"vid\":1}},{\"path\":\"af-spec.vlan-info[vid=10-20]\",\"new\":{\"flags\":[],"
                                 "\"vid\":10,\"vid-end\":20}}]";

static const char said[] = "{\"ifi-family\":0,\"ifi-type\":1,\"ifi-index\":7,\"ifi-flags\":[\"up\",\"broadcast\","
                           "\"running\",\"lower-up\"],\"ifi-change\":0,\"ifname\":\"lo\",\"mtu\":1500,"
                           "\"carrier-changes\":1}";
static const char refused[] = "{\"fault\":\"not-utf8\",\"at\":\"IFLA_IFNAME\",\"offset\":16,\"ifi-family\":0,"
                              "\"ifi-index\":7,\"before\":{}}";
static const char refused_leniently[] = "{\"ifi-family\":0,\"ifi-type\":1,\"ifi-index\":7,\"ifi-flags\":[\"up\","
                                        "\"broadcast\",\"running\",\"lower-up\"],\"ifi-change\":0,\"refused\":[{"
                                        "\"at\":\"IFLA_IFNAME\",\"fault\":\"not-utf8\",\"offset\":16,"
                                        "\"payload\":\"ff00\"}]}";
static const char too_short[] = "{\"fault\":\"too-short\",\"at\":\"header\",\"got\":3,\"need\":16,\"offset\":0}";

/* What a call returns that is given a buffer of so many bytes; the bytes behind the answer, or all, are to be kept. */
static void answers(int line, const char *want, ptrdiff_t (*call)(char *out, size_t cap)) {
    size_t len = strlen(want), caps[] = {0, len - 1, len, len + 9};
    char out[512];
    for (size_t i = 0; i < sizeof caps / sizeof *caps; i++) {
        size_t written = caps[i] < len ? 0 : len;
        memset(out, 0x55, sizeof out);
        expect(line, "the length", call(out, caps[i]), (long)len);
        expect(line, "the answer", memcmp(out, want, written), 0);
        for (size_t at = written; at < sizeof out; at++) {
            expect(line, "a byte that is kept", out[at], 0x55);
        }
    }
}

#define CALL(name, call)                                                                                              \
    static ptrdiff_t name(char *out, size_t cap) {                                                                    \
        return call;                                                                                                  \
    }

CALL(shows, linkwire_show(message, sizeof message, 0, 0, out, cap))
CALL(shows_fault, linkwire_show(wrong, sizeof wrong, 7, 0, out, cap))
CALL(shows_nothing, linkwire_show(message, 3, 0, 0, out, cap))
CALL(shows_leniently, linkwire_show(message, sizeof message, 0, LINKWIRE_LENIENT, out, cap))
CALL(shows_refused, linkwire_show(wrong, sizeof wrong, 0, LINKWIRE_LENIENT | LINKWIRE_COUNTERS, out, cap))
CALL(shows_nothing_leniently, linkwire_show(message, 3, 0, LINKWIRE_LENIENT, out, cap))
CALL(shows_no_counter, linkwire_show(message, sizeof message, 0, LINKWIRE_COUNTERS, out, cap))

CALL(shows_one_vlan, linkwire_show(one_vlan, sizeof one_vlan, 0, 0, out, cap))
CALL(shows_vlans, linkwire_show(vlans, sizeof vlans, 0, LINKWIRE_LENIENT, out, cap))

static const char changed[] = "[{\"path\":\"mtu\",\"old\":1500,\"new\":1501},{\"path\":\"ifalias\",\"new\":\"a\"}]";
static const char changed_back[] = "[{\"path\":\"mtu\",\"old\":1501,\"new\":1500},"
                                   "{\"path\":\"ifalias\",\"old\":\"a\"}]";
static const char changed_all[] = "[{\"path\":\"mtu\",\"old\":1500,\"new\":1501},"
                                  "{\"path\":\"carrier-changes\",\"old\":1,\"new\":2},"
                                  "{\"path\":\"ifalias\",\"new\":\"a\"}]";

#define DIFF(old_message, new_message, flags)                                                                         \
    linkwire_diff(old_message, sizeof old_message, new_message, sizeof new_message, 0, flags, out, cap)

CALL(tells, DIFF(message, turned, 0))
CALL(tells_back, DIFF(turned, message, 0))
CALL(tells_counters, DIFF(message, turned, LINKWIRE_COUNTERS))
CALL(tells_leniently, DIFF(message, turned, LINKWIRE_LENIENT))
CALL(tells_all, DIFF(message, turned, LINKWIRE_LENIENT | LINKWIRE_COUNTERS))
CALL(tells_vlan, DIFF(one_vlan, vlans, 0))
CALL(tells_range, DIFF(one_vlan, range, 0))
CALL(tells_less, DIFF(range, less, LINKWIRE_LENIENT))
CALL(tells_damage, DIFF(damaged, damaged_too, 0))
CALL(tells_no_damage, DIFF(damaged, one_vlan, LINKWIRE_LENIENT | LINKWIRE_COUNTERS))

/* What writes nothing into a buffer: equal messages, and what is refused. */
static void writes_nothing(void) {
    char out[512];
    size_t cap = sizeof out;
    memset(out, 0x55, sizeof out);
    for (uint32_t flags = 4; flags != 0; flags *= 2) {
        EXPECT(linkwire_show(message, sizeof message, 0, flags, out, cap), LINKWIRE_UNKNOWN_FLAG);
        EXPECT(linkwire_show(message, sizeof message, 0, flags | LINKWIRE_LENIENT, out, cap), LINKWIRE_UNKNOWN_FLAG);
        EXPECT(DIFF(message, turned, flags), LINKWIRE_UNKNOWN_FLAG);
        EXPECT(DIFF(wrong, turned, flags), LINKWIRE_UNKNOWN_FLAG);
    }
    for (uint32_t flags = 0; flags < 4; flags++) {
        EXPECT(DIFF(message, message, flags), 0);
        EXPECT(linkwire_diff(message, 15, wrong, 3, 0, flags, out, cap), LINKWIRE_TOO_SHORT);
        EXPECT(linkwire_diff(message, sizeof message, wrong, 3, 0, flags, out, cap), LINKWIRE_TOO_SHORT);
        EXPECT(linkwire_diff(message, 17, wrong, 3, 0, flags, out, cap), LINKWIRE_FRAME_SHORT);
        EXPECT(DIFF(ports, message, flags), LINKWIRE_EMPTY_PORTS);
        EXPECT(DIFF(message, ports, flags), LINKWIRE_EMPTY_PORTS);
    }
    EXPECT(DIFF(message, counted, 0), 0);
    EXPECT(DIFF(message, counted, LINKWIRE_LENIENT), 0);
    EXPECT(DIFF(kept, kept, LINKWIRE_LENIENT), 0);
    EXPECT(DIFF(wrong, kept, 0), LINKWIRE_NOT_UTF8);
    EXPECT(DIFF(message, kept, LINKWIRE_COUNTERS), LINKWIRE_NOT_UTF8);
    EXPECT(DIFF(kept, ports, 0), LINKWIRE_NOT_UTF8);
    EXPECT(DIFF(ports, kept, 0), LINKWIRE_EMPTY_PORTS);
    for (size_t at = 0; at < sizeof out; at++) {
        EXPECT(out[at], 0x55);
    }
    EXPECT(DIFF(message, counted, LINKWIRE_COUNTERS) > 0, 1);
    EXPECT(DIFF(kept, kept_too, LINKWIRE_LENIENT) > 0, 1);
    EXPECT(DIFF(message, kept, LINKWIRE_LENIENT) > 0, 1);
}

static void orders(void) {
    static const char *const before[] = {"5.10.0", "6.12.0-47-generic", "6.12", "2.6", "6.1"};
    static const char *const unknown[] = {"6.13", "6.15.9", "", "6", "six.12", "6.", ".12", " 6.12"};
    static const char *const since[] = {"6.16.0", "6.16", "6.18.3", "7.0", "99999999999999999999.1"};
    for (size_t i = 0; i < sizeof before / sizeof *before; i++) {
        EXPECT(linkwire_order(before[i], strlen(before[i])), LINKWIRE_ORDER_BEFORE);
    }
    for (size_t i = 0; i < sizeof unknown / sizeof *unknown; i++) {
        EXPECT(linkwire_order(unknown[i], strlen(unknown[i])), LINKWIRE_ORDER_UNKNOWN);
    }
    for (size_t i = 0; i < sizeof since / sizeof *since; i++) {
        EXPECT(linkwire_order(since[i], strlen(since[i])), LINKWIRE_ORDER_SINCE);
    }
    EXPECT(linkwire_order("6.169", 4), LINKWIRE_ORDER_SINCE);
    EXPECT(linkwire_order("6.169", 3), LINKWIRE_ORDER_BEFORE);
}

/* ** lines */

enum { MOST = 1 << 20 };
static uint8_t room[MOST];
static char line[2 * MOST + 2], out[16 * MOST];

static unsigned digit(char c) {
    return (unsigned)(c <= '9' ? c - '0' : c - 'a' + 10);
}

/* The bytes of the next line, or -1 at the end. */
static long read_message(void) {
    long len = 0;
    if (fgets(line, sizeof line, stdin) == NULL) {
        return -1;
    }
    for (; line[2 * len] > ' ' && line[2 * len + 1] > ' '; len++) {
        room[len] = (uint8_t)(digit(line[2 * len]) << 4 | digit(line[2 * len + 1]));
    }
    return len;
}

static int print_answer(ptrdiff_t len) {
    if (len < 0) {
        printf("%ld\n", (long)len);
    } else {
        printf("%.*s\n", (int)len, out);
    }
    return len > (ptrdiff_t)sizeof out;
}

static int show_lines(uint32_t order, uint32_t flags) {
    long len;
    while ((len = read_message()) >= 0) {
        if (print_answer(linkwire_show(room, (size_t)len, order, flags, out, sizeof out))) {
            return 1;
        }
    }
    return 0;
}

static int diff_lines(uint32_t order, uint32_t flags) {
    static uint8_t before[MOST];
    long old_len, len;
    while ((old_len = read_message()) >= 0) {
        memcpy(before, room, (size_t)old_len);
        if ((len = read_message()) < 0 ||
            print_answer(linkwire_diff(before, (size_t)old_len, room, (size_t)len, order, flags, out, sizeof out))) {
            return 1;
        }
    }
    return 0;
}

int main(int count, char **words) {
    if (count == 4) {
        uint32_t order = (uint32_t)atoi(words[2]), flags = (uint32_t)atoi(words[3]);
        return strcmp(words[1], "diff") == 0 ? diff_lines(order, flags) : show_lines(order, flags);
    }
    answers(__LINE__, said, shows);
    answers(__LINE__, refused, shows_fault);
    answers(__LINE__, too_short, shows_nothing);
    answers(__LINE__, said, shows_leniently);
    answers(__LINE__, said, shows_no_counter);
    answers(__LINE__, refused_leniently, shows_refused);
    answers(__LINE__, too_short, shows_nothing_leniently);
    answers(__LINE__, changed, tells);
    answers(__LINE__, changed_back, tells_back);
    answers(__LINE__, changed_all, tells_counters);
    answers(__LINE__, changed, tells_leniently);
    answers(__LINE__, changed_all, tells_all);
    answers(__LINE__, one_said, shows_one_vlan);
    answers(__LINE__, vlans_said, shows_vlans);
    answers(__LINE__, vlan_came, tells_vlan);
    answers(__LINE__, range_came, tells_range);
    answers(__LINE__, range_turned, tells_less);
    answers(__LINE__, damage_turned, tells_damage);
    answers(__LINE__, damage_went, tells_no_damage);
    writes_nothing();
    orders();
    return failures != 0;
}
