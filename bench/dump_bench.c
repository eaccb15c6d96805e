/* Times the functions of linkwire.h on messages as kernels send them (linux/if_link.h), beside a plain copy of each,
 * and what a byte costs as a message grows. Processor time, the best of several rounds. */
#include <linux/if_link.h>
#include <stdint.h>
#include <stdio.h>
#include <stdlib.h>
#include <string.h>
#include <sys/socket.h>
#include <time.h>

#include "linkwire.h"

enum { ROUNDS = 9, MOST = 1600000 };

static uint8_t message[MOST], out[LINKWIRE_GROWTH * (size_t)MOST];
static size_t len;

static void put(const void *bytes, size_t count) {
    if (bytes == NULL) {
        memset(message + len, 0x11, count);
    } else {
        memcpy(message + len, bytes, count);
    }
    len += count;
}

/* Opens an attribute, and returns where it starts. */
static size_t opens(uint16_t kind) {
    size_t at = len;
    const uint8_t header[4] = {0, 0, kind & 0xff, kind >> 8};
    put(header, 4);
    return at;
}

/* Closes it: its length, and zeros up to a multiple of four. */
static void closes(size_t at) {
    size_t value = len - at;
    message[at] = value & 0xff;
    message[at + 1] = value >> 8;
    while (len % 4 != 0) {
        message[len++] = 0;
    }
}

static void value(uint16_t kind, const void *bytes, size_t count) {
    size_t at = opens(kind);
    put(bytes, count);
    closes(at);
}

static void texts(uint16_t kind, const char *text) {
    value(kind, text, strlen(text) + 1);
}

static void header(void) {
    static const uint8_t bytes[16] = {0, 0, 1, 0, 2, 0, 0, 0, 0x43, 0x10, 1, 0, 0, 0, 0, 0};
    len = 0;
    put(bytes, sizeof bytes);
}

static void short_one(void) {
    header();
    texts(IFLA_IFNAME, "");
}

/* A kind and the length of its value. */
/* Two numbers that older headers lack, and one that is not listed. */
enum { GSO_IPV4_MAX_SIZE = 63, GRO_IPV4_MAX_SIZE = 64, UNLISTED = 99 };

struct sized {
    uint16_t kind;
    uint16_t count;
};

static void values(const struct sized *rows, size_t count) {
    for (size_t i = 0; i < count; i++) {
        value(rows[i].kind, NULL, rows[i].count);
    }
}

#define VALUES(rows) values(rows, sizeof rows / sizeof *rows)

/* Settings and statistics of both families. */
static void settings(void) {
    static const struct sized rows[] = {
        {IFLA_INET6_FLAGS, 4},   {IFLA_INET6_CACHEINFO, 16},  {IFLA_INET6_CONF, 240},
        {IFLA_INET6_STATS, 304}, {IFLA_INET6_ICMP6STATS, 56}, {IFLA_INET6_TOKEN, 16},
        {IFLA_INET6_ADDR_GEN_MODE, 1},
    };
    size_t spec = opens(IFLA_AF_SPEC), inet = opens(AF_INET);
    value(IFLA_INET_CONF, NULL, 132);
    closes(inet);
    size_t inet6 = opens(AF_INET6);
    VALUES(rows);
    closes(inet6);
    closes(spec);
}

/* One interface as a dump of links shows it. */
static void interface(void) {
    static const uint16_t numbers[] = {
        IFLA_TXQLEN,           IFLA_MTU,           IFLA_MIN_MTU,         IFLA_MAX_MTU,          IFLA_GROUP,
        IFLA_PROMISCUITY,      IFLA_ALLMULTI,      IFLA_NUM_TX_QUEUES,   IFLA_GSO_MAX_SEGS,     IFLA_GSO_MAX_SIZE,
        IFLA_GRO_MAX_SIZE,     IFLA_TSO_MAX_SIZE,  IFLA_TSO_MAX_SEGS,    GSO_IPV4_MAX_SIZE,     GRO_IPV4_MAX_SIZE,
        IFLA_NUM_RX_QUEUES,    IFLA_CARRIER_CHANGES, IFLA_CARRIER_UP_COUNT, IFLA_CARRIER_DOWN_COUNT,
    };
    static const struct sized records[] = {
        {IFLA_MAP, 32},         {IFLA_ADDRESS, 6},   {IFLA_BROADCAST, 6},
        {IFLA_PERM_ADDRESS, 6}, {IFLA_STATS64, 200}, {IFLA_STATS, 96},
    };
    header();
    texts(IFLA_IFNAME, "enp0s31f6");
    for (size_t i = 0; i < sizeof numbers / sizeof *numbers; i++)
        value(numbers[i], NULL, 4);
    value(IFLA_OPERSTATE, "\6", 1);
    value(IFLA_LINKMODE, "", 1);
    value(IFLA_CARRIER, "\1", 1);
    value(IFLA_PROTO_DOWN, "", 1);
    texts(IFLA_QDISC, "fq_codel");
    VALUES(records);
    size_t xdp = opens(IFLA_XDP);
    value(IFLA_XDP_ATTACHED, "", 1);
    closes(xdp);
    settings();
    texts(IFLA_PARENT_DEV_NAME, "0000:00:1f.6");
    texts(IFLA_PARENT_DEV_BUS_NAME, "pci");
}

/* One interface with 128 virtual functions. */
static void functions(void) {
    static const struct sized before[] = {{IFLA_VF_MAC, 36}, {IFLA_VF_BROADCAST, 32}, {IFLA_VF_VLAN, 12}};
    static const struct sized after[] = {
        {IFLA_VF_TX_RATE, 8}, {IFLA_VF_SPOOFCHK, 8}, {IFLA_VF_LINK_STATE, 8}, {IFLA_VF_RATE, 12}, {IFLA_VF_TRUST, 8},
    };
    header();
    texts(IFLA_IFNAME, "enp1s0f0");
    size_t list = opens(IFLA_VFINFO_LIST);
    for (int i = 0; i < 128; i++) {
        size_t one = opens(IFLA_VF_INFO);
        VALUES(before);
        size_t vlans = opens(IFLA_VF_VLAN_LIST);
        value(IFLA_VF_VLAN_INFO, NULL, 16);
        closes(vlans);
        VALUES(after);
        closes(one);
    }
    closes(list);
}

/* A message of about so many bytes, of names, numbers and kept attributes. */
static void of_length(size_t want) {
    header();
    while (len + 40 < want) {
        texts(IFLA_IFNAME, "eth0.100");
        value(IFLA_MTU, NULL, 4);
        value(UNLISTED, NULL, 9);
    }
}

static long copy(void) {
    memcpy(out, message, len);
    __asm__ volatile("" : : "r"(out) : "memory");
    return 0;
}

static long check(void) {
    return linkwire_check(message, len);
}

static long canonical(void) {
    return linkwire_canonical(message, len, out, sizeof out);
}

static long measure(void) {
    return linkwire_canonical_len(message, len);
}

static double seconds(void) {
    struct timespec now;
    clock_gettime(CLOCK_PROCESS_CPUTIME_ID, &now);
    return now.tv_sec + now.tv_nsec * 1e-9;
}

/* Nanoseconds of one call, of as many as read some megabytes. */
static double once(const char *name, long (*call)(void)) {
    size_t calls = 8000000 / (len + 1000) + 1;
    double start = seconds();
    for (size_t i = 0; i < calls; i++) {
        if (call() < 0) {
            fprintf(stderr, "%s answers %ld for %zu bytes\n", name, call(), len);
            exit(1);
        }
    }
    return (seconds() - start) * 1e9 / calls;
}

static double less(double a, double b) {
    return a < b ? a : b;
}

/* The best of several rounds. */
static double times(const char *name, long (*call)(void)) {
    double best = once(name, call);
    for (int round = 1; round < ROUNDS; round++) {
        best = less(best, once(name, call));
    }
    return best;
}

static void line(const char *what) {
    double copied = times("memcpy", copy), checked = times("linkwire_check", check);
    double written = times("linkwire_canonical", canonical), made = times("linkwire_canonical_len", measure);
    printf("%-24s %8zu %8.0f %8.0f (%4.0f) %8.0f (%4.0f) %8.0f (%4.0f)\n", what, len, copied, checked,
           len / checked * 1e3,
           written, len / written * 1e3, made, len / made * 1e3);
}

/* What a byte costs in messages of four lengths, each round over all of them. */
static void growth(const char *name, long (*call)(void)) {
    static const size_t lengths[] = {1000, 10000, 100000, 1500000};
    enum { COUNT = sizeof lengths / sizeof *lengths };
    double best[COUNT];
    for (int round = 0; round < ROUNDS; round++) {
        for (size_t i = 0; i < COUNT; i++) {
            of_length(lengths[i]);
            double cost = once(name, call) / len;
            best[i] = round == 0 ? cost : less(best[i], cost);
        }
    }
    printf("%-24s ns a byte:", name);
    for (size_t i = 0; i < COUNT; i++) {
        printf(" %zu: %.2f", lengths[i], best[i]);
    }
    printf("\n");
}

int main(void) {
    printf("%-24s %8s %8s %15s %15s %15s\n", "ns a message (MB/s)", "bytes", "memcpy", "check", "canonical",
           "canonical_len");
    short_one();
    line("a header and a name");
    interface();
    line("an interface");
    functions();
    line("128 virtual functions");
    growth("linkwire_check", check);
    growth("linkwire_canonical", canonical);
    growth("linkwire_canonical_len", measure);
    return 0;
}
