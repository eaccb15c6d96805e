/* Tries the laws of linkwire.h on messages that a seed makes: valid ones from tables of every kind and depth, and
 * damaged ones. Each message and each buffer ends right before a page that cannot be touched, and in a second round
 * starts right after one; what is only read cannot be written.
 *
 *     laws [MESSAGES [SEED]]      laws --seconds N [SEED]
 *
 * A failure prints the message's own seed, with which `laws 1 SEED` tries it alone, and the bytes. A signal, a
 * sanitizer's report and a call that does not return are failures too.
 */
#include <linux/devlink.h>
#include <linux/if_link.h>
#include <linux/wireless.h>
#include <signal.h>
#include <stdio.h>
#include <stdlib.h>
#include <string.h>
#include <sys/mman.h>
#include <sys/socket.h>
#include <sys/wait.h>
#include <time.h>
#include <unistd.h>

#include "mask.h"

enum { PAGE = 4096, MOST = 1 << 17, ROOM = 1 << 21, TOUCHED = 2, SECONDS = 60 };

/* What a sanitizer finds ends in a signal too, so that the seed is told. */
const char *__asan_default_options(void);
const char *__asan_default_options(void) {
    return "abort_on_error=1";
}

const char *__ubsan_default_options(void);
const char *__ubsan_default_options(void) {
    return "abort_on_error=1";
}

/* The message that is tried. */
static uint64_t seed;
static uint8_t tried[MOST], other[MOST];
static size_t tried_len, other_len;

static void print_hex(const char *name, const uint8_t *bytes, size_t len) {
    fprintf(stderr, "%s ", name);
    for (size_t i = 0; i < len; i++) {
        fprintf(stderr, "%02x", bytes[i]);
    }
    fprintf(stderr, "\n");
}

static void tell(const char *law) {
    fprintf(stderr, "laws: seed %llu: %s\n", (unsigned long long)seed, law);
    print_hex("message", tried, tried_len);
    print_hex("other", other, other_len);
}

static void refuse(int line, const char *law) {
    fprintf(stderr, "laws.c:%d: ", line);
    tell(law);
    exit(1);
}

#define LAW(law) ((law) ? (void)0 : refuse(__LINE__, #law))

/* Random numbers. */

static uint64_t drawn;

static uint64_t draw(void) {
    uint64_t mixed = drawn += 0x9e3779b97f4a7c15u;
    mixed = (mixed ^ mixed >> 30) * 0xbf58476d1ce4e5b9u;
    mixed = (mixed ^ mixed >> 27) * 0x94d049bb133111ebu;
    return mixed ^ mixed >> 31;
}

static size_t below(size_t bound) {
    return (size_t)(draw() % bound);
}

static int one_in(size_t bound) {
    return below(bound) == 0;
}

/* The tables: of each number what its payload is. */

enum place {
    NO_PLACE, MESSAGE, FUNCTIONS, FUNCTION, COUNTS, VLANS, PORTS, PORT, PROPS, DEVLINK, DPLL, REASONS, XDP, INFO, SPECS,
    INET, INET6, MCTP, DATA, SLAVE_DATA, QUERIERS, ANY, PLACES
};

enum shape {
    BYTES,    /* any bytes */
    TEXT,     /* UTF-8, and perhaps a NUL */
    EXACT,    /* so many bytes */
    AT_LEAST, /* so many bytes, or more */
    FILLED,   /* a record of so many bytes, cut or filled up */
    EVENT,    /* a wireless event */
    KIND,     /* a kind of device, most often one that has data which is looked into */
    LIST,     /* attributes of another place */
    BY_FAMILY /* what the header's family says */
};

struct line {
    uint16_t number;
    uint8_t shape;
    uint8_t place;
    uint16_t size;
};

#define EXACTLY(number, size) {number, EXACT, NO_PLACE, size}

static const struct line message_lines[] = {
    {IFLA_ADDRESS, BYTES, 0, 0}, {IFLA_BROADCAST, BYTES, 0, 0}, {IFLA_IFNAME, TEXT, 0, 0}, EXACTLY(IFLA_MTU, 4),
    EXACTLY(IFLA_LINK, 4), {IFLA_QDISC, TEXT, 0, 0}, {IFLA_STATS, FILLED, 0, 96}, EXACTLY(IFLA_MASTER, 4),
    {IFLA_WIRELESS, EVENT, 0, 0}, {IFLA_PROTINFO, BY_FAMILY, 0, 0}, EXACTLY(IFLA_TXQLEN, 4),
    {IFLA_MAP, AT_LEAST, 0, sizeof(struct rtnl_link_ifmap)}, EXACTLY(IFLA_OPERSTATE, 1), EXACTLY(IFLA_LINKMODE, 1),
    {IFLA_LINKINFO, LIST, INFO, 0}, EXACTLY(IFLA_NET_NS_PID, 4), {IFLA_IFALIAS, TEXT, 0, 0}, EXACTLY(IFLA_NUM_VF, 4),
    {IFLA_VFINFO_LIST, LIST, FUNCTIONS, 0}, {IFLA_VFINFO_LIST, LIST, FUNCTIONS, 0}, {IFLA_STATS64, FILLED, 0, 200},
    {IFLA_VF_PORTS, LIST, PORTS, 0}, {IFLA_PORT_SELF, LIST, PORT, 0}, {IFLA_AF_SPEC, BY_FAMILY, 0, 0},
    {IFLA_AF_SPEC, BY_FAMILY, 0, 0}, EXACTLY(IFLA_GROUP, 4), EXACTLY(IFLA_NET_NS_FD, 4), EXACTLY(IFLA_EXT_MASK, 4),
    EXACTLY(IFLA_PROMISCUITY, 4), EXACTLY(IFLA_NUM_TX_QUEUES, 4), EXACTLY(IFLA_NUM_RX_QUEUES, 4),
    EXACTLY(IFLA_CARRIER, 1), {IFLA_PHYS_PORT_ID, BYTES, 0, 0}, EXACTLY(IFLA_CARRIER_CHANGES, 4),
    {IFLA_PHYS_SWITCH_ID, BYTES, 0, 0}, EXACTLY(IFLA_LINK_NETNSID, 4), {IFLA_PHYS_PORT_NAME, TEXT, 0, 0},
    EXACTLY(IFLA_PROTO_DOWN, 1), EXACTLY(IFLA_GSO_MAX_SEGS, 4), EXACTLY(IFLA_GSO_MAX_SIZE, 4), {IFLA_XDP, LIST, XDP, 0},
    EXACTLY(IFLA_EVENT, 4), EXACTLY(IFLA_NEW_NETNSID, 4), EXACTLY(IFLA_IF_NETNSID, 4),
    EXACTLY(IFLA_CARRIER_UP_COUNT, 4), EXACTLY(IFLA_CARRIER_DOWN_COUNT, 4), EXACTLY(IFLA_NEW_IFINDEX, 4),
    EXACTLY(IFLA_MIN_MTU, 4), EXACTLY(IFLA_MAX_MTU, 4), {IFLA_PROP_LIST, LIST, PROPS, 0},
    {IFLA_PERM_ADDRESS, BYTES, 0, 0}, {IFLA_PROTO_DOWN_REASON, LIST, REASONS, 0},
    /* Headers of Linux 5.10 have no name of these. */
    {56, TEXT, 0, 0},       /* IFLA_PARENT_DEV_NAME */
    {57, TEXT, 0, 0},       /* IFLA_PARENT_DEV_BUS_NAME */
    EXACTLY(58, 4),         /* IFLA_GRO_MAX_SIZE */
    EXACTLY(59, 4),         /* IFLA_TSO_MAX_SIZE */
    EXACTLY(60, 4),         /* IFLA_TSO_MAX_SEGS */
    EXACTLY(61, 4),         /* IFLA_ALLMULTI */
    {62, LIST, DEVLINK, 0}, /* IFLA_DEVLINK_PORT */
    EXACTLY(63, 4),         /* IFLA_GSO_IPV4_MAX_SIZE */
    EXACTLY(64, 4),         /* IFLA_GRO_IPV4_MAX_SIZE */
    {65, LIST, DPLL, 0},    /* IFLA_DPLL_PIN */
    EXACTLY(67, 1),         /* IFLA_NETNS_IMMUTABLE */
    EXACTLY(68, 2),         /* IFLA_HEADROOM */
    EXACTLY(69, 2),         /* IFLA_TAILROOM */
};
static const struct line functions_lines[] = {{IFLA_VF_INFO, LIST, FUNCTION, 0}};
static const struct line function_lines[] = {
    {IFLA_VF_MAC, AT_LEAST, 0, sizeof(struct ifla_vf_mac)}, {IFLA_VF_VLAN, AT_LEAST, 0, sizeof(struct ifla_vf_vlan)},
    {IFLA_VF_TX_RATE, AT_LEAST, 0, sizeof(struct ifla_vf_tx_rate)},
    {IFLA_VF_SPOOFCHK, AT_LEAST, 0, sizeof(struct ifla_vf_spoofchk)},
    {IFLA_VF_LINK_STATE, AT_LEAST, 0, sizeof(struct ifla_vf_link_state)},
    {IFLA_VF_RATE, AT_LEAST, 0, sizeof(struct ifla_vf_rate)},
    {IFLA_VF_RSS_QUERY_EN, AT_LEAST, 0, sizeof(struct ifla_vf_rss_query_en)}, {IFLA_VF_STATS, LIST, COUNTS, 0},
    {IFLA_VF_TRUST, AT_LEAST, 0, sizeof(struct ifla_vf_trust)},
    {IFLA_VF_IB_NODE_GUID, AT_LEAST, 0, sizeof(struct ifla_vf_guid)},
    {IFLA_VF_IB_PORT_GUID, AT_LEAST, 0, sizeof(struct ifla_vf_guid)}, {IFLA_VF_VLAN_LIST, LIST, VLANS, 0},
    {IFLA_VF_BROADCAST, AT_LEAST, 0, sizeof(struct ifla_vf_broadcast)},
};
static const struct line counts_lines[] = {
    EXACTLY(IFLA_VF_STATS_RX_PACKETS, 8), EXACTLY(IFLA_VF_STATS_TX_PACKETS, 8), EXACTLY(IFLA_VF_STATS_RX_BYTES, 8),
    EXACTLY(IFLA_VF_STATS_TX_BYTES, 8), EXACTLY(IFLA_VF_STATS_BROADCAST, 8), EXACTLY(IFLA_VF_STATS_MULTICAST, 8),
    EXACTLY(IFLA_VF_STATS_RX_DROPPED, 8), EXACTLY(IFLA_VF_STATS_TX_DROPPED, 8),
};
static const struct line vlans_lines[] = {{IFLA_VF_VLAN_INFO, AT_LEAST, 0, sizeof(struct ifla_vf_vlan_info)}};
static const struct line ports_lines[] = {{IFLA_VF_PORT, LIST, PORT, 0}};
static const struct line props_lines[] = {{IFLA_ALT_IFNAME, TEXT, 0, 0}};
static const struct line devlink_lines[] = {
    {DEVLINK_ATTR_BUS_NAME, TEXT, 0, 0}, {DEVLINK_ATTR_DEV_NAME, TEXT, 0, 0}, EXACTLY(DEVLINK_ATTR_PORT_INDEX, 4),
};
static const struct line dpll_lines[] = {EXACTLY(1, 4)}; /* DPLL_A_PIN_ID, which headers of Linux 6.1 lack */
static const struct line reasons_lines[] = {
    EXACTLY(IFLA_PROTO_DOWN_REASON_MASK, 4), EXACTLY(IFLA_PROTO_DOWN_REASON_VALUE, 4),
};
static const struct line xdp_lines[] = {
    EXACTLY(IFLA_XDP_FD, 4), EXACTLY(IFLA_XDP_ATTACHED, 1), EXACTLY(IFLA_XDP_FLAGS, 4), EXACTLY(IFLA_XDP_PROG_ID, 4),
    EXACTLY(IFLA_XDP_DRV_PROG_ID, 4), EXACTLY(IFLA_XDP_SKB_PROG_ID, 4), EXACTLY(IFLA_XDP_HW_PROG_ID, 4),
    EXACTLY(IFLA_XDP_EXPECTED_FD, 4),
};
static const struct line info_lines[] = {
    {IFLA_INFO_KIND, TEXT, 0, 0}, {IFLA_INFO_KIND, KIND, 0, 0}, {IFLA_INFO_DATA, LIST, DATA, 0},
    {IFLA_INFO_XSTATS, BYTES, 0, 0}, {IFLA_INFO_SLAVE_KIND, KIND, 0, 0}, {IFLA_INFO_SLAVE_DATA, LIST, SLAVE_DATA, 0},
};
/* Of each kind of device that has something which moves by itself, its numbers, and some that stay. */
static const struct line data_lines[] = {
    {5, BYTES, 0, 0}, {8, BYTES, 0, 0}, {IFLA_BR_HELLO_TIMER, BYTES, 0, 0}, {IFLA_BR_TCN_TIMER, BYTES, 0, 0},
    {IFLA_BR_TOPOLOGY_CHANGE_TIMER, BYTES, 0, 0}, {IFLA_BR_GC_TIMER, BYTES, 0, 0}, {47, LIST, QUERIERS, 0},
    {48, BYTES, 0, 0}, {1, BYTES, 0, 0}, {20, BYTES, 0, 0},
};
static const struct line slave_data_lines[] = {
    {3, BYTES, 0, 0}, {IFLA_BRPORT_TOPOLOGY_CHANGE_ACK, BYTES, 0, 0}, {IFLA_BRPORT_CONFIG_PENDING, BYTES, 0, 0},
    {IFLA_BRPORT_MESSAGE_AGE_TIMER, BYTES, 0, 0}, {IFLA_BRPORT_FORWARD_DELAY_TIMER, BYTES, 0, 0},
    {IFLA_BRPORT_HOLD_TIMER, BYTES, 0, 0}, {38, BYTES, 0, 0}, {41, BYTES, 0, 0}, {5, BYTES, 0, 0}, {6, BYTES, 0, 0},
};
static const struct line queriers_lines[] = {{3, BYTES, 0, 0}, {7, BYTES, 0, 0}, {1, BYTES, 0, 0}};
static const struct line specs_lines[] = {
    {AF_INET, LIST, INET, 0}, {AF_INET6, LIST, INET6, 0}, {45, LIST, MCTP, 0}, /* AF_MCTP */
};
static const struct line inet_lines[] = {{IFLA_INET_CONF, FILLED, 0, 136}};
static const struct line inet6_lines[] = {
    EXACTLY(IFLA_INET6_FLAGS, 4), {IFLA_INET6_CONF, FILLED, 0, 240}, {IFLA_INET6_STATS, FILLED, 0, 312},
    {IFLA_INET6_CACHEINFO, FILLED, 0, sizeof(struct ifla_cacheinfo)}, {IFLA_INET6_ICMP6STATS, FILLED, 0, 56},
    EXACTLY(IFLA_INET6_TOKEN, 16), EXACTLY(IFLA_INET6_ADDR_GEN_MODE, 1), EXACTLY(9, 4), /* IFLA_INET6_RA_MTU */
};
static const struct line mctp_lines[] = {EXACTLY(1, 4), EXACTLY(2, 1)}; /* IFLA_MCTP_NET, IFLA_MCTP_PHYS_BINDING */
static const struct line any_lines[] = {{1, BYTES, 0, 0}};

#define LINES(lines) {lines, sizeof(lines) / sizeof *(lines)}

static const struct table {
    const struct line *lines;
    size_t count;
} tables[PLACES] = {
    [MESSAGE] = LINES(message_lines), [FUNCTIONS] = LINES(functions_lines), [FUNCTION] = LINES(function_lines),
    [COUNTS] = LINES(counts_lines), [VLANS] = LINES(vlans_lines), [PORTS] = LINES(ports_lines),
    [PORT] = LINES(any_lines), [PROPS] = LINES(props_lines), [DEVLINK] = LINES(devlink_lines),
    [DPLL] = LINES(dpll_lines), [REASONS] = LINES(reasons_lines), [XDP] = LINES(xdp_lines),
    [INFO] = LINES(info_lines), [SPECS] = LINES(specs_lines), [INET] = LINES(inet_lines),
    [INET6] = LINES(inet6_lines), [MCTP] = LINES(mctp_lines), [DATA] = LINES(data_lines),
    [SLAVE_DATA] = LINES(slave_data_lines), [QUERIERS] = LINES(queriers_lines), [ANY] = LINES(any_lines),
};

/* The generator. */

struct text {
    uint8_t *bytes;
    size_t len;
    unsigned char family;
};

static void add(struct text *out, size_t count) {
    while (count-- > 0) {
        out->bytes[out->len++] = one_in(3) ? 0 : (uint8_t)draw();
    }
}

static void add_text(struct text *out) {
    static const char *const pieces[] = {
        "e", "th0", "\xc3\xa9", "\xe2\x82\xac", "\xf0\x9f\x90\xa7", "a b", "\x7f", ".5",
    };
    for (size_t count = below(5); count > 0; count--) {
        const char *piece = pieces[below(sizeof pieces / sizeof *pieces)];
        memcpy(out->bytes + out->len, piece, strlen(piece));
        out->len += strlen(piece);
    }
    if (one_in(40)) {
        out->bytes[out->len++] = (uint8_t)(0x80 + below(128)); /* alone it is no UTF-8 */
    }
    if (!one_in(4)) {
        out->bytes[out->len++] = 0;
    }
}

static void add_kind(struct text *out) {
    static const char *const kinds[] = {
        "bridge", "bridge", "bond", "can", "vcan", "hsr", "bridge_slave", "bridg", "veth", "",
    };
    const char *kind = kinds[below(sizeof kinds / sizeof *kinds)];
    size_t len = strlen(kind) + !one_in(8);
    memcpy(out->bytes + out->len, kind, len);
    out->len += len;
}

static void add_list(struct text *out, enum place place, size_t most);

static void add_by_family(struct text *out, uint16_t number) {
    if (number == IFLA_AF_SPEC && out->family == AF_UNSPEC) {
        add_list(out, SPECS, 4);
    } else if (number == IFLA_PROTINFO && out->family == AF_BRIDGE) {
        add_list(out, one_in(8) ? ANY : SLAVE_DATA, 4);
    } else if (number == IFLA_PROTINFO && out->family == AF_INET6) {
        add_list(out, one_in(8) ? ANY : INET6, 4);
    } else if (out->family == AF_BRIDGE) {
        add_list(out, ANY, 4);
    } else {
        add(out, below(30));
    }
}

static void add_payload(struct text *out, const struct line *line) {
    static const uint16_t commands[] = {IWEVASSOCREQIE, IWEVASSOCRESPIE, IWEVQUAL};
    size_t start = out->len;
    switch (line->shape) {
    case TEXT: add_text(out); break;
    case KIND: add_kind(out); break;
    case EXACT: add(out, line->size); break;
    case AT_LEAST: add(out, line->size + (one_in(4) ? below(9) : 0)); break;
    case FILLED: add(out, one_in(3) ? below(line->size + 12u) : line->size); break;
    case LIST: add_list(out, line->place, 5); break;
    case BY_FAMILY: add_by_family(out, line->number); break;
    case EVENT:
        add(out, 8 + below(30));
        memcpy(out->bytes + start + 2, &commands[below(3)], 2);
        break;
    default: add(out, below(40)); break;
    }
}

/* Where the frames of a message start, at each level. */
static size_t starts[MOST], starts_len;

static void close_frame(struct text *out, size_t start, uint16_t kind) {
    size_t len = out->len - start;
    starts[starts_len++] = start;
    out->bytes[start] = (uint8_t)len;
    out->bytes[start + 1] = (uint8_t)(len >> 8);
    out->bytes[start + 2] = (uint8_t)kind;
    out->bytes[start + 3] = (uint8_t)(kind >> 8);
}

/* Padding of zeros, of other bytes, or, after the last attribute, less of it. */
static void add_padding(struct text *out, size_t start, int is_last) {
    int is_odd = one_in(8);
    size_t count = -(out->len - start) & 3u;
    count = is_last && one_in(4) ? below(count + 1) : count;
    for (; count > 0; count--) {
        out->bytes[out->len++] = is_odd ? (uint8_t)draw() : 0;
    }
}

static void add_list(struct text *out, enum place place, size_t most) {
    const struct table *table = &tables[place];
    size_t count = one_in(16) ? 0 : 1 + below(most);
    for (size_t i = 0; i < count && out->len < MOST / 8; i++) {
        struct line line = table->lines[below(table->count)];
        uint16_t flags = one_in(8) ? (uint16_t)(below(4) << 14) : 0;
        size_t start = out->len;
        if (one_in(12)) { /* most often one that no line reads */
            line = (struct line){(uint16_t)below(one_in(2) ? 80 : 0x4000), BYTES, 0, 0};
        }
        out->len += 4;
        add_payload(out, &line);
        close_frame(out, start, line.number | flags);
        add_padding(out, start, i + 1 == count);
    }
}

/* A list of names without bytes: it grows, and with enough of them does not fit. */
static void add_many(struct text *out) {
    size_t start = out->len, count = 8160 + below(64);
    out->len += 4;
    for (; count > 0; count--) {
        size_t name = out->len;
        out->len += 4;
        close_frame(out, name, IFLA_ALT_IFNAME);
    }
    close_frame(out, start, IFLA_PROP_LIST);
}

static size_t make(uint8_t *bytes) {
    static const unsigned char families[] = {
        AF_UNSPEC, AF_UNSPEC, AF_UNSPEC, AF_BRIDGE, AF_BRIDGE, AF_INET6, AF_INET, AF_MPLS,
    };
    struct text out = {bytes, 0, families[below(sizeof families)]};
    add(&out, LINKWIRE_HEADER_SIZE);
    bytes[0] = out.family;
    if (one_in(2000)) {
        add_many(&out);
    } else {
        add_list(&out, MESSAGE, one_in(10) ? 60 : 8);
    }
    return out.len;
}

/* Where frames start after a splice: the first `of_front` as far as `at`, and there what the other message has from
 * `from` on. */
static void splice_starts(size_t of_front, size_t at, size_t from) {
    size_t kept = 0;
    for (size_t i = 0; i < starts_len; i++) {
        if (i < of_front ? starts[i] < at : starts[i] >= from) {
            starts[kept++] = i < of_front ? starts[i] : starts[i] - from + at;
        }
    }
    starts_len = kept;
}

/* One byte, a cut, a frame's length, or the end of another message. The frames are the last that `starts` was told. */
static size_t damage(uint8_t *bytes, size_t len) {
    static uint8_t end[MOST];
    switch (len == 0 ? 4 : below(5)) {
    case 0: bytes[below(len)] ^= (uint8_t)(1u << below(8)); return len;
    case 1: bytes[below(len)] = (uint8_t)draw(); return len;
    case 2: return below(len);
    case 3: {
        size_t at = starts_len > 0 ? starts[below(starts_len)] : len;
        if (at + 2 <= len) {
            size_t near = linkwire_le(bytes + at, 2) + below(9) - 4;
            size_t changed = one_in(3) ? below(8) : one_in(4) ? below(1 << 16) : near;
            bytes[at] = (uint8_t)changed;
            bytes[at + 1] = (uint8_t)(changed >> 8);
        }
        return len;
    }
    default: {
        size_t of_front = starts_len;
        size_t end_len = make(end), from = below(end_len + 1), at = below(len + 1);
        if (at + end_len - from > MOST) {
            starts_len = of_front;
            return len;
        }
        memcpy(bytes + at, end + from, end_len - from);
        splice_starts(of_front, at, from);
        return at + end_len - from;
    }
    }
}

/* The same list with other padding and flags, which can mean the same. */
static size_t respell(uint8_t *into, const uint8_t *bytes, size_t len) {
    struct linkwire_attribute it;
    memcpy(into, bytes, len);
    if (len > 1) {
        into[1] ^= (uint8_t)below(2);
    }
    for (size_t at = LINKWIRE_HEADER_SIZE; linkwire_next(bytes, len, &at, &it) == 1;) {
        into[it.payload - 1] ^= (uint8_t)(one_in(4) ? below(4) << 6 : 0);
        for (size_t i = it.payload + it.payload_len; i < at; i++) {
            into[i] = (uint8_t)(one_in(2) ? draw() : 0);
        }
    }
    return len;
}

/* Memory between two pages that cannot be touched. */

struct area {
    uint8_t *start;
    size_t locked; /* the bytes at its place that cannot be written */
    uint8_t *place;
};

static struct area area_of_message, area_of_other, area_of_text, area_of_out;
static struct area *const areas[] = {&area_of_message, &area_of_other, &area_of_text, &area_of_out};
static int is_low; /* what is placed starts right after a page that cannot be touched, else it ends before one */

static void reserve(struct area *area) {
    uint8_t *pages = mmap(NULL, ROOM + 2 * PAGE, PROT_NONE, MAP_PRIVATE | MAP_ANONYMOUS, -1, 0);
    if (pages == MAP_FAILED || mprotect(pages + PAGE, ROOM, PROT_READ | PROT_WRITE) != 0) {
        perror("laws");
        exit(1);
    }
    *area = (struct area){pages + PAGE, 0, pages + PAGE};
}

static void protect(const struct area *area, size_t len, int rights) {
    size_t from = (size_t)(area->place - area->start) / PAGE * PAGE;
    size_t to = (size_t)(area->place - area->start) + len;
    if (len > 0 && mprotect(area->start + from, to - from, rights) != 0) {
        perror("laws: mprotect");
        exit(1);
    }
}

static uint8_t *place(struct area *area, size_t len) {
    protect(area, area->locked, PROT_READ | PROT_WRITE);
    area->locked = 0;
    LAW(len <= ROOM); /* else the generator makes what grows too much */
    area->place = is_low ? area->start : area->start + ROOM - len;
    return area->place;
}

static const uint8_t *place_message(struct area *area, const uint8_t *bytes, size_t len) {
    uint8_t *placed = place(area, len);
    memcpy(placed, bytes, len);
    protect(area, len, PROT_READ);
    area->locked = len;
    return placed;
}

static uint8_t *place_out(size_t len) {
    return memset(place(&area_of_out, len), 0x5a, len);
}

static int is_kept(const uint8_t *bytes, size_t len) {
    return len == 0 || (bytes[0] == 0x5a && memcmp(bytes, bytes + 1, len - 1) == 0);
}

/* Signals, each of which tells the seed. */

static const struct {
    int number;
    const char *means;
} signals[] = {
    {SIGSEGV, "an address was touched where no memory is"}, {SIGBUS, "an address was touched where no memory is"},
    {SIGILL, "an instruction that cannot run"}, {SIGFPE, "a division that has no result"}, {SIGTRAP, "a trap"},
    {SIGABRT, "an abort, above which a sanitizer's report may stand"}, {SIGALRM, "a call does not return"},
};

static void on_signal(int number, siginfo_t *info, void *context) {
    (void)context;
    for (size_t i = 0; i < sizeof areas / sizeof *areas && (number == SIGSEGV || number == SIGBUS); i++) {
        if ((uintptr_t)info->si_addr - (uintptr_t)(areas[i]->start - PAGE) < ROOM + 2 * PAGE) {
            tell("a page was touched that is not the call's");
            _exit(TOUCHED);
        }
    }
    for (size_t i = 0; i < sizeof signals / sizeof *signals; i++) {
        if (signals[i].number == number) {
            tell(signals[i].means);
        }
    }
    _exit(1);
}

/* The handler has a stack of its own, so that it tells of one that ran over too. */
static void handle_signals(void) {
    static uint8_t stack[1 << 16];
    const stack_t own = {.ss_sp = stack, .ss_size = sizeof stack};
    struct sigaction action = {.sa_flags = SA_SIGINFO | SA_ONSTACK};
    action.sa_sigaction = on_signal;
    int fails = sigaltstack(&own, NULL);
    for (size_t i = 0; i < sizeof signals / sizeof *signals; i++) {
        fails |= sigaction(signals[i].number, &action, NULL);
    }
    if (fails) {
        perror("laws: sigaction");
        exit(1);
    }
}

/* The laws, over a stub of a call that can be put in its place. */

static ptrdiff_t (*canonical)(const uint8_t *, size_t, uint8_t *, size_t) = linkwire_canonical;
static ptrdiff_t (*state_of)(const uint8_t *, size_t, uint8_t *, size_t) = linkwire_state;
static int32_t (*check)(const uint8_t *, size_t) = linkwire_check;
static unsigned long answers[20];

/* The canonical text stands at the front of a buffer of just that size, or of more; one byte less is too short. */
static void tries_buffers(const uint8_t *message, size_t len, ptrdiff_t length) {
    static uint8_t text[ROOM];
    size_t size = (size_t)length, more = 1 + below(80);
    uint8_t *out = place_out(size);
    LAW(canonical(message, len, out, size) == length);
    memcpy(text, out, size);
    out = place_out(size - 1);
    LAW(canonical(message, len, out, size - 1) == LINKWIRE_NO_ROOM);
    LAW(is_kept(out, size - 1));
    out = place_out(size + more);
    LAW(canonical(message, len, out, size + more) == length);
    LAW(memcmp(out, text, size) == 0);
    LAW(is_kept(out + size, more));

    const uint8_t *again = place_message(&area_of_text, text, size);
    LAW(check(again, size) == 0);
    LAW(linkwire_canonical_len(again, size) == length);
    out = place_out(size);
    LAW(canonical(again, size, out, size) == length);
    LAW(memcmp(out, text, size) == 0);
    LAW(linkwire_same_message(message, len, again, size) == 1);
    LAW(linkwire_same_message(again, size, message, len) == 1);
}

/* The state is the canonical encoding with zeros where mask.h has marks. It stands in a buffer as that does, it is
 * canonical, and the state of itself, of the canonical encoding and of the message. */
static void tries_state(const uint8_t *message, size_t len, ptrdiff_t length) {
    static uint8_t text[ROOM], marks[ROOM];
    size_t size = (size_t)length, more = 1 + below(80);
    uint8_t *out = place_out(size);
    LAW(canonical(message, len, out, size) == length);
    memcpy(text, out, size);
    mark(text, size, marks);
    out = place_out(size - 1);
    LAW(state_of(message, len, out, size - 1) == LINKWIRE_NO_ROOM);
    LAW(is_kept(out, size - 1));
    out = place_out(size + more);
    LAW(state_of(message, len, out, size + more) == length);
    LAW(is_kept(out + size, more));
    for (size_t i = 0; i < size; i++) {
        text[i] = marks[i] ? 0 : text[i];
    }
    LAW(memcmp(out, text, size) == 0);

    const uint8_t *state = place_message(&area_of_text, text, size);
    out = place_out(size);
    LAW(canonical(state, size, out, size) == length);
    LAW(memcmp(out, text, size) == 0);
    out = place_out(size);
    LAW(state_of(state, size, out, size) == length);
    LAW(memcmp(out, text, size) == 0);
    LAW(linkwire_same_state(message, len, state, size) == 1);
    LAW(linkwire_same_state(state, size, message, len) == 1);
}

static void tries_one(const uint8_t *message, size_t len, ptrdiff_t length) {
    size_t at = SIZE_MAX;
    int32_t answer = check(message, len);
    LAW(answer <= 0 && answer >= LINKWIRE_NOT_UTF8);
    LAW(linkwire_fault_at(message, len, &at) == answer);
    LAW(answer == 0 ? at == SIZE_MAX : at <= len);
    struct linkwire_path path = {SIZE_MAX, 0, {0}};
    LAW(linkwire_fault_path(message, len, &path) == answer);
    LAW(path.at == at && path.depth <= LINKWIRE_DEPTH);
    LAW(length == linkwire_canonical_len(message, len));
    if (answer != 0) {
        LAW(length == answer);
    } else {
        LAW(length >= LINKWIRE_HEADER_SIZE || length == LINKWIRE_UNFIT || length == LINKWIRE_EMPTY_PORTS);
    }
    if (length < 0) {
        uint8_t *out = place_out(len);
        LAW(canonical(message, len, out, len) == length);
        LAW(state_of(message, len, out, len) == length);
        LAW(is_kept(out, len));
    } else {
        LAW((size_t)length <= LINKWIRE_GROWTH * len);
        tries_buffers(message, len, length);
        tries_state(message, len, length);
    }
}

/* Two messages are the same exactly where their texts are equal, and of one state where their states are; else the
 * first refusal is told. */
static void tries_two(const uint8_t *a, size_t a_len, ptrdiff_t length, const uint8_t *b, size_t b_len) {
    ptrdiff_t b_length = linkwire_canonical_len(b, b_len);
    int32_t answer = linkwire_same_message(a, a_len, b, b_len), of_states = linkwire_same_state(a, a_len, b, b_len);
    if (length < 0 || b_length < 0) {
        LAW(answer == (length < 0 ? length : b_length));
        LAW(of_states == answer);
        return;
    }
    uint8_t *text = place(&area_of_out, (size_t)length), *b_text = place(&area_of_text, (size_t)b_length);
    LAW(canonical(a, a_len, text, (size_t)length) == length);
    LAW(canonical(b, b_len, b_text, (size_t)b_length) == b_length);
    LAW(answer == (length == b_length && memcmp(text, b_text, (size_t)length) == 0));
    LAW(state_of(a, a_len, text, (size_t)length) == length);
    LAW(state_of(b, b_len, b_text, (size_t)b_length) == b_length);
    LAW(of_states == (length == b_length && memcmp(text, b_text, (size_t)length) == 0));
}

/* What moves by itself moves, and the state stays: the other message is the canonical text with other bytes where
 * mask.h has marks. */
static void tries_moved(const uint8_t *message, size_t len, ptrdiff_t length) {
    static uint8_t text[ROOM], marks[ROOM];
    size_t size = (size_t)length;
    uint8_t *out = place_out(size);
    LAW(canonical(message, len, out, size) == length);
    mark(out, size, marks);
    for (size_t i = 0; i < size; i++) {
        text[i] = marks[i] ? (uint8_t)draw() : out[i];
    }
    const uint8_t *moved = place_message(&area_of_text, text, size);
    LAW(linkwire_same_state(message, len, moved, size) == 1);
    out = place_out(size);
    LAW(state_of(message, len, out, size) == length);
    for (size_t i = 0; i < size; i++) {
        LAW(out[i] == (marks[i] ? 0 : text[i]));
    }
}

/* The attributes of a message that is accepted are read to its end, and written again by linkwire_put they mean the
 * same. */
static void tries_list(const uint8_t *message, size_t len) {
    struct linkwire_attribute it = {0};
    size_t at = LINKWIRE_HEADER_SIZE, to = LINKWIRE_HEADER_SIZE, room = (len + 3) & ~(size_t)3;
    uint8_t *list = place(&area_of_out, room);
    memcpy(list, message, LINKWIRE_HEADER_SIZE);
    while (linkwire_next(message, len, &at, &it) == 1) {
        struct linkwire_attribute later = it, found = {it.kind, 0, 0};
        for (size_t from = at; linkwire_next(message, len, &from, &later) == 1;) {
            found = linkwire_number(later.kind) == linkwire_number(it.kind) ? later : found;
        }
        found = found.payload ? found : it;
        later = (struct linkwire_attribute){linkwire_number(it.kind), 1, 1};
        LAW(linkwire_pick(message + LINKWIRE_HEADER_SIZE, len - LINKWIRE_HEADER_SIZE, &later, 1) == 0);
        LAW(later.kind == found.kind && later.payload + LINKWIRE_HEADER_SIZE == found.payload &&
            later.payload_len == found.payload_len);
        size_t before = to, end = (it.payload + it.payload_len + 3) & ~(size_t)3;
        LAW(it.payload_len <= len - it.payload && at == (end < len ? end : len));
        LAW(linkwire_put(list, it.payload + it.payload_len - 1, &to, it.kind, message + it.payload, it.payload_len) ==
            LINKWIRE_NO_ROOM);
        LAW(to == before);
        LAW(linkwire_put(list, room, &to, it.kind, message + it.payload, it.payload_len) == 1);
        LAW(to == end);
    }
    struct linkwire_attribute last = it;
    LAW(at == len && linkwire_next(message, len, &at, &it) == 0);
    LAW(at == len && memcmp(&it, &last, sizeof it) == 0 && to == room);
    LAW(linkwire_same_message(message, len, list, room) == 1);
}

/* What is expected of a message that is read leniently: by the strict calls, asked of each attribute alone. */
struct lenient {
    ptrdiff_t length; /* of the text, or the refusal */
    uint8_t *text;
};

/* One attribute behind the message's header, alone. */
static size_t alone(uint8_t *into, const uint8_t *message, size_t from, const struct linkwire_attribute *it) {
    size_t size = it->payload + it->payload_len - from;
    memcpy(into, message, LINKWIRE_HEADER_SIZE);
    memcpy(into + LINKWIRE_HEADER_SIZE, message + from, size);
    return LINKWIRE_HEADER_SIZE + size;
}

/* The canonical text of an attribute that is accepted, and else the attribute as it is, at the end of a text. */
static ptrdiff_t add_kept(struct lenient *to, const uint8_t *message, size_t from, struct linkwire_attribute *it) {
    static uint8_t one[MOST], text[ROOM];
    size_t len = alone(one, message, from, it), end = (size_t)to->length;
    if (linkwire_check(one, len) != 0) {
        LAW(linkwire_put(to->text, ROOM, &end, it->kind, message + it->payload, it->payload_len) == 1);
        return (ptrdiff_t)end - to->length;
    }
    ptrdiff_t length = linkwire_canonical(one, len, text, sizeof text);
    if (length >= 0) {
        memcpy(to->text + end, text + LINKWIRE_HEADER_SIZE, (size_t)length - LINKWIRE_HEADER_SIZE);
        return length - LINKWIRE_HEADER_SIZE;
    }
    return length;
}

static struct lenient lenient_of(const uint8_t *message, size_t len) {
    static uint8_t text[ROOM];
    struct lenient made = {LINKWIRE_TOO_SHORT, text};
    struct linkwire_attribute it;
    ptrdiff_t refused = 0;
    if (len < LINKWIRE_HEADER_SIZE) {
        return made;
    }
    made.length = linkwire_canonical(message, LINKWIRE_HEADER_SIZE, text, sizeof text);
    size_t at = LINKWIRE_HEADER_SIZE;
    int32_t found;
    for (size_t from = at; (found = linkwire_next(message, len, &at, &it)) == 1; from = at) {
        ptrdiff_t added = add_kept(&made, message, from, &it);
        made.length += added > 0 ? added : 0;
        /* what does not fit is told before an empty list of ports */
        refused = added < 0 && refused != LINKWIRE_UNFIT ? added : refused;
    }
    made.length = found < 0 ? found : refused < 0 ? refused : made.length;
    return made;
}

typedef ptrdiff_t writer(const uint8_t *, size_t, uint8_t *, size_t);

/* The text stands in a buffer of just its size, and of more; one byte less is too short, and after a refusal all is
 * kept. */
static void tries_writing(writer *write, const uint8_t *message, size_t len, ptrdiff_t length, const uint8_t *text) {
    size_t size = length < 0 ? len : (size_t)length, more = 1 + below(80);
    uint8_t *out = place_out(size);
    LAW(write(message, len, out, size) == length);
    LAW(length < 0 ? is_kept(out, size) : memcmp(out, text, size) == 0);
    if (length < 0) {
        return;
    }
    out = place_out(size - 1);
    LAW(write(message, len, out, size - 1) == LINKWIRE_NO_ROOM);
    LAW(is_kept(out, size - 1));
    out = place_out(size + more);
    LAW(write(message, len, out, size + more) == length);
    LAW(memcmp(out, text, size) == 0 && is_kept(out + size, more));
}

/* What is read leniently is what is expected; it is so of its own text too, and the state is its text with zeros where
 * mask.h has marks. */
static void tries_lenient(const uint8_t *message, size_t len, ptrdiff_t strict) {
    static uint8_t marks[ROOM];
    struct lenient want = lenient_of(message, len);
    LAW(linkwire_canonical_lenient_len(message, len) == want.length);
    LAW(strict < 0 ? strict >= LINKWIRE_NOT_UTF8 || strict == want.length : strict == want.length);
    tries_writing(linkwire_canonical_lenient, message, len, want.length, want.text);
    if (want.length >= 0) {
        size_t size = (size_t)want.length;
        LAW(size <= LINKWIRE_GROWTH * len);
        const uint8_t *again = place_message(&area_of_text, want.text, size);
        LAW(linkwire_canonical_lenient_len(again, size) == want.length);
        uint8_t *out = place_out(size);
        LAW(linkwire_canonical_lenient(again, size, out, size) == want.length);
        LAW(memcmp(out, want.text, size) == 0);
        mark(want.text, size, marks);
        for (size_t i = 0; i < size; i++) {
            want.text[i] = marks[i] ? 0 : want.text[i];
        }
    }
    tries_writing(linkwire_state_lenient, message, len, want.length, want.text);
}

/* A refusal is of an attribute that is refused alone, which is told as `linkwire_next` gives it, with its own fault at
 * its own place. */
static void tries_refusal(const uint8_t *message, size_t from, const struct linkwire_attribute *it,
                          const struct linkwire_refusal *refusal) {
    static uint8_t one[MOST];
    size_t len = alone(one, message, from, it);
    struct linkwire_path path;
    LAW(refusal->offset == from && refusal->is_attribute == 1);
    LAW(refusal->attribute.kind == it->kind && refusal->attribute.payload == it->payload);
    LAW(refusal->attribute.payload_len == it->payload_len);
    LAW(refusal->fault == linkwire_fault_path(one, len, &path) && refusal->fault < 0);
    LAW(refusal->path.at == path.at - LINKWIRE_HEADER_SIZE + from && refusal->path.depth == path.depth);
    LAW(memcmp(refusal->path.numbers, path.numbers, sizeof path.numbers) == 0 && path.depth > 0);
}

/* Exactly the attributes that are refused alone are told, in order, and last the bytes that are none. */
static void tries_refusals(const uint8_t *message, size_t len) {
    static uint8_t one[MOST];
    struct linkwire_refusal refusal, kept;
    struct linkwire_attribute it;
    size_t at = LINKWIRE_HEADER_SIZE, told = one_in(2) ? 0 : below(LINKWIRE_HEADER_SIZE + 1);
    size_t first = told;
    int32_t found = LINKWIRE_TOO_SHORT;
    memset(&refusal, 0x5a, sizeof refusal);
    for (size_t from = at; len >= LINKWIRE_HEADER_SIZE && (found = linkwire_next(message, len, &at, &it)) == 1;
         from = at) {
        if (linkwire_check(one, alone(one, message, from, &it)) == 0) {
            continue;
        }
        LAW(linkwire_refusal_next(message, len, &told, &refusal) == 1 && told == at);
        tries_refusal(message, from, &it, &refusal);
    }
    if (len >= LINKWIRE_HEADER_SIZE && found < 0) {
        LAW(linkwire_refusal_next(message, len, &told, &refusal) == 1 && told == len);
        LAW(refusal.offset == at && refusal.fault == found && refusal.is_attribute == 0);
        LAW(refusal.attribute.kind == 0 && refusal.attribute.payload == 0 && refusal.attribute.payload_len == 0);
        LAW(refusal.path.at == at && refusal.path.depth == 0);
    }
    size_t last = told;
    kept = refusal;
    int32_t ended = len < LINKWIRE_HEADER_SIZE ? LINKWIRE_TOO_SHORT : 0;
    LAW(linkwire_refusal_next(message, len, &told, &refusal) == ended);
    LAW(told == last && memcmp(&kept, &refusal, sizeof kept) == 0);
    LAW((len >= LINKWIRE_HEADER_SIZE && linkwire_check(message, len) != 0) == (told != first));
}

static void tries(uint64_t number) {
    seed = drawn = number;
    tried_len = other_len = 0;
    alarm(SECONDS); /* for this message; one takes some milliseconds at most */
    starts_len = 0;
    tried_len = make(tried);
    for (size_t times = one_in(2) ? below(4) : 0; times > 0; times--) {
        tried_len = damage(tried, tried_len);
    }
    if (one_in(4)) {
        starts_len = 0;
        other_len = make(other);
    } else {
        other_len = respell(other, tried, tried_len);
    }
    if (one_in(4)) {
        other_len = damage(other, other_len);
    }
    for (is_low = 0; is_low < 2; is_low++) {
        const uint8_t *message = place_message(&area_of_message, tried, tried_len);
        const uint8_t *second = place_message(&area_of_other, other, other_len);
        ptrdiff_t length = linkwire_canonical_len(message, tried_len);
        tries_one(message, tried_len, length);
        tries_two(message, tried_len, length, second, other_len);
        tries_lenient(message, tried_len, length);
        tries_refusals(message, tried_len);
        if (length >= 0) {
            tries_list(message, tried_len);
            tries_moved(message, tried_len, length);
        }
        answers[length > 0 ? 0 : -length] += !is_low;
    }
}

/* Stubs that go one byte too far. */

static int32_t reads_after(const uint8_t *message, size_t len) {
    return linkwire_check(message, len) + 0 * *(const volatile uint8_t *)(message + len);
}

static int32_t reads_before(const uint8_t *message, size_t len) {
    return linkwire_check(message, len) + 0 * *(const volatile uint8_t *)(message - 1);
}

static int32_t writes_message(const uint8_t *message, size_t len) {
    *(volatile uint8_t *)(uintptr_t)message = *message;
    return linkwire_check(message, len);
}

static ptrdiff_t writes_after(const uint8_t *message, size_t len, uint8_t *out, size_t cap) {
    ptrdiff_t length = linkwire_canonical(message, len, out, cap);
    *(volatile uint8_t *)(out + (length < 0 ? (ptrdiff_t)cap : length)) = 1;
    return length;
}

static ptrdiff_t writes_before(const uint8_t *message, size_t len, uint8_t *out, size_t cap) {
    *(volatile uint8_t *)(out - 1) = 1;
    return linkwire_canonical(message, len, out, cap);
}

static ptrdiff_t clears_after(const uint8_t *message, size_t len, uint8_t *out, size_t cap) {
    ptrdiff_t length = linkwire_state(message, len, out, cap);
    *(volatile uint8_t *)(out + (length < 0 ? (ptrdiff_t)cap : length)) = 0;
    return length;
}

/* Tries one message with a stub in another process, which has to end at the page that it touches. */
static void sees(const char *name, int32_t (*of_check)(const uint8_t *, size_t),
                 ptrdiff_t (*of_canonical)(const uint8_t *, size_t, uint8_t *, size_t),
                 ptrdiff_t (*of_state)(const uint8_t *, size_t, uint8_t *, size_t)) {
    int status = 0;
    pid_t child = fork();
    if (child == 0) {
        check = of_check;
        canonical = of_canonical;
        state_of = of_state;
        if (freopen("/dev/null", "w", stderr) != NULL) {
            tries(2);
        }
        _exit(0);
    }
    if (child < 0 || waitpid(child, &status, 0) != child || !WIFEXITED(status) || WEXITSTATUS(status) != TOUCHED) {
        fprintf(stderr, "laws: not seen: %s\n", name);
        exit(1);
    }
}

static void tells_answers(unsigned long count, int needs_all) {
    printf("laws: %lu messages: %lu written", count, answers[0]);
    for (int i = 1; i <= 17; i++) {
        if (i <= 7 || i >= 16) {
            printf(", %lu of answer -%d", answers[i], i);
        }
        if (needs_all && answers[i] == 0 && (i <= 7 || i >= 16)) {
            printf("\n");
            fprintf(stderr, "laws: no message has answer -%d\n", i);
            exit(1);
        }
    }
    printf("\n");
}

int main(int words, char **word) {
    int is_timed = words > 2 && strcmp(word[1], "--seconds") == 0;
    unsigned long count = 200000, done = 0;
    time_t until = is_timed ? time(NULL) + atol(word[2]) : 0;
    if (words > 1 && !is_timed) {
        count = strtoul(word[1], NULL, 10);
    }
    uint64_t first = is_timed ? (uint64_t)time(NULL) << 32 : 1;
    if (words > 2 + is_timed) {
        first = strtoull(word[2 + is_timed], NULL, 10);
    }
    for (size_t i = 0; i < sizeof areas / sizeof *areas; i++) {
        reserve(areas[i]);
    }
    handle_signals();
    sees("a read after the message", reads_after, linkwire_canonical, linkwire_state);
    sees("a read before the message", reads_before, linkwire_canonical, linkwire_state);
    sees("a write into the message", writes_message, linkwire_canonical, linkwire_state);
    sees("a write after the text", linkwire_check, writes_after, linkwire_state);
    sees("a write before the buffer", linkwire_check, writes_before, linkwire_state);
    sees("a zero after the state", linkwire_check, linkwire_canonical, clears_after);
    while (is_timed ? done % 256 != 0 || time(NULL) < until : done < count) {
        tries(first + done++);
    }
    tells_answers(done, done >= 200000);
    signal(SIGABRT, SIG_DFL); /* what a sanitizer says of memory that leaked is of no one seed */
    return 0;
}
