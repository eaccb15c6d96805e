/* Where the state encoding of a message is zero, by a table of its own: what the tests hold linkwire_state to. */
#ifndef MASK_H
#define MASK_H

#include <string.h>

#include "linkwire.h"

enum level {
    KEEP, CLEAR, CACHE, IN_LINK, IN_FAMILIES, IN_INET6, IN_FUNCTIONS, IN_FUNCTION, IN_COUNTERS, IN_INFO, IN_BRIDGE,
    IN_QUERIER, IN_PORT_OF_BRIDGE, IN_HSR, IN_CAN, IN_PORT_OF_BOND
};

/* What is done to the payload of a number in a list: it becomes zeros, or is a list of another level. */
struct row {
    enum level level;
    unsigned number;
    enum level then;
};

static const struct row rows[] = {
    {IN_LINK, 7, CLEAR},                     /* IFLA_STATS */
    {IN_LINK, 23, CLEAR},                    /* IFLA_STATS64 */
    {IN_LINK, 35, CLEAR},                    /* IFLA_CARRIER_CHANGES */
    {IN_LINK, 44, CLEAR},                    /* IFLA_EVENT */
    {IN_LINK, 47, CLEAR},                    /* IFLA_CARRIER_UP_COUNT */
    {IN_LINK, 48, CLEAR},                    /* IFLA_CARRIER_DOWN_COUNT */
    {IN_LINK, 22, IN_FUNCTIONS},             /* IFLA_VFINFO_LIST */
    {IN_LINK, 18, IN_INFO},                  /* IFLA_LINKINFO */
    {IN_LINK, 26, IN_FAMILIES},              /* IFLA_AF_SPEC, where the header's family is AF_UNSPEC */
    {IN_LINK, 12, IN_INET6},                 /* IFLA_PROTINFO, where it is AF_INET6 */
    {IN_LINK, 12, IN_PORT_OF_BRIDGE},        /* where it is AF_BRIDGE */
    {IN_FUNCTIONS, 1, IN_FUNCTION},          /* IFLA_VF_INFO */
    {IN_FUNCTION, 8, IN_COUNTERS},           /* IFLA_VF_STATS */
    {IN_FUNCTION, 13, CLEAR},                /* IFLA_VF_BROADCAST */
    {IN_COUNTERS, 0, CLEAR},                 /* IFLA_VF_STATS_RX_PACKETS */
    {IN_COUNTERS, 1, CLEAR},                 /* IFLA_VF_STATS_TX_PACKETS */
    {IN_COUNTERS, 2, CLEAR},                 /* IFLA_VF_STATS_RX_BYTES */
    {IN_COUNTERS, 3, CLEAR},                 /* IFLA_VF_STATS_TX_BYTES */
    {IN_COUNTERS, 4, CLEAR},                 /* IFLA_VF_STATS_BROADCAST */
    {IN_COUNTERS, 5, CLEAR},                 /* IFLA_VF_STATS_MULTICAST */
    {IN_COUNTERS, 7, CLEAR},                 /* IFLA_VF_STATS_RX_DROPPED */
    {IN_COUNTERS, 8, CLEAR},                 /* IFLA_VF_STATS_TX_DROPPED */
    {IN_FAMILIES, 10, IN_INET6},             /* AF_INET6 */
    {IN_INET6, 3, CLEAR},                    /* IFLA_INET6_STATS */
    {IN_INET6, 5, CACHE},                    /* IFLA_INET6_CACHEINFO, of which tstamp and reachable_time become zeros */
    {IN_INET6, 6, CLEAR},                    /* IFLA_INET6_ICMP6STATS */
    {IN_INFO, 3, CLEAR},                     /* IFLA_INFO_XSTATS */
    {IN_INFO, 2, IN_BRIDGE},                 /* IFLA_INFO_DATA, by IFLA_INFO_KIND */
    {IN_INFO, 2, IN_HSR},
    {IN_INFO, 2, IN_CAN},
    {IN_INFO, 5, IN_PORT_OF_BRIDGE},         /* IFLA_INFO_SLAVE_DATA, by IFLA_INFO_SLAVE_KIND */
    {IN_INFO, 5, IN_PORT_OF_BOND},
    {IN_BRIDGE, 16, CLEAR},                  /* IFLA_BR_HELLO_TIMER */
    {IN_BRIDGE, 17, CLEAR},                  /* IFLA_BR_TCN_TIMER */
    {IN_BRIDGE, 18, CLEAR},                  /* IFLA_BR_TOPOLOGY_CHANGE_TIMER */
    {IN_BRIDGE, 19, CLEAR},                  /* IFLA_BR_GC_TIMER */
    {IN_BRIDGE, 47, IN_QUERIER},             /* IFLA_BR_MCAST_QUERIER_STATE */
    {IN_BRIDGE, 48, CLEAR},                  /* IFLA_BR_FDB_N_LEARNED */
    {IN_QUERIER, 3, CLEAR},                  /* BRIDGE_QUERIER_IP_OTHER_TIMER */
    {IN_QUERIER, 7, CLEAR},                  /* BRIDGE_QUERIER_IPV6_OTHER_TIMER */
    {IN_PORT_OF_BRIDGE, 19, CLEAR},          /* IFLA_BRPORT_TOPOLOGY_CHANGE_ACK */
    {IN_PORT_OF_BRIDGE, 20, CLEAR},          /* IFLA_BRPORT_CONFIG_PENDING */
    {IN_PORT_OF_BRIDGE, 21, CLEAR},          /* IFLA_BRPORT_MESSAGE_AGE_TIMER */
    {IN_PORT_OF_BRIDGE, 22, CLEAR},          /* IFLA_BRPORT_FORWARD_DELAY_TIMER */
    {IN_PORT_OF_BRIDGE, 23, CLEAR},          /* IFLA_BRPORT_HOLD_TIMER */
    {IN_PORT_OF_BRIDGE, 38, CLEAR},          /* IFLA_BRPORT_MCAST_EHT_HOSTS_CNT */
    {IN_PORT_OF_BRIDGE, 41, CLEAR},          /* IFLA_BRPORT_MCAST_N_GROUPS */
    {IN_HSR, 5, CLEAR},                      /* IFLA_HSR_SEQ_NR */
    {IN_CAN, 8, CLEAR},                      /* IFLA_CAN_BERR_COUNTER */
    {IN_PORT_OF_BOND, 3, CLEAR},             /* IFLA_BOND_SLAVE_LINK_FAILURE_COUNT */
};

enum { ROWS = sizeof rows / sizeof *rows };

/* The families and kinds that rows are bound to. */
static const struct bound {
    enum level level;
    unsigned number;
    enum level then;
    unsigned asked; /* the number of the kind's attribute, or 0, and then the family is asked */
    int family;
    const char *kind;
} bounds[] = {
    {IN_LINK, 26, IN_FAMILIES, 0, 0, NULL}, {IN_LINK, 12, IN_INET6, 0, 10, NULL},
    {IN_LINK, 12, IN_PORT_OF_BRIDGE, 0, 7, NULL},
    {IN_INFO, 2, IN_BRIDGE, 1, 0, "bridge"}, {IN_INFO, 2, IN_HSR, 1, 0, "hsr"}, {IN_INFO, 2, IN_CAN, 1, 0, "can"},
    {IN_INFO, 2, IN_CAN, 1, 0, "vcan"},
    {IN_INFO, 5, IN_PORT_OF_BRIDGE, 4, 0, "bridge"}, {IN_INFO, 5, IN_PORT_OF_BOND, 4, 0, "bond"},
};

/* Whether the first attribute of this number is this text, which may end in one NUL. */
static int is_kind(const uint8_t *list, size_t len, unsigned number, const char *kind) {
    struct linkwire_attribute it;
    for (size_t at = 0; linkwire_next(list, len, &at, &it) == 1;) {
        if (linkwire_number(it.kind) == number) {
            size_t has_nul = it.payload_len > 0 && list[it.payload + it.payload_len - 1] == 0;
            return it.payload_len - has_nul == strlen(kind) &&
                   memcmp(list + it.payload, kind, it.payload_len - has_nul) == 0;
        }
    }
    return 0;
}

static int holds(const struct row *row, const uint8_t *list, size_t len, int family) {
    int is_bound = 0;
    for (size_t i = 0; i < sizeof bounds / sizeof *bounds; i++) {
        const struct bound *it = &bounds[i];
        if (it->level == row->level && it->number == row->number && it->then == row->then) {
            if (it->asked == 0 ? it->family == family : is_kind(list, len, it->asked, it->kind)) {
                return 1;
            }
            is_bound = 1;
        }
    }
    return !is_bound;
}

/* The first row of a number that holds in a list. */
static enum level then_of(enum level level, const uint8_t *list, size_t len, int family, unsigned number) {
    for (size_t i = 0; i < ROWS; i++) {
        if (rows[i].level == level && rows[i].number == number && holds(&rows[i], list, len, family)) {
            return rows[i].then;
        }
    }
    return KEEP;
}

static void mark_list(enum level level, const uint8_t *list, size_t len, int family, uint8_t *marks) {
    struct linkwire_attribute it;
    for (size_t at = 0; linkwire_next(list, len, &at, &it) == 1;) {
        enum level then = then_of(level, list, len, family, linkwire_number(it.kind));
        size_t from = then == CACHE ? 4 : 0;
        size_t to = then == CACHE && it.payload_len > 12 ? 12 : it.payload_len;
        if (then == CLEAR || (then == CACHE && from < to)) {
            memset(marks + it.payload + from, 1, to - from);
        } else if (then != KEEP && then != CACHE) {
            mark_list(then, list + it.payload, it.payload_len, family, marks + it.payload);
        }
    }
}

/* Marks with 1 the bytes of a canonical encoding that its state encoding has at zero; the others with 0. */
static void mark(const uint8_t *text, size_t len, uint8_t *marks) {
    memset(marks, 0, len);
    memset(marks + 12, 1, 4); /* the header's change mask */
    mark_list(IN_LINK, text + LINKWIRE_HEADER_SIZE, len - LINKWIRE_HEADER_SIZE, text[0], marks + LINKWIRE_HEADER_SIZE);
}

#endif
