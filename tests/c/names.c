/* Compares the names of linkwire_name with the constants of linux/if_link.h, and the others with some of linux/if.h and
 * linux/if_arp.h. Those that older headers lack stand here by their numbers. */
#include <linux/if.h>
#include <linux/if_arp.h>
#include <linux/if_link.h>
#include <stdio.h>
#include <string.h>

#include "linkwire.h"

#define NAME(constant) {constant, #constant}

static const struct {
    unsigned number;
    const char *name;
} names[] = {
    NAME(IFLA_UNSPEC), NAME(IFLA_ADDRESS), NAME(IFLA_BROADCAST), NAME(IFLA_IFNAME), NAME(IFLA_MTU), NAME(IFLA_LINK),
    NAME(IFLA_QDISC), NAME(IFLA_STATS), NAME(IFLA_COST), NAME(IFLA_PRIORITY), NAME(IFLA_MASTER), NAME(IFLA_WIRELESS),
    NAME(IFLA_PROTINFO), NAME(IFLA_TXQLEN), NAME(IFLA_MAP), NAME(IFLA_WEIGHT), NAME(IFLA_OPERSTATE),
    NAME(IFLA_LINKMODE), NAME(IFLA_LINKINFO), NAME(IFLA_NET_NS_PID), NAME(IFLA_IFALIAS), NAME(IFLA_NUM_VF),
    NAME(IFLA_VFINFO_LIST), NAME(IFLA_STATS64), NAME(IFLA_VF_PORTS), NAME(IFLA_PORT_SELF), NAME(IFLA_AF_SPEC),
    NAME(IFLA_GROUP), NAME(IFLA_NET_NS_FD), NAME(IFLA_EXT_MASK), NAME(IFLA_PROMISCUITY), NAME(IFLA_NUM_TX_QUEUES),
    NAME(IFLA_NUM_RX_QUEUES), NAME(IFLA_CARRIER), NAME(IFLA_PHYS_PORT_ID), NAME(IFLA_CARRIER_CHANGES),
    NAME(IFLA_PHYS_SWITCH_ID), NAME(IFLA_LINK_NETNSID), NAME(IFLA_PHYS_PORT_NAME), NAME(IFLA_PROTO_DOWN),
    NAME(IFLA_GSO_MAX_SEGS), NAME(IFLA_GSO_MAX_SIZE), NAME(IFLA_PAD), NAME(IFLA_XDP), NAME(IFLA_EVENT),
    NAME(IFLA_NEW_NETNSID), NAME(IFLA_IF_NETNSID), NAME(IFLA_CARRIER_UP_COUNT), NAME(IFLA_CARRIER_DOWN_COUNT),
    NAME(IFLA_NEW_IFINDEX), NAME(IFLA_MIN_MTU), NAME(IFLA_MAX_MTU), NAME(IFLA_PROP_LIST), NAME(IFLA_ALT_IFNAME),
    NAME(IFLA_PERM_ADDRESS), NAME(IFLA_PROTO_DOWN_REASON), NAME(IFLA_PARENT_DEV_NAME), NAME(IFLA_PARENT_DEV_BUS_NAME),
    NAME(IFLA_GRO_MAX_SIZE), NAME(IFLA_TSO_MAX_SIZE), NAME(IFLA_TSO_MAX_SEGS), NAME(IFLA_ALLMULTI),
    {62, "IFLA_DEVLINK_PORT"}, {63, "IFLA_GSO_IPV4_MAX_SIZE"}, {64, "IFLA_GRO_IPV4_MAX_SIZE"}, {65, "IFLA_DPLL_PIN"},
    {66, "IFLA_MAX_PACING_OFFLOAD_HORIZON"}, {67, "IFLA_NETNS_IMMUTABLE"}, {68, "IFLA_HEADROOM"},
    {69, "IFLA_TAILROOM"},
};

enum { COUNT = sizeof names / sizeof *names };

/* The bit of a flag. */
static unsigned bit(unsigned flag) {
    unsigned found = 0;
    while (flag >> found > 1) {
        found++;
    }
    return found;
}

/* The tables that scripts/test/rows.py compares: the first and the last of each, some between, and what is past
 * them. */
static int others_differ(void) {
    const struct {
        const char *want, *found;
    } rows[] = {
        {"unknown", linkwire_operstate_name(IF_OPER_UNKNOWN)},
        {"lowerlayerdown", linkwire_operstate_name(IF_OPER_LOWERLAYERDOWN)},
        {"up", linkwire_operstate_name(IF_OPER_UP)},
        {NULL, linkwire_operstate_name(7)},
        {NULL, linkwire_operstate_name(255)},
        {"default", linkwire_linkmode_name(IF_LINK_MODE_DEFAULT)},
        {"dormant", linkwire_linkmode_name(IF_LINK_MODE_DORMANT)},
        {"testing", linkwire_linkmode_name(2)},
        {NULL, linkwire_linkmode_name(3)},
        {"up", linkwire_flag_name(bit(IFF_UP))},
        {"loopback", linkwire_flag_name(bit(IFF_LOOPBACK))},
        {"master", linkwire_flag_name(bit(IFF_MASTER))},
        {"multicast", linkwire_flag_name(bit(IFF_MULTICAST))},
        {"lower-up", linkwire_flag_name(bit(IFF_LOWER_UP))},
        {"echo", linkwire_flag_name(bit(IFF_ECHO))},
        {NULL, linkwire_flag_name(19)},
        {NULL, linkwire_flag_name(31)},
        {"netrom", linkwire_type_name(ARPHRD_NETROM)},
        {"ether", linkwire_type_name(ARPHRD_ETHER)},
        {"loopback", linkwire_type_name(ARPHRD_LOOPBACK)},
        {"tunnel6", linkwire_type_name(ARPHRD_TUNNEL6)},
        {"none", linkwire_type_name(ARPHRD_NONE)},
        {"void", linkwire_type_name(ARPHRD_VOID)},
        {NULL, linkwire_type_name(9)},
        {NULL, linkwire_type_name(1000)},
    };
    int failures = 0;
    for (size_t i = 0; i < sizeof rows / sizeof *rows; i++) {
        const char *want = rows[i].want ? rows[i].want : "null", *found = rows[i].found ? rows[i].found : "null";
        if (strcmp(want, found) != 0) {
            fprintf(stderr, "names.c: %s is not %s\n", found, want);
            failures++;
        }
    }
    return failures;
}

int main(void) {
    int failures = others_differ();
    for (unsigned i = 0; i < COUNT; i++) {
        const char *found = linkwire_name((uint16_t)names[i].number);
        if (names[i].number != i || found == NULL || strcmp(found, names[i].name) != 0) {
            fprintf(stderr, "names.c: %u is %s\n", names[i].number, found == NULL ? "null" : found);
            failures++;
        }
    }
    for (unsigned number = COUNT; number <= 0xffff; number++) {
        if (linkwire_name((uint16_t)number) != NULL) {
            fprintf(stderr, "names.c: %u has a name\n", number);
            failures++;
        }
    }
    return failures != 0;
}
