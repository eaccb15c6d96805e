/* The state encodings of the kernel's links, in each family that it dumps:
 *
 *     states            a line each: family, index, name, and the encoding as hexadecimal
 *     states SECONDS    polls for so long, and tells how many links there are, how often they were polled, and of how
 *                       many the canonical encoding moved; a state that moves, and a link that comes or goes, is
 *                       reported on standard error, and the exit status is 1
 */
#include <errno.h>
#include <linux/if_link.h>
#include <linux/netlink.h>
#include <linux/rtnetlink.h>
#include <stdio.h>
#include <stdlib.h>
#include <string.h>
#include <sys/socket.h>
#include <time.h>
#include <unistd.h>

#include "linkwire.h"

enum { MOST_LINKS = 1024, PAUSE = 100 * 1000 * 1000 };

static const struct {
    uint8_t family;
    uint32_t mask;
} dumps[] = {
    {AF_UNSPEC, RTEXT_FILTER_VF}, {AF_BRIDGE, RTEXT_FILTER_BRVLAN_COMPRESSED}, {AF_INET6, 0},
};

struct link {
    int family, index;
    char name[64];
    size_t len;
    uint8_t *state, *canonical;
};

struct links {
    struct link all[MOST_LINKS];
    size_t count;
};

static void stop(const char *what, const char *why) {
    fprintf(stderr, "states: %s: %s\n", what, why);
    exit(1);
}

static uint8_t *room_for(size_t len) {
    uint8_t *bytes = malloc(len);
    if (bytes == NULL) {
        stop("memory", strerror(errno));
    }
    return bytes;
}

static void add(struct links *links, int family, const uint8_t *message, size_t len) {
    struct linkwire_attribute it;
    struct ifinfomsg info;
    ptrdiff_t size = linkwire_canonical_len(message, len);
    if (size < 0 || links->count == MOST_LINKS) {
        stop("a link", linkwire_answer_text(size));
    }
    struct link *link = &links->all[links->count++];
    memcpy(&info, message, sizeof info);
    *link = (struct link){family, info.ifi_index, "", (size_t)size, room_for((size_t)size), room_for((size_t)size)};
    if (linkwire_state(message, len, link->state, link->len) != size ||
        linkwire_canonical(message, len, link->canonical, link->len) != size) {
        stop("a link", "its encodings have other lengths");
    }
    for (size_t at = LINKWIRE_HEADER_SIZE; linkwire_next(message, len, &at, &it) == 1;) {
        if (linkwire_number(it.kind) == IFLA_IFNAME) {
            snprintf(link->name, sizeof link->name, "%.*s", (int)linkwire_text_len(message, &it),
                     (const char *)message + it.payload);
        }
    }
}

/* Whether the dump goes on after this datagram; an interrupted one sets `*is_stale`. */
static int take(struct links *links, int family, const uint8_t *bytes, ssize_t len, int *is_stale) {
    const struct nlmsghdr *it = (const struct nlmsghdr *)bytes;
    for (; NLMSG_OK(it, (size_t)len); it = NLMSG_NEXT(it, len)) {
        *is_stale |= (it->nlmsg_flags & NLM_F_DUMP_INTR) != 0;
        if (it->nlmsg_type == NLMSG_DONE) {
            return 0;
        }
        if (it->nlmsg_type == NLMSG_ERROR) {
            stop("a dump", "the kernel refuses it");
        }
        if (it->nlmsg_type == RTM_NEWLINK) {
            add(links, family, NLMSG_DATA(it), it->nlmsg_len - NLMSG_HDRLEN);
        }
    }
    return 1;
}

/* Adds the links of a family; 0 where the dump has to be asked for again. */
static int dump(struct links *links, uint8_t family, uint32_t mask) {
    static union { struct nlmsghdr head; uint8_t bytes[1 << 20]; } datagram;
    struct { struct nlmsghdr head; uint8_t message[LINKWIRE_HEADER_SIZE + 8]; } request = {
        .head = {sizeof request, RTM_GETLINK, NLM_F_REQUEST | NLM_F_DUMP, 1, 0}, .message = {family}};
    const struct sockaddr_nl kernel = {.nl_family = AF_NETLINK};
    int fd = socket(AF_NETLINK, SOCK_RAW | SOCK_CLOEXEC, NETLINK_ROUTE), is_stale = 0, goes_on = 1;
    size_t at = LINKWIRE_HEADER_SIZE;
    linkwire_put(request.message, sizeof request.message, &at, IFLA_EXT_MASK, (const uint8_t *)&mask, sizeof mask);
    if (fd < 0 || connect(fd, (const struct sockaddr *)&kernel, sizeof kernel) != 0 ||
        send(fd, &request, sizeof request, 0) < 0) {
        stop("netlink", strerror(errno));
    }
    while (goes_on) {
        ssize_t len = recv(fd, &datagram, sizeof datagram, 0);
        if (len < 0) {
            stop("netlink", strerror(errno));
        }
        goes_on = take(links, family, datagram.bytes, len, &is_stale);
    }
    close(fd);
    return !is_stale;
}

static void release(struct links *links) {
    while (links->count > 0) {
        struct link *link = &links->all[--links->count];
        free(link->state);
        free(link->canonical);
    }
}

static void poll_all(struct links *links) {
    int is_whole = 0;
    while (!is_whole) {
        release(links);
        is_whole = 1;
        for (size_t i = 0; i < sizeof dumps / sizeof *dumps; i++) {
            is_whole &= dump(links, dumps[i].family, dumps[i].mask);
        }
    }
}

static void print_hex(FILE *to, const uint8_t *bytes, size_t len) {
    for (size_t i = 0; i < len; i++) {
        fprintf(to, "%02x", bytes[i]);
    }
    fputc('\n', to);
}

static void print(const struct links *links) {
    for (const struct link *it = links->all; it < links->all + links->count; it++) {
        printf("%d %d %s ", it->family, it->index, it->name);
        print_hex(stdout, it->state, it->len);
    }
}

/* How many links have another state than in the first poll, or came, or went. */
static int compare(const struct links *first, const struct links *now, uint8_t *moved) {
    int others = first->count != now->count;
    for (size_t i = 0; i < first->count && i < now->count; i++) {
        const struct link *a = &first->all[i], *b = &now->all[i];
        int is_one = a->family == b->family && a->index == b->index && a->len == b->len;
        if (!is_one || memcmp(a->state, b->state, a->len) != 0) {
            fprintf(stderr, "states: %s in family %d moved:\n", a->name, a->family);
            print_hex(stderr, a->state, a->len);
            print_hex(stderr, b->state, b->len);
            others++;
        }
        moved[i] |= is_one && memcmp(a->canonical, b->canonical, a->len) != 0;
    }
    return others;
}

static double seconds(void) {
    struct timespec now;
    clock_gettime(CLOCK_MONOTONIC, &now);
    return now.tv_sec + now.tv_nsec * 1e-9;
}

int main(int count, char **words) {
    static struct links first, now;
    static uint8_t moved[MOST_LINKS];
    double until = count > 1 ? seconds() + atof(words[1]) : 0;
    int polls = 1, others = 0, of_moved = 0;
    poll_all(&first);
    if (count < 2) {
        print(&first);
        return fflush(stdout) != 0;
    }
    for (; others == 0 && seconds() < until; polls++) {
        nanosleep(&(struct timespec){0, PAUSE}, NULL);
        poll_all(&now);
        others = compare(&first, &now, moved);
    }
    for (size_t i = 0; i < first.count; i++) {
        of_moved += moved[i];
    }
    printf("%zu links, %d polls, the canonical encoding moved of %d\n", first.count, polls, of_moved);
    return others != 0;
}
