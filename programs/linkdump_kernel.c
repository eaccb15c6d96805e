/* linkdump asks the running kernel, and listens to it. */
#include "linkdump.h"

#include <errno.h>
#include <fcntl.h>
#include <linux/rtnetlink.h>
#include <poll.h>
#include <sched.h>
#include <stdio.h>
#include <stdlib.h>
#include <string.h>
#include <sys/socket.h>
#include <unistd.h>

enum { LEAST_ROOM = 1 << 16 }; /* the kernel makes the parts of a dump as long as the longest that was received for */

/* A datagram of the kernel's, and when it came. While a dump runs they are held back, so that one that was interrupted
 * can be dropped, and news among its parts keep their place. */
struct datagram {
    struct timespec time;
    size_t len;
    uint8_t *bytes;
};

/* What a dump had: how many links, and their family, which is another where the kernel has none of the one that was
 * asked for. */
struct answers {
    uint8_t family;
    size_t count;
};

static struct {
    int fd;
    uint32_t port, seq;    /* the socket's own port, and the number of the last request */
    struct timespec asked; /* when that was sent */
    size_t family;         /* which of the families is asked for, or as many as there are */
    bool is_interrupted;   /* the dump that runs has to be asked for again */
    bool is_lost;          /* messages were lost: all is asked for again, once what came before is read */
    int64_t due;           /* when all is asked for again, in milliseconds, or 0 */
    struct datagram *held;
    size_t count, room;
} self;

/* The next message of a datagram from `at` on, or NULL where it ends. */
static const struct nlmsghdr *next_message(const struct datagram *it, size_t *at) {
    size_t left = it->len - *at;
    const struct nlmsghdr *head = (const void *)(it->bytes + *at);
    if (left == 0) {
        return NULL;
    }
    if (left < NLMSG_HDRLEN || head->nlmsg_len < NLMSG_HDRLEN || head->nlmsg_len > left) {
        fail("the kernel: %s", strerror(EBADMSG));
    }
    *at += NLMSG_ALIGN(head->nlmsg_len) < left ? NLMSG_ALIGN(head->nlmsg_len) : left;
    return head;
}

static bool is_answer(const struct nlmsghdr *head) {
    return head->nlmsg_seq == self.seq && head->nlmsg_pid == self.port;
}

static uint8_t family_of(const struct nlmsghdr *head) {
    return head->nlmsg_len > NLMSG_HDRLEN ? *(const uint8_t *)NLMSG_DATA(head) : AF_UNSPEC;
}

static bool asks_for(const struct question *question, uint8_t family) {
    return memchr(question->families, family, question->family_count) != NULL;
}

/* Whether news are of a family that was asked for. That of AF_UNSPEC that an interface went is of each. */
static bool is_wanted(const struct question *question, const struct nlmsghdr *head) {
    uint8_t family = family_of(head);
    return asks_for(question, family) || (family == AF_UNSPEC && head->nlmsg_type == RTM_DELLINK);
}

/* Appends the links of a datagram: what is wanted of news with is_monitor, and the answers where they are kept, which
 * are counted. */
static void release_datagram(const struct question *question, struct datagram *it, struct answers *answers) {
    const struct nlmsghdr *head;
    for (size_t at = 0; (head = next_message(it, &at)) != NULL;) {
        if (head->nlmsg_type != RTM_NEWLINK && head->nlmsg_type != RTM_DELLINK) {
            continue;
        }
        if (!is_answer(head)) {
            if (question->is_monitor && is_wanted(question, head)) {
                put_line(&it->time, head);
            }
        } else if (answers != NULL) {
            put_line(&it->time, head);
            answers->family = family_of(head);
            answers->count++;
        }
    }
    free(it->bytes);
}

/* Writes what was held back, without answers only the news. */
static void release(const struct question *question, struct answers *answers) {
    for (size_t i = 0; i < self.count; i++) {
        release_datagram(question, &self.held[i], answers);
    }
    self.count = 0;
}

static void release_news(const struct question *question) {
    release(question, NULL);
    flush_lines();
}

/* Whether the kernel has left nothing out: of AF_BRIDGE it has the bridges only where the mask asks for their VLANs. */
static bool is_whole(const struct question *question) {
    return question->families[self.family] != AF_BRIDGE || !question->has_mask ||
           (question->mask & (RTEXT_FILTER_BRVLAN | RTEXT_FILTER_BRVLAN_COMPRESSED)) != 0;
}

/* Writes what was held back, the dump that has ended among it. A line stands before a whole one and after it: an
 * interface that is there has a line between the two. */
static void release_dump(const struct question *question) {
    const struct timespec end = self.held[self.count - 1].time;
    struct answers answers = {.family = question->families[self.family]};
    char words[96];
    bool has_ends = is_whole(question);
    if (has_ends) {
        snprintf(words, sizeof words, " seq=%u port=%u", self.seq, self.port);
        put_words(&self.asked, "begin", words);
    }
    release(question, &answers);
    if (has_ends) {
        snprintf(words, sizeof words, " seq=%u port=%u family=%u links=%zu", self.seq, self.port, answers.family,
                 answers.count);
        put_words(&end, "done", words);
    }
    flush_lines();
}

/* Appends to what is held back. */
static void hold(struct datagram it) {
    if (self.count == self.room) {
        size_t room = 2 * self.room + 16;
        struct datagram *grown = realloc(self.held, room * sizeof *grown);
        if (grown == NULL) {
            fail("out of memory");
        }
        self.held = grown;
        self.room = room;
    }
    self.held[self.count++] = it;
}

static int64_t now(void) {
    struct timespec it;
    clock_gettime(CLOCK_MONOTONIC, &it);
    return it.tv_sec * 1000 + it.tv_nsec / 1000000;
}

/* Asks for the links of the family that is next. */
static void ask(const struct question *question) {
    const uint8_t family = question->families[self.family];
    struct {
        struct nlmsghdr head;
        struct ifinfomsg info;
        struct rtattr attribute;
        uint32_t mask;
    } request = {
        .head = {sizeof request, RTM_GETLINK, NLM_F_REQUEST | NLM_F_DUMP, ++self.seq, 0},
        .info = {.ifi_family = family},
        .attribute = {RTA_LENGTH(sizeof request.mask), IFLA_EXT_MASK},
        /* what the kernel's news of a bridge's ports are made with */
        .mask = question->has_mask ? question->mask : family == AF_BRIDGE ? RTEXT_FILTER_BRVLAN_COMPRESSED : 0,
    };
    if (request.mask == 0) {
        request.head.nlmsg_len = offsetof(__typeof__(request), attribute);
    }
    self.is_interrupted = false;
    clock_gettime(CLOCK_REALTIME, &self.asked);
    if (send(self.fd, &request, request.head.nlmsg_len, 0) < 0) {
        fail("netlink: %s", strerror(errno));
    }
}

/* Asks for the links of all families, one after another. */
static void begin_dumps(const struct question *question) {
    self.family = 0;
    self.due = question->every == 0 ? 0 : now() + question->every;
    ask(question);
}

static void end_dump(const struct question *question) {
    if (self.is_interrupted) {
        release_news(question);
    } else {
        release_dump(question);
        self.family++;
    }
    if (self.is_lost) { /* all is asked for again, once the queue is empty */
        self.family = question->family_count;
    } else if (self.family < question->family_count) {
        ask(question);
    }
}

/* Whether the kernel counts the links of a family, so that where one goes between two parts it passes over another, and
 * does not call the dump interrupted: those of AF_BRIDGE, and before Linux 6.9 those of AF_INET6. */
static bool is_counted(uint8_t family) {
    return family == AF_BRIDGE || family == AF_INET6;
}

/* Looks for the end of the dump that runs; what it ends with is 0 or minus an errno. */
static bool ends_dump(const struct question *question, const struct datagram *it) {
    const bool is_of_counted = is_counted(question->families[self.family]);
    const struct nlmsghdr *head;
    bool is_over = false;
    for (size_t at = 0; (head = next_message(it, &at)) != NULL;) {
        int error = -EBADMSG;
        if (!is_answer(head)) {
            self.is_interrupted |= is_of_counted && head->nlmsg_type == RTM_DELLINK;
            continue;
        }
        self.is_interrupted |= (head->nlmsg_flags & NLM_F_DUMP_INTR) != 0;
        if (head->nlmsg_type == NLMSG_ERROR || head->nlmsg_type == NLMSG_DONE) {
            if (head->nlmsg_len >= NLMSG_LENGTH(sizeof error)) {
                memcpy(&error, NLMSG_DATA(head), sizeof error);
            }
            if (head->nlmsg_type == NLMSG_ERROR && error == -ENOBUFS) { /* the queue is full: it begins later */
                continue;
            }
            if (error != 0) {
                fail("the kernel: %s", strerror(-error));
            }
            is_over = true;
        }
    }
    return is_over;
}

/* Messages were lost: what was dumped, or heard, is of no use. */
static void lose(const struct question *question, const char *what) {
    tell("%s: messages are lost, and the links are asked for again", what);
    self.is_interrupted = true;
    self.is_lost = question->is_monitor;
}

/* Asks for all again where messages were lost, once the queue is empty, for what is in it came before them, and has to
 * stand before the dump. The kernel puts nothing more into a queue that ran over until it is empty. */
static bool asks_again(const struct question *question) {
    struct pollfd file = {self.fd, POLLIN, 0};
    struct timespec time;
    if (!self.is_lost || poll(&file, 1, 0) != 0) {
        return false;
    }
    self.is_lost = false;
    clock_gettime(CLOCK_REALTIME, &time);
    put_words(&time, "lost", "");
    flush_lines();
    begin_dumps(question);
    return true;
}

/* recv gave less than a datagram: at a queue that ran over the program goes on. */
static void receive_nothing(const struct question *question) {
    if (errno == ENOBUFS) {
        lose(question, "the queue ran over");
    } else if (errno != EINTR) {
        fail("netlink: %s", strerror(errno));
    }
}

/* Receives a datagram of any length, which is asked for first. False where there is none. */
static bool receive(const struct question *question, struct datagram *it) {
    ssize_t len = recv(self.fd, NULL, 0, MSG_PEEK | MSG_TRUNC);
    if (len < 0) {
        receive_nothing(question);
        return false;
    }
    size_t room = len < LEAST_ROOM ? LEAST_ROOM : (size_t)len;
    uint8_t *bytes = malloc(room);
    if (bytes == NULL) {
        fail("out of memory");
    }
    len = recv(self.fd, bytes, room, MSG_TRUNC);
    if (len < 0) {
        receive_nothing(question);
    } else if ((size_t)len > room) {
        lose(question, "a datagram was cut off");
    } else {
        *it = (struct datagram){.len = (size_t)len, .bytes = bytes};
        clock_gettime(CLOCK_REALTIME, &it->time);
        return true;
    }
    free(bytes);
    return false;
}

/* Waits for a datagram. False where there is none, and a dump is due. */
static bool waits(void) {
    struct pollfd files[] = {{self.fd, POLLIN, 0}, {STDOUT_FILENO, 0, 0}};
    bool is_due = false;
    while (files[0].revents == 0 && !is_due) {
        int64_t left = self.due == 0 ? -1 : self.due - now();
        is_due = self.due != 0 && left <= 0;
        poll(files, 2, is_due ? 0 : left > INT32_MAX ? INT32_MAX : (int)left);
        if ((files[1].revents & (POLLERR | POLLHUP)) != 0) { /* nobody reads */
            exit(0);
        }
    }
    return files[0].revents != 0;
}

static void enter(const char *netns) {
    char *path = NULL;
    if (asprintf(&path, "%s%s", strchr(netns, '/') == NULL ? "/var/run/netns/" : "", netns) < 0) {
        fail("out of memory");
    }
    int fd = open(path, O_RDONLY | O_CLOEXEC);
    if (fd < 0 || setns(fd, CLONE_NEWNET) != 0) {
        fail("--netns %s: %s", netns, errno == EINVAL ? "no network namespace" : strerror(errno));
    }
    close(fd);
    free(path);
}

static void open_socket(const struct question *question) {
    const struct sockaddr_nl kernel = {.nl_family = AF_NETLINK};
    struct sockaddr_nl own = {.nl_family = AF_NETLINK};
    socklen_t len = sizeof own;
    const int room = 1 << 22;
    if (question->is_monitor || asks_for(question, AF_BRIDGE) || asks_for(question, AF_INET6)) {
        own.nl_groups = RTMGRP_LINK;
    }
    if (question->is_monitor && asks_for(question, AF_INET6)) {
        own.nl_groups |= RTMGRP_IPV6_IFINFO;
    }
    self.fd = socket(AF_NETLINK, SOCK_RAW | SOCK_CLOEXEC, NETLINK_ROUTE);
    /* To a connected socket nobody but the kernel can write. */
    if (self.fd < 0 || bind(self.fd, (const struct sockaddr *)&own, sizeof own) != 0 ||
        connect(self.fd, (const struct sockaddr *)&kernel, sizeof kernel) != 0 ||
        getsockname(self.fd, (struct sockaddr *)&own, &len) != 0) {
        fail("netlink: %s", strerror(errno));
    }
    self.port = own.nl_pid;
    if (setsockopt(self.fd, SOL_SOCKET, SO_RCVBUFFORCE, &room, sizeof room) != 0) { /* the right to it may lack */
        setsockopt(self.fd, SOL_SOCKET, SO_RCVBUF, &room, sizeof room);
    }
}

void read_kernel(const struct question *question) {
    struct datagram it;
    if (question->netns != NULL) {
        enter(question->netns);
    }
    open_socket(question);
    begin_dumps(question);
    while (question->is_monitor || self.family < question->family_count) {
        bool is_dumping = self.family < question->family_count;
        if (!is_dumping && asks_again(question)) {
            continue;
        }
        if (!waits() && !is_dumping) {
            begin_dumps(question);
        } else if (receive(question, &it)) {
            hold(it);
            if (is_dumping && ends_dump(question, &it)) {
                end_dump(question);
            } else if (!is_dumping) {
                release_news(question);
            }
        }
    }
    free(self.held);
    close(self.fd);
}
