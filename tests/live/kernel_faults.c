/* Preloaded into an example or into linkdump: once, recv or recvmsg fails or gives what a kernel gives seldom, or a
 * link is deleted after a request; or each call of socket fails, or the queue is small. KERNEL_FAULT says which. Each
 * send or sendto is reported on standard error, and where that is 'none', what send sends, in hexadecimal. */
#define _GNU_SOURCE
#include <dlfcn.h>
#include <errno.h>
#include <linux/netlink.h>
#include <linux/rtnetlink.h>
#include <stdbool.h>
#include <stdio.h>
#include <stdlib.h>
#include <string.h>
#include <sys/socket.h>
#include <unistd.h>

static int is_over;

static void change(struct nlmsghdr *head, const char *fault) {
    if (strcmp(fault, "interrupted") == 0) {
        head->nlmsg_flags |= NLM_F_DUMP_INTR;
    } else if (strcmp(fault, "error") == 0) {
        head->nlmsg_type = NLMSG_ERROR;
        *(int *)NLMSG_DATA(head) = -EPERM;
    } else if (strcmp(fault, "short error") == 0) {
        head->nlmsg_type = NLMSG_ERROR;
        head->nlmsg_len = NLMSG_HDRLEN;
    } else if (strcmp(fault, "length") == 0) {
        head->nlmsg_len = 0x7fffffff;
    } else if (strcmp(fault, "refused") == 0) {
        ((struct rtattr *)((char *)NLMSG_DATA(head) + sizeof(struct ifinfomsg)))->rta_len = 3;
    }
}

ssize_t send(int fd, const void *bytes, size_t len, int flags) {
    ssize_t (*own)(int, const void *, size_t, int);
    *(void **)&own = dlsym(RTLD_NEXT, "send");
    const char *fault = getenv("KERNEL_FAULT");
    if (write(STDERR_FILENO, "asked\n", 6) != 6) {
        return -1;
    }
    if (fault != NULL && strcmp(fault, "none") == 0) {
        for (size_t i = 0; i < len; i++) {
            dprintf(STDERR_FILENO, "%02x", ((const unsigned char *)bytes)[i]);
        }
        dprintf(STDERR_FILENO, "\n");
    }
    ssize_t sent = own(fd, bytes, len, flags);
    if (fault != NULL && strcmp(fault, "deleted") == 0 && !is_over) { /* a link, after the first part of a dump */
        is_over = 1;
        unsetenv("LD_PRELOAD");
        sent = system("ip link del fault0") == 0 ? sent : -1;
    }
    return sent;
}

/* libmnl calls this one. Its last parameter but one has a type of GNU's C library. */
#pragma GCC diagnostic push
#pragma GCC diagnostic ignored "-Wpedantic"
ssize_t sendto(int fd, const void *bytes, size_t len, int flags, const struct sockaddr *to, socklen_t to_len) {
    ssize_t (*own)(int, const void *, size_t, int, const struct sockaddr *, socklen_t);
    *(void **)&own = dlsym(RTLD_NEXT, "sendto");
    return write(STDERR_FILENO, "asked\n", 6) == 6 ? own(fd, bytes, len, flags, to, to_len) : -1;
}
#pragma GCC diagnostic pop

int socket(int family, int type, int protocol) {
    int (*own)(int, int, int);
    *(void **)&own = dlsym(RTLD_NEXT, "socket");
    const char *fault = getenv("KERNEL_FAULT");
    bool is_absent = fault != NULL && strcmp(fault, "no netlink") == 0;
    if (is_absent || (fault != NULL && strcmp(fault, "no right") == 0)) {
        errno = is_absent ? EAFNOSUPPORT : EPERM;
        return -1;
    }
    return own(family, type, protocol);
}

/* A queue that a few announcements fill. */
int setsockopt(int fd, int level, int name, const void *value, socklen_t len) {
    int (*own)(int, int, int, const void *, socklen_t);
    *(void **)&own = dlsym(RTLD_NEXT, "setsockopt");
    const char *fault = getenv("KERNEL_FAULT");
    const int room = 1 << 17;
    bool is_small = fault != NULL && strcmp(fault, "small") == 0 && (name == SO_RCVBUF || name == SO_RCVBUFFORCE);
    return own(fd, level, name, is_small ? &room : value, len);
}

/* What the kernel answers where the queue has no room for the first part of a dump, in front of that part. */
static ssize_t give_no_room(int fd, void *buffer, ssize_t (*own)(int, void *, size_t, int)) {
    const int error = -ENOBUFS;
    struct nlmsghdr *head = buffer;
    ssize_t found = own(fd, head, sizeof *head, MSG_PEEK);
    head->nlmsg_type = NLMSG_ERROR;
    head->nlmsg_len = NLMSG_LENGTH(sizeof(struct nlmsgerr));
    memset(NLMSG_DATA(head), 0, sizeof(struct nlmsgerr));
    memcpy(NLMSG_DATA(head), &error, sizeof error);
    return found < 0 ? found : (ssize_t)head->nlmsg_len;
}

ssize_t recv(int fd, void *buffer, size_t len, int flags) {
    ssize_t (*own)(int, void *, size_t, int);
    *(void **)&own = dlsym(RTLD_NEXT, "recv");
    const char *fault = getenv("KERNEL_FAULT");
    if (fault == NULL || is_over || strcmp(fault, "small") == 0) {
        return own(fd, buffer, len, flags);
    }
    if (strcmp(fault, "ran over") == 0) {
        is_over = 1;
        errno = ENOBUFS;
        return -1;
    }
    if (strcmp(fault, "no room") == 0 && (flags & MSG_PEEK) == 0) {
        is_over = 1;
        return give_no_room(fd, buffer, own);
    }
    ssize_t found = own(fd, buffer, len, flags);
    if (found <= 0 || (flags & MSG_PEEK) != 0) {
        return found;
    }
    if (strcmp(fault, "cut off") == 0) { /* news, and no part of a dump */
        if ((((struct nlmsghdr *)buffer)->nlmsg_flags & NLM_F_MULTI) != 0) {
            return found;
        }
        memset(buffer, 0, (size_t)found);
        found = (ssize_t)len + 1;
    } else {
        change(buffer, fault);
    }
    is_over = 1;
    return found;
}

/* And this one. */
ssize_t recvmsg(int fd, struct msghdr *message, int flags) {
    ssize_t (*own)(int, struct msghdr *, int);
    *(void **)&own = dlsym(RTLD_NEXT, "recvmsg");
    const char *fault = getenv("KERNEL_FAULT");
    ssize_t found = own(fd, message, flags);
    if (fault == NULL || is_over || found <= 0) {
        return found;
    }
    is_over = 1;
    if (strcmp(fault, "ran over") == 0) {
        errno = ENOBUFS;
        return -1;
    }
    change(message->msg_iov[0].iov_base, fault);
    return found;
}
