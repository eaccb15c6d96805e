/* Lists links, makes one, and changes one, over libmnl. docs/C.md goes through it step by step.
 *     cc manager.c $(pkg-config --cflags --libs linkwire libmnl) -o manager
 *     ./manager
 *     ./manager add vlan office eth0 7
 *     ./manager set office 1400 desk
 */
#include <arpa/inet.h>
#include <errno.h>
#include <libmnl/libmnl.h>
#include <linux/if_link.h>
#include <linux/rtnetlink.h>
#include <linux/veth.h>
#include <net/if.h>
#include <stdio.h>
#include <stdlib.h>
#include <string.h>
#include "linkwire.h"

/* A request: netlink's header, struct ifinfomsg, and a list of attributes that `list` writes behind them. */
struct request {
    union {
        struct nlmsghdr head;
        uint8_t bytes[4096];
    } buffer;
    struct linkwire_writer list;
};

static void begin(struct request *request, uint16_t type, uint16_t flags, unsigned index) {
    struct nlmsghdr *head = mnl_nlmsg_put_header(request->buffer.bytes);
    struct ifinfomsg *info = mnl_nlmsg_put_extra_header(head, sizeof *info);
    head->nlmsg_type = type;
    head->nlmsg_flags = NLM_F_REQUEST | flags;
    head->nlmsg_seq = 1;
    info->ifi_index = (int)index;
    request->list = linkwire_writer_at(request->buffer.bytes, sizeof request->buffer.bytes, head->nlmsg_len);
}

/* A text, for printf's "%.*s". Where it is refused it is no UTF-8. */
struct text {
    int len;
    const char *start;
};

static struct text text_of(const uint8_t *list, const struct linkwire_attribute *it) {
    return (struct text){(int)linkwire_text_len(list, it), (const char *)list + it->payload};
}

/* What IFLA_LINKINFO says: the kind of a link, and of a VLAN its number. */
static void look_into(const uint8_t *list, size_t len, struct text *kind, uint16_t *vlan) {
    struct linkwire_attribute it, inner;
    for (size_t at = 0; linkwire_next(list, len, &at, &it) == 1;) {
        if (linkwire_number(it.kind) == IFLA_INFO_KIND) {
            *kind = text_of(list, &it);
        } else if (linkwire_number(it.kind) == IFLA_INFO_DATA && kind->len == 4 && !memcmp(kind->start, "vlan", 4)) {
            const uint8_t *data = list + it.payload;
            for (size_t from = 0; linkwire_next(data, it.payload_len, &from, &inner) == 1;) {
                if (linkwire_number(inner.kind) == IFLA_VLAN_ID) {
                    linkwire_u16(data, &inner, vlan);
                }
            }
        }
    }
}

/* Whether a message can be read. Attributes of it that are refused are told, and hide none of the others. */
static int is_readable(const uint8_t *message, size_t len) {
    struct linkwire_refusal it;
    size_t at = 0;
    int32_t found = 0;
    while ((found = linkwire_refusal_next(message, len, &at, &it)) == 1 && it.is_attribute) {
        const char *name = linkwire_name(linkwire_number(it.attribute.kind));
        fprintf(stderr, "manager: %s of link %u is refused: %s\n", name ? name : "an attribute",
                (unsigned)linkwire_le(message + 4, 4), linkwire_answer_text(it.fault));
    }
    if (found != 0) {
        fprintf(stderr, "manager: a message is refused: %s\n", linkwire_answer_text(found < 0 ? found : it.fault));
    }
    return found == 0;
}

/* Prints one link of a dump to a file. */
static int print_link(const struct nlmsghdr *head, void *file) {
    const uint8_t *message = mnl_nlmsg_get_payload(head);
    size_t len = mnl_nlmsg_get_payload_len(head), at = LINKWIRE_HEADER_SIZE;
    struct text name = {0, ""}, kind = {0, ""};
    struct linkwire_attribute it;
    uint32_t mtu = 0;
    uint16_t vlan = 0;
    uint8_t state = 0;
    if (!is_readable(message, len)) {
        return MNL_CB_OK;
    }
    while (linkwire_next(message, len, &at, &it) == 1) {
        switch (linkwire_number(it.kind)) {
        case IFLA_IFNAME:
            name = text_of(message, &it);
            break;
        case IFLA_MTU:
            linkwire_u32(message, &it, &mtu);
            break;
        case IFLA_OPERSTATE:
            linkwire_u8(message, &it, &state);
            break;
        case IFLA_LINKINFO:
            look_into(message + it.payload, it.payload_len, &kind, &vlan);
            break;
        }
    }
    const char *said = linkwire_operstate_name(state);
    const char *type = linkwire_type_name((uint16_t)linkwire_le(message + 2, 2));
    fprintf(file, "%.*s %s %s mtu %u", name.len, name.start, type ? type : "?", said ? said : "?", mtu);
    if (kind.len > 0) {
        fprintf(file, " kind %.*s", kind.len, kind.start);
    }
    fprintf(file, vlan > 0 ? " id %u\n" : "\n", vlan);
    return MNL_CB_OK;
}

/* What the kernel says of a request: 0 or minus an errno and, where it has one, a text. That stands among attributes
 * behind its copy of the request, of which NLM_F_CAPPED leaves the header alone. */
static int read_error(const struct nlmsghdr *head, void *data) {
    const struct nlmsgerr *error = mnl_nlmsg_get_payload(head);
    const uint8_t *list = mnl_nlmsg_get_payload(head);
    size_t len = mnl_nlmsg_get_payload_len(head), at = sizeof *error;
    struct linkwire_attribute it;
    (void)data;
    if (len < sizeof *error) {
        errno = EBADMSG;
        return MNL_CB_ERROR;
    }
    if ((head->nlmsg_flags & NLM_F_CAPPED) == 0) {
        at += NLMSG_ALIGN(error->msg.nlmsg_len) - (size_t)NLMSG_HDRLEN;
    }
    while ((head->nlmsg_flags & NLM_F_ACK_TLVS) != 0 && linkwire_next(list, len, &at, &it) == 1) {
        if (linkwire_number(it.kind) == NLMSGERR_ATTR_MSG) {
            struct text said = text_of(list, &it);
            fprintf(stderr, "manager: the kernel says: %.*s\n", said.len, said.start);
        }
    }
    errno = -error->error;
    return error->error == 0 ? MNL_CB_STOP : MNL_CB_ERROR;
}

/* Sends a request over an open socket, and reads what comes until it is answered; links are printed to a file. */
static int talk(struct mnl_socket *socket, const struct request *request, FILE *file) {
    static union {
        struct nlmsghdr head;
        uint8_t bytes[1 << 20];
    } answer;
    mnl_cb_t controls[NLMSG_ERROR + 1] = {[NLMSG_ERROR] = read_error};
    const unsigned sequence = request->buffer.head.nlmsg_seq, own = mnl_socket_get_portid(socket);
    int status = mnl_socket_sendto(socket, &request->buffer, request->list.at) < 0 ? MNL_CB_ERROR : MNL_CB_OK;
    while (status == MNL_CB_OK) {
        ssize_t len = mnl_socket_recvfrom(socket, &answer, sizeof answer);
        status = len < 0 ? MNL_CB_ERROR
                         : mnl_cb_run2(&answer, (size_t)len, sequence, own, print_link, file, controls,
                                       NLMSG_ERROR + 1);
    }
    return status;
}

/* The same over a socket of its own. */
static int ask_once(const struct request *request, FILE *file) {
    const int yes = 1;
    int status = MNL_CB_ERROR;
    struct mnl_socket *socket = mnl_socket_open2(NETLINK_ROUTE, SOCK_CLOEXEC);
    if (socket == NULL) {
        return MNL_CB_ERROR;
    }
    mnl_socket_setsockopt(socket, NETLINK_EXT_ACK, (void *)&yes, sizeof yes); /* texts of errors, and */
    mnl_socket_setsockopt(socket, NETLINK_CAP_ACK, (void *)&yes, sizeof yes); /* no copies of requests */
    if (mnl_socket_bind(socket, 0, MNL_SOCKET_AUTOPID) == 0) {
        status = talk(socket, request, file);
    }
    int saved = errno;
    mnl_socket_close(socket);
    errno = saved;
    return status;
}

/* Asks, and again where links came or went during a dump (EINTR) or the kernel had to drop a part of it (ENOBUFS). */
static int ask(struct request *request) {
    int is_dump = (request->buffer.head.nlmsg_flags & NLM_F_DUMP) == NLM_F_DUMP, status = MNL_CB_ERROR;
    if (request->list.refused != 0) { /* one look for all that was put */
        fprintf(stderr, "manager: %s\n", linkwire_answer_text(request->list.refused));
        return 1;
    }
    request->buffer.head.nlmsg_len = (uint32_t)request->list.at;
    do {
        char *text = NULL;
        size_t len = 0;
        FILE *file = open_memstream(&text, &len);
        status = file == NULL ? MNL_CB_ERROR : ask_once(request, file);
        int saved = errno;
        if (file != NULL && fclose(file) == 0 && status != MNL_CB_ERROR) {
            fwrite(text, 1, len, stdout);
        }
        free(text);
        errno = saved;
    } while (status == MNL_CB_ERROR && is_dump && (errno == EINTR || errno == ENOBUFS));
    if (status == MNL_CB_ERROR) {
        perror("manager");
    }
    return status == MNL_CB_ERROR || fflush(stdout) != 0;
}

/* Puts what the words say of a link that is to be made, in one buffer: whether they say a kind that is known here. */
static int put_link(struct linkwire_writer *list, int count, char **words) {
    if (count != 4 && (count != 3 || strcmp(words[0], "veth") != 0)) {
        return 0;
    }
    linkwire_put_text(list, IFLA_IFNAME, words[1]);
    if (strcmp(words[0], "vlan") == 0) {
        linkwire_put_u32(list, IFLA_LINK, if_nametoindex(words[2]));
    }
    size_t info = linkwire_nest_begin(list, IFLA_LINKINFO);
    linkwire_put_text(list, IFLA_INFO_KIND, words[0]);
    size_t data = linkwire_nest_begin(list, IFLA_INFO_DATA);
    if (strcmp(words[0], "vlan") == 0) {
        linkwire_put_u16(list, IFLA_VLAN_ID, (uint16_t)strtoul(words[3], NULL, 10));
    } else if (strcmp(words[0], "vxlan") == 0) {
        linkwire_put_u32(list, IFLA_VXLAN_ID, (uint32_t)strtoul(words[2], NULL, 10));
        linkwire_put_u32(list, IFLA_VXLAN_GROUP, inet_addr(words[3]));
    } else if (strcmp(words[0], "veth") == 0) {
        static const uint8_t header[LINKWIRE_HEADER_SIZE] = {0};
        size_t peer = linkwire_nest_begin(list, VETH_INFO_PEER);
        linkwire_put_raw(list, header, sizeof header);
        linkwire_put_text(list, IFLA_IFNAME, words[2]);
        linkwire_nest_end(list, peer);
    } else {
        return 0;
    }
    linkwire_nest_end(list, data);
    linkwire_nest_end(list, info);
    return 1;
}

int main(int count, char **words) {
    static struct request request;
    if (count == 1) {
        begin(&request, RTM_GETLINK, NLM_F_DUMP, 0);
        return ask(&request);
    }
    if (count > 2 && strcmp(words[1], "add") == 0) {
        begin(&request, RTM_NEWLINK, NLM_F_ACK | NLM_F_CREATE | NLM_F_EXCL, 0);
        if (put_link(&request.list, count - 2, words + 2)) {
            return ask(&request);
        }
    }
    if (count == 5 && strcmp(words[1], "set") == 0) {
        unsigned index = if_nametoindex(words[2]);
        if (index == 0) { /* without an index the kernel would look for a link of the new name */
            perror("manager");
            return 1;
        }
        begin(&request, RTM_NEWLINK, NLM_F_ACK, index);
        linkwire_put_u32(&request.list, IFLA_MTU, (uint32_t)strtoul(words[3], NULL, 10));
        linkwire_put_text(&request.list, IFLA_IFNAME, words[4]);
        return ask(&request);
    }
    fprintf(stderr, "usage: manager\n"
                    "       manager add vlan NAME LINK ID | vxlan NAME ID REMOTE | veth NAME PEER\n"
                    "       manager set NAME MTU NEW-NAME\n");
    return 2;
}
