/* linkdump reads captures of an nlmon device, where it is built with libpcap. */
#include "linkdump.h"

#ifndef LINKDUMP_PCAP

const bool reads_captures = false;

void read_capture(const char *file) {
    fail("%s: this linkdump is built without libpcap, and reads no captures", file);
}

#else

#include <byteswap.h>
#include <endian.h>
#include <errno.h>
#include <pcap/pcap.h>
#include <stdio.h>
#include <string.h>

const bool reads_captures = true;

enum { COOKED_SIZE = 16, COOKED_PROTOCOL = 14 }; /* the header in front of each packet, and where its family stands */

/* What a capture holds of a packet, and what it is called. */
struct packet {
    const char *file;
    size_t number;
    struct timespec time;
    const uint8_t *bytes;
    size_t len;
};

/* The family of netlink; its header has the network's byte order. */
static uint16_t cooked_protocol(const uint8_t *bytes) {
    uint16_t number;
    memcpy(&number, bytes + COOKED_PROTOCOL, sizeof number);
    return be16toh(number);
}

/* Whether a header whose length is wrong is right the other way round. Types have one byte. */
static bool is_turned(const struct nlmsghdr *head, size_t left) {
    uint32_t len = bswap_32(head->nlmsg_len);
    return len >= NLMSG_HDRLEN && len <= left && (head->nlmsg_type & 0xff) == 0 && head->nlmsg_type != 0;
}

/* An error quotes the request that it answers; an acknowledgement has its header alone. */
static void tell_quoted(const struct packet *it, const uint8_t *message, size_t len) {
    struct nlmsgerr error;
    if (len < NLMSG_LENGTH(sizeof error)) {
        return;
    }
    memcpy(&error, message + NLMSG_HDRLEN, sizeof error);
    if (error.error != 0 && type_name(error.msg.nlmsg_type) != NULL) {
        tell("%s: packet %zu: the message of type %s that an error quotes is left out: %s", it->file, it->number,
             type_name(error.msg.nlmsg_type), strerror(error.error < -4095 ? EBADMSG : -error.error));
    }
}

static void put_messages(const struct packet *it) {
    for (size_t at = COOKED_SIZE, left; (left = it->len - at) >= NLMSG_HDRLEN;) {
        struct nlmsghdr head;
        memcpy(&head, it->bytes + at, sizeof head);
        if (head.nlmsg_len < NLMSG_HDRLEN || head.nlmsg_len > left) {
            if (is_turned(&head, left)) {
                fail("%s: packet %zu: of a big-endian machine", it->file, it->number);
            }
            tell("%s: packet %zu: a message has the length %u, and %zu bytes are left: left out", it->file,
                 it->number, head.nlmsg_len, left);
            return;
        }
        if (type_name(head.nlmsg_type) != NULL) {
            put_line(&it->time, it->bytes + at);
        } else if (head.nlmsg_type == NLMSG_ERROR) {
            tell_quoted(it, it->bytes + at, head.nlmsg_len);
        }
        at += NLMSG_ALIGN(head.nlmsg_len) < left ? NLMSG_ALIGN(head.nlmsg_len) : left;
    }
}

static void put_packet(const struct packet *it, size_t whole) {
    if (it->len >= COOKED_SIZE && cooked_protocol(it->bytes) != NETLINK_ROUTE) {
        return;
    }
    if (it->len < whole) {
        tell("%s: packet %zu: cut by the capture, %zu of %zu bytes: left out", it->file, it->number, it->len, whole);
    } else if (it->len < COOKED_SIZE) {
        tell("%s: packet %zu: %zu bytes, too few for its header: left out", it->file, it->number, it->len);
    } else {
        put_messages(it);
        flush_lines();
    }
}

static pcap_t *capture;

/* What gzip wrote is told, for libpcap reads none of it; no capture has its first byte. */
static void refuse_gzip(const char *file, FILE *stream) {
    int first = getc(stream);
    if (first != 0x1f) {
        ungetc(first, stream);
    } else if (getc(stream) == 0x8b) {
        fail("%s: compressed by gzip: zcat %s | linkdump --read -", file, file);
    } else {
        fail("%s: no capture: unknown file format", file);
    }
}

static void open_capture(const char *file) {
    char error[PCAP_ERRBUF_SIZE] = "";
    FILE *stream = strcmp(file, "-") == 0 ? stdin : fopen(file, "rbe");
    if (stream == NULL) {
        fail("%s: %s", file, strerror(errno));
    }
    refuse_gzip(file, stream);
    capture = pcap_fopen_offline_with_tstamp_precision(stream, PCAP_TSTAMP_PRECISION_NANO, error);
    if (capture == NULL) {
        fail("%s: no capture: %s", file, error);
    }
    int type = pcap_datalink(capture);
    if (type != DLT_NETLINK) {
        const char *name = pcap_datalink_val_to_name(type);
        fail("%s: a capture of link type %d%s%s, not of NETLINK", file, type, name == NULL ? "" : " ",
             name == NULL ? "" : name);
    }
    if (pcap_is_swapped(capture) != 0) {
        fail("%s: a capture of a big-endian machine", file);
    }
}

void read_capture(const char *file) {
    struct pcap_pkthdr *head;
    struct packet it = {.file = file};
    int state;
    open_capture(file);
    while ((state = pcap_next_ex(capture, &head, &it.bytes)) == 1) {
        it.number++;
        it.time = (struct timespec){head->ts.tv_sec, head->ts.tv_usec}; /* nanoseconds, as it was opened */
        it.len = head->caplen;
        put_packet(&it, head->len);
    }
    if (state == PCAP_ERROR) {
        fail("%s: %s", file, pcap_geterr(capture));
    }
    pcap_close(capture);
}

#endif
