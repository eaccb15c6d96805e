/* Link messages of Linux's route netlink protocol (rtnetlink(7)), for programs in C and C++.
 *
 * A message is the header of 16 bytes (struct ifinfomsg of linux/rtnetlink.h) and the attributes after it
 * (linux/if_link.h), as they stand after the netlink header. Each message that can be written has one canonical
 * encoding, and two byte strings mean the same message exactly where their canonical encodings are equal.
 *
 * An attribute is a length of two bytes, a kind of two bytes, and a payload; the length counts the four bytes before
 * the payload, and not the padding after it. The next attribute starts at the next multiple of four, counted from the
 * start of this one. Numbers are in host order, as the kernel has them. What is proved of the library is proved for
 * 64-bit Linux on machines with the lowest byte first; on others it is tested alone.
 *
 * What each function asks of its caller, and does not test:
 * - A pointer is not null, is aligned for what it points to, and has at least as many bytes after it as its length
 *   says; where the length is 0, any address but null will do. No length is above PTRDIFF_MAX.
 * - What a function writes (`out`, the list of `linkwire_put`, `*at`, `*attribute`, `*refusal`, `*path`) overlaps no
 *   other argument. Arguments that are only read may overlap.
 * - Nobody else writes the bytes that are read, or touches what is written, during the call. An encoding is measured
 *   first and then written: bytes that change in between, in memory that another thread or process shares, can make
 *   `linkwire_canonical`, `linkwire_state`, and these two with `_lenient`, write past `out`. Copy such bytes first.
 * - `*at` has a value before the call. `out`, `*attribute`, `*refusal`, `*path` and what the static functions write
 *   need not be initialised, nor the bytes of a list that `linkwire_put` writes to; a nest that is put as a payload was
 *   written whole.
 * Nothing is asked of the bytes themselves: every call returns, whatever the bytes are.
 *
 * Calls share nothing and keep nothing, so they can run side by side in any number of threads, and no call reads or
 * sets errno but by the allocator. Four calls take memory, `linkwire_same_message`, `linkwire_same_state`,
 * `linkwire_show` and `linkwire_diff`: from malloc and realloc, and they give all of it back with free before they
 * return. malloc, realloc and free belong to one allocator, which aligns a block of N bytes to the largest power of
 * two, up to 16, that divides N; it may set errno. These four calls are not to be made from a signal handler, nor in
 * the forked child of a process with threads. The other functions take no memory and can be called anywhere.
 */
#ifndef LINKWIRE_H
#define LINKWIRE_H

#include <stddef.h>
#include <stdint.h>

#ifdef __cplusplus
extern "C" {
#endif

/* The version of this header and of the library that it came with. */
#define LINKWIRE_VERSION "0.4.0"

/* The number of the canonical form: a change of any message's canonical encoding raises it. Encodings of different
 * numbers are not to be compared, so a store keeps the number beside its keys. `linkwire_canonical_form` returns that
 * of the library. */
#define LINKWIRE_CANONICAL_FORM 2

/* The number of the state form: a change of what a state encoding has at zero raises it, and so does one of the
 * canonical form. A store keeps it beside its keys. `linkwire_state_form` returns that of the library. */
#define LINKWIRE_STATE_FORM 2

/* The number of the lenient form: what raises that of the canonical form raises it, and so does a table that reads what
 * was refused before, though no strict encoding changes. It is that of `linkwire_canonical_lenient`; a state encoding
 * of `linkwire_state_lenient` goes by it and the state form. A store keeps them beside its keys.
 * `linkwire_lenient_form` returns that of the library. */
#define LINKWIRE_LENIENT_FORM 1

/* The bytes of a message's header; its list of attributes starts after them. */
#define LINKWIRE_HEADER_SIZE 16

/* A canonical encoding has at most so many bytes for each byte of its message. */
#define LINKWIRE_GROWTH 79

/* What is refused, and why. Each number has one meaning in every call. */
enum linkwire_answer {
    /* The bytes are no message, or no list of attributes. The first fault counts, front to back, and each value is
     * read whole before the next attribute. */
    LINKWIRE_TOO_SHORT = -1,    /* a header, a record or a wireless event has fewer bytes than it needs */
    LINKWIRE_FRAME_SHORT = -2,  /* fewer than four bytes are left for the header of an attribute */
    LINKWIRE_FRAME_OVER = -3,   /* the length of an attribute passes the bytes that are left */
    LINKWIRE_FRAME_UNDER = -4,  /* the length of an attribute is below that of its header, 4 */
    LINKWIRE_EMPTY_LIST = -5,   /* the payload of a list that must not be empty is empty */
    LINKWIRE_WRONG_LENGTH = -6, /* a number or an address has another length than its own */
    LINKWIRE_NOT_UTF8 = -7,     /* a text is not UTF-8 */
    /* The bytes are a message that has no canonical encoding. */
    LINKWIRE_UNFIT = -16,       /* the value of an attribute would have more than 65531 bytes */
    LINKWIRE_EMPTY_PORTS = -17, /* IFLA_VF_PORTS has entries, none of them an IFLA_VF_PORT */
    /* None of these says anything of the bytes. */
    LINKWIRE_OUT_OF_MEMORY = -18, /* no memory was left; only the four calls that take memory return it */
    LINKWIRE_NO_ROOM = -19,       /* the buffer is too short */
    LINKWIRE_UNKNOWN_FLAG = -20,  /* `flags` has a bit that is no flag of this library */
    LINKWIRE_OPEN_NEST = -21      /* a nest of a `struct linkwire_writer` is not ended, or one is ended twice */
};

/* What `flags` of `linkwire_show` and `linkwire_diff` are made of. Any other bit is refused, so that a program which
 * sets a flag of a newer library learns that this one lacks it. */
enum linkwire_call_flag {
    LINKWIRE_LENIENT = 1, /* an attribute that is refused hides none of the others */
    LINKWIRE_COUNTERS = 2 /* what moves by itself is compared too; nothing to `linkwire_show` */
};

/* An attribute of a list. */
struct linkwire_attribute {
    uint16_t kind;      /* its number, in the low 14 bits, and the two flag bits above it */
    size_t payload;     /* where its payload starts, counted from the start of the list */
    size_t payload_len; /* the bytes of its payload, at most 65531 */
};

/* The most attributes that lead to a fault, which is how deep lists nest. */
#define LINKWIRE_DEPTH 4

/* Where a fault is, and the attributes that lead to it. */
struct linkwire_path {
    size_t at;                        /* the offset from the start of the message */
    size_t depth;                     /* how many of the numbers count */
    uint16_t numbers[LINKWIRE_DEPTH]; /* of the attributes at fault, the outermost first, and zeros after them */
};

/* What lenient reading keeps whole since it is refused: an attribute of the message's own list; or the bytes behind the
 * attributes that are none, for which lenient reading refuses the message too. */
struct linkwire_refusal {
    size_t offset;                       /* where it starts, counted from the start of the message */
    int32_t fault;                       /* why it is refused, -1 to -7 */
    uint32_t is_attribute;               /* 1; or 0 where the bytes are no attribute, and the last that is told */
    struct linkwire_attribute attribute; /* as `linkwire_next` gives it of the message at `offset`; or zeros */
    struct linkwire_path path;           /* where in it the fault is; of bytes that are no attribute `depth` is 0 */
};

/* 0 where the bytes are a message, else the first fault, -1 to -7. Takes no memory. */
int32_t linkwire_check(const uint8_t *message, size_t len);

/* The length of the message's canonical encoding, which is at least 16 and at most LINKWIRE_GROWTH times `len`; or -1
 * to -7, -16, also where the length is above PTRDIFF_MAX, or -17. Takes no memory. */
ptrdiff_t linkwire_canonical_len(const uint8_t *message, size_t len);

/* The same, and the canonical encoding stands at the front of `out`, the rest of which is kept; or -19 exactly where it
 * is longer than `cap`. After every refusal `out` is unchanged. The message is measured once. Takes no memory. */
ptrdiff_t linkwire_canonical(const uint8_t *message, size_t len, uint8_t *out, size_t cap);

/* 1 where both mean the same message, 0 where they mean different ones; or the refusal, -1 to -7, -16, -17 or -18, of
 * the first that is refused. Takes memory. */
int32_t linkwire_same_message(const uint8_t *a, size_t a_len, const uint8_t *b, size_t b_len);

/* The state encoding: the canonical encoding, in which all that an idle kernel moves by itself is zero, so that it
 * stays the same while the interface's settings and state do. It is as long (`linkwire_canonical_len`), it is the
 * canonical encoding of a message, and the state encoding of itself. It returns, writes and refuses as
 * `linkwire_canonical` does. Takes no memory.
 *
 * Zero is, at the numbers of linux/if_link.h and linux/if_bridge.h:
 * - in the header the change mask;
 * - IFLA_STATS, IFLA_STATS64, IFLA_CARRIER_CHANGES, IFLA_CARRIER_UP_COUNT, IFLA_CARRIER_DOWN_COUNT, and the value of
 *   IFLA_EVENT, which tells a notification from a dump by being there;
 * - in each IFLA_VF_INFO of IFLA_VFINFO_LIST the counters of IFLA_VF_STATS, IFLA_VF_STATS_RX_PACKETS to
 *   IFLA_VF_STATS_TX_DROPPED, and IFLA_VF_BROADCAST, which repeats IFLA_BROADCAST, and behind it has bytes that some
 *   kernels do not set;
 * - IFLA_INET6_STATS, IFLA_INET6_ICMP6STATS, and `tstamp` and `reachable_time` of IFLA_INET6_CACHEINFO: under AF_INET6
 *   of IFLA_AF_SPEC in a message of AF_UNSPEC, and in IFLA_PROTINFO in one of AF_INET6;
 * - of IFLA_LINKINFO, which is kept undecoded but for its kind: IFLA_INFO_XSTATS, and
 *   in the data of kind "bridge" IFLA_BR_HELLO_TIMER, IFLA_BR_TCN_TIMER, IFLA_BR_TOPOLOGY_CHANGE_TIMER,
 *   IFLA_BR_GC_TIMER, IFLA_BR_FDB_N_LEARNED, and in its IFLA_BR_MCAST_QUERIER_STATE BRIDGE_QUERIER_IP_OTHER_TIMER and
 *   BRIDGE_QUERIER_IPV6_OTHER_TIMER,
 *   in the data of kind "hsr" IFLA_HSR_SEQ_NR, of kinds "can" and "vcan" IFLA_CAN_BERR_COUNTER
 *   (linux/can/netlink.h),
 *   in the slave data of slave kind "bond" IFLA_BOND_SLAVE_LINK_FAILURE_COUNT,
 *   in the slave data of slave kind "bridge" IFLA_BRPORT_MESSAGE_AGE_TIMER, IFLA_BRPORT_FORWARD_DELAY_TIMER,
 *   IFLA_BRPORT_HOLD_TIMER, IFLA_BRPORT_CONFIG_PENDING, IFLA_BRPORT_TOPOLOGY_CHANGE_ACK,
 *   IFLA_BRPORT_MCAST_EHT_HOSTS_CNT and IFLA_BRPORT_MCAST_N_GROUPS, and the same in IFLA_PROTINFO in a message of
 *   AF_BRIDGE.
 * A kind is a text, which one NUL may end; of several in one list the first decides, named here or not. A payload of
 * another length than the kernel's is zero too. All lengths, padding and flag bits stay; in undecoded data so does all
 * that follows a fault. IFLA_INET6_FLAGS stays: router solicitation moves its bits, some seconds after an interface
 * came up. */
ptrdiff_t linkwire_state(const uint8_t *message, size_t len, uint8_t *out, size_t cap);

/* 1 where both have the same state encoding, 0 where they have different ones; or the refusal, -1 to -7, -16, -17 or
 * -18, of the first that is refused. Takes memory. */
int32_t linkwire_same_state(const uint8_t *a, size_t a_len, const uint8_t *b, size_t b_len);

/* Lenient reading: an attribute of the message's own list that is refused is kept whole, with its number, its flags and
 * its payload, like one of a number that nothing reads. So what has a header, and behind it attributes that fit where
 * they stand, is a message, and what has not is refused with -1 to -4. For the rest the three calls do what those
 * without `_lenient` do, with -16, -17 and -19 too, and where these have an encoding it is the same. Two byte strings
 * mean the same message leniently exactly where their lenient encodings are equal; a lenient state has the same zeros,
 * also in what is kept. They are as long as said of the others. Take no memory. */
ptrdiff_t linkwire_canonical_lenient_len(const uint8_t *message, size_t len);
ptrdiff_t linkwire_canonical_lenient(const uint8_t *message, size_t len, uint8_t *out, size_t cap);
ptrdiff_t linkwire_state_lenient(const uint8_t *message, size_t len, uint8_t *out, size_t cap);

/* The attributes that lenient reading keeps since they are refused, one a call: from 0 in `*at` on, 1, and `*refusal`
 * is the next one, and `*at` moves behind it; 0 where there is none left; -1 where there are fewer bytes than a header.
 * After 0 and -1 `*at` and `*refusal` are unchanged. Bytes that are no attribute are told last. Of a message that
 * `linkwire_check` accepts there is none. Takes no memory. */
int32_t linkwire_refusal_next(const uint8_t *message, size_t len, size_t *at, struct linkwire_refusal *refusal);

/* The order of the counters of IPv6: those of IFLA_INET6_STATS had another one up to Linux 6.12 than since 6.16, and no
 * message says which one it has. Any other number is taken for LINKWIRE_ORDER_UNKNOWN. */
enum linkwire_counter_order {
    LINKWIRE_ORDER_UNKNOWN = 0, /* the counters are shown without names */
    LINKWIRE_ORDER_BEFORE = 1,  /* as up to Linux 6.12 */
    LINKWIRE_ORDER_SINCE = 2    /* as since Linux 6.16 */
};

/* The order in the release of a kernel, as uname(2) has it: two numbers with a dot between them, and anything behind
 * them. LINKWIRE_ORDER_UNKNOWN also where the text is no release. Takes no memory. */
uint32_t linkwire_order(const char *release, size_t len);

/* What the message says, as linkshow(1) answers it: one JSON object, in UTF-8, without an end of line and without a
 * NUL; its members, or, where the bytes are no message, why and where: {"fault":..}. An attribute that may come many
 * times, as "vlan-info", is always an array: linkshow(1) has a table of all. With LINKWIRE_LENIENT it is what linkshow
 * --lenient answers: attributes that are refused hide none of the others, and stand last, under "refused". It stands at
 * the front of `out`, and the rest is kept. Returns its length, also where that is above `cap`: then `out` is
 * unchanged, and a second call with so much room writes it. Or -18 or -20, and `out` is unchanged. It refuses no bytes.
 * Takes memory. */
ptrdiff_t linkwire_show(const uint8_t *message, size_t len, uint32_t order, uint32_t flags, char *out, size_t cap);

/* What changed from one message to another, as linkdiff(1) tells it under "changes": a list in JSON, in UTF-8, without
 * an end of line and without a NUL, of an object for each path whose value differs, with "path", "old" and "new", of
 * which one is left out where the path came or went. VLANs have their numbers there, as
 * "af-spec.vlan-info[vid=10-20].flags": linkdiff(1) says how paths name the values of lists, and which of them come and
 * go whole. A text of a list, as an alternative name, has the path of the list with "[]" behind it,
 * "prop-list.alt-ifname[]": this path comes as often as texts came or went. Where nothing differs but the order of a
 * list, the list is told whole: its path, and both arrays. Where no path differs, though the messages do, the one path
 * "state" has both encodings, in hexadecimal. Attributes IFLA_EVENT of four bytes, which announcements alone have, are
 * left out of both messages first, as linkdiff(1) does. The list is written, and its length returned, as
 * `linkwire_show` does; 0, and `out` is unchanged, exactly where the state encodings of what is left are equal. With
 * LINKWIRE_COUNTERS the canonical encodings are compared, and counters are told too; with LINKWIRE_LENIENT the lenient
 * ones of either. Both messages are shown in one order. Or -20; or the refusal, -1 to -7, -16, -17 or -18, of the first
 * that is refused, and `out` is unchanged. Takes memory. */
ptrdiff_t linkwire_diff(const uint8_t *old_message, size_t old_len, const uint8_t *new_message, size_t new_len,
                        uint32_t order, uint32_t flags, char *out, size_t cap);

/* The attribute at `*at` of a list of attributes: 1, and `*at` moves to the next multiple of four after it, or to
 * `len` where that is less; 0 where `*at` is `len` or more; -2, -3 or -4 where no attribute stands there. After 0 and
 * a fault `*at` and `*attribute` are unchanged. Multiples of four are counted from the start of the attribute.
 *
 * A message's list starts at LINKWIRE_HEADER_SIZE. A nested list is the payload of an attribute: call this with the
 * address of the payload, its length, and an offset of 0. Takes no memory. */
int32_t linkwire_next(const uint8_t *list, size_t len, size_t *at, struct linkwire_attribute *attribute);

/* Finds the last attribute of each of several numbers, as the kernel reads a list. The `kind` of each of the `count`
 * attributes at `found` says a number, without its two flag bits, and what is found takes its place. Where the list has
 * none, `payload` and `payload_len` are 0. Returns 0; or -2, -3 or -4 if at some place of the list no attribute stands.
 * Then those in front of that place were found. Offsets are counted from the start of the list, which is that of a
 * message or of a nest, as for `linkwire_next`. Takes no memory. */
int32_t linkwire_pick(const uint8_t *list, size_t len, struct linkwire_attribute *found, size_t count);

/* Writes an attribute at `*at` of a list that has room for `cap` bytes: 1, and header, payload and the padding up to
 * the next multiple of four, which is zeros, stand there; `*at` moves past them, and all other bytes are kept. -16
 * where the payload has more than 65531 bytes, else -19 where there is no room, padding counted; then nothing changes.
 * A nest is a list that was written, put as a payload; or it is written in place, by a `struct linkwire_writer`
 * (below). Takes no memory. */
int32_t linkwire_put(uint8_t *list, size_t cap, size_t *at, uint16_t kind, const uint8_t *payload, size_t len);

/* What `linkwire_check` returns. After a fault `*at` is the offset, from the start of the message, of the innermost
 * attribute at fault, or of the bytes where one should start; else it is unchanged. Takes no memory. */
int32_t linkwire_fault_at(const uint8_t *message, size_t len, size_t *at);

/* The same, with the numbers of the attributes that lead there, without their flags: of the outermost attribute at
 * fault, of the one in its list, and so on. Bytes where an attribute should start have none, and a short header has
 * none. After a fault all of `*path` is written; else it is unchanged. Takes no memory. */
int32_t linkwire_fault_path(const uint8_t *message, size_t len, struct linkwire_path *path);

/* The number of the canonical form that the library writes. */
uint32_t linkwire_canonical_form(void);

/* The number of the state form that the library writes. */
uint32_t linkwire_state_form(void);

/* The number of the lenient form that the library writes. */
uint32_t linkwire_lenient_form(void);

/* Casts, and a null pointer, that neither language warns of; for this header alone. */
#if defined(__cplusplus) && __cplusplus >= 201103L
#define LINKWIRE_AS(type, value) static_cast<type>(value)
#define LINKWIRE_BYTES(text) reinterpret_cast<const uint8_t *>(text)
#define LINKWIRE_NONE nullptr
#else
#define LINKWIRE_AS(type, value) ((type)(value))
#define LINKWIRE_BYTES(text) ((const uint8_t *)(text))
#define LINKWIRE_NONE NULL
#endif

/* Where the byte number `i` of a number of `width` bytes stands, counted from its lowest byte. */
#if defined(__BYTE_ORDER__) && defined(__ORDER_BIG_ENDIAN__) && __BYTE_ORDER__ == __ORDER_BIG_ENDIAN__
#define LINKWIRE_BYTE(i, width) ((width) - 1 - (i))
#else
#define LINKWIRE_BYTE(i, width) (i)
#endif

/* The number of a kind: its low 14 bits. */
static inline uint16_t linkwire_number(uint16_t kind) {
    return LINKWIRE_AS(uint16_t, kind & 0x3fff);
}

/* The number of `width` bytes in host order. */
static inline uint64_t linkwire_le(const uint8_t *bytes, size_t width) {
    uint64_t value = 0;
    size_t i = width;
    while (i > 0) {
        i--;
        value = value << 8 | bytes[LINKWIRE_BYTE(i, width)];
    }
    return value;
}

/* The payload of an attribute of `list` as a number of one, two, four or eight bytes: 1, and it is in `*value`; or 0
 * where the payload has another length, and `*value` is unchanged. */
static inline int linkwire_u8(const uint8_t *list, const struct linkwire_attribute *attribute, uint8_t *value) {
    if (attribute->payload_len != 1) {
        return 0;
    }
    *value = list[attribute->payload];
    return 1;
}

static inline int linkwire_u16(const uint8_t *list, const struct linkwire_attribute *attribute, uint16_t *value) {
    if (attribute->payload_len != 2) {
        return 0;
    }
    *value = LINKWIRE_AS(uint16_t, linkwire_le(list + attribute->payload, 2));
    return 1;
}

static inline int linkwire_u32(const uint8_t *list, const struct linkwire_attribute *attribute, uint32_t *value) {
    if (attribute->payload_len != 4) {
        return 0;
    }
    *value = LINKWIRE_AS(uint32_t, linkwire_le(list + attribute->payload, 4));
    return 1;
}

/* Also each counter of IFLA_INET6_STATS, whose payload is a row of them in the order of IPSTATS_MIB_* in linux/snmp.h:
 * Linux 6.16 has another order there than 6.12, with as many counters, and a message does not say which one it has. */
static inline int linkwire_u64(const uint8_t *list, const struct linkwire_attribute *attribute, uint64_t *value) {
    if (attribute->payload_len != 8) {
        return 0;
    }
    *value = linkwire_le(list + attribute->payload, 8);
    return 1;
}

/* The length of a text: the payload without the one NUL at its end, if there is one. */
static inline size_t linkwire_text_len(const uint8_t *list, const struct linkwire_attribute *attribute) {
    size_t len = attribute->payload_len;
    if (len > 0 && list[attribute->payload + len - 1] == 0) {
        return len - 1;
    }
    return len;
}

/* A list of attributes that is written by one call after another. After a refusal nothing more is written, so that one
 * look at `refused` at the end is enough for any number of calls. No call takes memory. */
struct linkwire_writer {
    uint8_t *list;   /* where the list starts */
    size_t cap;      /* how many bytes it has room for */
    size_t at;       /* how many of them are written */
    int32_t refused; /* 0, or the first refusal: -16 or -19; or -21: a nest is open, or one was ended twice */
    uint32_t open;   /* how many nests are open */
};

/* A list with room for `cap` bytes, of which `at` are written: those of a header in front of it count, as 16 of a
 * message's, or the 32 of a netlink header and that. */
static inline struct linkwire_writer linkwire_writer_at(uint8_t *list, size_t cap, size_t at) {
    struct linkwire_writer writer;
    writer.list = list;
    writer.cap = cap;
    writer.at = at;
    writer.refused = 0;
    writer.open = 0;
    return writer;
}

/* Whether nothing more is written. While nests are open, they are written to. */
static inline int linkwire_writer_ended(const struct linkwire_writer *writer) {
    return writer->refused != 0 && (writer->refused != LINKWIRE_OPEN_NEST || writer->open == 0);
}

/* Writes an attribute, as `linkwire_put` does. The payload is in no part of the list that is not written. */
static inline void linkwire_put_bytes(struct linkwire_writer *writer, uint16_t kind, const uint8_t *payload,
                                      size_t len) {
    int32_t answer;
    if (linkwire_writer_ended(writer)) {
        return;
    }
    answer = linkwire_put(writer->list, writer->cap, &writer->at, kind, payload, len);
    if (answer < 0) {
        writer->refused = answer;
    }
}

/* A number of `width` bytes, at most eight, in host order. */
static inline void linkwire_put_le(struct linkwire_writer *writer, uint16_t kind, uint64_t value, size_t width) {
    uint8_t bytes[8] = {0, 0, 0, 0, 0, 0, 0, 0};
    size_t i;
    for (i = 0; i < width; i++) {
        bytes[LINKWIRE_BYTE(i, width)] = LINKWIRE_AS(uint8_t, value >> (8 * i));
    }
    linkwire_put_bytes(writer, kind, bytes, width);
}

static inline void linkwire_put_u8(struct linkwire_writer *writer, uint16_t kind, uint8_t value) {
    linkwire_put_le(writer, kind, value, 1);
}

static inline void linkwire_put_u16(struct linkwire_writer *writer, uint16_t kind, uint16_t value) {
    linkwire_put_le(writer, kind, value, 2);
}

static inline void linkwire_put_u32(struct linkwire_writer *writer, uint16_t kind, uint32_t value) {
    linkwire_put_le(writer, kind, value, 4);
}

static inline void linkwire_put_u64(struct linkwire_writer *writer, uint16_t kind, uint64_t value) {
    linkwire_put_le(writer, kind, value, 8);
}

/* A text and the NUL at its end. */
static inline void linkwire_put_text(struct linkwire_writer *writer, uint16_t kind, const char *text) {
    size_t len = 0;
    while (text[len] != 0) {
        len++;
    }
    linkwire_put_bytes(writer, kind, LINKWIRE_BYTES(text), len + 1);
}

/* Bytes that are no attribute, and zeros up to the next multiple of four: the struct ifinfomsg with which the nest
 * VETH_INFO_PEER (linux/veth.h) begins. */
static inline void linkwire_put_raw(struct linkwire_writer *writer, const uint8_t *bytes, size_t len) {
    size_t i, padding = (4 - len % 4) % 4;
    if (linkwire_writer_ended(writer)) {
        return;
    }
    if (writer->at > writer->cap || writer->cap - writer->at < padding || writer->cap - writer->at - padding < len) {
        writer->refused = LINKWIRE_NO_ROOM;
        return;
    }
    for (i = 0; i < len; i++) {
        writer->list[writer->at++] = bytes[i];
    }
    for (i = 0; i < padding; i++) {
        writer->list[writer->at++] = 0;
    }
}

/* Begins a nest: what is written from here to its end is its list. Returns where it begins, for `linkwire_nest_end`.
 * `refused` is -21 until all nests are ended. The kind has NLA_F_NESTED (linux/netlink.h) where the kernel demands it;
 * linkwire(3) says where. */
static inline size_t linkwire_nest_begin(struct linkwire_writer *writer, uint16_t kind) {
    const uint8_t none = 0;
    size_t begin = writer->at;
    linkwire_put_bytes(writer, kind, &none, 0);
    if (!linkwire_writer_ended(writer)) {
        writer->open++;
        writer->refused = LINKWIRE_OPEN_NEST;
    }
    return begin;
}

/* Ends the nest that begins there; nests end in the opposite order. -16 where its list has more than 65528 bytes, and
 * -21 where no nest is open. */
static inline void linkwire_nest_end(struct linkwire_writer *writer, size_t begin) {
    size_t len = writer->at - begin;
    if (linkwire_writer_ended(writer)) {
        return;
    }
    if (writer->open == 0) {
        writer->refused = LINKWIRE_OPEN_NEST;
        return;
    }
    if (len > 65535) {
        writer->refused = LINKWIRE_UNFIT;
        return;
    }
    writer->open--;
    writer->refused = writer->open == 0 ? 0 : LINKWIRE_OPEN_NEST;
    writer->list[begin + LINKWIRE_BYTE(0, 2)] = LINKWIRE_AS(uint8_t, len & 0xff);
    writer->list[begin + LINKWIRE_BYTE(1, 2)] = LINKWIRE_AS(uint8_t, len >> 8);
}

/* What a number that these functions return means: a phrase for a log, never null. */
static inline const char *linkwire_answer_text(ptrdiff_t answer) {
    if (answer >= 0) {
        return "no refusal";
    }
    switch (answer) {
    case LINKWIRE_TOO_SHORT:
        return "a header or record with too few bytes";
    case LINKWIRE_FRAME_SHORT:
        return "too few bytes for the header of an attribute";
    case LINKWIRE_FRAME_OVER:
        return "an attribute that passes the end of its list";
    case LINKWIRE_FRAME_UNDER:
        return "an attribute shorter than its header";
    case LINKWIRE_EMPTY_LIST:
        return "an empty list that needs a member";
    case LINKWIRE_WRONG_LENGTH:
        return "a number or address of a wrong length";
    case LINKWIRE_NOT_UTF8:
        return "a text that is not UTF-8";
    case LINKWIRE_UNFIT:
        return "an attribute that would be too long";
    case LINKWIRE_EMPTY_PORTS:
        return "an empty list of ports";
    case LINKWIRE_OUT_OF_MEMORY:
        return "out of memory";
    case LINKWIRE_NO_ROOM:
        return "a buffer that is too short";
    case LINKWIRE_UNKNOWN_FLAG:
        return "a flag that this library does not have";
    case LINKWIRE_OPEN_NEST:
        return "a nest that is not ended, or ended twice";
    default:
        return "an unknown answer";
    }
}

/* The kernel's name of the number of an outermost attribute (linux/if_link.h), or null where it has none here. */
static inline const char *linkwire_name(uint16_t number) {
    static const char *const names[] = {
        "IFLA_UNSPEC", "IFLA_ADDRESS", "IFLA_BROADCAST", "IFLA_IFNAME", "IFLA_MTU", "IFLA_LINK", "IFLA_QDISC",
        "IFLA_STATS", "IFLA_COST", "IFLA_PRIORITY", "IFLA_MASTER", "IFLA_WIRELESS", "IFLA_PROTINFO", "IFLA_TXQLEN",
        "IFLA_MAP", "IFLA_WEIGHT", "IFLA_OPERSTATE", "IFLA_LINKMODE", "IFLA_LINKINFO", "IFLA_NET_NS_PID",
        "IFLA_IFALIAS", "IFLA_NUM_VF", "IFLA_VFINFO_LIST", "IFLA_STATS64", "IFLA_VF_PORTS", "IFLA_PORT_SELF",
        "IFLA_AF_SPEC", "IFLA_GROUP", "IFLA_NET_NS_FD", "IFLA_EXT_MASK", "IFLA_PROMISCUITY", "IFLA_NUM_TX_QUEUES",
        "IFLA_NUM_RX_QUEUES", "IFLA_CARRIER", "IFLA_PHYS_PORT_ID", "IFLA_CARRIER_CHANGES", "IFLA_PHYS_SWITCH_ID",
        "IFLA_LINK_NETNSID", "IFLA_PHYS_PORT_NAME", "IFLA_PROTO_DOWN", "IFLA_GSO_MAX_SEGS", "IFLA_GSO_MAX_SIZE",
        "IFLA_PAD", "IFLA_XDP", "IFLA_EVENT", "IFLA_NEW_NETNSID", "IFLA_IF_NETNSID", "IFLA_CARRIER_UP_COUNT",
        "IFLA_CARRIER_DOWN_COUNT", "IFLA_NEW_IFINDEX", "IFLA_MIN_MTU", "IFLA_MAX_MTU", "IFLA_PROP_LIST",
        "IFLA_ALT_IFNAME", "IFLA_PERM_ADDRESS", "IFLA_PROTO_DOWN_REASON", "IFLA_PARENT_DEV_NAME",
        "IFLA_PARENT_DEV_BUS_NAME", "IFLA_GRO_MAX_SIZE", "IFLA_TSO_MAX_SIZE", "IFLA_TSO_MAX_SEGS", "IFLA_ALLMULTI",
        "IFLA_DEVLINK_PORT", "IFLA_GSO_IPV4_MAX_SIZE", "IFLA_GRO_IPV4_MAX_SIZE", "IFLA_DPLL_PIN",
        "IFLA_MAX_PACING_OFFLOAD_HORIZON", "IFLA_NETNS_IMMUTABLE", "IFLA_HEADROOM", "IFLA_TAILROOM",
    };
    return number < sizeof names / sizeof *names ? names[number] : LINKWIRE_NONE;
}

/* The names from here on are those of the library's own tables, as scripts/test/rows.py compares. */

/* The name of an operational state, the value of IFLA_OPERSTATE; null for another number. */
static inline const char *linkwire_operstate_name(uint8_t state) {
    static const char *const names[] = {
        "unknown", "notpresent", "down", "lowerlayerdown", "testing", "dormant", "up",
    };
    return state < sizeof names / sizeof *names ? names[state] : LINKWIRE_NONE;
}

/* The name of a link mode, the value of IFLA_LINKMODE; null for another number. */
static inline const char *linkwire_linkmode_name(uint8_t mode) {
    static const char *const names[] = {
        "default", "dormant", "testing",
    };
    return mode < sizeof names / sizeof *names ? names[mode] : LINKWIRE_NONE;
}

/* The name of the flag 1 << bit of `ifi_flags`; null for a bit without one. */
static inline const char *linkwire_flag_name(unsigned bit) {
    static const char *const names[] = {
        "up", "broadcast", "debug", "loopback", "point-to-point", "no-trailers", "running", "no-arp", "promisc",
        "all-multi", "master", "slave", "multicast", "portsel", "auto-media", "dynamic", "lower-up", "dormant", "echo",
    };
    return bit < sizeof names / sizeof *names ? names[bit] : LINKWIRE_NONE;
}

/* The name of a hardware type, `ifi_type`: that of its constant ARPHRD_ in linux/if_arp.h, in small letters;
 * null for another number. */
static inline const char *linkwire_type_name(uint16_t type) {
    static const struct {
        uint16_t number;
        const char *name;
    } names[] = {
        {0, "netrom"}, {1, "ether"}, {2, "eether"}, {3, "ax25"}, {4, "pronet"}, {5, "chaos"}, {6, "ieee802"},
        {7, "arcnet"}, {8, "appletlk"}, {15, "dlci"}, {19, "atm"}, {23, "metricom"}, {24, "ieee1394"}, {27, "eui64"},
        {32, "infiniband"}, {256, "slip"}, {257, "cslip"}, {258, "slip6"}, {259, "cslip6"}, {260, "rsrvd"},
        {264, "adapt"}, {270, "rose"}, {271, "x25"}, {272, "hwx25"}, {280, "can"}, {290, "mctp"}, {512, "ppp"},
        {513, "hdlc"}, {516, "lapb"}, {517, "ddcmp"}, {518, "rawhdlc"}, {519, "rawip"}, {768, "tunnel"},
        {769, "tunnel6"}, {770, "frad"}, {771, "skip"}, {772, "loopback"}, {773, "localtlk"}, {774, "fddi"},
        {775, "bif"}, {776, "sit"}, {777, "ipddp"}, {778, "ipgre"}, {779, "pimreg"}, {780, "hippi"}, {781, "ash"},
        {782, "econet"}, {783, "irda"}, {784, "fcpp"}, {785, "fcal"}, {786, "fcpl"}, {787, "fcfabric"},
        {800, "ieee802_tr"}, {801, "ieee80211"}, {802, "ieee80211_prism"}, {803, "ieee80211_radiotap"},
        {804, "ieee802154"}, {805, "ieee802154_monitor"}, {820, "phonet"}, {821, "phonet_pipe"}, {822, "caif"},
        {823, "ip6gre"}, {824, "netlink"}, {825, "6lowpan"}, {826, "vsockmon"}, {65534, "none"}, {65535, "void"},
    };
    size_t i;
    for (i = 0; i < sizeof names / sizeof *names; i++) {
        if (names[i].number == type) {
            return names[i].name;
        }
    }
    return LINKWIRE_NONE;
}

#undef LINKWIRE_AS
#undef LINKWIRE_BYTE
#undef LINKWIRE_BYTES
#undef LINKWIRE_NONE

#ifdef __cplusplus
}
#endif

#endif
