/* Lists that are written in place: they hold what lists that are put as payloads hold, and a refusal stays. */
#include <stdio.h>
#include <string.h>

#include "linkwire.h"

static int failures;

static void expect(int line, const char *what, long found, long want) {
    if (found != want) {
        fprintf(stderr, "writer.c:%d: %s is %ld and not %ld\n", line, what, found, want);
        failures++;
    }
}

#define EXPECT(call, want) expect(__LINE__, #call, (long)(call), (long)(want))

/* Numbers of linux/if_link.h. */
enum { IFNAME = 3, LINKINFO = 18, INFO_KIND = 1, INFO_DATA = 2, VLAN_ID = 1 };

static uint8_t list[70000], other[70000];

static void writes_what_is_put(void) {
    static const uint8_t id[] = {7, 0};
    struct linkwire_writer writer = linkwire_writer_at(list, sizeof list, 0);
    size_t data_len = 0, info_len = 0, len = 0;
    uint8_t data[64], info[64];
    linkwire_put_text(&writer, IFNAME, "office");
    size_t nest = linkwire_nest_begin(&writer, LINKINFO);
    linkwire_put_text(&writer, INFO_KIND, "vlan");
    size_t inner = linkwire_nest_begin(&writer, INFO_DATA);
    linkwire_put_u16(&writer, VLAN_ID, 7);
    linkwire_nest_end(&writer, inner);
    linkwire_nest_end(&writer, nest);
    EXPECT(linkwire_put(data, sizeof data, &data_len, VLAN_ID, id, 2), 1);
    EXPECT(linkwire_put(info, sizeof info, &info_len, INFO_KIND, (const uint8_t *)"vlan", 5), 1);
    EXPECT(linkwire_put(info, sizeof info, &info_len, INFO_DATA, data, data_len), 1);
    EXPECT(linkwire_put(other, sizeof other, &len, IFNAME, (const uint8_t *)"office", 7), 1);
    EXPECT(linkwire_put(other, sizeof other, &len, LINKINFO, info, info_len), 1);
    EXPECT(writer.refused, 0);
    EXPECT(writer.at, len);
    EXPECT(memcmp(list, other, len), 0);
}

/* Whether nothing behind this place is written. */
static int is_kept(size_t from) {
    for (size_t i = from; i < sizeof list; i++) {
        if (list[i] != 0xaa) {
            return 0;
        }
    }
    return 1;
}

static void keeps_a_refusal(void) {
    for (size_t cap = 0; cap <= 40; cap++) {
        memset(list, 0xaa, sizeof list);
        struct linkwire_writer writer = linkwire_writer_at(list, cap, 0);
        size_t nest = linkwire_nest_begin(&writer, 0x8001); /* 4 bytes */
        linkwire_put_u8(&writer, 2, 1);                      /* 8 */
        linkwire_put_u64(&writer, 3, 1);                     /* 12 */
        linkwire_nest_end(&writer, nest);
        linkwire_put_text(&writer, 4, "abc"); /* 8 */
        linkwire_put_raw(&writer, list, 0);
        size_t want = cap < 4 ? 0 : cap < 12 ? 4 : cap < 24 ? 12 : cap < 32 ? 24 : 32;
        EXPECT(writer.at, want);
        EXPECT(writer.refused, cap < 32 ? LINKWIRE_NO_ROOM : 0);
        EXPECT(is_kept(want), 1);
        /* the nest was ended where nothing was refused before its end */
        EXPECT(want > 0 && list[0] == (cap < 24 ? 4 : 24) && list[3] == 0x80, want > 0);
    }
}

static void limits_a_nest(void) {
    for (size_t members = 8191; members <= 8192; members++) {
        struct linkwire_writer writer = linkwire_writer_at(list, sizeof list, 0);
        size_t nest = linkwire_nest_begin(&writer, 1);
        for (size_t i = 0; i < members; i++) {
            linkwire_put_u32(&writer, 2, 1);
        }
        /* 65,528 bytes are the most that a nest holds */
        linkwire_nest_end(&writer, nest);
        EXPECT(writer.refused, members == 8191 ? 0 : LINKWIRE_UNFIT);
        EXPECT(linkwire_le(list, 2), members == 8191 ? 65532 : 4);
        linkwire_put_u32(&writer, 2, 1);
        EXPECT(writer.at, 65540);
    }
}

/* Each call that writes, once: 60 bytes, of which the last four begin a nest. */
static size_t writes_each(struct linkwire_writer *writer) {
    static const uint8_t bytes[] = {1, 2, 3, 4};
    linkwire_put_u8(writer, 2, 1);
    linkwire_put_u16(writer, 3, 1);
    linkwire_put_u32(writer, 4, 1);
    linkwire_put_u64(writer, 5, 1);
    linkwire_put_text(writer, 6, "a");
    linkwire_put_bytes(writer, 7, bytes, 4);
    linkwire_put_raw(writer, bytes, 4);
    return linkwire_nest_begin(writer, 8);
}

/* A nest that is open is written to, and refused until it is ended; behind one that is ended twice nothing is. */
static void refuses_a_nest_that_is_open(void) {
    for (size_t ends = 0; ends <= 5; ends++) {
        struct linkwire_writer writer = linkwire_writer_at(list, 300, 0);
        size_t begins[4], written = 4;
        begins[0] = linkwire_nest_begin(&writer, 1);
        for (size_t i = 1; i < 4; i++) {
            EXPECT(writer.refused, LINKWIRE_OPEN_NEST);
            begins[i] = writes_each(&writer);
            written += 60;
            EXPECT(begins[i], written - 4);
        }
        for (size_t i = 0; i < ends; i++) {
            linkwire_nest_end(&writer, begins[i < 4 ? 3 - i : 0]);
        }
        EXPECT(writer.refused, ends == 4 ? 0 : LINKWIRE_OPEN_NEST);
        EXPECT(writer.at, written);
        EXPECT(linkwire_writer_ended(&writer), ends == 5);
        memset(list + written, 0xaa, sizeof list - written);
        writes_each(&writer);
        EXPECT(writer.at, ends == 5 ? written : written + 60);
        EXPECT(is_kept(writer.at), 1);
        EXPECT(writer.refused, LINKWIRE_OPEN_NEST);
        EXPECT(linkwire_le(list, 2), ends < 4 ? 4 : written);
    }
    /* another refusal stays */
    struct linkwire_writer writer = linkwire_writer_at(list, 8, 0);
    size_t nest = linkwire_nest_begin(&writer, 1);
    linkwire_put_u64(&writer, 2, 1);
    EXPECT(writer.refused, LINKWIRE_NO_ROOM);
    EXPECT(linkwire_writer_ended(&writer), 1);
    linkwire_nest_end(&writer, nest);
    EXPECT(writer.refused, LINKWIRE_NO_ROOM);
}

static void writes_bytes_as_they_are(void) {
    static const uint8_t bytes[] = {1, 2, 3, 4, 5, 6, 7, 8, 9};
    for (size_t len = 0; len <= sizeof bytes; len++) {
        size_t padded = (len + 3) / 4 * 4;
        for (size_t cap = 0; cap <= 12; cap++) {
            memset(list, 0xaa, sizeof list);
            struct linkwire_writer writer = linkwire_writer_at(list, cap, 0);
            linkwire_put_raw(&writer, bytes, len);
            EXPECT(writer.refused, cap < padded ? LINKWIRE_NO_ROOM : 0);
            EXPECT(writer.at, cap < padded ? 0 : padded);
            EXPECT(is_kept(writer.at), 1);
            EXPECT(cap >= padded && memcmp(list, bytes, len) != 0, 0);
            EXPECT(cap >= padded && memcmp(list + len, "\0\0\0", padded - len) != 0, 0);
        }
    }
}

static void writes_numbers(void) {
    struct linkwire_writer writer = linkwire_writer_at(list, 64, 0);
    struct linkwire_attribute it;
    size_t at = 0;
    uint8_t u8 = 0;
    uint16_t u16 = 0;
    uint32_t u32 = 0;
    uint64_t u64 = 0;
    linkwire_put_u8(&writer, 1, 0x12);
    linkwire_put_u16(&writer, 2, 0x1234);
    linkwire_put_u32(&writer, 3, 0x12345678);
    linkwire_put_u64(&writer, 4, 0x8000000000000001);
    linkwire_put_text(&writer, 5, "");
    EXPECT(writer.refused, 0);
    EXPECT(linkwire_next(list, writer.at, &at, &it) == 1 && linkwire_u8(list, &it, &u8) && u8 == 0x12, 1);
    EXPECT(linkwire_next(list, writer.at, &at, &it) == 1 && linkwire_u16(list, &it, &u16) && u16 == 0x1234, 1);
    EXPECT(linkwire_next(list, writer.at, &at, &it) == 1 && linkwire_u32(list, &it, &u32) && u32 == 0x12345678, 1);
    EXPECT(linkwire_next(list, writer.at, &at, &it) == 1 && linkwire_u64(list, &it, &u64), 1);
    EXPECT(u64 == 0x8000000000000001, 1);
    EXPECT(linkwire_next(list, writer.at, &at, &it) == 1 && it.payload_len == 1 && list[it.payload] == 0, 1);
    EXPECT(at, writer.at);
}

int main(void) {
    writes_what_is_put();
    keeps_a_refusal();
    limits_a_nest();
    refuses_a_nest_that_is_open();
    writes_bytes_as_they_are();
    writes_numbers();
    return failures != 0;
}
