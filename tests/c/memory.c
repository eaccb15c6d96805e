/* Refuses each request of the four calls that take memory in turn, with all that come after it and alone: they return
 * LINKWIRE_OUT_OF_MEMORY, and nothing else, and write nothing, until memory is ample, and all memory is given back.
 * Memory is never zero when it is taken, nor kept when it is given back, and nothing is written behind a block. The
 * other functions take none. */
#include <stdio.h>
#include <string.h>

#include "linkwire.h"

/* 480 bytes: linkwire_same_message takes no memory for encodings of 256 and less. */
static const uint8_t message[480] = {
    /* a header and two alternative names */
    0x00, 0x00, 0x01, 0x00, 0x02, 0x00, 0x00, 0x00, 0x43, 0x10, 0x01, 0x00, 0x00, 0x00, 0x00, 0x00,
    0x20, 0x00, 0x34, 0x80, 0x0e, 0x00, 0x35, 0x00, 0x77, 0x6c, 0x70, 0x30, 0x73, 0x32, 0x30, 0x66,
    0x33, 0x00, 0x00, 0x00, 0x09, 0x00, 0x35, 0x00, 0x77, 0x69, 0x66, 0x69, 0x00, 0x00, 0x00, 0x00,
    /* a vlan of a virtual function, four levels deep */
    0x20, 0x00, 0x16, 0x00, 0x1c, 0x00, 0x01, 0x00, 0x18, 0x00, 0x0c, 0x00, 0x14, 0x00, 0x01, 0x00,
    0x01, 0x00, 0x00, 0x00, 0x64, 0x00, 0x00, 0x00, 0x00, 0x00, 0x00, 0x00, 0x88, 0xa8, 0x12, 0x34,
    /* a wireless event */
    0x0d, 0x00, 0x0b, 0x00, 0xff, 0xff, 0x07, 0x8c, 0x01, 0x02, 0x03, 0x04, 0xaa, 0x00, 0x00, 0x00,
    /* a name and the kind of the link */
    0x0a, 0x00, 0x03, 0x00, 0x70, 0x66, 0x63, 0x70, 0x30, 0x00, 0x00, 0x00, 0x10, 0x00, 0x12, 0x00,
    0x09, 0x00, 0x01, 0x00, 0x70, 0x66, 0x63, 0x70, 0x00, 0x00, 0x00, 0x00,
    /* the zeros of an attribute that is not listed */
    0x64, 0x01, 0xff, 0x00,
};

/* malloc and its kin, over an arena that is never used twice: a block has its size in the 16 bytes before it, and
 * behind it 16 bytes or more that nobody may write. */
enum { BEHIND = 16, TAKEN = 0xa5, GIVEN = 0x5a };
static _Alignas(16) unsigned char arena[1 << 20];
static size_t used;
static long taken, refused_from = -1, in_use, spoiled;
/* Whether the call for memory is refused alone, and those after it succeed. */
static int alone;

void *malloc(size_t size) {
    size_t need = (size + 31) / 16 * 16 + BEHIND;
    int refused = refused_from >= 0 && (alone ? taken == refused_from : taken >= refused_from);
    if (refused || need > sizeof arena - used) {
        taken++;
        return NULL;
    }
    taken++;
    in_use++;
    unsigned char *block = arena + used + 16;
    used += need;
    memcpy(block - 16, &size, sizeof size);
    memset(block, TAKEN, need - 16);
    return block;
}

void free(void *block) {
    unsigned char *at = block;
    size_t size;
    if (block == NULL) {
        return;
    }
    in_use--;
    memcpy(&size, at - 16, sizeof size);
    for (size_t i = 0; i < BEHIND; i++) {
        spoiled += at[size + i] != TAKEN;
    }
    memset(at, GIVEN, size);
}

void *realloc(void *block, size_t size) {
    void *grown = malloc(size);
    if (grown != NULL && block != NULL) {
        size_t had;
        memcpy(&had, (unsigned char *)block - 16, sizeof had);
        memcpy(grown, block, had < size ? had : size);
        free(block);
    }
    return grown;
}

void *calloc(size_t count, size_t size) {
    void *block = malloc(count * size);
    return block == NULL ? NULL : memset(block, 0, count * size);
}

static int wrong(const char *what, long at, long found) {
    fprintf(stderr, "memory.c: %s returns %ld where call %ld for memory is refused\n", what, found, at);
    return 1;
}

static long same(void) {
    return linkwire_same_message(message, sizeof message, message, sizeof message);
}

static long same_state(void) {
    return linkwire_same_state(message, sizeof message, message, sizeof message);
}

static char out[1 << 16];

static long show(void) {
    return linkwire_show(message, sizeof message, LINKWIRE_ORDER_SINCE, 0, out, sizeof out);
}

static long show_fault(void) {
    return linkwire_show(message, sizeof message - 1, LINKWIRE_ORDER_SINCE, 0, out, sizeof out);
}

/* The message with another MTU, which stands behind it, and with an alias that is refused. */
static uint8_t turned[sizeof message + 16] = {0};

static long show_leniently(void) {
    return linkwire_show(turned, sizeof turned, LINKWIRE_ORDER_SINCE, LINKWIRE_LENIENT, out, sizeof out);
}

static long diff(void) {
    return linkwire_diff(message, sizeof message, turned, sizeof turned - 8, LINKWIRE_ORDER_SINCE, 0, out, sizeof out);
}

static long diff_leniently(void) {
    return linkwire_diff(turned, sizeof turned, message, sizeof message, LINKWIRE_ORDER_SINCE,
                         LINKWIRE_LENIENT | LINKWIRE_COUNTERS, out, sizeof out);
}

/* A message of many lists, most of them twice, whose values are other ones in each turn. */
static uint8_t made[2][4096];
static size_t made_len[2];

/* Data of a kind, which has a list and a number twice. */
static void put_data(struct linkwire_writer *to, uint16_t kind, uint32_t turn) {
    size_t data = linkwire_nest_begin(to, kind), inner;
    linkwire_put_u32(to, 1, turn);
    linkwire_put_u32(to, 1, 7);
    inner = linkwire_nest_begin(to, 47);
    linkwire_put_u32(to, 1, turn);
    linkwire_put_u32(to, 1, turn + 1);
    linkwire_nest_end(to, inner);
    linkwire_put_u8(to, 99, (uint8_t)turn);
    linkwire_nest_end(to, data);
}

static void put_info(struct linkwire_writer *to, uint32_t turn) {
    size_t info = linkwire_nest_begin(to, 18);
    linkwire_put_text(to, 1, "bridge");
    put_data(to, 2, turn);
    put_data(to, 2, 5);
    linkwire_put_text(to, 4, turn ? "bond" : "bridge");
    put_data(to, 5, turn);
    linkwire_nest_end(to, info);
}

/* A function of a link: its address, counters, and vlans. */
static void put_function(struct linkwire_writer *to, uint8_t turn) {
    uint8_t record[36] = {0, 0, 0, 0, turn};
    size_t function = linkwire_nest_begin(to, 1), inner;
    linkwire_put_bytes(to, 1, record, 36);
    inner = linkwire_nest_begin(to, 8);
    linkwire_put_u64(to, 0, turn);
    linkwire_nest_end(to, inner);
    inner = linkwire_nest_begin(to, 12);
    for (record[8] = 0; record[8] <= turn; record[8]++) {
        linkwire_put_bytes(to, 1, record, 16);
    }
    linkwire_nest_end(to, inner);
    linkwire_nest_end(to, function);
}

/* What two families say; in the first turn some counters are none. */
static void put_families(struct linkwire_writer *to, uint8_t turn) {
    uint8_t counters[312];
    size_t families = linkwire_nest_begin(to, 26), inner = linkwire_nest_begin(to, 10);
    memset(counters, turn, sizeof counters);
    linkwire_put_u32(to, 1, 0x80000000);
    linkwire_put_bytes(to, 2, counters, 200);
    linkwire_put_bytes(to, 3, counters, turn ? 312 : 0);
    linkwire_put_bytes(to, 5, counters, 16);
    linkwire_nest_end(to, inner);
    inner = linkwire_nest_begin(to, 2);
    linkwire_put_bytes(to, 1, counters, 132);
    linkwire_nest_end(to, inner);
    linkwire_nest_end(to, families);
}

/* With an alias that is refused in the first turn. */
static void make(uint8_t turn) {
    static const uint8_t header[16] = {0, 0, 1, 0, 7, 0, 0, 0, 0x43, 0x10, 1};
    struct linkwire_writer to = linkwire_writer_at(made[turn], sizeof made[turn], 0);
    linkwire_put_raw(&to, header, 16);
    linkwire_put_text(&to, 3, turn ? "eth\"1" : "eth0");
    put_info(&to, turn);
    put_info(&to, 1);
    size_t list = linkwire_nest_begin(&to, 22);
    put_function(&to, turn);
    put_function(&to, 3);
    linkwire_nest_end(&to, list);
    put_families(&to, turn);
    list = linkwire_nest_begin(&to, 52);
    linkwire_put_text(&to, 53, "office");
    linkwire_put_text(&to, 53, turn ? "a\x1f" : "wlan");
    linkwire_nest_end(&to, list);
    linkwire_put_u32(&to, 0x8000 | 99, turn);
    linkwire_put_text(&to, 20, turn ? "a" : "\xe9");
    made_len[turn] = to.at;
}

static long show_made(void) {
    return linkwire_show(made[1], made_len[1], LINKWIRE_ORDER_BEFORE, 0, out, sizeof out);
}

static uint32_t made_flags;

/* Without the alias, which is refused, where nothing is read leniently. */
static size_t old_len(void) {
    return made_flags & LINKWIRE_LENIENT ? made_len[0] : made_len[0] - 8;
}

static long diff_made(void) {
    return linkwire_diff(made[0], old_len(), made[1], made_len[1], LINKWIRE_ORDER_UNKNOWN, made_flags, out, sizeof out);
}

static long diff_back(void) {
    return linkwire_diff(made[1], made_len[1], made[0], old_len(), LINKWIRE_ORDER_BEFORE, made_flags, out, sizeof out);
}

static void turn(void) {
    static const uint8_t more[] = {8, 0, 4, 0, 0xdc, 5, 0, 0, 6, 0, 20, 0, 'a', 0xe9, 0, 0};
    memcpy(turned, message, sizeof message);
    memcpy(turned + sizeof message, more, sizeof more);
}

/* What a call writes with ample memory. */
static char wanted[sizeof out];

/* Refuses the first call for memory, then the second, and so on, until no call is refused. */
static int refuses_from(const char *what, long (*call)(void), long want) {
    for (long at = 0;; at++) {
        used = 0;
        refused_from = at;
        taken = 0;
        memset(out, 0x55, sizeof out);
        long found = call();
        if (found == LINKWIRE_OUT_OF_MEMORY && (out[0] != 0x55 || memcmp(out, out + 1, sizeof out - 1) != 0)) {
            return wrong("a call that wrote", at, found);
        }
        if (in_use != 0 || spoiled != 0) {
            return wrong("a call that kept memory, or wrote behind it,", at, found);
        }
        if (taken <= at) {
            return found == want && memcmp(out, wanted, sizeof out) == 0 ? 0 : wrong(what, at, found);
        }
        if (found != LINKWIRE_OUT_OF_MEMORY) {
            return wrong(what, at, found);
        }
    }
}

static int refuses_each(const char *what, long (*call)(void), long want) {
    used = 0;
    refused_from = -1;
    memset(out, 0x55, sizeof out);
    (void)call();
    memcpy(wanted, out, sizeof out);
    for (alone = 0; alone <= 1; alone++) {
        if (refuses_from(what, call, want)) {
            return 1;
        }
    }
    return 0;
}

/* The messages of many lists, by each flag. */
static int refuses_made(void) {
    make(0);
    make(1);
    refused_from = -1;
    for (made_flags = 0; made_flags < 4; made_flags++) {
        used = 0;
        long there = diff_made(), back = diff_back();
        if (there <= 1000 || back <= 1000) {
            return wrong("linkwire_diff of lists", -1, there);
        }
        if (refuses_each("linkwire_diff of lists", diff_made, there) ||
            refuses_each("linkwire_diff of lists, back", diff_back, back)) {
            return 1;
        }
        refused_from = -1;
    }
    used = 0;
    return refuses_each("linkwire_show of lists", show_made, show_made());
}

/* Calls each function that takes no memory where all memory is refused. */
static int takes_none(void) {
    static uint8_t text[LINKWIRE_GROWTH * sizeof message];
    static uint8_t list[8];
    static uint8_t damaged[sizeof message];
    size_t at = LINKWIRE_HEADER_SIZE, end = 0;
    struct linkwire_attribute attribute;
    struct linkwire_path path;
    /* the length of the vlan is below that of its header */
    memcpy(damaged, message, sizeof message);
    damaged[60] = 3;
    used = 0;
    in_use = 0;
    alone = 0;
    refused_from = 0;
    taken = 0;
    long checked = linkwire_check(message, sizeof message);
    long measured = linkwire_canonical_len(message, sizeof message);
    long written = linkwire_canonical(message, sizeof message, text, sizeof text);
    long cleared = linkwire_state(message, sizeof message, text, sizeof text);
    long found = linkwire_next(message, sizeof message, &at, &attribute);
    long put = linkwire_put(list, sizeof list, &end, 4, message, 4);
    long fault = linkwire_fault_at(message, 15, &at);
    long deep = linkwire_fault_path(damaged, sizeof damaged, &path);
    struct linkwire_writer writer = linkwire_writer_at(list, sizeof list, 0);
    linkwire_nest_end(&writer, linkwire_nest_begin(&writer, 1));
    long order = linkwire_order("6.16", 4);
    long forms = linkwire_canonical_form() == LINKWIRE_CANONICAL_FORM &&
                 linkwire_state_form() == LINKWIRE_STATE_FORM && linkwire_lenient_form() == LINKWIRE_LENIENT_FORM;
    long kept_len = linkwire_canonical_lenient_len(turned, sizeof turned);
    long kept = linkwire_canonical_lenient(turned, sizeof turned, text, sizeof text);
    long kept_state = linkwire_state_lenient(turned, sizeof turned, text, sizeof text);
    struct linkwire_refusal refusal;
    size_t told = 0;
    long refused = linkwire_refusal_next(turned, sizeof turned, &told, &refusal);
    if (checked != 0 || measured <= 0 || written != measured || cleared != measured || found != 1 || put != 1 ||
        fault != LINKWIRE_TOO_SHORT || deep != LINKWIRE_FRAME_UNDER || path.at != 60 || path.depth != 3 || !forms ||
        order != LINKWIRE_ORDER_SINCE || writer.at != 4 || kept_len <= measured || kept != kept_len ||
        kept_state != kept_len || refused != 1 || refusal.fault != LINKWIRE_NOT_UTF8 || taken != 0) {
        fprintf(stderr, "memory.c: with no memory %ld %ld %ld %ld %ld %ld %ld %ld %ld %ld %ld %ld %ld, "
                "and %ld calls for it\n", checked, measured, written, cleared, found, put, fault, deep, forms, kept_len,
                kept, kept_state, refused, taken);
        return 1;
    }
    return 0;
}

int main(void) {
    setvbuf(stderr, NULL, _IONBF, 0);
    /* with ample memory */
    refused_from = -1;
    turn();
    long shown = show(), fault = show_fault(), kept = show_leniently();
    long changed = diff(), changed_kept = diff_leniently();
    if (shown <= 0 || fault <= 0 || kept <= shown || changed <= 0 || changed_kept <= changed) {
        return wrong("a call with ample memory", -1, shown);
    }
    return takes_none() || refuses_each("linkwire_same_message", same, 1) ||
           refuses_each("linkwire_same_state", same_state, 1) || refuses_each("linkwire_show", show, shown) ||
           refuses_each("linkwire_show of a fault", show_fault, fault) ||
           refuses_each("linkwire_show, leniently", show_leniently, kept) ||
           refuses_each("linkwire_diff", diff, changed) ||
           refuses_each("linkwire_diff, leniently", diff_leniently, changed_kept) || refuses_made();
}
