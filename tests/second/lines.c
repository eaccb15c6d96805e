/* Makes lines of hexadecimal digits, each a link message, that reach every row of every table; and says which of a
 * program's answers to them are not the stored ones.
 *
 *     lines SET                          prints the lines of a set
 *     lines SET places                   prints for each line the number of its place
 *     lines SET calls                    prints what the library's calls return of each
 *     lines SET held                     prints for one of five what its calls say of the line and of the one before
 *     lines SET compare WHAT FILE        reads WHAT's answers to the lines, and compares them with those in FILE
 *     lines SET sums WHAT                prints the rows of WHAT for such a file
 *
 * The sets: `all` has, for each place, every row at the edges of its sizes and values, with each flag, in front of and
 * behind another attribute, cut and followed by what is no attribute; every pair of two rows; every number below 80;
 * and every beginning that is no attribute. `wide` has every pair of two rows with more payloads of each, ten times as
 * many. `digits` has lines that are not all hexadecimal digits. `more` has each row and each other number behind two
 * of the first row, each row with each length and padding that is not zero, and texts and events that are long. `news`
 * has one of five of `all` as lines for linkdiff, of two interfaces and a host for each place, with ends of interfaces,
 * dumps and losses among them, and `changes` has all of `more` as such lines. `mixed` has messages of all rows in no
 * order, four versions of each, and others of mixed.c; `turns` has them, but for the last ones, as lines of one
 * interface, `worded` with words in front, and behind them words that are no UTF-8, and `hosts` has lines of interfaces
 * that come and go in no order. `words` has options that no program has, of all characters but an LF, and some that are
 * no UTF-8. `beside` has messages for calls that compare two, of beside.c, and `mixed held` has them too. The places
 * and their rows are read of the file that PLACES names, tests/second/places.txt, which check.py makes of the tables in
 * crates/.
 *
 * With -DLINES_ALONE it is built without the library, and has no calls. A file of answers has for WHAT, each place and
 * each kind of answer their count and the CRC-32 of all of them.
 */
#include <stdbool.h>
#include <stdint.h>
#include <stdio.h>
#include <stdlib.h>
#include <string.h>
#include <sys/mman.h>

#include "linkwire.h"

enum { MOST = 65531, ROOM = 1 << 18, TABLES = 160, ROWS = 128, PLACES = 512, DEEP = 8, EDGES = 640, KINDS = 64 };

struct bytes {
    size_t len;
    uint8_t *at;
};

/* A row's form: a letter, and the bytes of a number or a record, or which table a list has. */
struct row {
    unsigned number;
    char form;
    unsigned of;
};

static struct {
    size_t rows;
    bool drops;
    struct row row[ROWS];
} table[TABLES];

static struct {
    uint8_t family;
    unsigned table;
    size_t deep;
    unsigned path[DEEP];
} place[PLACES];
static size_t places;

/* Tables of link data: of a kind of link (k) or of ports (p), of what a family has under a number (h), others (v). */
static struct {
    char sort, name[16];
    unsigned family, number, table;
} kind[KINDS];
static size_t kinds;

static void fail(const char *what) {
    fprintf(stderr, "lines: %s\n", what);
    exit(2);
}

static void read_places(void) {
    const char *name = getenv("PLACES");
    FILE *file = fopen(name ? name : "tests/second/places.txt", "r");
    if (!file)
        fail("no file of places");
    char line[256];
    unsigned id = 0;
    while (fgets(line, sizeof line, file)) {
        struct row row = {0, 0, 0};
        int drops, used = 0;
        unsigned family, of;
        if (sscanf(line, "table %u %d", &id, &drops) == 2) {
            if (id >= TABLES)
                fail("too many tables");
            table[id].drops = drops;
        } else if (sscanf(line, "row %u %c %u", &row.number, &row.form, &row.of) >= 2) {
            if (table[id].rows == ROWS)
                fail("too many rows");
            table[id].row[table[id].rows++] = row;
        } else if (sscanf(line, "place %u %u%n", &family, &of, &used) == 2) {
            if (places == PLACES)
                fail("too many places");
            place[places].family = (uint8_t)family;
            place[places].table = of;
            for (char *at = line + used; sscanf(at, "%u%n", &of, &used) == 1; at += used)
                place[places].path[place[places].deep++] = of;
            places++;
        } else if (sscanf(line, "kind %c %15s %u %u %u", &kind[kinds].sort, kind[kinds].name, &kind[kinds].family,
                          &kind[kinds].number, &kind[kinds].table) == 5 && ++kinds == KINDS) {
            fail("too many kinds");
        }
    }
    fclose(file);
}

/* ** payloads */

static struct bytes copy(const void *from, size_t len) {
    struct bytes made = {len, malloc(len + 1)};
    if (!made.at)
        fail("no memory");
    if (len)
        memcpy(made.at, from, len);
    return made;
}

static uint8_t counted[MOST + 1];

static struct bytes pattern(size_t len) {
    for (size_t i = 0; i < len; i++)
        counted[i] = (uint8_t)(7 * i + 1);
    return copy(counted, len);
}

static struct bytes repeated(int byte, size_t len) {
    memset(counted, byte, len);
    return copy(counted, len);
}

/* Appends an attribute with such padding, and returns its whole length. */
static size_t put(uint8_t *to, unsigned kind, const uint8_t *payload, size_t len, int padding) {
    size_t whole = len + 4, pad = (4 - len % 4) % 4;
    memmove(to + 4, payload, len);
    to[0] = (uint8_t)whole, to[1] = (uint8_t)(whole >> 8), to[2] = (uint8_t)kind, to[3] = (uint8_t)(kind >> 8);
    memset(to + whole, padding, pad);
    return whole + pad;
}

struct edges {
    size_t count;
    struct bytes it[EDGES];
};

static void add(struct edges *to, struct bytes one) {
    if (to->count == EDGES)
        fail("too many payloads");
    to->it[to->count++] = one;
}

static void add_number(struct edges *to, size_t n) {
    for (int i = 0; i < 6; i++)
        add(to, pattern((size_t[]){n, 0, 1, n - 1, n + 1, n + 4}[i]));
    uint8_t value[16] = {0};
    for (unsigned v = 0; v < (n == 1 ? 256 : 20); v++) {
        value[0] = (uint8_t)v;
        add(to, copy(value, n));
    }
    for (size_t bit = 0; n > 1 && bit < 8 * n; bit++) {
        memset(value, 0, sizeof value);
        value[bit / 8] = (uint8_t)(1 << bit % 8);
        add(to, copy(value, n));
    }
    add(to, repeated(0xff, n));
}

static void add_record(struct edges *to, size_t n) {
    static const uint8_t words[][4] = {{0, 0, 0, 0}, {255, 255, 255, 255}, {1, 0, 0, 0}, {0, 0, 0, 1},
                                       {0x81, 0, 0, 0}, {0x88, 0xa8, 0, 0}, {0xfe, 255, 255, 255}};
    size_t sizes[] = {n, 0, 1, 2, 3, 4, 7, 8, n / 2, n - 4, n - 1, n + 1, n + 4, n + 8};
    for (size_t i = 0; i < sizeof sizes / sizeof *sizes; i++)
        add(to, pattern(sizes[i]));
    add(to, repeated(0xff, n));
    for (size_t at = 0; at + 4 <= n; at += 4)
        for (size_t w = 0; w < sizeof words / sizeof *words; w++) {
            struct bytes one = pattern(n);
            memcpy(one.at + at, words[w], 4);
            add(to, one);
        }
}

static void add_text(struct edges *to) {
    static const char *const said[] = {
        "lo", "a", "\x7f", "\xc3\xa9\xe2\x82\xac\xf0\x9f\x98\x80", "\xc3", "\xc2\x80", "\xc1\x80", "\xc0\x80",
        "\xe0\xa0\x80", "\xe0\x9f\x80", "\xed\x9f\xbf", "\xed\xa0\x80", "\xef\xbf\xbf", "\xf0\x90\x80\x80",
        "\xf0\x8f\x80\x80", "\xf4\x8f\xbf\xbf", "\xf4\x90\x80\x80", "\xf5\x80\x80\x80", "\x80", "\xff", "\xe2\x82",
        "\xf0\x90\x80", "\xf0\x90", "\xe2\x28\xa1", "\xe2\x82\x28", "\xf0\x28\x8c\xbc", "\xf0\x90\x28\xbc",
        "\xf0\x90\x80\x28", "abcdefg\xff", "abcdefgh", "abcdefghijklmno\xff", "aaaaaaaaaaaaaaaaaaaaaaaaaaaaaaa",
        "aaaaaaaaaaaaaaaaaaaaaaaaaaaaaaaaa\xe9"};
    static const struct { const char *at; size_t len; } ends[] = {{"\xff", 1}, {"\xc3\xa9", 2}, {"\xc3", 1}, {"", 1}};
    for (size_t i = 0; i < sizeof said / sizeof *said; i++)
        add(to, copy(said[i], strlen(said[i])));
    add(to, copy("", 0)), add(to, copy("", 1)), add(to, copy("lo", 3)), add(to, copy("a\0", 3));
    add(to, copy("\0b", 2)), add(to, copy("\xe2\x82", 3));
    for (size_t n = 1; n < 20; n++)
        for (size_t i = 0; i < 4; i++) {
            memset(counted, 'a', n);
            memcpy(counted + n, ends[i].at, ends[i].len);
            add(to, copy(counted, n + ends[i].len));
        }
    /* one byte that is wrong, or a character of two, at each place of words, and of blocks of 16, 32 and 64 */
    static const size_t sizes[] = {7, 8, 12, 16, 31, 131};
    for (size_t k = 0; k < sizeof sizes / sizeof *sizes; k++)
        for (size_t at = 0; at + 1 < sizes[k]; at++)
            for (size_t i = 0; i < (sizes[k] > 100 ? 2 : 1); i++) {
                memset(counted, '0', sizes[k]);
                memcpy(counted + at, i ? "\xc3\xa9" : "\x80", 1 + i);
                add(to, copy(counted, sizes[k]));
            }
    for (size_t n = 17; n < 40; n++) {
        memset(counted, 'a', n);
        counted[n / 2] = 0xff;
        add(to, copy(counted, n));
    }
}

static void add_event(struct edges *to) {
    static const uint8_t commands[][2] = {{7, 0x8c}, {8, 0x8c}, {9, 0x8c}, {6, 0x8c}, {7, 0x8d}, {7, 0}};
    for (size_t c = 0; c < 6; c++)
        for (int i = 0; i < 7; i++) {
            struct bytes one = pattern((size_t[]){8, 9, 10, 11, 12, 16, 64}[i]);
            one.at[0] = 0xff, one.at[1] = 0xfe, one.at[2] = commands[c][0], one.at[3] = commands[c][1];
            add(to, one);
        }
    for (size_t n = 0; n < 10; n++)
        add(to, pattern(n));
}

static const struct edges *edges(struct row row);

/* The first payload of a row's, which is accepted. */
static struct bytes good(struct row row) {
    return edges(row)->it[0];
}

static void add_list(struct edges *to, unsigned of) {
    static uint8_t made[ROOM];
    if (table[of].rows) {
        struct row first = table[of].row[0];
        struct bytes inner = good(first);
        size_t len = put(made, first.number, inner.at, inner.len, 0);
        add(to, copy(made, len));
    } else {
        add(to, pattern(4));
    }
    add(to, copy("", 0));
    add(to, copy(made, put(made, table[of].drops ? 2 : 99, (const uint8_t *)"xyz", 3, 0)));
}

/* Payloads of a row's form at the edges of its sizes and values: the first is accepted; the second is not, if the form
 * refuses any. */
static const struct edges *edges(struct row row) {
    static struct { struct row row; struct edges *made; } known[KINDS];
    static size_t count;
    for (size_t i = 0; i < count; i++)
        if (known[i].row.form == row.form && known[i].row.of == row.of)
            return known[i].made;
    struct edges *made = calloc(1, sizeof *made);
    if (!made || count == KINDS)
        fail("too many forms");
    switch (row.form) {
    case 'n': add_number(made, row.of); break;
    case 'r': add_record(made, row.of); break;
    case 't': add_text(made); break;
    case 'e': add_event(made); break;
    case 'l': add_list(made, row.of); break;
    default:
        for (int i = 0; i < 13; i++)
            add(made, pattern((size_t[]){4, 0, 1, 2, 3, 5, 7, 8, 31, 32, 33, 36, 40}[i]));
    }
    known[count].row = row;
    known[count++].made = made;
    return made;
}

/* ** lines */

/* What becomes of a line: its place, and its bytes, or its text where it is none of bytes. */
static void (*take)(size_t at, const uint8_t *line, size_t len, bool is_text);
static size_t here;
static size_t alone;  /* the place that all lines of a set are told of, if they have one */
static uint8_t message[2 * ROOM];

static void tell(const uint8_t *bytes, size_t len) {
    take(alone ? alone : here, bytes, len, false);
}

/* A message of the place's family and, behind its header, these bytes within the attributes that lead there, and the
 * tail. */
static void tell_in(const uint8_t *inner, size_t len, const char *tail, size_t tail_len) {
    uint8_t *body = message + 16;
    message[0] = place[here].family, message[1] = 0xff, message[2] = 1, message[3] = 0;
    for (size_t i = 0; i < 12; i++)
        message[4 + i] = (uint8_t)(7 * i + 1);
    memmove(body, inner, len);
    for (size_t i = place[here].deep; i-- > 0;)
        len = put(body, place[here].path[i], body, len, 0);
    memcpy(body + len, tail, tail_len);
    tell(message, 16 + len + tail_len);
}

static uint8_t built[ROOM];

/* A row with a payload, as it stands alone; for some payloads also among others, cut, and with its flags. */
static void tell_row(unsigned number, struct bytes payload, struct bytes other, bool is_whole) {
    size_t len = put(built, number, payload.at, payload.len, 0);
    tell_in(built, len, "", 0);
    if (!is_whole)
        return;
    for (unsigned flags = 0x4000; flags <= 0xc000; flags += 0x4000) {
        size_t flagged = put(built, number | flags, payload.at, payload.len, 0xff);
        memcpy(built + flagged, other.at, other.len);
        tell_in(built, flagged + other.len, "", 0);
    }
    put(built, number, payload.at, payload.len, 0);
    tell_in(built, payload.len + 4, "", 0);
    tell_in(built, len, "\5\0\3\0x\0\0\0", 8);
    memcpy(built + len, "\3\0\3\0", 4);
    tell_in(built, len + 4, "", 0);
    memcpy(built + len, "\1", 1);
    tell_in(built, len + 1, "", 0);
    memcpy(built, other.at, other.len);
    tell_in(built, other.len + put(built + other.len, number, payload.at, payload.len, 0), "", 0);
}

/* An attribute whose padding has one byte that is not zero, each in turn, in front of another. */
static void tell_padded(unsigned number, struct bytes payload, struct bytes other) {
    size_t len = put(built, number, payload.at, payload.len, 0);
    memcpy(built + len, other.at, other.len);
    for (size_t at = payload.len + 4; at < len; at++) {
        built[at] = (uint8_t)(at % 2 ? 1 : 0x80);
        tell_in(built, len + other.len, "", 0);
        built[at] = 0;
    }
}

/* An attribute so often, up to six times. */
static void tell_times(unsigned number, struct bytes payload) {
    size_t len = 0;
    for (int times = 1; times < 7; times++) {
        len += put(built + len, number, payload.at, payload.len, 0);
        if (times > 1)
            tell_in(built, len, "", 0);
    }
}

static void tell_two(struct row one, struct bytes first, struct row two, struct bytes second) {
    size_t len = put(built, one.number, first.at, first.len, 0);
    tell_in(built, len + put(built + len, two.number, second.at, second.len, 0), "", 0);
}

/* Numbers that most tables have no row of, with each flag. */
static void tell_numbers(void) {
    static const unsigned more[] = {128, 255, 256, 257, 1024, 4096, 8192, 8193, 16383};
    for (unsigned n = 0; n < 80 + 9; n++)
        for (unsigned flags = 0; flags <= 0xc000; flags += 0x4000)
            for (size_t len = 0; len < 10 + 4; len++) {
                if (flags && len != 0 && len != 1 && len != 4 && len != 8)
                    continue;
                struct bytes one = pattern(len < 10 ? len : (size_t[]){16, 31, 32, 36}[len - 10]);
                tell_in(built, put(built, (n < 80 ? n : more[n - 80]) | flags, one.at, one.len, 0), "", 0);
                free(one.at);
            }
}

/* What begins with no attribute, alone, behind one, and behind the list. */
static void tell_beginnings(struct bytes other, unsigned number) {
    static const unsigned lengths[] = {0, 1, 2, 3, 4, 5, 6, 7, 8, 9, 12, 13, 255, 256, 0x7fff, 0x8000, 0xffff};
    for (size_t n = 0; n < 13; n++) {
        struct bytes some = pattern(n);
        tell_in(some.at, n, "", 0);
        tell_in(built, 0, (const char *)some.at, n);
        memcpy(built, other.at, other.len);
        memcpy(built + other.len, some.at, n);
        tell_in(built, other.len + n, "", 0);
        for (size_t i = 0; i < sizeof lengths / sizeof *lengths; i++) {
            uint8_t *at = built + other.len;
            size_t len = n < 2 ? 2 : n;
            at[0] = (uint8_t)lengths[i], at[1] = (uint8_t)(lengths[i] >> 8), at[2] = (uint8_t)number, at[3] = 0;
            memcpy(at + 4, some.at, n > 4 ? n - 4 : 0);
            tell_in(at, len, "", 0);
            memcpy(built, other.at, other.len);
            tell_in(built, other.len + len, "", 0);
        }
        free(some.at);
    }
}

static void tell_place(void) {
    struct row none = {77, 'b', 0};
    unsigned of = place[here].table;
    size_t rows = table[of].rows;
    struct row first = rows ? table[of].row[0] : none;
    static uint8_t other[ROOM];
    struct bytes some = {put(other, first.number, good(first).at, good(first).len, 0), other};
    for (size_t i = 0; i < rows; i++) {
        struct row row = table[of].row[i];
        const struct edges *all = edges(row);
        for (size_t k = 0; k < all->count; k++)
            tell_row(row.number, all->it[k], some, k < 6);
        for (size_t k = 0; k < 6 && k < all->count; k++)
            tell_padded(row.number, all->it[k], some);
        tell_times(row.number, good(row));
        tell_two(none, all->it[1], row, all->it[1]);
        for (size_t k = 0; k < rows; k++) {
            struct row next = table[of].row[k];
            tell_two(row, all->it[0], next, good(next));
            tell_two(row, all->it[1], next, good(next));
        }
    }
    for (size_t len = 0; len < 4; len++) {
        struct bytes one = pattern(len);
        tell_padded(79, one, some);
        tell_times(79, one);
        free(one.at);
    }
    for (unsigned number = 126; number < 130; number++)
        tell_times(number, some);
    tell_numbers();
    tell_beginnings(some, first.number);
}

/* Each pair of two rows, with the first payloads of each. */
static void tell_wide(void) {
    enum { FRONT = 16 };
    unsigned of = place[here].table;
    for (size_t i = 0; i < table[of].rows; i++)
        for (size_t k = 0; k < table[of].rows; k++) {
            const struct edges *one = edges(table[of].row[i]), *two = edges(table[of].row[k]);
            for (size_t a = 0; a < one->count && a < FRONT; a++)
                for (size_t b = 0; b < two->count && b < FRONT; b++)
                    tell_two(table[of].row[i], one->it[a], table[of].row[k], two->it[b]);
        }
}

/* A message of a family and these bytes behind its header. */
static void tell_of(unsigned family, const uint8_t *body, size_t len) {
    memset(message, 0, 16);
    message[0] = (uint8_t)family;
    memmove(message + 16, body, len);
    tell(message, 16 + len);
}

/* Each family with lists that depend on it, each type of link layer, and each header that is too short. */
static void tell_headers(void) {
    static const struct { const char *at; size_t len; } payloads[] = {
        {"", 0}, {"abc", 3}, {"\4\0\1\0", 4}, {"\4\0\2\0", 4}, {"\x8\0\2\0\4\0\1\0", 8},
        {"\xc\0\xa\0\5\0\x8\0\1\0\0\0", 12}, {"\xc\0\x2d\0\x8\0\1\0001234", 12}, {"\3\0\1\0", 4}};
    for (unsigned family = 0; family < 256; family++)
        for (unsigned number = 12; number <= 26; number += 14)
            for (size_t i = 0; i < 8; i++) {
                size_t len = put(built, number, (const uint8_t *)payloads[i].at, payloads[i].len, 0);
                tell_of(family, built, len + put(built + len, 3, (const uint8_t *)"lo", 2, 0));
            }
    for (unsigned kind = 0; kind < 65536; kind++) {
        uint8_t header[16] = {0, 0, (uint8_t)kind, (uint8_t)(kind >> 8)};
        tell(header, 16);
    }
    for (size_t n = 0; n <= 16; n++) {
        struct bytes some = pattern(n);
        tell(some.at, n);
        free(some.at);
    }
}

static const struct { const char *at; size_t len; } names[] = {
    {"bridge", 6}, {"bridge", 7}, {"can", 3}, {"hsr", 3}, {"bond", 4}, {"veth", 4}, {"", 0}, {"bridg", 5},
    {"bridges", 7}, {"bridge\0", 8}, {"cans", 4}, {"cap", 3}, {"hsrs", 4}, {"hsp", 3}, {"bridgf", 6}, {"xridge", 6}};
enum { NAMES_OF_ALL = 10, NAMES = sizeof names / sizeof *names };

/* IFLA_LINKINFO of some kinds, with an attribute behind them or in front. */
static void tell_info(size_t own, size_t port, unsigned number, const uint8_t *data, size_t len, bool is_behind) {
    static uint8_t info[ROOM];
    size_t at = is_behind ? 0 : put(info, number, data, len, 0);
    at += put(info + at, 1, (const uint8_t *)names[own].at, names[own].len, 0);
    at += put(info + at, 4, (const uint8_t *)names[port].at, names[port].len, 0);
    if (is_behind)
        at += put(info + at, number, data, len, 0);
    tell_of(0, built, put(built, 18, info, at, 0));
}

static void tell_kinds(size_t own, size_t port) {
    static const uint8_t nested[] = "\xc\0\3\0abcdefgh\xc\0\7\0ijklmnop\6\0\1\0ab\0\0";
    static uint8_t data[ROOM];
    for (unsigned number = 0; number < 8; number++)
        tell_info(own, port, number, (const uint8_t *)"\1\2\3\4\5\6\7\x8\x9", 9, true);
    for (unsigned number = 2; number <= 5; number++) {
        if (number == 4)
            continue;
        for (unsigned n = 0; n < 64; n++)
            for (int is_list = 0; is_list < 2; is_list++) {
                size_t len = put(data, n, is_list ? nested : nested + 4, is_list ? 32 : 4, 0);
                len += put(data + len, n + 1, (const uint8_t *)"abc", 3, 0);
                tell_info(own, port, number, data, len, true);
                if (n < 2)
                    tell_info(own, port, number, data, len, false);
            }
        size_t all = 0;
        for (unsigned n = 1; n < 64; n++)
            all += put(data + all, n, (const uint8_t *)"1234", 4, 0);
        tell_info(own, port, number, data, all, true);
        tell_info(own, port, number, data, all - 3, true);
    }
    for (unsigned n = 0; n < 64; n++) {
        size_t len = put(built, n, nested, 20, 0);
        memcpy(data, built, len);
        tell_of(7, built, put(built, 12, data, len, 0));
        tell_of(10, built, put(built, 12, data, len - 1, 0));
    }
}

/* Payloads around the longest that an attribute may have, in one list and in two. */
static void tell_large(void) {
    static const unsigned path[][2] = {{0, 1}, {0, 3}, {0, 11}, {0, 34}, {0, 42}, {0, 99}, {52, 53}, {18, 1}, {18, 9},
                                       {55, 9}, {25, 3}, {62, 1}, {26, 2}, {22, 1}, {24, 1}};
    static uint8_t body[2 * ROOM];
    for (size_t len = 65511; len <= MOST; len++)
        for (size_t i = 0; i < sizeof path / sizeof *path; i++) {
            memset(body, 'a', len);
            memcpy(body, "\0\0\7\x8c", 4);
            size_t whole = put(body, path[i][1], body, len, 0) - (4 - len % 4) % 4;
            if (path[i][0] && whole > MOST)
                continue;
            if (path[i][0])
                whole = put(body, path[i][0], body, whole, 0);
            tell_of(0, body, whole);
        }
    for (size_t n = 205; n < 211; n++) {
        for (size_t i = 0; i < n; i++)
            memcpy(body + 4 * i, "\4\0\3\0", 4);
        size_t len = put(built, 10, body, 4 * n, 0);
        len = put(built, 26, built, len, 0);
        tell_of(0, built, len);
        memcpy(built + len, "\3\0\3\0", 4);
        tell_of(0, built, len + 4);
    }
}

/* Whether no place before this one has its table. */
static bool is_first(void) {
    size_t earlier = 0;
    while (place[earlier].table != place[here].table)
        earlier++;
    return earlier == here;
}

/* Each row of each list in another, so often that as many bytes are written as just fit, or four more. */
static void tell_full(void) {
    static uint8_t list[2 * ROOM];
    for (size_t i = 0; i < table[place[here].table].rows && place[here].deep && is_first(); i++) {
        struct row row = table[place[here].table].row[i];
        if (row.form == 'l' || row.form == 'k')
            continue;
        size_t one = row.form == 'n' || row.form == 'r' ? row.of : good(row).len + (row.form == 't');
        size_t whole = put(list, row.number, counted, one, 0), over = 4 * (place[here].deep - 1);
        for (size_t total = 65528 - over; total <= 65532 - over; total += 4)
            for (int is_short = 0; is_short < 2; is_short++) {
                size_t len = 0, times = (total - 4) / whole, rest = total - times * whole;
                struct bytes payload = is_short ? edges(row)->it[1] : good(row);
                for (size_t k = 0; k < times; k++)
                    len += put(list + len, row.number, payload.at, payload.len, 0);
                if (rest >= 4)
                    len += put(list + len, 99, counted, rest - 4, 0);
                if (len + over <= MOST)
                    tell_in(list, len, "", 0);
            }
    }
}

/* What stands behind two of the first row: each number, also in front of one of that row that is refused, what is too
 * short, and each row with its first payloads; and what no table has in front of them, or empty in front of each. */
static void tell_behind_two(void) {
    const struct row *row = table[place[here].table].row, *end = row + table[place[here].table].rows;
    struct bytes other = pattern(4);
    size_t len = 0;
    if (row == end)
        return;
    for (int i = 0; i < 2; i++)
        len += put(built + len, row->number, good(*row).at, good(*row).len, 0);
    for (unsigned number = 0; number < 260; number += number == 80 ? 160 : 1) {
        size_t two = len + put(built + len, number, other.at, other.len, 0);
        tell_in(built, two, "", 0);
        tell_in(built, two + put(built + two, row->number, edges(*row)->it[1].at, edges(*row)->it[1].len, 0), "", 0);
    }
    for (uint8_t n = 0; n < 4; n++) {
        memcpy(built + len, (const uint8_t[]){n, 0, 99, 0}, 4);
        tell_in(built, len + 4, "", 0);
    }
    memmove(built + 8, built, len);
    put(built, 79, other.at, other.len, 0);
    tell_in(built, 8 + len, "", 0);
    memmove(built, built + 8, len);
    for (const struct row *it = row; it < end; it++)
        for (size_t k = 0; k < 8 && k < edges(*it)->count; k++) {
            struct bytes payload = edges(*it)->it[k];
            tell_in(built, len + put(built + len, it->number, payload.at, payload.len, 0), "", 0);
        }
    other.len = 0;
    for (; row < end; row++)
        tell_two((struct row){79, 'b', 0}, other, *row, good(*row));
    free(other.at);
}

/* Each row with each length up to eight more than it has, and padding that is not zero, in front of another. */
static void tell_lengths(void) {
    const struct row *row = table[place[here].table].row, *end = row + table[place[here].table].rows;
    for (const struct row *it = row; it < end; it++)
        for (size_t n = 0; n < it->of + 9 && it->form != 'l'; n++) {
            struct bytes payload = pattern(n);
            size_t len = put(built, it->number, payload.at, n, 0xff);
            tell_in(built, len + put(built + len, row->number, good(*row).at, good(*row).len, 0), "", 0);
            free(payload.at);
        }
}

static const char digit[] = "0123456789abcdef";
static char spelled[4 * ROOM];

static const char *hex(const uint8_t *bytes, size_t len) {
    for (size_t i = 0; i < len; i++) {
        spelled[2 * i] = digit[bytes[i] >> 4];
        spelled[2 * i + 1] = digit[bytes[i] & 15];
    }
    spelled[2 * len] = 0;
    return spelled;
}

static size_t put_character(char *to, uint32_t c) {
    if (c < 0x80)
        return to[0] = (char)c, 1;
    size_t len = c < 0x800 ? 2 : c < 0x10000 ? 3 : 4;
    for (size_t i = len; i-- > 1; c >>= 6)
        to[i] = (char)(0x80 | (c & 63));
    to[0] = (char)((0xf00 >> len & 0xff) | c);
    return len;
}

/* A message with a name. */
static void tell_name(const void *text, size_t len) {
    tell_of(0, built, put(built, 3, text, len, 0));
}

#include "mixed.c"
#include "beside.c"

/* Texts of bytes and characters that JSON spells otherwise, and of others, in no order. */
static void tell_mixed(void) {
    static char text[2048];
    uint32_t state = 7;
    for (size_t i = 0; i < 4000; i++) {
        text[0] = 0;
        for (size_t n = 1 + i % 61; n-- > 0;) {
            state = state * 1103515245 + 12345;
            size_t at = state >> 16;
            strcat(text, parts[i % 3 && at % 4 ? at / 4 % 4 : at / 4 % PARTS]);
        }
        tell_of(0, built, put(built, i % 2 ? 20 : 3, (const uint8_t *)text, strlen(text), 0));
    }
}

/* Texts with a byte that JSON spells otherwise at each place, and events that are longer than a byte says. */
static void tell_long(void) {
    static const uint8_t bytes[] = {'"', '\\', 0x1a, 0x1f, 0x7f, '\n'};
    static const size_t sizes[] = {3, 7, 8, 12, 16, 17, 31, 33, 47, 64, 67, 131};
    static uint8_t body[1024];
    for (size_t k = 0; k < sizeof sizes / sizeof *sizes; k++)
        for (size_t at = 0; at < sizes[k]; at++)
            for (size_t i = 0; i < sizeof bytes; i++) {
                memset(body, 'a', sizes[k]);
                body[at] = bytes[i];
                tell_of(0, built, put(built, 3, body, sizes[k], 0));
            }
    for (size_t n = 240; n < 530; n += n == 270 ? 230 : 1)
        for (int over = -1; over < 2; over++) {
            struct bytes event = pattern(16 + n);
            size_t said = n + (size_t)over;
            memcpy(event.at, "\xff\xfe\7\x8c", 4);
            event.at[8] = (uint8_t)said, event.at[9] = (uint8_t)(said >> 8);
            tell_of(0, built, put(built, 11, event.at, event.len, 0));
            free(event.at);
        }
}

/* Texts in which one byte is no character, at each place, and a byte behind it. */
static void tell_damaged(void) {
    static const uint8_t bytes[] = {0xff, 0x80, 0xc3};
    static uint8_t text[160];
    for (size_t len = 1; len < 140; len += len < 40 ? 1 : len == 131 ? 9 : 13)
        for (size_t at = 0; at < len; at++)
            for (size_t i = 0; i < sizeof bytes; i++) {
                memset(text, 'a', sizeof text);
                text[at] = bytes[i];
                tell_name(text, len);
            }
}

/* Characters of each first byte, with bytes behind it at the edges of what may be there. */
static void tell_characters(void) {
    static const uint8_t edge[] = {0x41, 0x7f, 0x80, 0x8f, 0x90, 0x9f, 0xa0, 0xbf, 0xc0, 0xff};
    static const uint8_t other[] = {0x7f, 0x80, 0xbf, 0xc0};
    uint8_t text[6] = "";
    for (unsigned first = 0x80; first < 0x100; first++)
        for (size_t second = 0; second < sizeof edge; second++) {
            text[0] = (uint8_t)first, text[1] = edge[second], text[2] = 'a';
            tell_name(text, 2), tell_name(text, 3);
            for (size_t third = 0; first >= 0xdf && third < sizeof other; third++) {
                text[2] = other[third], text[3] = 'a';
                tell_name(text, 3), tell_name(text, 4);
                for (size_t fourth = 0; first >= 0xef && fourth < sizeof other; fourth++) {
                    text[3] = other[fourth];
                    tell_name(text, 4);
                }
            }
        }
}

/* Padding in which one byte is not zero, behind each number of an outermost list. */
static void tell_paddings(struct bytes other) {
    for (unsigned number = 0; number < 80; number++)
        for (size_t len = 1; len < 4; len++)
            for (size_t at = len; at < 4; at++)
                for (int with = -1; with < 2; with += 2) {
                    struct bytes one = pattern(len);
                    size_t whole = put(built, number, one.at, len, 0);
                    built[4 + at] = (uint8_t)with;
                    memcpy(built + whole, other.at, other.len);
                    tell_in(built, whole + other.len, "", 0);
                    free(one.at);
                }
}

/* Puts a row with a payload that is accepted, and returns its whole length. */
static size_t put_row(uint8_t *to, struct row row) {
    static const struct row none = {77, 'n', 4};
    if (row.form == 'l')
        return put(to, row.number, to + 4, put_row(to + 4, table[row.of].rows ? table[row.of].row[0] : none), 0);
    return put(to, row.number, good(row).at, good(row).len, 0);
}

/* Each row of a list with an accepted payload, and behind them so many empty texts of one that they do not fit; the
 * outermost list has one that no row names, and a list of names. */
static void tell_unfit(void) {
    enum { GROWN = 16382 };
    const struct row *row = table[place[here].table].row, *end = row + table[place[here].table].rows;
    static uint8_t all[4 * GROWN];
    size_t len = 0;
    for (const struct row *it = row; it < end; it++)
        len += put_row(built + len, *it);
    if (!place[here].deep) {
        len += put(built + len, 79, built, 0, 0);
        for (size_t i = 0; i < GROWN; i++)
            memcpy(all + 4 * i, (uint8_t[]){4, 0, 53, 0}, 4);
        tell_in(built, len + put(built + len, 52, all, sizeof all, 0), "", 0);
        return;
    }
    for (const struct row *it = row; it < end; it++) {
        size_t more = len;
        for (size_t i = 0; it->form == 't' && i < 65536 / 8; i++)
            more += put(built + more, it->number, built, 0, 0);
        if (more > len)
            tell_in(built, more, "", 0);
    }
}

/* Lists that end without padding, in front of the same row. */
static void tell_cut_lists(void) {
    const struct row *row = table[place[here].table].row, *end = row + table[place[here].table].rows;
    for (const struct row *it = row; it < end; it++)
        for (uint8_t n = 1; it->form == 'l' && n < 4; n++) {
            const uint8_t inner[] = {4 + n, 0, table[it->of].drops ? 1 : 77, 0, 5, 0, 1};
            size_t len = put(built, it->number, inner, 4u + n, 0);
            tell_in(built, len + put_row(built + len, *it), "", 0);
        }
}

/* Records in which one word is a small number. */
static void tell_words(void) {
    const struct row *row = table[place[here].table].row, *end = row + table[place[here].table].rows;
    for (const struct row *it = row; it < end; it++)
        for (size_t at = 0; it->form == 'r' && at + 4 <= it->of; at += 4)
            for (uint8_t word = 2; word < 7; word++) {
                struct bytes one = pattern(it->of);
                memcpy(one.at + at, (uint8_t[]){word, 0, 0, 0}, 4);
                tell_in(built, put(built, it->number, one.at, one.len, 0), "", 0);
                free(one.at);
            }
}

/* Names and texts that just fit, with the NUL behind them. */
static void tell_longest(void) {
    static uint8_t text[MOST];
    memset(text, 'a', sizeof text);
    for (size_t len = MOST - 2; len <= MOST; len++) {
        text[len - 1] = 0;
        tell_name(text, len);
        text[len - 1] = 'a';
    }
}

static void tell_text(const uint8_t *text, size_t len) {
    take(here, text, len, true);
}

/* Lines of other bytes than digits. A line with = has words in front for linkstate, and none is told. */
static void tell_digits(void) {
    static uint8_t line[(1 << 20) + 80];
    for (unsigned c = 0; c < 256; c++) {
        if (c == '\n' || c == '=')
            continue;
        for (size_t at = 0; at < 48; at++) {
            memset(line, '0', 48);
            memcpy(line + 32, "0600030061620000", 16);
            line[at] = (uint8_t)c;
            tell_text(line, 48);
        }
        tell_text((uint8_t[]){(uint8_t)c, (uint8_t)c}, 1);
        tell_text((uint8_t[]){(uint8_t)c, (uint8_t)c}, 2);
    }
    for (size_t n = 0; n < 300; n++)
        for (int i = 0; i < 4; i++) {
            memset(line, i == 1 ? 'A' : '0', n);
            line[n] = i == 2 ? 'g' : i == 3 ? 'G' : '0';
            tell_text(line, n + (i >= 2));
        }
    for (size_t n = 1 << 12; n <= 1 << 20; n *= 2)
        for (size_t len = n - 1; len <= n + 1; len++) {
            memset(line, '0', len);
            tell_text(line, len);
            memcpy(line + 32, "ff0003", 6);
            tell_text(line, len);
        }
}

/* Options of so many characters, one behind the other, and others that are no UTF-8. */
static void print_words(void) {
    enum { EACH = 24576 };
    static char word[4 * EACH + 8];
    static const char *const more[] = {"-", "--", "-\x80", "-\xc3", "-\xc0\x80", "-\xe2\x82", "-\xed\xa0\x80",
                                       "-\xf0\x9f\x98", "-\xf4\x90\x80\x80", "-\xff", "--help\xff",
                                       "-\xfa\xab\xbc\x9d\xc9\x8e\xaf\xa0\x99\xaa\xba"};
    for (uint32_t c = 1; c < 0x110000;) {
        size_t len = 1;
        word[0] = '-';
        for (unsigned i = 0; i < EACH && c < 0x110000; i++, c++)
            if (c != '\n' && (c < 0xd800 || c > 0xdfff))
                len += put_character(word + len, c);
        word[len++] = '\n';
        fwrite(word, 1, len, stdout);
    }
    for (size_t i = 0; i < sizeof more / sizeof *more; i++)
        puts(more[i]);
}

/* Whether the lines of beside.c come behind those of `mixed`: where all that calls say is told. */
static bool has_beside;

static void tell_all(const char *set) {
    bool is_wide = strcmp(set, "wide") == 0;
    if (strcmp(set, "digits") == 0) {
        here = places + 3;
        tell_digits();
        return;
    }
    if (strcmp(set, "more") == 0) {
        alone = places + 5;
        for (here = 0; here < places; here++) {
            tell_behind_two();
            if (!is_first())
                continue;
            tell_lengths();
            tell_unfit();
            tell_cut_lists();
            tell_words();
            if (!place[here].deep)
                tell_paddings((struct bytes){8, (uint8_t *)"\x8\0\4\0\1\2\3\4"});
        }
        for (size_t own = NAMES_OF_ALL; own < NAMES; own++)
            tell_kinds(own, 4), tell_kinds(4, own);
        tell_damaged();
        tell_characters();
        tell_longest();
        tell_long();
        tell_mixed();
        for (size_t n = 0; n < 20; n++)
            tell(counted, n);
        return;
    }
    if (strcmp(set, "mixed") == 0 || strcmp(set, "turns") == 0) {
        alone = places + 6;
        tell_picked();
        tell_addresses();
        tell_spelled();
        tell_functions();
        tell_twice();
        tell_turned();
        tell_refused_behind();
        tell_turned_data();
        tell_ends();
        tell_filled();
        if (strcmp(set, "mixed") == 0)
            tell_more_mixed();
        if (has_beside)
            tell_beside();
        return;
    }
    if (strcmp(set, "beside") == 0) {
        tell_beside();
        return;
    }
    if (!is_wide && strcmp(set, "all") != 0)
        fail("no such set");
    for (here = 0; here < places; here++) {
        if (is_wide) {
            tell_wide();
        } else {
            tell_place();
            tell_full();
        }
    }
    if (is_wide)
        return;
    tell_headers();
    here = places + 1;
    for (size_t own = 0; own < NAMES_OF_ALL; own++)
        for (size_t port = 0; port < NAMES_OF_ALL; port++)
            tell_kinds(own, port);
    here = places + 2;
    tell_large();
}

/* ** what becomes of them */

static void print_line(size_t at, const uint8_t *line, size_t len, bool is_text) {
    (void)at;
    if (is_text)
        fwrite(line, 1, len, stdout);
    else
        fputs(hex(line, len), stdout);
    putchar('\n');
}

/* Of `all` one line in five, and none that is long: for what tells of two messages, and takes longer. */
enum { LONG = 1000 };

static bool is_left_out(size_t len) {
    static size_t count;
    return len > (alone > places + 5 ? 10 * LONG : LONG) || (!alone && (len < 16 || count++ % 5));
}

static void print_news(size_t at, const uint8_t *line, size_t len, bool is_text) {
    static size_t count, dump;
    static uint8_t made[ROOM];
    if (is_text || is_left_out(len))
        return;
    memcpy(made, line, len);
    memcpy(made + 4, (uint8_t[]){(uint8_t)(alone == places + 6 ? 1 : 1 + count % 2), 0, 0, 0}, 4);
    if (count % 997 == 0)
        printf("host=%zu type=begin seq=%zu port=7\n", at, ++dump);
    if (count % 997 == 40)
        printf("host=%zu type=done seq=%zu port=7 family=%u\n", at, dump, made[0]);
    if (count % 1999 == 7)
        printf("host=%zu type=lost\n", at);
    printf("host=%zu%s%s %s\n", at, count % 31 == 30 ? " type=del" : "", count % 101 == 0 ? " kernel=6.1.0" : "",
           hex(made, len));
    count++;
}

/* Lines of a host with many interfaces, which come, change and go in no order, in dumps now and then. */
static void print_many(void) {
    static const char *const families[] = {"00", "07", "0a"};
    uint32_t state = 7;
    for (unsigned i = 0; i < 6000; i++) {
        state = state * 1103515245 + 12345;
        unsigned at = state >> 16, index = at % (i < 3000 ? 300 : 40);
        if (i % 1000 == 900)
            printf("host=many type=begin seq=%u port=7\n", i / 1000);
        printf("host=many type=%s %s000100%02x%02x00000100000000000000%s\n",
               i % 1000 < 900 && at / 512 % 3 == 0 ? "del" : "new", families[at / 4096 % 3], index % 256, index / 256,
               at / 2048 % 2 ? "" : "0600030061000000");
        if (i % 1000 == 999)
            printf("host=many type=done seq=%u port=7 family=%u\n", i / 1000, i < 2000 ? 7 : i < 4000 ? 10 : 0);
    }
}

/* A line with words in front, and now and then with no digits, or wrong ones. */
static void print_worded(size_t at, const uint8_t *line, size_t len, bool is_text) {
    static uint32_t seed;
    static char words[1 << 16];
    (void)at;
    if (is_text || len > LONG)
        return;
    if (seed == 0)
        print_releases();
    fwrite(words, 1, pick_words(words, ++seed), stdout);
    const char *front = pick(seed, 2, 12) ? "" : (const char *[]){"ok ", "ok", "OK ", "0"}[pick(seed, 3, 4)];
    printf("%s%.*s\n", front, pick(seed, 4, 16) ? (int)(2 * len) : 0, hex(line, len));
}

static void print_place(size_t at, const uint8_t *line, size_t len, bool is_text) {
    (void)line, (void)len, (void)is_text;
    printf("%zu\n", at);
}

#ifndef LINES_ALONE
static void print_text(ptrdiff_t len, const uint8_t *text) {
    if (len < 0)
        printf(" %td", len);
    else
        printf(" %s", hex(text, (size_t)len));
}

static void print_calls(size_t at, const uint8_t *line, size_t len, bool is_text) {
    static uint8_t out[LINKWIRE_GROWTH * ROOM];
    (void)at;
    if (is_text)
        return;
    /* of just so many bytes, so that a sanitizer sees more */
    struct bytes tried = copy(line, len);
    struct linkwire_path path = {0};
    int32_t fault = linkwire_fault_path(tried.at, len, &path);
    printf("%d %d ", linkwire_check(tried.at, len), fault);
    if (fault)
        printf("%zu", path.at);
    for (size_t i = 0; i < path.depth; i++)
        printf(",%u", path.numbers[i]);
    print_text(linkwire_canonical(tried.at, len, out, sizeof out), out);
    print_text(linkwire_state(tried.at, len, out, sizeof out), out);
    print_text(linkwire_canonical_lenient(tried.at, len, out, sizeof out), out);
    print_text(linkwire_state_lenient(tried.at, len, out, sizeof out), out);
    putchar('\n');
    free(tried.at);
}
#endif

/* The CRC-32 of zip files. */
static uint32_t crc(uint32_t before, const char *text, size_t len) {
    static uint32_t of[256];
    if (!of[1])
        for (uint32_t i = 0; i < 256; i++) {
            of[i] = i;
            for (int bit = 0; bit < 8; bit++)
                of[i] = of[i] >> 1 ^ (of[i] & 1 ? 0xedb88320 : 0);
        }
    before = ~before;
    for (size_t i = 0; i < len; i++)
        before = before >> 8 ^ of[(before ^ (uint8_t)text[i]) & 255];
    return ~before;
}

#ifndef LINES_ALONE
static void print_json(ptrdiff_t len, const char *text) {
    printf(" %td %08x", len, len > 0 ? (unsigned)crc(0, text, (size_t)len) : 0);
}

/* What other calls say: of a release, of some attributes of a list, and where an answer has just the room or one byte
 * less. */
static void print_more(const uint8_t *line, size_t len, uint32_t order) {
    static char out[4 * LINKWIRE_GROWTH * MOST];
    static size_t turn;
    const char *release = releases[turn++ % (sizeof releases / sizeof *releases)];
    printf(" %u", linkwire_order(release, strlen(release)));
    if (len < 16)
        return;
    struct linkwire_attribute found[] = {{3, 0, 0}, {18, 0, 0}, {26, 0, 0}, {4, 0, 0}, {79, 0, 0}};
    printf(" %d", linkwire_pick(line + 16, len - 16, found, 1 + turn % 5));
    for (size_t i = 0; i < 5; i++)
        printf(" %u,%zu,%zu", found[i].kind, found[i].payload, found[i].payload_len);
    ptrdiff_t room = linkwire_show(line, len, order, 0, out, 0);
    for (ptrdiff_t less = room < 0 || room > 4096 ? 2 : 0; less < 2; less++)
        print_json(linkwire_show(line, len, order, 0, out, (size_t)(room - less)), out);
    ptrdiff_t length = linkwire_canonical_len(line, len);
    for (ptrdiff_t less = length < 0 ? 2 : 0; less < 2; less++)
        printf(" %td %td", linkwire_canonical(line, len, (uint8_t *)out, (size_t)(length - less)),
               linkwire_state(line, len, (uint8_t *)out, (size_t)(length - less)));
}

/* One of three rooms for some bytes in front of memory that nobody may read: what goes on behind them fails. */
static uint8_t *in_front(size_t len, size_t which) {
    enum { LIMIT = 65536, MADE = 4 * ROOM };
    static uint8_t *made[3];
    uint8_t **at = made + which;
    if (!*at) {
        *at = mmap(NULL, MADE + LIMIT, PROT_READ | PROT_WRITE, MAP_PRIVATE | MAP_ANONYMOUS, -1, 0);
        if (*at == MAP_FAILED || mprotect(*at + MADE, LIMIT, PROT_NONE) != 0)
            fail("no memory");
    }
    return *at + MADE - len;
}

/* What changed from one message to another, by each flag, there and back; and in room for just that, or a byte less. */
static void print_changes(struct bytes before, struct bytes line, uint32_t turn) {
    static char out[4 * LINKWIRE_GROWTH * MOST];
    uint32_t order = turn % 3, own = turn / 3 % 4;
    ptrdiff_t room = 0;
    for (uint32_t flags = 0; flags < 4; flags++) {
        print_json(linkwire_diff(line.at, line.len, before.at, before.len, order, flags, out, sizeof out), out);
        ptrdiff_t there = linkwire_diff(before.at, before.len, line.at, line.len, order, flags, out, sizeof out);
        print_json(there, out);
        room = flags == own ? there : room;
    }
    for (ptrdiff_t less = room > 0 && room < 4096 ? 0 : 2; less < 2; less++) {
        size_t size = (size_t)(room - less);
        char *just = memset(in_front(size, 2), 0, size);
        printf(" %td", linkwire_diff(before.at, before.len, line.at, line.len, order, own, just, size));
        printf(" %08x", (unsigned)crc(0, just, size));
    }
    ptrdiff_t length = linkwire_canonical_lenient_len(line.at, line.len);
    for (ptrdiff_t less = length < 0 ? 2 : 0; less < 2; less++) {
        size_t size = (size_t)(length - less);
        uint8_t *just = memset(in_front(size, 2), 0x55, size);
        printf(" %td", linkwire_canonical_lenient(line.at, line.len, just, size));
        printf(" %08x", (unsigned)crc(0, (char *)just, size));
        printf(" %td", linkwire_state_lenient(line.at, line.len, just, size));
        printf(" %08x", (unsigned)crc(0, (char *)just, size));
    }
}

/* What the calls that are no second reader's say: of a message, and of the one that was taken before it. */
static void print_held(size_t at, const uint8_t *line, size_t len, bool is_text) {
    static char out[4 * LINKWIRE_GROWTH * MOST];
    static uint8_t before[ROOM], list[2 * ROOM];
    static size_t before_len;
    static uint32_t turn;
    (void)at;
    if (is_text || is_left_out(len))
        return;
    uint32_t order = ++turn % 3, flags = turn / 3 % 4;
    printf("held");
    print_json(linkwire_show(line, len, order, flags & 1, out, sizeof out), out);
    print_json(linkwire_diff(before, before_len, line, len, order, flags, out, sizeof out), out);
    printf(" %d %d %td %td", linkwire_same_message(before, before_len, line, len),
           linkwire_same_state(before, before_len, line, len), linkwire_canonical_len(line, len),
           linkwire_canonical_lenient_len(line, len));
    size_t from = 16, to = 0, fault = 0;
    struct linkwire_attribute one = {0, 0, 0};
    int32_t found;
    while ((found = linkwire_next(line, len, &from, &one)) == 1)
        found = linkwire_put(list, len, &to, one.kind, line + one.payload, one.payload_len);
    int32_t cause = linkwire_fault_at(line, len, &fault);
    printf(" %d %zu %08x %d %zu", found, from, (unsigned)crc(0, (const char *)list, to), cause, fault);
    struct linkwire_refusal refusal = {0};
    for (from = 0; linkwire_refusal_next(line, len, &from, &refusal) == 1;)
        printf(" %zu,%zu,%d,%u,%u,%zu,%zu", from, refusal.offset, refusal.fault, refusal.is_attribute,
               refusal.attribute.kind, refusal.attribute.payload_len, refusal.path.at);
    if (alone == places + 6)
        print_more(line, len, order);
    if (alone == places + 7)
        print_changes((struct bytes){before_len, memcpy(in_front(before_len, 0), before, before_len)},
                      (struct bytes){len, memcpy(in_front(len, 1), line, len)}, turn);
    putchar('\n');
    memcpy(before, line, len);
    before_len = len;
}
#endif

/* How many answers there are, for each place and the first word of an answer, and their sum. */
static struct sum {
    size_t place;
    char kind[24];
    unsigned long count;
    uint32_t crc;
} sum[4 * PLACES * 8];
static size_t sums;

static struct sum *sum_of(size_t at, const char *kind) {
    for (size_t i = sums; i-- > 0 && sum[i].place >= at;)
        if (sum[i].place == at && strcmp(sum[i].kind, kind) == 0)
            return &sum[i];
    if (sums == sizeof sum / sizeof *sum)
        fail("too many kinds of answers");
    sum[sums].place = at;
    snprintf(sum[sums].kind, sizeof sum->kind, "%s", kind);
    return &sum[sums++];
}

/* Of a line of linkshow what it says of a fault: its cause, numbers and offset. */
static size_t fault_of(char *line) {
    static const char *const keys[] = {"got", "want", "need", "left", "length", "offset"};
    char *at = strncmp(line, "{\"fault\":\"", 10) == 0 ? line + 10 : NULL, made[160], key[16];
    if (!at)
        return (size_t)sprintf(line, "shown");
    size_t len = (size_t)snprintf(made, sizeof made, "%.*s", (int)strcspn(at, "\""), at);
    for (size_t i = 0; i < sizeof keys / sizeof *keys; i++) {
        snprintf(key, sizeof key, "\"%s\":", keys[i]);
        char *found = strstr(at, key), *end = strstr(at, "\"ifi-family\"");
        if (found && (!end || found < end) && len + 40 < sizeof made)
            len += (size_t)snprintf(made + len, sizeof made - len, " %s %ld", keys[i],
                                    strtol(found + strlen(key), NULL, 10));
    }
    memcpy(line, made, len + 1);
    return len;
}

static bool is_show, is_json, is_held, is_over;

/* Of a line of JSON its first word of these, by which the sums of whole answers are told apart. */
static const char *kind_of(const char *line) {
    static char kind[24];
    static const char *const keys[] = {"\"change\":\"", "\"fault\":\""};
    for (size_t i = 0; i < 2; i++) {
        const char *at = strstr(line, keys[i]), *end = strstr(line, "\":[");
        if (!at || (end && end < at))
            continue;
        at += strlen(keys[i]);
        snprintf(kind, sizeof kind, "%.*s", (int)strcspn(at, "\""), at);
        return kind;
    }
    return "shown";
}

static void add_answer(size_t at, const uint8_t *line, size_t len, bool is_text) {
    static char *answer;
    static size_t room;
    char kind[24];
    (void)line;
    if (is_held && (is_text || is_left_out(len)))
        return;
    ssize_t got = getline(&answer, &room, stdin);
    is_over = got < 0;
    if (is_over && at == places + 4)
        return;
    if (is_over)
        fail("fewer answers than lines");
    size_t length = (size_t)got - (got && answer[got - 1] == '\n');
    answer[length] = 0;
    if (is_show)
        length = fault_of(answer);
    snprintf(kind, sizeof kind, "%.*s", (int)strcspn(answer, " "), is_json ? kind_of(answer) : answer);
    struct sum *to = sum_of(at, length ? kind : "-");
    to->count++;
    to->crc = crc(crc(to->crc, answer, length), "\n", 1);
}

/* Whether a set whose place is this one, or that has many, has lines of a place. `mixed` has those of beside.c. */
static bool is_of(size_t own, size_t at) {
    if (own)
        return at == own || (own == places + 6 && at == places + 7);
    return at != places + 3 && at < places + 5;
}

/* Says where the sums are not those that a file has of WHAT, for the places of this set. */
static int compare(const char *what, const char *name, const char *set) {
    static bool seen[sizeof sum / sizeof *sum];
    char line[160], name_of[32], kind[24];
    unsigned long count, slips = 0, same = 0;
    size_t at;
    unsigned number;
    FILE *file = fopen(name, "r");
    static const char *const sets[] = {"digits", "more", "mixed"};
    static const size_t of[] = {3, 5, 6};
    size_t own = 0;
    for (size_t i = 0; i < 3; i++)
        own = strcmp(set, sets[i]) == 0 ? places + of[i] : own;
    if (!file)
        fail("no file of answers");
    while (fgets(line, sizeof line, file)) {
        if (sscanf(line, "%31s %zu %23s %lu %x", name_of, &at, kind, &count, &number) != 5 ||
            strcmp(name_of, what) != 0 || !is_of(own, at))
            continue;
        struct sum *found = NULL;
        for (size_t i = 0; i < sums; i++)
            if (sum[i].place == at && strcmp(sum[i].kind, kind) == 0)
                found = &sum[i], seen[i] = true;
        same += count;
        if (found && found->count == count && found->crc == number)
            continue;
        slips++;
        printf("%s: place %zu (", what, at);
        for (size_t i = 0; at < places && i < place[at].deep; i++)
            printf("%u ", place[at].path[i]);
        printf("of family %u): '%s': stored are %lu answers, %lu are here%s\n", at < places ? place[at].family : 0,
               kind, count, found ? found->count : 0, found && found->count == count ? ", and they are others" : "");
    }
    fclose(file);
    for (size_t i = 0; i < sums; i++)
        if (!seen[i])
            slips++, printf("%s: place %zu: '%s': %lu answers, none is stored\n", what, sum[i].place, sum[i].kind,
                            sum[i].count);
    if (slips)
        return 1;
    printf("%s: %lu lines: the stored answers\n", what, same);
    return 0;
}

int main(int count, char **words) {
    const char *set = count > 1 ? words[1] : "", *mode = count > 2 ? words[2] : "";
    bool is_more = strcmp(set, "changes") == 0, is_worded = strcmp(set, "worded") == 0;
    bool is_mixed = is_worded || strcmp(set, "turns") == 0, is_news = is_more || is_mixed || strcmp(set, "news") == 0;
    if (strcmp(set, "words") == 0)
        return print_words(), 0;
    read_places();
    if (strcmp(set, "hosts") == 0 && count == 2)
        return print_hosts(), 0;
    if (strcmp(mode, "places") == 0)
        take = print_place;
#ifndef LINES_ALONE
    else if (strcmp(mode, "calls") == 0)
        take = print_calls;
    else if (strcmp(mode, "held") == 0)
        take = print_held;
#endif
    else
        take = count > 3 ? add_answer : is_worded ? print_worded : is_news ? print_news : print_line;
    const char *what = count > 3 ? words[3] : "";
    is_json = strncmp(what, "linkdiff", 8) == 0 || strncmp(what, "linkshow-whole", 14) == 0;
    is_show = !is_json && strncmp(what, "linkshow", 8) == 0;
    is_held = strcmp(what, "held") == 0;
    has_beside = is_held || strcmp(mode, "held") == 0;
    bool is_alone = is_worded || strncmp(what, "linkdiff", 8) == 0;
    for (here = places + 4; count > 3 && is_alone && !is_over;)
        add_answer(here, NULL, 0, false);
    if (!is_over)
        tell_all(is_more ? "more" : is_mixed ? "turns" : is_news ? "all" : set);
    if (is_more && count == 2)
        print_many();
    if (is_worded && count == 2)
        print_no_texts();
    if (count > 4 && strcmp(mode, "compare") == 0)
        return compare(words[3], words[4], set);
    for (size_t i = 0; i < sums; i++)
        printf("%s %zu %s %lu %08x\n", words[3], sum[i].place, sum[i].kind, sum[i].count, (unsigned)sum[i].crc);
    return 0;
}
