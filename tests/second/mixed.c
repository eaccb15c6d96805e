/* Messages of all rows in no order, and at the ends of the room that answers are written in: a part of lines.c. */

/* Which version of a message is made. They differ here and there. */
static uint32_t version;

static uint32_t scattered(uint32_t it) {
    it = (it ^ it >> 16) * 0x7feb352d;
    it = (it ^ it >> 15) * 0x846ca68b;
    return it ^ it >> 16;
}

/* A number below n for a question of a seed: in a version now and then another one. */
static uint32_t pick(uint32_t seed, uint32_t question, uint32_t n) {
    uint32_t it = scattered(seed + question * 0x9e3779b9 + 1);
    if (version && scattered(it + version) % 24 == 0)
        it = scattered(it ^ version << 24);
    return (it >> 4) % n;
}

/* The seed of what a part answers by. */
static uint32_t seed_of(uint32_t seed, uint32_t part) {
    return scattered(seed ^ (part + 1) * 0x85ebca6b);
}

/* A number, often small, and often at an edge of its bits or digits. */
static uint64_t pick_number(uint32_t seed) {
    uint64_t it = 1;
    switch (pick(seed, 0, 8)) {
    case 0: return 0;
    case 1: return pick(seed, 1, 20);
    case 2: return UINT64_MAX >> pick(seed, 1, 64);
    case 3: return it << pick(seed, 1, 64);
    case 4: return pick(seed, 1, 65536);
    case 5:
    case 6:
        for (uint32_t n = pick(seed, 1, 20); n-- > 0;)
            it *= 10;
        return it - pick(seed, 2, 2);
    }
    return (uint64_t)pick(seed, 1, 1 << 28) << 32 | pick(seed, 2, 1 << 28) << 4;
}

/* So many bytes, as numbers of one size. */
static size_t pick_bytes(uint8_t *to, uint32_t seed, size_t len) {
    static const uint8_t edges[] = {0, 1, 9, 10, 11, 99, 100, 101, 127, 128, 199, 200, 255};
    size_t size = (size_t[]){1, 2, 4, 4, 8}[pick(seed, 0, 5)];
    if (pick(seed, 1, 12) == 0) {
        memset(to, pick(seed, 2, 2) ? 255 : 0, len);
        return len;
    }
    for (size_t at = 0; at < len; at++) {
        uint64_t number = pick_number(seed_of(seed, (uint32_t)(at / size)));
        to[at] = size == 1 ? edges[number % sizeof edges] : (uint8_t)(number >> 8 * (at % size));
    }
    return len;
}

static const char *const parts[] = {
    "a", "b", "c", "0123456789abcdef", "\"", "\\", "\x1a", "\x1f", "\x7f", "\n", "\t", "\xc2\x85", "\xc2\x8a",
    "\xc2\x9a", "\xc2\xa0", "\xc2\xad", "\xc3\xa9", "\xd8\x9c", "\xe2\x80\x8e", "\xe2\x80\xa8", "\xe2\x80\xaa",
    "\xe2\x80\xae", "\xe2\x81\xa6", "\xe2\x82\xac", "\xef\xbb\xbf", "\xed\x9f\xbf", "\xf0\x9f\x98\x80",
    "\xf3\xa0\x81\xa1"};
enum { PARTS = sizeof parts / sizeof *parts };

/* A text, mostly short, with or without what JSON spells otherwise, and with a NUL or two or none. */
static size_t pick_text(uint8_t *to, uint32_t seed) {
    size_t len = 0;
    uint32_t count = pick(seed, 0, 8) ? pick(seed, 1, 12) : pick(seed, 1, 90), of = pick(seed, 2, 3) ? 3 : PARTS;
    for (uint32_t n = 0; n < count; n++) {
        const char *part = parts[pick(seed, 3 + n, of)];
        size_t more = strlen(part);
        memcpy(to + len, part, more);
        len += more;
    }
    for (uint32_t n = pick(seed, 200, 16) ? pick(seed, 201, 2) : pick(seed, 201, 3); n-- > 0;)
        to[len++] = 0;
    return len;
}

static size_t pick_list(uint8_t *to, uint32_t seed, unsigned of);

/* The tables of link data have numbers from this on. */
enum { FIRST_OF_DATA = 100 };

/* The kinds of a link, with data of these: most in their order. */
static size_t pick_info(uint8_t *to, uint32_t seed) {
    size_t len = 0, own = pick(seed, 0, (uint32_t)kinds), port = pick(seed, 1, 6);
    bool is_turned = pick(seed, 2, 12) == 0;
    while (kind[own].sort != 'k')
        own = (own + 1) % kinds;
    for (size_t at = 0; kind[port].sort != 'p' && at < kinds; at++)
        port = (port + 1) % kinds;
    for (uint32_t i = 0; i < 5 + (pick(seed, 3, 12) == 0); i++) {
        uint32_t number = is_turned ? 5 - i % 5 : i % 5 + 1, by = seed_of(seed, i);
        if (pick(by, 5, 30) == 0)
            number = pick(by, 6, 9);
        const char *name = kind[number < 4 ? own : port].name;
        uint8_t *at = to + len + 4;
        size_t size;
        if (pick(by, 0, 4) == 0)
            continue;
        if (number == 1 || number == 4) {
            size = strlen(name) + pick(by, 1, 2);
            memcpy(at, name, size);
        } else if (number == 3) {
            size = pick_bytes(at, by, 4 * pick(by, 2, 12));
        } else {
            size = pick_list(at, by, kind[number < 4 ? own : port].table);
        }
        len += put(to + len, number, at, size, 0);
    }
    return len;
}

/* A payload for a row; now and then one of another size. */
static size_t pick_payload(uint8_t *to, uint32_t seed, unsigned of, struct row row) {
    size_t len = 0;
    if (pick(seed, 0, of < FIRST_OF_DATA ? 90 : 15) == 0)
        return pick_bytes(to, seed, pick(seed, 1, row.form == 'l' ? 6 : row.of + 9));
    switch (row.form) {
    case 'n':
    case 'r': return pick_bytes(to, seed, row.of);
    case 'f': return 0;
    case 't': return pick_text(to, seed);
    case 'a': return pick_bytes(to, seed, row.of * pick(seed, 2, 6));
    case 'p':
        for (uint32_t i = 0; i < pick(seed, 2, 6); i++)
            pick_bytes(to + len + 4, seed_of(seed, i), row.of),
                len += put(to + len, pick(seed, 3 + i, 4), to + len + 4, row.of, 0);
        return len;
    case 'e':
        len = 8 + pick_bytes(to + 8, seed, pick(seed, 2, 30));
        memcpy(to, (uint8_t[]){(uint8_t)len, 0, (uint8_t)(6 + pick(seed, 3, 4)), 0x8c, 0, 0, 0, 0}, 8);
        if (len >= 16)
            to[8] = (uint8_t)(len - 16 + pick(seed, 4, 2)), to[9] = 0;
        return len;
    case 'l': return row.number == 18 && of < FIRST_OF_DATA ? pick_info(to, seed) : pick_list(to, seed, row.of);
    }
    if (row.of)
        return pick_bytes(to, seed, row.of);
    if (pick(seed, 2, 6))
        return pick_bytes(to, seed, pick(seed, 3, pick(seed, 4, 2) ? 12 : 40));
    return pick_list(to, seed, kind[pick(seed, 5, (uint32_t)kinds)].table);
}

/* An attribute of a message with such a payload. */
static size_t put_picked(uint8_t *to, uint32_t seed, struct row row) {
    return put(to, row.number, to + 4, pick_payload(to + 4, seed, 0, row), 0);
}

/* Attributes of a table, some of them more than once, and some that it has no row of. */
static size_t pick_list(uint8_t *to, uint32_t seed, unsigned of) {
    size_t len = 0;
    uint32_t count = pick(seed, 0, 12) ? pick(seed, 1, 9) : pick(seed, 1, 40), turned = pick(seed, 2, 2), last = 0;
    if (!table[of].rows)
        of = kind[kinds - 1].table;
    for (uint32_t i = 0; i < count && len < 8000; i++) {
        uint32_t own = seed_of(seed, turned ? i : i ^ (pick(seed, 8 + i / 2, 8) == 0));
        struct row row = {pick(own, 0, 90), 'b', 0};
        if (pick(own, 1, 50) == 0)
            continue;
        if (pick(own, 2, 10)) {
            row = table[of].row[last && pick(own, 3, 8) == 0 ? last - 1 : pick(own, 4, (uint32_t)table[of].rows)];
            for (uint32_t n = pick(own, 9, 3) ? 0 : 20; n > 0 && row.form != 'l'; n--)
                row = table[of].row[pick(own, 10 + n, (uint32_t)table[of].rows)];
        } else if (pick(own, 5, 6) == 0) {
            row.number = pick(own, 6, 1 << 14);
        }
        for (uint32_t at = 0; at < table[of].rows; at++)
            last = table[of].row[at].number == row.number ? at + 1 : last;
        for (size_t at = 0; at < kinds; at++)
            if (kind[at].sort == 'h' && table[of].rows > 40 && kind[at].family == message[0] &&
                kind[at].number == row.number)
                row.form = 'l', row.of = kind[at].table;
        unsigned flags = pick(own, 7, 50) ? 0 : 0x4000u << pick(own, 8, 2);
        len += put(to + len, row.number | flags, to + len + 4, pick_payload(to + len + 4, own, of, row), 0);
    }
    return len;
}

/* Messages of each family, four versions of each, one behind the other. */
static void tell_picked(void) {
    enum { MESSAGES = 2500 };
    static uint8_t body[ROOM];
    for (uint32_t seed = 0; seed < MESSAGES; seed++) {
        size_t at = pick(seed, 1000, 2) ? pick(seed, 1004, (uint32_t)places) : 0;
        while (place[at].deep)
            at--;
        for (version = 0; version < 4; version++) {
            message[0] = place[at].family;
            size_t len = pick_list(body, seed_of(seed, 0), place[at].table);
            if (pick(seed, 1001, 60) == 0)
                len += pick_bytes(body + len, seed, pick(seed, 1002, 8));
            memset(message + 1, 0, 15);
            if (pick(seed, 1003, 3))
                pick_bytes(message + 2, seed_of(seed, 1), 14);
            memmove(message + 16, body, len);
            tell(message, 16 + len);
        }
        version = 0;
    }
}

/* Data of a kind of link, one attribute. */
static void tell_data(const char *name, unsigned number, const uint8_t *bytes, size_t len) {
    static uint8_t info[1024], data[512];
    size_t at = put(info, 1, (const uint8_t *)name, strlen(name), 0), size = put(data, number, bytes, len, 0);
    at += put(info + at, 2, data, size, 0);
    tell_of(0, built, put(built, 18, info, at, 0));
}

/* Addresses: of IPv4 with each number of digits at each place, of IPv6 with zeros at each places, and other ones. */
static void tell_addresses(void) {
    static const uint8_t edges[] = {0, 1, 9, 10, 11, 99, 100, 101, 127, 128, 199, 200, 255};
    for (size_t at = 0; at < 4; at++)
        for (size_t n = 0; n < sizeof edges; n++)
            for (int other = 1; other < 256; other += 127) {
                uint8_t four[] = {(uint8_t)other, (uint8_t)other, (uint8_t)other, (uint8_t)other};
                four[at] = edges[n];
                tell_data("gre", 6, four, 4);
            }
    for (unsigned zeros = 0; zeros < 256; zeros++)
        for (unsigned how = 0; how < 5; how++) {
            uint8_t bytes[16];
            for (unsigned at = 0; at < 16; at += 2) {
                unsigned group = (unsigned[]){0xffff, 1, 0x10, 0xa00, 0x1234 + at}[how];
                bytes[at] = (uint8_t)(zeros >> at / 2 & 1 ? 0 : group >> 8);
                bytes[at + 1] = (uint8_t)(zeros >> at / 2 & 1 ? 0 : group);
            }
            tell_data("ip6gre", 6, bytes, 16);
        }
}

/* A text of all characters around those that JSON spells otherwise, as a name and as others, alone and one behind the
 * other. */
static void tell_spelled(void) {
    static const uint32_t from[] = {1, 0x80, 0x600, 0x2000, 0x2800, 0xd800 - 32, 0xfe80, 0xe0000, 0x10ffc0};
    static char text[4096], one[8];
    size_t len = 0;
    for (size_t i = 0; i < sizeof from / sizeof *from; i++)
        for (uint32_t c = from[i]; c < from[i] + 128 && c < 0x110000 && (c < 0xd800 || c > 0xdfff); c++) {
            size_t more = put_character(one, c);
            memcpy(text + len, one, more);
            len += more;
            one[more] = 'a';
            tell_name(one, more), tell_name(one, more + 1);
        }
    tell_name(text, len);
    for (size_t i = 0, end = 0; end < len; i += 40) {
        for (; i < len && (text[i] & 0xc0) == 0x80; i++)
            ;
        for (end = i + 100 < len ? i + 100 : len; end < len && (text[end] & 0xc0) == 0x80; end++)
            ;
        tell_name(text + i, end - i);
    }
    for (size_t i = 0; i < 40; i++)
        tell_of(0, built, put(built, 20, (const uint8_t *)text + i, len - i, 0));
}

/* The last attributes of a list are empty, or end with it, at each depth; once, twice and behind others. */
static void tell_ends(void) {
    static uint8_t list[2048];
    for (size_t own = 0; own < kinds; own++)
        for (unsigned of = kind[own].table, i = 0; kind[own].sort == 'k' && i < table[of].rows; i++) {
            struct row row = table[of].row[i];
            size_t len = 0;
            if (row.form == 'l')
                for (unsigned n = 0, at = row.of; n < 8 * table[at].rows; n++) {
                    struct row inner = table[at].row[n / 8];
                    len = put(list, n & 1 ? 99 : inner.number, counted, inner.of, 0);
                    len += put(list + len, inner.number, counted, n & 2 ? inner.of : 0, 0);
                    len += put(list + len, n & 4 ? 99 : inner.number, counted, 0, 0);
                    tell_data(kind[own].name, row.number, list, len);
                }
            for (int n = 0; n < 8; n++) {
                size_t size = row.form == 'l' ? 0 : row.of;
                len = put(list, n & 1 ? 99 : row.number, counted, size, 0);
                len += put(list + len, row.number, counted, n & 2 ? size : 0, 0);
                len += put(list + len, n & 4 ? 99 : row.number, counted, 0, 0);
                static uint8_t info[2048];
                size_t at = put(info, 1, (const uint8_t *)kind[own].name, strlen(kind[own].name), 0);
                at += put(info + at, 2, list, len, 0);
                tell_of(0, built, put(built, 18, info, at, 0));
            }
        }
}

/* Addresses of functions, of which as many bytes are shown as the link's own has, and that before and behind them. */
static void tell_functions(void) {
    static uint8_t list[512];
    for (size_t len = 0; len < 40; len++)
        for (int is_behind = 0; is_behind < 2; is_behind++) {
            struct bytes function = pattern(48);
            size_t at = put(list, 1, function.at, 36, 0), front = 0;
            at = put(list, 1, list, at, 0);
            if (!is_behind)
                front = put(built, 1, function.at, len, 0);
            front += put(built + front, 22, list, at, 0);
            front += put(built + front, 1, function.at, is_behind ? len : 3, 0);
            tell_of(0, built, front);
            free(function.at);
        }
}

/* Two of each row of each list with different payloads, among two of a number that has no row, and each number between
 * two of the first row. */
static void tell_twice(void) {
    for (here = 0; here < places; here++) {
        struct row first = table[place[here].table].row[0];
        for (unsigned number = 0; number < 16 && table[place[here].table].rows; number++) {
            size_t len = put_picked(built, 1, first);
            len += put(built + len, number, counted, 8, 0);
            tell_in(built, len + put_picked(built + len, 2, first), "", 0);
        }
        for (size_t i = 0; i < table[place[here].table].rows; i++)
            for (unsigned n = 0; n < 8; n++) {
                struct row row = table[place[here].table].row[i];
                size_t len = n & 1 ? put(built, 79, counted, 4, 0) : 0;
                len += put_picked(built + len, 2 * n, row);
                if (n & 1)
                    len += put(built + len, 79, counted, 8, 0);
                if (n & 2)
                    len += put_picked(built + len, 2 * n + 1, row);
                if (n & 4) {
                    len += put(built + len, row.number, built, 0, 0);
                    len += put_picked(built + len, 2 * n + 1, row);
                }
                tell_in(built, len, "", 0);
            }
    }
}

/* Attributes of which one byte turns, each in turn: numbers and records of their size, and bytes of each length, with
 * the number of no row, alone and behind one that comes again. */
static void tell_turned(void) {
    static uint8_t list[1024];
    for (here = 0; here < places; here++)
        for (size_t i = 0; is_first() && i <= table[place[here].table].rows; i++) {
            struct row row = {79, 'k', 0};
            if (i < table[place[here].table].rows)
                row = table[place[here].table].row[i];
            size_t from = row.of, to = row.of;
            if (row.form == 'k' || row.form == 'b' || row.form == 't')
                from = 1, to = 40;
            else if (row.form == 'n' && row.of > 1)
                from = row.of - 1;
            for (size_t size = from; size <= to && row.form != 'l' && row.form != 'e'; size += size < 9 ? 1 : 8)
                for (size_t at = 0; at < size && at < 48; at++)
                    for (int n = 0; n < (i % 8 ? 2 : 4); n++) {
                        memset(list, '0', sizeof list);
                        list[at] ^= (uint8_t)(n & 1 ? 5 : 0);
                        size_t len = put(built, row.number, list, size, 0);
                        if (n & 2)
                            len += put(built + len, row.number, list + 512, size, 0);
                        tell_in(built, len, "", 0);
                    }
        }
}

/* Each row of each list in front of each one that is refused. */
static void tell_refused_behind(void) {
    for (here = 0; here < places; here++)
        for (size_t i = 0; is_first() && i < table[place[here].table].rows; i++)
            for (size_t k = 0; k < table[place[here].table].rows; k++) {
                struct row row = table[place[here].table].row[i], next = table[place[here].table].row[k];
                size_t len = put_picked(built, 3, row);
                if (k > 2 && k % 7 != i % 7)
                    continue;
                len += put(built + len, next.number, edges(next)->it[1].at, edges(next)->it[1].len, 0);
                tell_in(built, len, "", 0);
            }
}

/* Values of link data of which one byte turns, each in turn: of a kind, and in its lists. */
static void tell_turned_data(void) {
    static uint8_t list[512], text[64];
    for (size_t own = 0; own < kinds; own++)
        for (size_t i = 0; kind[own].sort == 'k' && i < table[kind[own].table].rows; i++) {
            struct row row = table[kind[own].table].row[i];
            size_t count = row.form == 'l' ? table[row.of].rows : 1;
            for (size_t k = 0; k < count; k++) {
                struct row inner = row.form == 'l' ? table[row.of].row[k] : row;
                size_t size = inner.form == 'l' || inner.form == 'f' ? 4 : inner.of ? inner.of : 9;
                for (size_t at = 0; at < 2 * size && at < 64; at++) {
                    memset(text, '0', sizeof text);
                    text[at / 2] ^= (uint8_t)(at & 1 ? 1 + at / 2 % 7 : 0);
                    size_t len = put(list, inner.number, text, size, 0);
                    if (row.form == 'l')
                        tell_data(kind[own].name, row.number, list, len);
                    else
                        tell_data(kind[own].name, row.number, text, size);
                }
            }
        }
}

/* Messages whose answers end the room of a page, which grows from 8,192 bytes by 512, at each of their bytes. In front
 * of each one is longer than the room that is kept. */
static void tell_filled(void) {
    enum { MESSAGES = 1, FROM = 8192 - 700, STEP = 512 };
    static uint8_t rest[ROOM], body[ROOM];
    for (uint32_t seed = 0; seed < MESSAGES; seed++) {
        size_t len = 0;
        for (uint32_t i = 0; i < table[0].rows; i++) {
            struct row row = table[0].row[i];
            if (row.number != 3)
                len += put_picked(rest + len, 7 * i + seed, row);
        }
        for (size_t fill = FROM; fill < FROM + STEP; fill++) {
            memset(body, 0x1a, 11000);
            tell_of(0, built, put(built, 3, body, 11000, 0));
            memset(body + fill / 6, 'a', fill % 6);
            size_t front = put(built, 3, body, fill / 6 + fill % 6, 0);
            memcpy(built + front, rest, len);
            tell_of(0, built, front + len);
        }
    }
}

/* Each row of a message with each length, behind a name that is not written as it is spelled, so that nothing is copied
 * at once. */
static void tell_behind_name(void) {
    for (here = 0; here < places; here++)
        for (size_t i = 0; !place[here].deep && is_first() && i < table[place[here].table].rows; i++) {
            struct row row = table[place[here].table].row[i];
            size_t most = row.form == 'l' ? 4 : row.of + 9;
            for (size_t size = 0; size < most; size += size < 17 || size + 9 > row.of ? 1 : 8) {
                struct bytes payload = pattern(size);
                size_t len = put(built, 3, (const uint8_t *)"a", 1, 0);
                tell_in(built, len + put(built + len, row.number, payload.at, size, 0), "", 0);
                free(payload.at);
            }
        }
}

/* Names that do not fit, in front of an attribute that has no payload. */
static void tell_unfit_in_front(void) {
    enum { NAMES_OF_LINK = 16382 };
    static uint8_t list[4 * NAMES_OF_LINK];
    for (size_t i = 0; i < NAMES_OF_LINK; i++)
        memcpy(list + 4 * i, (uint8_t[]){4, 0, 53, 0}, 4);
    for (unsigned number = 3; number < 80; number += 76) {
        size_t len = put(built, 52, list, sizeof list, 0);
        tell_of(0, built, len + put(built + len, number, list, 0, 0));
    }
}

/* The kinds of a link, each with data, counters and data of a port twice, of which the counters have the size of those
 * of CAN, or another one. */
static void tell_kinds_twice(void) {
    static uint8_t info[1 << 15], list[1 << 14];
    for (size_t own = 0; own < kinds; own++)
        for (uint32_t n = 0; kind[own].sort == 'k' && n < 8; n++) {
            size_t port = 0, at = 0;
            for (size_t skips = own + n; kind[port].sort != 'p' || skips-- > 0;)
                port = (port + 1) % kinds;
            at += put(info, 1, (const uint8_t *)kind[own].name, strlen(kind[own].name), 0);
            at += put(info + at, 4, (const uint8_t *)kind[port].name, strlen(kind[port].name), 0);
            for (uint32_t i = 0; i < 2; i++) {
                struct bytes counters = pattern(24 - (n >> i & 1));
                at += put(info + at, 2, list, pick_list(list, seed_of(n, i), kind[own].table), 0);
                at += put(info + at, 3, counters.at, counters.len, 0);
                if (n & 4)
                    at += put(info + at, 5, list, pick_list(list, seed_of(n, i), kind[port].table), 0);
                free(counters.at);
            }
            tell_of(0, built, put(built, 18, info, at, 0));
        }
}

/* Kinds of ports, and profiles of ports, in which one byte is no character, at each place; kinds once and twice. */
static void tell_no_texts(void) {
    static uint8_t list[512], text[128];
    for (size_t len = 1; len < 70; len += len < 34 ? 1 : 15)
        for (size_t at = 0; at < len; at++) {
            memset(text, '0', sizeof text);
            text[at] = 0x80;
            size_t one = put(list, 4, text, len, 0), two = one + put(list + one, 4, text, len, 0);
            tell_of(0, built, put(built, 18, list, one, 0));
            tell_of(0, built, put(built, 18, list, two, 0));
            tell_of(0, built, put(built, 25, list, put(list, 2, text, len, 0), 0));
        }
}

/* A message of texts, as names that come again or in a list: its attributes, how many bytes of its answer there are,
 * and where the room of a page ends, which begins with 8,192 bytes and grows by 512. */
static struct edged {
    uint8_t body[1 << 16];
    size_t len, shown, edge;
    bool is_list;
} edged;

enum { EDGE_FROM = 8192, EDGE_STEP = 512, EDGE_LAST = 57344 };

/* Adds a text, which has so many bytes in an answer. */
static void add_edged(const uint8_t *text, size_t len, size_t shown) {
    edged.len += put(edged.body + edged.len, edged.is_list ? 53 : 3, text, len, 0);
    edged.shown += shown + (edged.is_list ? 3 : 14);
}

/* Tells what was added, and begins again; in front of it what is longer than the room that is kept. */
static void tell_edged(bool is_list) {
    static uint8_t name[11000];
    memset(name, 0x1a, sizeof name);
    tell_name(name, sizeof name);
    if (edged.is_list)
        tell_of(0, built, put(built, 52, edged.body, edged.len, 0));
    else
        tell_of(0, edged.body, edged.len + put(edged.body + edged.len, 3, name, 0, 0));
    /* what stands in front of a comma before the first text */
    edged.len = 0, edged.shown = is_list ? 99 : 96, edged.edge = EDGE_FROM, edged.is_list = is_list;
}

/* Adds a text that has so many bytes of room, and in front of it one that fills the others. */
static void add_at_edge(const uint8_t *text, size_t len, size_t shown, size_t left) {
    static uint8_t filled[EDGE_FROM];
    size_t fill = edged.edge - left - edged.shown - (edged.is_list ? 4 : 25);
    memset(filled, 'a', fill);
    add_edged(filled, fill, fill);
    add_edged(text, len, shown);
    edged.edge += EDGE_STEP;
    if (edged.edge > EDGE_LAST)
        tell_edged(edged.is_list);
}

/* Texts of each length, one byte of which is spelled otherwise, where the room ends in them. */
static void tell_edges(void) {
    static const struct { uint8_t byte; size_t shown; } bytes[] = {{'"', 2}, {'\\', 2}, {0x1f, 6}, {0x7f, 6}};
    uint8_t text[64];
    tell_edged(false);
    for (int is_list = 0; is_list < 2; is_list++) {
        for (size_t len = 1; len < 36; len += len < 18 ? 1 : 5)
            for (size_t at = 0; at < len; at++)
                for (size_t i = 0; i < 4; i++) {
                    memset(text, 'b', len);
                    text[at] = bytes[i].byte;
                    add_at_edge(text, len, len - 1 + bytes[i].shown, 1 + (at + i) % (len + 1));
                }
        tell_edged(true);
    }
}

/* What `mixed` has, and `turns` and `worded` have not. */
static void tell_more_mixed(void) {
    tell_behind_name();
    tell_unfit_in_front();
    tell_kinds_twice();
    tell_no_texts();
    tell_edges();
}

static const char *const releases[] = {
    "6.12.0", "6.13", "6.15.9", "6.16", "6.17", "5.99", "7.0", "60.1", "06.012", "6.120", "6.1", "6.", ".12", "6", "",
    "x", "6.x", "6x.12", "6.12x", "6.13x", "6.16-rc1", "06.16", "16.6", "5.16", "6.0", "6.9", "6.19", "6.99", "9.0",
    "0.0", "0.16", "/.1", ":.1", "6./", "6.:", "5/.1", "5:.1", "6.1/", "6.1:", "6,16", "6-16", "6.12.16", "10.10",
    "9998.1", "9999.1", "10000.1", "00000000006.00000000016", "6.99999999999999999999", "99999999999999999999.1",
    "18446744073709551622.12", "6.18446744073709551628", "4294967302.1", "6.65548", "6.262156", "\xff.1", "6.\xff"};

/* Words in front of a line: those that programs read, those that name members of an answer, and others. */
static size_t pick_words(char *to, uint32_t seed) {
    static const char *const keys[] = {
        "host", "type", "kernel", "family", "seq", "port", "words", "ifi-family", "ifi-type", "ifi-index", "ifi-flags",
        "ifi-change", "repeated", "other", "refused", "fault", "at", "got", "need", "want", "left", "length", "offset",
        "before", "mtu", "ifname", "address", "gso-ipv4-max-size", "proto-down-reason", "af-spec", "xdp", "prop-list",
        "ifnam", "ifnamf", "mtV", "a", "ok", "", "k", "key", "\xff", "\xc3\xa9", "\"", "\\"};
    static const char *const families[] = {"0", "7", "10", "255", "256", "-1", "+7", "07", "x", "", "25", "7x"};
    static const char *const types[] = {"new", "del", "get", "set", "begin", "done", "lost", "ne", "news", "gone", ""};
    size_t len = 0;
    uint32_t count = pick(seed, 0, 8) ? pick(seed, 1, 5) : pick(seed, 1, 70);
    for (uint32_t i = 0; i < count; i++) {
        uint32_t by = seed_of(seed, i), of = pick(by, 1, pick(by, 0, 3) ? 6 : sizeof keys / sizeof *keys);
        const char *key = keys[of];
        size_t more = strlen(key);
        memcpy(to + len, key, more);
        for (uint32_t n = pick(by, 2, 4) ? 0 : pick(by, 3, 80); n-- > 0;)
            to[len + more++] = (char)('a' + pick(by, 4 + n, 26));
        len += more;
        to[len++] = '=';
        const char *value = "";
        if (strcmp(key, "type") == 0)
            value = types[pick(by, 100, sizeof types / sizeof *types)];
        if (strcmp(key, "kernel") == 0)
            value = releases[pick(by, 100, sizeof releases / sizeof *releases)];
        if (strcmp(key, "host") == 0)
            value = (const char *[]){"a", "b", "", "aa"}[pick(by, 100, 4)];
        if (strcmp(key, "family") == 0)
            value = families[pick(by, 100, 12)];
        if (*value)
            len += (size_t)sprintf(to + len, "%s", value);
        else
            for (uint32_t n = pick(by, 101, 8) ? pick(by, 101, 20) : pick(by, 102, 300); n-- > 0;) {
                char c = pick(by, 103, 6) ? (char)('0' + pick(by, 200 + n, 70)) : (char)pick(by, 200 + n, 256);
                to[len++] = c == ' ' || c == '\t' || c == '\n' ? '=' : c;
            }
        for (uint32_t n = pick(by, 104, 8) ? 1 : pick(by, 105, 20); n-- > 0;)
            to[len++] = pick(by, 106 + n, 4) ? ' ' : '\t';
    }
    return len;
}

/* ** lines of hosts that are made for what linkdiff compares and refuses */

enum { WAYS = 7 };
static const unsigned steps[] = {1, 3, 4, 6};  /* from one way to the one beside it */

static void print_of_one(size_t at, const uint8_t *line, size_t len, bool is_text) {
    (void)at, (void)is_text;
    printf("host=one %s\n", hex(line, len));
}

/* A list with a row once, twice, empty behind it or in front of it, among others, or without it. */
static size_t put_way(uint8_t *to, unsigned of, size_t i, unsigned way) {
    struct row row = table[of].row[i], next = table[of].row[(i + 1) % table[of].rows];
    size_t len = 0;
    if (way == 3 || way == 5)
        len += put(to, 79, counted, 3, 0);
    if (way == 6)
        len += put_picked(to, 2, next);
    if (way == 2 || way == 4)
        len += put_picked(to + len, 1, row);
    if (way == 2)
        len += put(to + len, row.number, counted, 0, 0);
    if (way > 0)
        len += put_picked(to + len, 2 + way % 2, row);
    if (way == 1 || way == 4)
        len += put(to + len, 79, counted, 5, 0);
    if (way == 5)
        len += put(to + len, row.number, counted, 0, 0);
    if (way == 6)
        len += put_picked(to + len, 1, next);
    return len;
}

/* Attributes of a message with a list of link data: of a kind, of ports, or of a family. */
static size_t put_data(uint8_t *to, size_t own, const uint8_t *list, size_t len) {
    static uint8_t info[4096];
    unsigned number = kind[own].sort == 'p' ? 4 : 1;
    if (kind[own].sort == 'h')
        return put(to, kind[own].number, list, len, 0);
    if (kind[own].sort == 'v')
        return put(to, 24, info, put(info, 1, list, len, 0), 0);
    size_t at = put(info, number, (const uint8_t *)kind[own].name, strlen(kind[own].name), 0);
    at += put(info + at, number + 1, list, len, 0);
    return put(to, 18, info, at, 0);
}

/* Tells of attributes with a counter behind them, so that both encodings are shown as it goes; without it; and in front
 * of one that is refused. */
static void tell_thrice(unsigned family, uint8_t *body, size_t len) {
    static const uint8_t carrier[] = {1, 0, 0, 0};
    tell_of(family, body, len + put(body + len, 35, carrier, 4, 0));
    tell_of(family, body, len);
    tell_of(family, body, len + put(body + len, 4, carrier, 3, 0));
}

/* Each way of each row of a table of link data, also of the lists in it, beside four other ones. */
static void tell_ways_of(size_t own, unsigned of, unsigned within) {
    static uint8_t list[2048], body[8192];
    for (size_t i = 0; i < table[of].rows; i++) {
        for (unsigned step = 0; step < 4; step++)
            for (unsigned n = 0; n < WAYS; n++) {
                size_t len = put_way(list, of, i, n * steps[step] % WAYS);
                if (within)
                    len = put(list, within, list, len, 0);
                len = put_data(body, own, list, len);
                if (step == 0)
                    tell_thrice(kind[own].family, body, len);
                else
                    tell_of(kind[own].family, body, len);
            }
        if (!within && table[of].row[i].form == 'l')
            tell_ways_of(own, table[of].row[i].of, table[of].row[i].number);
    }
}

/* The same of the tables of messages, those of the outermost lists for one family. */
static void tell_ways(void) {
    static uint8_t list[2048];
    for (here = 0; here < places; here++)
        for (size_t i = 0; is_first() && (place[here].deep || !here) && i < table[place[here].table].rows; i++)
            for (unsigned step = 0; step < 4; step++)
                for (unsigned n = 0; n < WAYS; n++) {
                    size_t len = put_way(list, place[here].table, i, n * steps[step] % WAYS);
                    if (step == 0)
                        tell_in(list, len, "\x8\0\x23\0\1\0\0", 8);
                    tell_in(list, len, "", 0);
                    if (step == 0)
                        tell_in(list, len, "\7\0\4\0abc", 8);
                }
    for (size_t own = 0; own < kinds; own++)
        if (own == 0 || kind[own].table != kind[own - 1].table)
            tell_ways_of(own, kind[own].table, 0);
}

/* Texts of ports, which nothing checks, with a byte in each place that is no character, or with a character of two. */
static void tell_profiles(void) {
    static const size_t sizes[] = {1, 2, 3, 4, 5, 7, 8, 9, 12, 15, 16, 17, 20, 24, 31, 32, 33, 47, 48, 64, 65, 95};
    static uint8_t text[128], list[256], body[512];
    for (size_t k = 0; k < sizeof sizes / sizeof *sizes; k++)
        for (size_t at = 0; at < sizes[k]; at++)
            for (int n = 0; n < 3; n++) {
                memset(text, n ? 'a' : 'b', sizeof text);
                memcpy(text + at, (const char *[]){"\xff", "\x80", "\xc3\xa9"}[n], n < 2 ? 1 : 2);
                size_t len = put(list, 2, text, sizes[k], 0);
                len = put(list, 1, list, len, 0);
                tell_of(0, body, put(body, 24, list, len, 0));
                if (n == 0)
                    printf("time=%.*s type=lost\n", (int)sizes[k], (const char *)text);
            }
}

/* Events whose length takes two bytes, in front of an attribute that is refused. */
static void tell_events_before(void) {
    static uint8_t body[1024];
    for (unsigned n = 260; n < 272; n++)
        for (unsigned over = 0; over < 3; over++) {
            uint8_t event[300] = {0xff, 0xfe, 7, 0x8c, [8] = (uint8_t)(n - 8 - over), (uint8_t)((n - 8 - over) >> 8)};
            size_t len = put(body, 11, event, n + 8, 0);
            tell_of(0, body, len + put(body + len, 4, event, 3, 0));
        }
}

/* Dumps with names of each length, and of ever more families of a host, of which interfaces come and go. */
static void print_dumps_named(void) {
    static char name[72];
    memset(name, '1', sizeof name);
    for (int n = 0; n < 72; n++)
        for (int is_done = 0; is_done < 2; is_done++)
            printf("host=q type=%s seq=%.*s port=%.*s\n", is_done ? "done family=0" : "begin", n, name, 71 - n, name);
    for (unsigned n = 0; n < 70; n++) {
        printf("host=w type=begin seq=1 port=1\nhost=w type=done seq=1 port=1 family=%u\n", 7 * n % 256);
        for (unsigned i = 0; i < 4; i++) {
            unsigned family = 7 * (unsigned[]){0, n / 2, n, n + 1}[i] % 256;
            printf("host=w %02x000100040000000000000000000000\n", family);
            printf("host=w type=del %02x000100040000000000000000000000\n", family);
        }
    }
}

/* Messages that are refused, and show in front of the fault more than a page has room for at first: the room ends in
 * each of their addresses and numbers. */
static void tell_filled_before(void) {
    static const uint8_t octets[24] = {100, 10, 9, 99, 255, 1, 199, 101, [18] = 255, 255, 100, 10, 99, 0};
    static uint8_t rest[1024], body[8192], list[256];
    size_t gre = 0, ip6gre = 0, len = 0;
    for (size_t own = 0; own < kinds; own++) {
        gre = strcmp(kind[own].name, "gre") == 0 ? own : gre;
        ip6gre = strcmp(kind[own].name, "ip6gre") == 0 ? own : ip6gre;
    }
    len += put(rest, 1, octets, 6, 0);
    len += put(rest + len, 23, octets, 64, 0);
    size_t at = put(list, 6, octets, 4, 0);
    at += put(list + at, 7, octets + 4, 4, 0);
    len += put_data(rest + len, gre, list, at);
    at = put(list, 6, octets + 8, 16, 0);
    at += put(list + at, 7, octets + 4, 16, 0);
    len += put_data(rest + len, ip6gre, list, at);
    len += put(rest + len, 4, octets, 3, 0);
    for (size_t fill = 8192 - 1200; fill < 8192; fill += 7) {
        memset(body + 4, 0x1a, fill / 6);
        memset(body + 4 + fill / 6, 'a', fill % 6);
        at = put(body, 3, body + 4, fill / 6 + fill % 6, 0);
        memcpy(body + at, rest, len);
        tell_of(0, body, at + len);
    }
}

/* Each attribute that is refused, and behind it a name that does not fit: leniently the name alone is. */
static void tell_unfit_behind(void) {
    static uint8_t body[ROOM];
    for (size_t i = 0; i < 3; i++) {
        size_t len = put(body, (unsigned[]){4, 18, 26}[i], (const uint8_t *)"\3\0\1", 3, 0);
        memset(counted, 'a', sizeof counted);
        tell_of(0, body, len + put(body + len, 3, counted, MOST, 0));
    }
}

/* Ends of dumps whose family is said by such a word: behind each an interface comes again, if one ended. */
static void print_families(void) {
    static const char *const families[] = {
        "0", "00", "000", "0000", "00000", "0000000", "00000000", "000000000000", "000000000000000", "0000000000000000",
        "00000000000000000", "0000000000000000000000000000000", "00000000000000000000000000000000",
        "000000000000000000000000000000000000000000000000000000000000000000", "+0", "+", "-0", "-", "0x0", "256", "512",
        "4294967296", "18446744073709551616", "0\xff", "\xff""0", "0\xc3\xa9", "\xc3\xa9", "00\xff""0", "0000\xff",
        "\xff""0000000", "0000\xff""000", "00000000\xff", "0000000000\xff""00000", "\xc3\xa9""00000000000",
        "00000000000000000000\xff", "0000000000000000000\xc3\xa9", "000000000000000000000000000000000000\xff",
        "00000000000000000000000000000000000000000000000000000000000000000000\xff", "00000000007", "7", "07", "10"};
    for (size_t i = 0; i < sizeof families / sizeof *families; i++) {
        for (int family = 0; family < 3; family++)
            printf("host=f %s000100050000000000000000000000\n", (const char *[]){"00", "07", "0a"}[family]);
        printf("host=f type=begin seq=%zu port=\nhost=f type=done seq=%zu port= family=%s\n", i, i, families[i]);
    }
}

/* Words that are told, of each character and of lengths at the edges, in front of what comes, is refused or lost. */
static void print_told(void) {
    static const size_t sizes[] = {1, 2, 3, 4, 7, 8, 9, 15, 16, 17, 31, 32, 33, 40, 63, 64, 65, 100, 300};
    static const char *const keys[] = {"host", "time", "type"};
    static const char *const says[] = {"00000100060000000000000000000000", "zz", "type=lost",
                                       "07000100060000000000000000000000",
                                       "0000010006000000000000000000000007000400616263"};
    static char value[512];
    for (uint32_t seed = 0; seed < 1200; seed++) {
        size_t len = sizes[pick(seed, 0, sizeof sizes / sizeof *sizes)];
        memset(value, 'a', sizeof value);
        for (uint32_t n = pick(seed, 1, 3); n > 0; n--) {
            const char *part = parts[pick(seed, 2 + n, PARTS)];
            size_t more = strlen(part), at = pick(seed, 10 + n, (uint32_t)len);
            memcpy(value + at, *part == '\n' || *part == '\t' ? "\xff" : part, more);
        }
        printf("%s=%.*s %s%.*s %s\n", keys[seed % 3], (int)len, value, seed & 4 ? "x= host=" : "x=", (int)len % 7,
               value, says[pick(seed, 20, 5)]);
    }
}

/* Lines of many hosts with names of many lengths, which come and are forgotten in no order. */
static void print_many_hosts(void) {
    static char name[160];
    memset(name, 'a', sizeof name);
    for (uint32_t seed = 0; seed < 5000; seed++) {
        uint32_t of = pick(seed, 3000, seed < 3000 ? 400 : 60), what = pick(seed, 3001, 12);
        printf("host=%.*s%u ", (int)(of * 7 % 150), name, of);
        if (what == 0)
            printf("type=begin seq=%u port=7\n", of);
        else if (what == 1)
            printf("type=%s\n", of % 8 ? "lost" : "done seq=1 port=7 family=0");
        else if (what == 2)
            puts("00");
        else
            printf("type=%s 0000010001000000000000000000000008000400%02x000000\n", what < 8 ? "del" : "new", what);
    }
}

/* What is behind the lines of hosts in no order. */
static void print_made(void) {
    take = print_of_one;
    print_many_hosts();
    tell_profiles();
    tell_events_before();
    print_dumps_named();
    tell_filled_before();
    tell_unfit_behind();
    print_families();
    print_told();
    tell_ways();
}

/* Counters of IPv6, whose order a word `kernel` decides. */
static void print_releases(void) {
    struct bytes counters = pattern(312);
    uint8_t body[512];
    size_t len = put(body, 3, counters.at, counters.len, 0);
    len = put(body, 10, body, len, 0);
    len = put(body, 26, body, len, 0);
    for (size_t i = 0; i < sizeof releases / sizeof *releases; i++)
        printf("kernel=%s %032d%s\n", releases[i], 0, hex(body, len));
    free(counters.at);
}

/* Words whose value, or whose key, has a byte that is no character, at each place. */
static void print_no_texts(void) {
    static char text[128];
    for (int len = 1; len < 70; len += len < 34 ? 1 : 15)
        for (int at = 0; at < len; at++) {
            memset(text, '0', sizeof text);
            text[at] = (char)0x80;
            printf("k=%.*s\n%.*s=v k=v\n", len, text, len, text);
        }
}

/* An interface in a dump whose line says this of it. */
static void print_dumps(void) {
    static const char *const types[] = {"", "type=new ", "type=del ", "type=get ", "type=set ", "type=ge ",
                                        "type=gets ", "type=sen ", "type=begin ", "type=done ", "type=lost "};
    static const char *const says[] = {"00000100010000000000000000000000",
                                       "0000010001000000000000000000000008000400010000",
                                       "0000010001000000000000000000000007000400010000",
                                       "0000010001000000000000000000000008002c0000000000",
                                       "000001000100000000000000000000000c000b0001000000ffffffff",
                                       "0000010001000000", "zz", "", "07000100010000000000000000000000"};
    for (size_t type = 0; type < sizeof types / sizeof *types; type++)
        for (size_t said = 0; said < sizeof says / sizeof *says; said++)
            for (int n = 0; n < 8; n++)
                printf("host=d 0%d000100010000000000000000000000\nhost=d type=begin seq=%d port=7\n%s%s%s\n"
                       "host=d type=done seq=1 port=7 family=%d\n", n & 4 ? 7 : 0, 1 + (n & 1), types[type],
                       "host=d ", says[said], n & 2 ? 7 : 0);
}

/* Lines of some hosts, in no order: interfaces that come, change and go, dumps that are whole or not, and losses. */
static void print_hosts(void) {
    static const char *const types[] = {"", "type=new ", "type=new ", "type=new ", "type=new ", "type=new ",
                                        "type=del ", "type=get ", "type=set ", "type=x "};
    static const char *const hosts[] = {"", "host=a ", "host=a ", "host=bcdefghi ", "host= "};
    static const char *const kernels[] = {"kernel=6.1 ", "kernel=6.14 ", "kernel=6.17 ", "kernel=x "};
    static const char *const dumps[] = {"0 port=7", "1 port=7", "1!7 port=", "1 port=7!", "1 port=77"};
    static const char *const ends[] = {" family=0", " family=0", " family=7", " family=10", " family=255",
                                       " family=256", ""};
    static const uint8_t families[] = {0, 0, 0, 7, 10, 255};
    print_dumps();
    for (uint32_t seed = 1000000; seed < 1000000 + 12000; seed++) {
        const char *host = hosts[pick(seed, 0, 5)], *kernel = "";
        if (pick(seed, 1, 8) == 0)
            kernel = kernels[pick(seed, 2, 4)];
        uint32_t what = pick(seed, 3, 100), index = pick(seed, 5, pick(seed, 4, 20) ? 5 : 70000);
        if (what < 2) {
            printf("%stype=lost\n", host);
        } else if (what < 16) {
            printf("%stype=%s seq=%s%s\n", host, what < 7 ? "begin" : "done", dumps[pick(seed, 6, 5)],
                   ends[pick(seed, 8, 7)]);
        } else {
            size_t len = 0;
            uint8_t header[16] = {families[pick(seed, 9, 6)], 0, 1, 0, (uint8_t)index, (uint8_t)(index >> 8)};
            header[8] = (uint8_t)pick(seed, 10, 4);
            if (pick(seed, 11, 2))
                len += put(built + len, 3, (const uint8_t *)"eth0 eth1" + 5 * pick(seed, 12, 2), 4, 0);
            if (pick(seed, 13, 3) == 0)
                len += put(built + len, 4, (uint8_t[]){(uint8_t)pick(seed, 14, 3), 5, 0, 0},
                           pick(seed, 15, 12) ? 4 : 3, 0);
            if (pick(seed, 16, 6) == 0)
                len += put(built + len, pick(seed, 17, 2) ? 44 : 11, (uint8_t[]){3, 0, 0, 0, 0, 0, 0, 0},
                           pick(seed, 18, 4) ? 4 : 8, 0);
            if (pick(seed, 19, 4) == 0) {
                const char *name = kind[pick(seed, 20, 3)].name;
                size_t inner = put(built + len + 4, 1, (const uint8_t *)name, strlen(name) + pick(seed, 21, 2), 0);
                len += put(built + len, 18, built + len + 4, inner, 0);
            }
            if (pick(seed, 22, 6) == 0)
                len += put(built + len, 44, (uint8_t[]){1, 0, 0, 0}, 4, 0);
            if (pick(seed, 23, 10) == 0)
                len += pick_list(built + len, seed, 0);
            const char *type = types[pick(seed, 24, 10)];
            printf("%s%s%s", pick(seed, 25, 2) ? host : type, kernel, pick(seed, 25, 2) ? type : host);
            fputs(hex(header, pick(seed, 26, 40) ? 16 : pick(seed, 27, 16)), stdout);
            puts(hex(built, len));
        }
    }
    print_made();
}
