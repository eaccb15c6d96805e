/* Messages that are told beside each other: what is at one place in one way, and then in another. A part of lines.c. */

/* A kind of a link or of a port, and so many times the same data of it. */
static size_t put_kind(uint8_t *to, size_t own, const uint8_t *data, size_t len, unsigned times) {
    bool is_port = kind[own].sort == 'p';
    size_t at = put(to, is_port ? 4 : 1, (const uint8_t *)kind[own].name, strlen(kind[own].name), 0);
    while (times-- > 0)
        at += put(to + at, is_port ? 5 : 2, data, len, 0);
    return at;
}

static void tell_kind(size_t own, const uint8_t *data, size_t len, unsigned times) {
    static uint8_t info[ROOM];
    tell_of(0, built, put(built, 18, info, put_kind(info, own, data, len, times), 0));
}

/* The same data under a kind and under the next one, once and twice: lists of its rows, and two of each number. */
static void tell_other_kinds(void) {
    static uint8_t data[ROOM];
    for (size_t own = 0; own + 1 < kinds && kind[own].sort != 'h'; own++)
        for (uint32_t seed = 0; seed < 12; seed++) {
            size_t len = 0, next = kind[own + 1].sort == kind[own].sort ? own + 1 : own - 1;
            if (seed < 4)
                len = pick_list(data, seed_of(seed, (uint32_t)own), kind[own].table);
            for (unsigned n = 0; seed >= 4 && n < 2; n++)
                len += put(data + len, seed - 3, (const uint8_t *)"\1\0\0\x7f", 4, 0);
            for (unsigned times = 1; times < 3; times++)
                tell_kind(own, data, len, times), tell_kind(next, data, len, times);
            tell_kind(own, data, len, 1);
        }
}

/* An attribute alone, one without a payload behind it, that alone, and both with another one between them. */
static size_t put_last(uint8_t *to, struct row row, unsigned how) {
    size_t len = 0;
    if (how != 2)
        len += put_picked(to, how, row);
    if (how == 3)
        len += put(to + len, 99, counted, 4, 0);
    return how ? len + put(to + len, row.number, counted, 0, 0) : len;
}

/* Two rows, and both in the other order, of which the second has no payload. */
static size_t put_round(uint8_t *to, struct row one, struct row two, unsigned how) {
    size_t len = how & 1 ? put(to, two.number, counted, 0, 0) : put_picked(to, how, one);
    return len + put_picked(to + len, how + 1, how & 1 ? one : two);
}

/* Each row of each list, and of each kind's data and its lists, at whose end there is one without a payload. */
static void tell_last(void) {
    static uint8_t list[ROOM], data[ROOM];
    for (here = 0; here < places; here++)
        for (size_t i = 0; is_first() && i < table[place[here].table].rows; i++)
            for (unsigned how = 0; how < 4; how++)
                tell_in(built, put_last(built, table[place[here].table].row[i], how), "", 0);
    for (size_t own = 0; own < kinds && kind[own].sort != 'h'; own++)
        for (size_t i = 0; i < table[kind[own].table].rows; i++) {
            struct row row = table[kind[own].table].row[i];
            for (unsigned how = 0; how < 4; how++)
                tell_kind(own, data, put_last(data, row, how), 1);
            for (size_t k = 0; row.form == 'l' && k < table[row.of].rows; k++)
                for (unsigned how = 0; how < 4; how++) {
                    size_t len = put_last(list, table[row.of].row[k], how);
                    tell_kind(own, data, put(data, row.number, list, len, 0), 1);
                }
        }
}

/* Each row of each list in front of the next one, and behind it. */
static void tell_round(void) {
    static uint8_t list[ROOM], data[ROOM];
    for (here = 0; here < places; here++)
        for (size_t i = 1; is_first() && i < table[place[here].table].rows; i++)
            for (unsigned how = 0; how < 2; how++) {
                const struct row *row = table[place[here].table].row + i;
                tell_in(built, put_round(built, row[-1], row[0], how), "", 0);
            }
    for (size_t own = 0; own < kinds && kind[own].sort != 'h'; own++)
        for (size_t i = 0; i < table[kind[own].table].rows; i++) {
            const struct row *row = table[kind[own].table].row + i;
            for (unsigned how = 0; how < 2 && i; how++)
                tell_kind(own, data, put_round(data, row[-1], row[0], how), 1);
            for (size_t k = 1; row->form == 'l' && k < table[row->of].rows; k++)
                for (unsigned how = 0; how < 2; how++) {
                    const struct row *inner = table[row->of].row + k;
                    size_t len = put_round(list, inner[-1], inner[0], how);
                    tell_kind(own, data, put(data, row->number, list, len, 0), 1);
                }
        }
}

/* Two of some numbers in each list, with different payloads. */
static void tell_numbers_twice(void) {
    for (here = 0; here < places; here++)
        for (unsigned number = 0; is_first() && number <= 256; number += number == 80 ? 175 : 5) {
            size_t len = put(built, number, counted, 4, 0);
            tell_in(built, len + put(built + len, number, counted + 4, 4, 0), "", 0);
        }
}

/* An attribute without a payload, of whose number one bit turns; and records that are longer than theirs. */
static void tell_bits(void) {
    for (here = 0; here < places; here++) {
        for (unsigned bit = 0; is_first() && bit < 16; bit++)
            tell_in(built, put(built, 99 ^ 1u << bit, counted, 0, 0), "", 0);
        for (size_t i = 0; is_first() && i < table[place[here].table].rows; i++)
            for (size_t more = 0; table[place[here].table].row[i].form == 'r' && more < 300; more = 2 * more + 99) {
                struct row row = table[place[here].table].row[i];
                struct bytes record = pattern(row.of + more);
                tell_in(built, put(built, row.number, record.at, record.len, 0), "", 0);
                free(record.at);
            }
    }
}

/* Few attributes of each list, four times: some come, go, turn or have another number. */
static void tell_small(void) {
    for (uint32_t seed = 0; seed < 900; seed++) {
        here = seed % (uint32_t)places;
        unsigned of = place[here].table;
        for (uint32_t turn = 0; turn < 4 && table[of].rows; turn++) {
            size_t len = 0;
            for (uint32_t i = 0; i < 1 + pick(seed, 2, 3); i++) {
                uint32_t own = seed_of(seed, i);
                if (turn && pick(own, 30 + turn, 4) == 0)
                    continue;
                struct row row = table[of].row[pick(seed, pick(seed, 50 + i, 3) ? i + 3 : 3, (uint32_t)table[of].rows)];
                if (pick(own, 4, 12) == 0)
                    row = (struct row){pick(own, 5, 90), 'b', 0};
                if (turn && pick(own, 40 + turn, 4) == 0)
                    own = seed_of(own, turn);
                len += put_picked(built + len, own, row);
            }
            tell_in(built, len, "", 0);
        }
    }
}

/* Functions of a link whose address has other lengths, once and twice. */
static void tell_function_addresses(void) {
    static const size_t lengths[] = {0, 1, 6, 8, 20, 32, 33, 6};
    static uint8_t list[512];
    memset(list + 8, 'a', 36);
    for (size_t i = 0; i < 2 * sizeof lengths / sizeof *lengths; i++) {
        size_t at = put(list, 1, list + 8, 36, 0), len = 0;
        at = put(list, 1, list, at, 0);
        len = put(built, 1, counted, lengths[i / 2], 0);
        for (size_t n = 0; n <= i % 2; n++)
            len += put(built + len, 22, list, at, 0);
        tell_of(0, built, len);
        memset(list + 8, 'a', 36);
    }
}

/* Texts of a port's profile and of a port's kind in which one byte is spelled otherwise, or is no character, at each
 * place; the kind twice, too. */
static void tell_port_texts(void) {
    static const size_t sizes[] = {1, 2, 3, 4, 7, 8, 9, 16, 17, 31, 32, 33, 40, 48, 65};
    static uint8_t text[96], list[512];
    for (size_t k = 0; k < sizeof sizes / sizeof *sizes; k++)
        for (size_t at = 0; at < sizes[k]; at++)
            for (size_t i = 0; i < 4; i++) {
                memset(text, i & 1 ? '0' : 'a', sizeof text);
                text[at] = (uint8_t[]){'"', 0x80, 0x1f, 0xff}[i];
                size_t len = put(list, 2, text, sizes[k], 0);
                tell_of(0, built, put(built, 25, list, len, 0));
                len = put(list, 4, text, sizes[k], 0);
                if (i & 2)
                    len += put(list + len, 4, text, sizes[k], 0);
                tell_of(0, built, put(built, 18, list, len, 0));
            }
}

/* An attribute that announcements alone have, at each place among others. */
static void tell_events(void) {
    for (unsigned count = 0; count < 40; count++)
        for (unsigned at = 0; at <= count; at++) {
            size_t len = 0;
            for (unsigned i = 0; i <= count; i++)
                len += put(built + len, i == at ? 44 : 79, (const uint8_t *)"\1\0\0\0", 4, 0);
            tell_of(0, built, len);
        }
}

static void tell_beside(void) {
    alone = places + 7;
    tell_other_kinds();
    tell_last();
    tell_round();
    tell_numbers_twice();
    tell_bits();
    tell_small();
    tell_function_addresses();
    tell_port_texts();
    tell_events();
}
