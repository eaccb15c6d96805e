/* Says what linkshow has to show of the attributes that are lists, by tables of its own, which are taken from the
 * kernel's headers; and which of linkshow's answers show otherwise.
 *
 *     lists made COUNT           prints so many lines, each a message with such lists
 *     lists say <LINES           prints for each line the objects that may hold a list, in the order of the message
 *     lists compare LINES <SHOWN reads linkshow's answers to the lines in a file, and compares them
 *
 * Of a list each attribute is an element of the array under its name, in the order of the message. Of any other
 * attribute the last one stands under its name, and those in front of it under `repeated`. Arrays stand behind the
 * other names and in front of `repeated` and `other`, in the order of their numbers.
 *
 * The objects are `af-spec` of a bridge, `egress-qos` and `ingress-qos` of a vlan, and `macaddr-data` of a macvlan or
 * macvtap, each with all that is inside. Of a message that is refused they are those in front of the fault, and
 * leniently those that are accepted. What else a line shows is not looked at.
 */
#include <stdarg.h>
#include <stdbool.h>
#include <stdint.h>
#include <stdio.h>
#include <stdlib.h>
#include <string.h>

enum { LINE = 1 << 21, SAID = 1 << 22, OBJECTS = 8192, FRAMES = 1 << 14, MOST_TOLD = 8 };

static void fail(const char *what) {
    fprintf(stderr, "lists: %s\n", what);
    exit(2);
}

/* ** tables: linux/if_bridge.h, linux/if_link.h */

struct name {
    unsigned number;
    const char *text;
};

/* A row's form: u a number, g a number whose bits have names, e one that has a name, r a record, l a list of
 * attributes, m a hardware address. */
struct row {
    unsigned number;
    const char *name;
    char form;
    size_t size;
    const struct name *names;
    const struct row *of;
    bool is_list;
};

static const struct name requests[] = {{1, "master"}, {2, "self"}, {0, NULL}};
static const struct name modes[] = {{0, "veb"}, {1, "vepa"}, {0, NULL}};
static const struct name vlan_flags[] = {{1, "master"}, {2, "pvid"}, {4, "untagged"}, {8, "range-begin"},
                                         {16, "range-end"}, {32, "brentry"}, {64, "only-opts"}, {0, NULL}};
static const struct name states[] = {{0, "disabled"}, {1, "listening"}, {2, "learning"}, {3, "forwarding"},
                                     {4, "blocking"}, {0, NULL}};

/* Fields of records have their places in the order of the rows; the last row of a table has no name. */
static const struct row vlan_info[] = {{0, "flags", 'g', 2, vlan_flags, NULL, false},
                                       {0, "vid", 'u', 2, NULL, NULL, false}, {0, NULL, 0, 0, NULL, NULL, false}};
static const struct row mapping[] = {{0, "from", 'u', 4, NULL, NULL, false}, {0, "to", 'u', 4, NULL, NULL, false},
                                     {0, NULL, 0, 0, NULL, NULL, false}};
static const struct row tunnel[] = {{1, "id", 'u', 4, NULL, NULL, false}, {2, "vid", 'u', 2, NULL, NULL, false},
                                    {3, "flags", 'g', 2, vlan_flags, NULL, false},
                                    {0, NULL, 0, 0, NULL, NULL, false}};
static const struct row entry[] = {{1, "msti", 'u', 2, NULL, NULL, false}, {2, "state", 'e', 1, states, NULL, false},
                                   {0, NULL, 0, 0, NULL, NULL, false}};
static const struct row mst[] = {{1, "entry", 'l', 0, NULL, entry, true}, {0, NULL, 0, 0, NULL, NULL, false}};
static const struct row bridge[] = {{0, "flags", 'g', 2, requests, NULL, false},
                                    {1, "mode", 'e', 2, modes, NULL, false},
                                    {2, "vlan-info", 'r', 4, NULL, vlan_info, true},
                                    {3, "vlan-tunnel-info", 'l', 0, NULL, tunnel, true},
                                    {6, "mst", 'l', 0, NULL, mst, false}, {0, NULL, 0, 0, NULL, NULL, false}};
static const struct row qos[] = {{1, "mapping", 'r', 8, NULL, mapping, true}, {0, NULL, 0, 0, NULL, NULL, false}};
static const struct row addresses[] = {{4, "macaddr", 'm', 6, NULL, NULL, true},
                                       {0, NULL, 0, 0, NULL, NULL, false}};

/* Where they stand: in IFLA_AF_SPEC of AF_BRIDGE, or in the data of links of a kind. */
static const struct row in_message = {26, "af-spec", 'l', 0, NULL, bridge, false};
static const struct {
    const char *kind;
    struct row row;
} in_data[] = {{"vlan", {3, "egress-qos", 'l', 0, NULL, qos, false}},
               {"vlan", {4, "ingress-qos", 'l', 0, NULL, qos, false}},
               {"macvlan", {5, "macaddr-data", 'l', 0, NULL, addresses, false}},
               {"macvtap", {5, "macaddr-data", 'l', 0, NULL, addresses, false}}};
enum { IN_DATA = sizeof in_data / sizeof *in_data, AF_BRIDGE_NUMBER = 7, LINKINFO = 18, KIND = 1, DATA = 2 };

/* ** frames */

struct bytes {
    size_t len;
    const uint8_t *at;
};

/* An attribute, and where it ends in its list, with its padding. */
struct frame {
    unsigned number, flags;
    struct bytes payload;
    size_t end;
};

static unsigned pair(const uint8_t *at) {
    return at[0] | (unsigned)at[1] << 8;
}

/* The attribute at a place of a list; false where none fits there. */
static bool take(struct bytes list, size_t at, struct frame *it) {
    if (list.len - at < 4)
        return false;
    size_t size = pair(list.at + at);
    if (size < 4 || size > list.len - at)
        return false;
    unsigned kind = pair(list.at + at + 2);
    size_t end = at + ((size + 3) & ~(size_t)3);
    *it = (struct frame){kind & 0x3fff, kind >> 14, {size - 4, list.at + at + 4}, end < list.len ? end : list.len};
    return true;
}

/* Whether attributes fill a list to its end. */
static bool is_whole(struct bytes list) {
    struct frame it;
    size_t at = 0;
    for (; at < list.len && take(list, at, &it); at = it.end)
        ;
    return at == list.len;
}

static const struct row *row_of(const struct row *table, unsigned number) {
    for (; table->name; table++)
        if (table->number == number)
            return table;
    return NULL;
}

/* Whether another attribute of a number stands behind a place. */
static bool comes_again(struct bytes list, size_t at, unsigned number) {
    struct frame it;
    for (; take(list, at, &it); at = it.end)
        if (it.number == number)
            return true;
    return false;
}

/* ** what is shown */

static char said[SAID];
static size_t said_len;
/* How many arrays there are of one element and of more, and how many objects that have arrays and `repeated`. */
static unsigned long arrays[2], both;

static void say(const char *form, ...) {
    va_list of;
    va_start(of, form);
    int len = vsnprintf(said + said_len, SAID - said_len, form, of);
    va_end(of);
    if (len < 0 || (size_t)len >= SAID - said_len)
        fail("a line shows too much");
    said_len += (size_t)len;
}

/* A comma, but behind a bracket. */
static void say_next(void) {
    if (said_len > 0 && !strchr("{[\n", said[said_len - 1]))
        say(",");
}

static void say_hex(struct bytes it) {
    say("\"");
    for (size_t i = 0; i < it.len; i++)
        say("%02x", it.at[i]);
    say("\"");
}

static void say_flags(unsigned long bits, const struct name *names) {
    say("[");
    for (; names->text; names++)
        if (bits & names->number) {
            say_next();
            say("\"%s\"", names->text);
            bits &= ~(unsigned long)names->number;
        }
    if (bits) {
        say_next();
        say("%lu", bits);
    }
    say("]");
}

static void say_number(const struct row *row, const uint8_t *at) {
    unsigned long number = 0;
    for (size_t i = row->size; i-- > 0;)
        number = number << 8 | at[i];
    if (row->form == 'g') {
        say_flags(number, row->names);
        return;
    }
    for (const struct name *it = row->names; it && it->text; it++)
        if (it->number == number) {
            say("\"%s\"", it->text);
            return;
        }
    say("%lu", number);
}

static void say_record(const struct row *fields, const uint8_t *at) {
    say("{");
    for (; fields->name; at += fields->size, fields++) {
        say_next();
        say("\"%s\":", fields->name);
        say_number(fields, at);
    }
    say("}");
}

static void say_object(const struct row *table, struct bytes list);

/* A payload by its row; what is not of its form is hexadecimal. */
static void say_value(const struct row *row, struct bytes it) {
    if (row->form == 'l' ? !is_whole(it) : it.len != row->size) {
        say_hex(it);
    } else if (row->form == 'l') {
        say_object(row->of, it);
    } else if (row->form == 'r') {
        say_record(row->of, it.at);
    } else if (row->form == 'm') {
        for (size_t i = 0; i < it.len; i++)
            say("%s%02x%s", i ? ":" : "\"", it.at[i], i + 1 < it.len ? "" : "\"");
    } else {
        say_number(row, it.at);
    }
}

static void say_member(const struct row *row, struct bytes payload) {
    say_next();
    say("\"%s\":", row->name);
    say_value(row, payload);
}

/* All attributes of a number as an array, if there is one; returns how many there are. */
static unsigned long say_array(const struct row *row, struct bytes list) {
    unsigned long count = 0;
    struct frame it;
    for (size_t at = 0; take(list, at, &it); at = it.end) {
        if (it.number != row->number)
            continue;
        say_next();
        if (count++ == 0)
            say("\"%s\":[", row->name);
        say_value(row, it.payload);
    }
    if (count)
        say("]"), arrays[count > 1]++;
    return count;
}

/* The attributes, no lists, after which another one of their number comes, or the last ones. */
static unsigned long say_single(const struct row *table, struct bytes list, bool is_last) {
    unsigned long count = 0;
    struct frame it;
    for (size_t at = 0; take(list, at, &it); at = it.end) {
        const struct row *row = row_of(table, it.number);
        if (!row || row->is_list || comes_again(list, it.end, it.number) == is_last)
            continue;
        if (!is_last) {
            say_next();
            say("%s{", count ? "" : "\"repeated\":[");
        }
        say_member(row, it.payload);
        say(is_last ? "" : "}");
        count++;
    }
    say(count && !is_last ? "]" : "");
    return count;
}

/* The attributes that have no row. */
static void say_others(const struct row *table, struct bytes list) {
    static const struct name flags[] = {{2, "nested"}, {1, "net-byteorder"}, {0, NULL}};
    unsigned long count = 0;
    struct frame it;
    for (size_t at = 0; take(list, at, &it); at = it.end) {
        if (row_of(table, it.number))
            continue;
        say_next();
        say("%s{\"number\":%u,\"flags\":", count++ ? "" : "\"other\":[", it.number);
        say_flags(it.flags, flags);
        say(",\"payload\":");
        say_hex(it.payload);
        say("}");
    }
    say(count ? "]" : "");
}

static void say_object(const struct row *table, struct bytes list) {
    unsigned long count = 0;
    say("{");
    say_single(table, list, true);
    for (const struct row *row = table; row->name; row++)
        count += row->is_list ? say_array(row, list) : 0;
    both += say_single(table, list, false) > 0 && count > 0;
    say_others(table, list);
    say("}");
}

/* ** messages */

/* An object that a line has to show: its text with its name, and where it stands among those that are said. */
static struct {
    const struct row *row;
    size_t from, to;
} object[OBJECTS];
static size_t objects;

static void add_object(const struct row *row, struct bytes list) {
    if (!is_whole(list))
        return;
    if (objects == OBJECTS)
        fail("a message has too many objects");
    say("\n");
    object[objects].row = row;
    object[objects].from = said_len;
    say_member(row, list);
    object[objects++].to = said_len;
}

/* The text of the first attribute of a number, without the NUL behind it, or nothing. */
static struct bytes first_text(struct bytes list, unsigned number) {
    struct frame it;
    for (size_t at = 0; take(list, at, &it); at = it.end)
        if (it.number == number) {
            size_t len = it.payload.len;
            return (struct bytes){len - (len > 0 && it.payload.at[len - 1] == 0), it.payload.at};
        }
    return (struct bytes){0, list.at};
}

static void add_data(struct bytes kind, struct bytes data) {
    struct frame it;
    for (size_t at = 0; is_whole(data) && take(data, at, &it); at = it.end)
        for (size_t i = 0; i < IN_DATA; i++)
            if (in_data[i].row.number == it.number && strlen(in_data[i].kind) == kind.len &&
                memcmp(in_data[i].kind, kind.at, kind.len) == 0)
                add_object(&in_data[i].row, it.payload);
}

/* Whether an answer shows the attribute at this place of a message: of a message that is refused it shows those in
 * front of the fault, and leniently all but the refused ones. */
static bool is_shown(const char *answer, size_t start, size_t end) {
    static const char fault[] = "{\"fault\":\"", refused[] = ",\"refused\":[", offset[] = "\"offset\":";
    bool is_fault = strncmp(answer, fault, sizeof fault - 1) == 0;
    const char *at = is_fault ? answer : strstr(answer, refused);
    while (at && (at = strstr(at, offset))) {
        size_t number = (size_t)strtoul(at += sizeof offset - 1, NULL, 10);
        if (is_fault || (start <= number && number < end))
            return is_fault && end <= number;
    }
    return !is_fault;
}

static void add_info(struct bytes info) {
    struct frame it;
    for (size_t at = 0; is_whole(info) && take(info, at, &it); at = it.end)
        if (it.number == DATA)
            add_data(first_text(info, KIND), it.payload);
}

/* The objects of a message that an answer has to show. */
static void say_message(struct bytes it, const char *answer) {
    struct frame outer;
    said_len = objects = 0;
    for (size_t at = 16; it.len > 16 && take(it, at, &outer); at = outer.end) {
        if (!is_shown(answer, at, outer.end))
            continue;
        if (outer.number == in_message.number && it.at[0] == AF_BRIDGE_NUMBER)
            add_object(&in_message, outer.payload);
        if (outer.number == LINKINFO)
            add_info(outer.payload);
    }
}

/* ** lines */

static uint8_t message[LINE];

static int digit(char c) {
    const char *all = "0123456789abcdef0123456789ABCDEF", *at = c ? strchr(all, c) : NULL;
    return at ? (int)((at - all) % 16) : -1;
}

/* The bytes of a line of digits, without its LF; of another line no bytes. */
static struct bytes read_line(const char *line) {
    size_t len = strcspn(line, "\n") / 2;
    if (len >= sizeof message)
        fail("a line is too long");
    for (size_t i = 0; i < len; i++) {
        if (digit(line[2 * i]) < 0 || digit(line[2 * i + 1]) < 0)
            return (struct bytes){0, message};
        message[i] = (uint8_t)(digit(line[2 * i]) << 4 | digit(line[2 * i + 1]));
    }
    return (struct bytes){len, message};
}

/* How often a text stands in another one. */
static size_t count_of(const char *text, const char *in) {
    size_t count = 0, len = strlen(text);
    for (const char *at = in; (at = strstr(at, text)); at += len)
        count++;
    return count;
}

/* What is wrong with an answer: the text that it lacks, or the name of which it shows another number of objects. */
static const char *slip_in(const char *shown) {
    static char key[32];
    for (size_t i = 0; i < objects; i++) {
        char *text = said + object[i].from, behind = said[object[i].to];
        said[object[i].to] = 0;
        if (!strstr(shown, text))
            return text;
        said[object[i].to] = behind;
    }
    for (size_t i = 0; i < objects; i++) {
        size_t count = 0;
        for (size_t k = 0; k < objects; k++)
            count += strcmp(object[k].row->name, object[i].row->name) == 0;
        snprintf(key, sizeof key, "\"%s\":{", object[i].row->name);
        if (count_of(key, shown) != count)
            return key;
    }
    return NULL;
}

static int compare(const char *name) {
    FILE *lines = fopen(name, "r");
    char *line = NULL, *shown = NULL;
    size_t line_room = 0, shown_room = 0;
    unsigned long count = 0, held = 0, slips = 0;
    if (!lines)
        fail("no file of lines");
    for (; getline(&line, &line_room, lines) >= 0; count++) {
        if (getline(&shown, &shown_room, stdin) < 0)
            fail("fewer answers than lines");
        say_message(read_line(line), shown);
        held += objects;
        const char *slip = slip_in(shown);
        if (slip && slips++ < MOST_TOLD)
            printf("lists: line %lu has no %s\n%s%s", count + 1, slip, line, shown);
    }
    fclose(lines);
    free(line), free(shown);
    if (slips)
        return printf("lists: %lu of %lu answers differ\n", slips, count), 1;
    printf("lists: %lu lines, %lu objects: %lu lists of one, %lu of more; %lu objects have `repeated` too: ok\n", count,
           held, arrays[0], arrays[1], both);
    return 0;
}

static void say_all(void) {
    char *line = NULL;
    size_t room = 0;
    while (getline(&line, &room, stdin) >= 0) {
        say_message(read_line(line), "");
        printf("%.*s\n", (int)(said_len ? said_len - 1 : 0), said + 1);
    }
    free(line);
}

/* ** lines that are made */

static uint32_t pick_state = 1;

static uint32_t pick(uint32_t below) {
    pick_state = pick_state * 1664525 + 1013904223;
    return (uint32_t)((uint64_t)pick_state * below >> 32);
}

/* Writes an attribute around what stands behind its header already, and returns its whole length. */
static size_t put(uint8_t *to, unsigned number, size_t len) {
    unsigned flags = pick(12) ? 0 : pick(4);
    size_t whole = len + 4, end = (whole + 3) & ~(size_t)3;
    to[0] = (uint8_t)whole, to[1] = (uint8_t)(whole >> 8);
    to[2] = (uint8_t)number, to[3] = (uint8_t)(number >> 8 | flags << 6);
    memset(to + whole, pick(8) ? 0 : 0xff, end - whole);
    return end;
}

static size_t put_list(uint8_t *to, const struct row *table);

/* A payload: mostly one of its row, small numbers in it; else of another size, or empty. */
static size_t put_payload(uint8_t *to, const struct row *row) {
    size_t len = pick(12) ? row->size : pick(14);
    if (row->form == 'l' && pick(14))
        return pick(14) ? put_list(to, row->of) : 0;
    for (size_t i = 0; i < len; i++)
        to[i] = (uint8_t)(pick(3) ? pick(3) : pick(256));
    return len;
}

/* A list of some rows of a table, mostly of those that are lists, in any order; among them numbers that have no row. */
static size_t put_list(uint8_t *to, const struct row *table) {
    size_t len = 0, rows = 0;
    while (table[rows].name)
        rows++;
    for (uint32_t count = pick(6) ? pick(5) : pick(40); count-- > 0;) {
        const struct row *row = table + pick((uint32_t)rows);
        if (!row->is_list && pick(3))
            row = table + pick((uint32_t)rows);
        size_t size = put_payload(to + len + 4, row);
        len += put(to + len, pick(20) ? row->number : 4 + pick(80), size);
    }
    if (pick(60) == 0)
        memcpy(to + len, "\3\0\2\0", 4), len += 4 - pick(3);
    return len;
}

/* The kind of a link and its data, once or twice, and the kind mostly in front. */
static size_t put_info(uint8_t *to) {
    static const char *const names[] = {"vlan", "macvlan", "macvtap", "vlan", "macvlan", "bridge", "vlanx", "macvla"};
    size_t of = pick(8), len = 0;
    struct row rows[3] = {in_data[0].row, in_data[1].row, {0, NULL, 0, 0, NULL, NULL, false}};
    if (of % 3)
        rows[0] = in_data[2].row, rows[1].name = NULL;
    bool is_behind = pick(8) == 0;
    for (uint32_t part = 0; part < 2 + (pick(6) == 0); part++) {
        if ((part == 0) != is_behind) {
            memcpy(to + len + 4, names[of], strlen(names[of]) + 1);
            len += put(to + len, KIND, strlen(names[of]) + pick(2));
        } else {
            len += put(to + len, DATA, put_list(to + len + 4, rows));
        }
    }
    return len;
}

static void print_made(unsigned long count) {
    static uint8_t made[1 << 16];
    for (unsigned long i = 0; i < count; i++) {
        size_t len = 16;
        memset(made, 0, len);
        made[0] = (uint8_t)(pick(3) ? AF_BRIDGE_NUMBER : 0);
        for (uint32_t parts = 1 + (pick(4) == 0) + (pick(9) == 0); parts-- > 0;) {
            bool is_spec = made[0] && pick(5);
            size_t size = is_spec ? put_list(made + len + 4, bridge) : put_info(made + len + 4);
            len += put(made + len, is_spec ? in_message.number : LINKINFO, size);
        }
        if (pick(20) == 0)
            len += put(made + len, 4, 3);
        for (size_t at = 0; at < len; at++)
            printf("%02x", made[at]);
        puts("");
    }
}

int main(int count, char **words) {
    const char *mode = count > 1 ? words[1] : "";
    if (count == 3 && strcmp(mode, "made") == 0)
        return print_made(strtoul(words[2], NULL, 10)), 0;
    if (count == 3 && strcmp(mode, "compare") == 0)
        return compare(words[2]);
    if (count == 2 && strcmp(mode, "say") == 0)
        return say_all(), 0;
    fail("lists made COUNT, lists say, or lists compare LINES");
}
