/* Times the calls of linkwire.h and of link_msg, the crate in rust/, libnl-route-3 and Debian's crate
 * netlink-packet-route on the same messages, and what a byte costs as a message grows: compare MESSAGES DUMP GROWING.
 * In processor time, the best of many rounds, in which the calls take turns. DUMP may be '-', for none. A number in
 * brackets counts the messages that a call takes, where it fails on others; those alone are timed.
 *
 * compare ratio MESSAGES DUMP prints how often as long each call of the crate in rust/ takes as that of the proved
 * build, a line for each: the median over many slices of some two milliseconds, which the two take in turns. Before a
 * slice the call reads all messages once, untimed, so that neither finds the processor as another call left it. Where
 * code and memory lie differs from process to process, and what a call takes with it: compare.sh runs it five times. */
#include <time.h>

#include "compare.h"
#include "linkwire.h"

#ifdef WITH_LIBNL
#include <linux/netlink.h>
#include <netlink/msg.h>
#include <netlink/object.h>
#include <netlink/route/link.h>
#endif

enum { ROUNDS = 30, AGAIN = 200, FILES = 2 };

static uint8_t *out;
static size_t cap;

/* What one call on one message returns: below 0 where it refuses. */
typedef ptrdiff_t call(const struct message *message);

static ptrdiff_t copy(const struct message *message) {
    memcpy(out, message->bytes, message->len);
    __asm__ volatile("" : : "r"(out) : "memory");
    return 0;
}

static ptrdiff_t check(const struct message *message) {
    return linkwire_check(message->bytes, message->len);
}

static ptrdiff_t canonical(const struct message *message) {
    return linkwire_canonical(message->bytes, message->len, out, cap);
}

static ptrdiff_t state(const struct message *message) {
    return linkwire_state(message->bytes, message->len, out, cap);
}

static ptrdiff_t canonical_vec(const struct message *message) {
    return bench_canonical(message->bytes, message->len, out, cap);
}

static ptrdiff_t parse(const struct message *message) {
    return bench_parse(message->bytes, message->len);
}

static ptrdiff_t emits(const struct message *message) {
    return bench_emits(message->bytes, message->len, out, cap, AGAIN);
}

#ifdef WITH_CARGO
static ptrdiff_t by_cargo_check(const struct message *message) {
    return cargo_check(message->bytes, message->len);
}

static ptrdiff_t by_cargo_canonical(const struct message *message) {
    return cargo_canonical(message->bytes, message->len, out, cap);
}

static ptrdiff_t by_cargo_canonical_vec(const struct message *message) {
    return cargo_canonical_vec(message->bytes, message->len, out, cap);
}

static ptrdiff_t by_cargo_parse(const struct message *message) {
    return cargo_parse(message->bytes, message->len);
}

static ptrdiff_t by_cargo_emits(const struct message *message) {
    return cargo_emits(message->bytes, message->len, out, cap, AGAIN);
}
#else
#define by_cargo_check NULL
#define by_cargo_canonical NULL
#define by_cargo_canonical_vec NULL
#define by_cargo_parse NULL
#define by_cargo_emits NULL
#endif

#ifdef WITH_CRATE
static ptrdiff_t crate_parse(const struct message *message) {
    return debian_parse(message->bytes, message->len);
}

static ptrdiff_t crate_emits(const struct message *message) {
    return debian_emits(message->bytes, message->len, out, cap, AGAIN);
}
#else
#define CRATE_VERSION "netlink-packet-route"
#define crate_parse NULL
#define crate_emits NULL
#endif

#ifdef WITH_LIBNL
#define LIBNL "libnl-route-3 " LIBNL_VERSION

static struct nl_msg **packets;

/* The messages as libnl holds them, each after a netlink header. */
static void make_packets(const struct messages *messages) {
    free(packets);
    packets = calloc(messages->count, sizeof *packets);
    for (size_t i = 0; i < messages->count; i++) {
        const struct message *message = &messages->all[i];
        struct nl_msg *packet = nlmsg_alloc_size(NLMSG_HDRLEN + message->len + 64);
        if (packet == NULL || nlmsg_put(packet, 0, 1, RTM_NEWLINK, 0, 0) == NULL ||
            nlmsg_append(packet, (void *)message->bytes, message->len, NLMSG_ALIGNTO) < 0) {
            stop("libnl", "has no room for a message");
        }
        nlmsg_set_proto(packet, NETLINK_ROUTE);
        packets[i] = packet;
    }
}

static void take(struct nl_object *object, void *links) {
    *(size_t *)links += rtnl_link_get_ifindex((struct rtnl_link *)object) > 0;
}

static ptrdiff_t libnl_parse(const struct message *message) {
    size_t links = 0;
    return nl_msg_parse(packets[message->place], take, &links) < 0 || links != 1 ? -1 : 0;
}
#else
#define LIBNL "libnl-route-3"
#define libnl_parse NULL
static void make_packets(const struct messages *messages) {
    (void)messages;
}
#endif

static struct row {
    const char *name;
    call *run;
    size_t again; /* how often one call does what is timed */
    double best[FILES];
    struct messages taken[FILES]; /* those that the call does not refuse */
} rows[] = {
    {"memcpy", copy, 1, {0}, {{0}}},
    {"linkwire_check", check, 1, {0}, {{0}}},
    {"linkwire_canonical", canonical, 1, {0}, {{0}}},
    {"canonical, into memory taken", canonical_vec, 1, {0}, {{0}}},
    {"LinkMessage::parse, drop", parse, 1, {0}, {{0}}},
    {"fits, buffer_len, emit", emits, AGAIN, {0}, {{0}}},
    {"rust/: check", by_cargo_check, 1, {0}, {{0}}},
    {"rust/: canonical_into", by_cargo_canonical, 1, {0}, {{0}}},
    {"rust/: canonical", by_cargo_canonical_vec, 1, {0}, {{0}}},
    {"rust/: LinkMessage::parse, drop", by_cargo_parse, 1, {0}, {{0}}},
    {"rust/: fits, buffer_len, emit", by_cargo_emits, AGAIN, {0}, {{0}}},
    {"linkwire_state", state, 1, {0}, {{0}}},
    {LIBNL ": parse, free", libnl_parse, 1, {0}, {{0}}},
    {CRATE_VERSION ": parse, drop", crate_parse, 1, {0}, {{0}}},
    {CRATE_VERSION ": buffer_len, emit", crate_emits, AGAIN, {0}, {{0}}},
};

enum { ROWS = sizeof rows / sizeof *rows };

/* Where the calls of the proved build stand, those of the crate in rust/ in the same order, and how many they are. */
enum { PROVED = 1, CARGO = 6, PAIRS = 5 };

static double seconds(void) {
    struct timespec now;
    clock_gettime(CLOCK_PROCESS_CPUTIME_ID, &now);
    return now.tv_sec + now.tv_nsec * 1e-9;
}

/* One call on each message, so many times over. */
static void call_on(const struct row *row, const struct messages *messages, size_t turns) {
    for (size_t turn = 0; turn < turns; turn++) {
        for (size_t i = 0; i < messages->count; i++) {
            row->run(&messages->all[i]);
        }
    }
}

/* Its seconds, after one turn untimed, unless a call does many times over what is timed. */
static double lasts(const struct row *row, const struct messages *messages, size_t turns) {
    call_on(row, messages, row->again == 1);
    double start = seconds();
    call_on(row, messages, turns);
    return seconds() - start;
}

/* Nanoseconds of one call on each message, of about as many messages as take a millisecond, in at least four turns. */
static double once(const struct row *row, const struct messages *messages) {
    size_t turns = row->again > 1 ? 1 : 1000000 / (messages->bytes + messages->count * 100) + 4;
    return lasts(row, messages, turns) * 1e9 / turns / row->again / messages->count;
}

/* The messages that a call does not refuse. */
static struct messages taken(call *run, const struct messages *messages) {
    struct messages kept = {calloc(messages->count, sizeof *kept.all), 0, 0, messages->longest};
    if (kept.all == NULL) {
        stop("compare", "no memory");
    }
    for (size_t i = 0; i < messages->count; i++) {
        if (run(&messages->all[i]) >= 0) {
            kept.bytes += messages->all[i].len;
            kept.all[kept.count++] = messages->all[i];
        }
    }
    return kept;
}

/* A buffer that is long enough for each call on these messages. */
static void make_room(const struct messages *messages) {
    cap = messages->longest * 2 + 1024;
    free(out);
    out = malloc(cap);
    if (out == NULL) {
        stop("compare", "no memory");
    }
}

/* Times each call on the messages of a file. */
static void time_file(size_t file, const struct messages *messages) {
    make_room(messages);
    make_packets(messages);
    for (struct row *row = rows; row < rows + ROWS; row++) {
        if (row->run != NULL) {
            row->taken[file] = taken(row->run, messages);
        }
    }
    for (int round = 0; round < ROUNDS; round++) {
        for (struct row *row = rows; row < rows + ROWS; row++) {
            if (row->taken[file].count > 0) {
                double took = once(row, &row->taken[file]);
                row->best[file] = row->best[file] == 0 || took < row->best[file] ? took : row->best[file];
            }
        }
    }
}

static void print_cell(const struct row *row, size_t file, const struct messages *messages) {
    size_t count = row->taken[file].count;
    if (messages->count == 0 || row->run == NULL) {
        printf(" %14s", "skipped");
    } else if (count == 0) {
        printf(" %14s", "fails");
    } else if (count < messages->count) {
        printf(" (%3zu) %8.0f", count, row->best[file]);
    } else {
        printf(" %14.0f", row->best[file]);
    }
}

/* How much longer one call takes than another, where neither refuses a message. */
static void print_ratio(const char *name, call *one, call *other) {
    printf("%-46s", name);
    for (size_t file = 0; file < FILES; file++) {
        double took = 0, than = 0;
        for (const struct row *row = rows; row < rows + ROWS; row++) {
            took = row->run == one ? row->best[file] : took;
            than = row->run == other ? row->best[file] : than;
        }
        than > 0 ? printf(" %14.2f", took / than) : printf(" %14s", "skipped");
    }
    printf("\n");
}

static void print_table(const struct messages *messages) {
    printf("%-46s %14s %14s\n", "ns a message", "made", "kernel's dump");
    printf("%-46s %14zu %14zu\n", "messages", messages[0].count, messages[1].count);
    printf("%-46s", "bytes of a message, on average");
    for (size_t file = 0; file < FILES; file++) {
        printf(" %14zu", messages[file].bytes / (messages[file].count + (messages[file].count == 0)));
    }
    printf("\n");
    for (const struct row *row = rows; row < rows + ROWS; row++) {
        printf("%-46s", row->name);
        for (size_t file = 0; file < FILES; file++) {
            print_cell(row, file, &messages[file]);
        }
        printf("\n");
    }
    print_ratio("linkwire_state, times linkwire_canonical", state, canonical);
}

static int by_size(const void *one, const void *other) {
    double a = *(const double *)one, b = *(const double *)other;
    return (a > b) - (a < b);
}

enum { SLICES = 101, FEWER = 25 };

/* How often as long one call takes as another: the median over slices, in each of which the other has the next turn. */
static double ratio(const struct row *row, const struct row *other, const struct messages *messages) {
    double found[SLICES];
    size_t turns = (size_t)(0.002 / lasts(other, messages, 1)) + 1;
    int slices = row->again == 1 ? SLICES : FEWER;
    for (int slice = 0; slice < slices; slice++) {
        double took = slice % 2 == 0 ? lasts(row, messages, turns) : 0;
        double than = lasts(other, messages, turns);
        took = slice % 2 == 0 ? took : lasts(row, messages, turns);
        found[slice] = took / than;
    }
    qsort(found, slices, sizeof *found, by_size);
    return found[slices / 2];
}

/* A line for each call of the crate in rust/: how often as long it takes on each file, between tabs. */
static void print_ratios(char **paths) {
    for (const struct row *row = rows + CARGO; row->run != NULL && row < rows + CARGO + PAIRS; row++) {
        printf("%s", row->name);
        for (size_t file = 0; file < FILES; file++) {
            if (strcmp(paths[file], "-") == 0) {
                printf("\tskipped");
                continue;
            }
            struct messages messages = read_messages(paths[file]);
            make_room(&messages);
            printf("\t%.4f", ratio(row, row - CARGO + PROVED, &messages));
        }
        printf("\n");
    }
}

enum { LENGTHS = 4 };

static int is_in_growth(const struct row *row) {
    return row->run != NULL && row->run != libnl_parse;
}

/* What a byte costs in one message, by each call, where that is less than before. */
static void time_length(const struct message *message, double *best) {
    struct message alone = *message;
    struct messages one = {&alone, 1, message->len, message->len};
    for (size_t row = 0; row < ROWS; row++) {
        if (is_in_growth(&rows[row])) {
            double cost = once(&rows[row], &one) / message->len;
            best[row] = best[row] == 0 || cost < best[row] ? cost : best[row];
        }
    }
}

/* What a byte costs in each message of a file, each round over all of them. */
static void print_growth(const struct messages *messages) {
    double best[LENGTHS][ROWS] = {{0}};
    if (messages->count != LENGTHS) {
        stop("compare", "wants four messages that grow");
    }
    make_room(messages);
    for (int turn = 0; turn < ROUNDS / 2 * LENGTHS; turn++) {
        time_length(&messages->all[turn % LENGTHS], best[turn % LENGTHS]);
    }
    printf("\n%-46s", "ns a byte, in a message of so many bytes");
    for (size_t i = 0; i < LENGTHS; i++) {
        printf(" %9zu", messages->all[i].len);
    }
    for (size_t row = 0; row < ROWS; row++) {
        if (is_in_growth(&rows[row])) {
            printf("\n%-46s %9.3f %9.3f", rows[row].name, best[0][row], best[1][row]);
            printf(" %9.3f %9.3f", best[2][row], best[3][row]);
        }
    }
    printf("\n");
}

int main(int argc, char **argv) {
    if (argc != 4) {
        stop("compare", "wants MESSAGES DUMP GROWING, or ratio MESSAGES DUMP");
    }
    if (strcmp(argv[1], "ratio") == 0) {
        print_ratios(argv + 2);
        return 0;
    }
    struct messages messages[FILES] = {read_messages(argv[1]), {NULL, 0, 0, 0}};
    time_file(0, &messages[0]);
    if (strcmp(argv[2], "-") != 0) {
        messages[1] = read_messages(argv[2]);
        time_file(1, &messages[1]);
    }
    print_table(messages);
    struct messages growing = read_messages(argv[3]);
    print_growth(&growing);
    return 0;
}
