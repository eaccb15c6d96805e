/* linkdump: the kernel's links, or those of a capture, as lines of hexadecimal; linkdump(1). */
#include "linkdump.h"

#include <errno.h>
#include <fcntl.h>
#include <getopt.h>
#include <linux/rtnetlink.h>
#include <stdarg.h>
#include <stdio.h>
#include <stdlib.h>
#include <string.h>
#include <sys/socket.h>
#include <sys/utsname.h>
#include <unistd.h>

#include "linkwire.h"

static const char help[] =
    "linkdump [--family LIST] [--mask LIST] [--netns NAME] [--monitor [--every SECONDS]] [--host NAME | --plain]\n"
    "linkdump --read FILE [--host NAME | --plain]\n"
    "linkdump -h | --help | --version\n"
    "\n"
    "Writes link messages of the running kernel, or of a capture, a line of hexadecimal each, for linkshow.\n"
    "\n"
    "  --family LIST    of which families: unspec, inet, bridge, inet6, packet, mpls, mctp, or numbers\n"
    "  --mask LIST      IFLA_EXT_MASK: vf, brvlan, brvlan-compressed, skip-stats, mrp, cfm-config, cfm-status,\n"
    "                   mst, name-only, or numbers\n"
    "  --netns NAME     asks in a network namespace of `ip netns`, or of a path\n"
    "  --monitor        goes on with each change that the kernel announces\n"
    "  --every SECONDS  with --monitor: asks for all links again, so often\n"
    "  --read FILE      reads a capture of an nlmon device, - for standard input%s\n"
    "  --host NAME      writes host=NAME first in each line\n"
    "  --plain          leaves out the words, and the lines that have no message, for linkwire\n"
    "\n"
    "The man page linkdump(1) says the rest.\n";

struct name {
    const char *text;
    uint32_t number;
};

static const struct name families[] = {
    {"unspec", AF_UNSPEC}, {"inet", AF_INET}, {"bridge", AF_BRIDGE}, {"inet6", AF_INET6},
    {"packet", AF_PACKET}, {"mpls", AF_MPLS}, {"mctp", 45},          {NULL, 0},
};

/* Of RTEXT_FILTER_: the numbers themselves, since older headers lack some names. */
static const struct name masks[] = {
    {"vf", 1 << 0},  {"brvlan", 1 << 1},     {"brvlan-compressed", 1 << 2}, {"skip-stats", 1 << 3},
    {"mrp", 1 << 4}, {"cfm-config", 1 << 5}, {"cfm-status", 1 << 6},        {"mst", 1 << 7},
    {"name-only", 1 << 8}, {NULL, 0},
};

/* Ends the program with a line on standard error and status 2. */
__attribute__((format(printf, 1, 2))) _Noreturn static void refuse(const char *format, ...) {
    va_list args;
    va_start(args, format);
    put_error(format, args, "; see linkdump --help");
    va_end(args);
    exit(2);
}

/* A number, decimal or as 0x1f. */
static bool read_number(const char *text, uint32_t most, uint32_t *number) {
    bool is_hex = strncmp(text, "0x", 2) == 0;
    const char *digits = is_hex ? text + 2 : text;
    size_t len = strspn(digits, is_hex ? "0123456789abcdefABCDEF" : "0123456789");
    unsigned long long found = strtoull(digits, NULL, is_hex ? 16 : 10);
    *number = (uint32_t)found;
    return len > 0 && digits[len] == '\0' && found <= most;
}

/* Takes the next name or number off a list with commas between. */
static uint32_t next_item(const char *option, char **list, const struct name *names, uint32_t most) {
    const char *item = strsep(list, ",");
    uint32_t number = 0;
    for (const struct name *it = names; it->text != NULL; it++) {
        if (strcmp(item, it->text) == 0) {
            return it->number;
        }
    }
    if (!read_number(item, most, &number)) {
        refuse("%s: neither a name nor a number up to %u: '%s'", option, most, item);
    }
    return number;
}

static void read_families(char *list, struct question *question) {
    question->family_count = 0;
    while (list != NULL) {
        uint8_t family = (uint8_t)next_item("--family", &list, families, UINT8_MAX);
        if (memchr(question->families, family, question->family_count) != NULL) {
            continue;
        }
        if (question->family_count == MAX_FAMILIES) {
            refuse("--family: more than %d", MAX_FAMILIES);
        }
        question->families[question->family_count++] = family;
    }
}

static void read_mask(char *list, struct question *question) {
    question->mask = 0;
    question->has_mask = true;
    while (list != NULL) {
        question->mask |= next_item("--mask", &list, masks, UINT32_MAX);
    }
}

static void read_every(const char *text, struct question *question) {
    char *end;
    double seconds = strtod(text, &end);
    if (text[strspn(text, "0123456789.")] != '\0' || *end != '\0' || !(seconds >= 0.001 && seconds <= 1e9)) {
        refuse("--every: no number of seconds, from 0.001 to 1000000000: '%s'", text);
    }
    question->every = (int64_t)(seconds * 1000);
}

/* Ends the program with what it was asked to say of itself. */
__attribute__((format(printf, 1, 2))) _Noreturn static void say(const char *format, ...) {
    va_list args;
    va_start(args, format);
    vprintf(format, args);
    va_end(args);
    if (fflush(stdout) != 0 && errno != EPIPE) {
        fail("standard output: %s", strerror(errno));
    }
    exit(0);
}

enum option_number { FAMILY = 256, MASK, NETNS, MONITOR, EVERY, READ, HOST, PLAIN, HELP, VERSION };

static const struct option options[] = {
    {"family", required_argument, NULL, FAMILY}, {"mask", required_argument, NULL, MASK},
    {"netns", required_argument, NULL, NETNS},   {"monitor", no_argument, NULL, MONITOR},
    {"every", required_argument, NULL, EVERY},   {"read", required_argument, NULL, READ},
    {"host", required_argument, NULL, HOST},     {"plain", no_argument, NULL, PLAIN},
    {"help", no_argument, NULL, HELP},           {"version", no_argument, NULL, VERSION},
    {NULL, 0, NULL, 0},
};

/* Ends the program because of a word that getopt does not take. */
_Noreturn static void refuse_option(int answer, char **words) {
    if (answer == '?' && optopt > 0 && optopt < FAMILY) {
        refuse("-%c: no such option", optopt);
    }
    refuse("%s: %s", words[optind - 1],
           answer == ':' ? "needs a value" : optopt == 0 ? "no such option" : "takes no value");
}

/* A name is the value of a word, which ends at a blank. */
static const char *read_host(const char *name) {
    for (const char *it = name; *it != '\0'; it++) {
        if ((unsigned char)*it <= ' ' || *it == 127) {
            refuse("--host: a blank or a control character in '%s'", name);
        }
    }
    if (*name == '\0') {
        refuse("--host: no name");
    }
    return name;
}

/* How lines are written. */
struct form {
    const char *host; /* or NULL */
    bool is_plain;
};

/* Reads the options; what is asked of the kernel goes to `question`. Returns the capture, or NULL. */
static const char *read_options(int count, char **words, struct question *question, struct form *form) {
    const char *capture = NULL;
    const char *asks = NULL; /* an option that only the kernel is asked with */
    int it;
    opterr = 0;
    while ((it = getopt_long(count, words, ":h", options, NULL)) != -1) {
        switch (it) {
        case FAMILY: read_families(optarg, question); break;
        case MASK: read_mask(optarg, question); break;
        case NETNS: question->netns = optarg; break;
        case MONITOR: question->is_monitor = true; break;
        case EVERY: read_every(optarg, question); break;
        case READ: capture = optarg; break;
        case HOST: form->host = read_host(optarg); break;
        case PLAIN: form->is_plain = true; break;
        case 'h':
        case HELP: say(help, reads_captures ? "" : "; built without libpcap, it can not"); break;
        case VERSION: say("linkdump %s\n", LINKWIRE_VERSION); break;
        default: refuse_option(it, words);
        }
        asks = it >= FAMILY && it <= EVERY ? options[it - FAMILY].name : asks;
    }
    if (optind < count) {
        refuse("'%s': not expected", words[optind]);
    }
    if (capture != NULL && asks != NULL) {
        refuse("--%s: not with --read", asks);
    }
    if (question->every != 0 && !question->is_monitor) {
        refuse("--every: only with --monitor");
    }
    if (form->host != NULL && form->is_plain) {
        refuse("--host: not with --plain");
    }
    return capture;
}

/* Opens those of the three standard files that are closed, to nothing: else a socket would stand in their place. */
static void hold_standard_files(void) {
    for (int fd = STDIN_FILENO; fd <= STDERR_FILENO; fd++) {
        if (fcntl(fd, F_GETFD) < 0 && open("/dev/null", O_RDONLY) < 0) {
            exit(1);
        }
    }
}

int main(int count, char **words) {
    struct question question = {.families = {AF_UNSPEC, AF_BRIDGE}};
    struct utsname system;
    struct form form = {.host = NULL};
    hold_standard_files();
    handle_signals();
    const char *capture = read_options(count, words, &question, &form);
    if (question.family_count == 0) { /* those that the kernel announces in one group */
        question.family_count = question.is_monitor ? 2 : 1;
    }
    begin_lines(form.is_plain, form.host, capture == NULL && uname(&system) == 0 ? system.release : NULL);
    if (capture != NULL) {
        read_capture(capture);
    } else {
        read_kernel(&question);
    }
    return 0;
}
