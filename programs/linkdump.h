/* What the files of linkdump share: linkdump.c has the options, linkdump_lines.c what is written, linkdump_kernel.c and
 * linkdump_capture.c where messages come from. */
#ifndef LINKDUMP_H
#define LINKDUMP_H

#include <linux/netlink.h>
#include <stdarg.h>
#include <stdbool.h>
#include <stddef.h>
#include <stdint.h>
#include <time.h>

#if __BYTE_ORDER__ != __ORDER_LITTLE_ENDIAN__
#error "the programs that read the lines of linkdump take those of little-endian machines alone"
#endif

enum { MAX_FAMILIES = 16 };

/* What the kernel is asked for. */
struct question {
    uint8_t families[MAX_FAMILIES];
    size_t family_count;
    bool has_mask;
    uint32_t mask;
    const char *netns; /* the name or path of a namespace, or NULL */
    bool is_monitor;
    int64_t every; /* in milliseconds, or 0 */
};

/* The type of a link message as lines have it, or NULL of any other message. */
const char *type_name(uint16_t type);

/* SIGINT and SIGTERM end the program once the line that is being written is whole; SIGPIPE is ignored. */
void handle_signals(void);

/* Begins lines: plain ones have no words, and others host= and kernel= where a host and a release are given. */
void begin_lines(bool is_plain, const char *host, const char *release);

/* Appends the line of a message, whose header stands at `head`, aligned or not, with all its bytes after it. */
void put_line(const struct timespec *time, const void *head);

/* Appends a line of words alone, which tells of dumps, and none where lines are plain. What stands after the words of
 * each line is `more`, with a blank in front, or "". */
void put_words(const struct timespec *time, const char *type, const char *more);

/* Writes out what was appended. Where nobody reads it, the program ends. */
void flush_lines(void);

/* Writes a line to standard error, with `end` behind it. In the rest what is no plain text is escaped, for it can have
 * the name of a file. */
void put_error(const char *format, va_list args, const char *end) __attribute__((format(printf, 1, 0)));

/* Tells something in one line on standard error, after the lines that came before it. */
void tell(const char *format, ...) __attribute__((format(printf, 1, 2)));

/* Tells it, and ends the program with status 1. */
_Noreturn void fail(const char *format, ...) __attribute__((format(printf, 1, 2)));

/* Writes the kernel's links, and with is_monitor what changes, for ever. */
void read_kernel(const struct question *question);

/* Writes the link messages of a capture, `-` of standard input. */
void read_capture(const char *file);

/* Whether read_capture can. */
extern const bool reads_captures;

#endif
