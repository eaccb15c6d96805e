/* The lines that linkdump writes, and how it ends. */
#include "linkdump.h"

#include <errno.h>
#include <linux/rtnetlink.h>
#include <poll.h>
#include <signal.h>
#include <stdarg.h>
#include <stdio.h>
#include <stdlib.h>
#include <string.h>
#include <unistd.h>

static struct {
    bool is_plain;
    const char *host, *release;
    char *text;
    size_t len, room;
} lines;

/* A signal ends the program at once, or after the line that is being written; a second one at once. */
static volatile sig_atomic_t is_writing, stopped_by;

/* Ends the program by a signal, whether this one is blocked or not. */
_Noreturn static void end_by(int number) {
    const struct sigaction by_default = {.sa_handler = SIG_DFL};
    sigset_t blocked;
    sigemptyset(&blocked);
    sigaddset(&blocked, number);
    sigaction(number, &by_default, NULL);
    raise(number);
    sigprocmask(SIG_UNBLOCK, &blocked, NULL);
    _exit(128 + number); /* the first process of a PID namespace is still there */
}

static void stop(int number) {
    if (!is_writing || stopped_by != 0) {
        end_by(number);
    }
    stopped_by = number;
}

const char *type_name(uint16_t type) {
    switch (type) {
    case RTM_NEWLINK: return "new";
    case RTM_DELLINK: return "del";
    case RTM_GETLINK: return "get";
    case RTM_SETLINK: return "set";
    default: return NULL;
    }
}

void handle_signals(void) {
    const struct sigaction stops = {.sa_handler = stop}, ignored = {.sa_handler = SIG_IGN};
    sigaction(SIGINT, &stops, NULL);
    sigaction(SIGTERM, &stops, NULL);
    sigaction(SIGPIPE, &ignored, NULL);
}

void begin_lines(bool is_plain, const char *host, const char *release) {
    lines.is_plain = is_plain;
    lines.host = host;
    lines.release = release;
}

static void make_room(size_t more) {
    if (lines.room - lines.len < more) {
        size_t room = 2 * (lines.len + more);
        char *grown = realloc(lines.text, room);
        if (grown == NULL) {
            fail("out of memory");
        }
        lines.text = grown;
        lines.room = room;
    }
}

__attribute__((format(printf, 1, 2))) static void put(const char *format, ...) {
    va_list args;
    va_start(args, format);
    int len = vsnprintf(lines.text + lines.len, lines.room - lines.len, format, args);
    va_end(args);
    lines.len += len < 0 ? 0 : (size_t)len;
}

/* A time that RFC 3339 has no form for is left out: captures can hold any. */
static void put_time(const struct timespec *time) {
    const time_t year_10000 = 253402300800;
    struct tm it;
    if (time->tv_sec < 0 || time->tv_sec >= year_10000 || time->tv_nsec < 0 || time->tv_nsec > 999999999) {
        return;
    }
    gmtime_r(&time->tv_sec, &it);
    put("time=%04d-%02d-%02dT%02d:%02d:%02d.%09ldZ ", it.tm_year + 1900, it.tm_mon + 1, it.tm_mday, it.tm_hour,
        it.tm_min, it.tm_sec, time->tv_nsec);
}

static size_t length(const char *word) {
    return word == NULL ? 0 : strlen(word);
}

/* Appends the words that each line begins with. */
static void put_front(const struct timespec *time, const char *type) {
    make_room(length(lines.host) + length(lines.release) + 128);
    if (lines.host != NULL) {
        put("host=%s ", lines.host);
    }
    put_time(time);
    put("type=%s", type);
    if (lines.release != NULL) {
        put(" kernel=%s", lines.release);
    }
}

void put_words(const struct timespec *time, const char *type, const char *more) {
    if (!lines.is_plain) {
        put_front(time, type);
        make_room(strlen(more) + 2);
        put("%s\n", more);
    }
}

void put_line(const struct timespec *time, const void *head) {
    static const char digits[] = "0123456789abcdef";
    const uint8_t *bytes = head;
    struct nlmsghdr it;
    memcpy(&it, head, sizeof it);
    if (!lines.is_plain) {
        put_front(time, type_name(it.nlmsg_type));
    }
    make_room(2 * (size_t)it.nlmsg_len + 64);
    if (!lines.is_plain) {
        put(" seq=%u port=%u ", it.nlmsg_seq, it.nlmsg_pid);
    }
    for (size_t i = NLMSG_HDRLEN; i < it.nlmsg_len; i++) {
        lines.text[lines.len++] = digits[bytes[i] >> 4];
        lines.text[lines.len++] = digits[bytes[i] & 15];
    }
    lines.text[lines.len++] = '\n';
}

/* The end of the line of which a part is written, up to `at`. */
static size_t line_end(size_t at) {
    const char *end = at == 0 || lines.text[at - 1] == '\n' ? NULL : memchr(lines.text + at, '\n', lines.len - at);
    return end == NULL ? at : (size_t)(end - lines.text) + 1;
}

void flush_lines(void) {
    struct pollfd output = {STDOUT_FILENO, POLLOUT, 0};
    size_t at = 0;
    is_writing = 1;
    while (at < lines.len) {
        ssize_t found = write(STDOUT_FILENO, lines.text + at, lines.len - at);
        if (found >= 0) {
            at += (size_t)found;
        } else if (errno == EPIPE) {
            _exit(0);
        } else if (errno == EAGAIN) {
            poll(&output, 1, -1);
        } else if (errno != EINTR) {
            lines.len = 0;
            fail("standard output: %s", strerror(errno));
        }
        if (stopped_by != 0) {
            lines.len = line_end(at);
        }
    }
    lines.len = 0;
    is_writing = 0;
    if (stopped_by != 0) {
        end_by(stopped_by);
    }
}

/* The character of UTF-8 that `text` begins with: its length, or 0 where there is none. */
static size_t read_character(const char *text, uint32_t *number) {
    static const uint32_t least[] = {0, 0, 0x80, 0x800, 0x10000};
    const uint8_t *bytes = (const uint8_t *)text;
    size_t len = *bytes < 0x80 ? 1 : *bytes < 0xc0 ? 0 : *bytes < 0xe0 ? 2 : *bytes < 0xf0 ? 3 : *bytes < 0xf8 ? 4 : 0;
    *number = len == 1 ? *bytes : (uint32_t)(*bytes & (0x7f >> len));
    for (size_t i = 1; i < len; i++) {
        if ((bytes[i] & 0xc0) != 0x80) {
            return 0;
        }
        *number = *number << 6 | (bytes[i] & 0x3f);
    }
    return *number < least[len] || *number > 0x10ffff || (*number >> 11) == 0xd800 >> 11 ? 0 : len;
}

/* Whether a terminal may do something else at a character than show it: control characters, ends of lines, and those
 * that turn the direction of a text. */
static bool is_control(uint32_t number) {
    return number < ' ' || (number >= 0x7f && number < 0xa0) || number == 0x61c || number == 0x200e ||
           number == 0x200f || (number >= 0x2028 && number <= 0x202e) || (number >= 0x2066 && number <= 0x2069);
}

/* Appends what `from` begins with to `to`, at most six times as long, and returns its length. */
static size_t escape(char **to, const char *from) {
    uint32_t number;
    size_t len = read_character(from, &number);
    if (len == 0) {
        *to += sprintf(*to, "\\x%02x", (uint8_t)*from);
        return 1;
    }
    if (number == '\\') {
        *to += sprintf(*to, "\\\\");
    } else if (is_control(number)) {
        *to += sprintf(*to, "\\u%04x", number);
    } else {
        memcpy(*to, from, len);
        *to += len;
    }
    return len;
}

void put_error(const char *format, va_list args, const char *end) {
    char *text = NULL;
    char *line = vasprintf(&text, format, args) < 0 ? NULL : malloc(6 * strlen(text) + 1);
    if (line == NULL) {
        fputs("linkdump: out of memory\n", stderr);
        return;
    }
    char *to = line;
    for (const char *from = text; *from != '\0';) {
        from += escape(&to, from);
    }
    *to = '\0';
    fprintf(stderr, "linkdump: %s%s\n", line, end);
    free(line);
    free(text);
}

void tell(const char *format, ...) {
    va_list args;
    flush_lines();
    va_start(args, format);
    put_error(format, args, "");
    va_end(args);
}

void fail(const char *format, ...) {
    va_list args;
    flush_lines();
    va_start(args, format);
    put_error(format, args, "");
    va_end(args);
    exit(1);
}
