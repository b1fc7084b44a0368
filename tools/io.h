/* What every program here does in one way: how it is called, what it reads, and how it speaks. A sentence on standard error names the file, and the
 * line where there is one. Whatever was printed is checked at the end (finish), so that a full disk has an exit status. */
#ifndef IO_H
#define IO_H

#include <errno.h>
#include <stdarg.h>
#include <stdint.h>
#include <stdio.h>
#include <stdlib.h>
#include <string.h>
#include "bim.h"

/* The exit statuses that all programs share. A program's --help names these and its own; docs/TOOLS.md has all of them in a table. */
enum { STATUS_DONE = 0, STATUS_REFUSED = 1, STATUS_NO_GOOD = 2 };

/* OUTPUT */

/* The UTF-8 character at the front of these bytes, and how many bytes it has; 0 where there is none. */
static inline size_t character_of(const uint8_t *bytes, size_t count, uint32_t *character)
{
    static const uint32_t least[] = {0, 0, 0x80, 0x800, 0x10000};
    const uint8_t first = bytes[0];
    const size_t length = first < 0x80 ? 1 : first < 0xc2 ? 0 : first < 0xe0 ? 2 : first < 0xf0 ? 3 : first < 0xf5 ? 4 : 0;
    size_t i;
    if (length == 0 || length > count)
        return 0;
    *character = length == 1 ? first : first & (0x7fu >> length);
    for (i = 1; i < length; i++) {
        if ((bytes[i] & 0xc0) != 0x80)
            return 0;
        *character = *character << 6 | (bytes[i] & 0x3fu);
    }
    return *character < least[length] || *character > 0x10ffff || (*character >= 0xd800 && *character < 0xe000) ? 0 : length;
}

/* Whether a character does something to a terminal, or to the order or sight of what stands beside it, in place of being seen: controls of both
 * sets, bidirectional marks and isolates, line separators, characters of no width, tags. Joiners (200C, 200D) belong to writing, and stay. */
static inline int acts(uint32_t c)
{
    return c < 0x20 || (c >= 0x7f && c < 0xa0) || c == 0xad || c == 0x61c || c == 0x180e || c == 0x200b || c == 0x200e || c == 0x200f ||
           (c >= 0x2028 && c <= 0x202e) || (c >= 0x2060 && c <= 0x206f) || c == 0xfeff || (c >= 0xfff9 && c <= 0xfffb) ||
           (c >= 0xe0000 && c <= 0xe007f);
}

/* Prints bytes as a terminal may have them: what acts, and what is no UTF-8, is escaped; in quotes, where it is quoted, and those escaped too. */
static inline void put_bytes(FILE *to, const uint8_t *bytes, size_t count, int quoted)
{
    size_t i, length;
    if (quoted)
        putc('"', to);
    for (i = 0; i < count; i += length) {
        uint32_t character;
        length = character_of(bytes + i, count - i, &character);
        if (length == 0 || (acts(character) && length == 1)) {
            fprintf(to, "\\x%02x", bytes[i]);
            length = 1;
        } else if (acts(character))
            fprintf(to, character < 0x10000 ? "\\u%04lx" : "\\U%08lx", (unsigned long)character);
        else {
            if (quoted && (character == '"' || character == '\\'))
                putc('\\', to);
            fwrite(bytes + i, 1, length, to);
        }
    }
    if (quoted)
        putc('"', to);
}

/* A path or an argument. */
static inline void put_path(FILE *to, const char *word)
{
    put_bytes(to, (const uint8_t *)word, strlen(word), 0);
}

/* A sentence on standard error, behind what was printed: the file, the line where it is not 0, and what is wrong. Answers 0. */
#if defined(__GNUC__)
__attribute__((format(printf, 3, 4)))
#endif
static inline int complain(const char *file, unsigned long line, const char *format, ...)
{
    va_list list;
    fflush(stdout);
    put_path(stderr, file);
    if (line > 0)
        fprintf(stderr, ": line %lu", line);
    fputs(": ", stderr);
    va_start(list, format);
    vfprintf(stderr, format, list);
    va_end(list);
    putc('\n', stderr);
    return 0;
}

/* Closes standard output; answers the status, or that it could not be written. */
static inline int finish(int status)
{
    int failed = ferror(stdout);
    errno = 0;
    if (fclose(stdout) != 0)
        failed = 1;
    if (!failed)
        return status;
    fprintf(stderr, "standard output: %s\n", errno != 0 ? strerror(errno) : "could not be written");
    return STATUS_NO_GOOD;
}

/* CALLS */

/* What stands before a program's name where it is installed. */
#ifndef NAMED
#define NAMED ""
#endif

/* A program and its arguments, of which those that were taken are gone. */
struct call {
    const char *name, *usage, *help;
    int left;
    char **next;
};

/* A wrong call: one line says how it is called. Answers the exit status. */
static inline int wrong_call(const struct call *call)
{
    fprintf(stderr, "usage: " NAMED "%s %s\n", call->name, call->usage);
    return finish(STATUS_NO_GOOD);
}

/* Takes up the arguments; --help and --version, where either is the first, are answered here. */
static inline struct call begin_call(const char *name, const char *usage, const char *help, int argc, char **argv)
{
    struct call call;
    call.name = name;
    call.usage = usage;
    call.help = help;
    call.left = argc > 0 ? argc - 1 : 0;
    call.next = argv + 1;
    if (call.left > 0 && strcmp(call.next[0], "--help") == 0) {
        printf("usage: " NAMED "%s %s\n%s", name, usage, help);
        exit(finish(STATUS_DONE));
    }
    if (call.left > 0 && strcmp(call.next[0], "--version") == 0) {
        printf(NAMED "%s of Gaugepebble %d.%d\n", name, BIM_VERSION / 100, BIM_VERSION % 100);
        exit(finish(STATUS_DONE));
    }
    return call;
}

/* Takes this option from the front of the arguments, where it stands there. */
static inline int option(struct call *call, const char *name)
{
    if (call->left < 1 || strcmp(call->next[0], name) != 0)
        return 0;
    call->left--;
    call->next++;
    return 1;
}

/* The same of an option and its value; null where they do not stand there. */
static inline const char *option_value(struct call *call, const char *name)
{
    if (call->left < 2 || !option(call, name))
        return NULL;
    call->left--;
    return *call->next++;
}

/* Whether there is no option left that nobody took, so that what comes next are files and numbers; -- says so of names that begin with a dash. */
static inline int options_end(struct call *call)
{
    return option(call, "--") || call->left == 0 || call->next[0][0] != '-' || call->next[0][1] == '\0';
}

/* Takes the next argument, whatever it is; null where there is none. */
static inline const char *take_argument(struct call *call)
{
    if (call->left < 1)
        return NULL;
    call->left--;
    return *call->next++;
}

/* INPUT */

/* A decimal number, of digits alone and at most so large. */
static inline int digits_of(const char *digits, size_t count, uint64_t most, uint64_t *number)
{
    size_t i;
    *number = 0;
    for (i = 0; i < count; i++) {
        if (digits[i] < '0' || digits[i] > '9')
            return 0;
        *number = *number * 10 + (uint64_t)(digits[i] - '0');
        if (*number > most)
            return 0;
    }
    return count > 0;
}

/* A decimal number of 32 bits. */
static inline int number_of(const char *digits, uint32_t *number)
{
    uint64_t value;
    const int good = digits_of(digits, strlen(digits), 0xffffffffu, &value);
    *number = (uint32_t)value;
    return good;
}

/* How a sentence calls a file: null is standard input. */
static inline const char *called(const char *path)
{
    return path == NULL ? "standard input" : path;
}

/* At most room bytes of a file, of standard input where the path is null; says what is wrong and answers 0 where it cannot be read, with errno as
 * it was. */
static inline int read_file(const char *path, uint8_t *bytes, size_t room, size_t *got)
{
    FILE *file = path == NULL ? stdin : fopen(path, "rb");
    int why = errno;
    *got = 0;
    if (file != NULL) {
        *got = fread(bytes, 1, room, file);
        why = ferror(file) ? errno : 0;
        if (path != NULL)
            fclose(file);
        if (why == 0)
            return 1;
    }
    complain(called(path), 0, "%s", strerror(why));
    errno = why;
    return 0;
}

/* A file line by line. What ends a line is a newline, or a NUL. */
struct lines {
    FILE *file;
    const char *path;
    int end;
    unsigned long number;
};

static inline int open_lines(struct lines *lines, const char *path, int end)
{
    lines->file = path == NULL ? stdin : fopen(path, "r");
    lines->path = called(path);
    lines->end = end;
    lines->number = 0;
    return lines->file != NULL || complain(lines->path, 0, "%s", strerror(errno));
}

/* The next line, without its end, which the last may lack: 1, or 0 behind the last; -1, and a sentence, where there is none to be had. */
static inline int take_line(struct lines *lines, char *line, size_t room)
{
    size_t length = 0;
    int c;
    lines->number++;
    while ((c = getc(lines->file)) != EOF && c != lines->end) {
        if (c == '\0')
            return complain(lines->path, lines->number, "a NUL byte") - 1;
        if (length + 1 == room)
            return complain(lines->path, lines->number, "longer than %lu bytes", (unsigned long)(room - 1)) - 1;
        line[length++] = (char)c;
    }
    line[length] = '\0';
    if (c == EOF && ferror(lines->file))
        return complain(lines->path, 0, "%s", strerror(errno)) - 1;
    return c != EOF || length > 0;
}

static inline void close_lines(struct lines *lines)
{
    if (lines->file != stdin)
        fclose(lines->file);
}

#endif
