/* The source of a table, docs/SOURCE.md: what its reader (source_read.h) and its printer (source_print.h) have in common. */
#ifndef SOURCE_H
#define SOURCE_H

#include "faults.h"
#include "names.h"

/* The bytes of a line, and of a source. */
enum { MOST_SOURCE_LINE = 1023, MOST_SOURCE = 1 << 26 };

/* Whether a word may hold this byte where it is not in quotes, a dot apart. */
static inline int is_word_byte(char c)
{
    return (c >= 'a' && c <= 'z') || (c >= 'A' && c <= 'Z') || (c >= '0' && c <= '9') || c == '_' || c == '-' || (c & 0x80) != 0;
}

static inline int is_digit(char c) { return c >= '0' && c <= '9'; }

/* How many bytes at the front are a run of such, in which a single dot may stand. */
static inline size_t run_of(const char *text)
{
    size_t i = 0;
    if (text[0] == '-')
        return 0;
    while (is_word_byte(text[i]) || (i > 0 && text[i] == '.' && is_word_byte(text[i + 1])))
        i++;
    return i;
}

/* Whether a word needs no quotes; a value of an enumeration may begin with a digit. */
static inline int is_bare(const char *word, int value)
{
    return run_of(word) == strlen(word) && (value || !is_digit(word[0]));
}

/* Orders numbers by their words. */
static inline int compare_names(const void *one, const void *other)
{
    return strcmp(names[*(const uint32_t *)one], names[*(const uint32_t *)other]);
}

/* LISTS LAID OUT. Attributes of types, derived types of types and substitutes of elements are runs of rows that all of a sort share. Who has a list
 * of none has no run; any other takes the earliest of the rows that are laid already that are the list, and else rows of its own behind them. */
enum { OF_ATTRIBUTES, OF_CASTS, OF_SUBSTITUTES, SORTS };
static const char *const sort_names[] = {"attributes", "casts", "substitutes"};
enum { LAID_WIDTH = 3, MOST_LAID = 1024 };
struct laid {
    uint32_t rows[MOST_LAID][LAID_WIDTH];
    uint32_t count;
};

/* Where a list goes: to the earliest rows that are it, or behind all. */
static inline uint32_t place_of(const struct laid *laid, uint32_t (*list)[LAID_WIDTH], uint32_t count)
{
    uint32_t first;
    if (count == 0)
        return 0;
    for (first = 0; first + count <= laid->count; first++)
        if (memcmp(laid->rows[first], list, count * sizeof *list) == 0)
            return first;
    return laid->count;
}

#endif
