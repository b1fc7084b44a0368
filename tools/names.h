/* Words by number: a names file has on each line a number and the word of the elements or attributes of that name; or `type`, `party` or `value` (of an
 * enumeration: its type and its index), then its number, then its word. Empty lines and lines that begin with # are for the eye. */
#ifndef NAMES_H
#define NAMES_H

#include "bim_table.h"
#include "io.h"

/* The bytes of a line of a names file. */
enum { MOST_NAMES_LINE = 255 };

/* The words of the names file, and the lines they stand on; a name without a word is shown as its number. */
static char *names[BIM_MOST_NAME + 1], *type_names[BIM_MOST_TYPES], *party_names[BIM_PARTIES];
static unsigned long named_on[BIM_MOST_NAME + 1], type_named_on[BIM_MOST_TYPES], party_named_on[BIM_PARTIES];
/* Of a type that has any: the words of its values, so many as an enumeration may have. */
static char **value_names[BIM_MOST_TYPES];

static inline const char *name_of(uint32_t name)
{
    static char digits[4][11];
    static unsigned turn;
    if (name <= BIM_MOST_NAME && names[name] != NULL)
        return names[name];
    turn = (turn + 1) % 4;
    snprintf(digits[turn], sizeof digits[turn], "%lu", (unsigned long)name);
    return digits[turn];
}

/* "20", and the word of the names file where there is one. */
static inline void print_name(uint32_t name)
{
    printf("%lu", (unsigned long)name);
    if (names[name] != NULL)
        printf(" (%s)", names[name]);
}

/* Whether a word is UTF-8 that can be seen as it is. */
static inline int is_plain(const char *word, size_t count)
{
    size_t i, length;
    for (i = 0; i < count; i += length) {
        uint32_t character;
        length = character_of((const uint8_t *)word + i, count - i, &character);
        if (length == 0 || acts(character))
            return 0;
    }
    return 1;
}

/* A word for keeps. */
static inline char *copy_word(const char *word, size_t length)
{
    char *copy = (char *)malloc(length + 1);
    if (copy == NULL)
        abort();
    memcpy(copy, word, length);
    copy[length] = '\0';
    return copy;
}

/* Where the word of this value of a type is kept. */
static inline char **value_name(uint32_t type, uint32_t value)
{
    if (value_names[type] == NULL) {
        value_names[type] = (char **)calloc(BIM_MOST_VALUES, sizeof value_names[type][0]);
        if (value_names[type] == NULL)
            abort();
    }
    return &value_names[type][value];
}

/* The fields of a line, between gaps; those past the fourth count, and are not kept. */
struct field {
    const char *at;
    size_t length;
};
static inline size_t fields_of(const char *line, struct field fields[4])
{
    static const char gap[] = " \t\r";
    size_t count = 0;
    for (line += strspn(line, gap); *line != '\0'; line += strspn(line, gap)) {
        const size_t length = strcspn(line, gap);
        if (count < 4) {
            fields[count].at = line;
            fields[count].length = length;
        }
        line += length;
        count++;
    }
    return count;
}

static inline int is_field(struct field field, const char *word)
{
    return field.length == strlen(word) && memcmp(field.at, word, field.length) == 0;
}

/* Keeps a word, which has to be new here. */
static inline int keep_word(const struct lines *lines, struct field field, const char *what, uint64_t number, char **word, unsigned long *on)
{
    if (!is_plain(field.at, field.length))
        return complain(lines->path, lines->number, "the word has a character that cannot be shown");
    if (*word != NULL && on == NULL)
        return complain(lines->path, lines->number, "%s%lu has its word", what, (unsigned long)number);
    if (*word != NULL)
        return complain(lines->path, lines->number, "%s%lu has its word on line %lu", what, (unsigned long)number, *on);
    *word = copy_word(field.at, field.length);
    if (on != NULL)
        *on = lines->number;
    return 1;
}

static inline int take_type_name(const struct lines *lines, const struct field *fields, size_t count)
{
    uint64_t type;
    uint32_t other;
    if (count != 3 || !digits_of(fields[1].at, fields[1].length, BIM_MOST_TYPES - 1, &type))
        return complain(lines->path, lines->number, "no type to 255 and a word");
    for (other = 0; other < BIM_MOST_TYPES; other++)
        if (type_names[other] != NULL && is_field(fields[2], type_names[other]))
            return complain(lines->path, lines->number, "the word is that of type %lu, on line %lu", (unsigned long)other, type_named_on[other]);
    return keep_word(lines, fields[2], "type ", type, &type_names[type], &type_named_on[type]);
}

static inline int take_value_name(const struct lines *lines, const struct field *fields, size_t count)
{
    uint64_t type, value;
    if (count != 4 || !digits_of(fields[1].at, fields[1].length, BIM_MOST_TYPES - 1, &type) ||
        !digits_of(fields[2].at, fields[2].length, BIM_MOST_VALUES - 1, &value))
        return complain(lines->path, lines->number, "no type to 255, a value to 65535 and a word");
    return keep_word(lines, fields[3], "the value ", value, value_name((uint32_t)type, (uint32_t)value), NULL);
}

/* Takes what a line says. */
static inline int take_word(const struct lines *lines, const char *line)
{
    struct field fields[4];
    const size_t count = fields_of(line, fields);
    uint64_t number;
    if (count == 0)
        return 1;
    if (is_field(fields[0], "type"))
        return take_type_name(lines, fields, count);
    if (is_field(fields[0], "value"))
        return take_value_name(lines, fields, count);
    if (is_field(fields[0], "party")) {
        if (count != 3 || !digits_of(fields[1].at, fields[1].length, BIM_PARTIES - 1, &number))
            return complain(lines->path, lines->number, "no party to 7 and a word");
        return keep_word(lines, fields[2], "party ", number, &party_names[number], &party_named_on[number]);
    }
    if (count != 2 || !digits_of(fields[0].at, fields[0].length, BIM_MOST_NAME, &number))
        return complain(lines->path, lines->number, "no number to 65535 and a word");
    return keep_word(lines, fields[1], "", number, &names[number], &named_on[number]);
}

static inline int compare_words(const void *one, const void *other)
{
    return strcmp(**(char **const *)one, **(char **const *)other);
}

/* Finds two of these words, some of which may be null, that are the same: which they are, the earlier first; 0 where there are none. */
static inline int repeated_word(char **words, uint32_t count, uint32_t *one, uint32_t *other)
{
    char ***sorted = (char ***)malloc((count + 1) * sizeof *sorted);
    uint32_t i, there = 0;
    int found = 0;
    if (sorted == NULL)
        abort();
    for (i = 0; i < count; i++)
        if (words[i] != NULL)
            sorted[there++] = &words[i];
    qsort(sorted, there, sizeof *sorted, compare_words);
    for (i = 1; i < there && !found; i++)
        if (strcmp(*sorted[i - 1], *sorted[i]) == 0) {
            const uint32_t a = (uint32_t)(sorted[i - 1] - words), b = (uint32_t)(sorted[i] - words);
            *one = a < b ? a : b;
            *other = a < b ? b : a;
            found = 1;
        }
    free(sorted);
    return found;
}

/* Whether the values of each enumeration have different words. */
static inline int judge_values(const char *path)
{
    uint32_t type, one, other;
    for (type = 0; type < BIM_MOST_TYPES; type++)
        if (value_names[type] != NULL && repeated_word(value_names[type], BIM_MOST_VALUES, &one, &other))
            return complain(path, 0, "values %lu and %lu of type %lu have one word", (unsigned long)one, (unsigned long)other,
                            (unsigned long)type);
    return 1;
}

/* Reads a names file; says what is wrong and answers 0 where it is no good. */
static inline int read_names(const char *path)
{
    char line[MOST_NAMES_LINE + 1];
    struct lines lines;
    int more;
    if (!open_lines(&lines, path, '\n'))
        return 0;
    while ((more = take_line(&lines, line, sizeof line)) == 1)
        if (line[0] != '#' && !take_word(&lines, line)) {
            more = -1;
            break;
        }
    close_lines(&lines);
    return more == 0 && judge_values(path);
}

/* Lets go of all words. */
static inline void forget_names(void)
{
    uint32_t i, value;
    for (i = 0; i <= BIM_MOST_NAME; i++) {
        free(names[i]);
        names[i] = NULL;
    }
    for (i = 0; i < BIM_MOST_TYPES; i++) {
        for (value = 0; value_names[i] != NULL && value < BIM_MOST_VALUES; value++)
            free(value_names[i][value]);
        free(value_names[i]);
        free(type_names[i]);
        value_names[i] = NULL;
        type_names[i] = NULL;
    }
    for (i = 0; i < BIM_PARTIES; i++) {
        free(party_names[i]);
        party_names[i] = NULL;
    }
}

/* The word that stands on a names file's line behind this number and those words, "" or "type " or so, has room there. */
static inline int fits_line(const char *what, uint32_t number, size_t length)
{
    char front[64];
    return strlen(what) + (size_t)snprintf(front, sizeof front, "%lu ", (unsigned long)number) + length <= MOST_NAMES_LINE;
}

static inline void print_words(FILE *to, const char *what, char *const *words, uint32_t count)
{
    uint32_t i;
    for (i = 0; i < count; i++)
        if (words[i] != NULL)
            fprintf(to, "%s%lu %s\n", what, (unsigned long)i, words[i]);
}

/* Prints the names file of all words that there are. */
static inline void print_names(FILE *to)
{
    char what[32];
    uint32_t type;
    print_words(to, "", names, BIM_MOST_NAME + 1);
    print_words(to, "type ", type_names, BIM_MOST_TYPES);
    for (type = 0; type < BIM_MOST_TYPES; type++)
        if (value_names[type] != NULL) {
            snprintf(what, sizeof what, "value %lu ", (unsigned long)type);
            print_words(to, what, value_names[type], BIM_MOST_VALUES);
        }
    print_words(to, "party ", party_names, BIM_PARTIES);
}

#endif
