/* In words, what is wrong with the word that bim_check_table named. The verdict and the place are the library's. */
#ifndef FAULTS_H
#define FAULTS_H

#include "bim_table.h"
#include "io.h"

/* The sentence as it grows. */
struct sentence {
    char words[256];
    size_t length;
};

#if defined(__GNUC__)
__attribute__((format(printf, 2, 3)))
#endif
static void say(struct sentence *it, const char *format, ...)
{
    va_list list;
    int more;
    va_start(list, format);
    more = vsnprintf(it->words + it->length, sizeof it->words - it->length, format, list);
    va_end(list);
    if (more > 0 && (size_t)more < sizeof it->words - it->length)
        it->length += (size_t)more;
}

/* The simple kinds by name. */
static inline const char *simple_name(uint32_t kind)
{
    static const char *const words[] = {"boolean", "ranged", "unsigned", "signed", "enumeration", "text", "float", "dateTime", "date"};
    return kind <= BIM_DATE ? words[kind] : "unknown";
}

/* Each of these says what its word has to be where it is not, and answers whether it said so. */
static int fault_flag(struct sentence *s, uint32_t word)
{
    if (word <= 1)
        return 0;
    say(s, "%lu is neither 0 nor 1", (unsigned long)word);
    return 1;
}

static int fault_most(struct sentence *s, uint32_t word, unsigned long most)
{
    if (word <= most)
        return 0;
    say(s, "%lu is over %lu", (unsigned long)word, most);
    return 1;
}

static int fault_between(struct sentence *s, const char *what, uint32_t word, unsigned long least, unsigned long most)
{
    if (word >= least && word <= most)
        return 0;
    say(s, "%lu%s, not %lu to %lu", (unsigned long)word, what, least, most);
    return 1;
}

static int fault_below(struct sentence *s, const char *what, uint32_t word, uint32_t there)
{
    if (word < there)
        return 0;
    say(s, "%s %lu is not below the %lu there are", what, (unsigned long)word, (unsigned long)there);
    return 1;
}

static int fault_first(struct sentence *s, const char *what, uint32_t first, uint32_t there)
{
    if (first <= there)
        return 0;
    say(s, "%s %lu is over the %lu there are", what, (unsigned long)first, (unsigned long)there);
    return 1;
}

static int fault_span(struct sentence *s, const char *one, const char *more, uint32_t first, uint32_t count, uint32_t there)
{
    if (first <= there && count <= there - first)
        return 0;
    say(s, "%lu %s from %lu pass%s the %lu there are", (unsigned long)count, count == 1 ? one : more, (unsigned long)first,
        count == 1 ? "es" : "", (unsigned long)there);
    return 1;
}

static int fault_zero(struct sentence *s, uint32_t word, const char *a, const char *what)
{
    if (word == 0)
        return 0;
    say(s, "%lu, and %s %s has 0 here", (unsigned long)word, a, what);
    return 1;
}

static int fault_header(struct sentence *s, uint32_t i, uint32_t word)
{
    static const char *const words[] = {"first word", "types", "attribute rows", "particle rows"};
    say(s, "header, %s: ", words[i]);
    if (i == 0) {
        if (word == 1 || word == 2)
            return 0;
        say(s, "%lu, neither form 1 nor form 2", (unsigned long)word);
        return 1;
    }
    return i == 1 ? fault_between(s, "", word, 1, BIM_MOST_TYPES) : fault_most(s, word, BIM_MOST_PARTICLES);
}

/* How many words the rows ask for, and in form 2 what stands past them: D and S count as 0 where they are not there. */
static int fault_words(struct sentence *s, const uint8_t *table, uint32_t words)
{
    const uint32_t past = bim_rows_end(table);
    uint64_t derivations, substitutes;
    say(s, "%lu words, and a header of %lu, %lu and %lu rows", (unsigned long)words, (unsigned long)bim_types(table),
        (unsigned long)bim_attributes(table), (unsigned long)bim_particles(table));
    if (bim_form(table) == 1) {
        say(s, " asks for %lu", (unsigned long)past);
        return 1;
    }
    derivations = past < words ? bim_table_word(table, past) : 0;
    substitutes = past + 1 < words ? bim_table_word(table, past + 1) : 0;
    say(s, ", %llu derived entries and %llu substitutes asks for %llu", (unsigned long long)derivations, (unsigned long long)substitutes,
        (unsigned long long)(past + 2 + derivations + 2 * substitutes + 2 * (bim_types(table) + bim_particles(table))));
    return 1;
}

static int fault_length(struct sentence *s, const uint8_t *table, size_t bytes)
{
    say(s, "length: ");
    if (bytes > BIM_MOST_TABLE)
        say(s, "more than the %lu words that a table may have", BIM_MOST_TABLE / 4ul);
    else if (bytes % 4 != 0)
        say(s, "%lu bytes are no whole words", (unsigned long)bytes);
    else if (bytes < 16)
        say(s, "%lu words, and the header alone has 4", (unsigned long)(bytes / 4));
    else
        return fault_words(s, table, (uint32_t)(bytes / 4));
    return 1;
}

/* The words a, b, c of a type row. */
static int fault_content(struct sentence *s, const uint8_t *table, struct bim_type type, uint32_t i)
{
    const uint32_t word = i == 4 ? type.a : i == 5 ? type.b : type.c;
    if (type.content == BIM_EMPTY)
        return fault_zero(s, word, "an", "empty type");
    if (type.content == BIM_PARTICLES)
        return i == 4 ? fault_below(s, "row", word, bim_particles(table)) : fault_zero(s, word, "a", "type of particles");
    if (i == 4) {
        if (word <= BIM_DATE)
            return 0;
        say(s, "simple kind %lu is over %d", (unsigned long)word, BIM_DATE);
        return 1;
    }
    if (type.a == BIM_RANGED) {
        if (i == 5 || bim_signed(type.b) <= bim_signed(type.c))
            return 0;
        say(s, "the range from %ld to %ld is empty", (long)bim_signed(type.b), (long)bim_signed(type.c));
        return 1;
    }
    if (type.a == BIM_ENUMERATION && i == 5)
        return fault_between(s, " values", word, 1, BIM_MOST_VALUES);
    return fault_zero(s, word, "kind", simple_name(type.a));
}

/* The words of a type row, of an attribute row, and of a particle row by its kind behind the first, by name. */
static const char *const type_words[] = {"held marks", "content", "first attribute row", "attribute count", "a", "b", "c"};
static const char *const attribute_words[] = {"name", "required", "type"};
static const char *const particle_words[4][3] = {{"name", "type", "last word"},
                                                 {"first child", "number of children", "last word"},
                                                 {"first child", "number of children", "last word"},
                                                 {"child", "least", "most"}};

static int fault_type(struct sentence *s, const uint8_t *table, uint32_t row, uint32_t i)
{
    const struct bim_type type = bim_type_row(table, row);
    say(s, "type row %lu, %s: ", (unsigned long)row, type_words[i]);
    switch (i) {
    case 0: return fault_most(s, type.held, (1 << BIM_PARTIES) - 1);
    case 1:
        if (type.content <= BIM_PARTICLES)
            return 0;
        say(s, "%lu is none of 0 empty, 1 simple, 2 particles", (unsigned long)type.content);
        return 1;
    case 2: return fault_first(s, "row", type.first_attribute, bim_attributes(table));
    case 3: return fault_span(s, "row", "rows", type.first_attribute, type.attributes, bim_attributes(table));
    default: return fault_content(s, table, type, i);
    }
}

static int fault_attribute(struct sentence *s, const uint8_t *table, uint32_t row, uint32_t i)
{
    const struct bim_attribute attribute = bim_attribute_row(table, row);
    struct bim_type type;
    say(s, "attribute row %lu, %s: ", (unsigned long)row, attribute_words[i]);
    if (i == 0)
        return fault_most(s, attribute.name, BIM_MOST_NAME);
    if (i == 1)
        return fault_flag(s, attribute.required);
    if (fault_below(s, "type", attribute.type, bim_types(table)))
        return 1;
    type = bim_type_row(table, attribute.type);
    if (type.content == BIM_SIMPLE && type.attributes == 0)
        return 0;
    say(s, "type %lu %s", (unsigned long)attribute.type,
        type.content != BIM_SIMPLE ? "has no simple content" : "has attributes itself");
    return 1;
}

/* A child row is over its parent's, so that rows cannot go round. */
static int fault_child(struct sentence *s, uint32_t child, uint32_t row, uint32_t there)
{
    if (child > row)
        return fault_below(s, "row", child, there);
    say(s, "row %lu is not over its own row", (unsigned long)child);
    return 1;
}

/* The particle rows by name. */
static const char *const particle_names[] = {"element", "sequence", "choice", "occurs"};

static int fault_particle(struct sentence *s, const uint8_t *table, uint32_t row, uint32_t i)
{
    const struct bim_particle it = bim_particle_row(table, row);
    const uint32_t there = bim_particles(table);
    if (i == 0 || it.kind > BIM_OCCURS) {
        say(s, "particle row %lu, kind: %lu is none of 0 element, 1 sequence, 2 choice, 3 occurs", (unsigned long)row,
            (unsigned long)it.kind);
        return it.kind > BIM_OCCURS;
    }
    say(s, "particle row %lu, %s, %s: ", (unsigned long)row, particle_names[it.kind], particle_words[it.kind][i - 1]);
    if (it.kind == BIM_ELEMENT)
        return i == 1   ? fault_most(s, it.p, BIM_MOST_NAME)
               : i == 2 ? fault_below(s, "type", it.q, bim_types(table))
                        : fault_zero(s, it.r, "an", particle_names[it.kind]);
    if (i == 1)
        return fault_child(s, it.p, row, there);
    if (it.kind != BIM_OCCURS) {
        if (i == 3)
            return fault_zero(s, it.r, "a", particle_names[it.kind]);
        return fault_between(s, "", it.q, it.kind == BIM_SEQUENCE ? 1 : 2, 64) || fault_span(s, "row", "rows", it.p, it.q, there);
    }
    if (i == 2)
        return fault_most(s, it.q, BIM_MOST_TIMES);
    if (fault_between(s, "", it.r, 1, BIM_UNBOUNDED))
        return 1;
    if (it.q <= it.r)
        return 0;
    say(s, "%lu is under the least, %lu", (unsigned long)it.r, (unsigned long)it.q);
    return 1;
}

/* The words past the rows: each part is looked at only where all before it is right, so that its place is known. */
static int fault_counts(struct sentence *s, const uint8_t *table, uint32_t i)
{
    say(s, i == 0 ? "derived entries: " : "substitutes: ");
    return i == 0 ? fault_most(s, bim_derivations(table), BIM_MOST_DERIVATIONS)
                  : fault_most(s, bim_substitutes(table), BIM_MOST_SUBSTITUTES);
}

static int fault_substitute(struct sentence *s, const uint8_t *table, uint32_t at, uint32_t i)
{
    const struct bim_substitute it = bim_substitute(table, at);
    say(s, "substitute %lu, %s: ", (unsigned long)at, i == 0 ? "name" : "type");
    return i == 0 ? fault_most(s, it.name, BIM_MOST_NAME) : fault_below(s, "type", it.type, bim_types(table));
}

/* A type's derived types are each there once, and it is none of them itself. */
static int fault_once(struct sentence *s, const uint8_t *table, uint32_t type, struct bim_span span)
{
    uint32_t i, before;
    for (i = span.first; i < span.first + span.count; i++) {
        const uint32_t derived = bim_derived(table, i);
        if (derived == type) {
            say(s, "type %lu stands among them itself", (unsigned long)type);
            return 1;
        }
        for (before = span.first; before < i; before++)
            if (bim_derived(table, before) == derived) {
                say(s, "type %lu stands among them twice", (unsigned long)derived);
                return 1;
            }
    }
    return 0;
}

static int fault_type_derived(struct sentence *s, const uint8_t *table, uint32_t type, uint32_t i)
{
    const struct bim_span span = bim_type_derived(table, type);
    const uint32_t there = bim_derivations(table);
    say(s, "of type %lu, %s: ", (unsigned long)type, i == 0 ? "first derived entry" : "number of derived entries");
    if (i == 0)
        return fault_first(s, "entry", span.first, there);
    return fault_span(s, "entry", "entries", span.first, span.count, there) || fault_once(s, table, type, span);
}

static int fault_row_substitutes(struct sentence *s, const uint8_t *table, uint32_t row, uint32_t i)
{
    const struct bim_span span = bim_row_substitutes(table, row);
    const uint32_t there = bim_substitutes(table), kind = bim_particle_row(table, row).kind;
    say(s, "of particle row %lu, %s: ", (unsigned long)row, i == 0 ? "first substitute" : "number of substitutes");
    if (kind != BIM_ELEMENT)
        return fault_zero(s, i == 0 ? span.first : span.count, kind == BIM_OCCURS ? "an" : "a", particle_names[kind]);
    return i == 0 ? fault_first(s, "substitute", span.first, there)
                  : fault_span(s, "substitute", "substitutes", span.first, span.count, there);
}

static int fault_past_rows(struct sentence *s, const uint8_t *table, uint32_t place)
{
    uint32_t at = bim_rows_end(table);
    if (place < at + 2)
        return fault_counts(s, table, place - at);
    at = bim_derived_at(table, 0);
    if (place < bim_substitute_at(table, 0)) {
        say(s, "derived entry %lu: ", (unsigned long)(place - at));
        return fault_below(s, "type", bim_derived(table, place - at), bim_types(table));
    }
    at = bim_substitute_at(table, 0);
    if (place < bim_type_derived_at(table, 0))
        return fault_substitute(s, table, (place - at) / 2, (place - at) % 2);
    at = bim_type_derived_at(table, 0);
    if (place < bim_row_substitutes_at(table, 0))
        return fault_type_derived(s, table, (place - at) / 2, (place - at) % 2);
    at = bim_row_substitutes_at(table, 0);
    return fault_row_substitutes(s, table, (place - at) / 2, (place - at) % 2);
}

/* What is wrong at the word that was named; answers 0 where no reason was found, which the tests show never to be. */
static int fault_in_words(struct sentence *s, const uint8_t *table, size_t bytes, uint32_t place)
{
    uint32_t at;
    s->length = 0;
    s->words[0] = '\0';
    if (place >= bytes / 4)
        return fault_length(s, table, bytes);
    if (place < 4)
        return fault_header(s, place, bim_table_word(table, place));
    at = bim_attribute_at(table, 0);
    if (place < at)
        return fault_type(s, table, (place - 4) / 7, (place - 4) % 7);
    if (place < bim_particle_at(table, 0))
        return fault_attribute(s, table, (place - at) / 3, (place - at) % 3);
    at = bim_particle_at(table, 0);
    if (place < bim_rows_end(table))
        return fault_particle(s, table, (place - at) / 4, (place - at) % 4);
    return fault_past_rows(s, table, place);
}

/* Says of a table file that it is wrong, where and why; answers 0. */
static inline int complain_of_table(const char *path, const uint8_t *table, size_t bytes, uint32_t place)
{
    struct sentence why;
    fault_in_words(&why, table, bytes, place);
    return complain(path, 0, "wrong at word %lu: %s", (unsigned long)place, why.words);
}

#endif
