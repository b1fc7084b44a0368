/* The rows of a schema table, for whoever walks events beside it or curates tables. Document 01 lays the words out; docs/TABLE.md
 * explains them on the worked example.
 *
 * A table is words of 4 bytes, the most significant byte first: its form, 1 or 2, then T, A, P; then T type rows of 7 words, A attribute
 * rows of 3, P particle rows of 4. In form 2 there follow D, S; then D derived entries of 1 word, S substitutes of 2; then a pair of words
 * for each type, which entries are its derived types, and a pair for each particle row, which substitutes are its own. In form 1 there is
 * none of this: D, S and all pairs count as 0. ASK bim_check_table FIRST: these functions look at a table that it accepted, and at rows
 * below T, A and P, entries below D and substitutes below S.
 */
#ifndef BIM_TABLE_H
#define BIM_TABLE_H

#include "bim.h"

#ifdef __cplusplus
extern "C" {
#endif

/* What a type's elements contain. */
enum { BIM_EMPTY = 0, BIM_SIMPLE = 1, BIM_PARTICLES = 2 };

/* The simple kinds, and what the word p of a Value is; its q is 0 but for a dateTime and a date. */
enum {
    BIM_BOOLEAN = 0,     /* 0 or 1 */
    BIM_RANGED = 1,      /* from b to c, all three in two's complement: bim_signed */
    BIM_UNSIGNED = 2,    /* 0 to 2^32 - 1 */
    BIM_SIGNED = 3,      /* in two's complement: bim_signed */
    BIM_ENUMERATION = 4, /* one of b, from 0 */
    BIM_TEXT = 5,        /* its bytes, which stand in the texts: UTF-8, and below 32 only 9, 10, 13 */
    BIM_FLOAT = 6,       /* the bits of an IEEE 754 single */
    BIM_DATE_TIME = 7,   /* 16 * year + month, and q is 2^27 * day + milliseconds since 00:00:00, fewer than 86,400,000: bim_date_year .. */
    BIM_DATE = 8         /* the same, with 0 milliseconds */
};

/* The particle rows, and their words p, q and r (else 0). */
enum {
    BIM_ELEMENT = 0,  /* name, type */
    BIM_SEQUENCE = 1, /* first child row, number of child rows */
    BIM_CHOICE = 2,   /* first child row, number of child rows */
    BIM_OCCURS = 3    /* child row, least, most */
};
/* The most of an occurs row that has no end. */
#define BIM_UNBOUNDED 65536

/* The most types, attribute rows, particle rows, derived entries and substitutes of a table, child rows of a sequence or a choice, values
 * of an enumeration and bytes of a text; the greatest name, and the greatest count of an occurs row. A range whose ends lie at most
 * BIM_MOST_FIXED apart has a fixed width, any other a vluimsbf5. */
#define BIM_MOST_TYPES 256
#define BIM_MOST_ATTRIBUTES 1024
#define BIM_MOST_PARTICLES 1024
#define BIM_MOST_DERIVATIONS 1024
#define BIM_MOST_SUBSTITUTES 1024
#define BIM_MOST_CHILDREN 64
#define BIM_MOST_VALUES 65536
#define BIM_MOST_NAME 65535
#define BIM_MOST_TIMES 65535
#define BIM_MOST_FIXED 65535
#define BIM_MOST_TEXT 4095

/* held has a bit for each party, bit p party p's (bim_is_held). a, b and c: of simple content its kind and parameters; of particles a is their
 * row. */
struct bim_type {
    uint32_t held, content, first_attribute, attributes, a, b, c;
};
struct bim_attribute {
    uint32_t name, required, type;
};
struct bim_particle {
    uint32_t kind, p, q, r;
};
/* An element that may stand for another. */
struct bim_substitute {
    uint32_t name, type;
};
/* So many from the first on, of the derived entries or of the substitutes. A payload's code k names the k-th of them, from 0. */
struct bim_span {
    uint32_t first, count;
};

/* Word i. */
static inline uint32_t bim_table_word(const uint8_t *table, size_t i) { return bim_word(table + 4 * i); }

/* The form, 1 or 2; T, A and P. */
static inline uint32_t bim_form(const uint8_t *table) { return bim_table_word(table, 0); }
static inline uint32_t bim_types(const uint8_t *table) { return bim_table_word(table, 1); }
static inline uint32_t bim_attributes(const uint8_t *table) { return bim_table_word(table, 2); }
static inline uint32_t bim_particles(const uint8_t *table) { return bim_table_word(table, 3); }

/* The first word of a row; of the row past the last, the first word past them. */
static inline uint32_t bim_type_at(uint32_t row) { return 4 + 7 * row; }
static inline uint32_t bim_attribute_at(const uint8_t *table, uint32_t row) { return bim_type_at(bim_types(table)) + 3 * row; }
static inline uint32_t bim_particle_at(const uint8_t *table, uint32_t row)
{
    return bim_attribute_at(table, bim_attributes(table)) + 4 * row;
}

static inline struct bim_type bim_type_row(const uint8_t *table, uint32_t row)
{
    const uint32_t at = bim_type_at(row);
    struct bim_type type;
    type.held = bim_table_word(table, at);
    type.content = bim_table_word(table, at + 1);
    type.first_attribute = bim_table_word(table, at + 2);
    type.attributes = bim_table_word(table, at + 3);
    type.a = bim_table_word(table, at + 4);
    type.b = bim_table_word(table, at + 5);
    type.c = bim_table_word(table, at + 6);
    return type;
}

/* Whether a party, one of BIM_PARTIES, holds a type. bim_set_held changes it. */
static inline int bim_is_held(const uint8_t *table, uint32_t party, uint32_t type)
{
    return (bim_table_word(table, bim_type_at(type)) >> party & 1) == 1;
}

static inline struct bim_attribute bim_attribute_row(const uint8_t *table, uint32_t row)
{
    const uint32_t at = bim_attribute_at(table, row);
    struct bim_attribute attribute;
    attribute.name = bim_table_word(table, at);
    attribute.required = bim_table_word(table, at + 1);
    attribute.type = bim_table_word(table, at + 2);
    return attribute;
}

static inline struct bim_particle bim_particle_row(const uint8_t *table, uint32_t row)
{
    const uint32_t at = bim_particle_at(table, row);
    struct bim_particle particle;
    particle.kind = bim_table_word(table, at);
    particle.p = bim_table_word(table, at + 1);
    particle.q = bim_table_word(table, at + 2);
    particle.r = bim_table_word(table, at + 3);
    return particle;
}

/* The first word past the rows: a table of form 1 ends there. */
static inline uint32_t bim_rows_end(const uint8_t *table) { return bim_particle_at(table, bim_particles(table)); }
/* Word i past the rows, i from their end on; in form 1 it is not there and counts as 0. */
static inline uint32_t bim_word_past_rows(const uint8_t *table, uint32_t i) { return bim_form(table) == 2 ? bim_table_word(table, i) : 0; }

/* D and S. */
static inline uint32_t bim_derivations(const uint8_t *table) { return bim_word_past_rows(table, bim_rows_end(table)); }
static inline uint32_t bim_substitutes(const uint8_t *table) { return bim_word_past_rows(table, bim_rows_end(table) + 1); }

/* In form 2, the word of a derived entry; the first word of a substitute, of a type's pair, of a particle row's pair. */
static inline uint32_t bim_derived_at(const uint8_t *table, uint32_t i) { return bim_rows_end(table) + 2 + i; }
static inline uint32_t bim_substitute_at(const uint8_t *table, uint32_t i)
{
    return bim_derived_at(table, bim_derivations(table)) + 2 * i;
}
static inline uint32_t bim_type_derived_at(const uint8_t *table, uint32_t type)
{
    return bim_substitute_at(table, bim_substitutes(table)) + 2 * type;
}
static inline uint32_t bim_row_substitutes_at(const uint8_t *table, uint32_t row)
{
    return bim_type_derived_at(table, bim_types(table)) + 2 * row;
}

/* The type that derived entry i is. */
static inline uint32_t bim_derived(const uint8_t *table, uint32_t i) { return bim_word_past_rows(table, bim_derived_at(table, i)); }

/* Substitute i. In C++ it hides the struct's constructor, which nobody needs and -Wshadow minds. */
#if defined(__cplusplus) && defined(__GNUC__)
#pragma GCC diagnostic push
#pragma GCC diagnostic ignored "-Wshadow"
#endif
static inline struct bim_substitute bim_substitute(const uint8_t *table, uint32_t i)
{
    const uint32_t at = bim_substitute_at(table, i);
    struct bim_substitute substitute;
    substitute.name = bim_word_past_rows(table, at);
    substitute.type = bim_word_past_rows(table, at + 1);
    return substitute;
}
#if defined(__cplusplus) && defined(__GNUC__)
#pragma GCC diagnostic pop
#endif

/* The pair at this word. */
static inline struct bim_span bim_span_at(const uint8_t *table, uint32_t at)
{
    struct bim_span span;
    span.first = bim_word_past_rows(table, at);
    span.count = bim_word_past_rows(table, at + 1);
    return span;
}
/* The entries of the types that an element of this type may be cast to. */
static inline struct bim_span bim_type_derived(const uint8_t *table, uint32_t type)
{
    return bim_span_at(table, bim_type_derived_at(table, type));
}
/* The substitutes that may stand for the element of this particle row. */
static inline struct bim_span bim_row_substitutes(const uint8_t *table, uint32_t row)
{
    return bim_span_at(table, bim_row_substitutes_at(table, row));
}

/* Whether the element of this particle row has codes in a mode, so that a Cast follows its Start. */
static inline int bim_row_has_codes(const uint8_t *table, uint32_t row, uint32_t mode)
{
    return bim_row_substitutes(table, row).count > 0 ||
           (mode >= BIM_CASTING && bim_type_derived(table, bim_particle_row(table, row).q).count > 0);
}

/* The name of the element of a particle row where this substitute stands for it, as a Cast has it: from 1, at most as many as the row has;
 * 0 is none, and the row's own name. */
static inline uint32_t bim_name_in_effect(const uint8_t *table, uint32_t row, uint32_t substitute)
{
    return substitute == 0 ? bim_particle_row(table, row).p
                           : bim_substitute(table, bim_row_substitutes(table, row).first + substitute - 1).name;
}

/* The fields of a dateTime or a date, of a Value's words p and q: a day of the Gregorian calendar from 1858-11-17 to 11761079-12-06, months
 * and days from 1, in GMT. bim_write refuses any other (BIM_OUTSIDE_ROW): p is 16 * year + month, q is 134217728 * day + milliseconds. */
static inline uint32_t bim_date_year(uint32_t p) { return p >> 4; }
static inline uint32_t bim_date_month(uint32_t p) { return p & 15; }
static inline uint32_t bim_date_day(uint32_t q) { return q >> 27; }
static inline uint32_t bim_date_ms(uint32_t q) { return q & 0x7FFFFFF; }

/* The number that a word is in two's complement. */
static inline int64_t bim_signed(uint32_t word)
{
    const int64_t value = word;
    return value < 0x80000000 ? value : value - 0x100000000;
}

#ifdef __cplusplus
}
#endif

#endif
