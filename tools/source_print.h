/* The source of a table, as it is printed: one way for each table and its names, which source_read.h makes the same table of again. */
#ifndef SOURCE_PRINT_H
#define SOURCE_PRINT_H

#include "source.h"

/* A statement as it grows: chunks with a gap between them, on lines of at most this many bytes where no chunk is longer. */
enum { SOURCE_WIDTH = 100, MOST_CHUNK = 600 };
struct page {
    FILE *to;
    const uint8_t *table;
    size_t column, length;
    char chunk[MOST_CHUNK];
    char *type_words[BIM_MOST_TYPES];          /* of each type, or null: it goes by its number */
    uint8_t name_is_shared[BIM_MOST_NAME + 1]; /* whether another number has the word, so that it goes by its number */
    uint8_t is_inline[BIM_MOST_PARTICLES];     /* whether the children of a row are told in it */
    uint8_t is_whole[BIM_MOST_NAME + 1];       /* whether one `substitute` tells of all elements of a name, */
    struct bim_span told[BIM_MOST_NAME + 1];   /* and what */
    uint8_t needs_place[SORTS][MOST_LAID];         /* whether a list of this sort has to say where it lies */
    int lays[SORTS];                               /* whether all rows of the sort are laid first */
};

/* Ends the chunk, on this line or on the next. */
static void end_chunk(struct page *page)
{
    if (page->length == 0)
        return;
    if (page->column > 0 && page->column + 1 + page->length > SOURCE_WIDTH) {
        fputs("\n   ", page->to);
        page->column = 3;
    }
    if (page->column > 0)
        putc(' ', page->to);
    fwrite(page->chunk, 1, page->length, page->to);
    page->column += (page->column > 0) + page->length;
    page->length = 0;
}

/* More of a statement, behind a gap or right behind what is there. */
static void tell(struct page *page, int gap, const char *text)
{
    const size_t length = strlen(text);
    if (gap || page->length + length > MOST_CHUNK)
        end_chunk(page);
    memcpy(page->chunk + page->length, text, length);
    page->length += length;
}

static void tell_number(struct page *page, int gap, const char *front, int64_t number)
{
    char text[32];
    snprintf(text, sizeof text, "%s%lld", front, (long long)number);
    tell(page, gap, text);
}

static void end_statement(struct page *page)
{
    end_chunk(page);
    putc('\n', page->to);
    page->column = 0;
}

/* A word, in quotes where it needs them. */
static void tell_word(struct page *page, int gap, const char *word, int value)
{
    char quoted[2 * MOST_NAMES_LINE + 3];
    size_t length = 0;
    if (is_bare(word, value)) {
        tell(page, gap, word);
        return;
    }
    quoted[length++] = '"';
    for (; *word != '\0'; word++) {
        if (*word == '"' || *word == '\\')
            quoted[length++] = '\\';
        quoted[length++] = *word;
    }
    quoted[length++] = '"';
    quoted[length] = '\0';
    tell(page, gap, quoted);
}

/* A type by its word or number. */
static void tell_type(struct page *page, int gap, uint32_t type)
{
    const char *word = page->type_words[type];
    if (word == NULL)
        tell_number(page, gap, "", type);
    else if (strcmp(word, "all") == 0 || strcmp(word, "none") == 0) {
        /* In quotes it is no party's all or none. */
        tell(page, gap, "\"");
        tell(page, 0, word);
        tell(page, 0, "\"");
    } else
        tell_word(page, gap, word, 0);
}

/* The word of a name, where it has one of its own. */
static const char *own_word(const struct page *page, uint32_t name)
{
    return page->name_is_shared[name] ? NULL : names[name];
}

/* An element, substitute or attribute: its name, then its type, unless that is called the same. */
static void tell_named(struct page *page, int gap, uint32_t name, const char *mark, uint32_t type)
{
    const char *word = own_word(page, name);
    if (word == NULL)
        tell_number(page, gap, "", name);
    else
        tell_word(page, gap, word, 0);
    tell(page, 0, mark);
    if (word != NULL && page->type_words[type] != NULL && strcmp(word, page->type_words[type]) == 0)
        return;
    tell(page, 0, ":");
    tell_type(page, 0, type);
}

/* LISTS */

/* Row i of a sort, as words. */
static void laid_row(const struct page *page, int sort, uint32_t i, uint32_t row[LAID_WIDTH])
{
    memset(row, 0, LAID_WIDTH * sizeof row[0]);
    if (sort == OF_ATTRIBUTES) {
        const struct bim_attribute it = bim_attribute_row(page->table, i);
        row[0] = it.name;
        row[1] = it.required;
        row[2] = it.type;
    } else if (sort == OF_CASTS)
        row[0] = bim_derived(page->table, i);
    else {
        const struct bim_substitute it = bim_substitute(page->table, i);
        row[0] = it.name;
        row[2] = it.type;
    }
}

/* How many rows of a sort there are, how many have lists of them, and each one's list. */
static uint32_t all_laid(const struct page *page, int sort)
{
    return sort == OF_ATTRIBUTES ? bim_attributes(page->table) : sort == OF_CASTS ? bim_derivations(page->table) : bim_substitutes(page->table);
}

static uint32_t all_lists(const struct page *page, int sort)
{
    return sort == OF_SUBSTITUTES ? bim_particles(page->table) : bim_types(page->table);
}

static struct bim_span list_of(const struct page *page, int sort, uint32_t which)
{
    struct bim_span span;
    if (sort == OF_CASTS)
        return bim_type_derived(page->table, which);
    if (sort == OF_SUBSTITUTES)
        return bim_row_substitutes(page->table, which);
    span.first = bim_type_row(page->table, which).first_attribute;
    span.count = bim_type_row(page->table, which).attributes;
    return span;
}

/* Lays the lists out as the reader does, and finds which have to say where they lie; 0 where that does not make all the rows. */
static int lay_lists(struct page *page, int sort)
{
    static struct laid laid;
    static uint32_t rows[MOST_LAID][LAID_WIDTH];
    const uint32_t all = all_laid(page, sort);
    uint32_t i, which;
    for (i = 0; i < all; i++)
        laid_row(page, sort, i, rows[i]);
    laid.count = page->lays[sort] ? all : 0;
    memcpy(laid.rows, rows, laid.count * sizeof rows[0]);
    for (which = 0; which < all_lists(page, sort); which++) {
        const struct bim_span span = list_of(page, sort, which);
        page->needs_place[sort][which] = span.first != place_of(&laid, rows + span.first, span.count);
        if (span.count == 0)
            continue;
        if (span.first > laid.count)
            return 0;
        if (span.first + span.count > laid.count)
            laid.count = span.first + span.count;
        memcpy(laid.rows, rows, laid.count * sizeof rows[0]);
    }
    return laid.count == all;
}

/* One row of a list. */
static void tell_laid(struct page *page, int sort, int gap, uint32_t i)
{
    uint32_t row[LAID_WIDTH];
    laid_row(page, sort, i, row);
    if (sort == OF_CASTS)
        tell_type(page, gap, row[0]);
    else
        tell_named(page, gap, row[0], sort == OF_ATTRIBUTES && row[1] == 0 ? "?" : "", row[2]);
}

/* A list: where it lies, where that has to be said, and its rows. */
static void tell_list(struct page *page, int sort, int gap, uint32_t which)
{
    const struct bim_span span = list_of(page, sort, which);
    uint32_t i;
    if (page->needs_place[sort][which]) {
        tell_number(page, gap, "@", span.first);
        gap = 1;
    }
    for (i = 0; i < span.count; i++, gap = 1)
        tell_laid(page, sort, gap, span.first + i);
}

/* Whether there is anything to say of a list. */
static int has_list(const struct page *page, int sort, uint32_t which)
{
    return list_of(page, sort, which).count > 0 || page->needs_place[sort][which];
}

static void print_lay(struct page *page, int sort)
{
    uint32_t i;
    if (!page->lays[sort])
        return;
    tell(page, 0, "lay");
    tell(page, 1, sort_names[sort]);
    tell(page, 0, ":");
    for (i = 0; i < all_laid(page, sort); i++)
        tell_laid(page, sort, 1, i);
    end_statement(page);
}

/* CONTENT */

/* How many children a row has. */
static uint32_t children_of(struct bim_particle it)
{
    return it.kind == BIM_ELEMENT ? 0 : it.kind == BIM_OCCURS ? 1 : it.q;
}

/* Lays the rows from this one on out as the reader does: the children of a row stand behind all rows that are there when its turn comes. Where
 * they do not, they are told as rows that stand elsewhere. Answers the row behind all. */
static uint32_t lay_rows(struct page *page, uint32_t row)
{
    uint32_t end = row + 1;
    for (; row < end; row++) {
        const struct bim_particle it = bim_particle_row(page->table, row);
        page->is_inline[row] = it.kind != BIM_ELEMENT && it.p == end;
        if (page->is_inline[row])
            end += children_of(it);
    }
    return end;
}

static void tell_times(struct page *page, uint32_t least, uint32_t most)
{
    if (least == 0 && most == 1) {
        tell(page, 0, "?");
        return;
    }
    tell_number(page, 0, "{", least);
    if (most == BIM_UNBOUNDED)
        tell(page, 0, ",");
    else if (most != least)
        tell_number(page, 0, ",", most);
    tell(page, 0, "}");
}

/* How closely what is told stands to what is around it: it is all there is, or one branch of a choice, or one of several in a row. */
enum among { ALONE, A_BRANCH, AN_ITEM };

static void tell_row(struct page *page, int gap, uint32_t row, enum among among)
{
    const struct bim_particle it = bim_particle_row(page->table, row);
    const int choice = it.kind == BIM_CHOICE;
    uint32_t i;
    if (it.kind == BIM_ELEMENT) {
        tell_named(page, gap, it.p, "", it.q);
        if (!page->is_whole[it.p] && has_list(page, OF_SUBSTITUTES, row)) {
            tell(page, 0, "<");
            tell_list(page, OF_SUBSTITUTES, 0, row);
            tell(page, 0, ">");
        }
    } else if (it.kind == BIM_OCCURS) {
        if (page->is_inline[row])
            tell_row(page, gap, it.p, AN_ITEM);
        else
            tell_number(page, gap, "@", it.p);
        tell_times(page, it.q, it.r);
    } else if (!page->is_inline[row]) {
        tell(page, gap, choice ? "(|" : "(");
        tell_number(page, choice, "@", it.p);
        tell_number(page, 0, "..", it.p + it.q - 1);
        tell(page, 0, ")");
    } else {
        const int bare = among == ALONE ? it.q > 1 : among == A_BRANCH && !choice && it.q > 1;
        if (!bare)
            tell(page, gap, "(");
        for (i = 0; i < it.q; i++) {
            if (choice && i > 0)
                tell(page, 1, "|");
            tell_row(page, bare && i == 0 ? gap : i > 0, it.p + i, choice ? A_BRANCH : AN_ITEM);
        }
        if (!bare)
            tell(page, 0, ")");
    }
}

static void print_rows_at(struct page *page, uint32_t row)
{
    tell(page, 0, "lay");
    tell(page, 1, "rows");
    tell_number(page, 1, "@", row);
    tell(page, 1, "=");
    tell_row(page, 1, row, ALONE);
    end_statement(page);
}

/* TYPES */

static void tell_enumeration(struct page *page, uint32_t type, uint32_t count)
{
    uint32_t value, words = 0, last = 0;
    tell(page, 1, "enumeration");
    for (value = 0; value_names[type] != NULL && value < count; value++)
        if (value_names[type][value] != NULL) {
            words++;
            last = value;
        }
    if (words < count)
        tell_number(page, 1, "", count);
    if (words == 0)
        return;
    tell(page, 1, "{");
    for (value = 0; value <= last; value++)
        if (value_names[type][value] == NULL)
            tell(page, value > 0, "-");
        else
            tell_word(page, value > 0, value_names[type][value], 1);
    tell(page, 0, "}");
}

static void tell_simple(struct page *page, uint32_t type, struct bim_type it)
{
    if (it.content == BIM_EMPTY)
        tell(page, 1, "empty");
    else if (it.a == BIM_RANGED) {
        tell_number(page, 1, "", bim_signed(it.b));
        tell_number(page, 0, "..", bim_signed(it.c));
    } else if (it.a == BIM_ENUMERATION)
        tell_enumeration(page, type, it.b);
    else
        tell(page, 1, simple_name(it.a));
}

/* A type, and before it what is laid before it; answers the row behind all that is laid then. */
static uint32_t print_type_source(struct page *page, uint32_t type, uint32_t next)
{
    const struct bim_type it = bim_type_row(page->table, type);
    const int here = it.content == BIM_PARTICLES && it.a >= next;
    uint32_t row = next;
    while (here && row < it.a) {
        next = lay_rows(page, row);
        print_rows_at(page, row);
        row = next;
    }
    tell_type(page, 0, type);
    if (has_list(page, OF_ATTRIBUTES, type)) {
        tell(page, 1, "[");
        tell_list(page, OF_ATTRIBUTES, 0, type);
        tell(page, 0, "]");
    }
    tell(page, it.content == BIM_PARTICLES, it.content == BIM_PARTICLES ? "=" : ":");
    if (it.content != BIM_PARTICLES)
        tell_simple(page, type, it);
    else if (row == it.a) {
        next = lay_rows(page, row);
        tell_row(page, 1, row, ALONE);
    } else
        tell_number(page, 1, "@", it.a);
    end_statement(page);
    return next;
}

/* NAMES AND MARKS */

/* Finds the words that more than one number has. */
static void find_shared(struct page *page)
{
    static uint32_t sorted[BIM_MOST_NAME + 1];
    uint32_t i, there = 0;
    for (i = 0; i <= BIM_MOST_NAME; i++)
        if (names[i] != NULL)
            sorted[there++] = i;
    qsort(sorted, there, sizeof sorted[0], compare_names);
    for (i = 1; i < there; i++)
        if (strcmp(names[sorted[i - 1]], names[sorted[i]]) == 0)
            page->name_is_shared[sorted[i - 1]] = page->name_is_shared[sorted[i]] = 1;
}

/* A use of a type by a name, for the type's word. */
static void offer_word(const struct page *page, char *offered[], uint8_t refused[], uint32_t name, uint32_t type)
{
    char *word = page->name_is_shared[name] ? NULL : names[name];
    if (word == NULL || (offered[type] != NULL && strcmp(offered[type], word) != 0))
        refused[type] = 1;
    else
        offered[type] = word;
}

/* Types go by the words of the names file. One that has none there is called as the elements and attributes that have it, where these have one word and
 * no other type could be called so. */
static void find_type_words(struct page *page)
{
    char *offered[BIM_MOST_TYPES] = {NULL};
    uint8_t refused[BIM_MOST_TYPES] = {0};
    const uint8_t *table = page->table;
    const uint32_t types = bim_types(table);
    uint32_t i, other;
    for (i = 0; i < bim_attributes(table); i++)
        offer_word(page, offered, refused, bim_attribute_row(table, i).name, bim_attribute_row(table, i).type);
    for (i = 0; i < bim_particles(table); i++)
        if (bim_particle_row(table, i).kind == BIM_ELEMENT)
            offer_word(page, offered, refused, bim_particle_row(table, i).p, bim_particle_row(table, i).q);
    for (i = 0; i < bim_substitutes(table); i++)
        offer_word(page, offered, refused, bim_substitute(table, i).name, bim_substitute(table, i).type);
    for (i = 0; i < types; i++)
        if (type_names[i] != NULL)
            offered[i] = type_names[i];
    for (i = 0; i < types; i++) {
        int alone = 1;
        for (other = 0; other < types; other++)
            alone = alone && (other == i || offered[other] == NULL || offered[i] == NULL || strcmp(offered[other], offered[i]) != 0);
        page->type_words[i] = type_names[i] != NULL || (alone && !refused[i]) ? offered[i] : NULL;
    }
}

/* Finds the names of which all elements have one list of substitutes. */
static void find_whole(struct page *page)
{
    uint32_t row, name;
    int pass;
    for (pass = 0; pass < 2; pass++)
        for (row = 0; row < bim_particles(page->table); row++) {
            const struct bim_particle it = bim_particle_row(page->table, row);
            const struct bim_span span = bim_row_substitutes(page->table, row);
            if (it.kind != BIM_ELEMENT)
                continue;
            name = it.p;
            if (pass == 0) {
                page->told[name] = span;
                page->is_whole[name] = span.count > 0;
            } else if (span.first != page->told[name].first || span.count != page->told[name].count)
                page->is_whole[name] = 0;
        }
}

/* Runs of names that have words. */
static void print_names_source(struct page *page)
{
    uint32_t name;
    for (name = 0; name <= BIM_MOST_NAME; name++) {
        if (names[name] == NULL)
            continue;
        tell(page, 0, "names");
        tell_number(page, 1, "", name);
        tell(page, 0, ":");
        for (; name <= BIM_MOST_NAME && names[name] != NULL; name++)
            tell_word(page, 1, names[name], 0);
        end_statement(page);
    }
}

/* Who holds what. Party 0 is always told of; any other where it has a word or holds something. */
static void print_party(struct page *page, uint32_t party)
{
    const uint32_t types = bim_types(page->table);
    uint32_t type, held = 0;
    int all_but;
    for (type = 0; type < types; type++)
        held += (uint32_t)bim_is_held(page->table, party, type);
    if (party > 0 && held == 0 && party_names[party] == NULL)
        return;
    tell(page, 0, "party");
    tell_number(page, 1, "", party);
    if (party_names[party] != NULL)
        tell_word(page, 1, party_names[party], 0);
    tell(page, 0, ":");
    all_but = types - held < held;
    if (all_but || held == 0)
        tell(page, 1, held == 0 ? "none" : "all");
    if (all_but && held < types)
        tell(page, 1, "but");
    for (type = 0; type < types; type++)
        if (bim_is_held(page->table, party, type) != all_but)
            tell_type(page, 1, type);
    end_statement(page);
}

/* Makes one statement of the lists of all elements of a row's name: it says where they lie where any of them has to. */
static void end_whole(struct page *page, uint32_t row)
{
    const uint32_t name = bim_particle_row(page->table, row).p;
    uint32_t other;
    for (other = row + 1; other < bim_particles(page->table); other++)
        if (bim_particle_row(page->table, other).kind == BIM_ELEMENT && bim_particle_row(page->table, other).p == name)
            page->needs_place[OF_SUBSTITUTES][row] |= page->needs_place[OF_SUBSTITUTES][other];
    page->is_whole[name] = 0;
}

/* Prints the source of a right table, with the words of the names file that was read. */
static inline void print_source(FILE *to, const uint8_t *table)
{
    static struct page page;
    const uint32_t types = bim_types(table), rows = bim_particles(table);
    uint32_t i, next = 0;
    int sort, gap = 0;
    memset(&page, 0, sizeof page);
    page.to = to;
    page.table = table;
    find_shared(&page);
    find_type_words(&page);
    find_whole(&page);
    for (sort = 0; sort < SORTS; sort++)
        if (!lay_lists(&page, sort)) {
            page.lays[sort] = 1;
            lay_lists(&page, sort);
        }
    if (bim_form(table) == 2) {
        tell(&page, 0, "form");
        tell_number(&page, 1, "", 2);
        end_statement(&page);
    }
    print_names_source(&page);
    for (i = 0; i < BIM_PARTIES; i++)
        print_party(&page, i);
    putc('\n', to);
    for (sort = 0; sort < SORTS; sort++)
        print_lay(&page, sort);
    for (i = 0; i < types; i++)
        next = print_type_source(&page, i, next);
    while (next < rows) {
        const uint32_t row = next;
        next = lay_rows(&page, row);
        print_rows_at(&page, row);
    }
    for (i = 0; i < types; i++)
        if (has_list(&page, OF_CASTS, i)) {
            if (!gap++)
                putc('\n', to);
            tell(&page, 0, "cast");
            tell_type(&page, 1, i);
            tell(&page, 0, ":");
            tell_list(&page, OF_CASTS, 1, i);
            end_statement(&page);
        }
    for (i = 0, gap = 0; i < rows; i++) {
        const struct bim_particle it = bim_particle_row(table, i);
        if (it.kind != BIM_ELEMENT || !page.is_whole[it.p])
            continue;
        end_whole(&page, i);
        if (!gap++)
            putc('\n', to);
        tell(&page, 0, "substitute");
        if (own_word(&page, it.p) != NULL)
            tell_word(&page, 1, own_word(&page, it.p), 0);
        else
            tell_number(&page, 1, "", it.p);
        tell(&page, 0, ":");
        tell_list(&page, OF_SUBSTITUTES, 1, i);
        end_statement(&page);
    }
}

#endif
