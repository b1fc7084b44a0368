/* The table of a source: its statements are taken, words looked up, rows laid out and counted. What is wrong is told with its line and column, and
 * shown. */
#ifndef SOURCE_READ_H
#define SOURCE_READ_H

#include "source_take.h"

/* LOOKING UP */

static void sort_names_by_word(void)
{
    uint32_t i;
    schema.sorted_count = 0;
    for (i = 0; i <= BIM_MOST_NAME; i++)
        if (names[i] != NULL)
            schema.sorted_names[schema.sorted_count++] = i;
    qsort(schema.sorted_names, schema.sorted_count, sizeof schema.sorted_names[0], compare_names);
}

static int look_up_name(struct token token, uint32_t *name)
{
    const char *word = word_of_token(token);
    uint32_t low = 0, high = schema.sorted_count;
    *name = (uint32_t)token.number;
    if (token.kind == NUMBER_TOKEN)
        return token.number <= BIM_MOST_NAME || fault_at(token.at, "a name's number is from 0 to %d", BIM_MOST_NAME);
    while (low < high) {
        const uint32_t middle = low + (high - low) / 2;
        if (strcmp(names[schema.sorted_names[middle]], word) < 0)
            low = middle + 1;
        else
            high = middle;
    }
    if (low == schema.sorted_count || strcmp(names[schema.sorted_names[low]], word) != 0)
        return fault_at(token.at, "no names statement has this word");
    *name = schema.sorted_names[low];
    if (low + 1 < schema.sorted_count && strcmp(names[schema.sorted_names[low + 1]], word) == 0)
        return fault_at(token.at, "the word has two numbers, %lu and %lu: write the number", (unsigned long)*name,
                        (unsigned long)schema.sorted_names[low + 1]);
    return 1;
}

static int look_up_type(struct token token, uint32_t *type)
{
    const char *word = word_of_token(token);
    *type = (uint32_t)token.number;
    if (token.kind == NUMBER_TOKEN)
        return token.number < schema.type_count ||
               fault_at(token.at, "there are %lu types, counted from 0", (unsigned long)schema.type_count);
    for (*type = 0; *type < schema.type_count; ++*type)
        if (type_names[*type] != NULL && strcmp(type_names[*type], word) == 0)
            return 1;
    return fault_at(token.at, "no type has this word");
}

/* A name and its type. */
static int look_up_both(struct token name_token, struct token type_token, uint32_t *name, uint32_t *type)
{
    uint32_t other;
    if (!look_up_name(name_token, name))
        return 0;
    if (type_token.at != name_token.at)
        return look_up_type(type_token, type);
    for (other = 0; other < schema.type_count; other++)
        if (type_names[other] != NULL && strcmp(type_names[other], names[*name]) == 0) {
            *type = other;
            return 1;
        }
    return fault_at(name_token.at, "no type has this word: tell of one, or write another type behind a colon");
}

/* Types may have attributes of types with simple content that have none themselves. */
static int judge_attribute_type(const struct item *item, uint32_t type)
{
    return (schema.types[type].content == BIM_SIMPLE && schema.types[type].attributes.count == 0) ||
           fault_at(item->type.at, "an attribute's type has simple content and no attributes");
}

/* The row that an item of a list is. */
static int row_of_item(int sort, const struct item *item, uint32_t row[LAID_WIDTH])
{
    memset(row, 0, LAID_WIDTH * sizeof row[0]);
    if (sort == OF_CASTS)
        return look_up_type(item->type, &row[0]);
    row[1] = item->required;
    return look_up_both(item->name, item->type, &row[0], &row[2]) && (sort != OF_ATTRIBUTES || judge_attribute_type(item, row[2]));
}

/* Lays a list out, behind those that are; answers its span. */
static int lay_list(struct laid *laid, int sort, const struct list *list, struct bim_span *span)
{
    static uint32_t rows[MOST_LAID][LAID_WIDTH];
    const struct item *items = schema.items + list->first;
    uint32_t i;
    for (i = 0; i < list->count; i++)
        if (!row_of_item(sort, &items[i], rows[i]))
            return 0;
    span->count = (uint32_t)list->count;
    span->first = list->is_placed ? list->place : place_of(laid, rows, span->count);
    if (span->count == 0)
        return 1;
    if (span->first > laid->count)
        return fault_at(list->at, "%lu %s are laid up to here: lay those that come before", (unsigned long)laid->count, sort_names[sort]);
    for (i = 0; i < span->count; i++) {
        const uint32_t at = span->first + i;
        if (at == MOST_LAID)
            return fault_at(items[i].type.at, "more than the %d %s that a table may have", MOST_LAID, sort_names[sort]);
        if (at < laid->count && memcmp(laid->rows[at], rows[i], sizeof rows[i]) != 0)
            return fault_at(items[i].type.at, "there is another at %lu already", (unsigned long)at);
        memcpy(laid->rows[at], rows[i], sizeof rows[i]);
        if (at == laid->count)
            laid->count++;
    }
    return 1;
}

/* A list of none may say where it lies, too: inside or right behind all. */
static int judge_place(const struct laid *laid, const struct list *list)
{
    return !list->is_placed || list->place <= laid->count ||
           fault_at(list->at, "%lu is over the %lu there are", (unsigned long)list->place, (unsigned long)laid->count);
}

static struct laid laid_out[SORTS];

static int lay_attributes(void)
{
    uint32_t type;
    for (type = 0; type < schema.type_count; type++)
        if (!lay_list(&laid_out[OF_ATTRIBUTES], OF_ATTRIBUTES, &schema.types[type].attributes, &schema.types[type].attribute_rows))
            return 0;
    for (type = 0; type < schema.type_count; type++)
        if (!judge_place(&laid_out[OF_ATTRIBUTES], &schema.types[type].attributes))
            return 0;
    return 1;
}

/* None of a type's derived types is the type itself, and none stands twice. */
static int judge_casts(uint32_t type)
{
    const struct source_type *it = &schema.types[type];
    uint32_t i, other;
    for (i = 0; i < it->derived.count; i++) {
        const uint32_t derived = laid_out[OF_CASTS].rows[it->derived.first + i][0];
        const size_t at = schema.items[it->casts.first + i].type.at;
        if (derived == type)
            return fault_at(at, "a type is not cast to itself");
        for (other = 0; other < i; other++)
            if (laid_out[OF_CASTS].rows[it->derived.first + other][0] == derived)
                return fault_at(at, "the type stands here twice");
    }
    return 1;
}

static int lay_casts(void)
{
    uint32_t type;
    size_t i;
    for (i = 0; i < schema.told_count; i++) {
        struct told *told = &schema.told[i];
        if (told->sort != OF_CASTS)
            continue;
        if (!look_up_type(told->of, &told->number))
            return 0;
        if (schema.types[told->number].casts.is_there)
            return fault_at(told->of.at, "what this type may be cast to was told already");
        schema.types[told->number].casts = told->list;
    }
    for (type = 0; type < schema.type_count; type++)
        if (!lay_list(&laid_out[OF_CASTS], OF_CASTS, &schema.types[type].casts, &schema.types[type].derived) || !judge_casts(type))
            return 0;
    for (type = 0; type < schema.type_count; type++)
        if (!judge_place(&laid_out[OF_CASTS], &schema.types[type].casts))
            return 0;
    return 1;
}

/* The statement that tells of all elements of each name, from 1; 0 where there is none. */
static size_t told_of_name[BIM_MOST_NAME + 1];

static int look_up_told(void)
{
    size_t i;
    memset(told_of_name, 0, sizeof told_of_name);
    for (i = 0; i < schema.told_count; i++) {
        struct told *told = &schema.told[i];
        uint32_t row;
        if (told->sort != OF_SUBSTITUTES)
            continue;
        if (!look_up_name(told->of, &told->number))
            return 0;
        if (told_of_name[told->number] > 0)
            return fault_at(told->of.at, "what may stand for this element was told already");
        told_of_name[told->number] = i + 1;
        for (row = 0; row < schema.row_count; row++)
            if (schema.nodes[row].row.kind == BIM_ELEMENT && schema.nodes[row].row.p == told->number)
                break;
        if (row == schema.row_count)
            return fault_at(told->of.at, "no content has this element");
    }
    return 1;
}

/* What may stand for a row's element: what it says itself, or what is told of its name. */
static const struct list *substitutes_of(const struct node *node)
{
    const size_t told = node->row.kind == BIM_ELEMENT ? told_of_name[node->row.p] : 0;
    return node->substitutes.is_there || told == 0 ? &node->substitutes : &schema.told[told - 1].list;
}

static int lay_substitutes(void)
{
    uint32_t row;
    for (row = 0; row < schema.row_count; row++) {
        struct node *node = &schema.nodes[schema.node_of_row[row]];
        if (!lay_list(&laid_out[OF_SUBSTITUTES], OF_SUBSTITUTES, substitutes_of(node), &node->substitute_rows))
            return 0;
    }
    for (row = 0; row < schema.row_count; row++)
        if (!judge_place(&laid_out[OF_SUBSTITUTES], substitutes_of(&schema.nodes[row])))
            return 0;
    return 1;
}

/* Elements' names and types, and rows that stand elsewhere. */
static int look_up_rows(void)
{
    uint32_t row, type;
    for (row = 0; row < schema.row_count; row++) {
        struct node *node = &schema.nodes[schema.node_of_row[row]];
        struct bim_particle *it = &node->row;
        const uint32_t children = it->kind == BIM_OCCURS ? 1 : it->q;
        if (it->kind == BIM_ELEMENT) {
            if (!look_up_both(node->name, node->type, &it->p, &it->q))
                return 0;
            continue;
        }
        if (!node->is_elsewhere)
            continue;
        if (it->p <= row)
            return fault_at(node->at, "what stands in a row has a greater number, and this is row %lu", (unsigned long)row);
        if (it->p + children > schema.row_count)
            return fault_at(node->at, "there are %lu rows, counted from 0", (unsigned long)schema.row_count);
        if (it->kind != BIM_OCCURS && (children > BIM_MOST_CHILDREN || (it->kind == BIM_CHOICE && children < 2)))
            return fault_at(node->at, it->kind == BIM_CHOICE ? "a choice has 2 to %d rows" : "a sequence has 1 to %d rows", BIM_MOST_CHILDREN);
    }
    for (type = 0; type < schema.type_count; type++)
        if (schema.types[type].is_elsewhere && schema.types[type].a >= schema.row_count)
            return fault_at(schema.types[type].name.at, "its content is row %lu, and there are %lu rows, counted from 0",
                            (unsigned long)schema.types[type].a, (unsigned long)schema.row_count);
    return 1;
}

/* The held marks. A source that tells of no party is for one, that holds all. */
static int look_up_marks(void)
{
    uint32_t party, type, parties = 0;
    for (party = 0; party < BIM_PARTIES; party++) {
        const struct holder *holder = &schema.holders[party];
        uint8_t is_listed[BIM_MOST_TYPES] = {0};
        size_t i;
        parties += (uint32_t)holder->is_there;
        for (i = 0; i < holder->types.count; i++) {
            const struct token token = schema.items[holder->types.first + i].type;
            if (!look_up_type(token, &type))
                return 0;
            if (is_listed[type]++)
                return fault_at(token.at, "the type stands here twice");
        }
        for (type = 0; type < schema.type_count; type++)
            if (is_listed[type] != holder->all_but)
                schema.types[type].held |= 1u << party;
    }
    for (type = 0; parties == 0 && type < schema.type_count; type++)
        schema.types[type].held = 1;
    return 1;
}

static int look_up_form(void)
{
    if (schema.form == 0)
        schema.form = schema.of_form_2.length > 0 ? 2 : 1;
    return schema.form == 2 || schema.of_form_2.length == 0 || fault_at(schema.of_form_2.at, "form 1 has no casts and no substitutes");
}

static int look_up_all(void)
{
    int sort;
    sort_names_by_word();
    if (!look_up_form() || !look_up_rows() || !look_up_marks() || !look_up_told())
        return 0;
    for (sort = 0; sort < SORTS; sort++) {
        struct bim_span all;
        laid_out[sort].count = 0;
        if (!lay_list(&laid_out[sort], sort, &schema.laid[sort], &all))
            return 0;
    }
    return lay_attributes() && lay_casts() && lay_substitutes();
}

/* THE TABLE */

struct table_words {
    uint8_t *bytes;
    size_t count;
};

static void add_table_word(struct table_words *words, uint32_t word)
{
    words->bytes[words->count++] = (uint8_t)(word >> 24);
    words->bytes[words->count++] = (uint8_t)(word >> 16);
    words->bytes[words->count++] = (uint8_t)(word >> 8);
    words->bytes[words->count++] = (uint8_t)word;
}

static void add_span(struct table_words *words, struct bim_span span)
{
    add_table_word(words, span.first);
    add_table_word(words, span.count);
}

static void add_type(struct table_words *words, const struct source_type *it)
{
    add_table_word(words, it->held);
    add_table_word(words, it->content);
    add_span(words, it->attribute_rows);
    add_table_word(words, it->a);
    add_table_word(words, it->b);
    add_table_word(words, it->c);
}

static void add_row(struct table_words *words, const struct bim_particle *it)
{
    add_table_word(words, it->kind);
    add_table_word(words, it->p);
    add_table_word(words, it->q);
    add_table_word(words, it->r);
}

/* The words of all that was looked up; there is room for the largest table. */
static size_t put_table(uint8_t *table)
{
    struct table_words words;
    const struct laid *attributes = &laid_out[OF_ATTRIBUTES], *casts = &laid_out[OF_CASTS], *substitutes = &laid_out[OF_SUBSTITUTES];
    uint32_t i;
    words.bytes = table;
    words.count = 0;
    add_table_word(&words, schema.form);
    add_table_word(&words, schema.type_count);
    add_table_word(&words, attributes->count);
    add_table_word(&words, schema.row_count);
    for (i = 0; i < schema.type_count; i++)
        add_type(&words, &schema.types[i]);
    for (i = 0; i < attributes->count; i++) {
        add_table_word(&words, attributes->rows[i][0]);
        add_table_word(&words, attributes->rows[i][1]);
        add_table_word(&words, attributes->rows[i][2]);
    }
    for (i = 0; i < schema.row_count; i++)
        add_row(&words, &schema.nodes[schema.node_of_row[i]].row);
    if (schema.form == 1)
        return words.count;
    add_table_word(&words, casts->count);
    add_table_word(&words, substitutes->count);
    for (i = 0; i < casts->count; i++)
        add_table_word(&words, casts->rows[i][0]);
    for (i = 0; i < substitutes->count; i++) {
        add_table_word(&words, substitutes->rows[i][0]);
        add_table_word(&words, substitutes->rows[i][2]);
    }
    for (i = 0; i < schema.type_count; i++)
        add_span(&words, schema.types[i].derived);
    for (i = 0; i < schema.row_count; i++)
        add_span(&words, schema.nodes[schema.node_of_row[i]].substitute_rows);
    return words.count;
}

/* ALL OF IT */

/* Lets go of a source and of its words. */
static inline void forget_source(void)
{
    free(source.text);
    free(schema.items);
    free(schema.told);
    memset(&source, 0, sizeof source);
    memset(&schema, 0, sizeof schema);
    forget_names();
}

/* Makes the table of the source that was loaded, in room for the largest, and its words; says what is wrong and answers 0 where it is no good. */
static inline int compile_source(uint8_t *table, size_t *bytes)
{
    if (!take_statements() || !look_up_all())
        return 0;
    *bytes = put_table(table);
    return 1;
}

#endif
