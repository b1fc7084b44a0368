/* The statements of a table's source, as they are taken one after another: what they say, with words not yet looked up. */
#ifndef SOURCE_TAKE_H
#define SOURCE_TAKE_H

#include "source_text.h"

/* A list, of so many items; where it is placed it says at which row. */
struct list {
    int is_there, is_placed;
    uint32_t place;
    size_t first, count, at;
};
/* Something of a list: an attribute, a type, a substitute. */
struct item {
    struct token name, type;
    uint32_t required;
};
struct source_type {
    struct token name;
    struct list attributes, casts;
    uint32_t content, a, b, c, held;
    int is_elsewhere; /* whether its content is a row that stands elsewhere */
    struct bim_span attribute_rows, derived;
};
/* A particle row: its children come one after the other from `child` on, by `sister`, or stand elsewhere. */
struct node {
    struct bim_particle row;
    struct token name, type;
    struct list substitutes;
    uint32_t child, sister;
    int is_elsewhere;
    struct bim_span substitute_rows;
    size_t at;
};
struct holder {
    int is_there, all_but;
    struct list types;
};
/* A cast or substitute statement: of a type, or of all elements of a name. */
struct told {
    int sort;
    struct token of;
    uint32_t number; /* of that, when it is looked up */
    struct list list;
};

/* More than all lists of the largest table have, and more cast and substitute statements than there are types and names. */
enum { MOST_ITEMS = 1 << 22, MOST_TOLD = BIM_MOST_TYPES + BIM_MOST_NAME + 1 };
enum { NO_NODE = BIM_MOST_PARTICLES };
struct schema {
    uint32_t form;          /* 0 where it was not told */
    struct token of_form_2; /* the first thing that form 1 has not */
    struct source_type types[BIM_MOST_TYPES];
    uint32_t type_count;
    struct node nodes[BIM_MOST_PARTICLES];
    uint32_t node_count, row_count;
    uint32_t node_of_row[BIM_MOST_PARTICLES];
    uint32_t depth; /* how many parentheses are open */
    struct item *items;
    size_t item_count, item_room;
    struct list laid[SORTS]; /* what lay statements told */
    struct holder holders[BIM_PARTIES];
    struct told *told;
    size_t told_count, told_room;
    uint32_t sorted_names[BIM_MOST_NAME + 1], sorted_count; /* by their words */
};
static struct schema schema;

/* LISTS */

static struct item *add_item(void)
{
    if (schema.item_count == schema.item_room) {
        schema.item_room = schema.item_room == 0 ? 1024 : 2 * schema.item_room;
        schema.items = (struct item *)realloc(schema.items, schema.item_room * sizeof *schema.items);
        if (schema.items == NULL)
            abort();
    }
    memset(&schema.items[schema.item_count], 0, sizeof *schema.items);
    return &schema.items[schema.item_count++];
}

/* Takes an element's, substitute's or attribute's name, and its type: it is called the same where no other is told. */
static int take_named(const char *what, struct token *name, struct token *type, uint32_t *required)
{
    if (!take_handle(what, name))
        return 0;
    if (required != NULL)
        *required = !is_mark('?');
    if (required != NULL && is_mark('?') && !next_token())
        return 0;
    *type = *name;
    if (is_mark(':'))
        return next_token() && take_handle("a type", type);
    return name->kind != NUMBER_TOKEN || fault_at(name->at, "a number needs its type: %lld:TYPE", (long long)name->number);
}

/* Takes a list up to its end. */
static int take_list(int sort, struct list *list)
{
    list->is_there = 1;
    list->at = source.token.at;
    list->first = schema.item_count;
    if (is_mark('@')) {
        list->is_placed = 1;
        if (!next_token() || !take_number(0, MOST_LAID, "the row that it lies at", &list->place))
            return 0;
    }
    while (is_handle()) {
        struct item *item;
        if (list->count == MOST_LAID)
            return fault_here("more than the %d %s that a table may have", MOST_LAID, sort_names[sort]);
        if (schema.item_count == MOST_ITEMS)
            return fault_here("more than all lists of a table may have");
        item = add_item();
        if (sort == OF_CASTS ? !take_handle("a type", &item->type)
                             : !take_named(sort == OF_ATTRIBUTES ? "an attribute" : "a substitute", &item->name, &item->type,
                                           sort == OF_ATTRIBUTES ? &item->required : NULL))
            return 0;
        list->count++;
    }
    return 1;
}

/* CONTENT */

static int take_branches(uint32_t *node, int in_parentheses);

static uint32_t add_node(uint32_t kind, size_t at)
{
    struct node *node;
    if (schema.node_count == BIM_MOST_PARTICLES) {
        fault_at(at, "more than the %d particle rows that a table may have", BIM_MOST_PARTICLES);
        return NO_NODE;
    }
    node = &schema.nodes[schema.node_count];
    memset(node, 0, sizeof *node);
    node->row.kind = kind;
    node->child = node->sister = NO_NODE;
    node->at = at;
    return schema.node_count++;
}

static void note_form_2(struct token token)
{
    if (schema.of_form_2.length == 0)
        schema.of_form_2 = token;
}

static int take_element(uint32_t *made)
{
    struct node *node;
    *made = add_node(BIM_ELEMENT, source.token.at);
    if (*made == NO_NODE)
        return 0;
    node = &schema.nodes[*made];
    if (!take_named("an element", &node->name, &node->type, NULL))
        return 0;
    if (!is_mark('<'))
        return 1;
    note_form_2(source.token);
    return next_token() && take_list(OF_SUBSTITUTES, &node->substitutes) && take_mark('>', "behind the substitutes");
}

/* Takes the rows of a sequence or choice that stand elsewhere: @3..5. */
static int take_elsewhere(struct node *node)
{
    uint32_t last;
    node->is_elsewhere = 1;
    if (!take_mark('@', "before rows that stand elsewhere") || !take_number(0, BIM_MOST_PARTICLES - 1, "a row", &node->row.p))
        return 0;
    if (source.token.kind != DOTS_TOKEN)
        return fault_here("rows that stand elsewhere are told from the first to the last: @%lu..LAST", (unsigned long)node->row.p);
    if (!next_token() || !take_number(node->row.p, BIM_MOST_PARTICLES - 1, "the last row", &last))
        return 0;
    node->row.q = last - node->row.p + 1;
    return take_mark(')', "behind the rows");
}

/* Whether rows that stand elsewhere come next, @3..5, and not one that comes so often, @3?. */
static int begins_range(void)
{
    const char *text = source.text + source.token.at + 1;
    if (!is_mark('@'))
        return 0;
    text += strspn(text, " \t\r\n");
    text += strspn(text, "0123456789");
    text += strspn(text, " \t\r\n");
    return text[0] == '.' && text[1] == '.';
}

/* Takes what is in parentheses: always one row, a choice where there is a | in it. */
static int take_group(uint32_t *made)
{
    const size_t at = source.token.at;
    int choice;
    /* Each makes a row, when it is closed. */
    if (schema.depth == BIM_MOST_PARTICLES)
        return fault_here("more than the %d particle rows that a table may have", BIM_MOST_PARTICLES);
    if (!next_token())
        return 0;
    choice = is_mark('|');
    if (choice && !next_token())
        return 0;
    if (!choice && !begins_range()) {
        schema.depth++;
        if (!take_branches(made, 1))
            return 0;
        schema.depth--;
        return take_mark(')', "behind what is in parentheses");
    }
    *made = add_node(choice ? BIM_CHOICE : BIM_SEQUENCE, at);
    return *made != NO_NODE && take_elsewhere(&schema.nodes[*made]);
}

/* Takes how often something comes, once or more: each makes a row around the one before. */
static int take_times(uint32_t *made)
{
    while (is_mark('?') || is_mark('{')) {
        const uint32_t inner = *made, outer = add_node(BIM_OCCURS, source.token.at);
        struct bim_particle *row;
        if (outer == NO_NODE)
            return 0;
        row = &schema.nodes[outer].row;
        schema.nodes[outer].child = inner;
        row->q = 0;
        row->r = 1;
        *made = outer;
        if (is_mark('?')) {
            if (!next_token())
                return 0;
            continue;
        }
        if (!next_token() || !take_number(0, BIM_MOST_TIMES, "how often at least", &row->q))
            return 0;
        row->r = row->q;
        if (is_mark(',')) {
            row->r = BIM_UNBOUNDED;
            if (!next_token() || (!is_mark('}') && !take_number(row->q, BIM_MOST_TIMES, "how often at most", &row->r)))
                return 0;
        }
        if (row->r == 0)
            return fault_at(schema.nodes[outer].at, "what comes at most 0 times is left out");
        if (!take_mark('}', "behind how often"))
            return 0;
    }
    return 1;
}

/* Takes one item: an element, a group, or a row that stands elsewhere and comes so often. */
static int take_item(uint32_t *made)
{
    if (is_mark('@')) {
        const size_t at = source.token.at;
        uint32_t row, outer;
        if (!next_token() || !take_number(0, BIM_MOST_PARTICLES - 1, "a row", &row))
            return 0;
        if (!is_mark('?') && !is_mark('{'))
            return fault_at(at, "here a row that stands elsewhere has how often it comes behind it: @%lu?, @%lu{2}", (unsigned long)row,
                            (unsigned long)row);
        *made = NO_NODE;
        outer = schema.node_count;
        if (!take_times(made))
            return 0;
        schema.nodes[outer].is_elsewhere = 1;
        schema.nodes[outer].row.p = row;
        schema.nodes[outer].at = at;
        return 1;
    }
    if (is_mark('(') ? !take_group(made) : !take_element(made))
        return 0;
    return take_times(made);
}

static int begins_item(void) { return is_handle() || is_mark('(') || is_mark('@'); }

/* Hangs a row behind the others of its parent. */
static int add_child(uint32_t parent, uint32_t *last, uint32_t child)
{
    struct node *node = &schema.nodes[parent];
    if (node->row.q == BIM_MOST_CHILDREN)
        return fault_at(schema.nodes[child].at, "more than the %d that may stand in one row", BIM_MOST_CHILDREN);
    if (*last == NO_NODE)
        node->child = child;
    else
        schema.nodes[*last].sister = child;
    *last = child;
    node->row.q++;
    return 1;
}

/* Takes items one after another: a sequence where there are several. */
static int take_items(uint32_t *made, int *several)
{
    const size_t at = source.token.at;
    uint32_t last = NO_NODE, item, sequence;
    if (!begins_item())
        return fault_here("an element is missing here");
    if (!take_item(&item))
        return 0;
    *made = item;
    *several = begins_item();
    if (!*several)
        return 1;
    sequence = *made = add_node(BIM_SEQUENCE, at);
    if (sequence == NO_NODE || !add_child(sequence, &last, item))
        return 0;
    while (begins_item())
        if (!take_item(&item) || !add_child(sequence, &last, item))
            return 0;
    return 1;
}

/* Takes the branches of a choice. Where there is but one it is no choice; in parentheses it is then a sequence, if only of one. */
static int take_branches(uint32_t *made, int in_parentheses)
{
    const size_t at = source.token.at;
    uint32_t last = NO_NODE, branch, outer;
    int several;
    if (!take_items(&branch, &several))
        return 0;
    *made = branch;
    if (!is_mark('|') && (several || !in_parentheses))
        return 1;
    outer = *made = add_node(is_mark('|') ? BIM_CHOICE : BIM_SEQUENCE, at);
    if (outer == NO_NODE || !add_child(outer, &last, branch))
        return 0;
    while (is_mark('|'))
        if (!next_token() || !take_items(&branch, &several) || !add_child(outer, &last, branch))
            return 0;
    return 1;
}

/* Gives the rows of a tree their numbers: the children of a row stand behind all rows that are there when its turn comes. Answers the first. */
static uint32_t lay_tree(uint32_t root)
{
    const uint32_t first = schema.row_count;
    uint32_t row, child;
    schema.node_of_row[schema.row_count++] = root;
    for (row = first; row < schema.row_count; row++) {
        struct node *node = &schema.nodes[schema.node_of_row[row]];
        if (node->row.kind == BIM_ELEMENT || node->is_elsewhere)
            continue;
        node->row.p = schema.row_count;
        for (child = node->child; child != NO_NODE; child = schema.nodes[child].sister)
            schema.node_of_row[schema.row_count++] = child;
    }
    return first;
}

/* STATEMENTS */

/* Keeps a word that a statement gives a number, if it has room in a names file. */
static int give_word(const char *what, uint32_t number, struct token token, char **word)
{
    const char *given = word_of_token(token);
    if (!fits_line(what, number, strlen(given)))
        return fault_at(token.at, "the word is too long: its line in a names file would pass %d bytes", MOST_NAMES_LINE);
    *word = copy_word(given, strlen(given));
    return 1;
}

static int take_form(void)
{
    if (schema.form != 0)
        return fault_here("the form was told already");
    return take_number(1, 2, "a form", &schema.form);
}

/* names 10: programme title .. */
static int take_names(void)
{
    uint32_t number;
    if (!take_number(0, BIM_MOST_NAME, "a name's number", &number) || !take_mark(':', "behind the number of the first"))
        return 0;
    if (!is_handle())
        return fault_here("a word is missing here");
    for (; is_handle(); number++) {
        if (source.token.kind != WORD_TOKEN && source.token.kind != QUOTED_TOKEN)
            return fault_here("a word that begins with a digit stands in quotes");
        if (number > BIM_MOST_NAME)
            return fault_here("its number would be over %d", BIM_MOST_NAME);
        if (names[number] != NULL)
            return fault_here("%lu has its word on line %lu", (unsigned long)number, named_on[number]);
        if (!give_word("", number, source.token, &names[number]))
            return 0;
        named_on[number] = line_of(source.token.at);
        if (!next_token())
            return 0;
    }
    return 1;
}

/* party 0 display: all but rating */
static int take_party(void)
{
    uint32_t party;
    struct holder *holder;
    const size_t at = source.token.at;
    if (!take_number(0, BIM_PARTIES - 1, "a party", &party))
        return 0;
    holder = &schema.holders[party];
    if (holder->is_there)
        return fault_at(at, "party %lu was told already", (unsigned long)party);
    holder->is_there = 1;
    if (source.token.kind == MIXED_TOKEN || source.token.kind == NUMBER_TOKEN)
        return fault_here("a word that begins with a digit stands in quotes");
    if (is_handle() && (!give_word("party ", party, source.token, &party_names[party]) || !next_token()))
        return 0;
    if (!take_mark(':', "before what the party holds"))
        return 0;
    if (is_keyword("none"))
        return next_token();
    holder->all_but = is_keyword("all");
    if (holder->all_but) {
        if (!next_token() || !is_keyword("but"))
            return source.token.kind == END_TOKEN || fault_here("behind all stands nothing, or but and types");
        if (!next_token())
            return 0;
    }
    if (!is_handle())
        return fault_here("types are missing here, or all, or none");
    return take_list(OF_CASTS, &holder->types);
}

/* enumeration 5 {green amber red} */
static int take_enumeration(uint32_t type, struct source_type *it)
{
    uint32_t counted = 0, one, other;
    size_t first = schema.item_count;
    const int is_told = source.token.kind == NUMBER_TOKEN;
    if (is_told && !take_number(1, BIM_MOST_VALUES, "the number of values", &it->b))
        return 0;
    if (!is_mark('{'))
        return is_told || fault_here("the number of values is missing here, or their words: {one two}");
    if (!next_token())
        return 0;
    for (; is_handle() || is_mark('-'); counted++) {
        if (counted == (is_told ? it->b : BIM_MOST_VALUES))
            return fault_here("more than the %lu values", (unsigned long)counted);
        add_item()->name = source.token;
        if (!is_mark('-')) {
            char what[32];
            snprintf(what, sizeof what, "value %lu ", (unsigned long)type);
            if (!give_word(what, counted, source.token, value_name(type, counted)))
                return 0;
        }
        if (!next_token())
            return 0;
    }
    if (counted == 0)
        return fault_here("a word is missing here");
    if (!is_told)
        it->b = counted;
    if (value_names[type] != NULL && repeated_word(value_names[type], counted, &one, &other))
        return fault_at(schema.items[first + other].name.at, "the word stands here twice, as %lu and as %lu", (unsigned long)one,
                        (unsigned long)other);
    schema.item_count = first;
    return take_mark('}', "behind the words");
}

/* What is behind a type's colon. */
static int take_simple(uint32_t type, struct source_type *it)
{
    static const uint32_t kinds[] = {BIM_BOOLEAN, BIM_UNSIGNED, BIM_SIGNED, BIM_TEXT, BIM_FLOAT, BIM_DATE_TIME, BIM_DATE};
    size_t i;
    it->content = BIM_SIMPLE;
    if (source.token.kind == NUMBER_TOKEN) {
        int64_t least;
        it->a = BIM_RANGED;
        least = source.token.number;
        if (!take_number(-2147483648LL, 2147483647LL, "a range's end", &it->b))
            return 0;
        if (source.token.kind != DOTS_TOKEN)
            return fault_here(".. is missing here: a range has two ends");
        return next_token() && take_number(least, 2147483647LL, "a range's other end", &it->c);
    }
    for (i = 0; i < sizeof kinds / sizeof kinds[0]; i++)
        if (is_keyword(simple_name(kinds[i]))) {
            it->a = kinds[i];
            return next_token();
        }
    if (is_keyword(simple_name(BIM_ENUMERATION))) {
        it->a = BIM_ENUMERATION;
        return next_token() && take_enumeration(type, it);
    }
    if (!is_keyword("empty"))
        return fault_here("no simple kind: empty, boolean, unsigned, signed, text, float, dateTime, date, enumeration, or a range as 0..18");
    it->content = BIM_EMPTY;
    return next_token();
}

/* What is behind a type's =. */
static int take_content(struct source_type *it)
{
    uint32_t root;
    it->content = BIM_PARTICLES;
    if (is_mark('@')) {
        const size_t at = source.at;
        const struct token token = source.token;
        if (!next_token() || !take_number(0, BIM_MOST_PARTICLES - 1, "a row", &it->a))
            return 0;
        it->is_elsewhere = source.token.kind == END_TOKEN;
        if (it->is_elsewhere)
            return 1;
        source.at = at;
        source.token = token;
    }
    if (!take_branches(&root, 0))
        return 0;
    it->a = lay_tree(root);
    return 1;
}

/* rating [scheme]: 0..18, or programme = title genre? */
static int take_type(struct token name)
{
    const uint32_t type = schema.type_count;
    struct source_type *it;
    uint32_t other;
    if (type == BIM_MOST_TYPES)
        return fault_at(name.at, "more than the %d types that a table may have", BIM_MOST_TYPES);
    it = &schema.types[type];
    it->name = name;
    if (name.kind == NUMBER_TOKEN && name.number != type)
        return fault_at(name.at, "this is type %lu: types are counted from 0", (unsigned long)type);
    if (name.kind != NUMBER_TOKEN) {
        for (other = 0; other < type; other++)
            if (type_names[other] != NULL && strcmp(type_names[other], word_of_token(name)) == 0)
                return fault_at(name.at, "type %lu is called so, on line %lu", (unsigned long)other, line_of(schema.types[other].name.at));
        if (!give_word("type ", type, name, &type_names[type]))
            return 0;
    }
    schema.type_count++;
    if (is_mark('[')) {
        if (!next_token() || !take_list(OF_ATTRIBUTES, &it->attributes) || !take_mark(']', "behind the attributes"))
            return 0;
    }
    if (is_mark(':'))
        return next_token() && take_simple(type, it);
    return take_mark('=', "or : before a simple kind, or [ before attributes") && take_content(it);
}

/* cast sound: label age, and substitute rating: family label */
static int take_told(int sort, struct token keyword)
{
    struct told *told;
    note_form_2(keyword);
    if (schema.told_count == MOST_TOLD)
        return fault_at(keyword.at, "more of these statements than a table has types and names");
    if (schema.told_count == schema.told_room) {
        schema.told_room = schema.told_room == 0 ? 64 : 2 * schema.told_room;
        schema.told = (struct told *)realloc(schema.told, schema.told_room * sizeof *schema.told);
        if (schema.told == NULL)
            abort();
    }
    told = &schema.told[schema.told_count++];
    memset(told, 0, sizeof *told);
    told->sort = sort;
    if (!take_handle(sort == OF_CASTS ? "a type" : "an element", &told->of) ||
        !take_mark(':', sort == OF_CASTS ? "before the types that it may be cast to" : "before what may stand for it"))
        return 0;
    if (!is_mark('@') && !is_handle())
        return fault_here(sort == OF_CASTS ? "a type is missing here" : "an element is missing here");
    return take_list(sort, &told->list);
}

/* lay rows @3 = .., lay attributes: .., lay casts: .., lay substitutes: .. */
static int take_lay(struct token keyword)
{
    int sort;
    uint32_t row, root;
    if (is_keyword("rows")) {
        size_t at;
        if (!next_token() || !take_mark('@', "before the number of the first"))
            return 0;
        at = source.token.at;
        if (!take_number(0, BIM_MOST_PARTICLES - 1, "a row", &row))
            return 0;
        if (row != schema.row_count)
            return fault_at(at, "this is row %lu", (unsigned long)schema.row_count);
        if (!take_mark('=', "before the rows") || !take_branches(&root, 0))
            return 0;
        lay_tree(root);
        return 1;
    }
    for (sort = 0; sort < SORTS; sort++)
        if (is_keyword(sort_names[sort]))
            break;
    if (sort == SORTS)
        return fault_here("what is laid are rows, attributes, casts or substitutes");
    if (schema.laid[sort].is_there)
        return fault_here("these were laid already");
    if (sort != OF_ATTRIBUTES)
        note_form_2(keyword);
    if (!next_token() || !take_mark(':', "before what is laid") || !take_list(sort, &schema.laid[sort]))
        return 0;
    return !schema.laid[sort].is_placed || fault_at(schema.laid[sort].at, "what is laid lies at the front");
}

static int take_statement(void)
{
    struct token first;
    const int is_form = is_keyword("form"), is_names = is_keyword("names"), is_party = is_keyword("party"), is_lay = is_keyword("lay"),
              is_cast = is_keyword("cast"), is_substitute = is_keyword("substitute");
    int good;
    if (!is_handle())
        return fault_here("a statement begins with a word, or a type with its number");
    if (!take_handle("a type", &first))
        return 0;
    if (!is_handle())
        good = take_type(first);
    else if (is_form)
        good = take_form();
    else if (is_names)
        good = take_names();
    else if (is_party)
        good = take_party();
    else if (is_lay)
        good = take_lay(first);
    else if (is_cast || is_substitute)
        good = take_told(is_cast ? OF_CASTS : OF_SUBSTITUTES, first);
    else
        return fault_here("a type's name has :, = or [ behind it; other statements begin with form, names, party, cast, substitute or lay");
    return good && (source.token.kind == END_TOKEN || fault_here("the statement should end here"));
}

/* Takes all statements. */
static int take_statements(void)
{
    for (;;) {
        do
            source.at += strspn(source.text + source.at, " \t\r\n");
        while (source.text[source.at] == '#' && (source.at += strcspn(source.text + source.at, "\n")) > 0);
        if (source.text[source.at] == '\0')
            break;
        if (source.at > 0 && source.text[source.at - 1] != '\n')
            return fault_at(source.at, "a line that begins with a gap goes on with the statement above it, and there is none");
        if (!next_token() || !take_statement())
            return 0;
    }
    return schema.type_count > 0 || complain(called(source.path), 0, "no types");
}

#endif
