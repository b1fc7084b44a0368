/* Says of a right table what in it is odd: what no root reaches, names that stand twice where a host goes by them, types whose elements cannot end,
 * types that several elements share, so that one mark blanks them all. None of it is wrong, and any of it may be meant. */
#include "faults.h"
#include "names.h"
#include "reach.h"

static const char usage[] = "[-n NAMES] TABLE ROOT_NAME ROOT_TYPE [ROOT_NAME ROOT_TYPE]..";
static const char help[] =
    "Says of a right table what in it is odd: rows that no root reaches; a name twice at the beginnings of a choice's branches,\n"
    "among a type's attributes, or among what may stand for an element; types that must contain themselves; types that several\n"
    "elements share, so that one mark blanks them all. None of it is wrong. NAMES has a number and its word on each line.\n"
    "Exit status:\n"
    "  0  nothing is odd\n"
    "  1  something is odd\n"
    "  2  a wrong call, or the table is wrong, or there is no such root, or a file could not be read or written\n";

static uint8_t table[BIM_MOST_TABLE + 4], area[BIM_AREA];
static unsigned long oddities;

/* Begins a line: the word at which the row stands, as `explain` has it, and which row. */
static void begin_line(uint32_t at, const char *what, uint32_t row)
{
    oddities++;
    printf("word %-4lu %s %lu", (unsigned long)at, what, (unsigned long)row);
}

/* WHAT NO ROOT REACHES */

static struct reach reached;

static void end_unreached(void) { puts(": no root reaches it"); }

/* "element 13 (rating)", "sequence". */
static void print_particle_kind(uint32_t row)
{
    const struct bim_particle it = bim_particle_row(table, row);
    fputs(particle_names[it.kind], stdout);
    if (it.kind == BIM_ELEMENT) {
        putchar(' ');
        print_name(it.p);
    }
}

static void print_unreached(void)
{
    uint32_t i;
    for (i = 0; i < bim_types(table); i++)
        if (!reached.types[i] && !reached.attribute_types[i]) {
            begin_line(bim_type_at(i), "type", i);
            end_unreached();
        }
    for (i = 0; i < bim_attributes(table); i++)
        if (!reached.attributes[i]) {
            begin_line(bim_attribute_at(table, i), "attribute", i);
            fputs(", name ", stdout);
            print_name(bim_attribute_row(table, i).name);
            end_unreached();
        }
    for (i = 0; i < bim_particles(table); i++)
        if (!reached.rows[i]) {
            begin_line(bim_particle_at(table, i), "row", i);
            fputs(", ", stdout);
            print_particle_kind(i);
            end_unreached();
        }
    for (i = 0; i < bim_derivations(table); i++)
        if (!reached.derived[i]) {
            begin_line(bim_derived_at(table, i), "derived entry", i);
            printf(", type %lu", (unsigned long)bim_derived(table, i));
            end_unreached();
        }
    for (i = 0; i < bim_substitutes(table); i++)
        if (!reached.substitutes[i]) {
            begin_line(bim_substitute_at(table, i), "substitute", i);
            fputs(", element ", stdout);
            print_name(bim_substitute(table, i).name);
            end_unreached();
        }
}

/* ONE NAME TWICE */

/* Who was the first to have a name, from 1; 0 is nobody. NAMED_TWICE has been told. */
static uint32_t owners[BIM_MOST_NAME + 1];
#define NAMED_TWICE 4294967295u

static void forget_owners(void) { memset(owners, 0, sizeof owners); }

/* Gives a name to whoever is number `which`; where somebody else has it, answers him, and at the next time nobody. */
static uint32_t own(uint32_t name, uint32_t which)
{
    const uint32_t owner = owners[name];
    if (owner == 0)
        owners[name] = which + 1;
    if (owner == 0 || owner == NAMED_TWICE || owner == which + 1)
        return 0;
    owners[name] = NAMED_TWICE;
    return owner;
}

static void print_attributes_twice(uint32_t type)
{
    const struct bim_type it = bim_type_row(table, type);
    uint32_t i, owner;
    forget_owners();
    for (i = it.first_attribute; i < it.first_attribute + it.attributes; i++)
        if ((owner = own(bim_attribute_row(table, i).name, i)) != 0) {
            begin_line(bim_type_at(type), "type", type);
            fputs(": attribute name ", stdout);
            print_name(bim_attribute_row(table, i).name);
            printf(" twice, at attributes %lu and %lu\n", (unsigned long)(owner - 1), (unsigned long)i);
        }
}

/* An element's own name and those of its substitutes. */
static void print_substitutes_twice(uint32_t row)
{
    const uint32_t count = bim_row_substitutes(table, row).count;
    uint32_t i, owner;
    if (count == 0)
        return;
    forget_owners();
    for (i = 0; i <= count; i++)
        if ((owner = own(bim_name_in_effect(table, row, i), i)) != 0) {
            begin_line(bim_row_substitutes_at(table, row), "row", row);
            fputs(", ", stdout);
            print_particle_kind(row);
            if (owner == 1)
                printf(": substitute %lu has its own name\n", (unsigned long)i);
            else {
                fputs(": the name ", stdout);
                print_name(bim_name_in_effect(table, row, i));
                printf(" twice, as substitutes %lu and %lu\n", (unsigned long)(owner - 1), (unsigned long)i);
            }
        }
}

/* Whether a row may stand for nothing at all; the children of a row are over it, and known before it. */
static uint8_t may_be_nothing[BIM_MOST_PARTICLES];

static void find_nothing(void)
{
    uint32_t row = bim_particles(table);
    while (row-- > 0) {
        const struct bim_particle it = bim_particle_row(table, row);
        uint32_t i, count = 0;
        if (it.kind == BIM_OCCURS)
            may_be_nothing[row] = it.q == 0 || may_be_nothing[it.p];
        else if (it.kind != BIM_ELEMENT) {
            for (i = it.p; i < it.p + it.q; i++)
                count += may_be_nothing[i];
            may_be_nothing[row] = it.kind == BIM_SEQUENCE ? count == it.q : count > 0;
        }
    }
}

/* The branch of a choice that is looked through; the rows in which it was; and how many runs of substitutes that it may begin with begin at each, less
 * those that end before it. */
static uint32_t choice, branch;
static uint8_t looked_through[BIM_MOST_PARTICLES];
static int32_t runs[BIM_MOST_SUBSTITUTES + 1];

/* A name that the branch may begin with; says where it is another's too. */
static void own_beginning(uint32_t name)
{
    const uint32_t owner = own(name, branch);
    if (owner == 0)
        return;
    begin_line(bim_particle_at(table, choice), "row", choice);
    fputs(", choice: element ", stdout);
    print_name(name);
    printf(" twice, at the beginning of branches %lu and %lu\n", (unsigned long)(owner - 1), (unsigned long)branch);
}

/* The names that a row may begin with; substitutes are only noted, as many rows may share them. */
static void own_beginnings(uint32_t row)
{
    const struct bim_particle it = bim_particle_row(table, row);
    uint32_t i;
    if (looked_through[row])
        return;
    looked_through[row] = 1;
    if (it.kind == BIM_ELEMENT) {
        const struct bim_span span = bim_row_substitutes(table, row);
        own_beginning(it.p);
        runs[span.first]++;
        runs[span.first + span.count]--;
    } else if (it.kind == BIM_OCCURS)
        own_beginnings(it.p);
    else
        for (i = it.p; i < it.p + it.q; i++) {
            own_beginnings(i);
            if (it.kind == BIM_SEQUENCE && !may_be_nothing[i])
                break;
        }
}

static void print_branches_twice(uint32_t row)
{
    const struct bim_particle it = bim_particle_row(table, row);
    uint32_t i;
    int32_t inside;
    if (it.kind != BIM_CHOICE)
        return;
    choice = row;
    forget_owners();
    for (branch = 0; branch < it.q; branch++) {
        memset(looked_through, 0, sizeof looked_through);
        memset(runs, 0, sizeof runs);
        own_beginnings(it.p + branch);
        for (i = 0, inside = 0; i < bim_substitutes(table); i++) {
            inside += runs[i];
            if (inside > 0)
                own_beginning(bim_substitute(table, i).name);
        }
    }
}

/* TYPES THAT CANNOT END */

#define NO_TYPE BIM_MOST_TYPES

/* Which types and rows can end: there is a list of them that is not without end. */
static uint8_t types_end[BIM_MOST_TYPES], rows_end[BIM_MOST_PARTICLES];
/* How many of the derived entries, and of the substitutes, before each can end. */
static uint32_t derived_end[BIM_MOST_DERIVATIONS + 1], substitutes_end[BIM_MOST_SUBSTITUTES + 1];

static int some_end(const uint32_t *before, struct bim_span span) { return before[span.first + span.count] > before[span.first]; }

/* Whether an element of a default type can end, by that or by one that it may be cast to. */
static int default_ends(uint32_t type, uint32_t assumed)
{
    return types_end[type] || type == assumed || some_end(derived_end, bim_type_derived(table, type));
}

static int row_ends(uint32_t row, uint32_t assumed)
{
    const struct bim_particle it = bim_particle_row(table, row);
    uint32_t i, count = 0;
    if (it.kind == BIM_ELEMENT)
        return default_ends(it.q, assumed) || some_end(substitutes_end, bim_row_substitutes(table, row));
    if (it.kind == BIM_OCCURS)
        return it.q == 0 || rows_end[it.p];
    for (i = it.p; i < it.p + it.q; i++)
        count += rows_end[i];
    return it.kind == BIM_SEQUENCE ? count == it.q : count > 0;
}

/* Finds what can end, from what is known to; elements of the assumed type inside others are taken to. */
static void find_ends(uint32_t assumed)
{
    uint32_t i, more;
    do {
        more = 0;
        for (i = 0; i < bim_derivations(table); i++) {
            const uint32_t type = bim_derived(table, i);
            derived_end[i + 1] = derived_end[i] + (types_end[type] || type == assumed);
        }
        for (i = 0; i < bim_substitutes(table); i++)
            substitutes_end[i + 1] = substitutes_end[i] + (uint32_t)default_ends(bim_substitute(table, i).type, assumed);
        for (i = bim_particles(table); i-- > 0;)
            rows_end[i] = (uint8_t)row_ends(i, assumed);
        for (i = 0; i < bim_types(table); i++) {
            const struct bim_type it = bim_type_row(table, i);
            if (!types_end[i] && (it.content != BIM_PARTICLES || rows_end[it.a])) {
                types_end[i] = 1;
                more++;
            }
        }
    } while (more > 0);
}

/* The element row, below a row that cannot end, that it must come to. */
static uint32_t endless_element(uint32_t row)
{
    for (;;) {
        const struct bim_particle it = bim_particle_row(table, row);
        if (it.kind == BIM_ELEMENT)
            return row;
        for (row = it.p; it.kind != BIM_OCCURS && rows_end[row]; row++)
            ;
    }
}

static void print_endless(void)
{
    static uint8_t types_known[BIM_MOST_TYPES], rows_known[BIM_MOST_PARTICLES];
    uint32_t type, row;
    find_ends(NO_TYPE);
    memcpy(types_known, types_end, sizeof types_end);
    memcpy(rows_known, rows_end, sizeof rows_end);
    for (type = 0; type < bim_types(table); type++) {
        if (types_known[type])
            continue;
        row = endless_element(bim_type_row(table, type).a);
        begin_line(bim_type_at(type), "type", type);
        find_ends(type);
        if (types_end[type])
            fputs(": must contain itself", stdout);
        else {
            fputs(": must contain element ", stdout);
            print_name(bim_particle_row(table, row).p);
            printf(" of type %lu", (unsigned long)bim_particle_row(table, row).q);
        }
        puts(", so that none of its elements ends");
        memcpy(types_end, types_known, sizeof types_end);
        memcpy(rows_end, rows_known, sizeof rows_end);
    }
}

/* ONE MARK FOR SEVERAL ELEMENTS */

/* Which names have which type, and which by a cast. */
static uint8_t names_of_types[2][BIM_MOST_TYPES][BIM_MOST_NAME / 8 + 1];

static void meet(struct reach *it, uint32_t name, uint32_t type, int cast)
{
    (void)it;
    names_of_types[cast][type][name / 8] |= (uint8_t)(1u << name % 8);
}

static int has_name(uint32_t type, int cast, uint32_t name) { return names_of_types[cast][type][name / 8] >> name % 8 & 1; }

/* "17 (begins), 18 (minutes)"; answers how many. */
static uint32_t print_names_of_type(uint32_t type, int cast, const char *before)
{
    uint32_t name, count = 0;
    for (name = 0; name <= BIM_MOST_NAME; name++)
        if (has_name(type, cast, name) && !(cast && has_name(type, 0, name))) {
            fputs(count++ > 0 ? ", " : before, stdout);
            print_name(name);
        }
    return count;
}

static void print_shared(uint32_t type)
{
    uint32_t name, count = 0;
    for (name = 0; name <= BIM_MOST_NAME; name++)
        count += has_name(type, 0, name) || has_name(type, 1, name);
    if (count < 2)
        return;
    begin_line(bim_type_at(type), "type", type);
    fputs(": one mark blanks ", stdout);
    count = print_names_of_type(type, 0, "the elements ");
    print_names_of_type(type, 1, count > 0 ? ", and by a cast " : "by a cast the elements ");
    putchar('\n');
}

int main(int argc, char **argv)
{
    struct call call = begin_call("lint", usage, help, argc, argv);
    const char *names_path = option_value(&call, "-n"), *path;
    uint32_t name, type, i;
    size_t bytes;
    int root;
    if (!options_end(&call) || (path = take_argument(&call)) == NULL || call.left == 0 || call.left % 2 != 0)
        return wrong_call(&call);
    for (root = 0; root < call.left; root++)
        if (!number_of(call.next[root], &name))
            return wrong_call(&call);
    if ((names_path != NULL && !read_names(names_path)) || !read_file(path, table, sizeof table, &bytes))
        return finish(STATUS_NO_GOOD);
    if (bim_check_table(table, bytes, area, sizeof area) != BIM_ACCEPTED) {
        complain_of_table(path, table, bytes, bim_area_place(area));
        return finish(STATUS_NO_GOOD);
    }
    reach_begin(&reached, table);
    reached.meet = meet;
    for (root = 0; root < call.left; root += 2) {
        number_of(call.next[root], &name);
        number_of(call.next[root + 1], &type);
        if (name > BIM_MOST_NAME || type >= bim_types(table)) {
            complain(path, 0, name > BIM_MOST_NAME ? "no root %lu of type %lu: a name is at most 65535" : "no root %lu of type %lu: there is no such type",
                     (unsigned long)name, (unsigned long)type);
            return finish(STATUS_NO_GOOD);
        }
        reach_root(&reached, name, type);
    }
    print_unreached();
    for (i = 0; i < bim_types(table); i++)
        print_attributes_twice(i);
    find_nothing();
    for (i = 0; i < bim_particles(table); i++) {
        print_branches_twice(i);
        print_substitutes_twice(i);
    }
    print_endless();
    for (i = 0; i < bim_types(table); i++)
        print_shared(i);
    if (oddities == 0)
        puts("right, and nothing is odd");
    else
        printf("right, and odd in %lu place%s\n", oddities, oddities == 1 ? "" : "s");
    return finish(oddities == 0 ? STATUS_DONE : STATUS_REFUSED);
}
