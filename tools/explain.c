/* Says of a table file whether it is right; of a wrong one which word is at fault, and why; of a right one what each row is, or its source. */
#include "source_print.h"

static const char usage[] = "[--source] [-n NAMES] TABLE";
static const char help[] =
    "Says of a table whether it is right; of a wrong one which word is at fault, and why; of a right one what each row is,\n"
    "or with --source its source, of which the program table makes the same table again.\n"
    "NAMES has a number and its word on each line.\n"
    "Exit status:\n"
    "  0  right\n"
    "  1  wrong\n"
    "  2  a wrong call, or a file could not be read or written\n";

static uint8_t table[BIM_MOST_TABLE + 4], area[BIM_AREA];

/* ", 1 type", ", 2 types". */
static void print_count(const char *one, const char *more, uint32_t count)
{
    printf(", %lu %s", (unsigned long)count, count == 1 ? one : more);
}

/* "row 3", "rows 1 to 2". */
static void print_rows(const char *what, uint32_t first, uint32_t count)
{
    if (count == 1)
        printf("%s %lu", what, (unsigned long)first);
    else
        printf("%ss %lu to %lu", what, (unsigned long)first, (unsigned long)(first + count - 1));
}

static void print_content(struct bim_type type)
{
    if (type.content == BIM_EMPTY)
        printf("empty");
    else if (type.content == BIM_PARTICLES)
        printf("particles from row %lu", (unsigned long)type.a);
    else if (type.a == BIM_RANGED)
        printf("ranged %ld to %ld", (long)bim_signed(type.b), (long)bim_signed(type.c));
    else if (type.a == BIM_ENUMERATION)
        printf("enumeration of %lu", (unsigned long)type.b);
    else
        printf("%s", simple_name(type.a));
}

/* Who holds a type. */
static void print_holders(uint32_t held)
{
    uint32_t party, count = 0, said = 0;
    for (party = 0; party < BIM_PARTIES; party++)
        count += held >> party & 1;
    if (count == 0 || count == BIM_PARTIES) {
        fputs(count == 0 ? "NOT HELD" : "held by every party", stdout);
        return;
    }
    fputs(count == 1 ? "held by party" : "held by parties", stdout);
    for (party = 0; party < BIM_PARTIES; party++)
        if (held >> party & 1)
            printf("%s%lu", ++said == 1 ? " " : said == count ? " and " : ", ", (unsigned long)party);
}

static void print_type(uint32_t row)
{
    const struct bim_type type = bim_type_row(table, row);
    printf("word %-4lu type %lu", (unsigned long)bim_type_at(row), (unsigned long)row);
    if (type_names[row] != NULL)
        printf(" (%s)", type_names[row]);
    printf(": ");
    print_holders(type.held);
    printf(", ");
    print_content(type);
    if (type.attributes > 0) {
        printf(", ");
        print_rows("attribute", type.first_attribute, type.attributes);
    }
    putchar('\n');
}

static void print_attribute(uint32_t row)
{
    const struct bim_attribute attribute = bim_attribute_row(table, row);
    printf("word %-4lu attribute %lu: name ", (unsigned long)bim_attribute_at(table, row), (unsigned long)row);
    print_name(attribute.name);
    printf(", %s, type %lu, ", attribute.required ? "required" : "optional", (unsigned long)attribute.type);
    print_content(bim_type_row(table, attribute.type));
    putchar('\n');
}

static void print_particle(uint32_t row)
{
    const struct bim_particle it = bim_particle_row(table, row);
    printf("word %-4lu row %lu: ", (unsigned long)bim_particle_at(table, row), (unsigned long)row);
    switch (it.kind) {
    case BIM_ELEMENT:
        printf("element ");
        print_name(it.p);
        printf(" of type %lu", (unsigned long)it.q);
        break;
    case BIM_SEQUENCE:
    case BIM_CHOICE:
        printf(it.kind == BIM_SEQUENCE ? "sequence of " : "choice of ");
        print_rows("row", it.p, it.q);
        break;
    default:
        printf("row %lu, %lu ", (unsigned long)it.p, (unsigned long)it.q);
        if (it.r == BIM_UNBOUNDED)
            printf("or more times");
        else
            printf("to %lu times", (unsigned long)it.r);
    }
    putchar('\n');
}

static void print_derived_entry(uint32_t i)
{
    printf("word %-4lu derived entry %lu: type %lu, ", (unsigned long)bim_derived_at(table, i), (unsigned long)i,
           (unsigned long)bim_derived(table, i));
    print_content(bim_type_row(table, bim_derived(table, i)));
    putchar('\n');
}

static void print_substitute(uint32_t i)
{
    const struct bim_substitute it = bim_substitute(table, i);
    printf("word %-4lu substitute %lu: element ", (unsigned long)bim_substitute_at(table, i), (unsigned long)i);
    print_name(it.name);
    printf(" of type %lu\n", (unsigned long)it.type);
}

/* The types that a type's elements may be cast to, in the order of their codes; nothing where there is none. */
static void print_type_derived(uint32_t type)
{
    const struct bim_span span = bim_type_derived(table, type);
    uint32_t i;
    if (span.count == 0)
        return;
    printf("word %-4lu type %lu may be cast to type%s", (unsigned long)bim_type_derived_at(table, type), (unsigned long)type,
           span.count == 1 ? "" : "s");
    for (i = 0; i < span.count; i++)
        printf("%s %lu", i == 0 ? "" : ",", (unsigned long)bim_derived(table, span.first + i));
    putchar('\n');
}

/* The elements that may stand for a row's, in the order of their codes; nothing where there is none. */
static void print_row_substitutes(uint32_t row)
{
    const struct bim_span span = bim_row_substitutes(table, row);
    uint32_t i;
    if (span.count == 0)
        return;
    printf("word %-4lu row %lu, element ", (unsigned long)bim_row_substitutes_at(table, row), (unsigned long)row);
    print_name(bim_particle_row(table, row).p);
    printf(", may be substituted by");
    for (i = 0; i < span.count; i++) {
        fputs(i == 0 ? " " : ", ", stdout);
        print_name(bim_substitute(table, span.first + i).name);
    }
    putchar('\n');
}

int main(int argc, char **argv)
{
    struct call call = begin_call("explain", usage, help, argc, argv);
    int in_source = option(&call, "--source");
    const char *names_path = option_value(&call, "-n");
    size_t bytes;
    uint32_t row;
    in_source = option(&call, "--source") || in_source;
    if (!options_end(&call) || call.left != 1)
        return wrong_call(&call);
    if ((names_path != NULL && !read_names(names_path)) || !read_file(call.next[0], table, sizeof table, &bytes))
        return finish(STATUS_NO_GOOD);
    if (bim_check_table(table, bytes, area, sizeof area) != BIM_ACCEPTED) {
        struct sentence why;
        const uint32_t place = bim_area_place(area);
        if (!fault_in_words(&why, table, bytes, place))
            say(&why, "at fault");
        printf("wrong at word %lu: %s\n", (unsigned long)place, why.words);
        return finish(STATUS_REFUSED);
    }
    if (in_source) {
        print_source(stdout, table);
        return finish(STATUS_DONE);
    }
    printf("right: %lu words", (unsigned long)(bytes / 4));
    print_count("type", "types", bim_types(table));
    print_count("attribute row", "attribute rows", bim_attributes(table));
    print_count("particle row", "particle rows", bim_particles(table));
    if (bim_form(table) == 2) {
        print_count("derived entry", "derived entries", bim_derivations(table));
        print_count("substitute", "substitutes", bim_substitutes(table));
    }
    putchar('\n');
    for (row = 0; row < bim_types(table); row++)
        print_type(row);
    for (row = 0; row < bim_attributes(table); row++)
        print_attribute(row);
    for (row = 0; row < bim_particles(table); row++)
        print_particle(row);
    for (row = 0; row < bim_derivations(table); row++)
        print_derived_entry(row);
    for (row = 0; row < bim_substitutes(table); row++)
        print_substitute(row);
    for (row = 0; row < bim_types(table); row++)
        print_type_derived(row);
    for (row = 0; row < bim_particles(table); row++)
        print_row_substitutes(row);
    return finish(STATUS_DONE);
}
