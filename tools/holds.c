/* Compares two table files by their held marks, party by party. A mark bears on every element whose effective type it is: those of the
 * type, substitutes among them, and those that may be cast to it. What differs for a party is said of that party; where nothing does for any,
 * one line says so. Where more than marks differs, each word that does is named, with its row and element. */
#include "faults.h"
#include "names.h"

static const char usage[] = "[-n NAMES] ONE OTHER";
static const char help[] =
    "Compares two tables by their held marks, party by party, and names the elements that a mark bears on. Of tables of\n"
    "different schemas it names the words that differ, with their rows and elements.\n"
    "NAMES has a number and its word on each line.\n"
    "Exit status:\n"
    "  0  the same marks\n"
    "  1  the marks differ, and nothing else does\n"
    "  2  a wrong call, or a table is wrong, or a file could not be read or written\n"
    "  3  more than the marks differs: not tables of one schema\n";
enum { STATUS_NOT_ONE_SCHEMA = 3 };

static uint8_t tables[2][BIM_MOST_TABLE + 4], area[BIM_AREA];
static size_t bytes[2];

/* Reads and judges a table. */
static int take_table(const char *path, int which)
{
    if (!read_file(path, tables[which], sizeof tables[which], &bytes[which]))
        return 0;
    return bim_check_table(tables[which], bytes[which], area, sizeof area) == BIM_ACCEPTED ||
           complain_of_table(path, tables[which], bytes[which], bim_area_place(area));
}

/* Whether an element of the one type may be cast to the other. */
static int may_be_cast(uint32_t from, uint32_t to)
{
    const struct bim_span span = bim_type_derived(tables[0], from);
    uint32_t i;
    for (i = 0; i < span.count; i++)
        if (bim_derived(tables[0], span.first + i) == to)
            return 1;
    return 0;
}

/* The elements that are of a type, by name, as the curator knows them, or those that may be cast to it: of each row its own element and
 * the substitutes that may stand for it. */
static void print_elements(uint32_t type, int cast)
{
    uint32_t row, substitute, count = 0;
    for (row = 0; row < bim_particles(tables[0]); row++) {
        const struct bim_particle it = bim_particle_row(tables[0], row);
        const struct bim_span span = bim_row_substitutes(tables[0], row);
        for (substitute = 0; it.kind == BIM_ELEMENT && substitute <= span.count; substitute++) {
            const uint32_t own = substitute == 0 ? it.q : bim_substitute(tables[0], span.first + substitute - 1).type;
            if (cast ? may_be_cast(own, type) : own == type)
                printf("%s%s", count++ > 0 ? ", " : cast ? ", by a cast of element " : ", of element ",
                       name_of(bim_name_in_effect(tables[0], row, substitute)));
        }
    }
}

/* The types that a party holds by one table and not by the other; answers how many. */
static uint32_t print_held(char **paths, uint32_t party, int holder)
{
    uint32_t type, count = 0;
    for (type = 0; type < bim_types(tables[0]); type++)
        if (bim_is_held(tables[holder], party, type) && !bim_is_held(tables[1 - holder], party, type)) {
            printf("party %lu: type %lu, held in ", (unsigned long)party, (unsigned long)type);
            put_path(stdout, paths[holder]);
            fputs(" alone", stdout);
            print_elements(type, 0);
            print_elements(type, 1);
            putchar('\n');
            count++;
        }
    return count;
}

/* What differs for a party; answers whether anything does. */
static int compare_marks(char **paths, uint32_t party)
{
    const uint32_t more = print_held(paths, party, 0), less = print_held(paths, party, 1);
    if (more > 0 && less > 0)
        printf("party %lu: neither holds all that the other holds\n", (unsigned long)party);
    else if (more + less > 0) {
        printf("party %lu: ", (unsigned long)party);
        put_path(stdout, paths[more > 0 ? 0 : 1]);
        fputs(" holds all that ", stdout);
        put_path(stdout, paths[more > 0 ? 1 : 0]);
        printf(" holds, and %lu more\n", (unsigned long)(more + less));
    }
    return more + less > 0;
}

/* WHERE SCHEMAS DIFFER */

/* Whether a row stands for a part of what this one does, within its own element; rows that were looked through are marked. */
static int stands_in(uint32_t row, uint32_t whole, uint8_t *looked_through)
{
    const struct bim_particle it = bim_particle_row(tables[0], whole);
    const uint32_t children = it.kind == BIM_ELEMENT ? 0 : it.kind == BIM_OCCURS ? 1 : it.q;
    uint32_t i;
    if (row == whole)
        return 1;
    if (looked_through[whole])
        return 0;
    looked_through[whole] = 1;
    for (i = 0; i < children; i++)
        if (stands_in(row, it.p + i, looked_through))
            return 1;
    return 0;
}

/* The types in which a row of the first table stands, or an attribute row, and the elements that are of them. */
static void print_types_with(uint32_t row, int attribute)
{
    uint32_t type, count = 0;
    for (type = 0; type < bim_types(tables[0]); type++) {
        const struct bim_type it = bim_type_row(tables[0], type);
        uint8_t looked_through[BIM_MOST_PARTICLES] = {0};
        if (attribute ? row >= it.first_attribute && row < it.first_attribute + it.attributes
                      : it.content == BIM_PARTICLES && stands_in(row, it.a, looked_through)) {
            printf("%s%lu", count++ > 0 ? " and type " : ", in type ", (unsigned long)type);
            print_elements(type, 0);
            print_elements(type, 1);
        }
    }
}

/* "row 7, element rating". */
static void print_row(uint32_t row)
{
    const struct bim_particle it = bim_particle_row(tables[0], row);
    printf("row %lu, %s", (unsigned long)row, particle_names[it.kind]);
    if (it.kind == BIM_ELEMENT)
        printf(" %s", name_of(it.p));
}

/* What a word is, which is all that is said of it but its value. */
enum meaning { A_NUMBER, A_NAME, A_CONTENT, A_KIND, A_SIMPLE_KIND, A_SIGNED };

static void print_value(uint32_t word, enum meaning meaning)
{
    static const char *const contents[] = {"empty", "simple", "particles"};
    switch (meaning) {
    case A_NAME: fputs(name_of(word), stdout); break;
    case A_CONTENT: fputs(contents[word], stdout); break;
    case A_KIND: fputs(particle_names[word], stdout); break;
    case A_SIMPLE_KIND: fputs(simple_name(word), stdout); break;
    case A_SIGNED: printf("%ld", (long)bim_signed(word)); break;
    default: printf("%lu", (unsigned long)word);
    }
}

static enum meaning print_type_word(uint32_t type, uint32_t i)
{
    const struct bim_type it = bim_type_row(tables[0], type);
    printf("type %lu", (unsigned long)type);
    print_elements(type, 0);
    print_elements(type, 1);
    printf(", %s", type_words[i]);
    if (i == 1)
        return A_CONTENT;
    if (it.content == BIM_SIMPLE && i == 4)
        return A_SIMPLE_KIND;
    return it.content == BIM_SIMPLE && it.a == BIM_RANGED && i > 4 ? A_SIGNED : A_NUMBER;
}

/* Where a word stands and what of its row it is; answers what it means. */
static enum meaning print_place(uint32_t word)
{
    static const char *const header[] = {"first word", "types", "attribute rows", "particle rows"};
    const uint8_t *table = tables[0];
    uint32_t at, i;
    if (word < 4) {
        printf("header, %s", header[word]);
        return A_NUMBER;
    }
    if (word < (at = bim_attribute_at(table, 0)))
        return print_type_word((word - 4) / 7, (word - 4) % 7);
    if (word < bim_particle_at(table, 0)) {
        i = (word - at) / 3;
        printf("attribute %lu, named %s, %s", (unsigned long)i, name_of(bim_attribute_row(table, i).name), attribute_words[(word - at) % 3]);
        print_types_with(i, 1);
        return word == bim_attribute_at(table, i) ? A_NAME : A_NUMBER;
    }
    at = bim_particle_at(table, 0);
    if (word < bim_rows_end(table)) {
        i = (word - at) % 4;
        print_row((word - at) / 4);
        printf(", %s", i == 0 ? "kind" : particle_words[bim_particle_row(table, (word - at) / 4).kind][i - 1]);
        print_types_with((word - at) / 4, 0);
        return i == 0 ? A_KIND : i == 1 && bim_particle_row(table, (word - at) / 4).kind == BIM_ELEMENT ? A_NAME : A_NUMBER;
    }
    at = bim_substitute_at(table, 0);
    if (word < bim_derived_at(table, 0))
        fputs(word == bim_rows_end(table) ? "derived entries" : "substitutes", stdout);
    else if (word < at)
        printf("derived entry %lu", (unsigned long)(word - bim_derived_at(table, 0)));
    else if (word < bim_type_derived_at(table, 0)) {
        printf("substitute %lu, %s", (unsigned long)((word - at) / 2), (word - at) % 2 == 0 ? "name" : "type");
        return (word - at) % 2 == 0 ? A_NAME : A_NUMBER;
    } else if (word < (at = bim_row_substitutes_at(table, 0))) {
        i = word - bim_type_derived_at(table, 0);
        printf("type %lu", (unsigned long)(i / 2));
        print_elements(i / 2, 0);
        print_elements(i / 2, 1);
        fputs(i % 2 == 0 ? ", first derived entry" : ", number of derived entries", stdout);
    } else {
        print_row((word - at) / 2);
        fputs((word - at) % 2 == 0 ? ", first substitute" : ", number of substitutes", stdout);
    }
    return A_NUMBER;
}

/* Says of a word of the first table and its like in the other, where they differ, what and whose it is; answers whether they do. */
static int print_difference(char **paths, uint32_t i, uint32_t like)
{
    const uint32_t words[] = {bim_table_word(tables[0], i), bim_table_word(tables[1], like)};
    enum meaning meaning;
    int which;
    if (words[0] == words[1])
        return 0;
    printf("not one schema: word %lu", (unsigned long)i);
    if (like != i)
        printf(" and %lu", (unsigned long)like);
    fputs(", ", stdout);
    meaning = print_place(i);
    for (which = 0; which < 2; which++) {
        fputs(which == 0 ? ": " : " and ", stdout);
        print_value(words[which], meaning);
        fputs(" in ", stdout);
        put_path(stdout, paths[which]);
    }
    putchar('\n');
    return 1;
}

/* So many words of both. `decide` has a bit for each that decides what those behind it mean: where it differs these cannot be compared. */
static int print_differences(char **paths, uint32_t i, uint32_t like, uint32_t count, uint32_t decide)
{
    uint32_t word;
    int differ = 0;
    for (word = 0; word < count; word++)
        if (print_difference(paths, i + word, like + word)) {
            differ = 1;
            if (word < 32 && decide >> word & 1)
                break;
        }
    return differ;
}

static uint32_t lesser(uint32_t one, uint32_t other) { return one < other ? one : other; }

/* The rows that both have, each sort for itself. Where there are more in one table rows may have moved: only the first of each sort is told then. */
static int compare_rows(char **paths, int moved)
{
    const uint8_t *one = tables[0], *other = tables[1];
    int differ = 0, here;
    uint32_t i;
    for (i = 0, here = 0; i < lesser(bim_types(one), bim_types(other)) && !(here && moved); i++)
        differ |= here = print_differences(paths, bim_type_at(i) + 1, bim_type_at(i) + 1, 6, bim_type_row(one, i).content == BIM_SIMPLE ? 1 << 0 | 1 << 3 : 1 << 0);
    for (i = 0, here = 0; i < lesser(bim_attributes(one), bim_attributes(other)) && !(here && moved); i++)
        differ |= here = print_differences(paths, bim_attribute_at(one, i), bim_attribute_at(other, i), 3, 0);
    for (i = 0, here = 0; i < lesser(bim_particles(one), bim_particles(other)) && !(here && moved); i++)
        differ |= here = print_differences(paths, bim_particle_at(one, i), bim_particle_at(other, i), 4, 1 << 0);
    return differ;
}

/* Whether a table has an element of this name, a substitute too, among its first rows; or an attribute. */
static int has_element(const uint8_t *table, uint32_t name, uint32_t rows, uint32_t substitutes)
{
    uint32_t i;
    for (i = 0; i < rows; i++)
        if (bim_particle_row(table, i).kind == BIM_ELEMENT && bim_particle_row(table, i).p == name)
            return 1;
    for (i = 0; i < substitutes; i++)
        if (bim_substitute(table, i).name == name)
            return 1;
    return 0;
}

static int has_attribute(const uint8_t *table, uint32_t name, uint32_t rows)
{
    uint32_t i;
    for (i = 0; i < rows; i++)
        if (bim_attribute_row(table, i).name == name)
            return 1;
    return 0;
}

static void print_alone(const char *path, const char *row, uint32_t i, const char *what, uint32_t name)
{
    printf("not one schema: %s %lu, %s %s, in ", row, (unsigned long)i, what, name_of(name));
    put_path(stdout, path);
    puts(" alone");
}

/* The elements and attributes that one table has and the other has not, by name, each where it comes first. */
static void print_names_alone(char **paths, int which)
{
    const uint8_t *one = tables[which], *other = tables[1 - which];
    uint32_t i, name;
    for (i = 0; i < bim_attributes(one); i++) {
        name = bim_attribute_row(one, i).name;
        if (!has_attribute(other, name, bim_attributes(other)) && !has_attribute(one, name, i))
            print_alone(paths[which], "attribute", i, "named", name);
    }
    for (i = 0; i < bim_particles(one); i++) {
        name = bim_particle_row(one, i).p;
        if (bim_particle_row(one, i).kind == BIM_ELEMENT && !has_element(other, name, bim_particles(other), bim_substitutes(other)) &&
            !has_element(one, name, i, 0))
            print_alone(paths[which], "row", i, "element", name);
    }
    for (i = 0; i < bim_substitutes(one); i++) {
        name = bim_substitute(one, i).name;
        if (!has_element(other, name, bim_particles(other), bim_substitutes(other)) && !has_element(one, name, bim_particles(one), i))
            print_alone(paths[which], "substitute", i, "element", name);
    }
}

/* Says where the schemas differ; answers whether they do. */
static int compare_schemas(char **paths)
{
    const uint8_t *table = tables[0];
    int moved = print_differences(paths, 0, 0, 4, 0), differ = compare_rows(paths, moved);
    if (!moved && bim_form(table) == 2) {
        moved = print_differences(paths, bim_rows_end(table), bim_rows_end(table), 2, 0);
        if (!moved)
            differ |= print_differences(paths, bim_derived_at(table, 0), bim_derived_at(table, 0),
                                        (uint32_t)(bytes[0] / 4) - bim_derived_at(table, 0), 0);
    }
    if (moved) {
        print_names_alone(paths, 0);
        print_names_alone(paths, 1);
    }
    return moved || differ;
}

int main(int argc, char **argv)
{
    struct call call = begin_call("holds", usage, help, argc, argv);
    const char *names_path = option_value(&call, "-n");
    uint32_t party;
    int differ = 0;
    if (!options_end(&call) || call.left != 2)
        return wrong_call(&call);
    if ((names_path != NULL && !read_names(names_path)) || !take_table(call.next[0], 0) || !take_table(call.next[1], 1))
        return finish(STATUS_NO_GOOD);
    if (compare_schemas(call.next))
        return finish(STATUS_NOT_ONE_SCHEMA);
    for (party = 0; party < BIM_PARTIES; party++)
        differ |= compare_marks(call.next, party);
    if (!differ)
        printf("every party holds the same types by both\n");
    return finish(differ ? STATUS_REFUSED : STATUS_DONE);
}
