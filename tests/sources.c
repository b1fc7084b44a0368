/* Tables and their sources, both ways: explain --source and the program table, without the files between them.
 *
 *     sources CASES SEED [VECTORS..]
 *
 * On seeded tables, neat and wild, with words of every sort, and on every right table of the vectors: the source that is printed of a table makes the
 * same table, byte for byte, and of that the same source is printed; the words go through a names file as well. Tables that are changed in some words
 * are tried where bim_check_table takes them. Then sources are damaged: what is taken all the same makes a table that bim_check_table takes. Exit
 * status 1 where any of this fails, or where something that a source can say was never said. */
#define _XOPEN_SOURCE 700
#include "vector.h"
#include "source_print.h"
#include "source_read.h"
#include <unistd.h>

static uint8_t table[BIM_MOST_TABLE + 4], again[BIM_MOST_TABLE], area[BIM_AREA];
static size_t table_bytes;
static uint32_t words[BIM_MOST_TABLE / 4];
static size_t word_count;
static unsigned long tables, changed, damaged, taken, failed;
static uint64_t state;
static char names_path[] = "/tmp/sources.XXXXXX";
static struct vector vector;

/* What a source can say, each of which some source has to: a part of its text. */
static const char *const sayings[] = {"form 2\n",  "names ",       "party 1",      "party 7 ",         ": all\n",   ": none\n",     " all but ", " = @",
                                      "lay rows @", "lay attributes:", "lay casts:", "lay substitutes:", "cast ",     "substitute ",  "<@",        "[@",
                                      ": @",        "(@",          "(| @",         " | ",       "?",            "{0,}",      "{1,}",
                                      "{2}",        "(",           "enumeration {", "enumeration 3 {", "{- ",       "enumeration ", "\"",        "empty\n",
                                      "boolean\n",  "unsigned\n",  "signed\n",     "text\n",           "float\n",   "dateTime\n",   "date\n",    ": -",
                                      "\n    ",     "?:",          "\\\\",          "\\\""};
enum { SAYINGS = sizeof sayings / sizeof sayings[0] };
static unsigned long was_said[SAYINGS];

static void fail(const char *what, const char *why)
{
    if (failed++ < 10)
        printf("%s: %s\n", what, why);
}

/* RANDOM NUMBERS, of SplitMix64. */
static uint32_t random_word(void)
{
    uint64_t z = state += 0x9e3779b97f4a7c15u;
    z = (z ^ z >> 30) * 0xbf58476d1ce4e5b9u;
    z = (z ^ z >> 27) * 0x94d049bb133111ebu;
    return (uint32_t)((z ^ z >> 31) >> 16);
}
static uint32_t below(uint32_t most) { return random_word() % most; }
static int one_in(uint32_t times) { return below(times) == 0; }
static uint32_t within(uint32_t least, uint32_t most) { return least + below(most - least + 1); }

/* TABLES */

static void put(uint32_t word) { words[word_count++] = word; }

/* A tree of particle rows laid as the reader lays it, behind those that are there; answers its first row. */
static uint32_t rows[BIM_MOST_PARTICLES][4], row_count, most_rows;
static uint32_t any_name(void) { return one_in(9) ? within(65000, 65535) : below(24); }

static void make_element(uint32_t *row, uint32_t types)
{
    row[0] = BIM_ELEMENT;
    row[1] = any_name();
    row[2] = below(types);
    row[3] = 0;
}

static void make_times(uint32_t *row)
{
    static const uint32_t often[][2] = {{0, 1}, {0, 65536}, {1, 65536}, {2, 2}, {1, 1}, {0, 3}, {3, 7}, {0, 65535}, {65535, 65535}, {65535, 65536}, {7, 65536}};
    const uint32_t i = below(sizeof often / sizeof often[0]);
    row[2] = often[i][0];
    row[3] = often[i][1];
}

static uint32_t make_neat_tree(uint32_t types)
{
    const uint32_t first = row_count;
    uint32_t row;
    row_count++;
    for (row = first; row < row_count; row++) {
        const uint32_t left = most_rows - row_count;
        uint32_t children = within(1, one_in(20) ? 64 : 5);
        rows[row][0] = left == 0 ? BIM_ELEMENT : below(row_count - first > 12 ? 8 : 4);
        if (rows[row][0] == BIM_CHOICE && children < 2)
            children = 2;
        if (rows[row][0] == BIM_OCCURS)
            children = 1;
        if (rows[row][0] > BIM_OCCURS || rows[row][0] == BIM_ELEMENT || children > left) {
            make_element(rows[row], types);
            continue;
        }
        rows[row][1] = row_count;
        rows[row][2] = children;
        rows[row][3] = 0;
        if (rows[row][0] == BIM_OCCURS)
            make_times(rows[row]);
        row_count += children;
    }
    return first;
}

/* Any row that is right where it stands, its children anywhere over it. */
static void make_wild_row(uint32_t row, uint32_t types)
{
    const uint32_t over = row_count - row - 1;
    uint32_t *it = rows[row], most;
    it[0] = over == 0 ? BIM_ELEMENT : below(4);
    if (it[0] == BIM_CHOICE && over < 2)
        it[0] = BIM_SEQUENCE;
    if (it[0] == BIM_ELEMENT) {
        make_element(it, types);
        return;
    }
    it[1] = row + 1 + (one_in(2) ? 0 : below(it[0] == BIM_CHOICE ? over - 1 : over));
    most = row_count - it[1] < BIM_MOST_CHILDREN ? row_count - it[1] : BIM_MOST_CHILDREN;
    it[2] = within(it[0] == BIM_CHOICE ? 2 : 1, one_in(9) ? most : most < 4 ? most : 4);
    it[3] = 0;
    if (it[0] == BIM_OCCURS)
        make_times(it);
}

static void make_simple(uint32_t *type)
{
    type[1] = BIM_SIMPLE;
    type[4] = below(9);
    if (type[4] == BIM_RANGED) {
        const int32_t a = one_in(4) ? (int32_t)random_word() : (int32_t)below(200) - 100, b = one_in(4) ? (int32_t)random_word() : a;
        type[5] = (uint32_t)(a < b ? a : b);
        type[6] = (uint32_t)(a < b ? b : a);
        if (one_in(9))
            type[5] = 0x80000000u;
        if (one_in(9))
            type[6] = 0x7fffffff;
    }
    if (type[4] == BIM_ENUMERATION)
        type[5] = one_in(9) ? within(65535, 65536) : within(1, 6);
}

/* A run of so many rows: anywhere, or what comes next if it is neat. */
static void any_span(uint32_t *span, uint32_t all, uint32_t *next, int neat)
{
    span[0] = neat ? *next : below(all + 1);
    span[1] = one_in(3) ? 0 : below(all - span[0] + 1);
    if (span[1] > 4 && !one_in(9))
        span[1] = 4;
    if (neat && span[1] == 0)
        span[0] = 0;
    else
        *next = span[0] + span[1];
}

static uint32_t types[BIM_MOST_TYPES][7], type_count;

static void make_types(int neat, int wild)
{
    uint32_t type;
    for (type = 0; type < type_count; type++) {
        uint32_t *it = types[type];
        memset(it, 0, sizeof types[type]);
        it[0] = one_in(3) ? 0xff : one_in(3) ? 1 : below(256);
        if (type > 0 && one_in(12))
            continue;
        if ((neat || row_count > 0) && (type == 0 || one_in(3)) && row_count < most_rows) {
            it[1] = BIM_PARTICLES;
            it[4] = neat ? (one_in(9) && row_count > 0 ? below(row_count) : make_neat_tree(type_count)) : below(row_count);
            continue;
        }
        make_simple(it);
    }
    for (type = 0; wild && type < row_count; type++)
        make_wild_row(type, type_count);
}

static void make_table(void)
{
    static const uint32_t few[] = {0, 0, 1, 3, 5, 9};
    uint32_t attributes = 0, derived, substitutes, i, next = 0, plain = 0, plains[BIM_MOST_TYPES];
    const int neat = one_in(2), lists_are_neat = one_in(2), large = one_in(60), form = one_in(3) ? 1 : 2;
    type_count = large ? within(200, 256) : within(1, 12);
    most_rows = large ? 1024 : within(0, 40);
    row_count = neat ? 0 : most_rows;
    make_types(neat, !neat);
    if (neat && row_count > 0 && one_in(6) && row_count < most_rows)
        make_neat_tree(type_count);
    for (i = 0; i < type_count; i++)
        if (types[i][1] == BIM_SIMPLE && one_in(2))
            plains[plain++] = i;
    if (plain > 0)
        attributes = large ? 1024 : few[below(6)];
    for (i = 0; i < type_count; i++) {
        uint32_t other, is_plain_type = 0;
        for (other = 0; other < plain; other++)
            is_plain_type |= plains[other] == i;
        any_span(&types[i][2], attributes, &next, lists_are_neat);
        if (is_plain_type)
            types[i][2] = lists_are_neat ? 0 : types[i][2], types[i][3] = 0;
    }
    if (lists_are_neat && !one_in(5))
        attributes = next;
    word_count = 0;
    put((uint32_t)form);
    put(type_count);
    put(attributes);
    put(row_count);
    for (i = 0; i < 7 * type_count; i++)
        put(types[i / 7][i % 7]);
    for (i = 0; i < attributes; i++) {
        put(any_name());
        put(below(2));
        put(plains[below(plain)]);
    }
    for (i = 0; i < 4 * row_count; i++)
        put(rows[i / 4][i % 4]);
    if (form == 1)
        return;
    derived = large ? 1024 : few[below(6)];
    substitutes = large ? 1024 : few[below(6)];
    {
        static uint32_t entries[1024], spans[BIM_MOST_TYPES + BIM_MOST_PARTICLES][2];
        memset(spans, 0, sizeof spans);
        for (i = 0; i < derived; i++)
            entries[i] = one_in(4) ? below(type_count) : i % type_count;
        for (i = 0, next = 0; i < type_count; i++) {
            uint32_t j, k, good = 1;
            any_span(spans[i], derived, &next, lists_are_neat);
            /* It ends before the type itself, and before the first that stands there already. */
            for (j = 0; j < spans[i][1] && good; j++) {
                good = entries[spans[i][0] + j] != i;
                for (k = 0; k < j; k++)
                    good = good && entries[spans[i][0] + k] != entries[spans[i][0] + j];
                if (!good)
                    spans[i][1] = j;
            }
            if (lists_are_neat && spans[i][1] == 0)
                spans[i][0] = 0;
        }
        for (i = 0, next = 0; i < row_count; i++) {
            uint32_t *span = spans[type_count + i], j = i;
            if (rows[i][0] != BIM_ELEMENT)
                continue;
            any_span(span, substitutes, &next, lists_are_neat);
            /* Often what the element of that name before it has. */
            while (j > 0 && (rows[j - 1][0] != BIM_ELEMENT || rows[j - 1][1] != rows[i][1]))
                j--;
            if (j > 0 && !one_in(4))
                memcpy(span, spans[type_count + j - 1], sizeof spans[0]);
        }
        put(derived);
        put(substitutes);
        for (i = 0; i < derived; i++)
            put(entries[i]);
        /* Many that are alike, so that lists are found in one another. */
        for (i = 0; i < substitutes; i++) {
            put(one_in(6) ? any_name() : 1);
            put(one_in(6) ? below(type_count) : 0);
        }
        for (i = 0; i < type_count + row_count; i++) {
            put(spans[i][0]);
            put(spans[i][1]);
        }
    }
}

static void put_table_bytes(void)
{
    size_t i;
    for (i = 0; i < word_count; i++)
        put_word(table + 4 * i, words[i]);
    table_bytes = 4 * word_count;
}

/* WORDS, those among them that look like something else. */
static char *any_word(void)
{
    static const char *const odd[] = {"all", "none", "but", "names", "party", "form", "lay", "cast", "rows", "substitute", "12", "0", "-3", "-", "a.b",
                                      "a..b", ".a", "a.", "tva:Title", "a\"b", "\\", "\"", "#x", "a#", "{", "}", "[]", "(|)", "?", "@1", "\xc3\xa9t\xc3\xa9",
                                      "\xe7\x95\xaa", "1a", "x-1", "_", "type", "value", "text", "empty", "x,y", "a:", "=", "\xf0\x9f\x9a\xa2"};
    char word[260];
    const uint32_t kind = below(12);
    size_t length;
    if (kind == 0) {
        length = within(200, 230);
        memset(word, one_in(2) ? 'w' : '"', length);
        word[length] = '\0';
    } else if (kind < 4)
        snprintf(word, sizeof word, "%s", odd[below(sizeof odd / sizeof odd[0])]);
    else
        snprintf(word, sizeof word, "%c%c%lu", (char)('a' + below(26)), (char)('a' + below(26)), (unsigned long)below(40));
    return copy_word(word, strlen(word));
}

static void make_words(void)
{
    uint32_t i, j;
    if (one_in(4))
        return;
    for (i = 0; i < 30; i++)
        if (!one_in(4))
            names[i] = any_word();
    for (i = 64990; i < 65536; i += within(1, 90))
        names[i] = any_word();
    for (i = 0; i < type_count && !one_in(20); i++) {
        char *word = one_in(3) ? NULL : one_in(2) && names[i % 30] != NULL ? copy_word(names[i % 30], strlen(names[i % 30])) : any_word();
        for (j = 0; j < i && word != NULL; j++)
            if (type_names[j] != NULL && strcmp(type_names[j], word) == 0) {
                free(word);
                word = NULL;
            }
        type_names[i] = word;
        if (types[i][1] == BIM_SIMPLE && types[i][4] == BIM_ENUMERATION && one_in(2)) {
            const uint32_t all = types[i][5] < 9 ? types[i][5] : 9;
            for (j = 0; j < all; j++) {
                uint32_t one, other;
                if (one_in(5))
                    continue;
                *value_name(i, j) = any_word();
                if (repeated_word(value_names[i], all, &one, &other)) {
                    free(value_names[i][j]);
                    value_names[i][j] = NULL;
                }
            }
        }
    }
    for (i = 0; i < BIM_PARTIES; i++)
        if (one_in(4))
            party_names[i] = any_word();
}

/* BOTH WAYS */

static char *print_to_memory(size_t *length)
{
    char *text = NULL;
    FILE *file = open_memstream(&text, length);
    if (file == NULL)
        abort();
    print_source(file, table);
    if (fclose(file) != 0)
        abort();
    return text;
}

/* Takes a text as a source; answers whether it makes a table. */
static int compile_text(char *text, size_t length, size_t *bytes)
{
    struct lines lines;
    int status;
    lines.file = fmemopen(text, length, "r");
    lines.path = "source";
    lines.end = '\n';
    lines.number = 0;
    if (lines.file == NULL)
        abort();
    source.path = "source";
    status = load_lines(&lines);
    fclose(lines.file);
    return status == STATUS_DONE && compile_source(again, bytes);
}

static void note_sayings(const char *text)
{
    size_t i;
    for (i = 0; i < SAYINGS; i++)
        was_said[i] += strstr(text, sayings[i]) != NULL;
}

/* The words through a names file: of them the same source is printed. */
static void try_names_file(const char *what, const char *text)
{
    FILE *file = fopen(names_path, "w");
    size_t length;
    char *printed;
    if (file == NULL)
        abort();
    print_names(file);
    if (fclose(file) != 0)
        abort();
    forget_names();
    if (!read_names(names_path))
        fail(what, "its names file is refused");
    printed = print_to_memory(&length);
    if (strcmp(printed, text) != 0)
        fail(what, "with its words from a names file another source is printed");
    free(printed);
}

/* A right table, with the words that there are. */
static char *try_table(const char *what)
{
    size_t length, bytes = 0, then;
    char *text = print_to_memory(&length), *printed;
    forget_names();
    tables++;
    note_sayings(text);
    if (!compile_text(text, length, &bytes)) {
        fail(what, "the source that is printed of it is refused");
        if (failed == 1)
            fputs(text, stdout);
    } else if (bytes != table_bytes || memcmp(table, again, bytes) != 0) {
        fail(what, "the source that is printed of it makes another table");
        if (failed == 1)
            fputs(text, stdout);
    } else {
        printed = print_to_memory(&then);
        if (strcmp(printed, text) != 0)
            fail(what, "of the table that its source makes another source is printed");
        free(printed);
        if (one_in(8))
            try_names_file(what, text);
    }
    forget_source();
    return text;
}

/* The table with some words changed, if it is right all the same. */
static void try_changed(const char *what)
{
    const size_t at = below((uint32_t)word_count);
    const uint32_t was = words[at];
    words[at] = one_in(3) ? was + 1 : one_in(2) ? was - 1 : below(12);
    if (words[at] != was) {
        put_table_bytes();
        if (bim_check_table(table, table_bytes, area, sizeof area) == BIM_ACCEPTED) {
            changed++;
            free(try_table(what));
        }
    }
    words[at] = was;
}

/* A source with something taken out, put in or changed: where it is taken, it makes a right table. */
static void try_damaged(const char *what, const char *text)
{
    static const char *const more[] = {":", "=", "[", "]", "(", ")", "|", "{", "}", "<", ">", "@", "?", ",", "..", "-", "0", "1", "64", "65536", "4294967296",
                                       " ", "\n", "\n ", "\"", "\\", "#", "all", "but", "none", "lay rows @0 = ", "cast ", "x", ".", "*", "+", "\t", "\r",
                                       "\xc3\xa9", "\xff", "\x1b", "form 1\n", "names 0: x\n", "party 0: all\n", "0: text\n", "empty", "@1..2", "(|"};
    static const uint32_t edges[] = {0, 1, 2, 3, 63, 64, 65, 255, 256, 1023, 1024, 1025, 65535, 65536, 2147483647};
    const size_t length = strlen(text);
    char *copy = (char *)malloc(length + 200), digits[16];
    size_t at = below((uint32_t)length), out = one_in(3) ? below(6) : 0, bytes;
    const char *in = one_in(4) ? "" : more[below(sizeof more / sizeof more[0])];
    if (copy == NULL)
        abort();
    if (one_in(2)) {
        /* Another number, one more or one less. */
        at += strcspn(text + at, "0123456789");
        out = strspn(text + at, "0123456789");
        snprintf(digits, sizeof digits, "%lu",
                 one_in(3) ? (unsigned long)edges[below(sizeof edges / sizeof edges[0])] : strtoul(text + at, NULL, 10) + (one_in(2) ? 1 : (unsigned long)-1));
        in = digits;
    }
    if (out > length - at)
        out = length - at;
    sprintf(copy, "%.*s%s%s", (int)at, text, in, text + at + out);
    damaged++;
    if (strlen(copy) > 0 && compile_text(copy, strlen(copy), &bytes)) {
        taken++;
        if (bim_check_table(again, bytes, area, sizeof area) != BIM_ACCEPTED) {
            fail(what, "damaged, it makes a wrong table");
            if (failed == 1)
                fputs(copy, stdout);
        }
    }
    forget_source();
    free(copy);
}

static void try_vectors(const char *path)
{
    FILE *file = fopen(path, "r");
    if (file == NULL) {
        perror(path);
        exit(2);
    }
    while (next_vector(file, &vector)) {
        if (vector.table.length > BIM_MOST_TABLE || bim_check_table(vector.table.at, vector.table.length, area, sizeof area) != BIM_ACCEPTED)
            continue;
        memcpy(table, vector.table.at, vector.table.length);
        table_bytes = vector.table.length;
        free(try_table(vector.name));
    }
    fclose(file);
}

int main(int argc, char **argv)
{
    unsigned long cases, i, never = 0;
    int vectors;
    if (argc < 3)
        return 2;
    cases = strtoul(argv[1], NULL, 10);
    state = strtoul(argv[2], NULL, 10);
    vectors = mkstemp(names_path);
    if (vectors < 0 || close(vectors) != 0 || freopen("/dev/null", "w", stderr) == NULL)
        return 2;
    for (vectors = 3; vectors < argc; vectors++)
        try_vectors(argv[vectors]);
    i = tables;
    for (tables = 0; tables - changed < cases;) {
        char what[64], *text;
        snprintf(what, sizeof what, "seeded table %lu", tables);
        make_table();
        put_table_bytes();
        if (bim_check_table(table, table_bytes, area, sizeof area) != BIM_ACCEPTED) {
            fail(what, "no right table");
            break;
        }
        make_words();
        text = try_table(what);
        try_damaged(what, text);
        try_damaged(what, text);
        free(text);
        try_changed(what);
        try_changed(what);
    }
    unlink(names_path);
    printf("sources: %lu tables of vectors, %lu seeded and %lu changed, the same there and back\n", i, tables - changed, changed);
    printf("sources: %lu damaged, of which %lu make a table, each a right one\n", damaged, taken);
    for (i = 0; i < SAYINGS; i++)
        if (was_said[i] == 0) {
            never++;
            printf("never said: %s\n", sayings[i]);
        }
    if (failed > 0)
        printf("%lu failed\n", failed);
    return failed > 0 || never > 0;
}
