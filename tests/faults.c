/* Makes a right table wrong in every word, in its length and, in form 2, in how many entries there are, and prints explain's sentence for
 * each: faults TABLE.
 * Where the library finds a fault for which explain has no reason, it says so; exit status 1. */
#include "faults.h"
#include "io.h"

static uint8_t table[BIM_MOST_TABLE + 8], area[BIM_AREA];
static int unexplained;

static void put(uint32_t at, uint32_t word)
{
    table[4 * at] = (uint8_t)(word >> 24);
    table[4 * at + 1] = (uint8_t)(word >> 16);
    table[4 * at + 2] = (uint8_t)(word >> 8);
    table[4 * at + 3] = (uint8_t)word;
}

/* Whether the table is wrong now, and why. */
static int wrong(size_t bytes, struct sentence *why)
{
    if (bim_check_table(table, bytes, area, sizeof area) == BIM_ACCEPTED)
        return 0;
    if (!fault_in_words(why, table, bytes, bim_area_place(area))) {
        printf("UNEXPLAINED: ");
        unexplained = 1;
    }
    return 1;
}

/* Of a word's wrong values, from 0 up, the first, and the first that is blamed on another word. */
static void try_word(uint32_t at, size_t bytes)
{
    static const uint32_t values[] = {0, 1, 2, 3, 4, 5, 9, 18, 63, 64, 65, 256, 257, 1025, 65536, 65537, 0x7fffffff, 0x80000000u,
                                      0xffffffffu};
    const uint32_t right = bim_table_word(table, at);
    struct sentence why;
    unsigned shown = 0;
    uint32_t place = 0;
    size_t i;
    for (i = 0; i < sizeof values / sizeof values[0]; i++) {
        put(at, values[i]);
        if (wrong(bytes, &why) && (shown == 0 || (shown == 1 && bim_area_place(area) != place))) {
            place = bim_area_place(area);
            printf("word %lu is %lu: wrong at word %lu: %s\n", (unsigned long)at, (unsigned long)values[i], (unsigned long)place,
                   why.words);
            shown++;
        }
    }
    if (shown == 0)
        printf("word %lu: no value tried is wrong\n", (unsigned long)at);
    put(at, right);
}

static void try_length(size_t bytes)
{
    struct sentence why;
    if (wrong(bytes, &why))
        printf("%lu bytes: wrong at word %lu: %s\n", (unsigned long)bytes, (unsigned long)bim_area_place(area), why.words);
    else
        printf("%lu bytes: right\n", (unsigned long)bytes);
}

/* The table with so many words 0 put in before this word, and this count of them at another; answers its bytes. */
static size_t grown(size_t bytes, uint32_t before, uint32_t more, uint32_t at, uint32_t count)
{
    memmove(table + 4 * (before + more), table + 4 * before, bytes - 4 * before);
    memset(table + 4 * before, 0, 4 * more);
    put(at, count);
    return bytes + 4 * more;
}

/* One derived entry or substitute more than there may be, in a length that is right for it. */
static void try_counts(size_t bytes)
{
    static uint8_t right[sizeof table];
    const uint32_t most = BIM_MOST_DERIVATIONS + 1, derivations = bim_derivations(table), substitutes = bim_substitutes(table);
    const uint32_t at = bim_rows_end(table);
    memcpy(right, table, sizeof table);
    try_length(grown(bytes, bim_substitute_at(table, 0), most - derivations, at, most));
    memcpy(table, right, sizeof table);
    try_length(grown(bytes, bim_type_derived_at(table, 0), 2 * (most - substitutes), at + 1, most));
    memcpy(table, right, sizeof table);
}

int main(int argc, char **argv)
{
    size_t bytes;
    uint32_t at;
    if (argc != 2 || !read_file(argv[1], table, BIM_MOST_TABLE, &bytes))
        return 2;
    for (at = 0; at < bytes / 4; at++)
        try_word(at, bytes);
    for (at = 0; at < 5; at++)
        try_length((size_t)4 * at);
    try_length(bytes - 4);
    try_length(bytes - 1);
    try_length(bytes);
    try_length(bytes + 1);
    try_length(bytes + 4);
    try_length(BIM_MOST_TABLE + 4);
    if (bim_form(table) == 2)
        try_counts(bytes);
    return unexplained;
}
