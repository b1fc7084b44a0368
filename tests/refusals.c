/* Asks the library for every case of examples/refusals.txt: the number, the place, the path, and that what was lent is 0 throughout; of a
 * setting, that the table is as it was.
 *
 *     refusals FILE          says how many hold; exit status 1 where one does not, or a number from 1 to 26 is not shown
 *     refusals --rows FILE   prints the tables and the rows of docs/REFUSALS.md as the library answers them */
#include <inttypes.h>
#include <stdio.h>
#include <stdlib.h>
#include <string.h>
#include "bim_table.h"

#define NAMES 20

struct table {
    char name[32], words[512];
    uint8_t bytes[512];
    size_t length;
};

static struct table tables[NAMES];
static size_t table_count;
static uint8_t events[BIM_MOST_EVENTS * BIM_EVENT], texts[BIM_MOST_PAYLOAD], payload[BIM_MOST_PAYLOAD], area[BIM_AREA];
static unsigned long line_number, cases, failed;
static int rows;

/* The case as it is gathered. */
static struct {
    uint32_t number, party, root_name, root_type;
    char why[128], asked[256];
    const struct table *table;
    unsigned long events, texts, payload, area;
} now;

static void stop(const char *why)
{
    fprintf(stderr, "line %lu: %s\n", line_number, why);
    exit(2);
}

/* The words at from, whole. */
static void keep(char *to, size_t room, const char *from)
{
    if (strlen(from) >= room)
        stop("too long");
    strcpy(to, from);
}

static size_t put_word(uint8_t *bytes, long long value)
{
    const uint32_t word = (uint32_t)value;
    bytes[0] = (uint8_t)(word >> 24);
    bytes[1] = (uint8_t)(word >> 16);
    bytes[2] = (uint8_t)(word >> 8);
    bytes[3] = (uint8_t)word;
    return 4;
}

static size_t put_hex(uint8_t *bytes, size_t room, const char *hex)
{
    size_t length = 0;
    unsigned byte;
    while (sscanf(hex, "%2x", &byte) == 1) {
        if (length == room)
            stop("too many bytes");
        bytes[length++] = (uint8_t)byte;
        hex += 2;
    }
    if (*hex != '\0' && strcmp(hex, "-") != 0)
        stop("no bytes");
    return length;
}

static void take_table(char *rest)
{
    struct table *table = &tables[table_count++];
    char *word = strtok(rest, " ");
    if (word == NULL || table_count == NAMES)
        stop("no table, or too many");
    keep(table->name, sizeof table->name, word);
    while ((word = strtok(NULL, " ")) != NULL) {
        if (table->length + 4 > sizeof table->bytes || strlen(table->words) + strlen(word) + 2 > sizeof table->words)
            stop("table too long");
        table->length += put_word(table->bytes + table->length, strtoll(word, NULL, 10));
        strcat(strcat(table->words, " "), word);
    }
}

static void take_lent(char *rest)
{
    char what[16];
    unsigned long bytes;
    if (sscanf(rest, "%15s %lu", what, &bytes) != 2 || bytes > BIM_MOST_PAYLOAD)
        stop("no lent buffer");
    *(strcmp(what, "events") == 0 ? &now.events : strcmp(what, "texts") == 0 ? &now.texts
      : strcmp(what, "payload") == 0 ? &now.payload : &now.area) = bytes;
}

/* Fills events and texts from: KIND P Q , KIND P Q .. ; TEXTS */
static void take_list(char *list, size_t *event_bytes, size_t *text_bytes)
{
    char *word, *hex = strchr(list, ';');
    if (hex == NULL)
        stop("no texts");
    *hex = '\0';
    *event_bytes = 0;
    *text_bytes = put_hex(texts, sizeof texts, hex + 2);
    for (word = strtok(list, " "); word != NULL; word = strtok(NULL, " "))
        if (*word == ',')
            *event_bytes += put_word(events + *event_bytes, 0);
        else
            *event_bytes += put_word(events + *event_bytes, strtoll(word, NULL, 10));
    *event_bytes += put_word(events + *event_bytes, 0);
}

static int all_zero(const uint8_t *bytes, size_t length)
{
    size_t i;
    for (i = 0; i < length; i++)
        if (bytes[i] != 0)
            return 0;
    return 1;
}

/* Sets a mark in a copy of the table; *same tells whether it is as it was. */
static uint32_t set_mark(char *rest, int *same)
{
    static uint8_t copy[sizeof now.table->bytes];
    uint32_t number, type, mark;
    if (sscanf(rest, "%" SCNu32 " %" SCNu32, &type, &mark) != 2)
        stop("no setting");
    memcpy(copy, now.table->bytes, sizeof copy);
    number = bim_set_held(copy, now.table->length, now.party, type, mark, area, now.area);
    *same = memcmp(copy, now.table->bytes, sizeof copy) == 0;
    return number;
}

/* Makes the call that was gathered; *zero tells whether every output buffer came back 0 throughout. (The area is judged below.) */
static uint32_t call(int *zero)
{
    char copy[256], *rest;
    size_t one, other;
    uint32_t number, mode = 0;
    memset(events, 0xdd, sizeof events);
    memset(texts, 0xdd, sizeof texts);
    memset(payload, 0xdd, sizeof payload);
    memset(area, 0xdd, sizeof area);
    memcpy(copy, now.asked, sizeof copy);
    rest = strchr(copy, ' ');
    *zero = 1;
    if (strcmp(copy, "check") == 0)
        return bim_check_table(now.table->bytes, now.table->length, area, now.area);
    if (rest == NULL)
        stop("nothing is asked");
    *rest++ = '\0';
    if (strcmp(copy, "set") == 0)
        return set_mark(rest, zero);
    if (strcmp(copy, "read") == 0) {
        one = put_hex(payload, sizeof payload, rest);
        number = bim_read(now.table->bytes, now.table->length, now.party, now.root_name, now.root_type, payload, one, events, now.events,
                          texts, now.texts, area, now.area);
        *zero = all_zero(events, now.events) && all_zero(texts, now.texts);
        return number;
    }
    if (strcmp(copy, "write") == 0)
        mode = (uint32_t)strtoul(rest, &rest, 10);
    take_list(rest, &one, &other);
    if (strcmp(copy, "write") == 0)
        number = bim_write(now.table->bytes, now.table->length, now.party, now.root_name, now.root_type, mode, events, one, texts, other,
                           payload, now.payload, area, now.area);
    else
        number = bim_write_lengths(now.table->bytes, now.table->length, now.party, now.root_name, now.root_type, events, one, texts, other,
                                   payload, now.payload, area, now.area);
    *zero = all_zero(payload, now.payload);
    return number;
}

/* Number, place and names as the answer line has them. */
static void answer_of(uint32_t number, char *words, size_t room)
{
    uint32_t i;
    int length;
    if (number == BIM_AREA_SIZE)
        memset(area, 0, sizeof area);
    length = snprintf(words, room, "%lu %lu", (unsigned long)number, (unsigned long)bim_area_place(area));
    for (i = 0; i < bim_area_names(area); i++)
        length += snprintf(words + length, room - (size_t)length, " %lu", (unsigned long)bim_area_name(area, i));
}

/* A row of the document. */
static void print_row(uint32_t number)
{
    const char *unit = number == BIM_TABLE ? "word" : strncmp(now.asked, "write", 5) == 0 ? "event" : "bit";
    uint32_t i;
    printf("| %lu | %s | %s | %s", (unsigned long)number, bim_refusal_name(number), now.why, now.table->name);
    if (strcmp(now.asked, "check") != 0 && strncmp(now.asked, "set ", 4) != 0)
        printf(", %lu, %lu", (unsigned long)now.root_name, (unsigned long)now.root_type);
    printf(" | `%s`", now.asked);
    if (now.party > 0)
        printf(" by party %lu", (unsigned long)now.party);
    if (now.events != sizeof events)
        printf(", %lu bytes for events", now.events);
    if (now.texts != sizeof texts)
        printf(", %lu for texts", now.texts);
    if (now.payload != sizeof payload)
        printf(", %lu for the payload", now.payload);
    if (now.area != sizeof area)
        printf(", %lu for the area", now.area);
    printf(" | %lu", (unsigned long)number);
    if (number == BIM_TABLE || (number >= BIM_PAST_END && number <= BIM_OUTSIDE_ROW) || number == BIM_TEXT_BYTES ||
        number == BIM_CONTROL)
        printf(" at %s %lu", unit, (unsigned long)bim_area_place(area));
    if (bim_area_names(area) > 8)
        printf(", path of %lu names", (unsigned long)bim_area_names(area));
    else
        for (i = 0; i < bim_area_names(area); i++)
            printf("%s%lu", i == 0 ? ", path " : " ", (unsigned long)bim_area_name(area, i));
    printf(" |\n");
}

/* The case is whole: it is tried. */
static void try_case(const char *expected)
{
    static uint32_t before;
    char got[512];
    int zero;
    const uint32_t number = call(&zero);
    zero = zero && all_zero(number == BIM_AREA_SIZE ? area : area + 4, number == BIM_AREA_SIZE ? now.area : 16);
    answer_of(number, got, sizeof got);
    cases++;
    if (strcmp(got, expected) != 0 || number != now.number || !zero) {
        printf("line %lu: %s where %s is expected%s\n", line_number, got, expected, zero ? "" : ", and what was lent is not 0, or a table changed");
        failed++;
    }
    if (now.number != before && now.number != before + 1) {
        printf("line %lu: %lu is out of turn\n", line_number, (unsigned long)now.number);
        failed++;
    }
    before = now.number;
    if (rows)
        print_row(number);
}

static void print_tables(void)
{
    size_t i;
    printf("| table | words |\n|---|---|\n");
    for (i = 0; i < table_count; i++)
        printf("| %s |%s |\n", tables[i].name, tables[i].words);
    printf("\n| no. | refused because | shown by | table, root | asked | answer |\n|---|---|---|---|---|---|\n");
}

int main(int argc, char **argv)
{
    char line[1024], *rest;
    FILE *file;
    rows = argc == 3 && strcmp(argv[1], "--rows") == 0;
    if (argc != 2 + rows || (file = fopen(argv[1 + rows], "r")) == NULL) {
        fprintf(stderr, "refusals [--rows] FILE\n");
        return 2;
    }
    while (fgets(line, sizeof line, file) != NULL) {
        line_number++;
        line[strcspn(line, "\n")] = '\0';
        rest = line + strcspn(line, " ");
        if (line[0] == '#')
            continue;
        if (strncmp(line, "table ", 6) == 0 && strchr(rest + 1, ' ') != NULL) {
            take_table(rest + 1);
        } else if (strncmp(line, "table ", 6) == 0) {
            size_t i;
            for (i = 0; i < table_count && strcmp(tables[i].name, rest + 1) != 0; i++)
                ;
            if (i == table_count)
                stop("unknown table");
            now.table = &tables[i];
        } else if (strncmp(line, "case ", 5) == 0) {
            if (rows && cases == 0)
                print_tables();
            memset(&now, 0, sizeof now);
            now.number = (uint32_t)strtoul(rest, &rest, 10);
            keep(now.why, sizeof now.why, rest + 1);
            now.events = sizeof events;
            now.texts = sizeof texts;
            now.payload = sizeof payload;
            now.area = sizeof area;
        } else if (sscanf(line, "root %" SCNu32 " %" SCNu32, &now.root_name, &now.root_type) == 2) {
            continue;
        } else if (sscanf(line, "party %" SCNu32, &now.party) == 1) {
            continue;
        } else if (strncmp(line, "lent ", 5) == 0) {
            take_lent(rest);
        } else if (strncmp(line, "check", 5) == 0 || strncmp(line, "read ", 5) == 0 || strncmp(line, "write ", 6) == 0 ||
                   strncmp(line, "write_lengths ", 14) == 0 || strncmp(line, "set ", 4) == 0) {
            keep(now.asked, sizeof now.asked, line);
        } else if (strncmp(line, "answer ", 7) == 0 && now.table != NULL) {
            try_case(rest + 1);
        } else {
            stop("not understood");
        }
    }
    fclose(file);
    if (now.number != BIM_PARTY) {
        printf("26 is not shown\n");
        failed++;
    }
    if (!rows || failed > 0)
        printf("%lu refusals, %lu other than the file says\n", cases, failed);
    return failed > 0;
}
