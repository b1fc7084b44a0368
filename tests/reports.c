/* bim_report_add in buffers of exactly the bytes lent: reports [--heap] VECTORS. Every vector of examples/reports.txt is asked in buffers from malloc,
 * and in such as begin and end at pages that cannot be touched (tests/lent.h). `reports --five` makes the five additions of the request's page
 * and prints the report as the page has it. Exit status 1 where an answer or a report is not the vector's. */
#define _DEFAULT_SOURCE
#include "lent.h"
#include "vector.h"
#include "report.h"

static unsigned long calls, failed;

/* What is given and what is expected. */
static struct {
    char name[256];
    uint32_t party, root_name, root_type, number;
    struct bytes table, payload;
    uint8_t before[2 * BIM_REPORT], now[2 * BIM_REPORT];
    size_t report_bytes;
} it;

static void put_number(uint8_t *report, size_t i, uint64_t number)
{
    put_word(report + 8 * i, (uint32_t)(number >> 32));
    put_word(report + 8 * i + 4, (uint32_t)number);
}

/* index:number, one behind the other. */
static void put_numbers(uint8_t *report, char *text)
{
    char *pair;
    for (pair = strtok(text, " "); pair != NULL; pair = strtok(NULL, " ")) {
        char *number;
        const unsigned long i = strtoul(pair, &number, 10);
        if (*number != ':' || i >= BIM_REPORT / 8) {
            fprintf(stderr, "%s: %s is no number of a report\n", it.name, pair);
            exit(2);
        }
        put_number(report, i, strtoull(number + 1, NULL, 10));
    }
}

static void put_hex(struct bytes *bytes, const char *text)
{
    unsigned byte;
    for (bytes->length = 0; sscanf(text, "%2x", &byte) == 1; text += 2)
        bytes->at[bytes->length++] = (uint8_t)byte;
}

static void add_lines(char *text)
{
    const unsigned long count = strtoul(text, &text, 10);
    unsigned long i, name = strtoul(text, NULL, 10);
    for (i = 0; i < count && i < BIM_REPORT_LINES; i++) {
        put_number(it.before, 72 + 4 * i, name++);
        put_number(it.before, 73 + 4 * i, 1);
    }
}

/* The next vector of the file; 0 where there is none. */
static int next_report(FILE *file)
{
    static char line[1 << 16];
    int changed = 0;
    memset(&it, 0, sizeof it);
    it.report_bytes = BIM_REPORT;
    while (fgets(line, sizeof line, file) != NULL) {
        char *rest = strchr(line, ' ');
        line[strcspn(line, "\n")] = '\0';
        rest = rest == NULL ? line + strlen(line) : rest + 1;
        if (strncmp(line, "case ", 5) == 0)
            snprintf(it.name, sizeof it.name, "%s", rest);
        else if (strncmp(line, "table ", 6) == 0)
            add_words(&it.table, rest);
        else if (strncmp(line, "party ", 6) == 0)
            it.party = (uint32_t)strtoul(rest, NULL, 10);
        else if (strncmp(line, "root ", 5) == 0) {
            it.root_name = (uint32_t)strtoul(rest, &rest, 10);
            it.root_type = (uint32_t)strtoul(rest, NULL, 10);
        } else if (strncmp(line, "payload ", 8) == 0)
            put_hex(&it.payload, rest);
        else if (strncmp(line, "lines ", 6) == 0)
            add_lines(rest);
        else if (strncmp(line, "before ", 7) == 0)
            put_numbers(it.before, rest);
        else if (strncmp(line, "bytes ", 6) == 0)
            it.report_bytes = strtoul(rest, NULL, 10);
        else if (strncmp(line, "answer ", 7) == 0) {
            it.number = (uint32_t)strtoul(rest, NULL, 10);
            memcpy(it.now, it.before, sizeof it.now);
            changed = 1;
        } else if (strncmp(line, "now ", 4) == 0 && changed)
            put_numbers(it.now, rest);
        else if (strcmp(line, "end") == 0) {
            if (it.report_bytes > sizeof it.before)
                exit(2);
            if (it.report_bytes != BIM_REPORT) {
                memset(it.before, 0xdd, sizeof it.before);
                memset(it.now, 0, sizeof it.now);
            }
            return 1;
        } else if (line[0] != '#' && line[0] != '\0') {
            fprintf(stderr, "%s: not understood: %s\n", it.name, line);
            exit(2);
        }
    }
    return 0;
}

static void ask_in(enum place place)
{
    uint8_t *table = lend(place, 0, it.table.length, it.table.at), *payload = lend(place, 1, it.payload.length, it.payload.at);
    uint8_t *report = lend(place, 2, it.report_bytes, NULL);
    uint32_t number;
    if (it.report_bytes > 0)
        memcpy(report, it.before, it.report_bytes);
    number = bim_report_add(table, it.table.length, it.party, it.root_name, it.root_type, payload, it.payload.length, report, it.report_bytes);
    calls++;
    if (number != it.number || (it.report_bytes > 0 && memcmp(report, it.now, it.report_bytes) != 0)) {
        if (failed++ < 20)
            printf("%s: %s (%lu)\n", it.name, number != it.number ? "another number" : "another report", (unsigned long)number);
    }
    give_back(place, 0, table);
    give_back(place, 1, payload);
    give_back(place, 2, report);
}

/* The vectors of the page's five additions are the first; each begins with what the one before it left. */
static int five(FILE *file)
{
    static uint8_t report[BIM_REPORT];
    int i;
    for (i = 0; i < 5 && next_report(file); i++)
        bim_report_add(it.table.at, it.table.length, it.party, it.root_name, it.root_type, it.payload.at, it.payload.length, report, sizeof report);
    report_for_people(stdout, report);
    return i < 5;
}

int main(int argc, char **argv)
{
    unsigned long vectors = 0;
    const int heap = argc == 3 && strcmp(argv[1], "--heap") == 0, first = argc == 3 && strcmp(argv[1], "--five") == 0;
    FILE *file;
    int place;
    if (argc != 2 && !heap && !first) {
        fprintf(stderr, "reports [--heap|--five] VECTORS\n");
        return 2;
    }
    file = fopen(argv[argc - 1], "r");
    if (file == NULL) {
        perror(argv[argc - 1]);
        return 2;
    }
    if (first)
        return five(file);
    if (heap)
        places = TO_THE_END;
    else
        make_arenas();
    while (next_report(file)) {
        vectors++;
        for (place = HEAP; place < places; place++)
            ask_in((enum place)place);
    }
    fclose(file);
    printf("reports: %lu vectors, %lu calls, %lu otherwise\n", vectors, calls, failed);
    return failed > 0 || vectors == 0;
}
