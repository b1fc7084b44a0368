/* The stack that each call needs: stack VECTORS.. [--messages MESSAGES]. Each call runs on a stack of its own, painted before, between two pages that cannot be
 * touched; the deepest byte that lost its paint tells. Asked are the vectors, and chains of rows as deep as may be opened and deeper: every
 * pattern of up to four kinds of row over and over, with attributes and a text inside the last element, written in every mode, read back. In
 * the modes with type codes every element but the root is substituted, and could be cast. Short patterns are asked besides in tables as large as form 1
 * and form 2 have them, and with no more room for events than the list needs.
 * Prints the most bytes for each call, by the size of the table, and where; exit status 1 where a call takes more than BIM_STACK_FOR (include/bim.h) gives
 * for its table and its events. */
#define _XOPEN_SOURCE 700
#define _DEFAULT_SOURCE
#include <sys/mman.h>
#include <ucontext.h>
#include <unistd.h>
#include "bim_table.h"
#include "message_vector.h"

/* The root and the last element are open too, so the chain of 62 rows is the longest that may be. */
enum { STACK = 1 << 20, PAINT = 0xa5, LONGEST = BIM_MOST_NAMES - 2, MOST_PATTERN = 4 };

static uint8_t *stack;
static ucontext_t here, there;
static struct vector asked;
static uint8_t events[BIM_MOST_EVENTS * BIM_EVENT], texts[BIM_MOST_PAYLOAD], payload[BIM_MOST_PAYLOAD], area[BIM_AREA];
static uint32_t number;
/* The calls of the start-up message behind the others. */
enum { INIT_READ = CALLS, INIT_WRITE, ALL_CALLS };
static struct message_vector message;
static uint8_t codecs[1 << 16], init[BIM_INIT], written[1 << 16];
/* Counting a reading into a report is a call behind those. */
enum { REPORT_ADD = ALL_CALLS, MEASURED };
/* By the table: few or some words, form 1, form 2; none for a message. */
enum { SMALL, FORM_1, FORM_2, SIZES };
static const char *const size_names[SIZES] = {"a small table", "a table of form 1", "a table of form 2"};
static size_t most[MEASURED][SIZES];
static char most_in[MEASURED][SIZES][sizeof asked.name];
static unsigned long calls, over;
static int counting; /* the reading at hand is counted into a report */
static uint8_t report[BIM_REPORT];
static size_t lent = sizeof events; /* the room for events of a reading */

static void call(void)
{
    if (counting)
        number = bim_report_add(asked.table.at, asked.table.length, asked.party, asked.root_name, asked.root_type, asked.payload.at,
                                asked.payload.length, report, sizeof report);
    else if (asked.asked == CHECK)
        number = bim_check_table(asked.table.at, asked.table.length, area, sizeof area);
    else if (asked.asked == READ)
        number = bim_read(asked.table.at, asked.table.length, asked.party, asked.root_name, asked.root_type, asked.payload.at, asked.payload.length,
                          events, lent, texts, sizeof texts, area, sizeof area);
    else if (asked.asked == WRITE)
        number = bim_write(asked.table.at, asked.table.length, asked.party, asked.root_name, asked.root_type, asked.mode, asked.events.at,
                           asked.events.length, asked.texts.at, asked.texts.length, payload, sizeof payload, area, sizeof area);
    else if (asked.asked == SET_HELD)
        number = bim_set_held(asked.table.at, asked.table.length, asked.party, asked.type, asked.mark, area, sizeof area);
    else
        number = bim_write_lengths(asked.table.at, asked.table.length, asked.party, asked.root_name, asked.root_type, asked.events.at,
                                   asked.events.length, asked.texts.at, asked.texts.length, payload, sizeof payload, area, sizeof area);
}

static void call_of_message(void)
{
    if (message.writes)
        number = bim_init_write(message.init.at, message.init.length, message.codecs.at, message.codecs.length, message.given.at,
                                message.given.length, written, sizeof written, init, BIM_INIT_AREA);
    else
        number = bim_init_read(message.message.at, message.message.length, codecs, sizeof codecs, init, sizeof init);
}

/* Not by memset: its first call, at which the loader looks it up on the caller's stack, is left to the library. */
static void paint(void)
{
    volatile uint64_t *words = (volatile uint64_t *)stack;
    size_t i;
    for (i = 0; i < STACK / sizeof *words; i++)
        words[i] = PAINT * (UINT64_MAX / 255);
}

/* What a call may take: by the bytes of its table and of its events. A report has room for all events, whatever the table is. */
static size_t allowed(size_t which)
{
    const size_t table = which == INIT_READ || which == INIT_WRITE ? 0 : asked.table.length;
    if (which == REPORT_ADD)
        return BIM_STACK;
    return BIM_STACK_FOR(table, which == READ ? lent : which == WRITE || which == WRITE_LENGTHS ? asked.events.length : 0);
}

/* Asks on the painted stack. What is above the call there, this program's own frame, is counted too. */
static void measure_of(void (*once)(void), size_t which, const char *name)
{
    const size_t table = which == INIT_READ || which == INIT_WRITE ? 0 : asked.table.length;
    const size_t size = table <= 4096 ? SMALL : table <= 35856 ? FORM_1 : FORM_2;
    size_t low, used;
    paint();
    if (getcontext(&there) != 0)
        abort();
    there.uc_stack.ss_sp = stack;
    there.uc_stack.ss_size = STACK;
    there.uc_link = &here;
    makecontext(&there, once, 0);
    if (swapcontext(&here, &there) != 0)
        abort();
    for (low = 0; low < STACK && stack[low] == PAINT; low++)
        ;
    used = STACK - low;
    calls++;
    if (used > allowed(which)) {
        over++;
        printf("%s takes %lu bytes of stack, and BIM_STACK_FOR is %lu\n", name, (unsigned long)used, (unsigned long)allowed(which));
    }
    if (used > most[which][size]) {
        most[which][size] = used;
        memcpy(most_in[which][size], name, sizeof asked.name);
    }
}

static void measure(void)
{
    measure_of(call, counting ? (size_t)REPORT_ADD : (size_t)asked.asked, asked.name);
}

/* A reading, and the same counted into a report. */
static void measure_reading(void)
{
    measure();
    counting = 1;
    measure();
    counting = 0;
}

static void add_row(struct bytes *bytes, const uint32_t *row, size_t words)
{
    size_t i;
    for (i = 0; i < words; i++)
        add_word(bytes, row[i]);
}

/* Row i of a chain of this pattern: a digit to the base 4 for each kind, the lowest first. */
static uint32_t kind_at(uint32_t pattern, uint32_t length, uint32_t i)
{
    return pattern >> 2 * (i % length) & 3;
}

/* The words past the rows: every type of the chain but the first may be cast to that, and every element's one substitute is of its own type. */
static void chain_codes(uint32_t pattern, uint32_t length, uint32_t rows, uint32_t types, uint32_t particles)
{
    const uint32_t counts[] = {1, rows + 2, 0}, none[] = {0, 0}, derived[] = {0, 1};
    uint32_t i;
    add_row(&asked.table, counts, 3);
    for (i = 0; i < rows + 2; i++) {
        const uint32_t substitute[] = {9, i < rows ? i + 2 : 1};
        add_row(&asked.table, substitute, 2);
    }
    for (i = 0; i < types; i++)
        add_row(&asked.table, i == 0 || i > rows + 2 ? none : derived, 2);
    for (i = 0; i < particles; i++) {
        const uint32_t own[] = {i, 1};
        add_row(&asked.table, i > rows + 1 || (i < rows && kind_at(pattern, length, i) != BIM_ELEMENT) ? none : own, 2);
    }
}

/* A table of so many rows, each inside the one before. Type 0 is a text, type 1 the last element's with an attribute and a text, type 2 + i
 * that of element row i with an attribute and row i + 1; the root's type has row 0. A large table has as many rows of each kind as there may be, of which
 * nothing is used behind these. */
static void chain_table(uint32_t pattern, uint32_t length, uint32_t rows, uint32_t codes, int large)
{
    const uint32_t types = large ? 256 : rows + 3, attributes = large ? 1024 : 1, particles = large ? 1024 : rows + 2;
    const uint32_t header[] = {codes ? 2 : 1, types, attributes, particles}, text[] = {1, BIM_SIMPLE, 0, 0, BIM_TEXT, 0, 0};
    const uint32_t leaf[] = {1, BIM_SIMPLE, 0, 1, BIM_TEXT, 0, 0}, attribute[] = {7, 0, 0};
    uint32_t i;
    asked.table.length = 0;
    add_row(&asked.table, header, 4);
    add_row(&asked.table, text, 7);
    add_row(&asked.table, leaf, 7);
    for (i = 0; i <= rows; i++) {
        const uint32_t type[] = {1, BIM_PARTICLES, 0, 1, i == rows ? 0 : i + 1, 0, 0};
        add_row(&asked.table, type, 7);
    }
    for (i = rows + 3; i < types; i++)
        add_row(&asked.table, text, 7);
    for (i = 0; i < attributes; i++)
        add_row(&asked.table, attribute, 3);
    for (i = 0; i < rows; i++) {
        const uint32_t kind = kind_at(pattern, length, i);
        const uint32_t element[] = {BIM_ELEMENT, 3, i + 2, 0}, sequence[] = {BIM_SEQUENCE, i + 1, 1, 0};
        const uint32_t choice[] = {BIM_CHOICE, i + 1, 2, 0}, occurs[] = {BIM_OCCURS, i + 1, 0, BIM_UNBOUNDED};
        add_row(&asked.table, kind == BIM_ELEMENT ? element : kind == BIM_SEQUENCE ? sequence : kind == BIM_CHOICE ? choice : occurs, 4);
    }
    for (i = rows; i < particles; i++) {
        const uint32_t last[] = {BIM_ELEMENT, 5, 1, 0};
        add_row(&asked.table, last, 4);
    }
    if (codes)
        chain_codes(pattern, length, rows, types, particles);
    asked.root_name = 1;
    asked.root_type = asked.type = rows + 2;
    asked.party = 0;
    asked.mark = 1;
}

static void add_event(uint32_t kind, uint32_t p, uint32_t q)
{
    const uint32_t event[] = {kind, p, q, 0};
    add_row(&asked.events, event, 4);
}

/* A Start, the Cast of an element of this type where it has codes, and its attribute, a text of two bytes. */
static void add_start(uint32_t name, uint32_t type)
{
    const uint32_t lengths = asked.mode % BIM_CASTING;
    add_event(BIM_KIND_START, name, lengths > 0);
    if (asked.mode != lengths && name != asked.root_name)
        add_event(BIM_KIND_CAST, type, 1);
    add_event(BIM_KIND_ATTRIBUTE, 7, 1);
    add_event(BIM_KIND_VALUE, 2, 0);
    asked.texts.length += 2;
}

/* The list of that table. */
static void chain_list(uint32_t pattern, uint32_t length, uint32_t rows, uint32_t mode)
{
    uint32_t i, open = 2;
    asked.events.length = asked.texts.length = 0;
    asked.mode = mode;
    add_start(asked.root_name, asked.root_type);
    for (i = 0; i < rows; i++) {
        const uint32_t kind = kind_at(pattern, length, i);
        if (kind == BIM_ELEMENT) {
            add_start(3, i + 2);
            open++;
        } else if (kind == BIM_CHOICE)
            add_event(BIM_KIND_PICK, 0, 0);
        else if (kind == BIM_OCCURS)
            add_event(BIM_KIND_TIMES, 1, 0);
    }
    add_start(5, 1);
    add_event(BIM_KIND_VALUE, 2, 0);
    asked.texts.length += 2;
    for (i = 0; i < open; i++)
        add_event(BIM_KIND_END, 0, 0);
    for (i = 0; i < asked.texts.length; i += 2)
        memcpy(asked.texts.at + i, "\xc3\xa9", 2);
}

/* Both calls on a chain, in the modes with type codes or in those without; answers whether it was accepted. With little room for events as many are lent
 * as the list has, which is enough. */
static int measure_chain(uint32_t pattern, uint32_t length, uint32_t rows, uint32_t codes, int large, int little)
{
    static const char letters[] = "ESCO";
    int accepted = 1;
    uint32_t i, mode;
    chain_table(pattern, length, rows, codes, large);
    snprintf(asked.name, sizeof asked.name, "the table of %lu rows, form %d%s", (unsigned long)rows, codes ? 2 : 1, large ? ", large" : "");
    asked.asked = CHECK;
    measure();
    asked.asked = SET_HELD;
    measure();
    for (mode = codes; mode < codes + 3; mode++) {
        int at = snprintf(asked.name, sizeof asked.name, "%lu rows, ", (unsigned long)rows);
        for (i = 0; i < length; i++)
            at += snprintf(asked.name + at, 2, "%c", letters[kind_at(pattern, length, i)]);
        snprintf(asked.name + at, 48, " over and over, mode %lu", (unsigned long)mode);
        chain_list(pattern, length, rows, mode);
        if (mode == BIM_MODE_ALWAYS) {
            asked.asked = WRITE_LENGTHS;
            measure();
        }
        asked.asked = WRITE;
        measure();
        if (number == BIM_ACCEPTED) {
            asked.payload.length = (bim_area_bits(area) + 7) / 8;
            memcpy(asked.payload.at, payload, asked.payload.length);
        } else if (number != BIM_DEPTH) {
            fprintf(stderr, "%s: %s at %lu\n", asked.name, bim_refusal_name(number), (unsigned long)bim_area_place(area));
            exit(2);
        }
        /* Too deep a list has no payload: the one before, of a row less, leads the reader as deep as it gets. */
        asked.asked = READ;
        lent = little ? asked.events.length : sizeof events;
        accepted &= number == BIM_ACCEPTED;
        measure_reading();
        lent = sizeof events;
    }
    return accepted;
}

static void measure_chains(void)
{
    uint32_t codes, length, pattern, rows;
    int way;
    for (codes = 0; codes <= BIM_CASTING; codes += BIM_CASTING)
        for (length = 1; length <= MOST_PATTERN; length++)
            for (pattern = 0; pattern < (uint32_t)1 << 2 * length; pattern++)
                for (rows = LONGEST; rows <= LONGEST + 2; rows++)
                    for (way = 0; way < (length == 1 ? 4 : 1); way++)
                        if (measure_chain(pattern, length, rows, codes, way % 2, way / 2) != (rows == LONGEST)) {
                            fprintf(stderr, "%s: the limit is elsewhere\n", asked.name);
                            exit(2);
                        }
}

int main(int argc, char **argv)
{
    const size_t page = (size_t)sysconf(_SC_PAGESIZE);
    uint8_t *whole = (uint8_t *)mmap(NULL, STACK + 2 * page, PROT_NONE, MAP_PRIVATE | MAP_ANONYMOUS, -1, 0);
    int i, size;
    if (whole == (uint8_t *)MAP_FAILED || mprotect(whole + page, STACK, PROT_READ | PROT_WRITE) != 0) {
        perror("stack: no pages");
        return 2;
    }
    stack = whole + page;
    measure_chains();
    for (i = 1; i < argc; i++) {
        const int of_messages = strcmp(argv[i], "--messages") == 0 && i + 1 < argc;
        FILE *file = fopen(argv[i += of_messages], "r");
        if (file == NULL) {
            perror(argv[i]);
            return 2;
        }
        while (of_messages && next_message(file, &message))
            measure_of(call_of_message, message.writes ? INIT_WRITE : INIT_READ, message.name);
        while (!of_messages && next_vector(file, &asked))
            if (asked.asked == READ)
                measure_reading();
            else
                measure();
        fclose(file);
    }
    for (i = 0; i < MEASURED; i++) {
        const char *const name = i == INIT_READ ? "bim_init_read" : i == INIT_WRITE ? "bim_init_write" : i == REPORT_ADD ? "bim_report_add" : call_names[i];
        for (size = SMALL; size < SIZES; size++)
            if (most[i][size] > 0)
                printf("%-17s %6lu bytes of stack, %s (%s)\n", name, (unsigned long)most[i][size],
                       i == INIT_READ || i == INIT_WRITE ? "no table" : size_names[size], most_in[i][size]);
    }
    printf("%lu calls measured; BIM_STACK is %lu%s\n", calls, (unsigned long)BIM_STACK, over ? ": TOO LITTLE" : "");
    return over != 0;
}
