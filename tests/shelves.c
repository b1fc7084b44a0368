/* The C calls for shelves in buffers of exactly the bytes lent (lent.h), on the vectors of examples/shelves.txt:
 *
 *     shelves [--heap] FILE   asks each as it stands, in just enough room, a byte more and a byte less, with other areas, and cut short; exit status 1
 *                             where an answer is not the vector's. With --heap only in buffers from malloc
 *     shelves --rows FILE     prints the rows of docs/REFUSALS.md: every refusal of these calls, as the library answers it */
#include "lent.h"
#include <inttypes.h>
#include "bim.h"

enum asked { WRITE, READ, SALVAGE };
static const char *const call_names[] = {"bim_shelf_write", "bim_shelf_read", "bim_shelf_salvage"};

struct bytes {
    uint8_t at[16384];
    size_t length;
};

/* What is given, the rooms, and what is expected. */
struct vector {
    char name[256];
    enum asked asked;
    struct bytes given, made, dropped;
    size_t rooms[2];
    uint32_t number;
    uint8_t area[BIM_SHELF_AREA];
};

static unsigned long vectors, calls, failed;
static struct vector vector;

static void wrong(const char *why)
{
    if (failed++ < 20)
        printf("%s: %s\n", vector.name, why);
}

static void no_vector(const char *why)
{
    fprintf(stderr, "%s: %s\n", vector.name, why);
    exit(2);
}

static void set_hex(struct bytes *bytes, const char *text)
{
    unsigned byte;
    bytes->length = 0;
    for (; sscanf(text, "%2x", &byte) == 1; text += 2) {
        if (bytes->length == sizeof bytes->at)
            no_vector("too many bytes");
        bytes->at[bytes->length++] = (uint8_t)byte;
    }
}

/* A number of so many bytes. */
static void put_number(uint8_t *at, int bytes, uint64_t number)
{
    while (bytes-- > 0) {
        at[bytes] = (uint8_t)number;
        number >>= 8;
    }
}

/* Number, place and the five counts of the area. */
static void set_answer(char *text)
{
    int i;
    vector.number = (uint32_t)strtoul(text, &text, 10);
    put_number(vector.area, 4, strtoull(text, &text, 10));
    for (i = 0; i < 5; i++)
        put_number(vector.area + 4 + 8 * i, 8, strtoull(text, &text, 10));
}

static void add_dropped(char *text)
{
    int i;
    if (vector.dropped.length + BIM_DROPPED > sizeof vector.dropped.at)
        no_vector("too many entries");
    for (i = 0; i < 3; i++)
        put_number(vector.dropped.at + vector.dropped.length + 4 * i, 4, strtoull(text, &text, 10));
    vector.dropped.length += BIM_DROPPED;
}

/* The next vector of the file; 0 where there is none. What makes the bytes given is done by then: they stand in it. */
static int next_vector(FILE *file)
{
    static char line[1 << 16];
    memset(&vector, 0, sizeof vector);
    while (fgets(line, sizeof line, file) != NULL) {
        char *rest = strchr(line, ' ');
        line[strcspn(line, "\n")] = '\0';
        rest = rest == NULL ? line + strlen(line) : rest + 1;
        if (strncmp(line, "case ", 5) == 0)
            snprintf(vector.name, sizeof vector.name, "%s", rest);
        else if (strncmp(line, "write ", 6) == 0 || strncmp(line, "read ", 5) == 0 || strncmp(line, "salvage ", 8) == 0) {
            vector.asked = line[0] == 'w' ? WRITE : line[0] == 'r' ? READ : SALVAGE;
            vector.rooms[0] = strtoul(rest, &rest, 10);
            vector.rooms[1] = strtoul(rest, NULL, 10);
        } else if (strncmp(line, "given ", 6) == 0)
            set_hex(&vector.given, rest);
        else if (strncmp(line, "answer ", 7) == 0)
            set_answer(rest);
        else if (strncmp(line, "made ", 5) == 0)
            set_hex(&vector.made, rest);
        else if (strncmp(line, "dropped ", 8) == 0)
            add_dropped(rest);
        else if (strcmp(line, "end") == 0)
            return 1;
    }
    return 0;
}

/* What is asked of the vector: its own bytes and rooms or others; what the answer has to be, or -1 where any will do. */
struct trial {
    size_t given, rooms[2], area;
    int number;
};

static struct trial as_it_is(void)
{
    struct trial it;
    it.given = vector.given.length;
    memcpy(it.rooms, vector.rooms, sizeof it.rooms);
    it.area = BIM_SHELF_AREA;
    it.number = (int)vector.number;
    return it;
}

static uint32_t call(const struct trial *it, const uint8_t *given, uint8_t *made, uint8_t *dropped, uint8_t *area)
{
    switch (vector.asked) {
    case WRITE: return bim_shelf_write(given, it->given, made, it->rooms[0], area, it->area);
    case READ: return bim_shelf_read(given, it->given, made, it->rooms[0], area, it->area);
    default: return bim_shelf_salvage(given, it->given, made, it->rooms[0], dropped, it->rooms[1], area, it->area);
    }
}

static void ask(const struct trial *it)
{
    int i;
    for (i = 0; i < places; i++) {
        const enum place place = (enum place)i;
        uint8_t *given = lend(place, 0, it->given, vector.given.at), *made = lend(place, 1, it->rooms[0], NULL);
        uint8_t *dropped = lend(place, 2, it->rooms[1], NULL), *area = lend(place, 3, it->area, NULL);
        const uint32_t number = call(it, given, made, dropped, area);
        calls++;
        if (it->number >= 0 && number != (uint32_t)it->number)
            wrong("another number");
        if (number != BIM_ACCEPTED && !(all_zero(made, it->rooms[0]) && (vector.asked != SALVAGE || all_zero(dropped, it->rooms[1]))))
            wrong("a refusal left bytes");
        if (number == BIM_AREA_SIZE ? !all_zero(area, it->area) : number != BIM_ACCEPTED && !all_zero(area + 4, it->area - 4))
            wrong("a refusal left bytes in the area");
        if (number == vector.number && it->number == (int)number && number != BIM_AREA_SIZE && memcmp(area, vector.area, sizeof vector.area) != 0)
            wrong("another area");
        if (number == BIM_ACCEPTED && it->number == BIM_ACCEPTED &&
            !(is(made, it->rooms[0], vector.made.at, vector.made.length) && (vector.asked != SALVAGE || is(dropped, it->rooms[1], vector.dropped.at, vector.dropped.length))))
            wrong("other bytes");
        give_back(place, 0, given);
        give_back(place, 1, made);
        give_back(place, 2, dropped);
        give_back(place, 3, area);
    }
}

/* Just enough room, a byte more, and a byte less of each. */
static void ask_rooms(void)
{
    struct trial it = as_it_is();
    size_t i;
    for (i = 0; i < 2; i++) {
        it.rooms[0] = vector.made.length + i;
        it.rooms[1] = vector.dropped.length + i;
        ask(&it);
    }
    for (i = 0; i < 2; i++) {
        it.rooms[0] = vector.made.length;
        it.rooms[1] = vector.dropped.length;
        it.number = BIM_PAYLOAD_ROOM;
        if (it.rooms[i]-- > 0)
            ask(&it);
    }
}

/* Areas of another size; what is given cut short. */
static void ask_others(void)
{
    static const size_t areas[] = {0, 1, BIM_SHELF_AREA - 1, BIM_SHELF_AREA + 1, BIM_AREA};
    static const size_t shorter[] = {1, 2, 3, 5, 6, 7, 508, 511, 512, 513, 1024};
    struct trial it = as_it_is();
    size_t i;
    it.number = BIM_AREA_SIZE;
    for (i = 0; i < sizeof areas / sizeof areas[0]; i++) {
        it.area = areas[i];
        ask(&it);
    }
    it.area = BIM_SHELF_AREA;
    it.number = -1;
    for (i = 0; i < sizeof shorter / sizeof shorter[0] && shorter[i] <= vector.given.length; i++) {
        it.given = vector.given.length - shorter[i];
        ask(&it);
    }
}

/* The row of a refusal. */
static void print_row(void)
{
    static uint8_t area[BIM_SHELF_AREA], made[1 << 16], dropped[1 << 16];
    const struct trial it = as_it_is();
    const uint32_t number = call(&it, vector.given.at, made, dropped, area);
    printf("| %" PRIu32 " | %s | %s | `%s`, %zu bytes into %zu", number, bim_refusal_name(number), strchr(vector.name, ' ') + 1, call_names[vector.asked],
           vector.given.length, vector.rooms[0]);
    if (vector.asked == SALVAGE)
        printf(" and %zu", vector.rooms[1]);
    printf(" | %" PRIu32 " at %s%" PRIu32 " |\n", number, number == BIM_PAYLOAD_ROOM ? "" : "block ", bim_shelf_place(area));
}

int main(int argc, char **argv)
{
    static const uint32_t refusals[] = {BIM_PAYLOAD_ROOM, BIM_BLOCK_CHECK, BIM_BLOCK_TURN, BIM_BLOCK_LAYOUT};
    const int rows = argc == 3 && strcmp(argv[1], "--rows") == 0, heap = argc == 3 && strcmp(argv[1], "--heap") == 0;
    FILE *file = argc == 2 + (rows || heap) ? fopen(argv[argc - 1], "r") : NULL;
    size_t i;
    if (file == NULL) {
        fprintf(stderr, "shelves [--heap | --rows] FILE\n");
        return 2;
    }
    if (rows) {
        printf("| no. | refused because | shown by | asked | answer |\n|---|---|---|---|---|\n");
        for (i = 0; i < sizeof refusals / sizeof refusals[0]; i++, rewind(file))
            while (next_vector(file))
                if (vector.number == refusals[i])
                    print_row();
        fclose(file);
        return 0;
    }
    places = heap ? HEAP + 1 : PLACES;
    make_arenas();
    while (next_vector(file)) {
        const struct trial it = as_it_is();
        vectors++;
        ask(&it);
        if (vector.number == BIM_ACCEPTED)
            ask_rooms();
        ask_others();
    }
    fclose(file);
    printf("shelves: %lu vectors, %lu calls in buffers of exactly the bytes lent, %lu otherwise than expected\n", vectors, calls, failed);
    return failed > 0 || vectors == 0;
}
