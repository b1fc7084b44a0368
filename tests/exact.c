/* The C calls in buffers of exactly the bytes lent: exact [--heap] VECTORS.. Every vector is asked as it stands, in just enough room, in a
 * byte less and more, with other areas, and cut short, each time in the buffers of lent.h; with --heap only in those from malloc. Exit
 * status 1 where an answer is not the vector's. */
#include "lent.h"
#include "vector.h"

static unsigned long calls, failed;
static const char *asking;

static void wrong(const char *why)
{
    if (failed++ < 20)
        printf("%s: %s\n", asking, why);
}

/* What is asked of a vector: its own rooms or others, and what the answer has to be. */
struct trial {
    const struct vector *vector;
    size_t table_bytes, payload_bytes, event_room, text_room, payload_room, area_room;
    int number;   /* -1 where any will do */
    int area_too; /* the vector's area is expected */
};

static uint32_t check_once(const struct trial *it, enum place place, uint8_t *area)
{
    uint8_t *table = lend(place, 0, it->table_bytes, it->vector->table.at);
    const uint32_t number = bim_check_table(table, it->table_bytes, area, it->area_room);
    give_back(place, 0, table);
    return number;
}

static uint32_t read_once(const struct trial *it, enum place place, uint8_t *area)
{
    const struct vector *vector = it->vector;
    uint8_t *table = lend(place, 0, it->table_bytes, vector->table.at), *payload = lend(place, 1, it->payload_bytes, vector->payload.at);
    uint8_t *events = lend(place, 2, it->event_room, NULL), *texts = lend(place, 3, it->text_room, NULL);
    const uint32_t number = bim_read(table, it->table_bytes, vector->party, vector->root_name, vector->root_type, payload, it->payload_bytes,
                                     events, it->event_room, texts, it->text_room, area, it->area_room);
    if (number != BIM_ACCEPTED && !(all_zero(events, it->event_room) && all_zero(texts, it->text_room)))
        wrong("a refusal left bytes");
    if (number == BIM_ACCEPTED && it->number == BIM_ACCEPTED &&
        !(is(events, it->event_room, vector->events.at, vector->events.length) && is(texts, it->text_room, vector->texts.at, vector->texts.length)))
        wrong("other events or texts");
    give_back(place, 0, table);
    give_back(place, 1, payload);
    give_back(place, 2, events);
    give_back(place, 3, texts);
    return number;
}

static uint32_t write_once(const struct trial *it, enum place place, uint8_t *area)
{
    const struct vector *vector = it->vector;
    uint8_t *table = lend(place, 0, it->table_bytes, vector->table.at);
    uint8_t *events = lend(place, 1, vector->events.length, vector->events.at), *texts = lend(place, 2, vector->texts.length, vector->texts.at);
    uint8_t *payload = lend(place, 3, it->payload_room, NULL);
    const uint32_t number =
        vector->asked == WRITE
            ? bim_write(table, it->table_bytes, vector->party, vector->root_name, vector->root_type, vector->mode, events,
                        vector->events.length, texts, vector->texts.length, payload, it->payload_room, area, it->area_room)
            : bim_write_lengths(table, it->table_bytes, vector->party, vector->root_name, vector->root_type, events, vector->events.length, texts,
                                vector->texts.length, payload, it->payload_room, area, it->area_room);
    if (number != BIM_ACCEPTED && !all_zero(payload, it->payload_room))
        wrong("a refusal left bytes");
    if (number == BIM_ACCEPTED && it->number == BIM_ACCEPTED && !is(payload, it->payload_room, vector->payload.at, vector->payload.length))
        wrong("another payload");
    give_back(place, 0, table);
    give_back(place, 1, events);
    give_back(place, 2, texts);
    give_back(place, 3, payload);
    return number;
}

/* The table is changed where it lies, so that it is lent for writing; what it holds before is the vector's. */
static uint32_t set_once(const struct trial *it, enum place place, uint8_t *area)
{
    const struct vector *vector = it->vector;
    uint8_t *table = lend(place, 0, it->table_bytes, NULL);
    uint32_t number;
    if (it->table_bytes > 0)
        memcpy(table, vector->table.at, it->table_bytes);
    number = bim_set_held(table, it->table_bytes, vector->party, vector->type, vector->mark, area, it->area_room);
    if (number != BIM_ACCEPTED && it->table_bytes > 0 && memcmp(table, vector->table.at, it->table_bytes) != 0)
        wrong("a refusal changed the table");
    if (number == BIM_ACCEPTED && it->number == BIM_ACCEPTED && !is(table, it->table_bytes, vector->now.at, vector->now.length))
        wrong("another table");
    give_back(place, 0, table);
    return number;
}

static void ask(const struct trial *it)
{
    uint32_t (*const once[])(const struct trial *, enum place, uint8_t *) = {check_once, read_once, write_once, write_once, set_once};
    int place;
    for (place = 0; place < places; place++) {
        uint8_t *area = lend((enum place)place, 4, it->area_room, NULL);
        const uint32_t number = once[it->vector->asked](it, (enum place)place, area);
        calls++;
        if (number > BIM_PARTY || (it->number >= 0 && number != (uint32_t)it->number))
            wrong("another number");
        if (it->area_too && memcmp(area, it->vector->area, BIM_AREA) != 0)
            wrong("another area");
        if (number == BIM_AREA_SIZE && !all_zero(area, it->area_room))
            wrong("an area of another size is not 0");
        give_back((enum place)place, 4, area);
    }
}

/* The vector as it stands. */
static struct trial as_it_is(const struct vector *vector)
{
    struct trial it;
    it.vector = vector;
    it.table_bytes = vector->table.length;
    it.payload_bytes = vector->payload.length;
    it.event_room = vector->event_room;
    it.text_room = vector->text_room;
    it.payload_room = vector->payload_room;
    it.area_room = BIM_AREA;
    it.number = (int)vector->number;
    it.area_too = 1;
    return it;
}

/* Just enough room, a byte more, and a byte less of each. */
static void ask_rooms(const struct vector *vector)
{
    struct trial it = as_it_is(vector);
    size_t more;
    for (more = 0; more < 2; more++) {
        it.event_room = vector->events.length + more;
        it.text_room = vector->texts.length + more;
        it.payload_room = vector->payload.length + more;
        ask(&it);
    }
    it = as_it_is(vector);
    it.area_too = 0;
    if (vector->asked == READ) {
        it.text_room = vector->texts.length;
        it.event_room = vector->events.length - 1;
        it.number = BIM_EVENT_ROOM;
        ask(&it);
        it.event_room++;
        it.text_room--;
        it.number = BIM_TEXT_ROOM;
        if (vector->texts.length > 0)
            ask(&it);
    } else {
        it.payload_room = vector->payload.length - 1;
        it.number = BIM_PAYLOAD_ROOM;
        ask(&it);
    }
}

/* Areas of another size; tables and payloads cut short. */
static void ask_others(const struct vector *vector)
{
    static const size_t areas[] = {0, 1, 151, 153, 300};
    struct trial it = as_it_is(vector);
    size_t i;
    it.area_too = 0;
    it.number = BIM_AREA_SIZE;
    for (i = 0; i < sizeof areas / sizeof areas[0]; i++) {
        it.area_room = areas[i];
        ask(&it);
    }
    it.area_room = BIM_AREA;
    it.number = -1;
    for (i = 1; i <= 40 && i <= vector->payload.length && vector->asked == READ; i++) {
        it.payload_bytes = vector->payload.length - i;
        ask(&it);
    }
    it.payload_bytes = vector->payload.length;
    it.number = vector->number == BIM_TABLE ? -1 : BIM_TABLE;
    for (i = 1; i <= 9 && i <= vector->table.length; i++) {
        it.table_bytes = vector->table.length - i;
        ask(&it);
    }
}

int main(int argc, char **argv)
{
    static struct vector vector;
    unsigned long vectors = 0;
    int i;
    if (argc > 1 && strcmp(argv[1], "--heap") == 0) {
        places = HEAP + 1;
        argc--;
        argv++;
    }
    make_arenas();
    for (i = 1; i < argc; i++) {
        FILE *file = fopen(argv[i], "r");
        if (file == NULL) {
            perror(argv[i]);
            return 2;
        }
        while (next_vector(file, &vector)) {
            const struct trial it = as_it_is(&vector);
            asking = vector.name;
            vectors++;
            ask(&it);
            if (vector.number == BIM_ACCEPTED && vector.asked != CHECK && vector.asked != SET_HELD)
                ask_rooms(&vector);
            ask_others(&vector);
        }
        fclose(file);
    }
    printf("exact: %lu vectors, %lu calls in buffers of exactly the bytes lent, %lu otherwise than expected\n", vectors, calls, failed);
    return failed > 0 || vectors == 0;
}
