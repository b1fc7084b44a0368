/* One reading of a payload: what was asked and what was answered; and which element a refusal 9 is of. */
#ifndef READING_H
#define READING_H

#include "bim_walk.h"
#include "io.h"

struct reading {
    uint8_t table[BIM_MOST_TABLE + 4], payload[BIM_MOST_PAYLOAD + 1];
    size_t table_bytes, payload_bytes;
    uint32_t party, root_name, root_type;
    uint32_t number, blanks;
    uint8_t events[BIM_MOST_EVENTS * BIM_EVENT], texts[BIM_MOST_PAYLOAD], area[BIM_AREA];
};

/* Reads the payload, and counts its Blanks. */
static inline void read_payload(struct reading *it)
{
    uint32_t i;
    it->number = bim_read(it->table, it->table_bytes, it->party, it->root_name, it->root_type, it->payload, it->payload_bytes,
                          it->events, sizeof it->events, it->texts, sizeof it->texts, it->area, sizeof it->area);
    it->blanks = 0;
    for (i = 0; i < bim_area_events(it->area); i++)
        it->blanks += bim_event_kind(it->events, i) == BIM_KIND_BLANK;
}

static inline void walk_reading(struct bim_walk *walk, const struct reading *it)
{
    bim_walk_area(walk, it->table, it->root_name, it->root_type, it->events, it->texts, it->area);
}

/* Whether a refusal has a bit for its place. */
static inline int has_place(uint32_t number)
{
    return number >= BIM_PAST_END && number != BIM_PARTY;
}

/* What can be told of the element that a refusal 9 is of. */
struct unheld {
    int has_type, has_name;
    uint32_t type, name;     /* the name as a Blank has it, the row's own */
    uint32_t number, place; /* how the payload is refused where every type is held; the name cannot be told then */
};

/* The element: with every type held the payload is read, and the first Start at that bit whose type is not held is the one. (Where several begin at
 * one bit none has a length, so that none before it can be a Blank.) Answers whether it is read. */
static inline int find_element(const struct reading *it, struct reading *again, struct unheld *found)
{
    struct bim_walk walk;
    struct bim_step step;
    uint32_t type;
    for (type = 0; type < bim_types(it->table); type++)
        bim_set_held(again->table, again->table_bytes, it->party, type, 1, again->area, sizeof again->area);
    read_payload(again);
    found->number = again->number;
    found->place = bim_area_place(again->area);
    if (again->number != BIM_ACCEPTED)
        return 0;
    walk_reading(&walk, again);
    while (!found->has_name && bim_walk_next(&walk, &step) == 1)
        if (step.kind == BIM_KIND_START && step.place == bim_area_place(it->area) && !bim_is_held(it->table, it->party, step.type)) {
            found->has_name = found->has_type = 1;
            found->name = step.p;
            found->type = step.type;
        }
    return 1;
}

/* Its type alone: the one without whose mark the reading stops there, and with which it goes on. (Marking a type may also open a Blank that stands
 * before the place and is damaged inside: then nothing is told of it.) */
static inline void find_type(const struct reading *it, struct reading *again, struct unheld *found)
{
    const uint32_t place = bim_area_place(it->area), names = bim_area_names(it->area);
    uint32_t type;
    for (type = 0; !found->has_type && type < bim_types(it->table); type++) {
        if (bim_is_held(it->table, it->party, type))
            continue;
        memcpy(again->table, it->table, it->table_bytes);
        bim_set_held(again->table, again->table_bytes, it->party, type, 1, again->area, sizeof again->area);
        read_payload(again);
        found->has_type = again->number == BIM_ACCEPTED || bim_area_place(again->area) > place ||
                          (bim_area_place(again->area) == place && (again->number != BIM_NOT_HELD || bim_area_names(again->area) != names));
        found->type = type;
    }
}

/* Of which element and type a payload was refused 9. */
static inline void find_unheld(const struct reading *it, struct unheld *found)
{
    static struct reading again;
    memset(found, 0, sizeof *found);
    again = *it;
    if (!find_element(it, &again, found))
        find_type(it, &again, found);
}

/* A date, and behind `between` the time of day where there is one: 2026-11-15, 2026-11-15 18:30:00.000. */
static inline void put_date(const struct bim_step *step, char between)
{
    const uint32_t ms = bim_date_ms(step->q);
    printf("%04lu-%02lu-%02lu", (unsigned long)bim_date_year(step->p), (unsigned long)bim_date_month(step->p), (unsigned long)bim_date_day(step->q));
    if (step->simple == BIM_DATE_TIME)
        printf("%c%02lu:%02lu:%02lu.%03lu", between, (unsigned long)(ms / 3600000), (unsigned long)(ms / 60000 % 60), (unsigned long)(ms / 1000 % 60),
               (unsigned long)(ms % 1000));
}

/* The fewest digits, from 6 on, that are this very number; 9 always are. */
static inline const char *float_digits(uint32_t bits)
{
    static char digits[32];
    float single;
    int precision = 6;
    memcpy(&single, &bits, sizeof single);
    do
        snprintf(digits, sizeof digits, "%.*g", precision, (double)single);
    while (precision++ < 9 && strtof(digits, NULL) != single);
    return digits;
}

#endif
