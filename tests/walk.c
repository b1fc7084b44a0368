/* bim_walk.h on every list there is: what bim_read gives is walked to its end, with the bits, texts and depths that it has; and what is walked to -1, of
 * lists that are changed or cut in every event, is what bim_write refuses.
 *
 *     walk PAYLOADS LISTS */
#include "bim_walk.h"
#include "vector.h"

static uint8_t events[BIM_MOST_EVENTS * BIM_EVENT], texts[BIM_MOST_PAYLOAD], payload[BIM_MOST_PAYLOAD], area[BIM_AREA];
static struct vector vector;
static unsigned long walked, steps, changed, refused, failed;

static void fail(const char *why)
{
    printf("%s: %s\n", vector.name, why);
    failed++;
}

/* Every party's mark at every type, so that bim_write judges the list and nothing else. */
static void hold_all(void)
{
    uint32_t type;
    for (type = 0; type < bim_types(vector.table.at); type++)
        vector.table.at[4 * bim_type_at(type) + 3] = 0xff;
}

/* Walks a list; answers how it ends. What is open when it ends must be nothing. */
static int walk_list(uint32_t mode, const uint8_t *list, uint32_t count, const uint8_t *bytes, uint32_t text_bytes, uint32_t *place)
{
    struct bim_walk walk;
    struct bim_step step;
    uint32_t taken = 0, text = 0, depth = 0;
    int more;
    bim_walk_begin(&walk, vector.table.at, vector.root_name, vector.root_type, mode, list, count, bytes, text_bytes);
    *place = 8;
    while ((more = bim_walk_next(&walk, &step)) == 1) {
        const int begins = step.kind == BIM_KIND_START || step.kind == BIM_KIND_BLANK;
        if (step.event != taken || step.kind != bim_event_kind(list, taken) || step.place != *place || step.type >= bim_types(vector.table.at))
            fail("a step is another event");
        if (step.depth != (begins ? depth : depth - 1))
            fail("a step is at another depth");
        if ((step.text != NULL) != (step.kind == BIM_KIND_VALUE && step.simple == BIM_TEXT) || (step.text != NULL && step.text != bytes + text))
            fail("a step has another text");
        if ((step.simple == BIM_NO_SIMPLE) != (step.kind != BIM_KIND_VALUE && step.kind != BIM_KIND_ATTRIBUTE))
            fail("a step has another simple kind");
        if (step.kind == BIM_KIND_PICK && step.p >= bim_particle_row(vector.table.at, step.row).q)
            fail("a branch that is none is walked");
        taken++;
        *place += step.bits;
        text += step.text != NULL ? step.p : 0;
        depth += step.kind == BIM_KIND_START;
        depth -= step.kind == BIM_KIND_END;
        steps++;
    }
    if (more == 0 && (taken != count || depth != 0 || text != text_bytes))
        fail("the end is not the list's");
    return more;
}

/* The walk may end with 0 where a value is outside its row; where it ends with -1 the list is refused, unless it has Blanks, which are refused anyway. */
static void try_changed(uint32_t mode, uint32_t count, uint32_t text_bytes)
{
    uint32_t place;
    changed++;
    if (walk_list(mode, events, count, texts, text_bytes, &place) == 0)
        return;
    refused++;
    if (bim_write(vector.table.at, vector.table.length, 0, vector.root_name, vector.root_type, mode, events, BIM_EVENT * count,
                  texts, text_bytes, payload, sizeof payload, area, sizeof area) == BIM_ACCEPTED)
        fail("a list that is written is not walked");
}

/* Each event with another kind, p and q; gone; and the list cut before it. */
static void change_list(uint32_t mode, uint32_t count, uint32_t text_bytes)
{
    static uint8_t kept[sizeof events];
    uint32_t i, word, more;
    memcpy(kept, events, sizeof events);
    hold_all();
    for (i = 0; i < count; i++) {
        for (word = 0; word < 3; word++)
            for (more = 1; more < 9; more++) {
                put_word(events + BIM_EVENT * i + 4 * word, bim_word(kept + BIM_EVENT * i + 4 * word) + more);
                try_changed(mode, count, text_bytes);
                put_word(events + BIM_EVENT * i + 4 * word, bim_word(kept + BIM_EVENT * i + 4 * word));
            }
        put_word(events + BIM_EVENT * i + 4, 0xffffffffu);
        try_changed(mode, count, text_bytes);
        memcpy(events, kept, sizeof events);
        memmove(events + BIM_EVENT * i, events + BIM_EVENT * (i + 1), BIM_EVENT * (count - i - 1));
        try_changed(mode, count - 1, text_bytes);
        memcpy(events, kept, sizeof events);
        try_changed(mode, i, text_bytes);
    }
    if (text_bytes > 0)
        try_changed(mode, count, text_bytes - 1);
}

static void try_vector(void)
{
    uint32_t place, count, text_bytes, mode;
    if (vector.asked == READ) {
        if (bim_read(vector.table.at, vector.table.length, vector.party, vector.root_name, vector.root_type, vector.payload.at,
                     vector.payload.length, events, sizeof events, texts, sizeof texts, area, sizeof area) != BIM_ACCEPTED)
            return;
        mode = bim_area_mode(area);
    } else {
        if (vector.number != BIM_ACCEPTED || vector.asked == SET_HELD)
            return;
        mode = vector.asked == WRITE ? vector.mode : BIM_MODE_ALWAYS;
        memcpy(area, vector.area, sizeof area);
        memcpy(events, vector.events.at, vector.events.length);
        memcpy(texts, vector.texts.at, vector.texts.length);
    }
    count = bim_area_events(area);
    text_bytes = bim_area_text(area);
    if (walk_list(mode, events, count, texts, text_bytes, &place) != 0)
        fail("the list is not walked to its end");
    if (vector.asked == READ && place != bim_area_bits(area))
        fail("the bits are others");
    walked++;
    if (count < 200)
        change_list(mode, count, text_bytes);
}

int main(int argc, char **argv)
{
    int i;
    for (i = 1; i < argc; i++) {
        FILE *file = fopen(argv[i], "r");
        if (file == NULL) {
            perror(argv[i]);
            return 2;
        }
        while (next_vector(file, &vector))
            try_vector();
        fclose(file);
    }
    printf("walk: %lu lists to their ends, %lu steps; %lu changed lists, of which %lu not walked, and none of these written; %lu failures\n", walked,
           steps, changed, refused, failed);
    return failed > 0 || walked < 100;
}
