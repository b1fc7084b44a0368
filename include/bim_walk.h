/* A list of events beside its table, event by event: of which element, type and simple kind each is, how deep it stands, at which bit, with which
 * text. It is for whoever shows, keeps or compares what bim_read gave; `bim.h` has the grammar of a list.
 *
 *     struct bim_walk walk;
 *     struct bim_step step;
 *     int more;
 *     bim_walk_area(&walk, table, root_name, root_type, events, texts, area);
 *     while ((more = bim_walk_next(&walk, &step)) == 1)
 *         use(&step);
 *
 * The table is one that bim_check_table accepted, and has the root's type. The list is any: where it is not what the table lets come, the walk ends
 * with -1. Of a list that bim_read gave for this table it ends with 0. Values are not judged against their types: that is bim_write's.
 */
#ifndef BIM_WALK_H
#define BIM_WALK_H

#include "bim_table.h"

#ifdef __cplusplus
extern "C" {
#endif

/* The root has no particle row, and what is neither an Attribute nor a Value no simple kind. */
#define BIM_NO_ROW 4294967295u
#define BIM_NO_SIMPLE 4294967295u

/* One event, and what it belongs to. ITS ELEMENT is, of a Start, Cast, Blank or End, the element that these are of; of any other event the innermost
 * that is open. */
struct bim_step {
    uint32_t event;            /* which, from 0 */
    uint32_t kind, p, q, bits; /* its words */
    uint32_t place;            /* its first bit, in the payload that it was read from */
    uint32_t depth;            /* how many elements its element stands in: 0 for the root and what belongs to it */
    uint32_t name;             /* in effect, of its element: a substitute's where one stands for it (a Blank does not tell) */
    uint32_t type;             /* of an Attribute and its Value the attribute's; of any other its element's, in effect */
    uint32_t simple;           /* of an Attribute and a Value the simple kind of its type, else BIM_NO_SIMPLE */
    uint32_t row;              /* of an Attribute and its Value the attribute row; of Pick and Times their own particle row; of any other event
                                  that of its element, or BIM_NO_ROW */
    int of_attribute;          /* whether it is an Attribute, or a Value of one */
    const uint8_t *text;       /* of a Value of kind BIM_TEXT: its p bytes; else null */
};

/* What is open: an element that waits for one of its own events, or a particle row that waits for what is left of it. */
enum {
    BIM_AT_ROW,         /* a row that is next */
    BIM_AT_CHILDREN,    /* so many rows from this on */
    BIM_AT_TIMES,       /* so many times this row */
    BIM_AT_CAST,        /* in an element: its Cast is next */
    BIM_AT_ATTRIBUTES,  /* so many of its attributes are past */
    BIM_AT_ATTRIBUTE,   /* the Value of the next of them is next */
    BIM_AT_VALUE,       /* its own Value is next */
    BIM_AT_CONTENT,     /* its particles are next */
    BIM_AT_END          /* its End is next */
};
struct bim_open {
    uint32_t at, row, count, name, type;
};

/* A walk; all of it is the functions' own. */
struct bim_walk {
    const uint8_t *table, *events, *texts;
    uint32_t mode, events_left, texts_left, event, place, depth, root_name, root_type, open;
    struct bim_open opened[BIM_MOST_OPEN + 1];
};

/* Begins a walk of so many events and text bytes, that are or shall be coded in this mode. */
static inline void bim_walk_begin(struct bim_walk *walk, const uint8_t *table, uint32_t root_name, uint32_t root_type, uint32_t mode,
                                  const uint8_t *events, uint32_t event_count, const uint8_t *texts, uint32_t text_bytes)
{
    walk->table = table;
    walk->events = events;
    walk->texts = texts;
    walk->mode = mode;
    walk->events_left = event_count;
    walk->texts_left = text_bytes;
    walk->event = 0;
    walk->place = 8;
    walk->depth = 0;
    walk->root_name = root_name;
    walk->root_type = root_type;
    walk->open = 1;
    walk->opened[0].at = BIM_AT_ROW;
    walk->opened[0].row = BIM_NO_ROW;
}

/* The same, of what bim_read gave with this area. */
static inline void bim_walk_area(struct bim_walk *walk, const uint8_t *table, uint32_t root_name, uint32_t root_type,
                                 const uint8_t *events, const uint8_t *texts, const uint8_t *area)
{
    bim_walk_begin(walk, table, root_name, root_type, bim_area_mode(area), events, bim_area_events(area), texts, bim_area_text(area));
}

/* Takes the event that is next, which has to be of this kind. */
static inline int bim_walk_take(struct bim_walk *walk, struct bim_step *step, uint32_t kind, const struct bim_open *element, uint32_t row)
{
    if (walk->events_left == 0 || bim_event_kind(walk->events, walk->event) != kind)
        return -1;
    step->event = walk->event;
    step->kind = kind;
    step->p = bim_event_p(walk->events, walk->event);
    step->q = bim_event_q(walk->events, walk->event);
    step->bits = bim_event_bits(walk->events, walk->event);
    step->place = walk->place;
    step->depth = kind == BIM_KIND_START || kind == BIM_KIND_BLANK ? walk->depth : walk->depth - 1;
    step->name = element->name;
    step->type = element->type;
    step->simple = BIM_NO_SIMPLE;
    step->row = row;
    step->of_attribute = 0;
    step->text = (const uint8_t *)0;
    walk->events_left--;
    walk->event++;
    walk->place += step->bits;
    return 1;
}

/* Takes a Value of this type. */
static inline int bim_walk_value(struct bim_walk *walk, struct bim_step *step, const struct bim_open *element, uint32_t row, uint32_t type)
{
    if (bim_walk_take(walk, step, BIM_KIND_VALUE, element, row) != 1)
        return -1;
    step->type = type;
    step->simple = bim_type_row(walk->table, type).a;
    if (step->simple != BIM_TEXT)
        return 1;
    if (step->p > walk->texts_left)
        return -1;
    step->text = walk->texts;
    walk->texts += step->p;
    walk->texts_left -= step->p;
    return 1;
}

/* Takes the Start of an element, or the Blank that stands for it. The Cast that comes next tells what is in effect. */
static inline int bim_walk_element(struct bim_walk *walk, struct bim_step *step, struct bim_open *here)
{
    const int root = here->row == BIM_NO_ROW, has_codes = !root && bim_row_has_codes(walk->table, here->row, walk->mode);
    const uint32_t row = here->row, name = root ? walk->root_name : bim_particle_row(walk->table, row).p;
    here->name = name;
    here->type = root ? walk->root_type : bim_particle_row(walk->table, row).q;
    if (walk->events_left > 0 && bim_event_kind(walk->events, walk->event) == BIM_KIND_BLANK) {
        here->type = bim_event_q(walk->events, walk->event);
        walk->open--;
        return bim_walk_take(walk, step, BIM_KIND_BLANK, here, row) == 1 && step->p == name && step->q < bim_types(walk->table) ? 1 : -1;
    }
    if (has_codes && walk->events_left > 1) {
        const uint32_t substitute = bim_event_q(walk->events, walk->event + 1);
        here->type = bim_event_p(walk->events, walk->event + 1);
        if (here->type >= bim_types(walk->table) || substitute > bim_row_substitutes(walk->table, row).count)
            return -1;
        here->name = bim_name_in_effect(walk->table, row, substitute);
    }
    if (bim_walk_take(walk, step, BIM_KIND_START, here, row) != 1 || step->p != name)
        return -1;
    walk->depth++;
    here->at = has_codes ? BIM_AT_CAST : BIM_AT_ATTRIBUTES;
    here->count = 0;
    return 1;
}

/* The element that this row stands in. */
static inline const struct bim_open *bim_walk_inside(const struct bim_walk *walk)
{
    uint32_t i = walk->open - 1;
    while (i > 0 && walk->opened[i].at < BIM_AT_CAST)
        i--;
    return &walk->opened[i];
}

/* The next event: 1, or 0 where the list ends as the table lets it, or -1. */
static inline int bim_walk_next(struct bim_walk *walk, struct bim_step *step)
{
    while (walk->open > 0) {
        struct bim_open *here = &walk->opened[walk->open - 1];
        uint32_t child = BIM_NO_ROW;
        switch (here->at) {
        case BIM_AT_ROW: {
            struct bim_particle it;
            const uint32_t row = here->row;
            if (row == BIM_NO_ROW)
                return bim_walk_element(walk, step, here);
            it = bim_particle_row(walk->table, row);
            if (it.kind == BIM_ELEMENT)
                return bim_walk_element(walk, step, here);
            here->row = it.p;
            if (it.kind == BIM_SEQUENCE) {
                here->at = BIM_AT_CHILDREN;
                here->count = it.q;
                break;
            }
            if (it.kind == BIM_CHOICE) {
                if (bim_walk_take(walk, step, BIM_KIND_PICK, bim_walk_inside(walk), row) != 1 || step->p >= it.q)
                    return -1;
                here->row = it.p + step->p;
                return 1;
            }
            if (bim_walk_take(walk, step, BIM_KIND_TIMES, bim_walk_inside(walk), row) != 1)
                return -1;
            here->at = BIM_AT_TIMES;
            here->count = step->p;
            return 1;
        }
        case BIM_AT_CHILDREN:
        case BIM_AT_TIMES:
            if (here->count == 0) {
                walk->open--;
                break;
            }
            here->count--;
            child = here->row;
            if (here->at == BIM_AT_CHILDREN)
                here->row++;
            break;
        case BIM_AT_CAST:
            here->at = BIM_AT_ATTRIBUTES;
            return bim_walk_take(walk, step, BIM_KIND_CAST, here, here->row);
        case BIM_AT_ATTRIBUTES: {
            const struct bim_type type = bim_type_row(walk->table, here->type);
            const uint32_t row = type.first_attribute + here->count;
            if (here->count == type.attributes) {
                here->at = type.content == BIM_EMPTY ? BIM_AT_END : type.content == BIM_SIMPLE ? BIM_AT_VALUE : BIM_AT_CONTENT;
                break;
            }
            if (bim_walk_take(walk, step, BIM_KIND_ATTRIBUTE, here, row) != 1 || step->p != bim_attribute_row(walk->table, row).name)
                return -1;
            step->of_attribute = 1;
            step->type = bim_attribute_row(walk->table, row).type;
            step->simple = bim_type_row(walk->table, step->type).a;
            if (step->q != 0)
                here->at = BIM_AT_ATTRIBUTE;
            else
                here->count++;
            return 1;
        }
        case BIM_AT_ATTRIBUTE: {
            const uint32_t row = bim_type_row(walk->table, here->type).first_attribute + here->count;
            here->at = BIM_AT_ATTRIBUTES;
            here->count++;
            if (bim_walk_value(walk, step, here, row, bim_attribute_row(walk->table, row).type) != 1)
                return -1;
            step->of_attribute = 1;
            return 1;
        }
        case BIM_AT_VALUE:
            here->at = BIM_AT_END;
            return bim_walk_value(walk, step, here, here->row, here->type);
        case BIM_AT_CONTENT:
            here->at = BIM_AT_END;
            child = bim_type_row(walk->table, here->type).a;
            break;
        default:
            if (bim_walk_take(walk, step, BIM_KIND_END, here, here->row) != 1)
                return -1;
            walk->depth--;
            walk->open--;
            return 1;
        }
        if (child != BIM_NO_ROW) {
            if (walk->open > BIM_MOST_OPEN)
                return -1;
            walk->opened[walk->open].at = BIM_AT_ROW;
            walk->opened[walk->open].row = child;
            walk->open++;
        }
    }
    return walk->events_left == 0 && walk->texts_left == 0 ? 0 : -1;
}

#ifdef __cplusplus
}
#endif

#endif
