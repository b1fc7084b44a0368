/* What of a table can be reached from roots: types, attribute rows, particle rows, derived entries, substitutes; and which elements stand there, by
 * name and type in effect. The table is one that bim_check_table accepted. */
#ifndef REACH_H
#define REACH_H

#include <string.h>
#include "bim_table.h"

struct reach {
    const uint8_t *table;
    /* Whether elements are gone into only where the party holds their type. */
    int by_marks;
    uint32_t party;
    /* Told of each element that is met: its name and type in effect, and whether it has the type by a cast. */
    void (*meet)(struct reach *it, uint32_t name, uint32_t type, int cast);
    void *whose; /* meet's own */
    uint8_t types[BIM_MOST_TYPES];           /* those gone into, as an element's */
    uint8_t attribute_types[BIM_MOST_TYPES]; /* those of attributes */
    uint8_t attributes[BIM_MOST_ATTRIBUTES], rows[BIM_MOST_PARTICLES], derived[BIM_MOST_DERIVATIONS], substitutes[BIM_MOST_SUBSTITUTES];
};

static inline void reach_begin(struct reach *it, const uint8_t *table)
{
    memset(it, 0, sizeof *it);
    it->table = table;
}

static inline void reach_row(struct reach *it, uint32_t row);

static inline void reach_type(struct reach *it, uint32_t type)
{
    const struct bim_type row = bim_type_row(it->table, type);
    uint32_t i;
    if (it->types[type])
        return;
    it->types[type] = 1;
    for (i = row.first_attribute; i < row.first_attribute + row.attributes; i++) {
        it->attributes[i] = 1;
        it->attribute_types[bim_attribute_row(it->table, i).type] = 1;
    }
    if (row.content == BIM_PARTICLES)
        reach_row(it, row.a);
}

static inline void reach_element(struct reach *it, uint32_t name, uint32_t type, int cast)
{
    if (it->meet != NULL)
        it->meet(it, name, type, cast);
    if (!it->by_marks || bim_is_held(it->table, it->party, type))
        reach_type(it, type);
}

/* An element by its default type, and by every type that it may be cast to. */
static inline void reach_casts(struct reach *it, uint32_t name, uint32_t type)
{
    const struct bim_span span = bim_type_derived(it->table, type);
    uint32_t i;
    reach_element(it, name, type, 0);
    for (i = span.first; i < span.first + span.count; i++) {
        it->derived[i] = 1;
        reach_element(it, name, bim_derived(it->table, i), 1);
    }
}

static inline void reach_substitutes(struct reach *it, struct bim_span span)
{
    uint32_t i;
    for (i = span.first; i < span.first + span.count; i++)
        if (!it->substitutes[i]) {
            const struct bim_substitute substitute = bim_substitute(it->table, i);
            it->substitutes[i] = 1;
            reach_casts(it, substitute.name, substitute.type);
        }
}

/* A child row is over its parent's, so that this ends. */
static inline void reach_row(struct reach *it, uint32_t row)
{
    const struct bim_particle particle = bim_particle_row(it->table, row);
    const uint32_t children = particle.kind == BIM_OCCURS ? 1 : particle.q;
    uint32_t i;
    if (it->rows[row])
        return;
    it->rows[row] = 1;
    if (particle.kind == BIM_ELEMENT) {
        reach_casts(it, particle.p, particle.q);
        reach_substitutes(it, bim_row_substitutes(it->table, row));
    } else
        for (i = 0; i < children; i++)
            reach_row(it, particle.p + i);
}

/* A root, which has no codes: it is neither cast nor substituted. */
static inline void reach_root(struct reach *it, uint32_t name, uint32_t type) { reach_element(it, name, type, 0); }

#endif
