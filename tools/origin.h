/* Where a payload was found: a file, or a record of a shelf; and its root. */
#ifndef ORIGIN_H
#define ORIGIN_H

#include "names.h"

struct origin {
    const char *path;
    int of_shelf;
    uint64_t record; /* of a shelf, from 0 */
    uint32_t root_name, root_type;
};

/* "film.bim", "guide.shelf, record 3, root programme, type 0": a record's root is its own. `put` prints a path or a word. */
static inline void put_origin(const struct origin *from, void (*put)(const char *))
{
    put(from->path);
    if (from->of_shelf) {
        printf(", record %llu, root ", (unsigned long long)from->record);
        put(name_of(from->root_name));
        printf(", type %lu", (unsigned long)from->root_type);
    }
}

/* As a terminal may have it. */
static inline void put_word(const char *word) { put_path(stdout, word); }

#endif
