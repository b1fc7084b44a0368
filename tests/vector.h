/* The vectors of examples/tables.txt, payloads.txt, lists.txt and settings.txt, one at a time; examples/README.md has their form. */
#ifndef VECTOR_H
#define VECTOR_H

#include <stdio.h>
#include <stdlib.h>
#include <string.h>
#include "bim.h"

enum asked { CHECK, READ, WRITE, WRITE_LENGTHS, SET_HELD, CALLS };
static const char *const call_names[] = {"bim_check_table", "bim_read", "bim_write", "bim_write_lengths", "bim_set_held"};

struct bytes {
    uint8_t at[65536];
    size_t length;
};

/* What is given and what is expected: of a reading, events and texts are the answer's; of a writing, payload is; of a setting, now is the table
 * behind it. */
struct vector {
    char name[256];
    enum asked asked;
    uint32_t party, root_name, root_type, mode, type, mark, number;
    struct bytes table, payload, events, texts, now;
    size_t event_room, text_room, payload_room;
    uint8_t area[BIM_AREA];
};

static inline void no_vector(const struct vector *vector, const char *why)
{
    fprintf(stderr, "%s: %s\n", vector->name, why);
    exit(2);
}

static inline void put_word(uint8_t *at, uint32_t word)
{
    at[0] = (uint8_t)(word >> 24);
    at[1] = (uint8_t)(word >> 16);
    at[2] = (uint8_t)(word >> 8);
    at[3] = (uint8_t)word;
}

static inline void add_word(struct bytes *bytes, uint32_t word)
{
    if (bytes->length + 4 > sizeof bytes->at)
        abort();
    put_word(bytes->at + bytes->length, word);
    bytes->length += 4;
}

/* Decimal words, or -. */
static inline void add_words(struct bytes *bytes, char *text)
{
    char *word;
    for (word = strtok(text, " "); word != NULL && *word != '-'; word = strtok(NULL, " "))
        add_word(bytes, (uint32_t)strtoul(word, NULL, 10));
}

/* Hexadecimal bytes, or -. */
static inline void set_hex(struct vector *vector, struct bytes *bytes, const char *text)
{
    unsigned byte;
    bytes->length = 0;
    for (; sscanf(text, "%2x", &byte) == 1; text += 2) {
        if (bytes->length == sizeof bytes->at)
            no_vector(vector, "too many bytes");
        bytes->at[bytes->length++] = (uint8_t)byte;
    }
}

/* Number, then the area's words from the place on. */
static inline void set_answer(struct vector *vector, char *text)
{
    size_t i;
    vector->number = (uint32_t)strtoul(text, &text, 10);
    for (i = 0; i < 5; i++)
        put_word(vector->area + 4 * i, (uint32_t)strtoul(text, &text, 10));
}

static inline void set_path(struct vector *vector, char *text)
{
    uint32_t names = 0;
    char *word;
    for (word = strtok(text, " "); word != NULL && names < BIM_MOST_NAMES; word = strtok(NULL, " ")) {
        const unsigned long name = strtoul(word, NULL, 10);
        vector->area[24 + 2 * names] = (uint8_t)(name >> 8);
        vector->area[25 + 2 * names] = (uint8_t)name;
        names++;
    }
    put_word(vector->area + 20, names);
}

/* The next vector of the file; 0 where there is none. */
static inline int next_vector(FILE *file, struct vector *vector)
{
    static char line[1 << 18];
    memset(vector, 0, sizeof *vector);
    while (fgets(line, sizeof line, file) != NULL) {
        char *rest = strchr(line, ' ');
        line[strcspn(line, "\n")] = '\0';
        rest = rest == NULL ? line + strlen(line) : rest + 1;
        if (strncmp(line, "case ", 5) == 0)
            snprintf(vector->name, sizeof vector->name, "%s", rest);
        else if (strncmp(line, "table ", 6) == 0)
            add_words(&vector->table, rest);
        else if (strncmp(line, "root ", 5) == 0) {
            vector->root_name = (uint32_t)strtoul(rest, &rest, 10);
            vector->root_type = (uint32_t)strtoul(rest, NULL, 10);
        } else if (strncmp(line, "party ", 6) == 0)
            vector->party = (uint32_t)strtoul(rest, NULL, 10);
        else if (strncmp(line, "set ", 4) == 0) {
            vector->asked = SET_HELD;
            vector->type = (uint32_t)strtoul(rest, &rest, 10);
            vector->mark = (uint32_t)strtoul(rest, NULL, 10);
        } else if (strncmp(line, "rooms ", 6) == 0) {
            vector->asked = READ;
            vector->event_room = 4 * strtoul(rest, &rest, 10);
            vector->text_room = strtoul(rest, NULL, 10);
        } else if (strncmp(line, "mode ", 5) == 0) {
            vector->asked = WRITE;
            vector->mode = (uint32_t)strtoul(rest, NULL, 10);
        } else if (strncmp(line, "room ", 5) == 0) {
            /* A list that names no mode is the short call's. */
            if (vector->asked != WRITE)
                vector->asked = WRITE_LENGTHS;
            vector->payload_room = strtoul(rest, NULL, 10);
        } else if (strncmp(line, "words ", 6) == 0 || strncmp(line, "event ", 6) == 0)
            add_words(&vector->events, rest);
        else if (strncmp(line, "now ", 4) == 0)
            add_words(&vector->now, rest);
        else if (strncmp(line, "texts ", 6) == 0)
            set_hex(vector, &vector->texts, rest);
        else if (strncmp(line, "payload ", 8) == 0)
            set_hex(vector, &vector->payload, rest);
        else if (strncmp(line, "answer ", 7) == 0)
            set_answer(vector, rest);
        else if (strncmp(line, "path ", 5) == 0)
            set_path(vector, rest);
        else if (strcmp(line, "end") == 0)
            return 1;
        else if (line[0] != '\0' && line[0] != '#' && strncmp(line, "bits ", 5) != 0)
            no_vector(vector, line);
    }
    return 0;
}

#endif
