/* A reading as one JSON object on one line; docs/host.schema.json says what is in it. The items of a content are the list's events in their order, so
 * that `write` makes the payload again: elements and Blanks, and between them what Pick and Times say. */
#ifndef SHOW_JSON_H
#define SHOW_JSON_H

#include "names.h"
#include "origin.h"
#include "reading.h"

/* A string: what acts on a terminal is escaped here too, and bytes that are no UTF-8, which a path may have, are FFFD. */
static inline void json_bytes(const uint8_t *bytes, size_t count)
{
    size_t i, length;
    putchar('"');
    for (i = 0; i < count; i += length) {
        uint32_t character;
        length = character_of(bytes + i, count - i, &character);
        if (length == 0) {
            character = 0xfffd;
            length = 1;
        }
        if (character == '"' || character == '\\')
            printf("\\%c", (int)character);
        else if (character >= 0x10000 && acts(character))
            printf("\\u%04lx\\u%04lx", 0xd7c0 + (unsigned long)(character >> 10), 0xdc00 + (unsigned long)(character & 0x3ff));
        else if (acts(character) || character == 0xfffd)
            printf("\\u%04lx", (unsigned long)character);
        else
            fwrite(bytes + i, 1, length, stdout);
    }
    putchar('"');
}

static inline void json_string(const char *word) { json_bytes((const uint8_t *)word, strlen(word)); }

/* "KEY":NUMBER, behind a comma. */
static inline void json_number(const char *key, uint32_t number) { printf(",\"%s\":%lu", key, (unsigned long)number); }

/* {"WHAT":"word","name":number, without its end. */
static inline void json_named(const char *what, uint32_t name)
{
    printf("{\"%s\":", what);
    json_string(name_of(name));
    json_number("name", name);
}

/* No value is an object with "blank": an enumeration's is {"index":..}, that of a float that is no finite number {"float":"its bits"}, a date's
 * {"date":"2026-11-15"}, a dateTime's {"dateTime":"2026-11-15T18:30:00.000Z"}. */
static inline void json_value(const struct bim_step *step)
{
    fputs(",\"value\":", stdout);
    switch (step->simple) {
    case BIM_BOOLEAN: fputs(step->p ? "true" : "false", stdout); break;
    case BIM_RANGED:
    case BIM_SIGNED: printf("%ld", (long)bim_signed(step->p)); break;
    case BIM_ENUMERATION: printf("{\"index\":%lu}", (unsigned long)step->p); break;
    case BIM_TEXT: json_bytes(step->text, step->p); break;
    case BIM_FLOAT:
        if ((step->p & 0x7f800000) == 0x7f800000)
            printf("{\"float\":\"%08lx\"}", (unsigned long)step->p);
        else
            fputs(float_digits(step->p), stdout);
        break;
    case BIM_DATE_TIME:
    case BIM_DATE:
        fputs(step->simple == BIM_DATE ? "{\"date\":\"" : "{\"dateTime\":\"", stdout);
        put_date(step, 'T');
        fputs(step->simple == BIM_DATE ? "\"}" : "Z\"}", stdout);
        break;
    default: printf("%lu", (unsigned long)step->p);
    }
}

/* How far the object of an open element is written, and how many there are in its array that is open. */
enum json_part { JSON_HEAD, JSON_ATTRIBUTES, JSON_PAST_ATTRIBUTES, JSON_CONTENT };
struct json_open {
    enum json_part part;
    unsigned long count;
};

/* Goes on to a part of an element's object. */
static inline void json_to(struct json_open *here, enum json_part part)
{
    for (; here->part < part; here->part = (enum json_part)(here->part + 1)) {
        fputs(here->part == JSON_HEAD ? ",\"attributes\":[" : here->part == JSON_ATTRIBUTES ? "]" : ",\"content\":[", stdout);
        here->count = 0;
    }
}

/* Goes on to the next in the array of this part. */
static inline void json_next(struct json_open *here, enum json_part part)
{
    json_to(here, part);
    if (here->count++ > 0)
        putchar(',');
}

static inline void json_step(const struct bim_step *step, struct json_open *open)
{
    struct json_open *here = &open[step->depth];
    if ((step->kind == BIM_KIND_START || step->kind == BIM_KIND_BLANK) && step->depth > 0)
        json_next(here - 1, JSON_CONTENT);
    switch (step->kind) {
    case BIM_KIND_START:
        json_named("element", step->p);
        json_number("type", step->type);
        printf(",\"length\":%s", step->q ? "true" : "false");
        here->part = JSON_HEAD;
        break;
    case BIM_KIND_BLANK:
        json_named("blank", step->p);
        json_number("type", step->q);
        json_number("bits", step->bits);
        putchar('}');
        break;
    case BIM_KIND_CAST:
        json_number("substitute", step->q);
        if (step->q > 0) {
            fputs(",\"as\":", stdout);
            json_string(name_of(step->name));
        }
        break;
    case BIM_KIND_ATTRIBUTE:
        json_next(here, JSON_ATTRIBUTES);
        json_named("attribute", step->p);
        json_number("type", step->type);
        printf(",\"present\":%s%s", step->q ? "true" : "false", step->q ? "" : "}");
        break;
    case BIM_KIND_VALUE:
        if (!step->of_attribute)
            json_to(here, JSON_PAST_ATTRIBUTES);
        json_value(step);
        if (step->of_attribute)
            putchar('}');
        break;
    case BIM_KIND_PICK:
    case BIM_KIND_TIMES:
        json_next(here, JSON_CONTENT);
        printf("{\"%s\":%lu}", step->kind == BIM_KIND_PICK ? "pick" : "times", (unsigned long)step->p);
        break;
    default:
        json_to(here, JSON_PAST_ATTRIBUTES);
        fputs(here->part == JSON_CONTENT ? "]}" : "}", stdout);
    }
}

/* The element that a refusal 9 is of, as far as it can be told. */
static inline void json_unheld(const struct reading *it)
{
    struct unheld found;
    find_unheld(it, &found);
    if (found.has_name) {
        fputs(",\"element\":", stdout);
        json_named("element", found.name);
        json_number("type", found.type);
        putchar('}');
    } else if (found.has_type)
        printf(",\"element\":{\"type\":%lu}", (unsigned long)found.type);
}

static inline void json_refusal(const struct reading *it)
{
    uint32_t i;
    printf(",\"refused\":{\"number\":%lu,\"name\":", (unsigned long)it->number);
    json_string(bim_refusal_name(it->number));
    if (has_place(it->number))
        json_number("bit", bim_area_place(it->area));
    fputs(",\"path\":[", stdout);
    for (i = 0; i < bim_area_names(it->area); i++) {
        if (i > 0)
            putchar(',');
        json_named("element", bim_area_name(it->area, i));
        putchar('}');
    }
    putchar(']');
    if (it->number == BIM_NOT_HELD)
        json_unheld(it);
    putchar('}');
}

/* {"payload":"path", and of a shelf the record and its root, without its end. */
static inline void json_origin(const struct origin *from)
{
    fputs("{\"payload\":", stdout);
    json_string(from->path);
    if (from->of_shelf) {
        printf(",\"record\":%llu", (unsigned long long)from->record);
        json_number("root_name", from->root_name);
        json_number("root_type", from->root_type);
    }
}

/* Answers 0 where the list is not what the table says. */
static inline int json_reading(const struct origin *from, const struct reading *it)
{
    static struct json_open open[BIM_MOST_OPEN + 1];
    struct bim_walk walk;
    struct bim_step step;
    int more = 0;
    json_origin(from);
    json_number("party", it->party);
    if (it->number != BIM_ACCEPTED)
        json_refusal(it);
    else {
        json_number("mode", bim_area_mode(it->area));
        json_number("events", bim_area_events(it->area));
        json_number("text_bytes", bim_area_text(it->area));
        json_number("bits", bim_area_bits(it->area));
        json_number("blanks", it->blanks);
        fputs(",\"root\":", stdout);
        walk_reading(&walk, it);
        while ((more = bim_walk_next(&walk, &step)) == 1)
            json_step(&step, open);
    }
    puts("}");
    return more == 0;
}

/* A shelf that is damaged: nothing of it is read. */
static inline void json_shelf_refusal(const char *path, uint32_t party, uint32_t number, uint32_t block)
{
    fputs("{\"payload\":", stdout);
    json_string(path);
    json_number("party", party);
    printf(",\"refused\":{\"number\":%lu,\"name\":", (unsigned long)number);
    json_string(bim_refusal_name(number));
    json_number("block", block);
    puts(",\"path\":[]}}");
}

/* A payload or a shelf that could not be read. */
static inline void json_unreadable(const char *path, const char *why)
{
    fputs("{\"payload\":", stdout);
    json_string(path);
    fputs(",\"unreadable\":", stdout);
    json_string(why);
    puts("}");
}

#endif
