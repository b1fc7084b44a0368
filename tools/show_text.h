/* A reading as indented text.
 *
 * An element whose type the party does not hold is shown as what it is, a hole: [not held: name, type, n bits]. Beside an element that is cast
 * or substituted stands what is in effect: [type 2], or [as name, type 2]. An enumeration is shown as #index, with its
 * word where the names file has one, a dateTime as 2026-11-15 18:30:00.000, in GMT. */
#ifndef SHOW_TEXT_H
#define SHOW_TEXT_H

#include "names.h"
#include "origin.h"
#include "reading.h"

static inline void text_value(const struct bim_step *step)
{
    switch (step->simple) {
    case BIM_BOOLEAN: fputs(step->p ? "true" : "false", stdout); break;
    case BIM_RANGED:
    case BIM_SIGNED: printf("%ld", (long)bim_signed(step->p)); break;
    case BIM_ENUMERATION:
        printf("#%lu", (unsigned long)step->p);
        if (value_names[step->type] != NULL && value_names[step->type][step->p] != NULL)
            printf(" (%s)", value_names[step->type][step->p]);
        break;
    case BIM_TEXT: put_bytes(stdout, step->text, step->p, 1); break;
    case BIM_FLOAT: fputs(float_digits(step->p), stdout); break;
    case BIM_DATE_TIME:
    case BIM_DATE: put_date(step, ' '); break;
    default: printf("%lu", (unsigned long)step->p);
    }
}

/* What is in effect in place of a row's element and its type. */
static inline void text_cast(const uint8_t *table, const struct bim_step *step)
{
    if (step->q > 0)
        printf(" [as %s, type %lu]", name_of(step->name), (unsigned long)step->type);
    else if (step->type != bim_particle_row(table, step->row).q)
        printf(" [type %lu]", (unsigned long)step->type);
}

/* Attributes and a simple value stand on the element's line, other elements below it: `line` says whether such a line is still open. */
static inline void text_step(const uint8_t *table, const struct bim_step *step, int *line)
{
    const int begins = step->kind == BIM_KIND_START || step->kind == BIM_KIND_BLANK;
    if (*line && (begins || step->kind == BIM_KIND_END)) {
        putchar('\n');
        *line = 0;
    }
    if (begins)
        printf("%*s", (int)(2 * step->depth + 2), "");
    switch (step->kind) {
    case BIM_KIND_START:
        fputs(name_of(step->p), stdout);
        *line = 1;
        break;
    case BIM_KIND_BLANK:
        printf("[not held: %s, type %lu, %lu bits]\n", name_of(step->p), (unsigned long)step->q, (unsigned long)step->bits);
        break;
    case BIM_KIND_CAST: text_cast(table, step); break;
    case BIM_KIND_ATTRIBUTE: printf(" %s=%s", name_of(step->p), step->q ? "" : "absent"); break;
    case BIM_KIND_VALUE:
        if (!step->of_attribute)
            putchar(' ');
        text_value(step);
        break;
    default: break; /* what Pick, Times and End say is seen by what stands there */
    }
}

/* A word of the names file. */
static inline void text_word(const char *word) { fputs(word, stdout); }

/* Of which element and type a refusal 9 is; `put` prints a word. */
static inline void text_unheld(const struct reading *it, void (*put)(const char *))
{
    struct unheld found;
    find_unheld(it, &found);
    if (found.has_name) {
        fputs(": element ", stdout);
        put(name_of(found.name));
        printf(", type %lu", (unsigned long)found.type);
    } else {
        if (found.has_type)
            printf(": type %lu, of an element", (unsigned long)found.type);
        else
            printf(": of an element and type");
        printf(" that cannot be told, as with every type held it is refused %lu at bit %lu", (unsigned long)found.number,
               (unsigned long)found.place);
    }
}

static inline void text_refusal(const struct reading *it, void (*put)(const char *))
{
    uint32_t i;
    printf("refused %lu, %s", (unsigned long)it->number, bim_refusal_name(it->number));
    if (has_place(it->number))
        printf(", at bit %lu", (unsigned long)bim_area_place(it->area));
    for (i = 0; i < bim_area_names(it->area); i++) {
        fputs(i == 0 ? ", in " : "/", stdout);
        put(name_of(bim_area_name(it->area, i)));
    }
    if (it->number == BIM_NOT_HELD)
        text_unheld(it, put);
}

/* "54 events, 49 text bytes, 781 bits", and how many Blanks where there are any. */
static inline void text_counts(const struct reading *it)
{
    printf("%lu events, %lu text bytes, %lu bits", (unsigned long)bim_area_events(it->area), (unsigned long)bim_area_text(it->area),
           (unsigned long)bim_area_bits(it->area));
    if (it->blanks > 0)
        printf(", %lu Blank%s", (unsigned long)it->blanks, it->blanks == 1 ? "" : "s");
}

/* Answers 0 where the list is not what the table says. */
static inline int text_reading(const struct origin *from, const struct reading *it)
{
    struct bim_walk walk;
    struct bim_step step;
    int more, line = 0;
    put_origin(from, put_word);
    fputs(": ", stdout);
    if (it->number != BIM_ACCEPTED) {
        text_refusal(it, text_word);
        putchar('\n');
        return 1;
    }
    text_counts(it);
    putchar('\n');
    walk_reading(&walk, it);
    while ((more = bim_walk_next(&walk, &step)) == 1)
        text_step(it->table, &step, &line);
    return more == 0;
}

/* A shelf that is damaged, so that nothing of it is read. */
static inline void text_shelf_refusal(uint32_t number, uint32_t block)
{
    printf("refused %lu, %s, at block %lu", (unsigned long)number, bim_refusal_name(number), (unsigned long)block);
}

#endif
