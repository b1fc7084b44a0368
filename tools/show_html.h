/* Readings as one page that needs nothing else: of each payload its bits, every event's in the colour of its kind and joined to its place in the
 * listing, Blanks hatched, and the place of a refusal marked. */
#ifndef SHOW_HTML_H
#define SHOW_HTML_H

#include "show_text.h"

/* The classes of the event kinds, from 1. */
static const char *const html_kinds[] = {"none", "start", "attribute", "value", "pick", "times", "end", "blank", "cast"};

static inline void html_begin(void)
{
    fputs("<!doctype html>\n<html lang=\"en\">\n<head>\n<meta charset=\"utf-8\">\n"
          "<meta name=\"viewport\" content=\"width=device-width\">\n<title>Payloads, bit by bit</title>\n<style>\n"
          "body { font: 16px/1.5 sans-serif; margin: 1.5em; max-width: 75em; color: #111; background: #fff }\n"
          "h2 { font-size: 1em; border-top: 1px solid #999; padding-top: 1em; overflow-wrap: anywhere }\n"
          ".bits { font-family: monospace; overflow-wrap: anywhere; line-height: 2 }\n"
          ".bits span, .list a, .list span, .legend span { color: inherit; text-decoration: none; padding: .15em 0; border-bottom: 2px solid #0006 }\n"
          ".bits a { color: inherit; text-decoration: none; padding: .25em 0; border-left: 1px solid #0009 }\n"
          ".bits i { margin-left: .35em }\n"
          ".bits i[data-at] { margin: 0 }\n"
          ".bits i[data-at]::before { content: '\\A' attr(data-at) ' '; white-space: pre; font-style: normal; color: #555; background: #fff }\n"
          ".bits i[data-at='    0']::before { content: attr(data-at) ' ' }\n"
          ".list { white-space: pre-wrap; font-family: monospace; overflow-wrap: anywhere }\n"
          ".start { background: #bcd9f5 } .attribute { background: #dccdf5 } .value { background: #c9ecc4 } .pick { background: #fbe6a8 }\n"
          ".times { background: #f9cfa4 } .cast { background: #f7c4d8 } .mode { background: #d5d5d5 } .padding { background: #f4f4f4 }\n"
          ".blank { background: repeating-linear-gradient(45deg, #fff 0 5px, #aaa 5px 6px) }\n"
          ".bits .place, .legend .place { background: #c00; color: #fff; padding: .25em .15em }\n"
          ".refusal { color: #a00; font-weight: bold }\n"
          ".on, :target { outline: 3px solid #d33; outline-offset: -1px }\n"
          "</style>\n</head>\n<body>\n<p class=\"legend\">Bits, left to right, by what they are of: "
          "<span class=\"mode\">mode byte</span> <span class=\"start\">Start</span> <span class=\"cast\">Cast</span> "
          "<span class=\"attribute\">Attribute</span> <span class=\"value\">Value</span> <span class=\"pick\">Pick</span> "
          "<span class=\"times\">Times</span> <span class=\"blank\">&nbsp;Blank&nbsp;</span> <span class=\"padding\">padding</span> "
          "<span class=\"place\">place of a refusal</span></p>\n",
          stdout);
}

/* What is pointed at is outlined, as bits and in the listing. */
static inline void html_end(void)
{
    fputs("<script>\n"
          "document.addEventListener('mouseover', function (event) {\n"
          "  var at = event.target.closest('[data-event]');\n"
          "  document.querySelectorAll('.on').forEach(function (it) { it.classList.remove('on'); });\n"
          "  if (at) document.querySelectorAll('[data-event=\"' + at.dataset.event + '\"]').forEach(function (it) { it.classList.add('on'); });\n"
          "});\n"
          "</script>\n</body>\n</html>\n",
          stdout);
}

/* Bytes as put_bytes has them, and as a page may have them. */
static inline void html_bytes(const uint8_t *bytes, size_t count)
{
    size_t i, length;
    for (i = 0; i < count; i += length) {
        uint32_t character;
        length = character_of(bytes + i, count - i, &character);
        if (length == 1 && strchr("<>&\"'", (int)character) != NULL && character != 0)
            printf("&#%lu;", (unsigned long)character);
        else {
            length = length == 0 ? 1 : length;
            put_bytes(stdout, bytes + i, length, 0);
        }
    }
}

static inline void html_word(const char *word) { html_bytes((const uint8_t *)word, strlen(word)); }

/* So many bits of the payload; a gap stands before each byte, and a new line with its place before each eighth. */
static inline void html_bits(const struct reading *it, uint32_t place, uint32_t count)
{
    uint32_t i;
    for (i = place; i < place + count && i < 8 * it->payload_bytes; i++) {
        if (i % 64 == 0)
            printf("<i data-at=\"%5lu\"></i>", (unsigned long)i);
        else if (i % 8 == 0)
            fputs("<i></i>", stdout);
        putchar(it->payload[i / 8] >> (7 - i % 8) & 1 ? '1' : '0');
    }
}

/* Bits that are of no event. */
static inline void html_other_bits(const struct reading *it, const char *what, uint32_t place, uint32_t count)
{
    printf("<span class=\"%s\" title=\"%s\">", what, what);
    html_bits(it, place, count);
    fputs("</span>", stdout);
}

/* The bits of every event that has some, each a link to its place in the listing. */
static inline void html_event_bits(unsigned long payload, const struct reading *it)
{
    uint32_t i, place = 8;
    html_other_bits(it, "mode", 0, 8);
    for (i = 0; i < bim_area_events(it->area); i++) {
        const uint32_t bits = bim_event_bits(it->events, i), kind = bim_event_kind(it->events, i);
        if (bits == 0)
            continue;
        printf("<a class=\"%s\" id=\"p%lub%lu\" href=\"#p%lue%lu\" data-event=\"%lu.%lu\" title=\"%s, bit %lu to %lu\">", html_kinds[kind], payload,
               (unsigned long)i, payload, (unsigned long)i, payload, (unsigned long)i, html_kinds[kind], (unsigned long)place,
               (unsigned long)(place + bits - 1));
        html_bits(it, place, bits);
        fputs("</a>", stdout);
        place += bits;
    }
    if (place < 8 * it->payload_bytes)
        html_other_bits(it, "padding", place, 8 * (uint32_t)it->payload_bytes - place);
}

/* What an event says, at its place in the listing. */
static inline void html_says(const uint8_t *table, const struct bim_step *step)
{
    switch (step->kind) {
    case BIM_KIND_START: html_word(name_of(step->p)); break;
    case BIM_KIND_BLANK:
        fputs("[not held: ", stdout);
        html_word(name_of(step->p));
        printf(", type %lu, %lu bits]", (unsigned long)step->q, (unsigned long)step->bits);
        break;
    case BIM_KIND_CAST:
        fputs("[", stdout);
        if (step->q > 0) {
            fputs("as ", stdout);
            html_word(name_of(step->name));
            fputs(", ", stdout);
        }
        printf("type %lu]", (unsigned long)step->type);
        break;
    case BIM_KIND_ATTRIBUTE:
        html_word(name_of(step->p));
        fputs(step->q ? "=" : "=absent", stdout);
        break;
    case BIM_KIND_VALUE:
        if (step->simple == BIM_TEXT) {
            putchar('"');
            html_bytes(step->text, step->p);
            putchar('"');
        } else
            text_value(step);
        break;
    case BIM_KIND_PICK:
        printf("branch %lu of %lu", (unsigned long)step->p, (unsigned long)bim_particle_row(table, step->row).q);
        break;
    default: printf("%lu time%s", (unsigned long)step->p, step->p == 1 ? "" : "s");
    }
}

/* Elements, Picks and Times have a line each; what else an element has stands on its own. */
static inline void html_step(unsigned long payload, const uint8_t *table, const struct bim_step *step)
{
    const int joined = step->bits > 0;
    if (step->kind == BIM_KIND_END)
        return;
    if (step->kind == BIM_KIND_START || step->kind == BIM_KIND_BLANK)
        printf("%s%*s", step->event == 0 ? "" : "\n", (int)(2 * step->depth), "");
    else if (step->kind == BIM_KIND_PICK || step->kind == BIM_KIND_TIMES)
        printf("\n%*s", (int)(2 * step->depth + 2), "");
    else if (!(step->kind == BIM_KIND_VALUE && step->of_attribute))
        putchar(' ');
    printf("<%s class=\"%s\" id=\"p%lue%lu\" data-event=\"%lu.%lu\"", joined ? "a" : "span", html_kinds[step->kind], payload,
           (unsigned long)step->event, payload, (unsigned long)step->event);
    if (joined)
        printf(" href=\"#p%lub%lu\" title=\"%lu bits from %lu on\">", payload, (unsigned long)step->event, (unsigned long)step->bits,
               (unsigned long)step->place);
    else
        fputs(" title=\"no bits\">", stdout);
    html_says(table, step);
    fputs(joined ? "</a>" : "</span>", stdout);
}

/* The bits of a refused payload: of which events they are is not known. The place may be past the last. */
static inline void html_refused_bits(const struct reading *it)
{
    const uint32_t place = bim_area_place(it->area), bits = 8 * (uint32_t)it->payload_bytes;
    if (it->payload_bytes > BIM_MOST_PAYLOAD)
        return;
    if (!has_place(it->number)) {
        html_bits(it, 0, bits);
        return;
    }
    html_bits(it, 0, place);
    printf("<span class=\"place\" title=\"refused %lu at bit %lu\">", (unsigned long)it->number, (unsigned long)place);
    html_bits(it, place, 1);
    fputs(place < bits ? "</span>" : "&nbsp;</span>", stdout);
    if (place < bits)
        html_bits(it, place + 1, bits - place - 1);
}

/* Answers 0 where the list is not what the table says. */
static inline int html_reading(unsigned long payload, const struct origin *from, const struct reading *it)
{
    struct bim_walk walk;
    struct bim_step step;
    int more = 0;
    printf("<section id=\"p%lu\">\n<h2>", payload);
    put_origin(from, html_word);
    if (it->number != BIM_ACCEPTED) {
        fputs("</h2>\n<p class=\"refusal\">", stdout);
        text_refusal(it, html_word);
        fputs("</p>\n<div class=\"bits\">", stdout);
        html_refused_bits(it);
        fputs("</div>\n", stdout);
    } else {
        fputs(": ", stdout);
        text_counts(it);
        fputs("</h2>\n<div class=\"bits\">", stdout);
        html_event_bits(payload, it);
        fputs("</div>\n<div class=\"list\">", stdout);
        walk_reading(&walk, it);
        while ((more = bim_walk_next(&walk, &step)) == 1)
            html_step(payload, it->table, &step);
        fputs("</div>\n", stdout);
    }
    fputs("</section>\n", stdout);
    return more == 0;
}

/* A shelf that is damaged. */
static inline void html_shelf_refusal(unsigned long payload, const char *path, uint32_t number, uint32_t block)
{
    printf("<section id=\"p%lu\">\n<h2>", payload);
    html_word(path);
    fputs("</h2>\n<p class=\"refusal\">", stdout);
    text_shelf_refusal(number, block);
    fputs("</p>\n</section>\n", stdout);
}

/* A payload or a shelf that could not be read. */
static inline void html_unreadable(unsigned long payload, const char *path, const char *why)
{
    printf("<section id=\"p%lu\">\n<h2>", payload);
    html_word(path);
    printf("</h2>\n<p class=\"refusal\">%s</p>\n</section>\n", why);
}

#endif
