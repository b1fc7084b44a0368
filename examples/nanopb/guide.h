/* A guide as nanopb's messages have it, made of what bim_read gave: the same listing, byte for byte, for whoever sends it on or compares the two. */
#ifndef GUIDE_H
#define GUIDE_H

#include <bim_walk.h>
#include <guide.pb.h>
#include <string.h>

/* The root of a guide, and the names of its elements and attributes: peer/src/speed/guide.rs. */
enum { GUIDE = 100, SERVICE, PROGRAMME };
enum { TITLE = 110, SYNOPSIS, START, MINUTES, RATING, GENRE, KEYWORD };
enum { VERSION = 200, LANGUAGE, ID, LIVE };

/* Copies a text, with a 0 behind it; 0 where it is longer than guide.options allows. */
static inline int guide_text(char *into, size_t room, const struct bim_step *step)
{
    if (step->p >= room)
        return 0;
    memcpy(into, step->text, step->p);
    into[step->p] = 0;
    return 1;
}

/* Puts a Value where its element or attribute has it; 0 where it has no room there. */
static inline int guide_value(Guide *guide, Programme *programme, uint32_t name, const struct bim_step *step)
{
    switch (name) {
    case VERSION:
        guide->version = step->p;
        return 1;
    case LANGUAGE:
        guide->has_language = true;
        return guide_text(guide->language, sizeof guide->language, step);
    case SERVICE:
        return guide_text(guide->service, sizeof guide->service, step);
    case ID:
        programme->id = step->p;
        return 1;
    case LIVE:
        programme->has_live = true;
        programme->live = step->p != 0;
        return 1;
    case TITLE:
        return guide_text(programme->title, sizeof programme->title, step);
    case SYNOPSIS:
        programme->has_synopsis = true;
        return guide_text(programme->synopsis, sizeof programme->synopsis, step);
    case START:
        programme->start = step->p;
        return 1;
    case MINUTES:
        programme->minutes = step->p;
        return 1;
    case RATING:
        programme->has_rating = true;
        programme->rating = step->p;
        return 1;
    case GENRE:
        programme->which_about = Programme_genre_tag;
        programme->about.genre = step->p;
        return 1;
    case KEYWORD:
        programme->which_about = Programme_keyword_tag;
        return guide_text(programme->about.keyword, sizeof programme->about.keyword, step);
    default:
        return 0;
    }
}

/* Fills a guide with the events and texts that bim_read gave with this area; 0 where they are more than it has room for. */
static inline int guide_fill(Guide *guide, const uint8_t *table, const uint8_t *events, const uint8_t *texts, const uint8_t *area)
{
    struct bim_walk walk;
    struct bim_step step;
    Programme *programme = guide->programme;
    int more;
    memset(guide, 0, sizeof *guide);
    bim_walk_area(&walk, table, GUIDE, 0, events, texts, area);
    while ((more = bim_walk_next(&walk, &step)) == 1)
        if (step.kind == BIM_KIND_START && step.name == PROGRAMME) {
            if (guide->programme_count == sizeof guide->programme / sizeof *guide->programme)
                return 0;
            programme = &guide->programme[guide->programme_count++];
        } else if (step.kind == BIM_KIND_VALUE) {
            const uint32_t name = step.of_attribute ? bim_attribute_row(table, step.row).name : step.name;
            if (!guide_value(guide, programme, name, &step))
                return 0;
        }
    return more == 0;
}

#endif
