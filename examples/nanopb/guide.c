/* A guide from BiM to nanopb and back to the eye: it is read by bim_read, put into nanopb's messages, encoded, decoded again and printed; then the sizes of
 * both. `make bench` compares the two on this guide.
 *
 *     target/nanopb/guide examples/nanopb/guide.table examples/nanopb/guide.bim [PROTOBUF]
 *
 * PROTOBUF, where it is named, gets what nanopb encoded. */
#include "guide.h"
#include <pb_decode.h>
#include <pb_encode.h>
#include <stdio.h>

static uint8_t table[BIM_MOST_TABLE + 1], payload[BIM_MOST_PAYLOAD + 1];
static uint8_t events[BIM_MOST_EVENTS * BIM_EVENT], texts[BIM_MOST_PAYLOAD], area[BIM_AREA];
static uint8_t encoded[Guide_size];
/* nanopb allocates nothing: all its room is here. */
static Guide guide;

static size_t file_bytes(const char *path, uint8_t *bytes, size_t room)
{
    FILE *file = fopen(path, "rb");
    size_t count = 0;
    if (file == NULL)
        return 0;
    count = fread(bytes, 1, room, file);
    fclose(file);
    return count;
}

static void print_guide(void)
{
    pb_size_t i;
    printf("%s, version %lu%s%s\n", guide.service, (unsigned long)guide.version, guide.has_language ? ", " : "", guide.has_language ? guide.language : "");
    for (i = 0; i < guide.programme_count; i++) {
        const Programme *it = &guide.programme[i];
        const unsigned long minute = it->start % (24 * 60);
        printf("%02lu:%02lu %3lu min  %lu %s", minute / 60, minute % 60, (unsigned long)it->minutes, (unsigned long)it->id, it->title);
        if (it->has_live)
            printf(it->live ? ", live" : ", not live");
        if (it->has_rating)
            printf(", from %lu on", (unsigned long)it->rating);
        if (it->which_about == Programme_genre_tag)
            printf(", genre %lu\n", (unsigned long)it->about.genre);
        else
            printf(", %s\n", it->about.keyword);
        if (it->has_synopsis)
            printf("               %s\n", it->synopsis);
    }
}

int main(int argc, char **argv)
{
    size_t table_bytes, bytes;
    uint32_t number;
    pb_ostream_t made;
    pb_istream_t given;
    if (argc < 3 || argc > 4 || (table_bytes = file_bytes(argv[1], table, sizeof table)) == 0 ||
        (bytes = file_bytes(argv[2], payload, sizeof payload)) == 0) {
        fprintf(stderr, "guide TABLE PAYLOAD [PROTOBUF]\n");
        return 2;
    }
    number = bim_read(table, table_bytes, 0, GUIDE, 0, payload, bytes, events, sizeof events, texts, sizeof texts, area, sizeof area);
    if (number != BIM_ACCEPTED) {
        fprintf(stderr, "%s: refused %lu, %s\n", argv[2], (unsigned long)number, bim_refusal_name(number));
        return 1;
    }
    if (!guide_fill(&guide, table, events, texts, area)) {
        fprintf(stderr, "%s: more than guide.options has room for\n", argv[2]);
        return 1;
    }
    made = pb_ostream_from_buffer(encoded, sizeof encoded);
    if (!pb_encode(&made, Guide_fields, &guide)) {
        fprintf(stderr, "%s: not encoded: %s\n", argv[2], PB_GET_ERROR(&made));
        return 1;
    }
    given = pb_istream_from_buffer(encoded, made.bytes_written);
    memset(&guide, 0, sizeof guide);
    if (!pb_decode(&given, Guide_fields, &guide)) {
        fprintf(stderr, "%s: not decoded: %s\n", argv[2], PB_GET_ERROR(&given));
        return 1;
    }
    if (argc == 4) {
        FILE *file = fopen(argv[3], "wb");
        const int good = file != NULL && fwrite(encoded, 1, made.bytes_written, file) == made.bytes_written;
        if (file == NULL || fclose(file) != 0 || !good) {
            fprintf(stderr, "%s: not written\n", argv[3]);
            return 2;
        }
    }
    print_guide();
    printf("\n%u programmes\n", (unsigned)guide.programme_count);
    printf("BiM:    %lu bytes; read: %lu of events and %lu of texts\n", (unsigned long)bytes, (unsigned long)(BIM_EVENT * bim_area_events(area)),
           (unsigned long)bim_area_text(area));
    printf("nanopb: %lu bytes; decoded: %lu of one struct\n", (unsigned long)made.bytes_written, (unsigned long)sizeof guide);
    return 0;
}
