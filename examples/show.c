#include <bim.h>
#include <stdio.h>

static uint8_t table[BIM_MOST_TABLE + 1], payload[BIM_MOST_PAYLOAD + 1];
static uint8_t events[BIM_MOST_EVENTS * BIM_EVENT], texts[BIM_MOST_PAYLOAD], area[BIM_AREA];

int main(int argc, char **argv) {
    FILE *a = argc == 3 ? fopen(argv[1], "rb") : NULL, *b = a ? fopen(argv[2], "rb") : NULL;
    if (!b) return 2;
    size_t table_bytes = fread(table, 1, sizeof table, a), payload_bytes = fread(payload, 1, sizeof payload, b);
    uint32_t number = bim_read(table, table_bytes, 0, 10, 0, payload, payload_bytes, /* party 0; root: element 10 of type 0 */
                               events, sizeof events, texts, sizeof texts, area, sizeof area);
    if (number != BIM_ACCEPTED) {                                                    /* events and texts are all 0 */
        printf("refused %u, %s, at %u\n", (unsigned)number, bim_refusal_name(number), (unsigned)bim_area_place(area));
        return 1;
    }
    printf("%u events, %u bytes of text\n", (unsigned)bim_area_events(area), (unsigned)bim_area_text(area));
    for (uint32_t i = 0; i < bim_area_events(area); i++)
        if (bim_event_kind(events, i) == BIM_KIND_BLANK)
            printf("element %u was stepped over: type %u is not held\n", (unsigned)bim_event_p(events, i), (unsigned)bim_event_q(events, i));
        else if (bim_event_kind(events, i) == BIM_KIND_CAST)                         /* of the element that the event before begins */
            printf("element %u has type %u here\n", (unsigned)bim_event_p(events, i - 1), (unsigned)bim_event_p(events, i));
    return 0;
}
