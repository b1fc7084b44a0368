/* A bim_read, a bim_init_read and a bim_shelf_salvage with a fault of this number, around the right ones (tests/planted renames those to right_read,
 * right_init_read and right_salvage): what the trials have to find. The first five are around bim_init_read as well as bim_read. */
#include <stdlib.h>
#include "bim.h"

uint32_t right_read(const uint8_t *table, size_t table_bytes, uint32_t party, uint32_t root_name, uint32_t root_type, const uint8_t *payload,
                    size_t payload_bytes, uint8_t *events, size_t events_bytes, uint8_t *texts, size_t texts_bytes, uint8_t *area,
                    size_t area_bytes);

uint32_t bim_read(const uint8_t *table, size_t table_bytes, uint32_t party, uint32_t root_name, uint32_t root_type, const uint8_t *payload,
                  size_t payload_bytes, uint8_t *events, size_t events_bytes, uint8_t *texts, size_t texts_bytes, uint8_t *area,
                  size_t area_bytes)
{
    volatile uint8_t deep[FAULT == 6 ? BIM_STACK : 1], *never_written = (volatile uint8_t *)malloc(1);
    uint32_t number;
    deep[0] = never_written == NULL;
    number = right_read(table, table_bytes, party, root_name, root_type, payload, payload_bytes, events, events_bytes, texts, texts_bytes, area,
                        area_bytes);
    if (FAULT == 1) /* writes past a buffer */
        *(volatile uint8_t *)(events + events_bytes) = 0xdd;
    if (FAULT == 2) /* reads past a buffer */
        deep[0] = *(const volatile uint8_t *)(payload + payload_bytes);
    if (FAULT == 3 && table_bytes > 0) /* writes to what is only lent for reading, though the same byte */
        *(volatile uint8_t *)(uintptr_t)table = table[0];
    if (FAULT == 4 && *never_written == 7) /* depends on a byte that was never written */
        deep[0] = 2;
    if (FAULT == 5 && number == BIM_ACCEPTED && bim_area_text(area) > 3) /* a wrong byte */
        texts[3] ^= 1;
    if (FAULT == 7 && number == BIM_ACCEPTED && bim_area_mode(area) == 1 && bim_area_text(area) > 3) /* one that no vector meets */
        texts[3] ^= 1;
    free((void *)(uintptr_t)never_written);
    (void)deep[0];
    return number;
}

uint32_t right_init_read(const uint8_t *message, size_t message_bytes, uint8_t *codecs, size_t codecs_bytes, uint8_t *init, size_t init_bytes);

uint32_t bim_init_read(const uint8_t *message, size_t message_bytes, uint8_t *codecs, size_t codecs_bytes, uint8_t *init, size_t init_bytes)
{
    volatile uint8_t seen = 0, *never_written = (volatile uint8_t *)malloc(1);
    const uint32_t number = right_init_read(message, message_bytes, codecs, codecs_bytes, init, init_bytes);
    if (FAULT == 1)
        *(volatile uint8_t *)(codecs + codecs_bytes) = 0xdd;
    if (FAULT == 2)
        seen = *(const volatile uint8_t *)(message + message_bytes);
    if (FAULT == 3 && message_bytes > 0)
        *(volatile uint8_t *)(uintptr_t)message = message[0];
    if (FAULT == 4 && never_written != NULL && *never_written == 7)
        seen = 2;
    if (FAULT == 5 && number == BIM_ACCEPTED && bim_init_flags(init) > 0)
        init[19] ^= 1;
    free((void *)(uintptr_t)never_written);
    (void)seen;
    return number;
}

uint32_t right_salvage(const uint8_t *file, size_t file_bytes, uint8_t *fresh, size_t fresh_bytes, uint8_t *dropped, size_t dropped_bytes,
                       uint8_t *area, size_t area_bytes);

uint32_t bim_shelf_salvage(const uint8_t *file, size_t file_bytes, uint8_t *fresh, size_t fresh_bytes, uint8_t *dropped, size_t dropped_bytes,
                           uint8_t *area, size_t area_bytes)
{
    const uint32_t number = right_salvage(file, file_bytes, fresh, fresh_bytes, dropped, dropped_bytes, area, area_bytes);
    if (FAULT == 8) /* writes past the list */
        *(volatile uint8_t *)(dropped + dropped_bytes) = 0xdd;
    if (FAULT == 9) /* reads past the file */
        (void)*(const volatile uint8_t *)(file + file_bytes);
    if (FAULT == 10 && file_bytes > 0) /* writes to the file, though the same byte */
        *(volatile uint8_t *)(uintptr_t)file = file[0];
    if (FAULT == 11 && number == BIM_ACCEPTED && bim_shelf_entries(area) > 0) /* a wrong count in the list */
        dropped[11] ^= 1;
    return number;
}
