/* A host's own small parser over the lent bit reader: records of a tag (vluimsbf8), a width (vluimsbf5) and a number of that width.
 * It stops at the first refusal, which leaves the place where the refused code begins. Fewer than 8 bits left are padding. */
#include <stdio.h>
#include "bim.h"

static uint32_t record(bim_bits *reader)
{
    bim_bits next = *reader;
    uint32_t tag, width, value, number;
    if ((number = bim_bits_take_vlu8(&next, &tag)) != BIM_ACCEPTED || (number = bim_bits_take_vlu5(&next, &width)) != BIM_ACCEPTED ||
        (number = bim_bits_take_fixed(&next, width, &value)) != BIM_ACCEPTED) {
        printf("  refused %lu at %lu\n", (unsigned long)number, (unsigned long)next.place);
        return number;
    }
    printf("  tag %lu, %lu bits: %lu; %lu bits left\n", (unsigned long)tag, (unsigned long)width, (unsigned long)value,
           (unsigned long)bim_bits_left(next.bytes, next.count, next.place));
    *reader = next;
    return BIM_ACCEPTED;
}

static void parse(const char *what, const uint8_t *bytes, size_t count)
{
    bim_bits reader = { bytes, count, 0 };
    printf("%s\n", what);
    while (bim_bits_left(reader.bytes, reader.count, reader.place) >= 8)
        if (record(&reader) != BIM_ACCEPTED)
            return;
}

int main(void)
{
    /* tag 1, 3 bits: 5; tag 300, 32 bits: 2863311530 */
    static const uint8_t two[] = { 0x01, 0x1d, 0x82, 0x2c, 0x88, 0x2a, 0xaa, 0xaa, 0xaa, 0x80 };
    static const uint8_t long_tag[] = { 0x80, 0x01, 0x1d };    /* tag 1 in two bytes */
    static const uint8_t third_byte[] = { 0x81, 0x80, 0x00 };  /* a tag of three bytes */
    static const uint8_t wide[] = { 0x01, 0x88, 0x40, 0x00 };  /* 33 bits */
    static const uint8_t cut[] = { 0x01, 0x40 };               /* 8 bits, of which 5 are missing */
    parse("two records", two, sizeof two);
    parse("a tag not in shortest form", long_tag, sizeof long_tag);
    parse("a tag of three bytes", third_byte, sizeof third_byte);
    parse("a number too wide", wide, sizeof wide);
    parse("a number cut short", cut, sizeof cut);
    parse("nothing", NULL, 0);
    return 0;
}
