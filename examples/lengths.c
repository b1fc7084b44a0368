/* Gives every element of a payload its length, so that a receiver that holds less can step over what it does not hold. What the party reads is
 * written again by the short call, with a 1 in every Start. */
#include "../tools/faults.h"

static const char usage[] = "[-p PARTY] TABLE ROOT_NAME ROOT_TYPE PAYLOAD >WITH_LENGTHS";
static const char help[] =
    "Reads a payload as PARTY, 0 where none is named, and writes it with a length for every element, so that a receiver\n"
    "that holds less can step over what it does not hold.\n"
    "Exit status:\n"
    "  0  written\n"
    "  1  refused, read or written; nothing is written\n"
    "  2  a wrong call, or the table is wrong, or a file could not be read or written\n";

static uint8_t table[BIM_MOST_TABLE + 4], payload[BIM_MOST_PAYLOAD + 1];
static uint8_t events[BIM_MOST_EVENTS * BIM_EVENT], texts[BIM_MOST_PAYLOAD], area[BIM_AREA];

/* Says in every Start of the list that a length is coded: the last byte of its q. */
static void give_lengths(uint32_t count)
{
    uint32_t i;
    for (i = 0; i < count; i++)
        if (bim_event_kind(events, i) == BIM_KIND_START)
            events[BIM_EVENT * i + 11] = 1;
}

/* Whether the payload was accepted, read or written; if not, says where it stopped. */
static int accepted(const char *path, const char *done, const char *place, uint32_t number)
{
    return number == BIM_ACCEPTED || complain(path, 0, "%s: refused %lu, %s, at %s %lu", done, (unsigned long)number, bim_refusal_name(number),
                                              place, (unsigned long)bim_area_place(area));
}

int main(int argc, char **argv)
{
    struct call call = begin_call("lengths", usage, help, argc, argv);
    const char *party_named = option_value(&call, "-p");
    size_t table_bytes, bytes;
    uint32_t party = 0, root_name, root_type, count;
    if (!options_end(&call) || (party_named != NULL && !number_of(party_named, &party)) || call.left != 4 || !number_of(call.next[1], &root_name) ||
        !number_of(call.next[2], &root_type))
        return wrong_call(&call);
    if (!read_file(call.next[0], table, sizeof table, &table_bytes) || !read_file(call.next[3], payload, sizeof payload, &bytes))
        return finish(STATUS_NO_GOOD);
    if (bim_check_table(table, table_bytes, area, sizeof area) != BIM_ACCEPTED) {
        complain_of_table(call.next[0], table, table_bytes, bim_area_place(area));
        return finish(STATUS_NO_GOOD);
    }
    if (!accepted(call.next[3], "read", "bit", bim_read(table, table_bytes, party, root_name, root_type, payload, bytes,
                                   events, sizeof events, texts, sizeof texts, area, sizeof area)))
        return finish(STATUS_REFUSED);
    count = bim_area_events(area);
    give_lengths(count);
    if (!accepted(call.next[3], "written", "event", bim_write_lengths(table, table_bytes, party, root_name, root_type, events, BIM_EVENT * count,
                                               texts, bim_area_text(area), payload, sizeof payload, area, sizeof area)))
        return finish(STATUS_REFUSED);
    fwrite(payload, 1, (bim_area_bits(area) + 7) / 8, stdout);
    return finish(STATUS_DONE);
}
