/* Sets or clears a party's mark of a type in a table file. The file is never half changed: the table as it is then is written beside it, and takes
 * its name. */
#include "replace.h"
#include "faults.h"

static const char usage[] = "TABLE PARTY TYPE on|off";
static const char help[] =
    "Sets or clears a party's mark of a type in a table file, which is never half changed.\n"
    "Exit status:\n"
    "  0  it is as asked\n"
    "  1  the table is wrong, or there is no such type or party; the file is as it was\n"
    "  2  a wrong call, or it could not be read or written\n";

static uint8_t table[BIM_MOST_TABLE + 4], area[BIM_AREA];

/* Says why the table was not marked. */
static void say_refusal(const char *path, size_t bytes, uint32_t number, uint32_t type)
{
    if (number == BIM_TABLE)
        complain_of_table(path, table, bytes, bim_area_place(area));
    else if (number == BIM_ROOT)
        complain(path, 0, "no type %lu: there are %lu, from 0", (unsigned long)type, (unsigned long)bim_types(table));
    else
        complain(path, 0, "refused %lu, %s", (unsigned long)number, bim_refusal_name(number));
}

int main(int argc, char **argv)
{
    struct call call = begin_call("mark", usage, help, argc, argv);
    const int good = options_end(&call) && call.left == 4, on = good && strcmp(call.next[3], "on") == 0;
    size_t bytes;
    uint32_t party, type, number;
    if (!good || !number_of(call.next[1], &party) || !number_of(call.next[2], &type) || !(on || strcmp(call.next[3], "off") == 0))
        return wrong_call(&call);
    if (!read_file(call.next[0], table, sizeof table, &bytes))
        return STATUS_NO_GOOD;
    number = bim_set_held(table, bytes, party, type, (uint32_t)on, area, sizeof area);
    if (number != BIM_ACCEPTED) {
        say_refusal(call.next[0], bytes, number, type);
        return STATUS_REFUSED;
    }
    return replace(call.next[0], table, bytes) ? STATUS_DONE : STATUS_NO_GOOD;
}
