/* A small receiver: reads a table file and payload files, and prints what they say. */
#include "../tools/payloads.h"
#include "../tools/faults.h"
#include "../tools/show_html.h"
#include "../tools/show_json.h"
#include "../tools/show_text.h"

static const char usage[] = "[-n NAMES] [-p PARTY] [--json|--html] TABLE " PAYLOADS_USAGE;
static const char help[] =
    "Reads payloads as PARTY, 0 where none is named, and prints each as indented text. NAMES has a number and its word on\n"
    "each line; without it names are shown as numbers.\n"
    PAYLOADS_HELP
    "A payload that cannot be read or is refused does not end the run. Of more than one payload a last line counts them,\n"
    "and every thousand a line on standard error.\n"
    "--json prints one JSON object a payload and line (docs/host.schema.json), and the last line on standard error.\n"
    "--html prints one page, with each payload's bits joined to its listing.\n"
    "Exit status, the sum of those that apply:\n"
    "  0  all were read, without Blanks\n"
    "  1  some were refused\n"
    "  2  a wrong call, or the table is wrong, or a file could not be read or written\n"
    "  4  some were read with Blanks: elements of types that the party does not hold\n"
    "  8  a list does not fit its table (never seen)\n";
enum { STATUS_BLANKS = 4, STATUS_NO_LIST = 8 };

static struct reading it;
static enum { AS_TEXT, AS_JSON, AS_HTML } form = AS_TEXT;
/* How many payloads there were, by what became of them; there are fewer numbers than 64. */
static unsigned long payloads, with_blanks, unreadable, by_number[64];
static int status = STATUS_DONE;

/* Says on standard error how far it is. */
static void show_progress(void)
{
    if (payloads % 1000 == 0)
        fprintf(stderr, NAMED "host: %lu payloads, %lu with Blanks, %lu refused, %lu unreadable\n", payloads, with_blanks,
                payloads - by_number[BIM_ACCEPTED] - unreadable, unreadable);
}

/* Shows a reading; answers 0 where its list is not what the table says. */
static int show(const struct origin *from)
{
    return form == AS_JSON ? json_reading(from, &it) : form == AS_HTML ? html_reading(payloads, from, &it) : text_reading(from, &it);
}

static void take_payload(const struct payload *found)
{
    payloads++;
    memcpy(it.payload, found->bytes, found->count);
    it.payload_bytes = found->count;
    it.root_name = found->from.root_name;
    it.root_type = found->from.root_type;
    read_payload(&it);
    by_number[it.number & 63]++;
    with_blanks += it.blanks > 0;
    if (it.number != BIM_ACCEPTED)
        status |= STATUS_REFUSED;
    if (it.blanks > 0)
        status |= STATUS_BLANKS;
    if (!show(&found->from)) {
        complain(found->from.path, 0, "its list is not what the table says");
        status |= STATUS_NO_LIST;
    }
    show_progress();
}

static void take_refused_shelf(const char *path, uint32_t number, uint32_t block)
{
    payloads++;
    by_number[number & 63]++;
    status |= STATUS_REFUSED;
    if (form == AS_JSON)
        json_shelf_refusal(path, it.party, number, block);
    else if (form == AS_HTML)
        html_shelf_refusal(payloads, path, number, block);
    else {
        put_path(stdout, path);
        fputs(": ", stdout);
        text_shelf_refusal(number, block);
        putchar('\n');
    }
    show_progress();
}

static void take_unreadable(const char *path, const char *why)
{
    payloads++;
    unreadable++;
    status |= STATUS_NO_GOOD;
    if (form == AS_JSON)
        json_unreadable(path, why);
    if (form == AS_HTML)
        html_unreadable(payloads, path, why);
    show_progress();
}

/* "2000 read, 31 with Blanks, 4 refused 9". */
static void show_summary(FILE *to)
{
    uint32_t number;
    fprintf(to, "%lu read", by_number[BIM_ACCEPTED]);
    if (with_blanks > 0)
        fprintf(to, ", %lu with Blanks", with_blanks);
    for (number = 1; number < 64; number++)
        if (by_number[number] > 0)
            fprintf(to, ", %lu refused %lu", by_number[number], (unsigned long)number);
    if (unreadable > 0)
        fprintf(to, ", %lu unreadable", unreadable);
    putc('\n', to);
}

int main(int argc, char **argv)
{
    struct call call = begin_call("host", usage, help, argc, argv);
    struct payloads asked = {0, 0, 0, 0, 0, take_payload, take_unreadable, take_refused_shelf};
    const char *value, *table_path, *names_path = NULL;
    int good = 1;
    for (;;)
        if ((value = option_value(&call, "-n")) != NULL)
            names_path = value;
        else if ((value = option_value(&call, "-p")) != NULL)
            good &= number_of(value, &it.party);
        else if (option(&call, "--json"))
            form = AS_JSON;
        else if (option(&call, "--html"))
            form = AS_HTML;
        else
            break;
    if (!options_end(&call) || !good || (table_path = take_argument(&call)) == NULL || !payloads_called(&asked, &call, 1))
        return wrong_call(&call);
    if ((names_path != NULL && !read_names(names_path)) || !read_file(table_path, it.table, sizeof it.table, &it.table_bytes))
        return finish(STATUS_NO_GOOD);
    if (bim_check_table(it.table, it.table_bytes, it.area, sizeof it.area) != BIM_ACCEPTED) {
        complain_of_table(table_path, it.table, it.table_bytes, bim_area_place(it.area));
        return finish(STATUS_NO_GOOD);
    }
    if (form == AS_HTML)
        html_begin();
    take_payloads(&asked, &call);
    if (asked.unlisted)
        status |= STATUS_NO_GOOD;
    if (form == AS_HTML)
        html_end();
    if (payloads != 1)
        show_summary(form == AS_TEXT ? stdout : stderr);
    return finish(status);
}
