/* Tells where the bits of payloads go, by element.
 *
 *     report [-n NAMES] [-p PARTY] [-m] [-o PAGE] TABLE [ROOT_NAME ROOT_TYPE PAYLOAD..] [-s SHELF..]
 *
 * Payloads are found as `host` finds them (tools/payloads.h), and read as the party named, 0 where none is. Printed is a table for people, or with -m rows
 * for machines (tools/report.h). With -o a page for a browser is made, too: one file that needs no other. Over many payloads standard error tells how far it is.
 *
 * What cannot be read, or is a damaged shelf, is told on standard error and left out, and the rest is counted. */
#define _XOPEN_SOURCE 700
#include "payloads.h"
#include "faults.h"
#include "report.h"

static const char usage[] = "[-n NAMES] [-p PARTY] [-m] [-o PAGE] TABLE " PAYLOADS_USAGE;
static const char help[] =
    "Tells where the bits of payloads go, by element: own bits, blanked bits, mode bytes, padding.\n"
    PAYLOADS_HELP
    "-m prints rows for machines.\n"
    "-o makes a page for a browser, too.\n"
    "Exit status:\n"
    "  0  all were accepted\n"
    "  1  some were refused\n"
    "  2  a wrong call, or the table is wrong, or a file could not be read or written, or a shelf is damaged\n"
    "  3  the report has stopped: a total would pass 64 bits\n";
enum { STATUS_STOPPED = 3 };

/* Standard error is told after so many payloads. */
enum { TOLD_EVERY = 5000 };

static uint8_t table[BIM_MOST_TABLE + 4], area[BIM_AREA], report[BIM_REPORT];
static size_t table_bytes;
static uint32_t party;
static unsigned long counted, bad; /* payloads; files, folders and shelves that were no good */

static void take_payload(const struct payload *found)
{
    bim_report_add(table, table_bytes, party, found->from.root_name, found->from.root_type, found->bytes, found->count, report, sizeof report);
    if (++counted % TOLD_EVERY == 0)
        fprintf(stderr, NAMED "report: %lu payloads\n", counted);
}

static void take_unreadable(const char *path, const char *why)
{
    (void)path;
    (void)why; /* both have been told */
    bad++;
}

static void take_refused_shelf(const char *path, uint32_t number, uint32_t block)
{
    complain(path, 0, "refused %lu, %s, at block %lu; ask shelf salvage", (unsigned long)number, bim_refusal_name(number), (unsigned long)block);
    bad++;
}

/* Makes the page: beside its place, which it takes when it is whole. What is there and is no plain file (a device, a pipe, a link) is never
 * replaced: it is written to as it is. */
static int write_page(const char *path, const char *of)
{
    char note[96] = "", *beside;
    const size_t length = strlen(path) + sizeof ".part";
    struct stat is;
    const int in_place = lstat(path, &is) == 0 && !S_ISREG(is.st_mode);
    FILE *page;
    int good;
    if (bad > 0)
        snprintf(note, sizeof note, "%lu %s could not be read, and %s left out.", bad, bad == 1 ? "file" : "files", bad == 1 ? "is" : "are");
    beside = (char *)malloc(length);
    if (beside == NULL)
        abort();
    snprintf(beside, length, "%s%s", path, in_place ? "" : ".part");
    page = fopen(beside, "w");
    good = page != NULL;
    if (good) {
        report_as_page(page, report, of, note);
        good = fflush(page) == 0 && !ferror(page);
        good = fclose(page) == 0 && good && (in_place || rename(beside, path) == 0);
    }
    if (!good) {
        perror(path);
        if (page != NULL && !in_place)
            remove(beside);
    }
    free(beside);
    return good;
}

int main(int argc, char **argv)
{
    struct call call = begin_call("report", usage, help, argc, argv);
    struct payloads asked = {0, 0, 0, 0, 0, take_payload, take_unreadable, take_refused_shelf};
    const char *page = NULL, *names_path = NULL, *table_path, *value;
    int machines = 0, good = 1;
    /* Options stand before all else, in any order. */
    for (;;)
        if (option(&call, "-m"))
            machines = 1;
        else if ((value = option_value(&call, "-n")) != NULL)
            names_path = value;
        else if ((value = option_value(&call, "-p")) != NULL)
            good &= number_of(value, &party);
        else if ((value = option_value(&call, "-o")) != NULL)
            page = value;
        else
            break;
    if (!options_end(&call) || !good || (table_path = take_argument(&call)) == NULL || !payloads_called(&asked, &call, 1))
        return wrong_call(&call);
    if ((names_path != NULL && !read_names(names_path)) || !read_file(table_path, table, sizeof table, &table_bytes))
        return finish(STATUS_NO_GOOD);
    if (bim_check_table(table, table_bytes, area, sizeof area) != BIM_ACCEPTED) {
        complain_of_table(table_path, table, table_bytes, bim_area_place(area));
        return finish(STATUS_NO_GOOD);
    }
    take_payloads(&asked, &call);
    bad += (unsigned long)asked.unlisted;
    /* Else a wrong folder would pass for a day without payloads. */
    if (counted == 0 && bad == 0) {
        complain(NAMED "report", 0, "there is no payload");
        bad++;
    }
    if (machines)
        report_for_machines(stdout, report);
    else
        report_for_people(stdout, report);
    if (page != NULL) {
        char of[512];
        if (asked.has_root)
            snprintf(of, sizeof of, "Payloads of element %s, type %lu%s, by %.300s, as party %lu reads them.", name_of(asked.root_name),
                     (unsigned long)asked.root_type, asked.shelves ? ", and records of shelves, each of its own root" : "", table_path, (unsigned long)party);
        else
            snprintf(of, sizeof of, "Records of shelves, each of its own root, by %.300s, as party %lu reads them.", table_path, (unsigned long)party);
        good = write_page(page, of);
    }
    if (bad > 0 || !good)
        return finish(STATUS_NO_GOOD);
    return finish(bim_report_stopped(report) ? STATUS_STOPPED : report_refused(report) > 0 ? STATUS_REFUSED : STATUS_DONE);
}
