/* Makes a table file, and a names file, of a source: names, types, contents and marks in words, every row counted. The verdict on the table is
 * bim_check_table's. Nothing is written before all of it is right, and then each file is written whole. */
#include "replace.h"
#include "source_read.h"

static const char usage[] = "[-o TABLE] [-n NAMES] [SOURCE]";
static const char help[] =
    "Makes a table of SOURCE, or of standard input, which docs/SOURCE.md describes, and with -n the names file of its words.\n"
    "Without -o the table goes to standard output. explain --source is the way back.\n"
    "Exit status:\n"
    "  0  written\n"
    "  1  the source is wrong: where, is said; nothing is written\n"
    "  2  a wrong call, or a file could not be read or written\n";

static uint8_t table[BIM_MOST_TABLE], area[BIM_AREA];

/* Whether two paths are one file. */
static int is_one_file(const char *one, const char *other)
{
    struct stat a, b;
    if (one == NULL || other == NULL)
        return 0;
    if (stat(one, &a) != 0 || stat(other, &b) != 0)
        return strcmp(one, other) == 0;
    return a.st_dev == b.st_dev && a.st_ino == b.st_ino && S_ISREG(a.st_mode);
}

/* The names file in memory. */
static uint8_t *names_bytes(size_t *count)
{
    char *bytes = NULL;
    FILE *file = open_memstream(&bytes, count);
    if (file == NULL)
        abort();
    print_names(file);
    if (fclose(file) != 0)
        abort();
    return (uint8_t *)bytes;
}

/* Writes what is asked for: nothing takes its name before all of it is whole. */
static int write_files(const char *table_path, const char *names_path, size_t table_bytes)
{
    struct replacement of_table = {NULL, NULL, NULL}, of_names = {NULL, NULL, NULL};
    size_t count = 0;
    uint8_t *bytes = names_path == NULL ? NULL : names_bytes(&count);
    int good = (table_path == NULL || begin_replace(&of_table, table_path, table, table_bytes)) &&
               (names_path == NULL || begin_replace(&of_names, names_path, bytes, count));
    free(bytes);
    if (good && table_path == NULL && (fwrite(table, 1, table_bytes, stdout) != table_bytes || fflush(stdout) != 0)) {
        good = complain("standard output", 0, "%s", strerror(errno));
        clearerr(stdout);
    }
    good = good && end_replace(&of_names) && end_replace(&of_table);
    leave(&of_names);
    leave(&of_table);
    return good;
}

int main(int argc, char **argv)
{
    struct call call = begin_call("table", usage, help, argc, argv);
    const char *path, *value, *table_path = NULL, *names_path = NULL;
    size_t bytes;
    int status;
    for (;;) {
        if ((value = option_value(&call, "-o")) != NULL)
            table_path = value;
        else if ((value = option_value(&call, "-n")) != NULL)
            names_path = value;
        else
            break;
    }
    if (!options_end(&call) || call.left > 1)
        return wrong_call(&call);
    path = call.left == 1 ? call.next[0] : NULL;
    if (is_one_file(path, table_path) || is_one_file(path, names_path) || is_one_file(table_path, names_path)) {
        complain(is_one_file(table_path, names_path) ? names_path : path, 0, "one file cannot be two of source, table and names");
        return finish(STATUS_NO_GOOD);
    }
    status = load_source(path);
    if (status != STATUS_DONE)
        return finish(status);
    if (!compile_source(table, &bytes))
        return finish(STATUS_REFUSED);
    if (bim_check_table(table, bytes, area, sizeof area) != BIM_ACCEPTED) {
        complain_of_table(called(path), table, bytes, bim_area_place(area));
        return finish(STATUS_REFUSED);
    }
    status = write_files(table_path, names_path, bytes) ? STATUS_DONE : STATUS_NO_GOOD;
    forget_source();
    return finish(status);
}
