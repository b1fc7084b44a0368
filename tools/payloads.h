/* Where payloads come from, in one way for every program that takes many: files, folders, lists of files on standard input, shelves. For Linux: include
 * it first. */
#ifndef PAYLOADS_H
#define PAYLOADS_H

#include "disc.h"
#include <dirent.h>
#include "origin.h"

/* How a program's usage names them. */
#define PAYLOADS_USAGE "[ROOT_NAME ROOT_TYPE PAYLOAD..] [-s SHELF..]"
/* How its help does. */
#define PAYLOADS_HELP                                                                                                        \
    "A PAYLOAD is a file, or a folder, whose files are read, and those of its folders; - is a list of files on standard\n"  \
    "input, one a line, and -0 one with a NUL behind each. What comes behind -s is the same of shelves, whose records\n"     \
    "have their roots with them.\n"

/* A payload that was found. */
struct payload {
    struct origin from;
    const uint8_t *bytes;
    size_t count;
};

/* What is asked for, and who is told what is found. */
struct payloads {
    int has_root, shelves;         /* whether files have a root; whether what is named now are shelves */
    uint32_t root_name, root_type; /* that of payload files */
    int unlisted;                  /* whether a folder or a list could not be read to its end */
    void (*take)(const struct payload *found);
    void (*unreadable)(const char *path, const char *why);
    void (*refused)(const char *path, uint32_t number, uint32_t block); /* a shelf that is damaged */
};

/* A shelf, record by record: all of them, or none where it is damaged. */
static inline void take_shelf(const struct payloads *all, const char *path)
{
    static uint8_t area[BIM_SHELF_AREA];
    struct shelf_file shelf;
    uint8_t *records = NULL;
    memset(&shelf, 0, sizeof shelf);
    if (read_whole(&shelf, path, 1, 0))
        records = room_for(path, shelf.count);
    if (records == NULL)
        all->unreadable(path, disc_said);
    else {
        const uint32_t number = bim_shelf_read(shelf.bytes, shelf.count, records, shelf.count, area, sizeof area);
        const uint64_t count = bim_shelf_records(area);
        const uint8_t *at = records;
        struct payload found;
        found.from.path = path;
        found.from.of_shelf = 1;
        tell(path, "judged", shelf.count, shelf.count);
        if (number != BIM_ACCEPTED)
            all->refused(path, number, bim_shelf_place(area));
        for (found.from.record = 0; found.from.record < count && !ferror(stdout); found.from.record++) {
            found.from.root_name = bim_record_name(at);
            found.from.root_type = bim_record_type(at);
            found.bytes = bim_record_payload(at);
            found.count = bim_record_length(at);
            at += bim_record_bytes(at);
            all->take(&found);
        }
    }
    free(records);
    let_file_go(&shelf);
}

/* A payload's file: a byte more than a payload may have is read, so that it is refused. */
static inline void take_file(const struct payloads *all, const char *path)
{
    static uint8_t bytes[BIM_MOST_PAYLOAD + 1];
    struct payload found;
    if (all->shelves) {
        take_shelf(all, path);
        return;
    }
    found.from.path = path;
    found.from.of_shelf = 0;
    found.from.record = 0;
    found.from.root_name = all->root_name;
    found.from.root_type = all->root_type;
    found.bytes = bytes;
    if (read_file(path, bytes, sizeof bytes, &found.count))
        all->take(&found);
    else
        all->unreadable(path, strerror(errno));
}

static inline int is_folder(const char *path, int (*look)(const char *, struct stat *))
{
    struct stat found;
    return look(path, &found) == 0 && S_ISDIR(found.st_mode);
}

/* A pipe, of which nobody knows when it ends. */
static inline int is_pipe(const char *path)
{
    struct stat found;
    return stat(path, &found) == 0 && S_ISFIFO(found.st_mode);
}

/* The files of a folder and of the folders in it, by name. A link to a folder is not followed, so that there is an end. */
static inline void take_folder(struct payloads *all, const char *path)
{
    struct dirent **entries;
    int i, count = scandir(path, &entries, NULL, alphasort);
    if (count < 0) {
        complain(path, 0, "%s", strerror(errno));
        all->unlisted = 1;
        return;
    }
    for (i = 0; i < count; i++) {
        const char *name = entries[i]->d_name;
        const size_t length = strlen(path) + strlen(name) + 2;
        char *inside = (char *)malloc(length);
        if (inside == NULL)
            abort();
        snprintf(inside, length, "%s%s%s", path, path[strlen(path) - 1] == '/' ? "" : "/", name);
        if (strcmp(name, ".") != 0 && strcmp(name, "..") != 0 && !ferror(stdout)) {
            if (is_folder(inside, lstat))
                take_folder(all, inside);
            else if (is_pipe(inside)) {
                complain(inside, 0, "a pipe in a folder is not read");
                all->unreadable(inside, "a pipe in a folder is not read");
            } else if (!is_folder(inside, stat))
                take_file(all, inside);
        }
        free(inside);
        free(entries[i]);
    }
    free(entries);
}

static inline void take_path(struct payloads *all, const char *path)
{
    if (is_folder(path, stat))
        take_folder(all, path);
    else
        take_file(all, path);
}

/* Those of a list on standard input. */
static inline void take_list(struct payloads *all, int end)
{
    static char line[4097];
    struct lines lines;
    int more = -1;
    if (open_lines(&lines, NULL, end))
        while ((more = take_line(&lines, line, sizeof line)) == 1 && !ferror(stdout))
            if (line[0] != '\0')
                take_path(all, line);
    if (more < 0)
        all->unlisted = 1;
}

/* Whether these arguments are a call for payloads; takes the root, where there is one, and leaves the rest to take_payloads. With `some` there has to be
 * something to read. */
static inline int payloads_called(struct payloads *all, struct call *call, int some)
{
    all->has_root = call->left > 0 && strcmp(call->next[0], "-s") != 0;
    if (all->has_root) {
        if (call->left < 2 || !number_of(call->next[0], &all->root_name) || !number_of(call->next[1], &all->root_type))
            return 0;
        call->left -= 2;
        call->next += 2;
    }
    /* A -s that nothing follows asks for nothing. */
    return call->left > 0 ? strcmp(call->next[call->left - 1], "-s") != 0 : all->has_root && !some;
}

static inline void take_payloads(struct payloads *all, const struct call *call)
{
    int i;
    all->shelves = 0;
    for (i = 0; i < call->left && !ferror(stdout); i++)
        if (strcmp(call->next[i], "-s") == 0)
            all->shelves = 1;
        else if (strcmp(call->next[i], "-") == 0)
            take_list(all, '\n');
        else if (strcmp(call->next[i], "-0") == 0)
            take_list(all, '\0');
        else
            take_path(all, call->next[i]);
}

#endif
