/* Cuts a file of payloads that stand one behind the other apart.
 *
 *     apart [-p PARTY] [-w] TABLE NAME TYPE FILE
 *
 * No payload begins another of the same table and root, so there is one way: on 17 at bit p the first payload is the first (p + 7) / 8 bytes, read
 * again by themselves. Printed are number, place and bytes of each. With -w they are written besides, as FILE.1, FILE.2 ..: only where all of FILE
 * came apart, and never over a file that is there; looking leaves nothing behind.
 *
 * Exit status: 0 it came apart, 1 it does not (the first byte at which no payload stands is told), 2 a file or the table is no good. */
#define _XOPEN_SOURCE 700
#include <errno.h>
#include <fcntl.h>
#include <unistd.h>
#include "bim.h"
#include "io.h"

static const char usage[] = "[-p PARTY] [-w] TABLE NAME TYPE FILE";
static const char help[] =
    "Cuts a file of payloads that stand one behind the other apart: number, place and bytes of each.\n"
    "-w writes them besides, as FILE.1, FILE.2 .., where all of FILE came apart.\n"
    "Exit status:\n"
    "  0  it came apart\n"
    "  1  it does not: the first byte at which no payload stands is told\n"
    "  2  a wrong call, or the table is wrong, or a file could not be read or written\n";

static uint8_t table[BIM_MOST_TABLE + 4], area[BIM_AREA], events[BIM_MOST_EVENTS * BIM_EVENT], texts[BIM_MOST_PAYLOAD];
static size_t table_bytes;
static uint32_t party, root_name, root_type;

static uint32_t read_one(const uint8_t *bytes, size_t count)
{
    return bim_read(table, table_bytes, party, root_name, root_type, bytes, count, events, sizeof events, texts, sizeof texts, area, sizeof area);
}

/* The bytes of the payload that these begin with; 0 where there is none, and then the number says why and the area where. */
static size_t first_of(const uint8_t *bytes, size_t count, uint32_t *number)
{
    size_t first = count;
    *number = read_one(bytes, count);
    if (*number == BIM_LEFT_OVER) {
        first = ((size_t)bim_area_place(area) + 7) / 8;
        /* Its padding has not been judged yet. */
        *number = read_one(bytes, first);
    }
    return *number == BIM_ACCEPTED ? first : 0;
}

/* Writes a piece to a file of its own, which must not be there yet. */
static int write_piece(const char *path, unsigned long number, const uint8_t *bytes, size_t count)
{
    const size_t length = strlen(path) + 24;
    char *name = (char *)malloc(length);
    int file, good;
    if (name == NULL)
        abort();
    snprintf(name, length, "%s.%lu", path, number);
    file = open(name, O_WRONLY | O_CREAT | O_EXCL, 0666);
    good = file >= 0;
    if (good) {
        good = write(file, bytes, count) == (ssize_t)count;
        if (!good && errno == 0)
            errno = ENOSPC;
        good = close(file) == 0 && good;
    }
    if (!good)
        perror(name);
    free(name);
    return good;
}

/* Goes through the file, payload by payload, and prints each, or writes each: answers the exit status. */
static int go_through(const char *path, int writing)
{
    static uint8_t bytes[BIM_MOST_PAYLOAD];
    unsigned long number = 0;
    unsigned long long place = 0;
    size_t held = 0;
    int status = 0;
    FILE *file = fopen(path, "rb");
    if (file == NULL) {
        perror(path);
        return 2;
    }
    while (status == 0) {
        uint32_t answer;
        size_t first;
        held += fread(bytes + held, 1, sizeof bytes - held, file);
        if (ferror(file)) {
            perror(path);
            status = 2;
            break;
        }
        if (held == 0)
            break;
        first = first_of(bytes, held, &answer);
        number++;
        if (first == 0) {
            printf("%s: no payload at byte %llu: refused %lu, %s", path, place, (unsigned long)answer, bim_refusal_name(answer));
            if (answer >= BIM_PAST_END && answer != BIM_PARTY)
                printf(", at bit %lu", (unsigned long)bim_area_place(area));
            putchar('\n');
            status = 1;
        } else if (!writing)
            printf("%lu: byte %llu, %lu byte%s\n", number, place, (unsigned long)first, first == 1 ? "" : "s");
        else if (!write_piece(path, number, bytes, first))
            status = 2;
        place += first;
        held -= first;
        memmove(bytes, bytes + first, held);
    }
    fclose(file);
    if (status == 0 && number == 0) {
        printf("%s: empty: no payload\n", path);
        status = 1;
    }
    return status;
}

int main(int argc, char **argv)
{
    struct call call = begin_call("apart", usage, help, argc, argv);
    const char *value;
    int writing = 0, status;
    for (;;)
        if (option(&call, "-w"))
            writing = 1;
        else if ((value = option_value(&call, "-p")) != NULL) {
            if (!number_of(value, &party))
                return wrong_call(&call);
        } else
            break;
    if (!options_end(&call) || call.left != 4 || !number_of(call.next[1], &root_name) || !number_of(call.next[2], &root_type))
        return wrong_call(&call);
    if (!read_file(call.next[0], table, sizeof table, &table_bytes))
        return finish(STATUS_NO_GOOD);
    if (bim_check_table(table, table_bytes, area, sizeof area) != BIM_ACCEPTED) {
        complain(call.next[0], 0, "wrong at word %lu; ask explain", (unsigned long)bim_area_place(area));
        return finish(STATUS_NO_GOOD);
    }
    status = go_through(call.next[3], 0);
    if (status == STATUS_DONE && writing)
        status = go_through(call.next[3], 1);
    return finish(status);
}
