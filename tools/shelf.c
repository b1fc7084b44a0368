/* Payloads on a shelf, a file of blocks (docs/SHELF.md):
 *
 *     shelf add SHELF NAME TYPE PAYLOAD...   puts payload files of that root on the shelf, all or none; a shelf that is not there begins empty
 *     shelf list SHELF                       a line for each record
 *     shelf get SHELF RECORD                 the payload of a record, counted from 0, to standard output
 *     shelf salvage OLD NEW                  writes what a damaged shelf still holds whole to a new one, and lists what it drops
 *
 * A shelf is never half written: the new file is written beside, and takes the name when all of it is on the disc. It has to fit in memory, as a
 * file and as its records. Exit status: 0 done (of salvage: nothing was dropped), 1 refused, or no such record, or something was dropped, 2 a
 * file is no good, or cannot be read or written. */
#include "disc.h"
#include "bim.h"
#include "io.h"

static uint8_t area[BIM_SHELF_AREA];

static const char usage[] = "add SHELF NAME TYPE PAYLOAD.. | list SHELF | get SHELF RECORD | salvage OLD NEW";
static const char help[] =
    "Keeps payloads on a shelf, a file of blocks (docs/SHELF.md): adds payload files of a root, all or none;\n"
    "lists the records; writes the payload of a record, counted from 0, to standard output;\n"
    "makes a new shelf of the records that a damaged one still holds whole, and tells what was dropped.\n"
    "Exit status:\n"
    "  0  done; of salvage: nothing was dropped\n"
    "  1  refused, or no such record, or something was dropped\n"
    "  2  a wrong call, or a file could not be read or written\n";
enum { DONE = STATUS_DONE, REFUSED = STATUS_REFUSED, NO_GOOD = STATUS_NO_GOOD };

/* Whether the call was accepted; says if not. */
static int accepted(const char *path, uint32_t number)
{
    if (number != BIM_ACCEPTED)
        complain(path, 0, "refused %" PRIu32 ", %s, at block %" PRIu32, number, bim_refusal_name(number), bim_shelf_place(area));
    return number == BIM_ACCEPTED;
}

/* What is said on standard output has to arrive. */
static int said(int status)
{
    if (fflush(stdout) != 0 || ferror(stdout)) {
        perror("standard output");
        return NO_GOOD;
    }
    return status;
}

/* The records of a file that was read, in a buffer with room for more bytes behind them. */
static int records_of(const struct shelf_file *file, size_t more, uint8_t **records)
{
    uint32_t number;
    *records = room_for(file->path, file->count + more);
    if (*records == NULL)
        return NO_GOOD;
    number = bim_shelf_read(file->bytes, file->count, *records, file->count, area, sizeof area);
    tell(file->path, "judged", file->count, file->count);
    return accepted(file->path, number) ? DONE : REFUSED;
}

/* Puts a payload file behind the stream as a record; 0 where it cannot be read, or no record holds it. */
static int add_payload(const char *path, uint32_t name, uint32_t type, uint8_t *records, size_t *count)
{
    static uint8_t payload[BIM_MOST_PAYLOAD + 1];
    const uint32_t header[] = {0, name, type};
    size_t got, i;
    int good, from = open(path, O_RDONLY | O_CLOEXEC);
    if (from < 0)
        return failed_at(path);
    good = read_all(from, path, payload, sizeof payload, &got);
    close(from);
    if (!good)
        return 0;
    if (got > BIM_MOST_PAYLOAD)
        return no_good(path, "over 8192 bytes, which no record holds");
    for (i = 0; i < 3; i++) {
        const size_t word = i == 0 ? got : header[i];
        records[*count + 2 * i] = (uint8_t)(word >> 8);
        records[*count + 2 * i + 1] = (uint8_t)word;
    }
    memcpy(records + *count + BIM_RECORD_HEAD, payload, got);
    *count += BIM_RECORD_HEAD + got;
    return 1;
}

/* The shelf with these payloads more, in the place of the shelf. */
static int add(struct shelf_file *shelf, const char *path, uint32_t name, uint32_t type, char **payloads, int many)
{
    const size_t more = (size_t)many * (BIM_RECORD_HEAD + BIM_MOST_PAYLOAD);
    uint8_t *records = NULL;
    size_t count;
    int status = NO_GOOD, i, good;
    /* The new file is written into the buffer of the old: at most as many blocks, and those of the new records. */
    if (!lock_folder(shelf, path) || !read_whole(shelf, path, 0, BIM_SHELF_ROOM(more) + BIM_BLOCK_BYTES))
        return NO_GOOD;
    status = records_of(shelf, more, &records);
    if (status == DONE) {
        count = (size_t)bim_shelf_stream_bytes(area);
        for (i = 0, good = 1; i < many && good; i++)
            good = add_payload(payloads[i], name, type, records, &count);
        if (!good)
            status = NO_GOOD;
        else if (!accepted(path, bim_shelf_write(records, count, shelf->bytes, BIM_SHELF_ROOM(count), area, sizeof area)))
            status = REFUSED;
        else
            status = replace_file(shelf, shelf->bytes, (size_t)bim_shelf_file_bytes(area)) ? DONE : NO_GOOD;
    }
    free(records);
    return status;
}

/* A line for each record, and one for the shelf. */
static void print_records(const uint8_t *records)
{
    const uint64_t all = bim_shelf_records(area);
    const uint8_t *at = records;
    uint64_t i;
    for (i = 0; i < all; i++, at += bim_record_bytes(at))
        printf("record %" PRIu64 ": root %" PRIu32 ", type %" PRIu32 ", %" PRIu32 " bytes\n", i, bim_record_name(at), bim_record_type(at),
               bim_record_length(at));
    printf("%" PRIu64 " records, %" PRIu64 " bytes in %" PRIu64 " blocks\n", all, bim_shelf_stream_bytes(area),
           bim_shelf_file_bytes(area) / BIM_BLOCK_BYTES);
}

static int list(struct shelf_file *shelf, const char *path)
{
    uint8_t *records = NULL;
    int status = NO_GOOD;
    if (read_whole(shelf, path, 1, 0))
        status = records_of(shelf, 0, &records);
    if (status == DONE) {
        print_records(records);
        status = said(status);
    }
    free(records);
    return status;
}

static int get(struct shelf_file *shelf, const char *path, uint32_t wanted)
{
    uint8_t *records = NULL, *at;
    int status = NO_GOOD;
    uint32_t i;
    if (read_whole(shelf, path, 1, 0))
        status = records_of(shelf, 0, &records);
    if (status == DONE && wanted >= bim_shelf_records(area)) {
        complain(path, 0, "no record %" PRIu32 ": there are %" PRIu64 ", from 0", wanted, bim_shelf_records(area));
        status = REFUSED;
    } else if (status == DONE) {
        for (i = 0, at = records; i < wanted; i++)
            at += bim_record_bytes(at);
        if (fwrite(bim_record_payload(at), 1, bim_record_length(at), stdout) < bim_record_length(at))
            status = NO_GOOD;
        status = said(status);
    }
    free(records);
    return status;
}

static void print_dropped(const char *path, const uint8_t *dropped)
{
    const uint64_t entries = bim_shelf_entries(area);
    size_t i;
    printf("dropped from %s; %s\n%10s %10s %10s\n", path, BIM_SALVAGE_HEADING, "block", "reason", "bytes");
    for (i = 0; i < entries; i++)
        printf("%10" PRIu32 " %10" PRIu32 " %10" PRIu32 "\n", bim_dropped_block(dropped, i), bim_dropped_reason(dropped, i),
               bim_dropped_bytes(dropped, i));
    printf("kept %" PRIu64 " records, %" PRIu64 " bytes in %" PRIu64 " blocks; %" PRIu64 " used bytes of good blocks in no kept record\n",
           bim_shelf_records(area), bim_shelf_stream_bytes(area), bim_shelf_file_bytes(area) / BIM_BLOCK_BYTES, bim_shelf_dropped(area));
}

/* The new shelf must not be there yet: what it held would be lost. */
static int salvage(struct shelf_file *old, const char *path, const char *fresh_path)
{
    struct shelf_file fresh;
    struct stat now;
    uint8_t *dropped = NULL;
    size_t room;
    int status = NO_GOOD;
    memset(&fresh, 0, sizeof fresh);
    if (lstat(fresh_path, &now) == 0) {
        no_good(fresh_path, "is there already, and would be lost");
        return NO_GOOD;
    }
    if (!read_whole(old, path, 1, 0) || !lock_folder(&fresh, fresh_path))
        return NO_GOOD;
    room = (old->count / BIM_BLOCK_BYTES + 1) * BIM_DROPPED;
    fresh.bytes = room_for(path, old->count);
    dropped = room_for(path, room);
    if (fresh.bytes != NULL && dropped != NULL) {
        const uint32_t number = bim_shelf_salvage(old->bytes, old->count, fresh.bytes, old->count, dropped, room, area, sizeof area);
        tell(path, "judged", old->count, old->count);
        if (!accepted(path, number))
            status = REFUSED;
        else if (replace_file(&fresh, fresh.bytes, (size_t)bim_shelf_file_bytes(area))) {
            print_dropped(path, dropped);
            status = said(bim_shelf_entries(area) == 0 ? DONE : REFUSED);
        }
    }
    free(dropped);
    let_file_go(&fresh);
    return status;
}

int main(int argc, char **argv)
{
    struct call call = begin_call("shelf", usage, help, argc, argv);
    struct shelf_file shelf;
    uint32_t name, type, wanted;
    int status;
    char **next = call.next;
    const char *command = call.left > 1 ? next[0] : "";
    memset(&shelf, 0, sizeof shelf);
    keep_standard_files();
    if (strcmp(command, "add") == 0 && call.left > 4 && number_of(next[2], &name) && number_of(next[3], &type)) {
        if (name > 65535 || type > 65535) {
            fprintf(stderr, NAMED "shelf: a root's name and type are at most 65535\n");
            return NO_GOOD;
        }
        status = add(&shelf, next[1], name, type, next + 4, call.left - 4);
    } else if (strcmp(command, "list") == 0 && call.left == 2)
        status = list(&shelf, next[1]);
    else if (strcmp(command, "get") == 0 && call.left == 3 && number_of(next[2], &wanted))
        status = get(&shelf, next[1], wanted);
    else if (strcmp(command, "salvage") == 0 && call.left == 3)
        status = salvage(&shelf, next[1], next[2]);
    else
        return wrong_call(&call);
    let_file_go(&shelf);
    return status;
}
