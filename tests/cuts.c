/* A shelf is never lost and never half written: `shelf add` and `shelf salvage` are run with every one of their calls of the system failing in turn
 * (no space, an error of the disc), doing half of what it should, or being the last thing that happens (a kill). After each the shelf is the
 * old one or the new one, whole; after a failure nothing stands beside it, and the exit status is 2. What the program does in which order is
 * watched besides, for a power cut: no name is given to bytes that are not on the disc, and it does not end well before the name is.
 *
 *     cuts FOLDER      FOLDER is there, empty, and ours */
#ifndef _GNU_SOURCE
#define _GNU_SOURCE
#endif
#include <dirent.h>
#include <errno.h>
#include <fcntl.h>
#include <inttypes.h>
#include <signal.h>
#include <stdio.h>
#include <stdlib.h>
#include <string.h>
#include <sys/file.h>
#include <sys/stat.h>
#include <sys/wait.h>
#include <unistd.h>

/* What befalls call number `at`, of all that are counted: it fails with the error, or does half, or the process dies. */
enum fate { NOTHING, FAILS, HALF, DIES };
static enum fate fate;
static long at, counted;
static int error;
static int no_unnamed;
/* Bytes that are not on the disc yet; a name that is not. */
static int bytes_due, name_due;

/* Whether this call fails. */
static int befallen(void)
{
    if (counted++ != at || fate == NOTHING || fate == HALF)
        return 0;
    if (fate == DIES)
        _exit(77);
    errno = error;
    return 1;
}

/* The exit status of a run in which a name was given too early, or that ended too early. */
enum { NAMED_EARLY = 78, ENDED_EARLY = 79 };

static void watch(int good, int status)
{
    if (!good)
        _exit(status);
}

static int cut_open(const char *path, int flags, mode_t mode)
{
    if ((flags & O_TMPFILE) == O_TMPFILE && no_unnamed) {
        errno = EOPNOTSUPP;
        return -1;
    }
    return befallen() ? -1 : open(path, flags, mode);
}

static ssize_t cut_read(int file, void *bytes, size_t count)
{
    const int half = fate == HALF && counted == at;
    return befallen() ? -1 : read(file, bytes, half ? (count + 1) / 2 : count);
}

static ssize_t cut_write(int file, const void *bytes, size_t count)
{
    const int half = fate == HALF && counted == at;
    bytes_due = 1;
    return befallen() ? -1 : write(file, bytes, half ? (count + 1) / 2 : count);
}

static int cut_fsync(int file)
{
    struct stat what;
    if (befallen())
        return -1;
    if (fstat(file, &what) == 0 && S_ISDIR(what.st_mode))
        name_due = 0;
    else
        bytes_due = 0;
    return fsync(file);
}

static int cut_rename(const char *from, const char *to)
{
    watch(!bytes_due, NAMED_EARLY);
    name_due = 1;
    return befallen() ? -1 : rename(from, to);
}

static int cut_link(const char *from, const char *to)
{
    watch(!bytes_due, NAMED_EARLY);
    name_due = 1;
    return befallen() ? -1 : link(from, to);
}

static int cut_linkat(int a, const char *from, int b, const char *to, int flags)
{
    watch(!bytes_due, NAMED_EARLY);
    name_due = 1;
    return befallen() ? -1 : linkat(a, from, b, to, flags);
}

static int cut_close(int file)
{
    /* What close answers to a failure, it has closed all the same. */
    const int failed = befallen();
    const int done = close(file);
    if (failed)
        errno = error;
    return failed ? -1 : done;
}

static int cut_fstat(int file, struct stat *what) { return befallen() ? -1 : fstat(file, what); }
static int cut_fchmod(int file, mode_t mode) { return befallen() ? -1 : fchmod(file, mode); }

/* open has two forms. */
#define open2(path, flags) cut_open(path, flags, 0)
#define open3(path, flags, mode) cut_open(path, flags, mode)
#define chosen(a, b, c, name, ...) name
#define open(...) chosen(__VA_ARGS__, open3, open2, )(__VA_ARGS__)
#define read cut_read
#define write cut_write
#define fsync cut_fsync
#define rename cut_rename
#define link cut_link
#define linkat cut_linkat
#define close cut_close
#define fstat(file, what) cut_fstat(file, what)
#define fchmod cut_fchmod
#define main shelf_main
#include "../tools/shelf.c"
#undef main
#undef open
#undef read
#undef write
#undef close
#undef link

static unsigned long trials, kills, litter, wrong;
static int last_status;

struct content {
    uint8_t bytes[65536];
    long count; /* -1 where there is no file */
};

static struct content content_of(const char *path)
{
    static struct content now;
    FILE *file = fopen(path, "rb");
    now.count = -1;
    if (file != NULL) {
        now.count = (long)fread(now.bytes, 1, sizeof now.bytes, file);
        fclose(file);
    }
    return now;
}

static int is_content(const struct content *one, const struct content *other)
{
    return one->count == other->count && (one->count <= 0 || memcmp(one->bytes, other->bytes, (size_t)one->count) == 0);
}

/* The number of files in the folder. */
static int files_in(const char *folder)
{
    DIR *open_folder = opendir(folder);
    struct dirent *entry;
    int count = 0;
    if (open_folder == NULL)
        return -1;
    while ((entry = readdir(open_folder)) != NULL)
        count += entry->d_name[0] != '.';
    closedir(open_folder);
    return count;
}

static void put(const char *path, const struct content *what)
{
    FILE *file = what->count < 0 ? NULL : fopen(path, "wb");
    if (what->count < 0)
        unlink(path);
    else if (file == NULL || fwrite(what->bytes, 1, (size_t)what->count, file) != (size_t)what->count || fclose(file) != 0)
        abort();
}

/* The process that was run last. */
static pid_t ran;

/* Runs the program, quietly; answers its exit status, and in *calls how many calls were counted. */
static int run(int argc, const char **words, long *calls)
{
    int told[2], status;
    pid_t child;
    if (pipe(told) != 0 || fflush(stdout) != 0 || (child = fork()) < 0)
        abort();
    if (child == 0) {
        const int quiet = open("/dev/null", O_WRONLY);
        char *copies[8];
        int i;
        for (i = 0; i <= argc; i++)
            copies[i] = i == argc ? NULL : strdup(words[i]);
        dup2(quiet, 1);
        dup2(quiet, 2);
        counted = bytes_due = name_due = 0;
        status = shelf_main(argc, copies);
        watch(status == 2 || (!bytes_due && !name_due), ENDED_EARLY);
        if (write(told[1], &counted, sizeof counted) != (ssize_t)sizeof counted)
            abort();
        _exit(status);
    }
    close(told[1]);
    *calls = 0;
    if (read(told[0], calls, sizeof *calls) < 0 || waitpid(child, &status, 0) != child)
        abort();
    close(told[0]);
    ran = child;
    return last_status = WIFEXITED(status) ? WEXITSTATUS(status) : 128;
}

static void hold(int good, const char *what)
{
    static const char *const fates[] = {"nothing", "a failure", "half", "a kill"};
    if (good)
        return;
    if (wrong++ < 10)
        printf("cuts: %s, by %s at call %ld, exit status %d\n", what, fates[fate], at, last_status);
}

/* Every fate at every call of a program that makes `new` of `old` at path; other files stand in the folder. */
static void cut_everywhere(const char *folder, const char *path, int argc, const char **words, int well)
{
    static struct content old, new, now;
    static const int errors[] = {ENOSPC, EIO};
    long calls, left;
    int others, status, which;
    old = content_of(path);
    others = files_in(folder) - (old.count >= 0);
    fate = NOTHING;
    status = run(argc, words, &calls);
    new = content_of(path);
    hold(status == well && calls > 5 && !is_content(&old, &new), "does not do its work");
    for (which = 0; which < 4; which++)
        for (at = 0; at < calls; at++) {
            fate = which < 2 ? FAILS : which == 2 ? HALF : DIES;
            error = errors[which & 1];
            put(path, &old);
            status = run(argc, words, &left);
            now = content_of(path);
            trials++;
            hold(is_content(&now, &old) || is_content(&now, &new), "neither the old shelf nor the new one");
            hold(status == well || status == (fate == DIES ? 77 : 2), "another exit status");
            hold(status != well || is_content(&now, &new), "ended well without its work");
            if (fate == FAILS || fate == HALF)
                hold(files_in(folder) == others + (now.count >= 0), "something stands beside");
            if (fate == HALF)
                hold(status == well, "half a read or write is not gone on with");
            /* A kill may leave a file of that name beside, and nothing else. */
            if (fate == DIES) {
                char beside[4096];
                snprintf(beside, sizeof beside, "%s.%ld.new", path, (long)ran);
                kills++;
                litter += unlink(beside) == 0;
                hold(files_in(folder) == others + (now.count >= 0), "something else stands beside");
            }
        }
    put(path, &old);
}

int main(int argc, char **argv)
{
    static struct content payload, damaged;
    char shelf[2048], one[2048], other[2048], fresh[2048];
    const char *add[] = {"shelf", "add", shelf, "10", "0", one, other};
    const char *salvage[] = {"shelf", "salvage", shelf, fresh};
    long calls;
    if (argc != 2 || files_in(argv[1]) != 0) {
        fprintf(stderr, "cuts FOLDER, an empty one\n");
        return 2;
    }
    snprintf(shelf, sizeof shelf, "%s/shelf", argv[1]);
    snprintf(one, sizeof one, "%s/one", argv[1]);
    snprintf(other, sizeof other, "%s/other", argv[1]);
    snprintf(fresh, sizeof fresh, "%s/fresh", argv[1]);
    payload.count = 700;
    memset(payload.bytes, 7, sizeof payload.bytes);
    put(one, &payload);
    payload.count = 9;
    put(other, &payload);
    for (no_unnamed = 0; no_unnamed < 2; no_unnamed++) {
        /* The first records of a shelf that is not there, and more of them. */
        unlink(shelf);
        cut_everywhere(argv[1], shelf, 7, add, 0);
        fate = NOTHING;
        hold(run(7, add, &calls) == 0, "does not add");
        cut_everywhere(argv[1], shelf, 7, add, 0);
        /* A damaged shelf, and a new one of what it holds. */
        damaged = content_of(shelf);
        damaged.bytes[100] ^= 1;
        put(shelf, &damaged);
        cut_everywhere(argv[1], fresh, 4, salvage, 1);
    }
    printf("cuts: %lu runs cut at every call of the system, %lu of them kills, %lu of which left a file beside; %lu otherwise than expected\n",
           trials, kills, litter, wrong);
    return wrong > 0 || trials < 100;
}
