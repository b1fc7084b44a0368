/* A whole file in memory, and a file that is never half written: the new one is written beside the old, is on the disc with all of its bytes, and
 * only then takes the name. A power cut, a kill or a full disc leaves the old file or the new one. For Linux: include it first. */
#ifndef DISC_H
#define DISC_H

#ifndef _GNU_SOURCE
#define _GNU_SOURCE
#endif
#include <errno.h>
#include <fcntl.h>
#include <inttypes.h>
#include <signal.h>
#include <stdint.h>
#include <stdio.h>
#include <stdlib.h>
#include <string.h>
#include <sys/file.h>
#include <sys/stat.h>
#include <unistd.h>
#include "io.h"

/* Files over this size are told of on standard error, once for as many bytes again. */
#define DISC_TOLD 67108864

/* A file of which a new state may be written. */
struct shelf_file {
    const char *path;  /* as it was named */
    char *real;        /* behind symbolic links */
    int folder;        /* where it lies; locked, and synced when a name in it changes */
    struct stat was;   /* the file as it was read */
    int there;         /* whether there was one */
    uint8_t *bytes;
    size_t count;
};

/* A program that was begun without standard input, output or error would open a shelf in their place, and write what it says into it. Into
 * what is opened here nothing is written: standard output that is closed is an error. */
static inline void keep_standard_files(void)
{
    int file;
    do
        file = open("/dev/null", O_RDONLY);
    while (file >= 0 && file <= 2);
    if (file > 2)
        close(file);
    /* Past a limit on the size of files, write fails as on a full disc. */
    signal(SIGXFSZ, SIG_IGN);
}

/* What was last wrong with a file, for whoever has to say it elsewhere too. */
static const char *disc_said = "";

/* Says what is wrong with a file, and answers 0. */
static inline int no_good(const char *path, const char *why)
{
    disc_said = why;
    return complain(path, 0, "%s", why);
}

static inline int failed_at(const char *path) { return no_good(path, strerror(errno)); }

static inline void tell(const char *path, const char *what, size_t done, size_t all)
{
    if (all > DISC_TOLD && (done % DISC_TOLD == 0 || done == all))
        complain(path, 0, "%s, %zu of %zu MB", what, done >> 20, all >> 20);
}

/* Room in memory; says so where there is none. */
static inline uint8_t *room_for(const char *path, size_t count)
{
    uint8_t *bytes = (uint8_t *)malloc(count == 0 ? 1 : count);
    if (bytes == NULL) {
        disc_said = "no memory";
        complain(path, 0, "%s for %zu bytes; a shelf has to fit in memory, as a file and as its records", disc_said, count);
    }
    return bytes;
}

/* How many bytes go at once: up to the next time that something is told. */
static inline size_t next_part(size_t done, size_t all)
{
    const size_t part = DISC_TOLD - done % DISC_TOLD;
    return part < all - done ? part : all - done;
}

/* Reads count bytes, fewer at the file's end. */
static inline int read_all(int from, const char *path, uint8_t *bytes, size_t count, size_t *got)
{
    for (*got = 0; *got < count;) {
        const ssize_t now = read(from, bytes + *got, next_part(*got, count));
        if (now == 0)
            break;
        if (now < 0 && errno == EINTR)
            continue;
        if (now < 0)
            return failed_at(path);
        *got += (size_t)now;
        tell(path, "read", *got, count);
    }
    return 1;
}

static inline int write_all(int to, const char *path, const uint8_t *bytes, size_t count)
{
    size_t done;
    for (done = 0; done < count;) {
        const ssize_t now = write(to, bytes + done, next_part(done, count));
        if (now < 0 && errno == EINTR)
            continue;
        if (now <= 0)
            return failed_at(path);
        done += (size_t)now;
        tell(path, "written", done, count);
    }
    return 1;
}

/* Whether the two are one file in one state. */
static inline int is_same(const struct stat *one, const struct stat *other)
{
    return one->st_dev == other->st_dev && one->st_ino == other->st_ino && one->st_size == other->st_size &&
           one->st_mtim.tv_sec == other->st_mtim.tv_sec && one->st_mtim.tv_nsec == other->st_mtim.tv_nsec;
}

/* Reads a whole file, and leaves room for more bytes behind it; one that is not there has none, if it need not be. */
static inline int read_whole(struct shelf_file *file, const char *path, int has_to_be_there, size_t more)
{
    struct stat now;
    int from, good;
    file->path = path;
    /* A pipe would wait for whoever writes it. */
    from = open(path, O_RDONLY | O_NONBLOCK | O_CLOEXEC);
    file->there = from >= 0;
    if (from < 0 && (errno != ENOENT || has_to_be_there))
        return failed_at(path);
    file->count = 0;
    if (from < 0)
        return (file->bytes = room_for(path, more)) != NULL;
    good = fstat(from, &file->was) == 0 ? 1 : failed_at(path);
    if (good && S_ISDIR(file->was.st_mode))
        good = no_good(path, strerror(EISDIR));
    else if (good && !S_ISREG(file->was.st_mode))
        good = no_good(path, "a pipe or a device, and no file");
    if (good && (uintmax_t)file->was.st_size > SIZE_MAX / 2 - more)
        good = no_good(path, "too large for memory");
    if (good) {
        const size_t size = (size_t)file->was.st_size;
        file->bytes = room_for(path, size + more);
        good = file->bytes != NULL && read_all(from, path, file->bytes, size, &file->count);
        if (good && (fstat(from, &now) != 0 || !is_same(&now, &file->was) || file->count != size))
            good = no_good(path, "changed while it was read");
    }
    close(from);
    return good;
}

/* Opens and locks the folder that a file lies in, so that whoever else writes there by this module takes turns. A file system without locks
 * leaves it at what replace_file looks at. */
static inline int lock_folder(struct shelf_file *file, const char *path)
{
    char *slash, *real = realpath(path, NULL);
    file->path = path;
    file->real = real != NULL ? real : strdup(path);
    if (file->real == NULL)
        return failed_at(path);
    slash = strrchr(file->real, '/');
    if (slash == NULL)
        file->folder = open(".", O_RDONLY | O_DIRECTORY | O_CLOEXEC);
    else {
        const char kept = slash[1];
        slash[1] = '\0';
        file->folder = open(file->real, O_RDONLY | O_DIRECTORY | O_CLOEXEC);
        slash[1] = kept;
    }
    if (file->folder < 0)
        return failed_at(path);
    while (flock(file->folder, LOCK_EX) != 0 && errno == EINTR)
        ;
    return 1;
}

/* Gives the bytes at fd, which have no name yet or the name beside, the file's name; 0 where that fails, with errno. */
static inline int take_name(const struct shelf_file *file, int made, const char *beside, int unnamed)
{
    char proc[64];
    snprintf(proc, sizeof proc, "/proc/self/fd/%d", made);
    /* A new name is taken only where there is none: link refuses one that has come up meanwhile. */
    if (!file->there)
        return unnamed ? linkat(AT_FDCWD, proc, AT_FDCWD, file->real, AT_SYMLINK_FOLLOW) == 0
                       : link(beside, file->real) == 0 && unlink(beside) == 0;
    if (unnamed && linkat(AT_FDCWD, proc, AT_FDCWD, beside, AT_SYMLINK_FOLLOW) != 0)
        return 0;
    return rename(beside, file->real) == 0;
}

/* Whether the file is still as it was read, or still not there. */
static inline int stands_as_read(const struct shelf_file *file)
{
    struct stat now;
    if (stat(file->real, &now) != 0)
        return errno == ENOENT && !file->there;
    return file->there && is_same(&now, &file->was);
}

/* Puts these bytes in the place of the file, all at once, and sees them on the disc. Where it fails it is said why, nothing stands beside the
 * file, and it is as it was (only where the last step fails, the folder's, it is the new one, and a power cut may still undo it). */
static inline int replace_file(const struct shelf_file *file, const uint8_t *bytes, size_t count)
{
    const size_t length = strlen(file->real) + 32;
    char *beside = (char *)malloc(length);
    const mode_t mask = umask(0);
    int made = -1, good = 0, unnamed = 0;
    umask(mask);
    if (beside == NULL)
        return failed_at(file->path);
    snprintf(beside, length, "%s.%ld.new", file->real, (long)getpid());
    /* What an earlier process of our number left when it was killed. */
    unlink(beside);
    /* Without a name as long as it is not whole, where the file system knows how; so a kill leaves nothing. */
    {
        char *slash = strrchr(beside, '/');
        const char *folder = slash == NULL ? "." : beside;
        const char kept = slash == NULL ? '\0' : slash[1];
        if (slash != NULL)
            slash[1] = '\0';
        made = open(folder, O_TMPFILE | O_WRONLY | O_CLOEXEC, 0600);
        if (slash != NULL)
            slash[1] = kept;
        unnamed = made >= 0;
    }
    if (made < 0)
        made = open(beside, O_CREAT | O_EXCL | O_WRONLY | O_CLOEXEC, 0600);
    if (made < 0)
        failed_at(file->path);
    else {
        /* Whose it is stays so as far as we may; an archive's keeper may be none of its owners. */
        if (file->there && fchown(made, file->was.st_uid, file->was.st_gid) != 0)
            errno = 0;
        good = fchmod(made, file->there ? file->was.st_mode & 07777 : 0666 & ~mask) == 0 ? 1 : failed_at(file->path);
        good = good && write_all(made, file->path, bytes, count);
        if (good && fsync(made) != 0)
            good = failed_at(file->path);
        if (good && !stands_as_read(file))
            good = no_good(file->path, "changed underneath by someone else, and is left so");
        if (good && !take_name(file, made, beside, unnamed))
            good = failed_at(file->path);
        if (!good)
            unlink(beside);
        if (close(made) != 0 && good)
            good = failed_at(file->path);
        /* The name has to be on the disc as well. */
        if (good && fsync(file->folder) != 0)
            good = failed_at(file->path);
    }
    free(beside);
    return good;
}

/* Lets go of all that the file holds. */
static inline void let_file_go(struct shelf_file *file)
{
    free(file->bytes);
    free(file->real);
    if (file->folder > 0)
        close(file->folder);
}

#endif
