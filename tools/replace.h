/* Files that are never half written: the new bytes are written beside the file, and take its name when all of them are on the disk. A pipe or a device
 * is written as it is. For POSIX: include it first. */
#ifndef REPLACE_H
#define REPLACE_H

#ifndef _XOPEN_SOURCE
#define _XOPEN_SOURCE 700
#endif
#include <sys/stat.h>
#include <unistd.h>
#include "io.h"

/* New bytes, as far as they are on their way: beside the file, or in the pipe or device. */
struct replacement {
    const char *path;     /* as it was named */
    char *real, *beside;  /* behind symbolic links; null where nothing lies beside it */
};

/* Leaves the file as it was, and nothing beside it. */
static inline void leave(struct replacement *it)
{
    if (it->beside != NULL)
        unlink(it->beside);
    free(it->beside);
    free(it->real);
    it->beside = it->real = NULL;
}

/* Says which step failed. */
static inline int give_up(struct replacement *it)
{
    complain(it->path, 0, "%s", strerror(errno));
    leave(it);
    return 0;
}

/* Writes these bytes, and sees them on the disk where it is a file. */
static inline int write_bytes(int to, int is_file, const uint8_t *bytes, size_t count)
{
    FILE *file = fdopen(to, "wb");
    int good;
    if (file == NULL) {
        close(to);
        return 0;
    }
    good = fwrite(bytes, 1, count, file) == count && fflush(file) == 0 && (!is_file || fsync(to) == 0);
    return fclose(file) == 0 && good;
}

/* Begins to put these bytes in the place of a file, which need not be there; has its permissions, where it is. What is wrong is said. */
static inline int begin_replace(struct replacement *it, const char *path, const uint8_t *bytes, size_t count)
{
    struct stat was;
    const int is_there = stat(path, &was) == 0;
    const mode_t mask = umask(0);
    size_t length;
    int made;
    umask(mask);
    it->path = path;
    it->beside = NULL;
    it->real = NULL;
    if (is_there && S_ISDIR(was.st_mode)) {
        errno = EISDIR;
        return give_up(it);
    }
    if (is_there && !S_ISREG(was.st_mode)) {
        FILE *device = fopen(path, "wb");
        int good = device != NULL && fwrite(bytes, 1, count, device) == count;
        if (device != NULL)
            good = fclose(device) == 0 && good;
        return good || give_up(it);
    }
    it->real = is_there ? realpath(path, NULL) : strdup(path);
    if (it->real == NULL)
        return give_up(it);
    length = strlen(it->real) + sizeof ".XXXXXX";
    it->beside = (char *)malloc(length);
    if (it->beside == NULL)
        abort();
    snprintf(it->beside, length, "%s.XXXXXX", it->real);
    made = mkstemp(it->beside);
    if (made < 0) {
        free(it->beside);
        it->beside = NULL;
        return give_up(it);
    }
    if (fchmod(made, is_there ? was.st_mode & 07777 : 0666 & ~mask) != 0) {
        close(made);
        return give_up(it);
    }
    return write_bytes(made, 1, bytes, count) || give_up(it);
}

/* Gives what was begun the file's name. */
static inline int end_replace(struct replacement *it)
{
    if (it->beside != NULL && rename(it->beside, it->real) != 0)
        return give_up(it);
    free(it->beside);
    free(it->real);
    it->beside = it->real = NULL;
    return 1;
}

/* Puts these bytes in the place of a file, all at once. */
static inline int replace(const char *path, const uint8_t *bytes, size_t count)
{
    struct replacement it;
    return begin_replace(&it, path, bytes, count) && end_replace(&it);
}

#endif
