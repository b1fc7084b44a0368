/* Buffers of exactly the bytes lent, for calls on trial:
 *
 *     from malloc: AddressSanitizer sees what memcpy and memset do to the bytes beside them, valgrind every access;
 *     that end where a page begins that cannot be touched, and that begin where such a page ends: any access past them ends the program.
 *
 * Buffers that are only read are read-only memory between the pages. Include it first. */
#ifndef LENT_H
#define LENT_H

#ifndef _DEFAULT_SOURCE
#define _DEFAULT_SOURCE
#endif
#include <stdint.h>
#include <stdio.h>
#include <stdlib.h>
#include <string.h>
#include <sys/mman.h>
#include <unistd.h>

enum place { HEAP, TO_THE_END, FROM_THE_BEGIN, PLACES };
enum { MOST_LENT = 5, ARENA = 1 << 17 };

static int places = PLACES;
static uint8_t *arenas[MOST_LENT]; /* each between two pages that cannot be touched */

static inline void make_arenas(void)
{
    const size_t page = (size_t)sysconf(_SC_PAGESIZE);
    size_t i;
    for (i = 0; i < MOST_LENT; i++) {
        uint8_t *whole = (uint8_t *)mmap(NULL, ARENA + 2 * page, PROT_NONE, MAP_PRIVATE | MAP_ANONYMOUS, -1, 0);
        if (whole == (uint8_t *)MAP_FAILED || mprotect(whole + page, ARENA, PROT_READ | PROT_WRITE) != 0) {
            perror("no pages");
            exit(2);
        }
        arenas[i] = whole + page;
    }
}

/* A buffer of this length; what it holds is given, or where that is null 0xdd. */
static inline uint8_t *lend(enum place place, size_t slot, size_t length, const uint8_t *given)
{
    uint8_t *bytes;
    if (length > ARENA)
        abort();
    if (place == HEAP)
        bytes = (uint8_t *)malloc(length);
    else
        bytes = place == TO_THE_END ? arenas[slot] + ARENA - length : arenas[slot];
    if (bytes == NULL && length > 0)
        abort();
    if (length > 0 && given != NULL)
        memcpy(bytes, given, length);
    else if (length > 0)
        memset(bytes, 0xdd, length);
    if (place != HEAP && given != NULL && mprotect(arenas[slot], ARENA, PROT_READ) != 0)
        abort();
    return bytes;
}

static inline void give_back(enum place place, size_t slot, uint8_t *bytes)
{
    if (place == HEAP)
        free(bytes);
    else if (mprotect(arenas[slot], ARENA, PROT_READ | PROT_WRITE) != 0)
        abort();
}

static inline int all_zero(const uint8_t *bytes, size_t length)
{
    size_t i;
    for (i = 0; i < length; i++)
        if (bytes[i] != 0)
            return 0;
    return 1;
}

/* Whether the buffer is these bytes, and 0 behind them. */
static inline int is(const uint8_t *bytes, size_t length, const uint8_t *expected, size_t expected_length)
{
    return expected_length <= length && (expected_length == 0 || memcmp(bytes, expected, expected_length) == 0) &&
           all_zero(bytes + expected_length, length - expected_length);
}

#endif
