/* Bytes of a message as a terminal may have them. */
#ifndef TEXTS_H
#define TEXTS_H

#include <stdint.h>
#include <stdio.h>

/* Bytes outside 33 to 126 and \ as \xHH, nothing as -, and - itself as \x2d. */
static inline void show_text(const uint8_t *text, size_t bytes)
{
    size_t i;
    if (bytes == 0)
        putchar('-');
    for (i = 0; i < bytes; i++)
        if (text[i] < 33 || text[i] > 126 || text[i] == '\\' || (text[i] == '-' && bytes == 1))
            printf("\\x%02x", text[i]);
        else
            putchar(text[i]);
}

#endif
