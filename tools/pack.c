/* Makes a table file of words in decimal. All of them are taken before the first is written. */
#include "io.h"

static const char usage[] = "[WORDS] >TABLE";
static const char help[] =
    "Makes a table file of the words in WORDS, or of standard input. A word is a decimal number from -2147483648\n"
    "to 4294967295; what follows a # on its line is for the eye.\n"
    "Exit status:\n"
    "  0  written\n"
    "  1  something is no word, or there are none, or more than a table may have; nothing is written\n"
    "  2  a wrong call, or it could not be read or written\n";

/* Room for words with all their comments, and a byte more that shows that there are more. */
static uint8_t text[(1 << 20) + 1], table[BIM_MOST_TABLE];
static const char *path;

static int is_gap(uint8_t c) { return c == ' ' || (c >= '\t' && c <= '\r'); }

/* Says what is wrong with a word: its first bytes stand for a long one. */
static int no_word(unsigned long line, const uint8_t *word, size_t count)
{
    const size_t most = 40;
    fflush(stdout);
    put_path(stderr, called(path));
    fprintf(stderr, ": line %lu: ", line);
    put_bytes(stderr, word, count < most ? count : most, 1);
    fprintf(stderr, "%s is no word of 32 bits\n", count < most ? "" : "..");
    return 0;
}

/* A word from -2^31 to 2^32 - 1. */
static int word_of(const uint8_t *word, size_t count, uint32_t *value)
{
    const int minus = word[0] == '-';
    uint64_t magnitude;
    const int good = digits_of((const char *)word + minus, count - (size_t)minus, minus ? 0x80000000u : 0xffffffffu, &magnitude);
    *value = minus ? (uint32_t)(0 - magnitude) : (uint32_t)magnitude;
    return good;
}

/* Takes all words; says what is wrong and answers 0 where one is none. */
static int take_words(size_t bytes, size_t *made)
{
    unsigned long line = 1;
    size_t i = 0;
    int eye = 0; /* whether this is for the eye */
    *made = 0;
    while (i < bytes) {
        size_t count = 0;
        uint32_t value;
        if (text[i] == '\0')
            return complain(called(path), line, "a NUL byte");
        if (text[i] == '\n' || text[i] == '#')
            eye = text[i] == '#';
        if (eye || is_gap(text[i])) {
            line += text[i++] == '\n';
            continue;
        }
        while (i + count < bytes && !is_gap(text[i + count]) && text[i + count] != '#' && text[i + count] != '\0')
            count++;
        if (!word_of(text + i, count, &value))
            return no_word(line, text + i, count);
        if (*made == sizeof table)
            return complain(called(path), line, "more than the %d words that a table may have", BIM_MOST_TABLE / 4);
        table[(*made)++] = (uint8_t)(value >> 24);
        table[(*made)++] = (uint8_t)(value >> 16);
        table[(*made)++] = (uint8_t)(value >> 8);
        table[(*made)++] = (uint8_t)value;
        i += count;
    }
    return *made > 0 || complain(called(path), 0, "no words");
}

int main(int argc, char **argv)
{
    struct call call = begin_call("pack", usage, help, argc, argv);
    size_t bytes, made;
    if (!options_end(&call) || call.left > 1)
        return wrong_call(&call);
    path = call.left == 1 ? call.next[0] : NULL;
    if (!read_file(path, text, sizeof text, &bytes))
        return finish(STATUS_NO_GOOD);
    if (bytes == sizeof text) {
        complain(called(path), 0, "longer than %lu bytes", (unsigned long)(sizeof text - 1));
        return finish(STATUS_REFUSED);
    }
    if (!take_words(bytes, &made))
        return finish(STATUS_REFUSED);
    fwrite(table, 1, made, stdout);
    return finish(STATUS_DONE);
}
