/* A start-up message as text, and text as a start-up message:
 *
 *     init MESSAGE               prints a line for each thing that it says
 *     init -w <TEXT >MESSAGE     makes the message of such lines, in that order
 *
 *     profile N
 *     unit N
 *     flags N stepped N          where there are flags; " first 1" behind it where the first bit stepped over is 1
 *     schema URI                 one to four times, each with
 *      hint URI                  if it is not empty, and
 *      codec URI TYPE..          any number of times
 *     format N                   any number of times
 *     description HEX
 *
 * In a URI bytes outside 33 to 126 and \ are \xHH, and nothing is -, as in a description (a URI that is - itself is \x2d). A message is refused by its
 * number, with the bit at which it is; text by its number, with the word at which it is (bim.h has the words). */
#include "io.h"
#include "texts.h"

static const char usage[] = "MESSAGE | -w <TEXT >MESSAGE";
static const char help[] =
    "Prints what a start-up message says, a line for each thing; -w makes the message of such lines.\n"
    "Exit status:\n"
    "  0  printed, or written\n"
    "  1  refused: the message, or what the lines say, of which nothing is written\n"
    "  2  a wrong call, or a line is no good, or a file could not be read or written\n";

/* The most bytes of a message or of the texts of one, and of a line: over what a line can be, a codec of 16,383 types. */
#define MOST_BYTES ((size_t)1 << 24)
#define MOST_LINE ((size_t)1 << 18)

/* Bytes that grow. */
struct bytes {
    uint8_t *at;
    size_t count, room;
};

static void add(struct bytes *bytes, const uint8_t *more, size_t count)
{
    if (count > bytes->room - bytes->count) {
        bytes->room = 2 * (bytes->count + count) + 256;
        bytes->at = (uint8_t *)realloc(bytes->at, bytes->room);
        if (bytes->at == NULL)
            abort();
    }
    if (count > 0)
        memcpy(bytes->at + bytes->count, more, count);
    bytes->count += count;
}

static void add_word(struct bytes *bytes, uint32_t word)
{
    uint8_t four[4];
    bim_set_word(four, 0, word);
    add(bytes, four, sizeof four);
}

/* FROM A MESSAGE */

static void show_stretch(const uint8_t *message, bim_stretch text)
{
    show_text(message + text.place, text.bytes);
}

/* The codec at this word; answers the next one's. */
static size_t show_codec(const uint8_t *message, const uint8_t *codecs, size_t at)
{
    uint32_t i;
    fputs(" codec ", stdout);
    show_stretch(message, bim_codec_uri(codecs, at));
    for (i = 0; i < bim_codec_types(codecs, at); i++)
        printf(" %lu", (unsigned long)bim_codec_type(codecs, at, i));
    putchar('\n');
    return bim_codec_next(codecs, at);
}

static void show(const uint8_t *message, const uint8_t *init, const uint8_t *codecs)
{
    const bim_stretch formats = bim_init_formats(init), description = bim_init_description(init);
    size_t codec = 0;
    uint32_t i, k;
    printf("profile %lu\nunit %lu\n", (unsigned long)bim_init_profile(init), (unsigned long)bim_init_unit(init));
    if (bim_init_stepped(init) > 0)
        printf("flags %lu stepped %lu%s\n", (unsigned long)bim_init_flags(init), (unsigned long)bim_init_stepped(init),
               bim_init_first_stepped(init) ? " first 1" : "");
    for (k = 0; k < bim_init_schemas(init); k++) {
        fputs("schema ", stdout);
        show_stretch(message, bim_init_uri(init, k));
        if (bim_init_hint(init, k).bytes > 0) {
            fputs("\n hint ", stdout);
            show_stretch(message, bim_init_hint(init, k));
        }
        putchar('\n');
        for (i = 0; i < bim_init_codecs(init, k); i++)
            codec = show_codec(message, codecs, codec);
    }
    for (i = 0; i < formats.bytes; i++)
        printf("format %u\n", (unsigned)message[formats.place + i]);
    fputs(description.bytes == 0 ? "description -" : "description ", stdout);
    for (i = 0; i < description.bytes; i++)
        printf("%02x", (unsigned)message[description.place + i]);
    putchar('\n');
}

static int from_message(const char *path)
{
    /* A byte more shows that there are more. */
    static uint8_t message[MOST_BYTES + 1];
    uint8_t init[BIM_INIT], *codecs;
    size_t bytes, room;
    uint32_t number;
    if (!read_file(path, message, sizeof message, &bytes))
        return STATUS_NO_GOOD;
    if (bytes > MOST_BYTES) {
        complain(path, 0, "longer than %lu bytes", (unsigned long)MOST_BYTES);
        return STATUS_NO_GOOD;
    }
    /* A codec's URI takes a byte at least, and gives two words; whatever else gives one takes a byte, too. */
    room = 8 * bytes;
    codecs = (uint8_t *)malloc(room + 1);
    if (codecs == NULL)
        abort();
    number = bim_init_read(message, bytes, codecs, room, init, sizeof init);
    if (number == BIM_ACCEPTED)
        show(message, init, codecs);
    else {
        put_path(stdout, path);
        printf(": refused %lu, %s, at bit %lu\n", (unsigned long)number, bim_refusal_name(number), (unsigned long)bim_init_place(init));
    }
    if (number == BIM_ACCEPTED && bim_init_first_stepped(init))
        complain(path, 0, "the first bit stepped over is 1, by Amendment 2 a context path table: what comes behind the schemas was not meant so");
    free(codecs);
    return number == BIM_ACCEPTED ? STATUS_DONE : STATUS_REFUSED;
}

/* FROM TEXT */

static struct lines lines;
static char line[MOST_LINE + 1];
/* What the lines say so far. Schemas past the fourth are counted; the library says what it thinks of them. */
static uint8_t init[BIM_INIT];
static struct bytes codecs, given;
static uint32_t schemas;

static void stop(void) { exit(finish(STATUS_NO_GOOD)); }

/* Says what is wrong with the line, and ends. */
static void no_good(const char *why)
{
    complain(lines.path, lines.number, "%s", why);
    stop();
}

/* The same of a part of it, and of a size. */
static void no_good_part(const char *part, const char *why)
{
    complain(lines.path, lines.number, "%s %s", part, why);
    stop();
}

static void too_long(const char *what)
{
    complain(lines.path, lines.number, "%s longer than %lu bytes", what, (unsigned long)MOST_BYTES);
    stop();
}

/* The next line; 0 where there is none. */
static int next_line(void)
{
    const int more = take_line(&lines, line, sizeof line);
    const char *at;
    if (more < 0)
        stop();
    for (at = line; *at != '\0'; at++)
        if ((unsigned char)*at < 32 || (unsigned char)*at > 126) {
            complain(lines.path, lines.number, "byte %d is no character of such a line", (unsigned char)*at);
            stop();
        }
    return more;
}

/* Moves past this word and a space behind it. */
static int take(char **at, const char *word)
{
    const size_t length = strlen(word);
    if (strncmp(*at, word, length) != 0 || (*at)[length] != ' ')
        return 0;
    *at += length + 1;
    return 1;
}

/* Cuts off what stands before the next space, or all; what comes behind it is at *at, null where nothing does. */
static char *cut(char **at)
{
    char *begin = *at, *space = strchr(begin, ' ');
    *at = space == NULL ? NULL : space + 1;
    if (space != NULL)
        *space = '\0';
    return begin;
}

static uint32_t take_number(char **at)
{
    uint32_t number;
    const char *digits = *at == NULL ? "" : cut(at);
    if (!number_of(digits, &number))
        no_good_part(*digits == '\0' ? "nothing" : digits, "is no number");
    return number;
}

static int digit_of(char letter)
{
    const char *const digits = "0123456789abcdef", *const others = "ABCDEF", *found;
    if (letter == '\0')
        return -1;
    if ((found = strchr(digits, letter)) != NULL)
        return (int)(found - digits);
    return (found = strchr(others, letter)) != NULL ? (int)(found - others) + 10 : -1;
}

/* Two digits; -1 where they are none. */
static int byte_of(const char *digits)
{
    const int high = digit_of(digits[0]), low = high < 0 ? -1 : digit_of(digits[1]);
    return low < 0 ? -1 : 16 * high + low;
}

static void give(int byte)
{
    const uint8_t one = (uint8_t)byte;
    if (byte < 0)
        no_good("no two digits of a byte");
    if (given.count == MOST_BYTES)
        too_long("texts");
    add(&given, &one, 1);
}

/* A URI into the bytes given; answers where it lies. */
static bim_stretch take_uri(char **at)
{
    bim_stretch text;
    const char *letter = *at == NULL ? "" : cut(at);
    text.place = (uint32_t)given.count;
    if (*letter == '\0')
        no_good("no URI, which is - if it is empty");
    if (strcmp(letter, "-") == 0)
        letter++;
    while (*letter != '\0')
        if (*letter != '\\')
            give((unsigned char)*letter++);
        else {
            if (letter[1] != 'x')
                no_good("a \\ without xHH");
            give(byte_of(letter + 2));
            letter += 4;
        }
    text.bytes = (uint32_t)given.count - text.place;
    return text;
}

static void set_stretch(size_t word, bim_stretch text)
{
    bim_set_word(init, word, text.place);
    bim_set_word(init, word + 1, text.bytes);
}

static void end_of_line(const char *at)
{
    if (at != NULL)
        no_good_part(*at == '\0' ? "a space at the end" : at, "is too much");
}

static void take_flags(char *at)
{
    bim_set_word(init, 4, take_number(&at));
    if (at == NULL || !take(&at, "stepped"))
        no_good("stepped is missing");
    bim_set_word(init, 3, take_number(&at));
    if (bim_init_stepped(init) == 0)
        no_good("flags and no bits stepped over behind them");
    if (at != NULL && take(&at, "first"))
        bim_set_word(init, 5, take_number(&at));
    end_of_line(at);
}

static void take_codec(char *at)
{
    const bim_stretch uri = take_uri(&at);
    const size_t begin = codecs.count + 8;
    uint32_t types = 0;
    if (codecs.count > MOST_BYTES)
        too_long("codecs");
    add_word(&codecs, uri.place);
    add_word(&codecs, uri.bytes);
    add_word(&codecs, 0);
    for (; at != NULL; types++)
        add_word(&codecs, take_number(&at));
    bim_set_word(codecs.at + begin, 0, types);
}

/* A schema, its hint and its codecs; the line that is next stands in line then. */
static int take_schema(char *at)
{
    /* Past the fourth there are no words for it. */
    const size_t word = 12 + 5 * (size_t)schemas;
    const int kept = schemas < BIM_MOST_SCHEMAS;
    uint32_t count = 0;
    bim_stretch text = take_uri(&at);
    int more;
    end_of_line(at);
    if (kept)
        set_stretch(word, text);
    text.bytes = 0;
    more = next_line();
    at = line;
    if (more && take(&at, " hint")) {
        text = take_uri(&at);
        end_of_line(at);
        more = next_line();
    }
    if (kept)
        set_stretch(word + 2, text);
    for (at = line; more && take(&at, " codec"); at = line, count++) {
        take_codec(at);
        more = next_line();
    }
    if (kept)
        bim_set_word(init, word + 4, count);
    schemas++;
    return more;
}

/* All lines, into the words. */
static void take_lines(void)
{
    bim_stretch text = {0, 0};
    char *at;
    int more;
    if (!next_line() || (at = line, !take(&at, "profile")))
        no_good("profile N is expected");
    bim_set_word(init, 1, take_number(&at));
    end_of_line(at);
    if (!next_line() || (at = line, !take(&at, "unit")))
        no_good("unit N is expected");
    bim_set_word(init, 2, take_number(&at));
    end_of_line(at);
    more = next_line();
    at = line;
    if (more && take(&at, "flags")) {
        take_flags(at);
        more = next_line();
    }
    for (at = line; more && take(&at, "schema"); at = line)
        more = take_schema(at);
    bim_set_word(init, 6, schemas);
    bim_set_word(init, 7, (uint32_t)(codecs.count / 4));
    text.place = (uint32_t)given.count;
    for (at = line; more && take(&at, "format"); at = line) {
        const uint32_t format = take_number(&at);
        end_of_line(at);
        if (format > 255)
            no_good("a format is a byte");
        give((int)format);
        more = next_line();
    }
    text.bytes = (uint32_t)given.count - text.place;
    set_stretch(8, text);
    if (!more || !take(&at, "description"))
        no_good(schemas == 0 ? "schema URI is expected" : "description HEX is expected");
    text.place = (uint32_t)given.count;
    if (strcmp(at, "-") != 0) {
        if (*at == '\0')
            no_good("no description, which is - if it is empty");
        for (; *at != '\0'; at += 2)
            give(byte_of(at));
    }
    text.bytes = (uint32_t)given.count - text.place;
    set_stretch(10, text);
    if (next_line())
        no_good("a line behind the description");
}

static int from_text(void)
{
    /* Flags of 16,383 bytes, the four schemas' counts and what else there is once; then texts, and two bytes of each word. */
    size_t room = 20000;
    uint8_t *message, area[BIM_INIT_AREA];
    uint32_t number;
    open_lines(&lines, NULL, '\n');
    take_lines();
    room += given.count + codecs.count / 2;
    message = (uint8_t *)malloc(room);
    if (message == NULL)
        abort();
    number = bim_init_write(init, sizeof init, codecs.at, codecs.count, given.at, given.count, message, room, area, sizeof area);
    if (number == BIM_ACCEPTED)
        fwrite(message, 1, bim_init_area_bytes(area), stdout);
    else
        complain(lines.path, 0, "refused %lu, %s, at word %lu", (unsigned long)number, bim_refusal_name(number), (unsigned long)bim_init_area_place(area));
    free(message);
    free(codecs.at);
    free(given.at);
    return number == BIM_ACCEPTED ? STATUS_DONE : STATUS_REFUSED;
}

int main(int argc, char **argv)
{
    struct call call = begin_call("init", usage, help, argc, argv);
    const int writing = option(&call, "-w");
    if (!options_end(&call) || call.left != (writing ? 0 : 1))
        return wrong_call(&call);
    return finish(writing ? from_text() : from_message(call.next[0]));
}
