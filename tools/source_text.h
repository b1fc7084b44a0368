/* The text of a table's source: how it is read, its tokens, and how what is wrong in it is told and shown. */
#ifndef SOURCE_TEXT_H
#define SOURCE_TEXT_H

#include "source.h"

enum token_kind { END_TOKEN, WORD_TOKEN, QUOTED_TOKEN, NUMBER_TOKEN, MIXED_TOKEN, DOTS_TOKEN, MARK_TOKEN };
struct token {
    enum token_kind kind;
    size_t at, length; /* in the source */
    int64_t number;    /* of a number */
    char mark;         /* of a mark, which is that character */
};

struct source_text {
    const char *path;
    char *text;
    size_t bytes, room;
    struct token token;     /* the next */
    size_t at, end_of_last; /* behind it; behind the one before it */
    size_t counted;         /* up to here lines were counted */
    unsigned long counted_lines;
};
static struct source_text source;

/* WHAT IS WRONG */

/* The line that a byte stands on, counted on from the byte that was asked for before, where that is not behind it. */
static unsigned long line_of(size_t at)
{
    if (at < source.counted)
        source.counted = source.counted_lines = 0;
    for (; source.counted < at; source.counted++)
        source.counted_lines += source.text[source.counted] == '\n';
    return source.counted_lines + 1;
}

/* Begins a sentence: file, line and column. */
static void put_place(unsigned long line, unsigned long column)
{
    fflush(stdout);
    put_path(stderr, called(source.path));
    fprintf(stderr, ": line %lu, column %lu: ", line, column);
}

/* How many bytes the character at a byte of the source has: all of it is UTF-8. */
static size_t length_at(size_t at)
{
    uint32_t character;
    return character_of((const uint8_t *)source.text + at, source.bytes - at, &character);
}

/* Shows the line of a byte, of a long one what is near it, and a caret below that byte. */
static void show_line(size_t begin, size_t at)
{
    enum { BEFORE = 90, NEAR = 60, BEHIND = 60 };
    size_t i, shown = 0;
    for (i = begin; i < at; i += length_at(i))
        shown++;
    fputs("    ", stderr);
    if (shown > BEFORE) {
        for (; shown > NEAR; shown--)
            begin += length_at(begin);
        fputs("..", stderr);
    }
    for (i = begin, shown = 0; source.text[i] != '\n' && source.text[i] != '\r' && shown < BEHIND; i += length_at(i)) {
        fwrite(source.text + i, 1, length_at(i), stderr);
        shown += i >= at;
    }
    fputs(source.text[i] == '\n' || source.text[i] == '\r' ? "\n    " : "..\n    ", stderr);
    if (begin > 0 && source.text[begin - 1] != '\n')
        fputs("  ", stderr);
    for (i = begin; i < at; i += length_at(i))
        putc(source.text[i] == '\t' ? '\t' : ' ', stderr);
    fputs("^\n", stderr);
}

/* Tells what is wrong at a byte: file, line and column, the line itself, and a caret. Answers 0. */
#if defined(__GNUC__)
__attribute__((format(printf, 2, 3)))
#endif
static int fault_at(size_t at, const char *format, ...)
{
    size_t begin = at, i;
    unsigned long column = 1;
    va_list list;
    while (begin > 0 && source.text[begin - 1] != '\n')
        begin--;
    for (i = begin; i < at; i += length_at(i))
        column++;
    put_place(line_of(at), column);
    va_start(list, format);
    vfprintf(stderr, format, list);
    va_end(list);
    putc('\n', stderr);
    show_line(begin, at);
    return 0;
}

/* The same at the token that is next; at its end the statement lacks something. */
#define fault_here(...) fault_at(source.token.at, __VA_ARGS__)

/* TOKENS */

static int is_gap_byte(char c) { return c == ' ' || c == '\t' || c == '\r'; }

/* Goes past gaps and what is for the eye; answers 0 where the statement ends, which is where a line begins without a gap. */
static int skip_gaps(void)
{
    const char *text = source.text;
    size_t at = source.at;
    int is_new = 0;
    for (;;) {
        const size_t begin = at;
        while (is_gap_byte(text[at]))
            at++;
        if (text[at] == '#')
            at += strcspn(text + at, "\n");
        if (text[at] == '\n') {
            at++;
            is_new = 1;
            continue;
        }
        if (text[at] != '\0' && is_new && begin == at)
            return 0;
        source.at = at;
        return text[at] != '\0';
    }
}

/* The word of a token, without its quotes. */
static const char *word_of_token(struct token token)
{
    static char words[2][MOST_SOURCE_LINE + 1];
    static unsigned turn;
    char *word = words[turn = 1 - turn];
    size_t i, length = 0;
    if (token.kind != QUOTED_TOKEN) {
        memcpy(word, source.text + token.at, token.length);
        word[token.length] = '\0';
        return word;
    }
    for (i = token.at + 1; i + 1 < token.at + token.length; i++) {
        if (source.text[i] == '\\')
            i++;
        word[length++] = source.text[i];
    }
    word[length] = '\0';
    return word;
}

static int take_quoted(struct token *token)
{
    const char *text = source.text + token->at;
    size_t i = 1;
    token->kind = QUOTED_TOKEN;
    for (; text[i] != '"'; i++) {
        if (text[i] == '\\' && (text[i + 1] == '"' || text[i + 1] == '\\'))
            i++;
        else if (text[i] == '\\')
            return fault_at(token->at + i, "a backslash stands before \" or \\ alone");
        else if (text[i] == '\n' || text[i] == '\0')
            return fault_at(token->at, "the quotes are not closed on this line");
        else if (is_gap_byte(text[i]))
            return fault_at(token->at + i, "a word has no gap");
    }
    token->length = i + 1;
    return i > 1 || fault_at(token->at, "a word has at least one character");
}

/* Takes up the token that is next. */
static int next_token(void)
{
    struct token *token = &source.token;
    const char *text;
    size_t digits;
    source.end_of_last = token->at + token->length;
    memset(token, 0, sizeof *token);
    if (!skip_gaps()) {
        token->at = source.end_of_last;
        return 1;
    }
    token->at = source.at;
    text = source.text + token->at;
    token->length = run_of(text);
    digits = strspn(text + (text[0] == '-'), "0123456789");
    if (text[0] == '"') {
        if (!take_quoted(token))
            return 0;
    } else if (digits > 0 && (text[0] == '-' || digits == token->length)) {
        uint64_t magnitude;
        token->kind = NUMBER_TOKEN;
        token->length = digits + (text[0] == '-');
        if (!digits_of(text + (text[0] == '-'), digits, 0xffffffffu, &magnitude))
            return fault_at(token->at, "the number is over 4294967295");
        token->number = text[0] == '-' ? -(int64_t)magnitude : (int64_t)magnitude;
    } else if (token->length > 0)
        token->kind = is_digit(text[0]) ? MIXED_TOKEN : WORD_TOKEN;
    else if (text[0] == '.' && text[1] == '.') {
        token->kind = DOTS_TOKEN;
        token->length = 2;
    } else if (strchr(":=[](){}<>|?,@-", text[0]) != NULL) {
        token->kind = MARK_TOKEN;
        token->length = 1;
        token->mark = text[0];
    } else if (text[0] == '*' || text[0] == '+')
        return fault_at(token->at, "how often is written ?, {%c,}, {2} or {0,3}", text[0] == '*' ? '0' : '1');
    else
        return fault_at(token->at, "nothing begins with this character; a word that has it stands in quotes");
    source.at = token->at + token->length;
    return 1;
}

static int is_mark(char mark) { return source.token.kind == MARK_TOKEN && source.token.mark == mark; }

/* Takes a mark, which has to be next. */
static int take_mark(char mark, const char *where)
{
    return is_mark(mark) ? next_token() : fault_here("%c is missing here, %s", mark, where);
}

/* Takes a number, which has to be next. */
static int take_number(int64_t least, int64_t most, const char *what, uint32_t *number)
{
    if (source.token.kind != NUMBER_TOKEN)
        return fault_here("a number is missing here: %s", what);
    if (source.token.number < least || source.token.number > most)
        return fault_here("%s is from %lld to %lld", what, (long long)least, (long long)most);
    *number = (uint32_t)source.token.number;
    return next_token();
}

/* Takes a word or number that stands for a name or a type. */
static int take_handle(const char *what, struct token *token)
{
    if (source.token.kind == MIXED_TOKEN)
        return fault_here("a word that begins with a digit stands in quotes");
    if (source.token.kind == NUMBER_TOKEN ? source.token.number < 0 : source.token.kind != WORD_TOKEN && source.token.kind != QUOTED_TOKEN)
        return fault_here("%s is missing here", what);
    *token = source.token;
    return next_token();
}

static int is_handle(void)
{
    return source.token.kind == WORD_TOKEN || source.token.kind == QUOTED_TOKEN || source.token.kind == NUMBER_TOKEN || source.token.kind == MIXED_TOKEN;
}

static int is_keyword(const char *word)
{
    return source.token.kind == WORD_TOKEN && source.token.length == strlen(word) &&
           memcmp(source.text + source.token.at, word, source.token.length) == 0;
}

/* THE FILE */

/* More of the text, which ends with a NUL. */
static void add_text(const char *text, size_t length)
{
    while (source.bytes + length + 1 > source.room) {
        source.room = source.room == 0 ? 65536 : 2 * source.room;
        source.text = (char *)realloc(source.text, source.room);
        if (source.text == NULL)
            abort();
    }
    memcpy(source.text + source.bytes, text, length);
    source.bytes += length;
    source.text[source.bytes] = '\0';
}

/* Takes a line, if all of it can be shown; a carriage return stands at its end alone. */
static int add_source_line(const struct lines *lines, const char *line)
{
    const size_t length = strlen(line);
    size_t i, bytes;
    unsigned long column = 1;
    for (i = 0; i < length; i += bytes, column++) {
        uint32_t character;
        bytes = character_of((const uint8_t *)line + i, length - i, &character);
        if (bytes == 0 || (acts(character) && character != '\t' && !(character == '\r' && i + 1 == length))) {
            put_place(lines->number, column);
            fputs(bytes == 0 ? "no UTF-8\n" : "a character that cannot be shown\n", stderr);
            return 0;
        }
    }
    if (source.bytes + length > MOST_SOURCE)
        return complain(lines->path, 0, "longer than %d bytes", MOST_SOURCE);
    add_text(line, length);
    add_text("\n", 1);
    return 1;
}

/* Takes the lines of a source. Says what is wrong where they are no text; answers the exit status. */
static inline int load_lines(struct lines *lines)
{
    char line[MOST_SOURCE_LINE + 1];
    int more;
    add_text("", 0);
    while ((more = take_line(lines, line, sizeof line)) == 1)
        if (!add_source_line(lines, line)) {
            more = -1;
            break;
        }
    return more == 0 ? STATUS_DONE : ferror(lines->file) ? STATUS_NO_GOOD : STATUS_REFUSED;
}

/* Reads a source's text, of standard input where the path is null. */
static inline int load_source(const char *path)
{
    struct lines lines;
    int status;
    source.path = path;
    if (!open_lines(&lines, path, '\n'))
        return STATUS_NO_GOOD;
    status = load_lines(&lines);
    close_lines(&lines);
    return status;
}

#endif
