/* JSON (RFC 8259) into values that know their lines. A key stands once in an object; a text is refused where it is none, with the line. */
#ifndef JSON_H
#define JSON_H

#include "io.h"

enum json_kind { JSON_NULL, JSON_FALSE, JSON_TRUE, JSON_NUMBER, JSON_STRING, JSON_ARRAY, JSON_OBJECT };

/* A value. Of a string the bytes are decoded, of a number they are as they stand; an array's and an object's values hang one behind the other. */
struct json {
    enum json_kind kind;
    unsigned long line;
    const uint8_t *bytes, *key;
    size_t count, key_count;
    const struct json *first, *next;
};

/* The text that is left, and room for values. */
struct json_reader {
    const char *path;
    uint8_t *at, *end;
    unsigned long line;
    struct json *free, *last;
    int depth;
};

enum { JSON_MOST_VALUES = 65536, JSON_MOST_DEPTH = 200 };

static inline const struct json *json_fail(const struct json_reader *reader, const char *why)
{
    complain(reader->path, reader->line, "%s", why);
    return NULL;
}

static inline void json_gap(struct json_reader *reader)
{
    for (; reader->at < reader->end && memchr(" \t\r\n", *reader->at, 4) != NULL; reader->at++)
        reader->line += *reader->at == '\n';
}

/* Takes this byte, where it is next behind a gap. */
static inline int json_take(struct json_reader *reader, int byte)
{
    json_gap(reader);
    if (reader->at == reader->end || *reader->at != byte)
        return 0;
    reader->at++;
    return 1;
}

/* The value of four hexadecimal digits; -1 where they are none. */
static inline long json_hex(struct json_reader *reader)
{
    static const char digits[] = "0123456789abcdef";
    long value = 0;
    int i;
    if (reader->end - reader->at < 4)
        return -1;
    for (i = 0; i < 4; i++) {
        const int c = *reader->at++;
        const char *digit = c == 0 ? NULL : strchr(digits, c >= 'A' && c <= 'F' ? c + 32 : c);
        if (digit == NULL)
            return -1;
        value = 16 * value + (digit - digits);
    }
    return value;
}

/* Puts a character as UTF-8, where the text that it was escaped in stood. */
static inline uint8_t *json_put(uint8_t *to, uint32_t c)
{
    static const uint8_t first[] = {0, 0xc0, 0xe0, 0xf0};
    const int more = c < 0x80 ? 0 : c < 0x800 ? 1 : c < 0x10000 ? 2 : 3;
    int i;
    *to++ = (uint8_t)(first[more] | c >> 6 * more);
    for (i = more - 1; i >= 0; i--)
        *to++ = (uint8_t)(0x80 | (c >> 6 * i & 0x3f));
    return to;
}

/* An escape behind its backslash; null where it is none. */
static inline uint8_t *json_escape(struct json_reader *reader, uint8_t *to)
{
    static const char from[] = "\"\\/bfnrt", into[] = "\"\\/\b\f\n\r\t";
    const int c = reader->at < reader->end ? *reader->at++ : 0;
    const char *known = c == 0 ? NULL : strchr(from, c);
    long unit, low;
    if (known != NULL) {
        *to++ = (uint8_t)into[known - from];
        return to;
    }
    if (c != 'u' || (unit = json_hex(reader)) < 0 || (unit >= 0xdc00 && unit < 0xe000))
        return NULL;
    if (unit < 0xd800 || unit >= 0xe000)
        return json_put(to, (uint32_t)unit);
    if (reader->end - reader->at < 6 || *reader->at++ != '\\' || *reader->at++ != 'u' || (low = json_hex(reader)) < 0xdc00 || low >= 0xe000)
        return NULL;
    return json_put(to, 0x10000 + ((uint32_t)(unit - 0xd800) << 10) + (uint32_t)(low - 0xdc00));
}

/* The bytes of a string behind its first quote, decoded in place, which never makes them more. */
static inline int json_string_bytes(struct json_reader *reader, const uint8_t **bytes, size_t *count)
{
    uint8_t *to = reader->at;
    *bytes = to;
    while (reader->at < reader->end && *reader->at != '"') {
        uint32_t character;
        const size_t length = character_of(reader->at, (size_t)(reader->end - reader->at), &character);
        if (length == 0 || character < 0x20)
            return json_fail(reader, "a string has a byte that is no UTF-8, or a control character") != NULL;
        if (character == '\\') {
            reader->at++;
            to = json_escape(reader, to);
            if (to == NULL)
                return json_fail(reader, "a string has an escape that is none") != NULL;
            continue;
        }
        memmove(to, reader->at, length);
        to += length;
        reader->at += length;
    }
    *count = (size_t)(to - *bytes);
    return json_take(reader, '"') || json_fail(reader, "a string without its end") != NULL;
}

static inline size_t json_digits(struct json_reader *reader)
{
    const uint8_t *from = reader->at;
    while (reader->at < reader->end && *reader->at >= '0' && *reader->at <= '9')
        reader->at++;
    return (size_t)(reader->at - from);
}

/* A number, or one of the three words. */
static inline const struct json *json_scalar(struct json_reader *reader, struct json *it)
{
    static const char *const words[] = {"null", "false", "true"};
    size_t i;
    it->bytes = reader->at;
    for (i = 0; i < 3; i++)
        if ((size_t)(reader->end - reader->at) >= strlen(words[i]) && memcmp(reader->at, words[i], strlen(words[i])) == 0) {
            reader->at += strlen(words[i]);
            it->kind = (enum json_kind)(JSON_NULL + i);
            return it;
        }
    it->kind = JSON_NUMBER;
    if (reader->at < reader->end && *reader->at == '-')
        reader->at++;
    if (reader->at < reader->end && *reader->at == '0')
        reader->at++;
    else if (json_digits(reader) == 0)
        return json_fail(reader, "no value of JSON");
    if (reader->at < reader->end && *reader->at == '.') {
        reader->at++;
        if (json_digits(reader) == 0)
            return json_fail(reader, "no value of JSON");
    }
    if (reader->at < reader->end && (*reader->at == 'e' || *reader->at == 'E')) {
        reader->at++;
        if (reader->at < reader->end && (*reader->at == '+' || *reader->at == '-'))
            reader->at++;
        if (json_digits(reader) == 0)
            return json_fail(reader, "no value of JSON");
    }
    it->count = (size_t)(reader->at - it->bytes);
    return it;
}

/* The value of a key; null where there is none. */
static inline const struct json *json_member(const struct json *it, const char *key)
{
    const struct json *member;
    for (member = it->kind == JSON_OBJECT ? it->first : NULL; member != NULL; member = member->next)
        if (member->key_count == strlen(key) && memcmp(member->key, key, member->key_count) == 0)
            return member;
    return NULL;
}

static inline const struct json *json_value_of(struct json_reader *reader);

/* The values of an array or object, behind its bracket. */
static inline const struct json *json_values(struct json_reader *reader, struct json *it, int end)
{
    const struct json **next = &it->first;
    if (json_take(reader, end))
        return it;
    do {
        const uint8_t *key = NULL;
        size_t key_count = 0;
        const struct json *value, *before;
        struct json *held;
        if (it->kind == JSON_OBJECT) {
            if (!json_take(reader, '"'))
                return json_fail(reader, "no key where one is due");
            if (!json_string_bytes(reader, &key, &key_count))
                return NULL;
            for (before = it->first; before != NULL; before = before->next)
                if (before->key_count == key_count && memcmp(before->key, key, key_count) == 0)
                    return json_fail(reader, "a key that stands twice");
            if (!json_take(reader, ':'))
                return json_fail(reader, "no : behind a key");
        }
        held = reader->free;
        value = json_value_of(reader);
        if (value == NULL)
            return NULL;
        held->key = key;
        held->key_count = key_count;
        *next = value;
        next = &held->next;
    } while (json_take(reader, ','));
    return json_take(reader, end) ? it : json_fail(reader, "neither a comma nor the end of an array or object");
}

static inline const struct json *json_value_of(struct json_reader *reader)
{
    struct json *it = reader->free;
    const struct json *read;
    if (it == reader->last || reader->depth == JSON_MOST_DEPTH)
        return json_fail(reader, "too many values, or too deep");
    reader->free++;
    memset(it, 0, sizeof *it);
    json_gap(reader);
    it->line = reader->line;
    reader->depth++;
    if (json_take(reader, '"')) {
        it->kind = JSON_STRING;
        read = json_string_bytes(reader, &it->bytes, &it->count) ? it : NULL;
    } else if (json_take(reader, '{')) {
        it->kind = JSON_OBJECT;
        read = json_values(reader, it, '}');
    } else if (json_take(reader, '[')) {
        it->kind = JSON_ARRAY;
        read = json_values(reader, it, ']');
    } else
        read = json_scalar(reader, it);
    reader->depth--;
    return read;
}

/* The one value of a text, whose bytes are changed; null, and a sentence, where it is none. */
static inline const struct json *json_of(const char *path, uint8_t *bytes, size_t count)
{
    static struct json values[JSON_MOST_VALUES];
    struct json_reader reader;
    const struct json *it;
    reader.path = path;
    reader.at = bytes;
    reader.end = bytes + count;
    reader.line = 1;
    reader.free = values;
    reader.last = values + JSON_MOST_VALUES;
    reader.depth = 0;
    it = json_value_of(&reader);
    json_gap(&reader);
    if (it != NULL && reader.at != reader.end)
        return json_fail(&reader, "more than one value");
    return it;
}

#endif
