/* Writes a payload of what `host --json` prints: the way back, for curators. The list is made along the table, by the grammar of a list (bim.h), and the
 * library judges it; whatever is not as the table says is told with its line. A Blank is never written: nothing is filled in. */
#include "bim_walk.h"
#include "faults.h"
#include "json.h"

static const char usage[] = "[-p PARTY] TABLE ROOT_NAME ROOT_TYPE MODE [JSON] >PAYLOAD";
static const char help[] =
    "Writes, as PARTY, 0 where none is named, the payload of an object that `host --json` printed: in JSON, or on standard\n"
    "input. MODE is that of length coding: 0 no lengths, 1 where the object has them, 2 every length; 4, 5 and 6 the same with\n"
    "type codes. Blanks are refused, as nothing is filled in.\n"
    "Exit status:\n"
    "  0  written\n"
    "  1  refused: no JSON, a Blank, not as the table says, or by the library; nothing is written\n"
    "  2  a wrong call, or the table is wrong, or a file could not be read or written\n";

static uint8_t table[BIM_MOST_TABLE + 4], text[(4 << 20) + 1], payload[BIM_MOST_PAYLOAD], area[BIM_AREA];
static uint8_t events[BIM_MOST_EVENTS * BIM_EVENT], texts[BIM_MOST_PAYLOAD];
static const struct json *inside; /* the element that is being written */
static struct {
    unsigned long line;
    const struct json *element;
} places[BIM_MOST_EVENTS]; /* where the events stand */
static uint32_t event_count, text_count, mode;
static const char *path;

/* Says what is wrong on a line, in an element; answers 0. */
#if defined(__GNUC__)
__attribute__((format(printf, 3, 4)))
#endif
static int refuse(unsigned long line, const struct json *element, const char *format, ...)
{
    const struct json *word = element == NULL ? NULL : json_member(element, "element");
    va_list list;
    put_path(stderr, path);
    if (line > 0)
        fprintf(stderr, ": line %lu", line);
    if (word != NULL && word->kind == JSON_STRING) {
        fputs(": element ", stderr);
        put_bytes(stderr, word->bytes, word->count, 0);
    }
    fputs(": ", stderr);
    va_start(list, format);
    vfprintf(stderr, format, list);
    va_end(list);
    putc('\n', stderr);
    return 0;
}

/* Says what is wrong with a value; answers 0. */
static int wrong(const struct json *it, const char *why) { return refuse(it->line, inside, "%s", why); }

static int number_member(const struct json *it, const char *key, uint32_t *number)
{
    const struct json *member = json_member(it, key);
    uint64_t value;
    if (member == NULL || member->kind != JSON_NUMBER || !digits_of((const char *)member->bytes, member->count, 0xffffffffu, &value))
        return refuse(it->line, inside, "no number \"%s\" where one is due", key);
    *number = (uint32_t)value;
    return 1;
}

static int flag_member(const struct json *it, const char *key, uint32_t *flag)
{
    const struct json *member = json_member(it, key);
    if (member == NULL || (member->kind != JSON_TRUE && member->kind != JSON_FALSE))
        return refuse(it->line, inside, "\"%s\" is neither true nor false", key);
    *flag = member->kind == JSON_TRUE;
    return 1;
}

static int add_event(const struct json *it, uint32_t kind, uint32_t p, uint32_t q)
{
    const uint32_t words[] = {kind, p, q, 0};
    size_t i;
    if (event_count == BIM_MOST_EVENTS)
        return wrong(it, "more than 2048 events");
    for (i = 0; i < BIM_EVENT; i++)
        events[BIM_EVENT * event_count + i] = (uint8_t)(words[i / 4] >> (24 - 8 * (i % 4)));
    places[event_count].line = it->line;
    places[event_count++].element = inside;
    return 1;
}

/* A text's bytes go to the texts. */
static int add_text(const struct json *it, uint32_t *p)
{
    if (it->kind != JSON_STRING)
        return wrong(it, "no string where a text is due");
    if (it->count > sizeof texts - text_count)
        return wrong(it, "more than 8192 bytes of text");
    memcpy(texts + text_count, it->bytes, it->count);
    text_count += (uint32_t)it->count;
    *p = (uint32_t)it->count;
    return 1;
}

/* A float: a number, or its bits. */
static int float_bits(const struct json *it, uint32_t *p)
{
    const struct json *bits = json_member(it, "float");
    char digits[64];
    float single;
    if (bits != NULL && bits->kind == JSON_STRING && bits->count == 8) {
        memcpy(digits, bits->bytes, 8);
        digits[8] = '\0';
        if (strspn(digits, "0123456789abcdefABCDEF") == 8) {
            *p = (uint32_t)strtoul(digits, NULL, 16);
            return 1;
        }
    }
    if (it->kind != JSON_NUMBER || it->count >= sizeof digits)
        return wrong(it, "no float, nor {\"float\": its bits in 8 hexadecimal digits}");
    memcpy(digits, it->bytes, it->count);
    digits[it->count] = '\0';
    single = strtof(digits, NULL);
    memcpy(p, &single, sizeof single);
    return (*p & 0x7f800000) != 0x7f800000 || wrong(it, "a number that is too large for a float");
}

/* Takes so many digits, at least and at most, and what stands behind them. */
static int take_digits(const uint8_t **at, const uint8_t *end, size_t least, size_t most, char behind, uint32_t *number)
{
    size_t count = 0;
    uint64_t value;
    while (count < most && *at + count < end && (*at)[count] >= '0' && (*at)[count] <= '9')
        count++;
    if (count < least || !digits_of((const char *)*at, count, 0xffffffffu, &value))
        return 0;
    *number = (uint32_t)value;
    *at += count;
    if (behind == '\0')
        return 1;
    return *at < end && *(*at)++ == (uint8_t)behind;
}

/* {"date": "2026-11-15"}, {"dateTime": "2026-11-15T18:30:00.000Z"}: the two words. Whether there is such a day is the library's. */
static int date_words(const struct json *it, int has_time, uint32_t *p, uint32_t *q)
{
    const struct json *date = json_member(it, has_time ? "dateTime" : "date");
    const uint8_t *at = date == NULL ? NULL : date->bytes, *end = date == NULL ? NULL : at + date->count;
    uint32_t year, month, day, hour = 0, minute = 0, second = 0, ms = 0;
    if (date == NULL || date->kind != JSON_STRING || !take_digits(&at, end, 4, 8, '-', &year) || !take_digits(&at, end, 2, 2, '-', &month) ||
        !take_digits(&at, end, 2, 2, has_time ? 'T' : '\0', &day) ||
        (has_time && (!take_digits(&at, end, 2, 2, ':', &hour) || !take_digits(&at, end, 2, 2, ':', &minute) ||
                      !take_digits(&at, end, 2, 2, '.', &second) || !take_digits(&at, end, 3, 3, 'Z', &ms))) ||
        at != end || month > 12 || day > 31 || hour > 23 || minute > 59 || second > 59)
        return wrong(it, has_time ? "no {\"dateTime\": \"2026-11-15T18:30:00.000Z\"}" : "no {\"date\": \"2026-11-15\"}");
    *p = 16 * year + month;
    *q = (day << 27) + 3600000 * hour + 60000 * minute + 1000 * second + ms;
    return 1;
}

/* A whole number of this kind: the word that it is. */
static int whole_number(const struct json *it, int is_signed, uint32_t *p)
{
    const int minus = is_signed && it->kind == JSON_NUMBER && it->bytes[0] == '-';
    const uint64_t most = minus ? 0x80000000u : is_signed ? 0x7fffffff : 0xffffffffu;
    uint64_t value;
    if (it->kind != JSON_NUMBER || !digits_of((const char *)it->bytes + minus, it->count - (size_t)minus, most, &value))
        return wrong(it, is_signed ? "no whole number from -2147483648 to 2147483647" : "no whole number from 0 to 4294967295");
    *p = minus ? (uint32_t)(0 - value) : (uint32_t)value;
    return 1;
}

/* The Value of a type of simple content. */
static int add_value(const struct json *of, uint32_t type)
{
    const struct json *it = json_member(of, "value");
    const uint32_t kind = bim_type_row(table, type).a;
    uint32_t p = 0, q = 0;
    int good;
    if (it == NULL)
        return wrong(of, "no value where one is due");
    switch (kind) {
    case BIM_BOOLEAN: good = flag_member(of, "value", &p); break;
    case BIM_RANGED:
    case BIM_SIGNED: good = whole_number(it, 1, &p); break;
    case BIM_ENUMERATION: good = number_member(it, "index", &p); break;
    case BIM_TEXT: good = add_text(it, &p); break;
    case BIM_FLOAT: good = float_bits(it, &p); break;
    case BIM_DATE_TIME:
    case BIM_DATE: good = date_words(it, kind == BIM_DATE_TIME, &p, &q); break;
    default: good = whole_number(it, 0, &p);
    }
    return good && add_event(it, BIM_KIND_VALUE, p, q);
}

static int add_attributes(const struct json *element, const struct bim_type *type)
{
    const struct json *all = json_member(element, "attributes"), *it;
    uint32_t i, name = 0, present = 0;
    if (all == NULL || all->kind != JSON_ARRAY)
        return wrong(element, "no array \"attributes\"");
    it = all->first;
    for (i = type->first_attribute; i < type->first_attribute + type->attributes; i++, it = it->next) {
        const struct bim_attribute row = bim_attribute_row(table, i);
        if (it == NULL)
            return refuse(all->line, inside, "attribute %lu is missing", (unsigned long)row.name);
        if (!number_member(it, "name", &name) || !flag_member(it, "present", &present))
            return 0;
        if (name != row.name)
            return refuse(it->line, inside, "attribute %lu where %lu is due", (unsigned long)name, (unsigned long)row.name);
        if (!present && json_member(it, "value") != NULL)
            return wrong(it, "an absent attribute with a value");
        if (!add_event(it, BIM_KIND_ATTRIBUTE, name, present) || (present && !add_value(it, row.type)))
            return 0;
    }
    return it == NULL || wrong(it, "an attribute too many");
}

/* The next item of a content, which has to have this key. */
static const struct json *take_item(const struct json *content, const struct json **items, const char *key)
{
    const struct json *it = *items;
    if (it != NULL && json_member(it, "blank") != NULL)
        wrong(it, "a Blank: what is not known cannot be written");
    else if (it == NULL || json_member(it, key) == NULL)
        refuse(it == NULL ? content->line : it->line, inside, "no \"%s\" where one is due", key);
    else {
        *items = it->next;
        return it;
    }
    return NULL;
}

/* The type in effect of an element of this row, and its Cast where the row has codes. */
static int add_cast(const struct json *it, uint32_t row, uint32_t own, uint32_t type)
{
    uint32_t substitute = 0;
    if (json_member(it, "substitute") != NULL && !number_member(it, "substitute", &substitute))
        return 0;
    if (row < BIM_MOST_PARTICLES && bim_row_has_codes(table, row, mode))
        return add_event(it, BIM_KIND_CAST, type, substitute);
    if (substitute != 0)
        return wrong(it, "a substitute where the table has none");
    return type == own ||
           refuse(it->line, inside, "type %lu in place of %lu has no code here, in mode %lu", (unsigned long)type, (unsigned long)own, (unsigned long)mode);
}

static int add_particle(const struct json *content, const struct json **items, uint32_t row, unsigned open);

/* An element of this row, which the root has not; `open` counts the rows that are. */
static int add_element(const struct json *it, uint32_t row, uint32_t due, uint32_t own, unsigned open)
{
    const struct json *content = json_member(it, "content"), *items, *around = inside;
    struct bim_type type_row;
    uint32_t name = 0, type = 0, length = mode % BIM_CASTING == BIM_MODE_ALWAYS;
    inside = it;
    if (!number_member(it, "name", &name) || !number_member(it, "type", &type))
        return 0;
    if (name != due)
        return refuse(it->line, inside, "element %lu where %lu is due", (unsigned long)name, (unsigned long)due);
    if (type >= bim_types(table))
        return wrong(it, "a type that the table has not");
    if (mode % BIM_CASTING == BIM_MODE_OPTIONAL && !flag_member(it, "length", &length))
        return 0;
    type_row = bim_type_row(table, type);
    if (!add_event(it, BIM_KIND_START, name, length) || !add_cast(it, row, own, type) || !add_attributes(it, &type_row))
        return 0;
    if (type_row.content == BIM_SIMPLE ? !add_value(it, type) : json_member(it, "value") != NULL && !wrong(it, "a value of a type that has none"))
        return 0;
    if (type_row.content == BIM_PARTICLES) {
        if (content == NULL || content->kind != JSON_ARRAY)
            return wrong(it, "no array \"content\"");
        items = content->first;
        if (!add_particle(content, &items, type_row.a, open + 1))
            return 0;
        if (items != NULL)
            return wrong(items, "more than the table has room for");
    } else if (content != NULL)
        return wrong(it, "content of a type that has none");
    if (!add_event(it, BIM_KIND_END, 0, 0))
        return 0;
    inside = around;
    return 1;
}

static int add_particle(const struct json *content, const struct json **items, uint32_t row, unsigned open)
{
    const struct bim_particle particle = bim_particle_row(table, row);
    const struct json *it;
    uint32_t i, number = 0;
    if (open > BIM_MOST_OPEN)
        return wrong(content, "more than 64 elements and particle rows open");
    switch (particle.kind) {
    case BIM_ELEMENT:
        it = take_item(content, items, "element");
        return it != NULL && add_element(it, row, particle.p, particle.q, open);
    case BIM_SEQUENCE:
        for (i = 0; i < particle.q; i++)
            if (!add_particle(content, items, particle.p + i, open + 1))
                return 0;
        return 1;
    case BIM_CHOICE:
        it = take_item(content, items, "pick");
        if (it == NULL || !number_member(it, "pick", &number) || !add_event(it, BIM_KIND_PICK, number, 0))
            return 0;
        return number < particle.q ? add_particle(content, items, particle.p + number, open + 1) : wrong(it, "a branch that the choice has not");
    default:
        it = take_item(content, items, "times");
        if (it == NULL || !number_member(it, "times", &number) || !add_event(it, BIM_KIND_TIMES, number, 0))
            return 0;
        for (i = 0; i < number; i++)
            if (!add_particle(content, items, particle.p, open + 1))
                return 0;
        return 1;
    }
}

/* The list of the whole object. */
static int add_list(const struct json *it, uint32_t root_name, uint32_t root_type)
{
    const struct json *root = json_member(it, "root");
    if (root == NULL)
        return wrong(it, json_member(it, "refused") != NULL ? "the payload was refused: there is nothing to write" : "no object that host --json printed");
    if (json_member(root, "blank") != NULL)
        return wrong(root, "a Blank: what is not known cannot be written");
    return add_element(root, BIM_NO_ROW, root_name, root_type, 1);
}

/* Writes so much of the list as there is. */
static uint32_t write_list(uint32_t party, size_t table_bytes, uint32_t root_name, uint32_t root_type)
{
    return bim_write(table, table_bytes, party, root_name, root_type, mode, events, BIM_EVENT * event_count, texts, text_count,
                     payload, sizeof payload, area, sizeof area);
}

/* Says of which event the library refused the list. */
static int say_refusal(uint32_t number)
{
    const uint32_t place = bim_area_place(area);
    if (number == BIM_ROOT || number == BIM_PARTY || number == BIM_WRITE_MODE)
        return complain("write", 0, "refused %lu, %s", (unsigned long)number, bim_refusal_name(number));
    return refuse(place < event_count ? places[place].line : 0, place < event_count ? places[place].element : NULL, "refused %lu, %s, at event %lu",
                  (unsigned long)number, bim_refusal_name(number), (unsigned long)place);
}

int main(int argc, char **argv)
{
    struct call call = begin_call("write", usage, help, argc, argv);
    const char *party_named = option_value(&call, "-p");
    const struct json *it;
    size_t table_bytes, bytes;
    uint32_t party = 0, root_name, root_type, number;
    if (!options_end(&call) || (party_named != NULL && !number_of(party_named, &party)) || call.left < 4 || call.left > 5 ||
        !number_of(call.next[1], &root_name) || !number_of(call.next[2], &root_type) || !number_of(call.next[3], &mode))
        return wrong_call(&call);
    if (!read_file(call.next[0], table, sizeof table, &table_bytes))
        return finish(STATUS_NO_GOOD);
    if (bim_check_table(table, table_bytes, area, sizeof area) != BIM_ACCEPTED) {
        complain_of_table(call.next[0], table, table_bytes, bim_area_place(area));
        return finish(STATUS_NO_GOOD);
    }
    if (!read_file(call.left == 5 ? call.next[4] : NULL, text, sizeof text, &bytes))
        return finish(STATUS_NO_GOOD);
    path = called(call.left == 5 ? call.next[4] : NULL);
    if (bytes == sizeof text) {
        complain(path, 0, "longer than %lu bytes", (unsigned long)(sizeof text - 1));
        return finish(STATUS_REFUSED);
    }
    /* Of no list at all the library says first what is wrong with the root, the party and the mode. */
    number = write_list(party, table_bytes, root_name, root_type);
    if (number != BIM_NO_READING) {
        say_refusal(number);
        return finish(STATUS_REFUSED);
    }
    it = json_of(path, text, bytes);
    if (it == NULL || !add_list(it, root_name, root_type))
        return finish(STATUS_REFUSED);
    number = write_list(party, table_bytes, root_name, root_type);
    if (number != BIM_ACCEPTED) {
        say_refusal(number);
        return finish(STATUS_REFUSED);
    }
    fwrite(payload, 1, (bim_area_bits(area) + 7) / 8, stdout);
    return finish(STATUS_DONE);
}
