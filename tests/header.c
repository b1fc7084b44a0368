/* Every inline function of the headers on bytes whose answer is plain; compiled as C and as C++. */
#include "bim.h"
#include "bim_walk.h"
#include <stdio.h>
#include <stdlib.h>
#include <string.h>

static int failed;

static void same(const char *what, long long got, long long expected)
{
    if (got == expected)
        return;
    printf("%s: %lld where %lld is expected\n", what, got, expected);
    failed = 1;
}

/* Byte i is i + 128, so that each word and name differs and has its top bit set. */
static void try_area(void)
{
    uint8_t area[BIM_AREA];
    uint32_t i;
    for (i = 0; i < BIM_AREA; i++)
        area[i] = (uint8_t)(i + 128);
    same("place", bim_area_place(area), 0x80818283);
    same("mode", bim_area_mode(area), 0x84858687);
    same("events", bim_area_events(area), 0x88898a8b);
    same("text", bim_area_text(area), 0x8c8d8e8f);
    same("bits", bim_area_bits(area), 0x90919293);
    same("names", bim_area_names(area), 0x94959697);
    same("name 0", bim_area_name(area, 0), 0x9899);
    same("name 63", bim_area_name(area, BIM_MOST_NAMES - 1), 0x1617);
}

static void try_events(void)
{
    uint8_t events[3 * BIM_EVENT];
    uint32_t i;
    for (i = 0; i < sizeof events; i++)
        events[i] = (uint8_t)(i + 200);
    same("kind", bim_event_kind(events, 0), 0xc8c9cacb);
    same("p", bim_event_p(events, 1), 0xdcdddedf);
    same("q", bim_event_q(events, 2), 0xf0f1f2f3);
    same("bits", bim_event_bits(events, 2), 0xf4f5f6f7);
}

/* Byte i is i + 120, so that each number of an area, a record and an entry differs. */
static void try_shelf(void)
{
    uint8_t bytes[3 * BIM_DROPPED + BIM_SHELF_AREA];
    const size_t whole = BIM_BLOCK_DATA;
    uint32_t i;
    for (i = 0; i < sizeof bytes; i++)
        bytes[i] = (uint8_t)(i + 120);
    same("shelf's place", bim_shelf_place(bytes), 0x78797a7b);
    same("records", (long long)bim_shelf_records(bytes), 0x7c7d7e7f80818283);
    same("bytes of the stream", (long long)(bim_shelf_stream_bytes(bytes) >> 1), 0x8485868788898a8bu >> 1);
    same("bytes of the file", (long long)(bim_shelf_file_bytes(bytes) >> 1), 0x8c8d8e8f90919293u >> 1);
    same("entries", (long long)(bim_shelf_entries(bytes) >> 1), 0x9495969798999a9bu >> 1);
    same("bytes dropped", (long long)(bim_shelf_dropped(bytes) >> 1), 0x9c9d9e9fa0a1a2a3u >> 1);
    same("record's length", bim_record_length(bytes + 10), 0x8283);
    same("record's name", bim_record_name(bytes + 10), 0x8485);
    same("record's type", bim_record_type(bytes + 10), 0x8687);
    same("record's payload", bim_record_payload(bytes + 10) - bytes, 16);
    same("record's bytes", bim_record_bytes(bytes + 10), 0x8283 + 6);
    same("entry's block", bim_dropped_block(bytes, 1), 0x84858687);
    same("entry's reason", bim_dropped_reason(bytes, 2), 0x94959697);
    same("entry's bytes", bim_dropped_bytes(bytes, 2), 0x98999a9b);
    same("room for nothing", (long long)BIM_SHELF_ROOM(whole - whole), 0);
    same("room for a byte", (long long)BIM_SHELF_ROOM(whole - 497), 512);
    same("room for a block", (long long)BIM_SHELF_ROOM(whole), 512);
    same("room for a byte more", (long long)BIM_SHELF_ROOM(whole + 1), 1024);
    same("heading", strncmp(BIM_SALVAGE_HEADING, "a block whose damage", 20), 0);
}

static void try_rows(void)
{
    /* 2 types, 1 attribute row, 2 particle rows; each word after the header is its own index. */
    uint8_t table[4 * 29];
    uint32_t i;
    memset(table, 0, sizeof table);
    for (i = 0; i < 29; i++)
        table[4 * i + 3] = (uint8_t)i;
    table[7] = 2;
    table[11] = 1;
    table[15] = 2;
    same("types", bim_types(table), 2);
    same("attributes", bim_attributes(table), 1);
    same("particles", bim_particles(table), 2);
    same("words", bim_particle_at(table, 2), 29);
    same("held", bim_type_row(table, 1).held, 11);
    same("held by party 0", bim_is_held(table, 0, 1), 1);
    same("not held by party 2", bim_is_held(table, 2, 1), 0);
    same("held by party 3", bim_is_held(table, 3, 1), 1);
    same("not held by party 7", bim_is_held(table, 7, 1), 0);
    same("content", bim_type_row(table, 1).content, 12);
    same("first attribute", bim_type_row(table, 1).first_attribute, 13);
    same("attribute count", bim_type_row(table, 1).attributes, 14);
    same("a", bim_type_row(table, 1).a, 15);
    same("b", bim_type_row(table, 1).b, 16);
    same("c", bim_type_row(table, 1).c, 17);
    same("attribute name", bim_attribute_row(table, 0).name, 18);
    same("required", bim_attribute_row(table, 0).required, 19);
    same("attribute type", bim_attribute_row(table, 0).type, 20);
    same("particle kind", bim_particle_row(table, 1).kind, 25);
    same("particle p", bim_particle_row(table, 1).p, 26);
    same("particle q", bim_particle_row(table, 1).q, 27);
    same("particle r", bim_particle_row(table, 1).r, 28);
    same("year", bim_date_year(31684), 1980);
    same("month", bim_date_month(31684), 4);
    same("day", bim_date_day(141417728), 1);
    same("milliseconds", bim_date_ms(141417728), 7200000);
    same("the last year", bim_date_year(188177276), 11761079);
    same("the last month", bim_date_month(188177276), 12);
    same("the last day", bim_date_day(891706367), 6);
    same("the last millisecond", bim_date_ms(891706367), 86399999);
    same("day 31", bim_date_day(0xffffffffu), 31);
    same("all bits of milliseconds", bim_date_ms(0xffffffffu), 134217727);
    same("signed 2^31 - 1", bim_signed(0x7fffffff), 2147483647);
    same("signed 2^31", bim_signed(0x80000000u), -2147483648LL);
    same("signed 2^32 - 1", bim_signed(0xffffffffu), -1);
}

/* 1 type, no attribute rows, 2 particle rows, 19 words; then in form 2, from word 19 on, D 2 and S 3, and each later word its own index,
 * but for row 1's substitutes, which are the two from 1 on. */
static void try_past_rows(void)
{
    uint8_t table[4 * 35];
    uint32_t i;
    memset(table, 0, sizeof table);
    for (i = 16; i < 35; i++)
        table[4 * i + 3] = (uint8_t)i;
    table[3] = 2;
    table[7] = 1;
    table[15] = 2;
    table[4 * 19 + 3] = 2;
    table[4 * 20 + 3] = 3;
    table[4 * 33 + 3] = 1;
    table[4 * 34 + 3] = 2;
    same("form", bim_form(table), 2);
    same("rows' end", bim_rows_end(table), 19);
    same("derivations", bim_derivations(table), 2);
    same("substitutes", bim_substitutes(table), 3);
    same("derived entry", bim_derived(table, 1), 22);
    same("substitute's name", bim_substitute(table, 2).name, 27);
    same("substitute's type", bim_substitute(table, 2).type, 28);
    same("type's first entry", bim_type_derived(table, 0).first, 29);
    same("type's entries", bim_type_derived(table, 0).count, 30);
    same("row's first substitute", bim_row_substitutes(table, 0).first, 31);
    same("row's substitutes", bim_row_substitutes(table, 0).count, 32);
    same("words", bim_row_substitutes_at(table, 2), 35);
    same("codes by substitutes", bim_row_has_codes(table, 1, BIM_MODE_ALWAYS), 1);
    table[4 * 34 + 3] = 0;
    table[4 * 17 + 3] = 0;
    same("no codes without casting", bim_row_has_codes(table, 1, BIM_MODE_ALWAYS), 0);
    same("codes by derived types", bim_row_has_codes(table, 1, BIM_CASTING + BIM_MODE_NEVER), 1);
    table[4 * 30 + 3] = 0;
    same("no codes", bim_row_has_codes(table, 1, BIM_CASTING + BIM_MODE_ALWAYS), 0);
    same("name of no substitute", bim_name_in_effect(table, 1, 0), 16);
    same("name of substitute 1", bim_name_in_effect(table, 1, 1), 25);
    same("name of substitute 2", bim_name_in_effect(table, 1, 2), 27);
}

/* The same rows in form 1, in a buffer that ends with them: what would stand past them is 0 and is not looked at (make sanitized). */
static void try_no_past_rows(void)
{
    uint8_t *table = (uint8_t *)calloc(19, 4);
    if (table == NULL)
        abort();
    table[3] = 1;
    table[7] = 1;
    table[15] = 2;
    same("form", bim_form(table), 1);
    same("no derivations", bim_derivations(table), 0);
    same("no substitutes", bim_substitutes(table), 0);
    same("type's first entry of none", bim_type_derived(table, 0).first, 0);
    same("type's entries, none", bim_type_derived(table, 0).count, 0);
    same("row's first substitute of none", bim_row_substitutes(table, 1).first, 0);
    same("row's substitutes, none", bim_row_substitutes(table, 1).count, 0);
    same("no codes in form 1", bim_row_has_codes(table, 1, BIM_CASTING + BIM_MODE_ALWAYS), 0);
    same("no derived entry", bim_derived(table, 0), 0);
    same("no substitute's name", bim_substitute(table, 0).name, 0);
    same("no substitute's type", bim_substitute(table, 0).type, 0);
    same("the row's name", bim_name_in_effect(table, 1, 0), 0);
    free(table);
}

/* A root of one boolean, true: three steps, and a list that is cut. */
static void try_walk(void)
{
    static const uint32_t words[] = {1, 1, 0, 0, 1, BIM_SIMPLE, 0, 0, BIM_BOOLEAN, 0, 0};
    static const uint32_t list[] = {BIM_KIND_START, 10, 0, 2, BIM_KIND_VALUE, 1, 0, 1, BIM_KIND_END, 0, 0, 0};
    uint8_t table[sizeof words], events[sizeof list], area[BIM_AREA];
    struct bim_walk walk;
    struct bim_step step;
    size_t i;
    memset(table, 0, sizeof table);
    memset(events, 0, sizeof events);
    memset(area, 0, sizeof area);
    for (i = 0; i < sizeof words / 4; i++)
        table[4 * i + 3] = (uint8_t)words[i];
    for (i = 0; i < sizeof list / 4; i++)
        events[4 * i + 3] = (uint8_t)list[i];
    area[11] = 3;
    bim_walk_area(&walk, table, 10, 0, events, NULL, area);
    same("step of the Start", bim_walk_next(&walk, &step), 1);
    same("its place", step.place, 8);
    same("its row", step.row, BIM_NO_ROW);
    same("its simple kind", step.simple, BIM_NO_SIMPLE);
    same("step of the Value", bim_walk_next(&walk, &step), 1);
    same("its kind", step.kind, BIM_KIND_VALUE);
    same("its place", step.place, 10);
    same("its simple kind", step.simple, BIM_BOOLEAN);
    same("its element's name", step.name, 10);
    same("of no attribute", step.of_attribute, 0);
    same("step of the End", bim_walk_next(&walk, &step), 1);
    same("its depth", step.depth, 0);
    same("the list's end", bim_walk_next(&walk, &step), 0);
    bim_walk_begin(&walk, table, 10, 0, BIM_MODE_ALWAYS, events, 2, NULL, 0);
    same("step of the Start", bim_walk_next(&walk, &step), 1);
    same("step of the Value", bim_walk_next(&walk, &step), 1);
    same("no End", bim_walk_next(&walk, &step), -1);
}

/* Word i is 2^31 + i, so that each differs and has its top bit set; a codec of three types stands at word 7, one of none behind it. */
static void try_init(void)
{
    const uint32_t top = 0x80000000u;
    uint8_t init[BIM_INIT], codecs[4 * 16], area[BIM_INIT_AREA] = {0x80, 1, 2, 3, 0x84, 5, 6, 7};
    uint32_t i;
    for (i = 0; i < BIM_INIT / 4; i++)
        bim_set_word(init, i, top + i);
    for (i = 0; i < 16; i++)
        bim_set_word(codecs, i, top + i);
    bim_set_word(codecs, 9, 3);
    bim_set_word(codecs, 15, 0);
    same("the most significant byte first", init[0], 0x80);
    same("the least significant byte last", init[127], 31);
    same("init's place", bim_init_place(init), top);
    same("profile", bim_init_profile(init), top + 1);
    same("unit", bim_init_unit(init), top + 2);
    same("stepped", bim_init_stepped(init), top + 3);
    same("flags", bim_init_flags(init), top + 4);
    same("first stepped", bim_init_first_stepped(init), top + 5);
    same("schemas", bim_init_schemas(init), top + 6);
    same("codec words", bim_init_codec_words(init), top + 7);
    same("formats' place", bim_init_formats(init).place, top + 8);
    same("formats", bim_init_formats(init).bytes, top + 9);
    same("description's place", bim_init_description(init).place, top + 10);
    same("description's bytes", bim_init_description(init).bytes, top + 11);
    for (i = 0; i < BIM_MOST_SCHEMAS; i++) {
        same("URI's place", bim_init_uri(init, i).place, top + 12 + 5 * i);
        same("URI's bytes", bim_init_uri(init, i).bytes, top + 13 + 5 * i);
        same("hint's place", bim_init_hint(init, i).place, top + 14 + 5 * i);
        same("hint's bytes", bim_init_hint(init, i).bytes, top + 15 + 5 * i);
        same("codecs", bim_init_codecs(init, i), top + 16 + 5 * i);
    }
    same("codec's URI's place", bim_codec_uri(codecs, 7).place, top + 7);
    same("codec's URI's bytes", bim_codec_uri(codecs, 7).bytes, top + 8);
    same("types", bim_codec_types(codecs, 7), 3);
    same("the last type", bim_codec_type(codecs, 7, 2), top + 12);
    same("the next codec", (long long)bim_codec_next(codecs, 7), 13);
    same("past the codecs", (long long)bim_codec_next(codecs, 13), 16);
    same("the writer's place", bim_init_area_place(area), 0x80010203);
    same("the writer's bytes", bim_init_area_bytes(area), 0x84050607);
}

static void try_names(void)
{
    const char *const none = bim_refusal_name(0xffffffffu);
    uint32_t one, other, named = 0;
    for (one = 0; one <= BIM_ADVANCED_FLAG + 1; one++) {
        named += strcmp(bim_refusal_name(one), none) != 0;
        for (other = 0; other < one; other++)
            if (strcmp(bim_refusal_name(one), bim_refusal_name(other)) == 0 && strcmp(bim_refusal_name(one), none) != 0)
                same("numbers of one name", one, other);
    }
    /* 0 to 26, those of the start-up message, and those of shelves. */
    same("numbers with a name", named, 27 + 4 + 3);
    same("between the numbers", strcmp(bim_refusal_name(BIM_PARTY + 1), none), 0);
    same("past the numbers", strcmp(bim_refusal_name(BIM_ADVANCED_FLAG + 1), none), 0);
}

/* Numbers and lines of a report; 2^64 - 1 is none too large. */
static void try_report(void)
{
    static uint8_t report[BIM_REPORT];
    struct bim_report_line line;
    size_t i;
    for (i = 0; i < BIM_REPORT / 8; i++) {
        report[8 * i + 3] = 1;
        report[8 * i + 6] = (uint8_t)(i >> 8);
        report[8 * i + 7] = (uint8_t)i;
    }
    same("number 4167, high", (uint32_t)(bim_report_number(report, 4167) >> 32), 1);
    same("number 4167, low", (uint32_t)bim_report_number(report, 4167), 4167);
    same("stopped", (uint32_t)bim_report_stopped(report), 1);
    same("total", (uint32_t)bim_report_total(report), 1);
    same("mode bytes", (uint32_t)bim_report_mode(report), 2);
    same("padding", (uint32_t)bim_report_padding(report), 3);
    same("accepted", (uint32_t)bim_report_answered(report, BIM_ACCEPTED), 4);
    same("answered 63", (uint32_t)bim_report_answered(report, 63), 67);
    line = bim_report_other(report);
    same("other, seen", (uint32_t)line.seen, 69);
    same("other, own", (uint32_t)line.own, 70);
    same("other, blanked", (uint32_t)line.blanked, 71);
    line = bim_report_row(report, BIM_REPORT_LINES - 1);
    same("last line, name", (uint32_t)line.name, 4164);
    same("last line, seen", (uint32_t)line.seen, 4165);
    same("last line, own", (uint32_t)line.own, 4166);
    same("last line, blanked", (uint32_t)line.blanked, 4167);
    for (i = 0; i < 8; i++)
        report[i] = 0xff;
    same("the greatest number", bim_report_number(report, 0) == UINT64_MAX, 1);
    for (i = 0; i < 8; i++)
        report[i] = 0;
    same("not stopped", (uint32_t)bim_report_stopped(report), 0);
    same("add", bim_report_add(NULL, 0, 0, 0, 0, NULL, 0, report, sizeof report), BIM_TABLE);
    same("counted", (uint32_t)bim_report_answered(report, BIM_TABLE), 6);
    same("no report", bim_report_add(NULL, 0, 0, 0, 0, NULL, 0, NULL, 0), BIM_AREA_SIZE);
}

/* The calls link, and take null pointers with lengths of 0. */
static void try_calls(void)
{
    uint8_t area[BIM_AREA], init[BIM_INIT];
    same("check", bim_check_table(NULL, 0, area, sizeof area), BIM_TABLE);
    same("read", bim_read(NULL, 0, 0, 0, 0, NULL, 0, NULL, 0, NULL, 0, area, sizeof area), BIM_TABLE);
    same("write", bim_write(NULL, 0, 0, 0, 0, 0, NULL, 0, NULL, 0, NULL, 0, area, sizeof area), BIM_TABLE);
    same("write with lengths", bim_write_lengths(NULL, 0, 0, 0, 0, NULL, 0, NULL, 0, NULL, 0, area, sizeof area), BIM_TABLE);
    same("set", bim_set_held(NULL, 0, 0, 0, 0, area, sizeof area), BIM_TABLE);
    same("shelf written", bim_shelf_write(NULL, 0, NULL, 0, area, BIM_SHELF_AREA), BIM_ACCEPTED);
    same("shelf read", bim_shelf_read(NULL, 0, NULL, 0, area, BIM_SHELF_AREA), BIM_ACCEPTED);
    same("shelf salvaged", bim_shelf_salvage(NULL, 0, NULL, 0, NULL, 0, area, BIM_SHELF_AREA), BIM_ACCEPTED);
    same("no area", bim_check_table(NULL, 0, NULL, 0), BIM_AREA_SIZE);
    same("message", bim_init_read(NULL, 0, NULL, 0, init, sizeof init), BIM_PAST_END);
    same("words", bim_init_write(NULL, 0, NULL, 0, NULL, 0, NULL, 0, init, BIM_INIT_AREA), BIM_NO_READING);
    same("no init", bim_init_read(NULL, 0, NULL, 0, NULL, 0), BIM_AREA_SIZE);
}

/* The bits 100010, 00011, 10000001 00000101 and 10100: a take moves the place past the code, and stays where it is refused. */
static void try_bits(void)
{
    static const uint8_t bytes[] = { 0x88, 0x70, 0x20, 0xb4 };
    bim_bits reader = { bytes, sizeof bytes, 0 };
    uint8_t area[BIM_BITS_AREA];
    uint32_t value = 99;
    same("take of 6 bits", bim_bits_take_fixed(&reader, 6, &value), BIM_ACCEPTED);
    same("6 bits", value, 34);
    same("place past them", reader.place, 6);
    same("take of a vluimsbf5", bim_bits_take_vlu5(&reader, &value), BIM_ACCEPTED);
    same("vluimsbf5", value, 3);
    same("take of a vluimsbf8", bim_bits_take_vlu8(&reader, &value), BIM_ACCEPTED);
    same("vluimsbf8", value, 133);
    same("place past it", reader.place, 27);
    same("bits left", bim_bits_left(reader.bytes, reader.count, reader.place), 5);
    same("take of 6 bits of 5", bim_bits_take_fixed(&reader, 6, &value), BIM_PAST_END);
    same("value refused", value, 0);
    same("place refused", reader.place, 27);
    same("bits of nothing", bim_bits_vlu5(NULL, 0, 0, area, sizeof area), BIM_PAST_END);
    same("no bits area", bim_bits_vlu8(bytes, sizeof bytes, 0, NULL, 0), BIM_AREA_SIZE);
}

int main(void)
{
    try_area();
    try_events();
    try_shelf();
    try_rows();
    try_past_rows();
    try_no_past_rows();
    try_walk();
    same("version", BIM_VERSION, 200);
    try_init();
    try_names();
    try_calls();
    try_bits();
    try_report();
    return failed;
}
