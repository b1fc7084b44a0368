/* Table check, reader and writer of BiM fragment payloads (ISO/IEC 15938-1), for C99 and C++.
 * Link libbim.a (`make install PREFIX=..`, then `pkg-config --cflags --libs bim`). bim_table.h has the rows of a table.
 *
 * SINCE 2.0 bim_read, bim_write and bim_write_lengths are told who asks, `party`, right after the table. A C linker does not see that a
 * prototype changed: a host that was written against 1.0 has to be compiled anew, with 0 for its party where it is the only one, and its
 * tables mean what they meant.
 *
 * BYTES. A buffer is a pointer and then its length in bytes; a null pointer is fine where the length is 0. Words are 4 bytes, names in
 * the area 2, the most significant byte first. Every buffer is the caller's, before and after a call: nothing is kept, nothing is
 * allocated (a call takes at most BIM_STACK bytes of the stack), and no other byte is read or written, so calls may run in several threads
 * at once. Any bytes and any lengths are answered.
 *
 * THE CALLER'S ONE DUTY: a buffer that a call writes overlaps no other buffer of that call, and no other call uses it meanwhile. Buffers that
 * are only read may overlap, and be read by several calls at once.
 *
 * PARTIES. Up to BIM_PARTIES parties, numbered from 0, share a table, each with a mark of its own at every type: what it holds. A type is
 * held, for a call, where the calling party's mark of it is set; nothing that the others set or clear changes what a call by it answers.
 *
 * THE ANSWER is the number that is returned, 0 or a refusal, and the area, which has exactly BIM_AREA bytes:
 *
 *     bytes    0..3      place    where the refusal is; 0 on acceptance. A place over 2^32 - 1 is given as 2^32 - 1
 *              4..7      mode     of length coding: 0 none, 1 optional, 2 always; 4, 5 or 6 where types may be cast besides
 *              8..11     events   how many
 *             12..15     text     bytes of all texts
 *             16..19     bits     used, the mode byte included, padding not
 *             20..23     names    how many elements were open
 *             24..151    64 names of the open elements, the outermost first; unused names are 0
 *
 * On acceptance number, place and names are 0. On a refusal mode, events, text and bits are 0, and every output buffer is 0 throughout:
 * nothing of a refused fragment is left to be taken for a reading. (The table that bim_set_held changes is no output buffer: refused, it is
 * as it was; nor is the report that bim_report_add counts into.) An area of another size is refused BIM_AREA_SIZE before anything
 * else is looked at: the area, whatever its size, and every output buffer are then 0 throughout. Under every other number the area is
 * filled. It is part of the answer and no output buffer.
 *
 * A TABLE is words as document 01 lays them out (docs/TABLE.md). One whose bytes are no multiple of 4 has the header of its whole words
 * judged, and then is refused BIM_TABLE at bytes / 4.
 */
#ifndef BIM_H
#define BIM_H

#include <stddef.h>
#include <stdint.h>

#ifdef __cplusplus
extern "C" {
#endif

/* The version of this header: 100 times its first number, and its second. A host may ask for it: #if BIM_VERSION < 200. */
#define BIM_VERSION 200

/* The bytes of an answer area and of an event; the most events, payload bytes, table bytes, rows open at once (elements and particle
 * rows) and names of a path there are; the greatest word, where places stop.
 * Rooms that are never too small: BIM_MOST_EVENTS * BIM_EVENT bytes for events, BIM_MOST_PAYLOAD bytes for texts and for a payload. */
#define BIM_AREA 152
#define BIM_EVENT 16
#define BIM_MOST_EVENTS 2048
#define BIM_MOST_PAYLOAD 8192
#define BIM_MOST_TABLE 58392
#define BIM_MOST_OPEN 64
#define BIM_MOST_NAMES 64
#define BIM_MOST_WORD 4294967295
/* How many parties there are, numbered from 0. */
#define BIM_PARTIES 8
/* Of a start-up message: the bytes of what it says and of its writer's area; its most schemas, the greatest unit size code, the greatest number
 * and so the most bytes of a text, the most reference formats; the bytes of it that are read, 2^29 - 1, as places stop there. */
#define BIM_INIT 128
#define BIM_INIT_AREA 8
#define BIM_MOST_SCHEMAS 4
#define BIM_MOST_UNIT 6
#define BIM_MOST_VLU8 16383
#define BIM_MOST_FORMATS 255
#define BIM_MOST_MESSAGE 536870911

/* The stack, in bytes, that a call never needs more than, by the bytes of its table and of its events: those lent to bim_read, those of the list that is
 * written. A call that has no table or no events goes by 0, and bim_report_add by BIM_STACK, whatever its table is. Both are constants where
 * their arguments are, so that a small receiver may give its thread a small stack: room for a table and for events is taken in steps, and what remains is
 * BIM_STACK_ROW for each row open and BIM_STACK_REST. A call has no arrays but of fixed length, and calls itself once for each row open, of which there are
 * at most 64. `make stack` measures it, and bounds it by the frames of the machine code (x86-64). */
#define BIM_STACK_REST 15680
#define BIM_STACK_ROW 1040
#define BIM_STACK_TABLE(bytes) ((bytes) <= 512 ? 0u : (bytes) <= 4096 ? 4096u : (bytes) <= 35856 ? 35856u : 58392u)
#define BIM_STACK_EVENTS(bytes) ((bytes) <= 2048 ? 0u : (bytes) <= 8192 ? 8192u : (bytes) <= 16384 ? 16384u : 32768u)
#define BIM_STACK_FOR(table_bytes, event_bytes) \
    (BIM_STACK_REST + (BIM_MOST_OPEN + 1) * BIM_STACK_ROW + BIM_STACK_TABLE(table_bytes) + BIM_STACK_EVENTS(event_bytes))
/* The most that any call needs: that is bim_report_add, which has rooms of its own besides. */
#define BIM_STACK_REPORT 10944
#define BIM_STACK (BIM_STACK_FOR(BIM_MOST_TABLE, BIM_MOST_EVENTS * BIM_EVENT) + BIM_STACK_REPORT)

/* Length coding: the mode, and the byte that a payload of that mode begins with. BIM_CASTING is added to a mode where elements have type
 * codes, and BIM_CASTING_BYTE to its byte: 1F, 5F, 9F are the modes 4, 5, 6. A table without derivations has none of these. */
enum {
    BIM_MODE_NEVER = 0,    /* no element has a length */
    BIM_MODE_OPTIONAL = 1, /* a flag says whether an element has one */
    BIM_MODE_ALWAYS = 2,   /* every element has one */
    BIM_CASTING = 4,       /* an element whose default type has derived types has a type code */
    BIM_MODE_NEVER_BYTE = 0x0F,
    BIM_MODE_OPTIONAL_BYTE = 0x4F,
    BIM_MODE_ALWAYS_BYTE = 0x8F,
    BIM_CASTING_BYTE = 0x10
};

/* The kinds of an event, and what its words p and q then are (else 0). Its fourth word is the bits that it took.
 *
 * An element's name, in Start, Blank and path, is that of its row in the table, also where a substitute stands for it. A Cast follows the
 * Start of an element that has codes, whether they name anything or not: one whose row has substitutes, in every mode, and in the modes 4
 * to 6 one whose row's type has derived types. The root has none. */
enum {
    BIM_KIND_START = 1,     /* an element begins: p its name, q 1 where a length is coded; bits of flag and length as they are there */
    BIM_KIND_ATTRIBUTE = 2, /* p its name, q 1 present (its Value follows) or 0 absent (none does); bits of its flag */
    BIM_KIND_VALUE = 3,     /* p the value as its simple kind has it (bim_table.h); of a text its bytes, next in the texts; of a dateTime or a
                             * date, and of no other, q is more of it: p has year and month, q day and milliseconds */
    BIM_KIND_PICK = 4,      /* p the branch of a choice, from 0 */
    BIM_KIND_TIMES = 5,     /* p how often the row occurs that comes next */
    BIM_KIND_END = 6,       /* the element that was begun last ends */
    BIM_KIND_BLANK = 7,     /* an element stepped over, as the party does not hold its type: p its name, q its effective type; all bits of it */
    BIM_KIND_CAST = 8       /* p the effective type of the element just begun, q its substitute from 1, or 0; bits of both codes */
};

/* The numbers given back, and what the place then is. An item is the bits of one event: in the reader its place is its first bit in
 * the payload, in the writer the index of the event, from 0. */
enum {
    BIM_ACCEPTED = 0,
    BIM_TABLE = 1,          /* table malformed: the first word at fault; a wrong length is named at the number of words given */
    BIM_ROOT = 2,           /* root type, or the type of a mark, not in the table, or root name over 65,535: 0 */
    BIM_PAYLOAD_SIZE = 3,   /* payload empty or over 8,192 bytes: 0 */
    BIM_MODE_BYTE = 4,      /* mode byte other than 0F, 4F, 8F and, with derivations in the table, 1F, 5F, 9F: 0 */
    BIM_PAST_END = 5,       /* item passes the innermost declared end, or the payload's: item */
    BIM_DEPTH = 6,          /* more than 64 elements and particle rows open: item */
    BIM_EVENT_ROOM = 7,     /* no room for the event: item */
    BIM_TEXT_ROOM = 8,      /* no room for the text: item */
    BIM_NOT_HELD = 9,       /* effective type not held by the party and no length; in the writer, not held: item, of the Start */
    BIM_LENGTH = 10,        /* TheLength passes the enclosing end: item */
    BIM_CONTENT_SHORT = 11, /* content ends before its declared end: the first bit after TheLength */
    BIM_NOT_SHORTEST = 12,  /* number not in shortest form, but not of a TheLength, which may be padded: item */
    BIM_TOO_LARGE = 13,     /* number too large: item */
    BIM_NO_SUCH_CODE = 14,  /* code names nothing, or a dateTime has a day or more of milliseconds: item */
    BIM_MINUS_ZERO = 15,    /* minus zero: item */
    BIM_NOT_UTF8 = 16,      /* text not UTF-8: item */
    BIM_LEFT_OVER = 17,     /* 8 or more bits left, or a 1 among them: the first left bit */
    BIM_NO_READING = 18,    /* list is no reading of the content model, or no whole list of at most 2,048 events: event */
    BIM_BLANK = 19,         /* Blank in a list to be written: event */
    BIM_OUTSIDE_ROW = 20,   /* value, branch or count outside its row, words that are no date, or a Cast's type or substitute: event */
    BIM_PAYLOAD_ROOM = 21,  /* payload over 8,192 bytes or the lent room: 0 */
    BIM_WRITE_MODE = 22,    /* write mode other than 0, 1, 2 and, with derivations in the table, 4, 5, 6: 0 */
    BIM_TEXT_BYTES = 23,    /* text bytes short, or left over: event, or the event count */
    BIM_AREA_SIZE = 24,     /* the area has not BIM_AREA bytes, or a report not BIM_REPORT: 0 */
    BIM_CONTROL = 25,       /* text with a control character, a byte below 32 other than 9, 10, 13: item */
    BIM_PARTY = 26,         /* party over 7: 0 */
    BIM_RESERVED_BITS = 28, /* reserved bits not ones, in a start-up message: item */
    BIM_NO_SCHEMAS = 29,    /* no schemas in a start-up message: item, or word */
    BIM_MANY_SCHEMAS = 30,  /* over four schemas in a start-up message: item, or word */
    BIM_BLOCK_CHECK = 31,   /* check of a block of a shelf wrong: block */
    BIM_BLOCK_TURN = 32,    /* number of a block out of turn: block */
    BIM_BLOCK_LAYOUT = 33,  /* layout of a shelf, or of a stream of records: block */
    BIM_ADVANCED_FLAG = 34  /* flag for advanced decoders or additional schemas set, in a start-up message: item, or word */
};

/* THE AREA, word by word; it has BIM_AREA bytes. */
static inline uint32_t bim_word(const uint8_t *bytes)
{
    const uint32_t high = bytes[0], next = bytes[1], third = bytes[2], low = bytes[3];
    return high << 24 | next << 16 | third << 8 | low;
}
static inline uint32_t bim_area_place(const uint8_t *area) { return bim_word(area); }
static inline uint32_t bim_area_mode(const uint8_t *area) { return bim_word(area + 4); }
static inline uint32_t bim_area_events(const uint8_t *area) { return bim_word(area + 8); }
static inline uint32_t bim_area_text(const uint8_t *area) { return bim_word(area + 12); }
static inline uint32_t bim_area_bits(const uint8_t *area) { return bim_word(area + 16); }
static inline uint32_t bim_area_names(const uint8_t *area) { return bim_word(area + 20); }
/* Name i of the path, i below bim_area_names, 0 the outermost. */
static inline uint32_t bim_area_name(const uint8_t *area, uint32_t i)
{
    const uint32_t high = area[24 + 2 * i], low = area[25 + 2 * i];
    return high << 8 | low;
}

/* EVENT i of a list, i below bim_area_events. */
static inline const uint8_t *bim_event(const uint8_t *events, size_t i) { return events + BIM_EVENT * i; }
static inline uint32_t bim_event_kind(const uint8_t *events, size_t i) { return bim_word(bim_event(events, i)); }
static inline uint32_t bim_event_p(const uint8_t *events, size_t i) { return bim_word(bim_event(events, i) + 4); }
static inline uint32_t bim_event_q(const uint8_t *events, size_t i) { return bim_word(bim_event(events, i) + 8); }
static inline uint32_t bim_event_bits(const uint8_t *events, size_t i) { return bim_word(bim_event(events, i) + 12); }

/* A number in words; never null. */
static inline const char *bim_refusal_name(uint32_t number)
{
    switch (number) {
    case BIM_ACCEPTED: return "accepted";
    case BIM_TABLE: return "table malformed";
    case BIM_ROOT: return "root type not in the table, or root name over 65535";
    case BIM_PAYLOAD_SIZE: return "payload empty or over 8192 bytes";
    case BIM_MODE_BYTE: return "mode byte other than 0F, 4F, 8F and, with derivations in the table, 1F, 5F, 9F";
    case BIM_PAST_END: return "item passes the innermost declared end, or the payload's";
    case BIM_DEPTH: return "more than 64 elements and particle rows open";
    case BIM_EVENT_ROOM: return "no room for the event";
    case BIM_TEXT_ROOM: return "no room for the text";
    case BIM_NOT_HELD: return "type not held and no length";
    case BIM_LENGTH: return "length passes the enclosing end";
    case BIM_CONTENT_SHORT: return "content ends before its declared end";
    case BIM_NOT_SHORTEST: return "number not in shortest form";
    case BIM_TOO_LARGE: return "number too large";
    case BIM_NO_SUCH_CODE: return "code names nothing";
    case BIM_MINUS_ZERO: return "minus zero";
    case BIM_NOT_UTF8: return "text not UTF-8";
    case BIM_LEFT_OVER: return "8 or more bits left, or a 1 among them";
    case BIM_NO_READING: return "list is no reading of the content model";
    case BIM_BLANK: return "Blank in a list to be written";
    case BIM_OUTSIDE_ROW: return "value, branch or count outside its row";
    case BIM_PAYLOAD_ROOM: return "payload over 8192 bytes or the lent room";
    case BIM_WRITE_MODE: return "write mode other than 0, 1, 2 and, with derivations in the table, 4, 5, 6";
    case BIM_TEXT_BYTES: return "text bytes short, or left over";
    case BIM_AREA_SIZE: return "answer area not 152 bytes";
    case BIM_CONTROL: return "control character in a text";
    case BIM_PARTY: return "party over 7";
    case BIM_RESERVED_BITS: return "reserved bits not ones";
    case BIM_NO_SCHEMAS: return "no schemas";
    case BIM_MANY_SCHEMAS: return "over four schemas";
    case BIM_BLOCK_CHECK: return "check of a block wrong";
    case BIM_BLOCK_TURN: return "block number out of turn";
    case BIM_BLOCK_LAYOUT: return "shelf layout";
    case BIM_ADVANCED_FLAG: return "flag for advanced decoders or additional schemas set";
    default: return "no number of this library";
    }
}

/* Judges a table: BIM_ACCEPTED, BIM_TABLE or BIM_AREA_SIZE.
 *
 *     table      the words of a schema table
 *     area       written */
uint32_t bim_check_table(const uint8_t *table, size_t table_bytes,
                         uint8_t *area, size_t area_bytes);

/* Reads a payload.
 *
 *     table      the words of the schema table; it is judged on every call
 *     party      who reads, 0 to 7: an element whose effective type it does not hold is stepped over, or refused where it has no length.
 *                Attributes are read whatever the marks of their types
 *     root_name  the name of the root element, at most 65,535: it comes back in the first event and in the path
 *     root_type  the root's type row, below T
 *     payload    1 to 8,192 bytes, the mode byte first
 *     events     written: room for events_bytes / 16 events, of which at most 2,048 are used. On acceptance the events one after another,
 *                four words each (kind, p, q, bits taken); what is left is 0
 *     texts      written: room for texts_bytes bytes. On acceptance the bytes of the texts one after another; what is left is 0
 *     area       written
 *
 * Refusals come in this order: 24, 1, 2, 26, 3, 4, then 5 to 16 and 25 item by item, then 17. A text's bytes are judged for 16, then 25, then
 * its room (8, 7); a text in an element that is stepped over is not judged. An element's codes are judged (5, 14) before its type and the
 * room for its Start are (9, 7), without the element in the path.
 *
 * NO PAYLOAD BEGINS ANOTHER of the same table and root, so payloads that stand one behind the other come apart in one way, by this call.
 * Bytes behind a payload, 8,192 with it at most, make its number BIM_LEFT_OVER and its place the bits that it has by itself: on
 * BIM_LEFT_OVER at p the first payload is the first (p + 7) / 8 bytes. Read these again by themselves, as nothing of them was given and
 * their padding has not been judged: where they are refused there was no payload. */
uint32_t bim_read(const uint8_t *table, size_t table_bytes,
                  uint32_t party,
                  uint32_t root_name, uint32_t root_type,
                  const uint8_t *payload, size_t payload_bytes,
                  uint8_t *events, size_t events_bytes,
                  uint8_t *texts, size_t texts_bytes,
                  uint8_t *area, size_t area_bytes);

/* THE GRAMMAR OF A LIST, for whoever makes one to be written: the events stand in the order of the table's rows (bim_table.h).
 *
 *     list      = element                               of the root's name and type; the root has no Cast
 *     element   = Start [Cast] attribute.. content End  a Cast where bim_row_has_codes says so; from there on the type is the Cast's
 *     attribute = Attribute [Value]                     one for each attribute row of the type, in their order, required ones too
 *     content   = nothing | Value | particle            as the type's content is empty, simple, or particles
 *     particle  = element                               of an element row: its name and type
 *               | particle particle ..                  of a sequence: each of its child rows in turn
 *               | Pick particle                         of a choice: the child row that Pick tells, from 0
 *               | Times particle ..                     of an occurs row: the child row as often as Times tells, which may be 0
 *
 *     Start      p the element's name, that of its row also where a substitute stands for it; q by mode: 0 in the modes 0 and 4, 1 in 2 and 6, and
 *                in 1 and 5 it is free: 1 codes a length, 0 none
 *     Cast       p the type in effect: the row's, or that of the substitute, or in the modes 4 to 6 one derived from it; q the substitute, from 1,
 *                or 0
 *     Attribute  p its name; q 1, and its Value follows, or 0, which a required one may not have
 *     Value      p as the simple kind has it, and q of a dateTime or a date; of a text how many bytes: those stand in the texts, one behind the other
 *     Pick, Times, End  p as above, of End 0
 *
 * q is 0 where nothing is said of it, and the fourth word is ignored. A Blank is never written. bim_walk.h walks such a list. */

/* Writes a list of events, as bim_read gives them, as a payload.
 *
 *     table, party, root_name, root_type    as for bim_read; the party has to hold every type that the list uses
 *     mode       of length coding: 0 none, 1 where an event Start says so, 2 always; and BIM_CASTING more for type codes
 *     events     the list, of 16 bytes each, at most 2,048; the fourth word of an event is ignored: lengths are written in shortest form,
 *                also those that were read padded, so that a payload read without Blanks is never longer when it is written back
 *     texts      the bytes of the texts one after another, all of which the list uses
 *     payload    written: on acceptance its first (bits + 7) / 8 bytes are the payload; what is left is 0
 *     area       written: on acceptance mode, events and text are those given, bits those of the payload before its padding
 *
 * Refusals come in this order: 24, 1, 2, 26, 22, 18 at events_bytes / 16 for bytes that are no whole list of at most 2,048 events, then 6, 9,
 * 16, 18, 19, 20, 23 and 25 event by event, 18 or 19 for events and 23 for text bytes that are left over, then 21. Of a text 20 comes
 * first, then 23, 16, 25. 9 is judged after the Start's Cast, by whose type it goes. */
uint32_t bim_write(const uint8_t *table, size_t table_bytes,
                   uint32_t party,
                   uint32_t root_name, uint32_t root_type,
                   uint32_t mode,
                   const uint8_t *events, size_t events_bytes,
                   const uint8_t *texts, size_t texts_bytes,
                   uint8_t *payload, size_t payload_bytes,
                   uint8_t *area, size_t area_bytes);

/* Writes a list without naming a mode: answer, area and payload are those of bim_write with BIM_MODE_ALWAYS, so that every receiver can
 * step over what it does not hold. Every Start has to say that a length is coded (q is 1): one that does not is 18, and gets none after
 * all. There are no type codes, also where the table has derivations: a list read in mode 6 is 18 at its first Cast that type codes alone
 * sent, or 20 at one before it that casts. 22 cannot arise. Whoever wants another mode names it to bim_write. */
uint32_t bim_write_lengths(const uint8_t *table, size_t table_bytes,
                           uint32_t party,
                           uint32_t root_name, uint32_t root_type,
                           const uint8_t *events, size_t events_bytes,
                           const uint8_t *texts, size_t texts_bytes,
                           uint8_t *payload, size_t payload_bytes,
                           uint8_t *area, size_t area_bytes);

/* Sets or clears a party's mark of a type, in the table where it lies.
 *
 *     table      changed: on acceptance one bit of one byte, the lowest of the type's held word; refused, it is as it was. It overlaps no other
 *                buffer, and no other call uses it meanwhile: several threads that read while one sets have a table each, or take turns
 *     party      whose mark, 0 to 7
 *     type       the type row, below T
 *     mark       0 clears the mark, any other sets it
 *     area       written: 0 throughout on acceptance
 *
 * Refusals come in this order: 24, 1, 2 for a type that there is not, 26. */
uint32_t bim_set_held(uint8_t *table, size_t table_bytes,
                      uint32_t party, uint32_t type, uint32_t mark,
                      uint8_t *area, size_t area_bytes);

/* THE START-UP MESSAGE, DecoderInit (ISO/IEC 15938-1, 7.2): what a description stream begins with, and says which schemas it is of. One reader
 * serves the first form and the amended one. What a message says stands in `init`, which has exactly BIM_INIT bytes, 32 words:
 *
 *     word  0          place    where the refusal is; 0 on acceptance. The writer does not look at it
 *           1, 2       profile; unit size code, 0 to 6. Payloads of this library have unit size code 0
 *           3          stepped  how many bits were stepped over behind the flags: 8 L - 7 for flags of L bytes; 0 where there are no flags
 *           4          flags    seven, as below
 *           5          first    the first bit stepped over
 *           6, 7       schemas, 1 to 4; words used in `codecs`
 *           8, 9       stretch of the reference formats, a byte each; 0, 0 without BIM_FRAGMENT_REFERENCE_FLAG
 *          10, 11      stretch of the initial description
 *          12 + 5 k    of schema k from 0: stretch of its URI, stretch of its location hint, how many codecs; 0 past the last schema
 *
 * A STRETCH is two words, a byte place and a count of bytes: in the message that was read, or in the bytes `given` to the writer. So nothing is
 * copied, and a message read may be what its writer is given. URIs, hints, formats, profile and types are handed back as they are: nothing is
 * judged of them but that a schema's URI has a byte.
 *
 * `codecs` is words too, for each codec, schema by schema: stretch of its URI, how many types, the types. It is lent, and the room is its bytes / 4.
 *
 * THE FIRST BIT STEPPED OVER has a meaning by Amendment 2, ContextPathTableFlag: a table would follow the schemas. It is read as reserved all the
 * same, but where it is 1 what comes behind the schemas, the formats and the description, was not meant as it is read; and it is not written. */
enum {
    BIM_INSERT_FLAG = 64,
    BIM_ADVANCED_DECODERS_FLAG = 32, /* AdvancedOptimisedDecodersFlag: refused, BIM_ADVANCED_FLAG, and so are the next two */
    BIM_ADDITIONAL_SCHEMA_FLAG = 16,
    BIM_SCHEMA_UPDATES_FLAG = 8,     /* AdditionalSchemaUpdatesOnlyFlag */
    BIM_FRAGMENT_REFERENCE_FLAG = 4, /* formats stand before the description */
    BIM_MPC_ONLY_FLAG = 2,
    BIM_HIERARCHY_FLAG = 1           /* HierarchyBasedSubstitutionCodingFlag */
};

/* Reads a start-up message.
 *
 *     message    of any length; bytes past BIM_MOST_MESSAGE are not read
 *     codecs     written: on acceptance its first words are the codecs; what is left is 0
 *     init       written: it is the answer area of this call
 *
 * The place is the first bit of the item at fault, a multiple of 8. An item is a number, or a text with its count, or the flags, or the unit byte.
 * Refused are, item by item: BIM_PAST_END an item that passes the end; BIM_TOO_LARGE, then BIM_NOT_SHORTEST a number of over two bytes, or of two
 * where one would do; BIM_RESERVED_BITS; BIM_NO_SUCH_CODE the unit size code 7, flags of no bytes, a schema's URI of none; BIM_ADVANCED_FLAG where
 * all bytes of the flags are there; BIM_NO_SCHEMAS, BIM_MANY_SCHEMAS; BIM_EVENT_ROOM where `codecs` has no room for the item's words (2 of a URI,
 * else 1). BIM_LEFT_OVER comes last, at the first byte left. BIM_AREA_SIZE comes first, where `init` has not BIM_INIT bytes. */
uint32_t bim_init_read(const uint8_t *message, size_t message_bytes,
                       uint8_t *codecs, size_t codecs_bytes,
                       uint8_t *init, size_t init_bytes);

/* Writes a start-up message: of the same meaning, and byte for byte the same, as the one that `init` and `codecs` were read from; bits stepped over
 * are written as zeros.
 *
 *     init       the 32 words, of which 0 and those past the last schema are not looked at, nor is 8 without BIM_FRAGMENT_REFERENCE_FLAG
 *     codecs     the words that init's word 7 counts; any more are not looked at
 *     given      where the stretches lie; they may overlap
 *     message    written: on acceptance its first bytes are the message; what is left is 0
 *     area       written, BIM_INIT_AREA bytes: place, and the bytes of the message
 *
 * The place is the index of the word at fault, in init and then, from 32 on, in codecs; of a stretch it is the count's. Refusals come in this order:
 * BIM_AREA_SIZE; BIM_NO_READING at 0 where init has not BIM_INIT bytes, at 7 where word 7 is over the words lent; then in the message's order
 * BIM_OUTSIDE_ROW a word that its field does not hold (first at 5 among them, and formats without their flag), BIM_ADVANCED_FLAG at 4, BIM_NO_SCHEMAS
 * and BIM_MANY_SCHEMAS at 6, BIM_TEXT_BYTES a stretch that passes given, BIM_NO_READING at 32 + word 7 where a codec's words are missing; last
 * BIM_NO_READING at the first word of codecs left over, and BIM_PAYLOAD_ROOM at 0. */
uint32_t bim_init_write(const uint8_t *init, size_t init_bytes,
                        const uint8_t *codecs, size_t codecs_bytes,
                        const uint8_t *given, size_t given_bytes,
                        uint8_t *message, size_t message_bytes,
                        uint8_t *area, size_t area_bytes);

/* Word i of init or codecs, read and set. */
static inline uint32_t bim_get_word(const uint8_t *words, size_t i) { return bim_word(words + 4 * i); }
static inline void bim_set_word(uint8_t *words, size_t i, uint32_t word)
{
    size_t byte;
    for (byte = 4 * i + 4; byte > 4 * i; byte--, word >>= 8)
        words[byte - 1] = word & 0xff;
}

/* A stretch, which begins at word i. */
typedef struct bim_stretch {
    uint32_t place, bytes;
} bim_stretch;
static inline bim_stretch bim_stretch_at(const uint8_t *words, size_t i)
{
    bim_stretch stretch;
    stretch.place = bim_get_word(words, i);
    stretch.bytes = bim_get_word(words, i + 1);
    return stretch;
}

/* WHAT A MESSAGE SAYS, word by word; k is a schema, from 0. */
static inline uint32_t bim_init_place(const uint8_t *init) { return bim_get_word(init, 0); }
static inline uint32_t bim_init_profile(const uint8_t *init) { return bim_get_word(init, 1); }
static inline uint32_t bim_init_unit(const uint8_t *init) { return bim_get_word(init, 2); }
static inline uint32_t bim_init_stepped(const uint8_t *init) { return bim_get_word(init, 3); }
static inline uint32_t bim_init_flags(const uint8_t *init) { return bim_get_word(init, 4); }
static inline uint32_t bim_init_first_stepped(const uint8_t *init) { return bim_get_word(init, 5); }
static inline uint32_t bim_init_schemas(const uint8_t *init) { return bim_get_word(init, 6); }
static inline uint32_t bim_init_codec_words(const uint8_t *init) { return bim_get_word(init, 7); }
static inline bim_stretch bim_init_formats(const uint8_t *init) { return bim_stretch_at(init, 8); }
static inline bim_stretch bim_init_description(const uint8_t *init) { return bim_stretch_at(init, 10); }
static inline bim_stretch bim_init_uri(const uint8_t *init, uint32_t k) { return bim_stretch_at(init, 12 + 5 * k); }
static inline bim_stretch bim_init_hint(const uint8_t *init, uint32_t k) { return bim_stretch_at(init, 14 + 5 * k); }
static inline uint32_t bim_init_codecs(const uint8_t *init, uint32_t k) { return bim_get_word(init, 16 + 5 * k); }

/* A CODEC, whose words begin at word i of codecs; the next one's begin at bim_codec_next. */
static inline bim_stretch bim_codec_uri(const uint8_t *codecs, size_t i) { return bim_stretch_at(codecs, i); }
static inline uint32_t bim_codec_types(const uint8_t *codecs, size_t i) { return bim_get_word(codecs, i + 2); }
static inline uint32_t bim_codec_type(const uint8_t *codecs, size_t i, uint32_t type) { return bim_get_word(codecs, i + 3 + type); }
static inline size_t bim_codec_next(const uint8_t *codecs, size_t i) { return i + 3 + bim_codec_types(codecs, i); }

/* The writer's area. */
static inline uint32_t bim_init_area_place(const uint8_t *area) { return bim_word(area); }
static inline uint32_t bim_init_area_bytes(const uint8_t *area) { return bim_word(area + 4); }

/* SHELVES: payloads kept in a file, and what a damaged file still holds.
 *
 * A STREAM is records one after another: BIM_RECORD_HEAD bytes, three numbers of 2 (length, root name, root type), then length bytes, at most
 * BIM_MOST_PAYLOAD, none too. Names, types and payloads are not judged: a shelf keeps what it is given.
 *
 * A SHELF FILE is blocks of BIM_BLOCK_BYTES bytes that hold a stream (docs/SHELF.md):
 *
 *     bytes    0..3      number   from 0
 *              4..5      used     data bytes, BIM_BLOCK_DATA in all blocks but the last
 *              6..7      first    where the first record begins that begins in the data, or BIM_NO_START
 *              8..505    data     what is not used is 0
 *            506..507    0
 *            508..511    the sum of the 127 words before it, modulo 2^32
 *
 * A stream has one file and a file one stream. THE AREA has exactly BIM_SHELF_AREA bytes: the place, 4 bytes, then five numbers of 8 bytes.
 * On a refusal these are 0, and every output buffer is 0 throughout; an area of another size is BIM_AREA_SIZE as above. BIM_PAYLOAD_ROOM is
 * an output buffer too small, at 0: what was lent is 0 then too. On acceptance what an output buffer has past its content is 0. */
#define BIM_BLOCK_BYTES 512
#define BIM_BLOCK_HEAD 8    /* before the data */
#define BIM_BLOCK_DATA 498
#define BIM_BLOCK_BODY 508  /* before the sum */
#define BIM_MOST_BLOCKS 4294967296
#define BIM_NO_START 65535
#define BIM_RECORD_HEAD 6
#define BIM_SHELF_AREA 44
/* Of a salvage's list, the bytes of an entry. */
#define BIM_DROPPED 12
/* The bytes of the file of a stream of n bytes. */
#define BIM_SHELF_ROOM(n) (((n) / BIM_BLOCK_DATA + ((n) % BIM_BLOCK_DATA != 0)) * BIM_BLOCK_BYTES)
/* What stands over every list of what was dropped: no sum sees all damage. */
#define BIM_SALVAGE_HEADING "a block whose damage happens to leave its sum right counts as good"

/* The area, number by number. */
static inline uint64_t bim_long(const uint8_t *bytes)
{
    const uint64_t high = bim_word(bytes), low = bim_word(bytes + 4);
    return high << 32 | low;
}
static inline uint32_t bim_shelf_place(const uint8_t *area) { return bim_word(area); }
static inline uint64_t bim_shelf_records(const uint8_t *area) { return bim_long(area + 4); }       /* how many */
static inline uint64_t bim_shelf_stream_bytes(const uint8_t *area) { return bim_long(area + 12); }  /* of the stream */
static inline uint64_t bim_shelf_file_bytes(const uint8_t *area) { return bim_long(area + 20); }    /* of the file read, or written */
static inline uint64_t bim_shelf_entries(const uint8_t *area) { return bim_long(area + 28); }       /* of a salvage's list, else 0 */
static inline uint64_t bim_shelf_dropped(const uint8_t *area) { return bim_long(area + 36); }       /* the sum of its bytes, else 0 */

/* A record of a stream; the next one begins bim_record_bytes further on. */
static inline uint32_t bim_half(const uint8_t *bytes)
{
    const uint32_t high = bytes[0], low = bytes[1];
    return high << 8 | low;
}
static inline uint32_t bim_record_length(const uint8_t *record) { return bim_half(record); }
static inline uint32_t bim_record_name(const uint8_t *record) { return bim_half(record + 2); }
static inline uint32_t bim_record_type(const uint8_t *record) { return bim_half(record + 4); }
static inline const uint8_t *bim_record_payload(const uint8_t *record) { return record + BIM_RECORD_HEAD; }
static inline uint32_t bim_record_bytes(const uint8_t *record) { return BIM_RECORD_HEAD + bim_record_length(record); }

/* Entry i of a salvage's list, i below bim_shelf_entries. */
static inline uint32_t bim_dropped_block(const uint8_t *dropped, size_t i) { return bim_word(dropped + BIM_DROPPED * i); }
static inline uint32_t bim_dropped_reason(const uint8_t *dropped, size_t i) { return bim_word(dropped + BIM_DROPPED * i + 4); }
static inline uint32_t bim_dropped_bytes(const uint8_t *dropped, size_t i) { return bim_word(dropped + BIM_DROPPED * i + 8); }

/* Writes the file of a stream.
 *
 *     records    the stream
 *     file       written: room for BIM_SHELF_ROOM(records_bytes) bytes is just enough
 *     area       written: records, bytes of the stream, bytes of the file
 *
 * Refusals come in this order: 24; 33 for the first record whose length is over 8,192, at the block of the length's second byte, or else for a
 * stream that ends inside a record, at its last block; 21. */
uint32_t bim_shelf_write(const uint8_t *records, size_t records_bytes,
                         uint8_t *file, size_t file_bytes,
                         uint8_t *area, size_t area_bytes);

/* Reads the stream of a file: every file that is accepted is the one that bim_shelf_write makes of its stream. No bytes are no records.
 *
 *     file       any bytes
 *     records    written: file_bytes are always room enough
 *     area       written: records, bytes of the stream, bytes of the file
 *
 * Refusals come in this order: 24; block by block 31, 32, 33; 21. A part of a block at the end is 33. */
uint32_t bim_shelf_read(const uint8_t *file, size_t file_bytes,
                        uint8_t *records, size_t records_bytes,
                        uint8_t *area, size_t area_bytes);

/* Makes a new file of the records that a damaged one still holds whole, and tells of every block what was dropped.
 *
 *     file       any bytes. A block is bad by its sum (31), by a number that does not follow that of a good block right before it (32), or by its
 *                layout (33); nothing of a bad block is used, and nothing is joined over one. Reading takes up where a good block
 *                says that a record begins
 *     fresh      written: the file of the records kept, in order; file_bytes are always room enough
 *     dropped    written: in the file's order an entry for every bad block, and for every good one with used bytes in no kept record: the
 *                block's index, the reason (31, 32, 33, or 0 for a good block), and how many these bytes are (0 for a bad block). 12 bytes for
 *                every begun block are always room enough
 *     area       written: records kept, their bytes, bytes of the new file, entries, and the sum of the bytes that they tell
 *
 * Refused are 24, and 21 for want of room for fresh or dropped. Print BIM_SALVAGE_HEADING over the list. */
uint32_t bim_shelf_salvage(const uint8_t *file, size_t file_bytes,
                           uint8_t *fresh, size_t fresh_bytes,
                           uint8_t *dropped, size_t dropped_bytes,
                           uint8_t *area, size_t area_bytes);

/* WHERE THE BITS GO: a report of what payloads spend their bits on, by element. It is BIM_REPORT bytes that the caller keeps from one payload to
 * the next, 4,168 numbers of 8 bytes, the most significant first. A fresh report is all zeros; there is no call to open or close one.
 *
 *     number     0                 stopped: 0, or else no later call changes the report
 *                1, 2, 3           8 times the bytes of accepted payloads; the bits of their mode bytes; of their padding
 *                4 + k             payloads answered k, k from 0 to 63: 4 those accepted, the others those refused
 *                68 to 71          the line *other*, of all names that found no line: a number that is left as it is, seen, own, blanked
 *                72 + 4r .. 75 + 4r    line r, r below BIM_REPORT_LINES: name, seen, own, blanked; in order of first sight. Seen is 0: it is free
 *
 * An event's bits are own bits of the innermost element open there, which for a Start and the Cast behind it is its own element; a Blank's are
 * blanked bits of its name, and nobody's own. Seen are the Starts and Blanks of a name; the root counts under root_name, a substituted element
 * under its row's name. So own and blanked bits of all lines, mode bytes and padding are the total, exactly. */
#define BIM_REPORT 33344
#define BIM_REPORT_LINES 1024

/* Counts a payload into a report.
 *
 *     table, party, root_name, root_type, payload    as for bim_read
 *     report     changed: it is the caller's state and no answer, so that a refused payload is counted in it, too. Any bytes are a report
 *
 * The answer is BIM_AREA_SIZE where the report has not BIM_REPORT bytes: it is then 0 throughout. Else it is what bim_read answers with room
 * for BIM_MOST_EVENTS events and BIM_MOST_PAYLOAD bytes of text. Where one of the numbers would come to 2^64 or more, number 0 becomes 1 and
 * nothing else changes: the report has stopped at the payload before, and stays so. */
uint32_t bim_report_add(const uint8_t *table, size_t table_bytes,
                        uint32_t party,
                        uint32_t root_name, uint32_t root_type,
                        const uint8_t *payload, size_t payload_bytes,
                        uint8_t *report, size_t report_bytes);

/* THE REPORT, number by number; it has BIM_REPORT bytes. */
static inline uint64_t bim_report_number(const uint8_t *report, size_t i)
{
    const uint64_t high = bim_word(report + 8 * i), low = bim_word(report + 8 * i + 4);
    return high << 32 | low;
}
static inline int bim_report_stopped(const uint8_t *report) { return bim_report_number(report, 0) != 0; }
static inline uint64_t bim_report_total(const uint8_t *report) { return bim_report_number(report, 1); }
static inline uint64_t bim_report_mode(const uint8_t *report) { return bim_report_number(report, 2); }
static inline uint64_t bim_report_padding(const uint8_t *report) { return bim_report_number(report, 3); }
/* The payloads answered with a number, 0 to 63. */
static inline uint64_t bim_report_answered(const uint8_t *report, uint32_t number) { return bim_report_number(report, 4 + number); }

struct bim_report_line {
    uint64_t name, seen, own, blanked;
};
static inline struct bim_report_line bim_report_line_at(const uint8_t *report, size_t i)
{
    struct bim_report_line line;
    line.name = bim_report_number(report, i);
    line.seen = bim_report_number(report, i + 1);
    line.own = bim_report_number(report, i + 2);
    line.blanked = bim_report_number(report, i + 3);
    return line;
}
/* Line r, r below BIM_REPORT_LINES; and the line of all other names, whose own name says nothing. */
static inline struct bim_report_line bim_report_row(const uint8_t *report, size_t r) { return bim_report_line_at(report, 72 + 4 * r); }
static inline struct bim_report_line bim_report_other(const uint8_t *report) { return bim_report_line_at(report, 68); }

/* THE LENT BIT READER, for the host's own small parsers: one code of any bytes, from a place on. A place is a bit, counted from the most
 * significant bit of byte 0. What lies past the bytes' end is never read; nor is bit 2^32 - 1 or any past it, as places stop there.
 *
 * The answer is the number that is returned, and an area of exactly BIM_BITS_AREA bytes, three words:
 *
 *     bytes    0..3      value    0 on a refusal
 *              4..7      place    past the code; on a refusal the place that was given
 *              8..11     left     how many bits there are from that place on: 0 at the end, and past it
 *
 * Refused are: BIM_AREA_SIZE an area of another size, before anything else, and the area is then 0 throughout; BIM_PAST_END a code that
 * passes the end, and any code from a place past it, one of no bits too; BIM_NOT_SHORTEST and BIM_TOO_LARGE as of a value in a payload. */
#define BIM_BITS_AREA 12

/* A number of width bits, the most significant first; a width over 32 is BIM_TOO_LARGE, and one of 0 gives 0. */
uint32_t bim_bits_fixed(const uint8_t *bytes, size_t count, uint32_t place, uint32_t width,
                        uint8_t *area, size_t area_bytes);

/* A vluimsbf5: up to seven ones and a zero, then as many groups of four bits; in shortest form. An eighth one is BIM_TOO_LARGE. */
uint32_t bim_bits_vlu5(const uint8_t *bytes, size_t count, uint32_t place,
                       uint8_t *area, size_t area_bytes);

/* A vluimsbf8: seven bits in each byte, whose top bit says that another follows; in shortest form. A third byte is BIM_TOO_LARGE. */
uint32_t bim_bits_vlu8(const uint8_t *bytes, size_t count, uint32_t place,
                       uint8_t *area, size_t area_bytes);

/* How many bits there are from a place on: 0 at the end, and past it. */
uint32_t bim_bits_left(const uint8_t *bytes, size_t count, uint32_t place);

/* A reader that keeps its place: bytes, how many, and the place of the next bit. A take gives back the number; on acceptance it moves the
 * place past the code, on a refusal the place stays and the value is 0. */
typedef struct bim_bits {
    const uint8_t *bytes;
    size_t count;
    uint32_t place;
} bim_bits;

static inline uint32_t bim_bits_taken(bim_bits *reader, uint32_t number, const uint8_t *area, uint32_t *value)
{
    *value = bim_word(area);
    reader->place = bim_word(area + 4);
    return number;
}

static inline uint32_t bim_bits_take_fixed(bim_bits *reader, uint32_t width, uint32_t *value)
{
    uint8_t area[BIM_BITS_AREA];
    const uint32_t number = bim_bits_fixed(reader->bytes, reader->count, reader->place, width, area, sizeof area);
    return bim_bits_taken(reader, number, area, value);
}

static inline uint32_t bim_bits_take_vlu5(bim_bits *reader, uint32_t *value)
{
    uint8_t area[BIM_BITS_AREA];
    const uint32_t number = bim_bits_vlu5(reader->bytes, reader->count, reader->place, area, sizeof area);
    return bim_bits_taken(reader, number, area, value);
}

static inline uint32_t bim_bits_take_vlu8(bim_bits *reader, uint32_t *value)
{
    uint8_t area[BIM_BITS_AREA];
    const uint32_t number = bim_bits_vlu8(reader->bytes, reader->count, reader->place, area, sizeof area);
    return bim_bits_taken(reader, number, area, value);
}

#ifdef __cplusplus
}
#endif

#endif
