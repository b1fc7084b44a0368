//! Every number that has a name. The first part has the names of include/bim.h and include/bim_table.h, without their BIM_
//! (tests/header.rs holds it against them); the second names the limits of document 01 that the headers have in words alone.

// The numbers given back.

/// Not a refusal.
pub const ACCEPTED: u32 = 0;
/// The table is malformed.
pub const TABLE: u32 = 1;
/// The root type is not below T, or the root name is over 65,535.
pub const ROOT: u32 = 2;
/// The payload is empty or over 8,192 bytes.
pub const PAYLOAD_SIZE: u32 = 3;
/// The mode byte is none of the three, and none of the three with casting where the table has derivations.
pub const MODE_BYTE: u32 = 4;
/// An item passes the innermost declared end, or the payload's.
pub const PAST_END: u32 = 5;
/// More than 64 elements and particle rows are open.
pub const DEPTH: u32 = 6;
/// There is no room for the event.
pub const EVENT_ROOM: u32 = 7;
/// There is no room for the text.
pub const TEXT_ROOM: u32 = 8;
/// The type is not held, and no length lets the reader step over it.
pub const NOT_HELD: u32 = 9;
/// TheLength passes the enclosing end.
pub const LENGTH: u32 = 10;
/// The content ends before its declared end.
pub const CONTENT_SHORT: u32 = 11;
/// A number is not in shortest form; never a TheLength.
pub const NOT_SHORTEST: u32 = 12;
/// A number is too large.
pub const TOO_LARGE: u32 = 13;
/// A code names nothing.
pub const NO_SUCH_CODE: u32 = 14;
/// Minus zero.
pub const MINUS_ZERO: u32 = 15;
/// A text is not UTF-8.
pub const NOT_UTF8: u32 = 16;
/// 8 or more bits are left, or a 1 among them.
pub const LEFT_OVER: u32 = 17;
/// The list is no reading of the content model.
pub const NO_READING: u32 = 18;
/// A Blank stands in a list to be written.
pub const BLANK: u32 = 19;
/// A value, branch or count is outside its row.
pub const OUTSIDE_ROW: u32 = 20;
/// The payload is over 8,192 bytes or the lent room.
pub const PAYLOAD_ROOM: u32 = 21;
/// The write mode is none of 0, 1, 2, and none of 4, 5, 6 where the table has derivations.
pub const WRITE_MODE: u32 = 22;
/// Text bytes are short, or left over.
pub const TEXT_BYTES: u32 = 23;
/// The area has not its bytes.
pub const AREA_SIZE: u32 = 24;
/// A text has a control character: a byte below 32 other than 9, 10, 13.
pub const CONTROL: u32 = 25;
/// The party is over 7.
pub const PARTY: u32 = 26;
/// Reserved bits of a start-up message are not ones.
pub const RESERVED_BITS: u32 = 28;
/// A start-up message has no schemas.
pub const NO_SCHEMAS: u32 = 29;
/// A start-up message has over four schemas.
pub const MANY_SCHEMAS: u32 = 30;
/// The check of a block of a shelf is wrong.
pub const BLOCK_CHECK: u32 = 31;
/// A block's number is out of turn.
pub const BLOCK_TURN: u32 = 32;
/// The layout of a shelf is wrong.
pub const BLOCK_LAYOUT: u32 = 33;
/// A start-up message has a flag for advanced decoders or additional schemas set.
pub const ADVANCED_FLAG: u32 = 34;

// The flags of a start-up message, as the number of seven bits that they are.

/// InsertFlag.
pub const INSERT_FLAG: u32 = 64;
/// AdvancedOptimisedDecodersFlag: 34.
pub const ADVANCED_DECODERS_FLAG: u32 = 32;
/// AdditionalSchemaFlag: 34.
pub const ADDITIONAL_SCHEMA_FLAG: u32 = 16;
/// AdditionalSchemaUpdatesOnlyFlag: 34.
pub const SCHEMA_UPDATES_FLAG: u32 = 8;
/// FragmentReferenceFlag: formats stand before the description.
pub const FRAGMENT_REFERENCE_FLAG: u32 = 4;
/// MPCOnlyFlag.
pub const MPC_ONLY_FLAG: u32 = 2;
/// HierarchyBasedSubstitutionCodingFlag.
pub const HIERARCHY_FLAG: u32 = 1;

// The kinds of an event, its first word.

/// Name, 1 if a length is coded.
pub const KIND_START: u32 = 1;
/// Name, 1 present or 0 absent.
pub const KIND_ATTRIBUTE: u32 = 2;
/// Value word, 0; of a date its year and month, its day and milliseconds.
pub const KIND_VALUE: u32 = 3;
/// Branch from 0, 0.
pub const KIND_PICK: u32 = 4;
/// Count, 0.
pub const KIND_TIMES: u32 = 5;
/// 0, 0, taking no bits.
pub const KIND_END: u32 = 6;
/// Name, effective type; all bits of the element.
pub const KIND_BLANK: u32 = 7;
/// Effective type, substitute from 1 or 0; bits of both codes.
pub const KIND_CAST: u32 = 8;

// A type's content.

/// Nothing.
pub const EMPTY: u32 = 0;
/// One simple value.
pub const SIMPLE: u32 = 1;
/// A particle row.
pub const PARTICLES: u32 = 2;

// The simple kinds.

/// 1 bit.
pub const BOOLEAN: u32 = 0;
/// From b to c.
pub const RANGED: u32 = 1;
/// vluimsbf5.
pub const UNSIGNED: u32 = 2;
/// A sign bit, then vluimsbf5 of the magnitude.
pub const SIGNED: u32 = 3;
/// An index below b.
pub const ENUMERATION: u32 = 4;
/// vluimsbf5 of the byte count (001, 8.5.4.1), then UTF-8.
pub const TEXT: u32 = 5;
/// 32 bits, kept as they are.
pub const FLOAT: u32 = 6;
/// 32 bits of days since 1858-11-17, then 32 of milliseconds since midnight (001, 10.7.5.5).
pub const DATE_TIME: u32 = 7;
/// 32 bits of days (001, 10.7.5.6).
pub const DATE: u32 = 8;

// The particle rows.

/// Name, type.
pub const ELEMENT: u32 = 0;
/// First child row, number of child rows.
pub const SEQUENCE: u32 = 1;
/// First child row, number of child rows.
pub const CHOICE: u32 = 2;
/// Child row, least, most.
pub const OCCURS: u32 = 3;
/// `most` of an occurs row without a bound.
pub const UNBOUNDED: u32 = 65_536;

// Sizes.

/// The bytes of an answer area.
pub const AREA: usize = 152;
/// The bytes of the bit reader's area.
pub const BITS_AREA: usize = 12;
/// The bytes of a report.
pub const REPORT: usize = 33_344;
/// The lines of a report, besides *other*.
pub const REPORT_LINES: usize = 1024;
/// The bytes of an event.
pub const EVENT: usize = 16;
/// The most events of a list, and so the most that any lent room counts for.
pub const MOST_EVENTS: usize = 2048;
/// The most bytes of a payload.
pub const MOST_PAYLOAD: usize = 8192;
/// The most bytes of a table.
pub const MOST_TABLE: usize = 58_392;
/// The most names of a path.
pub const MOST_NAMES: usize = 64;
/// The greatest word: places stop there.
pub const MOST_WORD: u32 = 4_294_967_295;
/// How many parties have marks in a table, counted from 0.
pub const PARTIES: u32 = 8;
/// The bytes of what a start-up message says.
pub const INIT: usize = 128;
/// The bytes of its writer's area.
pub const INIT_AREA: usize = 8;
/// The bytes of a start-up message that are read: the places of all their bits are below 2^32 - 1.
pub const MOST_MESSAGE: usize = 536_870_911;
/// The most schemas of a start-up message.
pub const MOST_SCHEMAS: u32 = 4;
/// The greatest unit size code; 7 is reserved.
pub const MOST_UNIT: u32 = 6;
/// The greatest number of two bytes of vluimsbf8.
pub const MOST_VLU8: u32 = 16_383;
/// The most reference formats: their count has 8 plain bits.
pub const MOST_FORMATS: u32 = 255;
/// The bytes of the area of the calls for shelves.
pub const SHELF_AREA: usize = 44;
/// The bytes of an entry in the list of what a salvage dropped.
pub const DROPPED: usize = 12;
/// The bytes of a block of a shelf.
pub const BLOCK_BYTES: usize = 512;
/// The bytes of a block before its data.
pub const BLOCK_HEAD: usize = 8;
/// The bytes of a block that are there for records.
pub const BLOCK_DATA: usize = 498;
/// The bytes of a block before its sum.
pub const BLOCK_BODY: usize = 508;
/// The words that a sum adds up.
pub const BLOCK_WORDS: usize = 127;
/// The most blocks of a shelf: numbers are words.
pub const MOST_BLOCKS: u64 = 4_294_967_296;
/// The bytes of a record before its payload.
pub const RECORD_HEAD: usize = 6;
/// `first` of a block in which no record begins.
pub const NO_START: u16 = 65_535;

// What the headers have no name for.

/// Added to a mode of length coding: types may be cast.
pub const CASTING: u32 = 4;
/// The modes of length coding: none.
pub const MODE_NEVER: u32 = 0;
/// Where an element's flag says so.
pub const MODE_OPTIONAL: u32 = 1;
/// Every element has one.
pub const MODE_ALWAYS: u32 = 2;
/// The first byte of a payload of mode 0.
pub const MODE_NEVER_BYTE: u8 = 0x0f;
/// Of mode 1.
pub const MODE_OPTIONAL_BYTE: u8 = 0x4f;
/// Of mode 2.
pub const MODE_ALWAYS_BYTE: u8 = 0x8f;
/// What casting adds to the first byte.
pub const CASTING_BYTE: u8 = 0x10;
/// Every mode with its byte, those without casting first.
pub const MODES: [(u32, u8); 6] = [
    (MODE_NEVER, MODE_NEVER_BYTE),
    (MODE_OPTIONAL, MODE_OPTIONAL_BYTE),
    (MODE_ALWAYS, MODE_ALWAYS_BYTE),
    (CASTING + MODE_NEVER, CASTING_BYTE | MODE_NEVER_BYTE),
    (CASTING + MODE_OPTIONAL, CASTING_BYTE | MODE_OPTIONAL_BYTE),
    (CASTING + MODE_ALWAYS, CASTING_BYTE | MODE_ALWAYS_BYTE),
];
/// The numbers of a report, of 8 bytes each.
pub const REPORT_NUMBERS: usize = REPORT / 8;
/// The words of an event.
pub const EVENT_WORDS: usize = EVENT / 4;
/// The first word of a table without derived types and substitutes.
pub const FORM_PLAIN: u32 = 1;
/// The first word of a table with them.
pub const FORM_CASTS: u32 = 2;
/// The words of a table before its first row.
pub const HEADER: usize = 4;
/// The words of a type row.
pub const TYPE_ROW: usize = 7;
/// The words of an attribute row.
pub const ATTRIBUTE_ROW: usize = 3;
/// The words of a particle row.
pub const PARTICLE_ROW: usize = 4;
/// The greatest held word: every party's bit is set.
pub const MOST_HELD: u32 = (1 << PARTIES) - 1;
/// The most type rows.
pub const MOST_TYPES: usize = 256;
/// The most attribute rows.
pub const MOST_ATTRIBUTES: usize = 1024;
/// The most particle rows.
pub const MOST_PARTICLES: usize = 1024;
/// The most derived entries.
pub const MOST_DERIVATIONS: usize = 1024;
/// The most substitutes.
pub const MOST_SUBSTITUTES: usize = 1024;
/// The most words of a table.
pub const MOST_TABLE_WORDS: usize = MOST_TABLE / 4;
/// The most child rows of a sequence or choice.
pub const MOST_CHILDREN: u32 = 64;
/// The largest name of an element or attribute.
pub const MOST_NAME: u32 = 65_535;
/// The largest count of an occurs row, and so its largest least.
pub const MOST_TIMES: u32 = 65_535;
/// The most values of an enumeration.
pub const MOST_VALUES: u32 = 65_536;
/// The largest difference of a range that is still coded in a fixed width (001, 8.5.4.2.1).
pub const MOST_FIXED: u32 = 65_535;
/// The most bytes of a text.
pub const MOST_TEXT: u32 = 4095;
/// The milliseconds of a day: a clock has fewer.
pub const DAY_MS: u32 = 86_400_000;
/// In the first word of a date, the bits of its month; the year stands above them.
pub const MONTH_BITS: u32 = 4;
/// In the second word of a date, the bits of its milliseconds; the day stands above them.
pub const MS_BITS: u32 = 27;
/// The most elements and particle rows open at once.
pub const MOST_OPEN: usize = 64;
