/* chuntarek.h: the functions of libchuntarek.a, a proved reader of CIF files (x86-64).
 *
 * Who owns what: every buffer is the caller's. The library keeps no pointer, allocates nothing, holds no state between calls, opens no
 * file and writes no byte outside the buffers that it is lent for writing; any number of threads may call it at once.
 *
 * What the caller owes: pointers are never null, also where the length is 0; each pointer has as many bytes behind it as its length
 * says; a buffer that is written overlaps no other buffer of the same call; and 64 KiB of stack. Nothing else: any bytes and any lengths
 * get an answer. The name check takes nearly all of that stack, for a table of 48 KiB, and a comparison checks names too; the other functions
 * take little.
 *
 * A text is the bytes of one CIF file. Its store holds one record for each thing in it, its area holds the contents: names and texts
 * without their marks (kind 21 keeps its opening one). Both are plain bytes without pointers in them, so they may be copied, kept in a
 * file and lent again later, always together, with exactly the lengths that chuntarek_read gave, and with the same reading.
 *
 * The reading: every function takes first whose rules it goes by, a number of chuntarek_reading. Any other number is answered by 24 before
 * anything else is looked at: all else is 0, and nothing is written.
 *
 * Asking for room: lend empty buffers, take the lengths from the answer (number 10 or 11), allocate, call again with the same text.
 */
#ifndef CHUNTAREK_H
#define CHUNTAREK_H

#include <stddef.h>
#include <stdint.h>

#ifdef __cplusplus
extern "C" {
#endif

/* The most bytes of a text that is read, and of a text that is rendered. */
#define CHUNTAREK_TEXT_LIMIT 16777216

/* The readings. */
enum chuntarek_reading {
    CHUNTAREK_FIRST = 1, /* one block, as pdbtbx reads it: a quote ends at the next mark of its kind, ; opens a text field anywhere on a line,
                          * tokens need no space between them, and an item that fails inside a frame is dropped */
    CHUNTAREK_STRICT = 2 /* CIF 1.1 itself: one block or more; a quote ends only before space, tab, a line end or the
                          * text's end; a text field opens only at the start of a line; names are not empty, and loops
                          * not without values; lines and names have a longest length; no control bytes */
};

/* The numbers of answers: done, or why it is refused, and what the three place numbers then are. 15 to 18 are the strict reading's alone. */
enum chuntarek_number {
    CHUNTAREK_DONE = 0,        /* 0, 0, 0 */
    CHUNTAREK_TOO_LONG = 1,    /* the text, or the rendering, is over the limit; 0, 0, 0 */
    CHUNTAREK_NOT_ASCII = 2,   /* a byte is 128 or more; the first such byte */
    CHUNTAREK_NO_DATA = 3,     /* no data_ after leading space and comments; there */
    CHUNTAREK_OPEN_FRAME = 4,  /* a frame isn't closed; its opening save_ */
    CHUNTAREK_RAGGED = 5,      /* a loop's values don't fill whole rows, detail is how many are left over; its loop_ */
    CHUNTAREK_NO_VALUE = 6,    /* a tag has no valid value, detail is the reason; its _ */
    CHUNTAREK_NO_ITEM = 7,     /* an item is expected and none starts, detail is the reason or 0; there */
    CHUNTAREK_NO_NAMES = 8,    /* a loop has no names; its loop_ */
    CHUNTAREK_OVER_LIMIT = 9,  /* a number has too many digits; its first byte */
    CHUNTAREK_STORE_FULL = 10, /* the store, or the list of a comparison, lacks room, the lengths are those needed; 0, 0, 0 */
    CHUNTAREK_AREA_FULL = 11,  /* the area, or the rendered text, lacks room, the lengths are those needed; 0, 0, 0 */
    CHUNTAREK_UNSOUND = 12,    /* store and area are not what this reading could have written, or, to be compared, hold several blocks; 0, 0, 0 */
    CHUNTAREK_NAME_TWICE = 13, /* a name stands twice in one scope, in any letter case; the numbers of its first and its second record, then 0 */
    CHUNTAREK_NO_CONTENT = 14, /* no such record, or it has no content; 0, 0, 0 */
    CHUNTAREK_NO_SPACE = 15,   /* no space between two tokens, the first being a text field; the second */
    CHUNTAREK_LONG_LINE = 16,  /* a line has over 2,048 bytes before its end; its byte 2,049 */
    CHUNTAREK_NAME_LENGTH = 17, /* a name is empty or too long: a tag has at most 75 bytes with its _, a block's or frame's name 75; its token */
    CHUNTAREK_CONTROL_BYTE = 18, /* a byte below 32, or 127, other than tab, LF and CR; there */
    CHUNTAREK_NO_READING = 24  /* the call's number names no reading; 0, 0, 0 */
};

/* Why no value stands where one is looked for, behind space and comments: the detail of every 6, of what stands behind the tag (in the strict
 * reading also behind the last tag of a loop that has no values); and of a 7
 * directly behind a loop of the block itself, of what ended the loop's values, which is where the 7 is. Any other 7 has detail 0. */
enum chuntarek_reason {
    CHUNTAREK_TEXT_ENDS = 1,       /* nothing, the text ends; never with 7 */
    CHUNTAREK_RESERVED_WORD = 2,   /* a word that begins with data_, global_, loop_, save_ or stop_, in any letter case; in the strict reading
                                    * global_, loop_ and stop_ only as whole words */
    CHUNTAREK_STARTS_NO_VALUE = 3, /* a byte that starts no value: _ $ [ ] or a control byte, form feed too */
    CHUNTAREK_OPEN_QUOTE = 4,      /* ' or ", and the same mark does not follow on its line; in the strict reading, not before space */
    CHUNTAREK_OPEN_FIELD = 5       /* ; that opens a text field, and no ; follows at the start of a line */
};

/* The kinds of records. 8 to 15 and 21 are values. */
enum chuntarek_kind {
    CHUNTAREK_BLOCK = 1,       /* data_ and the block's name; content: the name */
    CHUNTAREK_FRAME_OPEN = 2,  /* save_ and the frame's name; content: the name */
    CHUNTAREK_FRAME_CLOSE = 3, /* save_ */
    CHUNTAREK_TAG = 4,         /* a tag, its value is the next record; content: the name without the _ */
    CHUNTAREK_LOOP = 5,        /* loop_; its tags, its values row by row and its end follow */
    CHUNTAREK_LOOP_TAG = 6,    /* a tag of a loop; content: the name without the _ */
    CHUNTAREK_LOOP_END = 7,    /* where the loop's values end: no token, so no place */
    CHUNTAREK_INAPPLICABLE = 8, /* . */
    CHUNTAREK_UNKNOWN = 9,     /* ? */
    CHUNTAREK_BARE = 10,       /* a text without marks; content: the text */
    CHUNTAREK_SINGLE_QUOTED = 11, /* first reading; content: what stands between the marks */
    CHUNTAREK_DOUBLE_QUOTED = 12, /* first reading; content: what stands between the marks */
    CHUNTAREK_MULTILINE = 13,  /* content: what stands between the two ; with the last line end */
    CHUNTAREK_NUMBER = 14,     /* decimal parts */
    CHUNTAREK_UNCERTAIN = 15,  /* decimal parts and the uncertainty in brackets */
    CHUNTAREK_QUOTED = 21      /* strict reading, a text in ' or "; content: the opening mark, then what stands between the marks */
};

/* What the values of an entry of chuntarek_compare are to each other. */
enum chuntarek_case {
    CHUNTAREK_ONLY_OLD = 1,    /* only the old store has such a value */
    CHUNTAREK_ONLY_NEW = 2,    /* only the new store has such a value */
    CHUNTAREK_DIFFERENT = 3,   /* they differ, and are not both numbers */
    CHUNTAREK_OLD_LARGER = 4,  /* two numbers, the old one larger */
    CHUNTAREK_NEW_LARGER = 5,  /* two numbers, the new one larger */
    CHUNTAREK_UNCERTAINTY = 6, /* two equal numbers whose uncertainties differ in size */
    CHUNTAREK_REWRITTEN = 7    /* two numbers, equal with their uncertainties, in another kind or other decimal parts */
};

/* The bytes of an entry: the case, then the number of the old store's record and that of the new one's, counted from 0, as 8 bytes each,
 * the lowest first. A side that has no such value has 0. */
#define CHUNTAREK_ENTRY 17

/* One answer: the number, three place numbers (offset counts from 0, line and column from 1), the detail (0 but for 5, 6 and 7), and the
 * lengths of what was written, or of what is needed where the number is 10 or 11: first the store's (read, outline), the rendered
 * text's (render) or the list's (compare), second the area's (read). What a function does not say is 0. */
typedef struct {
    uint64_t number, offset, line, column, detail, first_length, second_length;
} chuntarek_answer;

/* A part of an area: where it starts, and how many bytes it has. */
typedef struct {
    uint64_t start, length;
} chuntarek_part;

/* One record. offset, length, line, column: its whole token, marks included. start, content: the part of the area that holds its
 * content. tags: how many a loop has. sign (1 is minus), integer, fraction, digits (of the fraction), exponent_sign (1 is minus),
 * exponent, uncertainty: a number's exact decimal. next: the offset in the store of the next record. What a kind lacks is 0. */
typedef struct {
    uint64_t number, kind, offset, length, line, column, start, content, tags, sign, integer, fraction, digits, exponent_sign, exponent,
        uncertainty, next;
} chuntarek_record;

/* Reads a text: records to the store, contents to the area. Answers 0 with both lengths, 24, or 1 to 11 and 15 to 18; refusals in the order
 * 24, 1, 2, the earlier of 16 and 18 (16 at one byte), the first of 3 to 9, 15 and 17 in reading order, 10, 11. A refusal writes nothing,
 * success only the bytes counted; exactly enough room is room. */
chuntarek_answer chuntarek_read(uint64_t reading, const uint8_t *text, size_t text_len, uint8_t *store, size_t store_len, uint8_t *area,
    size_t area_len);

/* Reads a text: kinds and places alone. The store gets 17 bytes for each record of chuntarek_read, in the same order: the kind, then
 * offset, length, line and column as 4 bytes each, the lowest first; for the end of a loop the kind alone. Refuses as chuntarek_read
 * does, but never by 11. A refusal writes nothing, success only the bytes counted. */
chuntarek_answer chuntarek_outline(uint64_t reading, const uint8_t *text, size_t text_len, uint8_t *store, size_t store_len);

/* Writes a text that reads as the same records in the same reading: each token on lines of its own, numbers from their decimal parts; in the
 * strict reading a space stands before a bare word that begins with a semicolon. Answers 0 with the length written, or 24, 12, 1, 11, in this
 * order. A refusal writes nothing, success only the bytes counted. */
chuntarek_answer chuntarek_render(uint64_t reading, const uint8_t *store, size_t store_len, const uint8_t *area, size_t area_len, uint8_t *out,
    size_t out_len);

/* Whether names stand once: no two tags of a block's own, and no two of one frame, are the same. Letter case makes no difference: A to Z
 * are taken as a to z, and every other byte as it is. Answers 0; 24; 12; or 13 with two record numbers in the place of offset and line: the
 * first record of that name, and the earliest record that repeats a name. Their contents have each spelling as it stands in the text. */
chuntarek_answer chuntarek_names(uint64_t reading, const uint8_t *store, size_t store_len, const uint8_t *area, size_t area_len);

/* What changed from an old store to a new one, each with its area and one block. Values match where scope (the block, or a frame by its name),
 * name and row do, in any letter case; a single value has row 0, and blocks may have any names. The list gets an entry for each value that only
 * one store has, or whose match differs: those with an old record in the old store's order, then those of the new store alone in its own. Texts
 * are compared without their marks, numbers as exact decimals, an uncertainty as its digits times the unit of the last one, none as 0.
 * Answers 0 with the list's length; 24; 12, for the old store before the new; 13 in the same order, with two record numbers as chuntarek_names
 * has them, of a tag or of a frame's name that stands twice; or 10 with the length needed. 12 and 13 don't tell which store is meant: compare
 * a store with itself to learn it. Old and new may be the same buffers. A refusal writes nothing, success only the bytes counted. */
chuntarek_answer chuntarek_compare(uint64_t reading, const uint8_t *old_store, size_t old_store_len, const uint8_t *old_area,
    size_t old_area_len, const uint8_t *new_store, size_t new_store_len, const uint8_t *new_area, size_t new_area_len, uint8_t *list,
    size_t list_len);

/* Whether the record of this number, counted from 0, has content: 0; 24; 12; or 14, where there is no such record or its kind has none.
 * An empty name or text is content. A store is sound (not 12) in the reading that wrote it; in the other one a quoted value, a second block or
 * a name that is too long is none that could have been read. */
chuntarek_answer chuntarek_content(uint64_t reading, const uint8_t *store, size_t store_len, const uint8_t *area, size_t area_len, uint64_t record);

/* The part of the area that holds that content, always within the area; 0, 0 where chuntarek_content refuses. */
chuntarek_part chuntarek_content_part(uint64_t reading, const uint8_t *store, size_t store_len, const uint8_t *area, size_t area_len,
    uint64_t record);

/* The record at this byte offset of a store of chuntarek_read, for a walk from 0 along next that takes time linear in the store: number
 * 0, or 14 and all else 0 where no whole record starts there, as at the store's end. It looks at that record alone: whether the store
 * is sound is for chuntarek_content or chuntarek_names to say, and need not be asked of what chuntarek_read has just written. The kinds
 * of all readings are records to it, so any reading will do; number is 24, and all else 0, where none is named. */
chuntarek_record chuntarek_record_at(uint64_t reading, const uint8_t *store, size_t store_len, const uint8_t *area, size_t area_len,
    uint64_t at);

#ifdef __cplusplus
}
#endif

#endif
