/* CESR streams, judged: the calls of the proved library (crates/exports_c), and readers of its report and words beside it (c/), which decide
 * nothing.
 *
 * Terms. T is text, in characters of URL-safe Base64; B is binary, in bytes. A unit is 4 characters in T, 3 bytes in B. Every proved call
 * returns a number: 0 for accepted, or one of the numbers below for refused. A refused call writes to no buffer, tag, info, item or
 * state: it writes only the place behind `answer`, a comparison its five zeros and cesr_passed its 0; a walk in instalments that is
 * refused on the way has taken the items before it, and the second engine's working room may hold the stream's text. An accepted call writes its answer from the buffer's start; bytes behind it stay.
 * The place is the character for 5 and 19, else the item's start; 0 for 1, 2, 3, 12, 13, 20 and for a writer's 6, 15, 16 and 18, and for
 * a writer's 5 and 19 the index among the tag characters or in the text. What a group's writer refuses in the body has its place in it,
 * counted from the body's start. Places, offsets and lengths count characters in T, bytes in B and in mixed streams.
 * Where 5 stands in the order of a call, the first character outside the alphabet gives 5 or 19.
 *
 * What the caller ensures: each length is that of the memory behind its pointer, which may be null where the length is 0 and is null
 * nowhere else; what is written (buffers, working room, tag, info, item, state, items, given, answer, passed) overlaps nothing else that the call is given. The
 * library keeps nothing between calls, allocates nothing and may be called from many threads at once. */
#ifndef CESR_H
#define CESR_H

#include <stddef.h>
#include <stdint.h>

#ifdef __cplusplus
extern "C" {
#endif

/* The version of this header. cesr_version tells that of the library that is linked: a string that stays. */
#define CESR_VERSION "0.2.0"
const char *cesr_version(void);

/* The longest streams that are read, in characters, in bytes, and in bytes of a mixed stream; what is longer is refused 1. */
#define CESR_LIMIT_TEXT 4194304
#define CESR_LIMIT_BINARY 3145728
#define CESR_LIMIT_MIXED 4194304

/* Room that is enough, in bytes: for the report of so many items, of any text of so many characters, of any binary of so many bytes; for
 * the mixed report of so many items, of any mixed stream of so many bytes; and for the conversion of a text or a binary of so many.
 * CESR_SECOND_ROOM is the second engine's working room for a binary of so many. */
#define CESR_REPORT_ROOM(items) (17 + 18 * (size_t)(items))
#define CESR_REPORT_ROOM_TEXT(length) CESR_REPORT_ROOM((length) / 4)
#define CESR_REPORT_ROOM_BINARY(length) CESR_REPORT_ROOM((length) / 3)
#define CESR_MIXED_ROOM(items) (17 + 19 * (size_t)(items))
#define CESR_REPORT_ROOM_MIXED(length) CESR_MIXED_ROOM((length) / 3)
#define CESR_SECOND_ROOM(length) ((size_t)(length) / 3 * 4)
#define CESR_TO_BINARY_ROOM(length) ((size_t)(length) / 4 * 3)
#define CESR_TO_TEXT_ROOM(length) ((size_t)(length) / 3 * 4)

enum cesr_number {
    CESR_ACCEPTED = 0,
    CESR_TOO_LONG = 1,           /* stream longer than 4,194,304 characters or 3,145,728 bytes, a mixed one than 4,194,304 bytes */
    CESR_NOT_WHOLE_UNITS = 2,    /* whole-stream conversion: not whole units */
    CESR_ROOM = 3,               /* output room too small */
    CESR_PAST_END = 4,           /* header or full size passes the end of stream or enclosing group */
    CESR_CHARACTER = 5,          /* character outside the alphabet but +, /, = (in T, or a character of a tag or text given to a writer)
                                  * */
    CESR_UNKNOWN_CODE = 6,       /* code unknown or reserved */
    CESR_GENUS_VERSION = 7,      /* genus/version required but not AAACAA */
    CESR_NOT_ZERO = 8,           /* pad bit or lead byte not zero */
    CESR_LEAD_WITHOUT_VALUE = 9, /* selector 5, 6, 8, 9 with n = 0 */
    CESR_PREPAD = 10,            /* tag prepad not _ */
    CESR_TOO_DEEP = 11,          /* group standing within 64 groups already */
    CESR_UNFIT_LENGTH = 12,      /* writer: raw length, tag length, index or ondex unfit for the code */
    CESR_UNFIT_STATE = 13,       /* walk state unfit for the stream, or state of pieces unfit or ended */
    CESR_NOT_A_PRIMITIVE = 14,   /* primitive asked for, group or genus/version found */
    CESR_ONDEX = 15,             /* ondex digits not zero in a code for the current key list only */
    CESR_TEXT_FILL = 16,         /* type A without its full fill, or text that itself starts with A */
    CESR_MIXED_START = 17,       /* mixed stream: first byte not -, F8 to FB or {, or a JSON header that is malformed or states a length
                                  * below 23 */
    CESR_NOT_SHORT = 18,         /* large variable code or large group whose size fits the small code */
    CESR_ORDINARY_BASE64 = 19,   /* +, / or = of ordinary Base64 (in T, or a character of a tag or text given to a writer) */
    CESR_MALFORMED = 20,         /* expectation file or report with a missing count, a section shorter than its count says, a remainder
                                  * count above 1, or bytes left over */
    CESR_END = 255               /* the walk alone: the end of the stream */
};

/* What a number means, in the words of the papers: a string that stays, empty for a byte that is none. */
const char *cesr_words(uint8_t number);

/* T to B: 1, 2, 5, 3. Room asked is 3 bytes a unit. *answer: the bytes written, or the place. Refused, dst stays as it was. */
uint8_t cesr_text_to_binary(const uint8_t *src, size_t src_len, uint8_t *dst, size_t dst_len, size_t *answer);

/* B to T: 1, 2, 3. Room asked is 4 characters a unit. *answer: the characters written, or 0. Refused, dst stays as it was. */
uint8_t cesr_binary_to_text(const uint8_t *src, size_t src_len, uint8_t *dst, size_t dst_len, size_t *answer);

/* The report of a text: items (offset 4 bytes, size 4, verdict 1), refusals (item's index 4, number 1, place 4), remainder (offset 4,
 * number 1), each section after its count in 4 bytes, all big-endian. Refused 1, then 3 exactly if out_len is below 17 + 18 x items.
 * *answer: the length written, or 0. Bytes of out behind the report stay; refused, all of out stays as it was. */
uint8_t cesr_report_text(const uint8_t *stream, size_t stream_len, uint8_t *out, size_t out_len, size_t *answer);

/* The same of a binary. */
uint8_t cesr_report_binary(const uint8_t *stream, size_t stream_len, uint8_t *out, size_t out_len, size_t *answer);

/* The report of a mixed stream, which changes form at top level. Each top-level item starts with '-' (a group or genus/version in T), a
 * byte F8 to FB (the same in B) or '{' (JSON); any other first byte is a remainder 17. A JSON item opens with {"v":" and the 17
 * characters of a version 1 string: four capital letters of protocol, two lowercase hexadecimal digits of version, JSON, six of total
 * length, _. With fewer than 23 bytes left the remainder is 4; with a malformed header, or a length below 23, 17; with a length past the
 * end, 4. THE BODY OF A JSON ITEM IS NOT JUDGED: its verdict is 0. Items in T and in B are framed and judged as by the calls above; all
 * offsets, sizes and places count bytes of the stream. An item's row has a tenth byte behind its verdict, its form, enum cesr_form.
 * Refused 1, then 3 exactly if out_len is below 17 + 19 x items. *answer and out as above. cesr_passed, cesr_compare and the readers of
 * rows without `mixed` in their name are not for this report. */
uint8_t cesr_report_mixed(const uint8_t *stream, size_t stream_len, uint8_t *out, size_t out_len, size_t *answer);

/* The reports of a text and a binary by the second engine, a plain one to be read by eye: for every stream its answer and its report are
 * those of cesr_report_text. */
uint8_t cesr_second_text(const uint8_t *stream, size_t stream_len, uint8_t *out, size_t out_len, size_t *answer);

/* The same of a binary, which it turns into text first, in lent working room: 4 characters for each whole triplet. 1, 3 if work_len is below
 * that, then as cesr_report_binary. After 1 or that 3 work stays as it was. Else, even if the report is then refused, it begins with the
 * text of those triplets, and what is behind it stays. */
uint8_t cesr_second_binary(const uint8_t *stream, size_t stream_len, uint8_t *work, size_t work_len, uint8_t *out, size_t out_len,
                           size_t *answer);

/* Did the stream of this report pass: has it a byte, and does every byte lie in an accepted item? *passed is 1 or 0; 20 for what is no
 * report, and then it is 0. The number 0 says that the question was answered and no more: look at *passed. An empty stream has not
 * passed. Any bytes may be asked; of those that no report call wrote the answer says that they have an item at least, every verdict 0,
 * no refusal and no remainder. */
uint8_t cesr_passed(const uint8_t *report, size_t report_len, size_t *passed);

/* A report's rows, counted from 0. The readers answer 1, or 0 where there is no such row, and then the row stays. A count is 0 where not all
 * of its rows are there. */
struct cesr_item_row {
    size_t offset, size;
    uint8_t verdict; /* CESR_ACCEPTED, or the number of its refusal */
};

struct cesr_refusal_row {
    size_t item; /* the index of the item that is refused */
    uint8_t number;
    size_t place; /* counted from the stream's start */
};

struct cesr_remainder_row {
    size_t offset; /* it runs from here to the stream's end */
    uint8_t number;
};

size_t cesr_items(const uint8_t *report, size_t report_len);
size_t cesr_refusals(const uint8_t *report, size_t report_len);
int cesr_item_row(const uint8_t *report, size_t report_len, size_t index, struct cesr_item_row *row);
int cesr_refusal_row(const uint8_t *report, size_t report_len, size_t index, struct cesr_refusal_row *row);
int cesr_remainder_row(const uint8_t *report, size_t report_len, struct cesr_remainder_row *row);

/* The same of a mixed report, whose item rows are a byte wider. */
enum cesr_form { CESR_FORM_TEXT = 0, CESR_FORM_BINARY = 1, CESR_FORM_JSON = 2 };

struct cesr_mixed_row {
    size_t offset, size;
    uint8_t verdict; /* as above; of a JSON item, whose body is not judged, CESR_ACCEPTED */
    uint8_t form;    /* enum cesr_form */
};

size_t cesr_mixed_items(const uint8_t *report, size_t report_len);
size_t cesr_mixed_refusals(const uint8_t *report, size_t report_len);
int cesr_mixed_item_row(const uint8_t *report, size_t report_len, size_t index, struct cesr_mixed_row *row);
int cesr_mixed_refusal_row(const uint8_t *report, size_t report_len, size_t index, struct cesr_refusal_row *row);
int cesr_mixed_remainder_row(const uint8_t *report, size_t report_len, struct cesr_remainder_row *row);

/* Has the stream of a mixed report a byte, and does every byte lie in an accepted item, JSON bodies unjudged? 1 or 0: by the rows, as the
 * readers above tell them; 0 for what is no whole mixed report. */
int cesr_mixed_passed(const uint8_t *report, size_t report_len);

/* A code is two numbers. chars: 1, 2 or 4 for a fixed code of so many characters, 5 for a small variable, 6 for a large one. letter:
 * the code's last character, or the variable's type. The value of type A is text: characters of the alphabet, filled up in front with A
 * to whole units, by none or one under selectors 4 and 7, by two under 5 and 8, by three under 6 and 9. It starts with another character
 * than A. Readers and writers take the fill off and put it there. */

/* Places for tag characters. */
#define CESR_TAG 11

/* What info holds after an accepted read, CESR_INFO numbers. */
enum cesr_info {
    CESR_INFO_CHARS = 0,
    CESR_INFO_LETTER = 1,
    CESR_INFO_SIZE = 2,  /* full size in units */
    CESR_INFO_START = 3, /* where the raw value starts, in bytes of the item's binary form; of a text it is empty at the item's end */
    CESR_INFO_RAW = 4,   /* raw length in bytes; 0 for a text */
    CESR_INFO_TAGS = 5,  /* number of tag characters */
    CESR_INFO_TEXT = 6,  /* number of characters of a text; 0 for any other code */
    CESR_INFO
};

/* Reads the primitive of a text at an offset: 1, 4 at or past the end, framing (never 7), 14, judging, 3. The raw value, or the
 * characters of type A, are copied to out; room asked is their number. The tag characters go to tag, unused places 0. *answer: the length
 * of what was copied, info[CESR_INFO_RAW] + info[CESR_INFO_TEXT], or the place. Refused, out, tag and info stay as they were; accepted,
 * bytes of out behind what was copied stay. */
uint8_t cesr_read_text(const uint8_t *stream, size_t stream_len, size_t at, uint8_t *out, size_t out_len, uint8_t tag[CESR_TAG],
                       size_t info[CESR_INFO], size_t *answer);

/* Reads the primitive of a binary at an offset: 1, 4 at or past the end, framing (never 7), 14, judging, 3 for type A alone. Its
 * characters are copied to out, as above. Any other value isn't copied, asks no room and leaves out as it was: it is the part of the
 * stream of info[CESR_INFO_RAW] bytes from at + info[CESR_INFO_START] on. *answer: the value's length, info[CESR_INFO_RAW] +
 * info[CESR_INFO_TEXT], or the place. Refused, out, tag and info stay as they were. */
uint8_t cesr_read_binary(const uint8_t *stream, size_t stream_len, size_t at, uint8_t *out, size_t out_len, uint8_t tag[CESR_TAG],
                         size_t info[CESR_INFO], size_t *answer);

/* Writes a primitive as text: 6 (any code that isn't a primitive's), 12, 18, 5 (tags and text), 16 (text that starts with A), 3. tags:
 * how many places of tag count; the others are ignored. raw: the raw value, or the characters of type A without their fill. A variable is
 * small up to 12,285 raw bytes, where a large one is 18, and large from 12,286 to 3,145,722, where a small one is 12; a text likewise, by
 * its characters with their fill, up to 16,380 and from 16,384 to 4,194,296. Room asked is the exact size. *answer: the characters written,
 * or the place. Refused, out stays as it was; accepted, bytes behind the item stay. A second item goes into the rest of the buffer: out +
 * *answer, out_len - *answer. */
uint8_t cesr_write_text(uint8_t chars, uint8_t letter, const uint8_t tag[CESR_TAG], size_t tags, const uint8_t *raw, size_t raw_len,
                        uint8_t *out, size_t out_len, size_t *answer);

/* The same as binary. */
uint8_t cesr_write_binary(uint8_t chars, uint8_t letter, const uint8_t tag[CESR_TAG], size_t tags, const uint8_t *raw, size_t raw_len,
                          uint8_t *out, size_t out_len, size_t *answer);

/* Indexed items stand within groups -K and -L, large too, and nowhere else; nothing else stands there. Their codes are a table of their
 * own: a letter A to D; 0 and A or B; 2 and A to D; 3 and A or B. A code is two characters, selector and letter; the selector is the
 * number 0 where the letter stands alone. Digits of the index follow it, then those of the ondex: one and none, one and one, two and two,
 * three and three. The ondex is 0 where it has no digits, and must be 0 in codes for the current key list only: B, D, 0B, 2B, 2D, 3B. */

/* The most that one has: bytes of its raw value, characters in T, bytes in B. */
#define CESR_INDEXED_MOST_RAW 114
#define CESR_INDEXED_MOST_TEXT 160
#define CESR_INDEXED_MOST_BINARY 120

/* What info holds after an accepted read of an indexed item, CESR_INDEXED numbers. */
enum cesr_indexed {
    CESR_INDEXED_SELECTOR = 0, /* a character, or 0 */
    CESR_INDEXED_LETTER = 1,
    CESR_INDEXED_SIZE = 2,  /* full size in units */
    CESR_INDEXED_START = 3, /* where the raw value starts, in bytes of the item's binary form */
    CESR_INDEXED_RAW = 4,   /* raw length in bytes */
    CESR_INDEXED_INDEX = 5,
    CESR_INDEXED_ONDEX = 6,
    CESR_INDEXED
};

/* Reads the indexed item of a text at an offset: 1, 4 at or past the end, framing by the indexed table (a group or genus/version is 6),
 * judging (5 or 19 behind the header, 8, 15), 3. The raw value is copied to out; room asked is its length. *answer: that length, or the
 * place. Refused, out and info stay as they were; accepted, bytes of out behind the raw value stay. */
uint8_t cesr_read_indexed_text(const uint8_t *stream, size_t stream_len, size_t at, uint8_t *out, size_t out_len,
                               size_t info[CESR_INDEXED], size_t *answer);

/* The same of a binary, but for 3: the raw value isn't copied. It is the part of the stream of info[CESR_INDEXED_RAW] bytes from
 * at + info[CESR_INDEXED_START] on. */
uint8_t cesr_read_indexed_binary(const uint8_t *stream, size_t stream_len, size_t at, size_t info[CESR_INDEXED], size_t *answer);

/* Writes an indexed item as text: 6 (no such code), 12 (raw length; index or ondex too large for its digits, without digits any but 0), 15
 * (an ondex other than 0 for a code that is for the current key list only), 3. Room asked is the exact size. *answer: the characters
 * written, or 0. Refused, out stays as it was; accepted, bytes behind the item stay. */
uint8_t cesr_write_indexed_text(uint8_t selector, uint8_t letter, size_t index, size_t ondex, const uint8_t *raw, size_t raw_len,
                                uint8_t *out, size_t out_len, size_t *answer);

/* The same as binary. */
uint8_t cesr_write_indexed_binary(uint8_t selector, uint8_t letter, size_t index, size_t ondex, const uint8_t *raw, size_t raw_len,
                                  uint8_t *out, size_t out_len, size_t *answer);

/* Puts a group around items, as text. The body, whole items one behind the other, lies at the buffer's start and is len long; letter is
 * the group's, 'K' for -K. The header is put in front and the body moved behind it: the small code up to 4,095 units, the large one
 * above. Refused 3 if len passes buf_len; 1 if header and body together pass the limit; 6 for a letter that is no group's; 2 for a body
 * that isn't whole units; then what a walk of the body as this group's contents gives (-K and -L hold indexed items; a genus/version
 * that comes first in -A, -B and -C must be AAACAA, else 7; 63 groups may stand one in the other, 64 are 11), its place counted from the
 * body's start; 3 if buf_len is below header and body, CESR_GROUP_ROOM_TEXT(len). *answer: the size of the group, or the place, which is
 * 0 for 1, 2, 3 and a letter's 6. An empty body is written. Refused, buf stays as it was; written, bytes behind the group stay. A group
 * around that one takes its size for len; a group beside others is written in the rest of the buffer, buf + at, buf_len - at, before one
 * goes around all. */
uint8_t cesr_group_text(uint8_t letter, size_t len, uint8_t *buf, size_t buf_len, size_t *answer);

/* The same as binary. */
uint8_t cesr_group_binary(uint8_t letter, size_t len, uint8_t *buf, size_t buf_len, size_t *answer);

/* Room that header and body of a group ask for, where the body is so long. */
#define CESR_GROUP_ROOM_TEXT(length) ((size_t)(length) + ((size_t)(length) / 4 > 4095 ? 8 : 4))
#define CESR_GROUP_ROOM_BINARY(length) ((size_t)(length) + ((size_t)(length) / 3 > 4095 ? 6 : 3))

/* At most so many groups are open. */
#define CESR_MAX_DEPTH 64

/* The walk's state, CESR_STATE numbers: the ends of the open groups, outermost first, unused slots 0; the number open; the position;
 * whether the next item is first in an overrideable group; whether the innermost open group is one that holds indexed items, -K or -L
 * (each 0 or 1; any other value is 13). Ends and position count units, in T and in B. Zeros alone are the start of every stream. */
enum cesr_state {
    CESR_STATE_ENDS = 0,
    CESR_STATE_OPEN = CESR_MAX_DEPTH,
    CESR_STATE_POSITION = CESR_MAX_DEPTH + 1,
    CESR_STATE_FIRST = CESR_MAX_DEPTH + 2,
    CESR_STATE_INDEXED = CESR_MAX_DEPTH + 3,
    CESR_STATE = CESR_MAX_DEPTH + 4
};

/* What item holds after a step that yielded one, CESR_ITEM numbers. */
enum cesr_item {
    CESR_ITEM_OFFSET = 0,
    CESR_ITEM_SIZE = 1,
    CESR_ITEM_DEPTH = 2,  /* the number of groups it stands within */
    CESR_ITEM_CHARS = 3,  /* as above, or 7 for a small group, 8 for a large one, 9 for a genus/version, 10 for an indexed item */
    CESR_ITEM_LETTER = 4, /* 0 for a genus/version */
    CESR_ITEM_LEAD = 5,   /* lead bytes of a variable, which tell its selector; an indexed item's selector as above; else 0 */
    CESR_ITEM
};

/* A step of the walk over a text: 0 with an item and the next state, 255 at the end, else the first refusal: 1, 13, then as the item is
 * framed and judged. *answer: the place of a refusal, else 0. At a refusal or the end state and item stay as they were. */
uint8_t cesr_walk_text(const uint8_t *stream, size_t stream_len, size_t state[CESR_STATE], size_t item[CESR_ITEM], size_t *answer);

/* The same over a binary. */
uint8_t cesr_walk_binary(const uint8_t *stream, size_t stream_len, size_t state[CESR_STATE], size_t item[CESR_ITEM], size_t *answer);

/* The walk over a text in instalments: on by at most budget items, which are judged and not told one by one. 0 where the budget was
 * taken whole, 255 where the end came first, else the first refusal; 1 and 13 for a budget of 0 too. *items: how many were taken, those
 * before a refusal too. *answer: the place of a refusal, else 0. The state goes on behind the items; with none, also where the call
 * itself is refused 1 or 13, it stays as it was. Two calls in turn come to where one with both budgets does. */
uint8_t cesr_walk_on_text(const uint8_t *stream, size_t stream_len, size_t state[CESR_STATE], size_t budget, size_t *items,
                          size_t *answer);

/* The same over a binary. */
uint8_t cesr_walk_on_binary(const uint8_t *stream, size_t stream_len, size_t state[CESR_STATE], size_t budget, size_t *items,
                            size_t *answer);

/* A stream that arrives in pieces. Feed the pieces in order, then say that the stream has ended: the rows that come out, joined, are those
 * of its report, wherever it was cut. An item's rows are given with the piece that its last byte comes with, the remainder's with the end.
 * Between two calls nothing is kept but the state, CESR_PIECES numbers of the caller's own, whatever an item's size is. It starts as
 * CESR_PIECES_TEXT or CESR_PIECES_BINARY says, and only these calls change it:
 *
 *     size_t state[CESR_PIECES] = CESR_PIECES_TEXT;
 *
 * 13 comes to every call after the end, to a text's state in a call on a binary and the other way round, and to a state that no call gave
 * and that fails a condition; docs/DECISIONS.md lists them. Of a state that no call gave and that meets them all no more is said than what
 * the calls may write. */
#define CESR_PIECES (CESR_MAX_DEPTH + 23)
#define CESR_PIECES_TEXT {4}
#define CESR_PIECES_BINARY {3}

/* A piece of a text: 13; 1 if the stream passes the limit with it; 3 exactly if the rows that it completes don't fit, 9 bytes an item in
 * items, 9 a refusal in refusals. given[0], given[1]: the lengths written to items and to refusals, or 0 and 0. Bytes behind the rows stay.
 * Refused, nothing is taken in, and state and buffers stay as they were: the same piece may come again, with more room. An empty piece
 * changes nothing. */
uint8_t cesr_feed_text(size_t state[CESR_PIECES], const uint8_t *piece, size_t piece_len, uint8_t *items, size_t items_len,
                       uint8_t *refusals, size_t refusals_len, size_t given[2]);

/* The same of a binary. */
uint8_t cesr_feed_binary(size_t state[CESR_PIECES], const uint8_t *piece, size_t piece_len, uint8_t *items, size_t items_len,
                         uint8_t *refusals, size_t refusals_len, size_t given[2]);

/* The end of a text: 13, 3 exactly if there is a remainder and out_len is below 5. *answer: the length of its row, 5, or 0 where there is
 * none, or 0. Refused, state and out stay as they were; else the state takes no more calls. */
uint8_t cesr_end_text(size_t state[CESR_PIECES], uint8_t *out, size_t out_len, size_t *answer);

/* The same of a binary. */
uint8_t cesr_end_binary(size_t state[CESR_PIECES], uint8_t *out, size_t out_len, size_t *answer);

/* Room that is enough, in items and in refusals each, for every piece of so many characters or bytes: each unit may end an item, and one
 * may have begun before. */
#define CESR_FEED_ROOM_TEXT(length) (9 * ((size_t)(length) / 4 + 1))
#define CESR_FEED_ROOM_BINARY(length) (9 * ((size_t)(length) / 3 + 1))
#define CESR_END_ROOM 5

/* The rows that a piece or the end gave, counted from 0, in a buffer and the length written there. 1, or 0 where there is no such row, and
 * then the row stays. */
int cesr_fed_item(const uint8_t *items, size_t given, size_t index, struct cesr_item_row *row);
int cesr_fed_refusal(const uint8_t *refusals, size_t given, size_t index, struct cesr_refusal_row *row);
int cesr_fed_remainder(const uint8_t *out, size_t given, struct cesr_remainder_row *row);

/* What answer holds after a comparison, CESR_COMPARED numbers; refused, all of it is 0. */
enum cesr_compared {
    CESR_COMPARED_PASSED = 0,      /* an item with the case's index exists and has that verdict */
    CESR_COMPARED_FAILED = 1,      /* the item exists with another */
    CESR_COMPARED_NOT_REACHED = 2, /* there is no such item; the three sum to the number expected */
    CESR_COMPARED_BEYOND = 3,      /* items beyond the number expected */
    CESR_COMPARED_AGREE = 4,       /* 1 where both remainders are absent or have the same number, else 0; never added to passed */
    CESR_COMPARED
};

/* Compares an expectation file with a report: 20. The file has two sections, each after its count in 4 bytes, big-endian: expected
 * verdicts (one byte an item), then the number of the remainder that is expected (one byte, count 0 or 1). The report is that of
 * cesr_report_text or cesr_report_binary, not of cesr_report_mixed; only its counts, its verdicts and its remainder's number are looked
 * at. Equal remainders and no count of failed, not reached or beyond say that all is as expected, unless nothing was. */
uint8_t cesr_compare(const uint8_t *expected, size_t expected_len, const uint8_t *report, size_t report_len, size_t answer[CESR_COMPARED]);

#ifdef __cplusplus
}
#endif

#endif
