/* The C interface on cases of 01's deck: answers, places, and buffers that must stay. Exits with 1 if any differs. */
#include "cesr.h"

#include <stdio.h>
#include <string.h>

enum { ROOM = 64, HELD = 0xAA };

static int failures = 0;
static int checks = 0;

static void check(int holds, const char *what, const char *of) {
    checks++;
    if (!holds) {
        failures++;
        fprintf(stderr, "%s: %s\n", of, what);
    }
}

/* All bytes from one on are as they were. */
static int held(const uint8_t *buffer, size_t from, size_t size) {
    for (size_t i = from; i < size; i++) {
        if (buffer[i] != HELD) {
            return 0;
        }
    }
    return 1;
}

static int all(const size_t *numbers, size_t size, size_t value) {
    for (size_t i = 0; i < size; i++) {
        if (numbers[i] != value) {
            return 0;
        }
    }
    return 1;
}

static const uint8_t *bytes(const char *text) {
    return (const uint8_t *)text;
}

/* ---- the report */

static const uint8_t ACCEPTED[] = {0, 0, 0, 1, 0, 0, 0, 0, 0, 0, 0, 4, 0, 0, 0, 0, 0, 0, 0, 0, 0};
static const uint8_t REFUSED_8[] = {0, 0, 0, 1, 0, 0, 0, 0, 0, 0, 0, 4, 8, 0, 0, 0, 1, 0, 0, 0, 0, 8, 0, 0, 0, 0, 0, 0, 0, 0};
static const uint8_t REST_4[] = {0, 0, 0, 0, 0, 0, 0, 0, 0, 0, 0, 1, 0, 0, 0, 0, 4};
static const uint8_t REST_6[] = {0, 0, 0, 0, 0, 0, 0, 0, 0, 0, 0, 1, 0, 0, 0, 0, 6};
static const uint8_t INNER_7[] = {0, 0, 0, 1, 0, 0, 0, 0, 0, 0, 0, 12, 7, 0, 0, 0, 1, 0, 0, 0, 0, 7, 0, 0, 0, 4, 0, 0, 0, 0};
static const uint8_t REFUSED_16[] = {0, 0, 0, 1, 0, 0, 0, 0, 0, 0, 0, 8, 16, 0, 0, 0, 1, 0, 0, 0, 0, 16, 0, 0, 0, 0, 0, 0, 0, 0};
static const uint8_t REFUSED_18[] = {0, 0, 0, 1, 0, 0, 0, 0, 0, 0, 0, 12, 18, 0, 0, 0, 1, 0, 0, 0, 0, 18, 0, 0, 0, 0, 0, 0, 0, 0};
static const uint8_t REST_19[] = {0, 0, 0, 0, 0, 0, 0, 0, 0, 0, 0, 1, 0, 0, 0, 0, 19};
static const uint8_t NOTHING[12] = {0};
/* `-AAB0AAAMAAB`: 00000002, 00000000 00000008 04, 00000008 00000004 00; 00000001, 00000000 04 00000004; 00000000. */
static const uint8_t LONG[] = {0, 0, 0, 2, 0, 0, 0, 0, 0, 0, 0, 8, 4, 0, 0, 0, 8, 0, 0, 0,
                               4, 0, 0, 0, 0, 1, 0, 0, 0, 0, 4, 0, 0, 0, 4, 0, 0, 0, 0};

typedef uint8_t reports_text(const uint8_t *, size_t, uint8_t *, size_t, size_t *);

static void report_by(reports_text *call, const char *text, size_t items, const uint8_t *told, size_t length) {
    uint8_t out[ROOM];
    size_t answer = 99;
    size_t room = 17 + 18 * items;
    memset(out, HELD, ROOM);
    check(call(bytes(text), strlen(text), out, room, &answer) == 0, "report accepted", text);
    check(answer == length && memcmp(out, told, length) == 0, "report as told", text);
    check(held(out, length, ROOM), "bytes behind the report stay", text);
    memset(out, HELD, ROOM);
    check(call(bytes(text), strlen(text), out, room - 1, &answer) == CESR_ROOM, "one short is 3", text);
    check(answer == 0 && held(out, 0, ROOM), "3 leaves the buffer", text);
}

/* By both engines. */
static void report(const char *text, size_t items, const uint8_t *told, size_t length) {
    report_by(cesr_report_text, text, items, told, length);
    report_by(cesr_second_text, text, items, told, length);
}

static void reports(void) {
    report("", 0, NOTHING, sizeof NOTHING);
    report("MAAB", 1, ACCEPTED, sizeof ACCEPTED);
    report("MP__", 1, ACCEPTED, sizeof ACCEPTED);
    report("MQAA", 1, REFUSED_8, sizeof REFUSED_8);
    report("-AACMAAB", 0, REST_4, sizeof REST_4);
    report("-0AA", 0, REST_6, sizeof REST_6);
    report("-AAC-_AAABAA", 1, INNER_7, sizeof INNER_7);
    report("-AAB0AAAMAAB", 2, LONG, sizeof LONG);
    report("4AABAAAA", 1, REFUSED_16, sizeof REFUSED_16);
    report("--JAAAABMAAB", 1, REFUSED_18, sizeof REFUSED_18);
    report("MA+!", 0, REST_19, sizeof REST_19);
}

static void binary_report(void) {
    static const uint8_t stream[] = {0xD4, 0x00, 0x0C}; /* `1AAM` in B */
    static const uint8_t told[] = {0, 0, 0, 1, 0, 0, 0, 0, 0, 0, 0, 3, 0, 0, 0, 0, 0, 0, 0, 0, 0};
    uint8_t out[ROOM];
    size_t answer = 99;
    memset(out, HELD, ROOM);
    check(cesr_report_binary(stream, 3, out, 35, &answer) == 0, "report accepted", "D4000C");
    check(answer == sizeof told && memcmp(out, told, sizeof told) == 0, "report as told", "D4000C");
    check(held(out, sizeof told, ROOM), "bytes behind the report stay", "D4000C");
}

/* The second engine on `1AAM` in B and a byte more, with the working room that one triplet asks for. */
static void second_binary(void) {
    static const uint8_t stream[] = {0xD4, 0x00, 0x0C, 0xD4};
    static const uint8_t told[] = {0, 0, 0, 1, 0, 0, 0, 0, 0, 0, 0, 3, 0, 0, 0, 0, 0, 0, 0, 0, 1, 0, 0, 0, 3, 4};
    uint8_t out[ROOM], work[ROOM];
    size_t answer = 99;
    memset(out, HELD, ROOM);
    memset(work, HELD, ROOM);
    check(CESR_SECOND_ROOM(sizeof stream) == 4, "working room", "second");
    check(cesr_second_binary(stream, sizeof stream, work, 3, out, ROOM, &answer) == CESR_ROOM, "one short is 3", "working room");
    check(answer == 0 && held(work, 0, ROOM) && held(out, 0, ROOM), "3 leaves both", "working room");
    check(cesr_second_binary(stream, sizeof stream, work, 3, out, 34, &answer) == CESR_ROOM, "both short are 3", "second");
    check(answer == 0 && held(work, 0, ROOM) && held(out, 0, ROOM), "3 leaves both", "second");
    check(cesr_second_binary(stream, sizeof stream, work, 4, out, 34, &answer) == CESR_ROOM, "one short is 3", "second");
    check(answer == 0 && held(out, 0, ROOM), "3 leaves the buffer", "second");
    check(memcmp(work, "1AAM", 4) == 0 && held(work, 4, ROOM), "the working room has the text", "second");
    memset(work, HELD, ROOM);
    check(cesr_second_binary(stream, sizeof stream, work, ROOM, out, 35, &answer) == 0, "report accepted", "second");
    check(answer == sizeof told && memcmp(out, told, sizeof told) == 0, "report as told", "second");
    check(held(out, sizeof told, ROOM), "bytes behind the report stay", "second");
    check(memcmp(work, "1AAM", 4) == 0 && held(work, 4, ROOM), "bytes behind the text stay", "second");
}

/* ---- mixed streams */

/* A JSON item of 24 bytes, a text group refused 8, an empty binary group, and a primitive, which starts no item. */
static const uint8_t MIXED[] = "{\"v\":\"KERI10JSON000018_\"-AABMQAA\xF8\x00\x00MAAB";

static void mixed_report(void) {
    static const uint8_t told[] = {0, 0, 0, 3, 0, 0, 0, 0,  0, 0, 0, 24, 0, 2, 0, 0, 0, 24, 0, 0, 0, 8, 8,  0, 0, 0, 0, 32, 0, 0,
                                   0, 3, 0, 1, 0, 0, 0, 1, 0, 0, 0, 1,  8, 0, 0, 0, 28, 0, 0, 0, 1, 0, 0, 0, 35, 17};
    uint8_t out[ROOM];
    size_t answer = 99, room = CESR_MIXED_ROOM(3);
    memset(out, HELD, ROOM);
    check(cesr_report_mixed(MIXED, sizeof MIXED - 1, out, room - 1, &answer) == CESR_ROOM, "one short is 3", "mixed");
    check(answer == 0 && held(out, 0, ROOM), "3 leaves the buffer", "mixed");
    check(cesr_report_mixed(MIXED, sizeof MIXED - 1, out, room, &answer) == 0, "report accepted", "mixed");
    check(answer == sizeof told && memcmp(out, told, sizeof told) == 0, "report as told", "mixed");
    check(held(out, sizeof told, ROOM), "bytes behind the report stay", "mixed");
}

/* The remainder of a stream that begins with one: its number, or 0 for none. */
static uint8_t mixed_remainder(const char *stream, size_t length) {
    uint8_t out[ROOM];
    size_t answer = 99;
    struct cesr_remainder_row rest = {99, 0};
    check(cesr_report_mixed(bytes(stream), length, out, ROOM, &answer) == 0, "report accepted", stream);
    return cesr_mixed_remainder_row(out, answer, &rest) && rest.offset == 0 ? rest.number : 0;
}

/* 02's order, by its own examples. */
static void mixed_order(void) {
    static const struct {
        const char *stream;
        uint8_t number;
    } rows[] = {
        {"{!!!!!!!!!!!!!!!!!!!!!", CESR_PAST_END},      {"{!!!!!!!!!!!!!!!!!!!!!!", CESR_MIXED_START},
        {"{\"v\":\"KERI10JSON00001A_", CESR_MIXED_START}, {"{\"v\":\"KERI10MGPK000017_", CESR_MIXED_START},
        {"{\"v\":\"KERI10JSON000016_", CESR_MIXED_START}, {"{\"v\":\"KERI10JSON000017_", 0},
        {"{\"v\":\"KERI10JSON000018_", CESR_PAST_END},    {"MAAB", CESR_MIXED_START},
        {"\n", CESR_MIXED_START},                        {"-A!A", CESR_CHARACTER},
        {"-A+A", CESR_ORDINARY_BASE64},                  {"-AA", CESR_PAST_END},
        {"\xF7", CESR_MIXED_START},                      {"\xF8", CESR_PAST_END},
        {"\xFB", CESR_PAST_END},                         {"\xFC", CESR_MIXED_START},
    };
    for (size_t row = 0; row < sizeof rows / sizeof rows[0]; row++) {
        check(mixed_remainder(rows[row].stream, strlen(rows[row].stream)) == rows[row].number, "remainder", rows[row].stream);
    }
}

/* ---- the longest streams */

static uint8_t longest[4194305];

static void limits(void) {
    uint8_t out[ROOM];
    size_t answer = 99;
    memset(longest, 'A', sizeof longest);
    memset(out, HELD, ROOM);
    check(cesr_report_text(longest, 4194305, out, ROOM, &answer) == CESR_TOO_LONG, "one more is 1", "text");
    check(cesr_report_binary(longest, 3145729, out, ROOM, &answer) == CESR_TOO_LONG, "one more is 1", "binary");
    check(cesr_second_text(longest, 4194305, out, ROOM, &answer) == CESR_TOO_LONG, "one more is 1", "second, text");
    check(cesr_second_binary(longest, 3145729, out, ROOM, NULL, 0, &answer) == CESR_TOO_LONG, "one more is 1", "second, binary");
    check(cesr_report_mixed(longest, 4194305, out, ROOM, &answer) == CESR_TOO_LONG, "one more is 1", "mixed");
    check(cesr_text_to_binary(longest, 4194305, out, ROOM, &answer) == CESR_TOO_LONG, "one more is 1", "text to binary");
    check(cesr_binary_to_text(longest, 3145729, out, ROOM, &answer) == CESR_TOO_LONG, "one more is 1", "binary to text");
    check(cesr_text_to_binary(longest, 4194304, out, ROOM, &answer) == CESR_ROOM, "the limit is read", "text to binary");
    check(answer == 0 && held(out, 0, ROOM), "1 and 3 leave the buffer", "limits");
}

/* ---- conversion */

static void conversion(void) {
    static const uint8_t told[] = {0xD4, 0x00, 0x0C};
    uint8_t out[ROOM];
    size_t answer = 99;
    memset(out, HELD, ROOM);
    check(cesr_text_to_binary(bytes("1AAM"), 4, out, 3, &answer) == 0 && answer == 3, "accepted", "1AAM");
    check(memcmp(out, told, 3) == 0 && held(out, 3, ROOM), "D4 00 0C", "1AAM");
    memset(out, HELD, ROOM);
    check(cesr_binary_to_text(told, 3, out, 4, &answer) == 0 && answer == 4, "accepted", "D4000C");
    check(memcmp(out, "1AAM", 4) == 0 && held(out, 4, ROOM), "1AAM", "D4000C");
    memset(out, HELD, ROOM);
    check(cesr_text_to_binary(bytes("MAABM"), 5, out, ROOM, &answer) == 2 && answer == 0, "2 at 0", "MAABM");
    check(cesr_text_to_binary(bytes("MAABMA!="), 8, out, ROOM, &answer) == 5 && answer == 6, "5 at 6", "MAABMA!=");
    check(cesr_text_to_binary(bytes("MAABMA=!"), 8, out, ROOM, &answer) == CESR_ORDINARY_BASE64 && answer == 6, "19 at 6", "MAABMA=!");
    check(cesr_text_to_binary(bytes("MAAB"), 4, out, 2, &answer) == 3 && answer == 0, "3 at 0", "MAAB");
    check(cesr_binary_to_text(told, 3, out, 3, &answer) == 3 && answer == 0, "3 at 0", "D4000C");
    check(held(out, 0, ROOM), "refusals leave the buffer", "conversion");
}

/* ---- reading and writing */

/* The raw value at offset 0, and that one byte less of room is 3. */
static void reads(const char *text, size_t chars, const char *raw, size_t length) {
    uint8_t out[ROOM], tag[11];
    size_t info[CESR_INFO], answer = 99;
    memset(out, HELD, ROOM);
    check(cesr_read_text(bytes(text), strlen(text), 0, out, length, tag, info, &answer) == 0, "read accepted", text);
    check(answer == length && memcmp(out, raw, length) == 0 && held(out, length, ROOM), "raw", text);
    check(info[CESR_INFO_CHARS] == chars && info[CESR_INFO_SIZE] * 4 == strlen(text), "code and size", text);
    check(info[CESR_INFO_START] + length == info[CESR_INFO_SIZE] * 3, "raw ends the item", text);
    check(info[CESR_INFO_RAW] == length && info[CESR_INFO_TAGS] == 0 && info[CESR_INFO_TEXT] == 0, "lengths", text);
    if (length > 0) {
        memset(out, HELD, ROOM);
        check(cesr_read_text(bytes(text), strlen(text), 0, out, length - 1, tag, info, &answer) == 3, "3", text);
        check(answer == 0 && held(out, 0, ROOM), "3 leaves the buffer", text);
    }
}

/* What was read of a text of type A, and that one character less of room is 3. */
static void characters(uint8_t number, const uint8_t *out, const size_t *info, size_t answer, const char *text, size_t units) {
    size_t length = strlen(text);
    check(number == 0 && answer == length, "text read", text);
    check(memcmp(out, text, length) == 0 && held(out, length, ROOM), "characters", text);
    check(info[CESR_INFO_LETTER] == 'A' && info[CESR_INFO_SIZE] == units, "code and size", text);
    check(info[CESR_INFO_START] == 3 * units && info[CESR_INFO_RAW] == 0, "no raw value, at the item's end", text);
    check(info[CESR_INFO_TAGS] == 0 && info[CESR_INFO_TEXT] == length, "lengths", text);
}

/* Out of either form. */
static void reads_text(const char *item, const char *text) {
    uint8_t out[ROOM], tag[11], binary[ROOM];
    size_t info[CESR_INFO], answer = 99, length = strlen(text), units = strlen(item) / 4;
    check(cesr_text_to_binary(bytes(item), 4 * units, binary, ROOM, &answer) == 0, "whole units", item);
    memset(out, HELD, ROOM);
    uint8_t number = cesr_read_text(bytes(item), 4 * units, 0, out, length, tag, info, &answer);
    characters(number, out, info, answer, text, units);
    memset(out, HELD, ROOM);
    number = cesr_read_binary(binary, 3 * units, 0, out, length, tag, info, &answer);
    characters(number, out, info, answer, text, units);
    if (length > 0) {
        memset(out, HELD, ROOM);
        check(cesr_read_text(bytes(item), 4 * units, 0, out, length - 1, tag, info, &answer) == 3 && answer == 0, "3", item);
        check(cesr_read_binary(binary, 3 * units, 0, out, length - 1, tag, info, &answer) == 3 && answer == 0, "3", item);
        check(held(out, 0, ROOM), "3 leaves the buffer", item);
    }
}

static void not_read(const char *text, size_t at, uint8_t number, size_t place) {
    uint8_t out[ROOM], tag[11];
    size_t info[CESR_INFO] = {7, 7, 7, 7, 7, 7, 7}, answer = 99;
    memset(out, HELD, ROOM);
    memset(tag, HELD, sizeof tag);
    check(cesr_read_text(bytes(text), strlen(text), at, out, ROOM, tag, info, &answer) == number, "number", text);
    check(answer == place, "place", text);
    check(held(out, 0, ROOM) && held(tag, 0, 11) && all(info, CESR_INFO, 7), "a refused read writes nothing", text);
}

static void reading(void) {
    static const uint8_t binary[] = {0x58, 0x68, 0x69}; /* `WGhp` */
    static const uint8_t tagged[11] = {'A'};
    uint8_t out[1] = {HELD}, tag[11];
    size_t info[CESR_INFO], answer = 99;
    reads("MAAB", 1, "\0\1", 2);
    reads("VABh", 1, "a", 1);
    reads("WGhp", 1, "hi", 2);
    reads("4BAA", 5, "", 0);
    reads("5BABAGhp", 5, "hi", 2);
    reads("6BABAABh", 5, "a", 1);
    not_read("MQAA", 0, 8, 0);
    not_read("0JAA", 0, 10, 0);
    not_read("-AAA", 0, 14, 0);
    not_read("MAAB", 4, 4, 4);
    not_read("MAABb!!A", 4, 5, 5);
    not_read("MAAB8AABAAAA", 4, CESR_NOT_SHORT, 4);
    not_read("MAABb+!A", 4, CESR_ORDINARY_BASE64, 5);
    not_read("0HAA!/AA", 0, CESR_CHARACTER, 4);
    reads_text("4AAA", "");
    reads_text("4AAB-4-5", "-4-5");
    reads_text("4AADA-a-personal", "-a-personal");
    reads_text("5AAEAA-4-5-legalName", "-4-5-legalName");
    reads_text("6AAEAAA-a-personal-1", "-a-personal-1");
    not_read("4AABAAAA", 0, CESR_TEXT_FILL, 0);
    not_read("MAAB5AABAB-a", 4, CESR_TEXT_FILL, 4);
    not_read("5AABBA-a", 0, 8, 0);
    check(cesr_read_text(bytes("0J_A"), 4, 0, out, 0, tag, info, &answer) == 0 && info[5] == 1, "one tag character", "0J_A");
    check(memcmp(tag, tagged, 11) == 0, "tag A, unused places 0", "0J_A");
    check(cesr_read_binary(binary, 3, 0, out, 0, tag, info, &answer) == 0 && answer == 2, "read accepted", "586869");
    check(cesr_read_binary(binary, 3, 0, out, 1, tag, info, &answer) == 0 && out[0] == HELD, "nothing copied", "586869");
    check(info[CESR_INFO_START] == 1 && info[CESR_INFO_RAW] == 2, "part 68 69", "586869");
    check(info[CESR_INFO_LETTER] == 'W', "letter W", "586869");
}

static void writing(void) {
    static const uint8_t tag[11] = {'A', '!'}, ordinary[11] = {'A', '/', '!'};
    uint8_t out[ROOM];
    size_t answer = 99;
    memset(out, HELD, ROOM);
    check(cesr_write_text(1, 'W', tag, 0, bytes("hi"), 2, out, 4, &answer) == 0 && answer == 4, "written", "WGhp");
    check(cesr_write_text(5, 'B', tag, 0, bytes("a"), 1, out + 4, 8, &answer) == 0 && answer == 8, "second", "6BABAABh");
    check(memcmp(out, "WGhp6BABAABh", 12) == 0 && held(out, 12, ROOM), "two items", "WGhp6BABAABh");
    memset(out, HELD, ROOM);
    check(cesr_write_binary(1, 'W', tag, 0, bytes("hi"), 2, out, 3, &answer) == 0 && answer == 3, "written", "586869");
    check(memcmp(out, "Xhi", 3) == 0 && held(out, 3, ROOM), "58 68 69", "586869");
    memset(out, HELD, ROOM);
    check(cesr_write_text(2, 'J', tag, 1, bytes(""), 0, out, 4, &answer) == 0 && memcmp(out, "0J_A", 4) == 0, "tag", "0J_A");
    memset(out, HELD, ROOM);
    check(cesr_write_text(1, 'b', tag, 0, bytes(""), 0, out, ROOM, &answer) == 6 && answer == 0, "6 at 0", "b");
    check(cesr_write_text(1, 'W', tag, 0, bytes("h"), 1, out, ROOM, &answer) == 12 && answer == 0, "12 at 0", "W");
    check(cesr_write_text(2, 'J', tag, 12, bytes(""), 0, out, ROOM, &answer) == 12 && answer == 0, "12 at 0", "0J");
    check(cesr_write_text(2, 'K', tag, 2, bytes(""), 0, out, ROOM, &answer) == 5 && answer == 1, "5 at 1", "0K");
    check(cesr_write_text(1, 'X', ordinary, 3, bytes(""), 0, out, ROOM, &answer) == CESR_ORDINARY_BASE64 && answer == 1, "19 at 1", "X");
    check(cesr_write_text(6, 'B', tag, 0, bytes("hi"), 2, out, 0, &answer) == CESR_NOT_SHORT && answer == 0, "18 at 0", "8AAB");
    check(cesr_write_binary(6, 'B', tag, 0, bytes(""), 0, out, 0, &answer) == CESR_NOT_SHORT && answer == 0, "18 at 0", "7AAB");
    check(cesr_write_text(1, 'W', tag, 0, bytes("hi"), 2, out, 3, &answer) == 3 && answer == 0, "3 at 0", "W");
    check(cesr_write_text(5, 'A', tag, 0, bytes("A!"), 2, out, ROOM, &answer) == 5 && answer == 1, "5 at 1", "A!");
    check(cesr_write_text(5, 'A', tag, 0, bytes("-a="), 3, out, ROOM, &answer) == CESR_ORDINARY_BASE64 && answer == 2, "19 at 2", "-a=");
    check(cesr_write_text(5, 'A', tag, 0, bytes("Aa"), 2, out, 0, &answer) == CESR_TEXT_FILL && answer == 0, "16 at 0", "Aa");
    check(cesr_write_binary(5, 'A', tag, 0, bytes("AAAA"), 4, out, 0, &answer) == CESR_TEXT_FILL && answer == 0, "16 at 0", "AAAA");
    check(cesr_write_text(5, 'A', tag, 1, bytes("!"), 1, out, ROOM, &answer) == 12 && answer == 0, "12 at 0", "4A");
    check(cesr_write_text(6, 'A', tag, 0, bytes("!"), 1, out, ROOM, &answer) == CESR_NOT_SHORT && answer == 0, "18 at 0", "7AAA");
    check(cesr_write_text(5, 'A', tag, 0, bytes("-a"), 2, out, 7, &answer) == 3 && answer == 0, "3 at 0", "5A");
    check(held(out, 0, ROOM), "refusals leave the buffer", "writing");
    check(cesr_write_text(5, 'A', tag, 0, bytes("-a-personal"), 11, out, ROOM, &answer) == 0 && answer == 16, "written", "4A");
    check(memcmp(out, "4AADA-a-personal", 16) == 0 && held(out, 16, ROOM), "001's path", "4AADA-a-personal");
    memset(out, HELD, ROOM);
    check(cesr_write_binary(5, 'A', tag, 0, bytes("-a"), 2, out, ROOM, &answer) == 0 && answer == 6, "written", "5A");
    check(memcmp(out, "\xE4\0\1\0\x0F\x9A", 6) == 0 && held(out, 6, ROOM), "E4 00 01 00 0F 9A", "5AABAA-a");
}

/* ---- the walk */

static void step(const char *text, size_t *state, size_t offset, size_t size, size_t depth, size_t chars, size_t letter) {
    size_t item[6], answer = 99;
    check(cesr_walk_text(bytes(text), strlen(text), state, item, &answer) == 0 && answer == 0, "an item", text);
    check(item[0] == offset && item[1] == size && item[2] == depth, "offset, size, depth", text);
    check(item[3] == chars && item[4] == letter && item[5] == 0, "code", text);
}

static void no_step(const char *text, const size_t *before, uint8_t number, size_t place) {
    size_t state[CESR_STATE], item[6] = {7, 7, 7, 7, 7, 7}, answer = 99;
    memcpy(state, before, sizeof state);
    check(cesr_walk_text(bytes(text), strlen(text), state, item, &answer) == number, "number", text);
    check(answer == place, "place", text);
    check(memcmp(state, before, sizeof state) == 0 && all(item, 6, 7), "state and item stay", text);
}

static void walking(void) {
    size_t state[CESR_STATE] = {0};
    step("-AABMAABMAAB", state, 0, 8, 0, 7, 'A');
    check(state[0] == 2 && state[CESR_STATE_OPEN] == 1, "one open", "-AAB");
    check(state[CESR_STATE_POSITION] == 1 && state[CESR_STATE_FIRST] == 1, "in it, the mark set", "-AAB");
    step("-AABMAABMAAB", state, 4, 4, 1, 1, 'M');
    check(all(state, CESR_STATE_POSITION, 0) && state[CESR_STATE_POSITION] == 2, "closed again", "-AAB");
    check(state[CESR_STATE_FIRST] == 0, "the mark cleared", "-AAB");
    step("-AABMAABMAAB", state, 8, 4, 0, 1, 'M');
    no_step("-AABMAABMAAB", state, CESR_END, 0);
    memset(state, 0, sizeof state);
    no_step("-AACMAAB", state, 4, 0);
    step("-AAC-_AAABAA", state, 0, 12, 0, 7, 'A');
    no_step("-AAC-_AAABAA", state, 7, 4);
    memset(state, 0, sizeof state);
    no_step("--AAAAABMAAB", state, CESR_NOT_SHORT, 0);
    step("-JAC--AAAAAA", state, 0, 12, 0, 7, 'J');
    no_step("-JAC--AAAAAA", state, CESR_NOT_SHORT, 4);
    memset(state, 0, sizeof state);
    no_step("4AABAAAA", state, CESR_TEXT_FILL, 0);
    memset(state, 0, sizeof state);
    state[CESR_STATE_FIRST] = 1;
    no_step("MAAB", state, 13, 0);
    state[CESR_STATE_FIRST] = 2;
    no_step("MAAB", state, 13, 0);
    state[CESR_STATE_FIRST] = 0;
    state[CESR_STATE_OPEN] = CESR_MAX_DEPTH + 1;
    no_step("MAAB", state, 13, 0);
    state[CESR_STATE_OPEN] = 0;
    state[CESR_STATE_POSITION] = 2;
    no_step("MAAB", state, 13, 0);
}

/* ---- indexed items */

static void indexed(void) {
    uint8_t item[CESR_INDEXED_MOST_BINARY], out[200], raw[64], read[64];
    size_t info[CESR_INDEXED], answer = 99;
    for (size_t i = 0; i < sizeof raw; i++) {
        raw[i] = (uint8_t)i;
    }
    memset(out, 0xEE, sizeof out);
    check(cesr_write_indexed_text('2', 'A', 65, 130, raw, 64, out, 92, &answer) == 0 && answer == 92, "written", "2A");
    check(memcmp(out, "2ABBCCAA", 7) == 0 && out[92] == 0xEE, "index, then ondex", "2A");
    check(cesr_read_indexed_text(out, 92, 0, read, 64, info, &answer) == 0 && answer == 64, "read", "2A");
    check(info[CESR_INDEXED_SELECTOR] == '2' && info[CESR_INDEXED_LETTER] == 'A' && info[CESR_INDEXED_SIZE] == 23, "its code", "2A");
    check(info[CESR_INDEXED_START] == 5 && info[CESR_INDEXED_RAW] == 64, "its raw value", "2A");
    check(info[CESR_INDEXED_INDEX] == 65 && info[CESR_INDEXED_ONDEX] == 130, "index and ondex", "2A");
    check(memcmp(read, raw, 64) == 0, "the raw value", "2A");
    check(cesr_read_indexed_text(out, 92, 0, read, 63, info, &answer) == CESR_ROOM, "no room", "2A");
    check(cesr_write_indexed_text('2', 'A', 65, 130, raw, 64, out, 91, &answer) == CESR_ROOM && answer == 0, "no room", "2A");
    check(cesr_write_indexed_binary(0, 'B', 63, 0, raw, 64, item, 66, &answer) == 0 && answer == 66, "written", "B");
    check(cesr_read_indexed_binary(item, 66, 0, info, &answer) == 0 && info[CESR_INDEXED_SELECTOR] == 0, "read", "B");
    check(memcmp(item + info[CESR_INDEXED_START], raw, 64) == 0 && info[CESR_INDEXED_INDEX] == 63, "where it lies", "B");
    check(cesr_write_indexed_text(0, 'E', 0, 0, raw, 64, out, 92, &answer) == CESR_UNKNOWN_CODE && answer == 0, "6", "E");
    check(cesr_write_indexed_text(0, 'B', 0, 1, raw, 64, out, 92, &answer) == CESR_UNFIT_LENGTH, "12", "B");
    check(cesr_write_indexed_text('2', 'B', 0, 1, raw, 64, out, 92, &answer) == CESR_ONDEX && answer == 0, "15", "2B");
    check(cesr_read_indexed_text((const uint8_t *)"-KAA", 4, 0, read, 64, info, &answer) == CESR_UNKNOWN_CODE, "6", "-KAA");
    check(cesr_read_indexed_text((const uint8_t *)"-KAA", 4, 9, read, 64, info, &answer) == CESR_PAST_END && answer == 9, "4", "-KAA");
}

static void indexed_mark(void) {
    size_t state[CESR_STATE] = {0};
    step("-KAB_A=!", state, 0, 8, 0, 7, 'K');
    check(state[CESR_STATE_INDEXED] == 1 && state[CESR_STATE_FIRST] == 0, "in it, the mark of indexed items set", "-KAB");
    no_step("-KAB_A=!", state, CESR_ORDINARY_BASE64, 6);
    no_step("-KABMAAB", state, CESR_UNKNOWN_CODE, 4);
    memset(state, 0, sizeof state);
    for (size_t mark = 1; mark < 3; mark++) {
        state[CESR_STATE_INDEXED] = mark;
        no_step("MAAB", state, CESR_UNFIT_STATE, 0);
    }
}

/* A group of two: the walk tells selector and letter as a read does, and a read finds the same. */
static void indexed_walk(void) {
    char text[4 + 88 + 156 + 1];
    size_t state[CESR_STATE] = {0}, step[CESR_ITEM], info[CESR_INDEXED], answer = 99;
    uint8_t read[CESR_INDEXED_MOST_RAW];
    memset(text, 'A', sizeof text - 1);
    text[sizeof text - 1] = 0;
    memcpy(text, "-LA9D_", 6); /* 22 + 39 units, and 9 is 61 */
    memcpy(text + 92, "0A_-", 4);
    check(cesr_walk_text(bytes(text), strlen(text), state, step, &answer) == 0 && step[CESR_ITEM_CHARS] == 7, "a group", "-LA9");
    for (size_t i = 0; i < 2; i++) {
        size_t at = i ? 92 : 4;
        check(cesr_walk_text(bytes(text), strlen(text), state, step, &answer) == 0 && step[CESR_ITEM_OFFSET] == at, "an item", "-LA9");
        check(step[CESR_ITEM_CHARS] == 10 && step[CESR_ITEM_SIZE] == (i ? 156 : 88) && step[CESR_ITEM_DEPTH] == 1, "indexed", "-LA9");
        check(cesr_read_indexed_text(bytes(text), strlen(text), at, read, sizeof read, info, &answer) == 0, "read", "-LA9");
        check(step[CESR_ITEM_LETTER] == info[CESR_INDEXED_LETTER] && info[CESR_INDEXED_LETTER] == (i ? 'A' : 'D'), "letter", "-LA9");
        check(step[CESR_ITEM_LEAD] == info[CESR_INDEXED_SELECTOR] && info[CESR_INDEXED_SELECTOR] == (i ? '0' : 0), "selector", "-LA9");
        check(info[CESR_INDEXED_INDEX] == 63 && info[CESR_INDEXED_ONDEX] == (i ? 62 : 0), "index and ondex", "-LA9");
        check(answer == (i ? CESR_INDEXED_MOST_RAW : 64) && info[CESR_INDEXED_RAW] == answer, "raw length", "-LA9");
    }
    check(state[CESR_STATE_INDEXED] == 0 && state[CESR_STATE_OPEN] == 0, "closed again, and no mark", "-LA9");
    no_step(text, state, CESR_END, 0);
}

/* ---- the walk in instalments */

/* One instalment: what it answers, and how many units on the state is; with no item all of the state stays. */
static void take(const char *text, size_t *state, size_t budget, uint8_t number, size_t items, size_t place, size_t position) {
    size_t before[CESR_STATE], taken = 99, answer = 99;
    memcpy(before, state, sizeof before);
    check(cesr_walk_on_text(bytes(text), strlen(text), state, budget, &taken, &answer) == number, "number", text);
    check(taken == items && answer == place, "items and place", text);
    check(state[CESR_STATE_POSITION] == position, "position", text);
    check(items > 0 || memcmp(state, before, sizeof before) == 0, "with no item the state stays", text);
}

static void instalments(void) {
    static const char text[] = "-AABMAABMAABMQAA"; /* a group, its item, an item, then an 8 */
    size_t state[CESR_STATE] = {0}, whole[CESR_STATE] = {0};
    take(text, state, 0, CESR_ACCEPTED, 0, 0, 0);
    take(text, state, 1, CESR_ACCEPTED, 1, 0, 1);
    check(state[0] == 2 && state[CESR_STATE_OPEN] == 1 && state[CESR_STATE_FIRST] == 1, "in the group", text);
    take(text, state, 2, CESR_ACCEPTED, 2, 0, 3);
    take(text, state, 0, CESR_ACCEPTED, 0, 0, 3);
    take(text, state, 1, CESR_NOT_ZERO, 0, 12, 3);
    take(text, whole, SIZE_MAX, CESR_NOT_ZERO, 3, 12, 3);
    check(memcmp(state, whole, sizeof state) == 0, "three and one in turn are four", text);
    memset(state, 0, sizeof state);
    take("MAABMAAB", state, 2, CESR_ACCEPTED, 2, 0, 2);
    take("MAABMAAB", state, 1, CESR_END, 0, 0, 2);
    take("MAAB", state, 0, CESR_UNFIT_STATE, 0, 0, 2);
    take("MAAB", state, 9, CESR_UNFIT_STATE, 0, 0, 2);
    state[CESR_STATE_FIRST] = 2;
    take("MAABMAAB", state, 0, CESR_UNFIT_STATE, 0, 0, 2);
}

/* So many `-J` groups, each holding the next one alone. */
static void nest(char *text, size_t groups) {
    static const char digits[] = "ABCDEFGHIJKLMNOPQRSTUVWXYZabcdefghijklmnopqrstuvwxyz0123456789-_";
    for (size_t inner = groups; inner-- > 0; text += 4) {
        const char header[4] = {'-', 'J', digits[inner / 64], digits[inner % 64]};
        memcpy(text, header, 4);
    }
    *text = 0;
}

/* A large group of so many units, by the report's verdict: 4,095 fit the small code, 4,096 do not. */
static uint8_t large_group(size_t units) {
    static const char digits[] = "ABCDEFGHIJKLMNOPQRSTUVWXYZabcdefghijklmnopqrstuvwxyz0123456789-_";
    uint8_t out[44];
    size_t answer = 99, length = 8 + 4 * units;
    const char header[9] = {'-', '-', 'J', 'A', 'A', digits[units >> 12 & 63], digits[units >> 6 & 63], digits[units & 63], 0};
    memcpy(longest, header, 8);
    for (size_t unit = 0; unit < units; unit++)
        memcpy(longest + 8 + 4 * unit, "1AAK", 4);
    check(cesr_report_text(longest, length, out, sizeof out, &answer) == 0, "a report", header);
    return out[12];
}

static void sizes(void) {
    check(large_group(4095) == CESR_NOT_SHORT, "18", "4,095 units");
    check(large_group(4096) == CESR_ACCEPTED, "accepted", "4,096 units");
}

/* 64 groups are walked into, a 65th is 11; and so in the report. */
static void depths(void) {
    char text[4 * (CESR_MAX_DEPTH + 1) + 1];
    size_t state[CESR_STATE] = {0};
    nest(text, CESR_MAX_DEPTH + 1);
    for (size_t depth = 0; depth < CESR_MAX_DEPTH; depth++)
        step(text, state, 4 * depth, strlen(text) - 4 * depth, depth, 7, 'J');
    check(state[CESR_STATE_OPEN] == CESR_MAX_DEPTH, "all slots in use", text);
    no_step(text, state, CESR_TOO_DEEP, 4 * CESR_MAX_DEPTH);
    uint8_t out[44];
    size_t answer = 99;
    check(cesr_report_text(bytes(text), strlen(text), out, 44, &answer) == 0 && answer == 30, "one refusal", text);
    check(out[12] == CESR_TOO_DEEP, "11", text);
    nest(text, CESR_MAX_DEPTH);
    check(cesr_report_text(bytes(text), strlen(text), out, 44, &answer) == 0 && answer == 21, "no refusal", text);
    check(out[12] == 0, "accepted", text);
}

static void binary_walk(void) {
    static const uint8_t stream[] = {0xF8, 0x00, 0x01, 0x30, 0x00, 0x01}; /* `-AABMAAB` */
    size_t state[CESR_STATE] = {0}, item[6], answer = 99;
    check(cesr_walk_binary(stream, 6, state, item, &answer) == 0 && item[0] == 0 && item[1] == 6, "group", "F80001");
    check(cesr_walk_binary(stream, 6, state, item, &answer) == 0 && item[0] == 3 && item[2] == 1, "inner", "300001");
    check(cesr_walk_binary(stream, 6, state, item, &answer) == CESR_END && item[0] == 3, "end", "300001");
    size_t items = 99;
    memset(state, 0, sizeof state);
    check(cesr_walk_on_binary(stream, 6, state, 1, &items, &answer) == 0 && items == 1, "one item", "F80001");
    check(state[CESR_STATE_POSITION] == 1 && state[CESR_STATE_OPEN] == 1, "in the group", "F80001");
    check(cesr_walk_on_binary(stream, 6, state, 9, &items, &answer) == CESR_END && items == 1, "one more, the end", "F80001");
}

/* ---- expected verdicts and a report */

/* Two verdicts, 4 and 0, and no remainder; the same with remainder 6; and the empty stream's. */
static const uint8_t TWO[] = {0, 0, 0, 2, 4, 0, 0, 0, 0, 0};
static const uint8_t TWO_AND_6[] = {0, 0, 0, 2, 4, 0, 0, 0, 0, 1, 6};
static const uint8_t NONE[8] = {0};

static void compare(const uint8_t *expected, size_t length, const uint8_t *report, size_t size, const size_t told[5]) {
    size_t answer[5] = {7, 7, 7, 7, 7};
    check(cesr_compare(expected, length, report, size, answer) == 0, "compared", "compare");
    check(memcmp(answer, told, sizeof answer) == 0, "passed, failed, not reached, beyond, agree", "compare");
}

static void malformed(const uint8_t *expected, size_t length, const uint8_t *report, size_t size) {
    size_t answer[5] = {7, 7, 7, 7, 7};
    check(cesr_compare(expected, length, report, size, answer) == CESR_MALFORMED, "20", "compare");
    check(all(answer, 5, 0), "all of it 0", "compare");
}

static void comparing(void) {
    static const uint8_t two_remainders[] = {0, 0, 0, 0, 0, 0, 0, 2, 6, 6};
    compare(TWO, sizeof TWO, LONG, sizeof LONG, (const size_t[]){2, 0, 0, 0, 1});
    compare(TWO_AND_6, sizeof TWO_AND_6, LONG, sizeof LONG, (const size_t[]){2, 0, 0, 0, 0});
    compare(TWO, sizeof TWO, ACCEPTED, sizeof ACCEPTED, (const size_t[]){0, 1, 1, 0, 1});
    compare(TWO, sizeof TWO, NOTHING, sizeof NOTHING, (const size_t[]){0, 0, 2, 0, 1});
    compare(NONE, sizeof NONE, LONG, sizeof LONG, (const size_t[]){0, 0, 0, 2, 1});
    compare(TWO_AND_6, sizeof TWO_AND_6, REST_6, sizeof REST_6, (const size_t[]){0, 0, 2, 0, 1});
    compare(TWO_AND_6, sizeof TWO_AND_6, REST_4, sizeof REST_4, (const size_t[]){0, 0, 2, 0, 0});
    for (size_t length = 0; length < sizeof TWO; length++) {
        malformed(TWO, length, LONG, sizeof LONG);
    }
    for (size_t size = 0; size < sizeof LONG; size++) {
        malformed(TWO, sizeof TWO, LONG, size);
    }
    malformed(two_remainders, sizeof two_remainders, LONG, sizeof LONG);
    malformed(LONG, sizeof LONG, TWO, sizeof TWO);
}

/* ---- groups */

enum { GROUP = 512 };

/* A body in a group, in a buffer with more room than that: the group, and what is behind it as it was. */
static void grouped(uint8_t letter, const char *body, const char *told) {
    uint8_t buffer[GROUP];
    size_t answer = 99, length = strlen(body), size = strlen(told);
    memset(buffer, HELD, GROUP);
    memcpy(buffer, body, length);
    check(cesr_group_text(letter, length, buffer, GROUP, &answer) == CESR_ACCEPTED && answer == size, "the size", told);
    check(memcmp(buffer, told, size) == 0 && held(buffer, size, GROUP), "the group, and no more", told);
    check(size == CESR_GROUP_ROOM_TEXT(length), "the room that it asks for", told);
    memcpy(buffer, body, length);
    check(cesr_group_text(letter, length, buffer, size - 1, &answer) == CESR_ROOM && answer == 0, "one less is 3", told);
    check(memcmp(buffer, body, length) == 0, "the body stays", told);
}

/* The same refused. */
static void not_grouped(uint8_t letter, const char *body, size_t length, uint8_t number, size_t place) {
    uint8_t buffer[GROUP], before[GROUP];
    size_t answer = 99;
    memset(buffer, HELD, GROUP);
    memcpy(buffer, body, strlen(body));
    memcpy(before, buffer, GROUP);
    check(cesr_group_text(letter, length, buffer, GROUP, &answer) == number && answer == place, "number and place", body);
    check(memcmp(buffer, before, GROUP) == 0, "the buffer stays", body);
}

static void grouping(void) {
    grouped('A', "MAAB", "-AABMAAB");
    grouped('A', "", "-AAA");
    grouped('J', "-AABMAAB1AAM", "-JAD-AABMAAB1AAM");
    grouped('J', "-_AAABAA", "-JAC-_AAABAA");
    not_grouped('A', "MAAB", GROUP + 1, CESR_ROOM, 0);
    not_grouped('0', "MAAB", (size_t)-1, CESR_ROOM, 0);
    not_grouped('0', "MAAB", 3, CESR_UNKNOWN_CODE, 0);
    not_grouped('A', "MAAB", 3, CESR_NOT_WHOLE_UNITS, 0);
    not_grouped('A', "-_AAABAA", 8, CESR_GENUS_VERSION, 0);
    not_grouped('A', "MAABMQAA", 8, CESR_NOT_ZERO, 4);
    not_grouped('J', "MAAB_AAA", 8, CESR_UNKNOWN_CODE, 4);
    not_grouped('K', "MAAB", 4, CESR_UNKNOWN_CODE, 0);
    /* 63 groups one in the other pass in a body, 64 are 11. */
    char text[4 * CESR_MAX_DEPTH + 1], around[4 * CESR_MAX_DEPTH + 1];
    nest(text, CESR_MAX_DEPTH - 1);
    nest(around, CESR_MAX_DEPTH);
    grouped('J', text, around);
    nest(text, CESR_MAX_DEPTH);
    not_grouped('J', text, strlen(text), CESR_TOO_DEEP, 4 * (CESR_MAX_DEPTH - 1));
}

/* Two signatures in a group, a number beside it, a group around all; in binary: 22 units each, 1 + 44 + 1 within -C. */
static void nesting(void) {
    uint8_t buffer[GROUP], report[CESR_REPORT_ROOM(1)], raw[64] = {0};
    size_t at = 0, answer = 99, passed = 0;
    for (size_t index = 0; index < 2; index++, at += answer) {
        check(cesr_write_indexed_binary(0, 'A', index, 0, raw, 64, buffer + at, GROUP - at, &answer) == 0 && answer == 66, "66", "A");
    }
    check(cesr_group_binary('K', at, buffer, GROUP, &at) == 0 && at == 135, "in a group", "-K");
    check(cesr_write_binary(1, 'M', (const uint8_t[CESR_TAG]){0}, 0, raw, 2, buffer + at, GROUP - at, &answer) == 0, "beside it", "M");
    at += answer;
    check(cesr_group_binary('C', at, buffer, GROUP, &at) == 0 && at == 141, "around all", "-C");
    check(memcmp(buffer, "\xF8\x20\x2E\xF8\xA0\x2C", 6) == 0, "-CAu-KAs", "-C");
    check(cesr_report_binary(buffer, at, report, sizeof report, &answer) == 0, "one item", "-C");
    check(cesr_passed(report, answer, &passed) == 0 && passed == 1, "passed", "-C");
}

int main(void) {
    reports();
    binary_report();
    second_binary();
    mixed_report();
    mixed_order();
    limits();
    conversion();
    reading();
    writing();
    walking();
    indexed();
    indexed_mark();
    indexed_walk();
    instalments();
    binary_walk();
    depths();
    sizes();
    comparing();
    grouping();
    nesting();
    printf("%d checks, %d failed\n", checks, failures);
    return failures != 0;
}
