/* The C interface at the edges of its buffers: every stream, buffer, tag, info, item, state and answer is memory of just its size, so
 * that valgrind or a sanitizer sees a byte too far. Room exact, one short, none and more; slices of length 0; lengths around the
 * limit. Exits with 1 if an answer or an untouched byte differs. `edges.sh` runs it. */
#include "cesr.h"

#include <stdio.h>
#include <stdlib.h>
#include <string.h>

enum { HELD = 0xAA, TEXT_LIMIT = 4194304, BINARY_LIMIT = 3145728 };

static int failures = 0;
static int checks = 0;
static int calls = 0;

static void check(int holds, const char *what, size_t of) {
    checks++;
    if (!holds) {
        failures++;
        fprintf(stderr, "%s, %zu\n", what, of);
    }
}

/* Memory of just this size that holds HELD. For size 0 there is a pointer, and nothing behind it. */
static void *exact(size_t size) {
    void *memory = malloc(size);
    if (memory == NULL) {
        fprintf(stderr, "no memory\n");
        exit(2);
    }
    memset(memory, HELD, size);
    return memory;
}

static uint8_t *copied(const void *bytes, size_t size) {
    uint8_t *memory = exact(size);
    memcpy(memory, bytes, size);
    return memory;
}

static int held(const void *memory, size_t from, size_t size) {
    const uint8_t *bytes = memory;
    for (size_t i = from; i < size; i++) {
        if (bytes[i] != HELD) {
            return 0;
        }
    }
    return 1;
}

/* ---- calls with a stream and a buffer */

typedef uint8_t lent(const uint8_t *, size_t, uint8_t *, size_t, size_t *);

/* One call on memory of its own. The number must be as told; `written` bytes may differ from HELD, or none if refused. */
static void lend(lent *call, const uint8_t *stream, size_t length, size_t room, uint8_t number, size_t written) {
    uint8_t *source = copied(stream, length);
    uint8_t *out = exact(room);
    size_t *answer = exact(sizeof *answer);
    calls++;
    check(call(source, length, out, room, answer) == number, "number", length);
    if (number == 0) {
        check(*answer == written, "length written", length);
        check(held(out, written, room), "bytes behind the answer stay", length);
    } else {
        check(held(out, 0, room), "a refused call writes nothing", length);
    }
    check(memcmp(source, stream, length) == 0, "the stream stays", length);
    free(source);
    free(out);
    free(answer);
}

/* Just enough, more, one short and none. */
static void rooms(lent *call, const uint8_t *stream, size_t length, size_t asked, size_t written) {
    lend(call, stream, length, asked, 0, written);
    lend(call, stream, length, asked + 1, 0, written);
    lend(call, stream, length, asked + 100, 0, written);
    if (asked > 0) {
        lend(call, stream, length, asked - 1, CESR_ROOM, 0);
        lend(call, stream, length, 0, CESR_ROOM, 0);
    }
}

/* Text by the unit over and over; as binary its three bytes. */
static uint8_t *repeated(const char *unit, size_t size, size_t length) {
    uint8_t *stream = exact(length);
    for (size_t i = 0; i < length; i++) {
        stream[i] = (uint8_t)unit[i % size];
    }
    return stream;
}

static const char YES[] = "1AAM", YES_IN_BINARY[] = "\xD4\x00\x0C";

/* The second engine with working room and room that are just enough, and each one less. */
static void second_binary_of(const uint8_t *binary, size_t items) {
    size_t asked = 4 * items, room = 17 + 18 * items, answer;
    for (size_t less = 0; less < 4; less++) {
        size_t less_work = asked > 0 && (less & 1), less_room = less >> 1;
        uint8_t *work = exact(asked - less_work), *out = exact(room - less_room);
        uint8_t number = cesr_second_binary(binary, 3 * items, work, asked - less_work, out, room - less_room, &answer);
        calls++;
        check(number == (less_work || less_room ? CESR_ROOM : 0), "the number", items);
        check(answer == (number == 0 ? 12 + 9 * items : 0), "the length", items);
        check(number == 0 || held(out, 0, room - less_room), "3 leaves the buffer", items);
        check(!less_work || held(work, 0, asked - less_work), "its 3 leaves the working room", items);
        check(less_work || asked == 0 || (memcmp(work, YES, 4) == 0 && work[asked - 1] == 'M'), "the working room has the text", items);
        free(work);
        free(out);
    }
}

/* `items` items of one unit: the report asks 17 + 18 and writes 12 + 9 for each. */
static void streams_of(size_t items) {
    uint8_t *text = repeated(YES, 4, 4 * items);
    uint8_t *binary = repeated(YES_IN_BINARY, 3, 3 * items);
    rooms(cesr_report_text, text, 4 * items, 17 + 18 * items, 12 + 9 * items);
    rooms(cesr_report_binary, binary, 3 * items, 17 + 18 * items, 12 + 9 * items);
    uint8_t *groups = repeated("\xF8\0\0", 3, 3 * items);
    rooms(cesr_report_mixed, groups, 3 * items, 17 + 19 * items, 12 + 10 * items);
    free(groups);
    rooms(cesr_second_text, text, 4 * items, 17 + 18 * items, 12 + 9 * items);
    second_binary_of(binary, items);
    rooms(cesr_text_to_binary, text, 4 * items, 3 * items, 3 * items);
    rooms(cesr_binary_to_text, binary, 3 * items, 4 * items, 4 * items);
    free(text);
    free(binary);
}

/* Each beginning of a mixed stream, whose bytes end where its memory does: nothing behind them is read. */
static void mixed_cut(void) {
    static const char whole[] = "-AABMAAB{\"v\":\"KERI10JSON000018_\"\xF8\0\0\xFB\xE2\x40\0\x10\0-_AAACAA";
    size_t answer;
    for (size_t length = 0; length < sizeof whole; length++) {
        uint8_t *stream = copied((const uint8_t *)whole, length), *out = exact(CESR_REPORT_ROOM_MIXED(length));
        calls++;
        check(cesr_report_mixed(stream, length, out, CESR_REPORT_ROOM_MIXED(length), &answer) == 0, "room is enough", length);
        check(held(out, answer, CESR_REPORT_ROOM_MIXED(length)), "bytes behind the report stay", length);
        check(memcmp(stream, whole, length) == 0, "read only", length);
        check(cesr_mixed_passed(out, answer) == (length == 8 || length == 32 || length == 35), "passed", length);
        free(stream);
        free(out);
    }
}

/* ---- the walk */

typedef uint8_t walks(const uint8_t *, size_t, size_t *, size_t *, size_t *);
typedef uint8_t walks_on(const uint8_t *, size_t, size_t *, size_t, size_t *, size_t *);

/* All steps from a position on: the number that the last one gave. */
static uint8_t walk_from(walks *call, const uint8_t *source, size_t length, size_t position) {
    size_t *state = exact(CESR_STATE * sizeof *state), *item = exact(6 * sizeof *item), *answer = exact(sizeof *answer);
    uint8_t number = 0;
    memset(state, 0, CESR_STATE * sizeof *state);
    state[CESR_STATE_POSITION] = position;
    while (number == 0) {
        memset(item, HELD, 6 * sizeof *item);
        number = call(source, length, state, item, answer);
        calls++;
        if (number == 0) {
            check(item[CESR_ITEM_OFFSET] + item[CESR_ITEM_SIZE] <= length, "an item lies in the stream", length);
        } else {
            check(held(item, 0, 6 * sizeof *item), "a step without an item writes none", length);
        }
    }
    free(state);
    free(item);
    free(answer);
    return number;
}

/* The same in instalments of a budget: the number that the last one gave, and how many items there were. */
static uint8_t walk_on_from(walks_on *call, const uint8_t *source, size_t length, size_t position, size_t budget, size_t *all) {
    size_t *state = exact(CESR_STATE * sizeof *state), *items = exact(sizeof *items), *answer = exact(sizeof *answer);
    uint8_t number = 0;
    memset(state, 0, CESR_STATE * sizeof *state);
    state[CESR_STATE_POSITION] = position;
    for (*all = 0; number == 0; *all += *items) {
        number = call(source, length, state, budget, items, answer);
        calls++;
        check(number == 0 ? *items == budget : *items < budget, "the budget, or less at the last", length);
    }
    free(state);
    free(items);
    free(answer);
    return number;
}

/* A stream cut short at each of its places, so that each header and value runs past the end of its memory. The walk of the whole one
 * ends as told. */
static void cut_short(lent *report, walks *walk, walks_on *walk_on, const uint8_t *whole, size_t size, uint8_t told) {
    for (size_t length = 0; length <= size; length++) {
        size_t room = 17 + 18 * (length / 3);
        uint8_t *out = exact(room), *source = copied(whole, length);
        size_t *answer = exact(sizeof *answer);
        calls++;
        check(report(source, length, out, room, answer) == 0, "a report", length);
        check(held(out, *answer, room), "bytes behind the report stay", length);
        uint8_t last = walk_from(walk, source, length, 0);
        check(length == size ? last == told : last == CESR_END || last == CESR_PAST_END, "the end, or an item that passes it", length);
        size_t items, others;
        check(walk_on_from(walk_on, source, length, 0, 1, &items) == last, "one by one", length);
        check(walk_on_from(walk_on, source, length, 0, 3, &others) == last && others == items, "by threes", length);
        check(walk_on_from(walk_on, source, length, 0, SIZE_MAX, &others) == last && others == items, "at once", length);
        check(memcmp(source, whole, length) == 0, "the stream stays", length);
        free(out);
        free(source);
        free(answer);
    }
}

static void cut_in_both_forms(const char *text, uint8_t told) {
    size_t length = strlen(text), answer = 0;
    uint8_t *binary = exact(length / 4 * 3);
    check(cesr_text_to_binary((const uint8_t *)text, length, binary, length / 4 * 3, &answer) == 0, "whole units", length);
    cut_short(cesr_report_text, cesr_walk_text, cesr_walk_on_text, (const uint8_t *)text, length, told);
    cut_short(cesr_report_binary, cesr_walk_binary, cesr_walk_on_binary, binary, length / 4 * 3, told);
    free(binary);
}

/* ---- reading */

typedef uint8_t reads(const uint8_t *, size_t, size_t, uint8_t *, size_t, uint8_t *, size_t *, size_t *);

/* A value of `length`, of which `copied_out` go to the buffer. */
static void read_stream(reads *call, const void *stream, size_t size, size_t at, size_t room, uint8_t number, size_t length,
                        size_t copied_out) {
    uint8_t *source = copied(stream, size), *out = exact(room), *tag = exact(11);
    size_t *info = exact(CESR_INFO * sizeof *info), *answer = exact(sizeof *answer);
    calls++;
    check(call(source, size, at, out, room, tag, info, answer) == number, "number of a read", at);
    if (number == 0) {
        check(*answer == length && held(out, copied_out, room), "bytes behind the value stay", at);
        check(info[CESR_INFO_RAW] + info[CESR_INFO_TEXT] == length, "lengths", at);
    } else {
        check(held(out, 0, room) && held(tag, 0, 11) && held(info, 0, CESR_INFO * sizeof *info), "a refused read writes nothing", at);
    }
    free(source);
    free(out);
    free(tag);
    free(info);
    free(answer);
}

static void read_at(const char *text, size_t at, size_t room, uint8_t number, size_t length) {
    read_stream(cesr_read_text, text, strlen(text), at, room, number, length, length);
}

static void reading(void) {
    const char *digest = "MAABEBdXt3gIXOf2BBWNHdSXCJnFJL5OuQPyM5K0neuniccM";
    read_at(digest, 4, 32, 0, 32);
    read_at(digest, 4, 40, 0, 32);
    read_at(digest, 4, 31, CESR_ROOM, 0);
    read_at(digest, 4, 0, CESR_ROOM, 0);
    read_at("4BAA", 0, 0, 0, 0);
    read_at("0J_A", 0, 0, 0, 0);
    read_at("", 0, 0, CESR_PAST_END, 0);
    /* Less than a unit is left, then nothing. */
    for (size_t at = 45; at <= 60; at++) {
        read_at(digest, at, 0, CESR_PAST_END, 0);
    }
    read_at(digest, SIZE_MAX, 0, CESR_PAST_END, 0);
}

/* Out of both forms, into each room. */
static void reading_texts(void) {
    static const char *items[] = {"4AAA", "4AAB-4-5", "4AADA-a-personal", "5AAEAA-4-5-legalName", "6AAEAAA-a-personal-1"};
    static const size_t lengths[] = {0, 4, 11, 14, 13};
    for (size_t i = 0; i < 5; i++) {
        size_t size = strlen(items[i]), length = lengths[i], answer = 0;
        uint8_t binary[15];
        check(cesr_text_to_binary((const uint8_t *)items[i], size, binary, size / 4 * 3, &answer) == 0, "whole units", i);
        for (size_t room = 0; room <= length + 2; room++) {
            uint8_t told = room < length ? CESR_ROOM : 0;
            read_stream(cesr_read_text, items[i], size, 0, room, told, length, length);
            read_stream(cesr_read_binary, binary, size / 4 * 3, 0, room, told, length, length);
        }
    }
    read_at("4AABAAAA", 0, 0, CESR_TEXT_FILL, 0);
    read_at("5AABAB-a", 0, 9, CESR_TEXT_FILL, 0);
}

static void reading_binary(void) {
    for (size_t length = 0; length <= 6; length++) {
        uint8_t *source = copied("\x30\x00\x01\x58\x68\x69", length), *out = exact(0), *tag = exact(11);
        size_t *info = exact(CESR_INFO * sizeof *info), *answer = exact(sizeof *answer);
        uint8_t told = length == 6 ? 0 : CESR_PAST_END;
        calls++;
        check(cesr_read_binary(source, length, 3, out, 0, tag, info, answer) == told, "number of a binary read", length);
        if (told == 0) {
            check(source[3 + info[CESR_INFO_START]] == 'h' && info[CESR_INFO_RAW] == 2, "the part", length);
        } else {
            check(held(tag, 0, 11) && held(info, 0, CESR_INFO * sizeof *info), "a refused read writes nothing", length);
        }
        free(source);
        free(out);
        free(tag);
        free(info);
        free(answer);
    }
    /* Room for what is not copied stays as it was. */
    read_stream(cesr_read_binary, "\x58\x68\x69", 3, 0, 5, 0, 2, 0);
}

/* ---- writing */

typedef uint8_t writes(uint8_t, uint8_t, const uint8_t *, size_t, const uint8_t *, size_t, uint8_t *, size_t, size_t *);

/* Of type A a text of one letter. */
static void write_as(uint8_t letter, writes *call, uint8_t chars, size_t raw_length, size_t room, uint8_t number, size_t written) {
    uint8_t *raw = exact(raw_length), *tag = exact(11), *out = exact(room);
    size_t *answer = exact(sizeof *answer);
    if (letter == 'A') {
        memset(raw, 'a', raw_length);
    }
    calls++;
    check(call(chars, letter, tag, 0, raw, raw_length, out, room, answer) == number, "number of a write", raw_length);
    if (number == 0) {
        check(*answer == written && held(out, written, room), "bytes behind the item stay", raw_length);
    } else {
        check(held(out, 0, room), "a refused write writes nothing", raw_length);
    }
    free(raw);
    free(tag);
    free(out);
    free(answer);
}

static void write_to(writes *call, uint8_t chars, size_t raw_length, size_t room, uint8_t number, size_t written) {
    write_as('B', call, chars, raw_length, room, number, written);
}

/* A value of the type `B`, three bytes a unit, or `A`, four characters, small or large, with each lead, into each room. */
static void written(uint8_t letter, uint8_t chars, size_t raw_length) {
    size_t held_by = letter == 'A' ? 4 : 3;
    size_t units = (chars == 6 ? 2 : 1) + (raw_length + held_by - 1) / held_by;
    write_as(letter, cesr_write_text, chars, raw_length, 4 * units, 0, 4 * units);
    write_as(letter, cesr_write_text, chars, raw_length, 4 * units + 5, 0, 4 * units);
    write_as(letter, cesr_write_text, chars, raw_length, 4 * units - 1, CESR_ROOM, 0);
    write_as(letter, cesr_write_text, chars, raw_length, 0, CESR_ROOM, 0);
    write_as(letter, cesr_write_binary, chars, raw_length, 3 * units, 0, 3 * units);
    write_as(letter, cesr_write_binary, chars, raw_length, 3 * units - 1, CESR_ROOM, 0);
    write_as(letter, cesr_write_binary, chars, raw_length, 0, CESR_ROOM, 0);
}

/* Around the most that a small code holds, one unit of it less and more. */
static void around_small(uint8_t letter, size_t most, size_t unit) {
    for (size_t length = 0; length < 12; length++) {
        written(letter, 5, length);
        write_as(letter, cesr_write_text, 6, length, 0, CESR_NOT_SHORT, 0);
        write_as(letter, cesr_write_binary, 6, length, 40, CESR_NOT_SHORT, 0);
    }
    for (size_t length = most + 1 - unit; length <= most; length++) {
        written(letter, 5, length);
        write_as(letter, cesr_write_text, 6, length, 20000, CESR_NOT_SHORT, 0);
        write_as(letter, cesr_write_text, 5, length + unit, 20000, CESR_UNFIT_LENGTH, 0);
        written(letter, 6, length + unit);
    }
}

static void writing(void) {
    around_small('B', 12285, 3);
    around_small('A', 16380, 4);
    /* A fixed code takes just its length: `B` has 32 bytes. */
    write_to(cesr_write_text, 1, 32, 44, 0, 44);
    write_to(cesr_write_text, 1, 32, 43, CESR_ROOM, 0);
    write_to(cesr_write_text, 1, 31, 44, CESR_UNFIT_LENGTH, 0);
    write_to(cesr_write_binary, 1, 32, 33, 0, 33);
    write_to(cesr_write_binary, 1, 32, 32, CESR_ROOM, 0);
    write_to(cesr_write_text, 1, 0, 0, CESR_UNFIT_LENGTH, 0);
    write_to(cesr_write_text, 0, 0, 0, CESR_UNKNOWN_CODE, 0);
}

/* ---- groups */

typedef uint8_t grouped(uint8_t, size_t, uint8_t *, size_t, size_t *);

/* Units of a body in a group, in a buffer of just this room: all of the body there, or what fits. */
static void group_in(grouped *call, const uint8_t *body, size_t length, size_t room, uint8_t number, size_t size) {
    size_t there = length < room ? length : room;
    /* `-J` begins with the bits 111110 001001, `--J` with 111110 111110. */
    uint8_t first = call == cesr_group_text ? '-' : size - length > 3 ? 0xFB : 0xF8;
    uint8_t *buffer = exact(room);
    size_t *answer = exact(sizeof *answer);
    memcpy(buffer, body, there);
    calls++;
    check(call('J', length, buffer, room, answer) == number, "number", length);
    if (number == 0) {
        check(*answer == size && buffer[0] == first, "a group", length);
        check(memcmp(buffer + size - length, body, length) == 0, "the body behind its header", length);
        check(held(buffer, size, room), "bytes behind the group stay", length);
    } else {
        check(memcmp(buffer, body, there) == 0 && held(buffer, there, room), "a refused buffer stays", length);
    }
    free(buffer);
    free(answer);
}

/* Just enough room, one less, none for the header, less than the body, and more. */
static void rooms_of_a_group(grouped *call, const uint8_t *body, size_t length, size_t header) {
    size_t size = header + length;
    group_in(call, body, length, size, 0, size);
    group_in(call, body, length, size + 9, 0, size);
    group_in(call, body, length, size - 1, CESR_ROOM, 0);
    group_in(call, body, length, length, CESR_ROOM, 0);
    if (length > 0) {
        group_in(call, body, length, length - 1, CESR_ROOM, 0);
        group_in(call, body, length, 0, CESR_ROOM, 0);
    }
}

static void grouping(void) {
    static const size_t units[] = {0, 1, 2, 3, 7, 8, 63, 64, 4094, 4095, 4096, 4097};
    uint8_t *text = repeated(YES, 4, 4 * 4097), *binary = repeated(YES_IN_BINARY, 3, 3 * 4097);
    for (size_t i = 0; i < sizeof units / sizeof *units; i++) {
        size_t headers = units[i] > 4095 ? 2 : 1;
        rooms_of_a_group(cesr_group_text, text, 4 * units[i], 4 * headers);
        rooms_of_a_group(cesr_group_binary, binary, 3 * units[i], 3 * headers);
    }
    for (size_t less = 1; less < 4; less++) {
        group_in(cesr_group_text, text, 12 - less, 20, CESR_NOT_WHOLE_UNITS, 0);
        group_in(cesr_group_binary, binary, 12 - less, 20, less % 3 ? CESR_NOT_WHOLE_UNITS : 0, 12);
    }
    free(text);
    free(binary);
}

/* ---- the limit's length */

/* A body of the most that a group holds, and a unit more. */
static void groups_at_the_limit(const uint8_t *text, const uint8_t *binary) {
    group_in(cesr_group_text, text, TEXT_LIMIT - 8, TEXT_LIMIT, 0, TEXT_LIMIT);
    group_in(cesr_group_text, text, TEXT_LIMIT - 8, TEXT_LIMIT - 1, CESR_ROOM, 0);
    group_in(cesr_group_text, text, TEXT_LIMIT - 4, TEXT_LIMIT + 4, CESR_TOO_LONG, 0);
    group_in(cesr_group_text, text, TEXT_LIMIT + 1, TEXT_LIMIT + 1, CESR_TOO_LONG, 0);
    group_in(cesr_group_binary, binary, BINARY_LIMIT - 6, BINARY_LIMIT, 0, BINARY_LIMIT);
    group_in(cesr_group_binary, binary, BINARY_LIMIT - 3, BINARY_LIMIT + 3, CESR_TOO_LONG, 0);
}

/* The last unit, then the end; and a stream that is one longer. The memory is of just the length that is given. */
static void walking_at_the_limit(const uint8_t *text, const uint8_t *binary) {
    uint8_t *just_text = copied(text, TEXT_LIMIT), *just_binary = copied(binary, BINARY_LIMIT);
    size_t last = TEXT_LIMIT / 4 - 1;
    check(walk_from(cesr_walk_text, just_text, TEXT_LIMIT, last) == CESR_END, "the end of a text", TEXT_LIMIT);
    check(walk_from(cesr_walk_binary, just_binary, BINARY_LIMIT, last) == CESR_END, "the end of a binary", BINARY_LIMIT);
    size_t items;
    check(walk_on_from(cesr_walk_on_text, just_text, TEXT_LIMIT, 0, 1000, &items) == CESR_END, "all of a text", TEXT_LIMIT);
    check(items == TEXT_LIMIT / 4, "an item a unit", TEXT_LIMIT);
    check(walk_on_from(cesr_walk_on_text, text, TEXT_LIMIT + 1, 0, 1, &items) == CESR_TOO_LONG, "too long a text", TEXT_LIMIT);
    check(walk_from(cesr_walk_text, text, TEXT_LIMIT + 1, last) == CESR_TOO_LONG, "too long a text", TEXT_LIMIT);
    check(walk_from(cesr_walk_binary, binary, BINARY_LIMIT + 1, last) == CESR_TOO_LONG, "too long a binary", BINARY_LIMIT);
    free(just_text);
    free(just_binary);
}

static void limits(void) {
    uint8_t *text = repeated(YES, 4, TEXT_LIMIT + 1);
    uint8_t *binary = repeated(YES_IN_BINARY, 3, BINARY_LIMIT + 1);
    size_t items = TEXT_LIMIT / 4;
    lend(cesr_report_text, text, TEXT_LIMIT, 17 + 18 * items, 0, 12 + 9 * items);
    lend(cesr_report_text, text, TEXT_LIMIT, 16 + 18 * items, CESR_ROOM, 0);
    lend(cesr_report_text, text, TEXT_LIMIT + 1, 17, CESR_TOO_LONG, 0);
    lend(cesr_report_binary, binary, BINARY_LIMIT, 17 + 18 * items, 0, 12 + 9 * items);
    lend(cesr_report_binary, binary, BINARY_LIMIT + 1, 17, CESR_TOO_LONG, 0);
    lend(cesr_text_to_binary, text, TEXT_LIMIT, BINARY_LIMIT, 0, BINARY_LIMIT);
    lend(cesr_text_to_binary, text, TEXT_LIMIT, BINARY_LIMIT - 1, CESR_ROOM, 0);
    lend(cesr_text_to_binary, text, TEXT_LIMIT + 1, BINARY_LIMIT, CESR_TOO_LONG, 0);
    lend(cesr_binary_to_text, binary, BINARY_LIMIT, TEXT_LIMIT, 0, TEXT_LIMIT);
    lend(cesr_binary_to_text, binary, BINARY_LIMIT, TEXT_LIMIT - 1, CESR_ROOM, 0);
    lend(cesr_binary_to_text, binary, BINARY_LIMIT + 1, TEXT_LIMIT, CESR_TOO_LONG, 0);
    walking_at_the_limit(text, binary);
    groups_at_the_limit(text, binary);
    free(text);
    free(binary);
    /* The largest value: two units of header, and lead bytes before the rest. */
    write_to(cesr_write_text, 6, 3145722, TEXT_LIMIT, 0, TEXT_LIMIT);
    write_to(cesr_write_text, 6, 3145722, TEXT_LIMIT - 1, CESR_ROOM, 0);
    write_to(cesr_write_binary, 6, 3145722, BINARY_LIMIT, 0, BINARY_LIMIT);
    write_to(cesr_write_binary, 6, 3145723, BINARY_LIMIT, CESR_UNFIT_LENGTH, 0);
    write_as('A', cesr_write_text, 6, 4194296, TEXT_LIMIT, 0, TEXT_LIMIT);
    write_as('A', cesr_write_binary, 6, 4194296, BINARY_LIMIT, 0, BINARY_LIMIT);
    write_as('A', cesr_write_text, 6, 4194297, TEXT_LIMIT, CESR_UNFIT_LENGTH, 0);
}

/* ---- expected verdicts and a report */

/* Each beginning of both, the whole of them, and one byte more: 0 for the whole alone. */
static void comparing(void) {
    static const uint8_t expected[] = {0, 0, 0, 1, 8, 0, 0, 0, 1, 4, 0};
    static const uint8_t report[] = {0, 0, 0, 1, 0, 0, 0, 0, 0, 0, 0, 4, 8, 0, 0, 0, 0, 0, 0, 0, 1, 0, 0, 0, 4, 4, 0};
    for (size_t length = 0; length <= sizeof expected; length++) {
        for (size_t size = 0; size <= sizeof report; size++) {
            uint8_t *file = copied(expected, length), *told = copied(report, size);
            size_t *answer = exact(5 * sizeof *answer);
            int whole = length == sizeof expected - 1 && size == sizeof report - 1;
            calls++;
            check(cesr_compare(file, length, told, size, answer) == (whole ? 0 : 20), "0 or 20", length * 100 + size);
            check(answer[0] == (whole ? 1 : 0) && answer[4] == (whole ? 1 : 0), "passed and agree", length * 100 + size);
            check(memcmp(file, expected, length) == 0 && memcmp(told, report, size) == 0, "read only", length * 100 + size);
            free(file);
            free(told);
            free(answer);
        }
    }
}

/* Each beginning of a report that passed, the whole of it, and one byte more; and its rows, where they are there. */
static void passing(void) {
    static const uint8_t report[] = {0, 0, 0, 1, 0, 0, 0, 0, 0, 0, 0, 4, 0, 0, 0, 0, 0, 0, 0, 0, 0, 0};
    for (size_t size = 0; size <= sizeof report; size++) {
        uint8_t *told = copied(report, size);
        size_t *passed = exact(sizeof *passed);
        struct cesr_item_row *row = exact(sizeof *row);
        int whole = size == sizeof report - 1;
        calls++;
        check(cesr_passed(told, size, passed) == (whole ? 0 : CESR_MALFORMED) && *passed == (whole ? 1 : 0), "passed", size);
        check(cesr_item_row(told, size, 0, row) == (size >= 13), "an item's row", size);
        check(memcmp(told, report, size) == 0, "read only", size);
        free(told);
        free(passed);
        free(row);
    }
}

int main(void) {
    for (size_t items = 0; items < 40; items++) {
        streams_of(items);
    }
    streams_of(2048); /* 8,192 characters */
    cut_in_both_forms("-AAE-_AAACAA0J_AMAAB-JAC5BABAGhp-KAWA_D_AAAAAAAAAAAAAAAAAAAAAAAAAAAAAAAAAAAAAAAAAAAAAAAAAAAAAAAAAAAAAAAAAAAAAAAAAAAAAAAAAAAA6BABAABh4BAA", CESR_END);
    cut_in_both_forms("EBdXt3gIXOf2BBWNHdSXCJnFJL5OuQPyM5K0neuniccM1AAF____0HD_____", CESR_END);
    cut_in_both_forms("MAAB--KAAAABAAAA", CESR_NOT_SHORT);
    cut_in_both_forms("MAAB9AABAAABAABh", CESR_NOT_SHORT);
    mixed_cut();
    reading();
    reading_binary();
    reading_texts();
    writing();
    limits();
    grouping();
    comparing();
    passing();
    printf("%d calls, %d checks, %d failed\n", calls, checks, failures);
    return failures != 0;
}
