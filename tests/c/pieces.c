/* Streams in pieces: beside the whole report for every cut into two, element by element, and in every room; what must stay, and 13. Buffers
 * are of the exact size, so that a tool that watches memory sees a byte too far. Exits with 1 if anything differs. */
#include "cesr.h"

#include <stdio.h>
#include <stdlib.h>
#include <string.h>

enum { HELD = 0xAA };

static int failures = 0;
static int checks = 0;

static void check(int holds, const char *what, size_t of) {
    checks++;
    if (!holds) {
        failures++;
        fprintf(stderr, "%zu: %s\n", of, what);
    }
}

/* Memory of this size and no more. */
static uint8_t *exact(size_t size) {
    uint8_t *memory = malloc(size > 0 ? size : 1);
    if (memory == NULL) {
        abort();
    }
    memset(memory, HELD, size > 0 ? size : 1);
    return memory;
}

static int held(const uint8_t *memory, size_t from, size_t size) {
    for (size_t i = from; i < size; i++) {
        if (memory[i] != HELD) {
            return 0;
        }
    }
    return 1;
}

typedef uint8_t reports(const uint8_t *, size_t, uint8_t *, size_t, size_t *);
typedef uint8_t feeds(size_t *, const uint8_t *, size_t, uint8_t *, size_t, uint8_t *, size_t, size_t *);
typedef uint8_t ends(size_t *, uint8_t *, size_t, size_t *);

struct form {
    size_t unit, limit;
    reports *report;
    feeds *feed;
    ends *end;
};

static const struct form TEXT = {4, CESR_LIMIT_TEXT, cesr_report_text, cesr_feed_text, cesr_end_text};
static const struct form BINARY = {3, CESR_LIMIT_BINARY, cesr_report_binary, cesr_feed_binary, cesr_end_binary};

/* A report in the making. */
struct joined {
    uint8_t items[512], refusals[512], rest[5];
    size_t given[3];
};

/* One piece in this much room, from memory of its own; the rows go behind those that are there. */
static uint8_t fed(const struct form *form, size_t *state, const uint8_t *piece, size_t length, size_t items, size_t refusals,
                   struct joined *joined) {
    uint8_t *source = exact(length), *rows = exact(items), *refused = exact(refusals);
    size_t before[CESR_PIECES], given[2] = {99, 99};
    memcpy(source, piece, length);
    memcpy(before, state, sizeof before);
    uint8_t number = form->feed(state, source, length, rows, items, refused, refusals, given);
    check(memcmp(source, piece, length) == 0, "the piece stays", length);
    check(given[0] <= items && given[1] <= refusals && given[0] % 9 == 0 && given[1] % 9 == 0, "whole rows in their room", length);
    check(held(rows, given[0], items) && held(refused, given[1], refusals), "bytes behind the rows stay", length);
    if (number != CESR_ACCEPTED) {
        check(given[0] == 0 && given[1] == 0, "refused, nothing is given", number);
        check(memcmp(before, state, sizeof before) == 0, "refused, the state stays", number);
    } else if (length == 0) {
        check(memcmp(before, state, sizeof before) == 0, "an empty piece changes nothing", 0);
    }
    memcpy(joined->items + joined->given[0], rows, given[0]);
    memcpy(joined->refusals + joined->given[1], refused, given[1]);
    joined->given[0] += given[0];
    joined->given[1] += given[1];
    free(source);
    free(rows);
    free(refused);
    return number;
}

/* The same with room that is short by one byte, or by all, and then with just enough. */
static void in_any_room(const struct form *form, size_t *state, const uint8_t *piece, size_t length, struct joined *joined) {
    size_t trial[CESR_PIECES];
    struct joined rows = {{0}, {0}, {0}, {0}};
    memcpy(trial, state, sizeof trial);
    check(fed(form, trial, piece, length, 512, 512, &rows) == CESR_ACCEPTED, "taken in", length);
    size_t items = rows.given[0], refusals = rows.given[1];
    if (items > 0) {
        check(fed(form, state, piece, length, items - 1, refusals, joined) == CESR_ROOM, "one short for items is 3", items);
        check(fed(form, state, piece, length, 0, refusals, joined) == CESR_ROOM, "none for items is 3", items);
    }
    if (refusals > 0) {
        check(fed(form, state, piece, length, items, refusals - 1, joined) == CESR_ROOM, "one short for refusals is 3", refusals);
    }
    check(fed(form, state, piece, length, items, refusals, joined) == CESR_ACCEPTED, "just enough", length);
    check(memcmp(trial, state, sizeof trial) == 0, "the state that it would have come to at first", length);
}

static void ended(const struct form *form, size_t *state, struct joined *joined) {
    size_t answer = 99, before[CESR_PIECES];
    memcpy(before, state, sizeof before);
    uint8_t number = form->end(state, joined->rest, CESR_END_ROOM, &joined->given[2]);
    check(number == CESR_ACCEPTED && (joined->given[2] == 0 || joined->given[2] == 5), "the end", joined->given[2]);
    if (joined->given[2] == 5) {
        uint8_t *out = exact(4);
        check(form->end(before, out, 4, &answer) == CESR_ROOM && answer == 0 && held(out, 0, 4), "4 bytes are 3", 4);
        free(out);
    } else {
        check(form->end(before, NULL, 0, &answer) == CESR_ACCEPTED && answer == 0, "no remainder asks no room", 0);
    }
    check(form->end(state, joined->rest, 5, &answer) == CESR_UNFIT_STATE && answer == 0, "an end after the end is 13", 0);
    check(fed(form, state, (const uint8_t *)"MAAB", 4, 9, 9, joined) == CESR_UNFIT_STATE, "a piece after the end is 13", 4);
    check(fed(form, state, (const uint8_t *)"", 0, 9, 9, joined) == CESR_UNFIT_STATE, "an empty one too", 0);
}

static size_t put(uint8_t *report, size_t at, const uint8_t *rows, size_t length, size_t row) {
    size_t count = length / row;
    uint8_t four[4] = {(uint8_t)(count >> 24), (uint8_t)(count >> 16), (uint8_t)(count >> 8), (uint8_t)count};
    memcpy(report + at, four, 4);
    memcpy(report + at + 4, rows, length);
    return at + 4 + length;
}

/* Joined, with their counts, the rows are the report. */
static void is_whole(const struct form *form, const uint8_t *stream, size_t length, const struct joined *joined, size_t cut) {
    uint8_t whole[1100], report[1100];
    size_t size = 0, at = 0;
    check(form->report(stream, length, whole, sizeof whole, &size) == CESR_ACCEPTED, "a report", length);
    at = put(report, at, joined->items, joined->given[0], 9);
    at = put(report, at, joined->refusals, joined->given[1], 9);
    at = put(report, at, joined->rest, joined->given[2], 5);
    check(at == size && memcmp(report, whole, size) == 0, "joined, the rows are the report's", cut);
}

static void start(const struct form *form, size_t *state) {
    memset(state, 0, CESR_PIECES * sizeof *state);
    state[0] = form->unit;
}

/* Cut at every place, and everywhere. */
static void cut(const struct form *form, const uint8_t *stream, size_t length) {
    size_t state[CESR_PIECES];
    for (size_t at = 0; at <= length; at++) {
        struct joined joined = {{0}, {0}, {0}, {0}};
        start(form, state);
        in_any_room(form, state, stream, at, &joined);
        in_any_room(form, state, stream + at, length - at, &joined);
        ended(form, state, &joined);
        is_whole(form, stream, length, &joined, at);
    }
    struct joined joined = {{0}, {0}, {0}, {0}};
    start(form, state);
    for (size_t at = 0; at < length; at++) {
        in_any_room(form, state, stream + at, 1, &joined);
        in_any_room(form, state, stream + at, 0, &joined);
    }
    ended(form, state, &joined);
    is_whole(form, stream, length, &joined, length + 1);
}

static void cuts(void) {
    static const char *const STREAMS[] = {
        "", "MAAB", "-AAB0AAAMAAB", "-AABMQAA-KABMAAB0JAA5BAA", "MAABMA!!MAAB", "MAAB-_AAABAAMAAB", "--JAAAAA7AABAAAAMAAB", "8AABAAAA",
        "-JAC4AABAAAA6BABAAB=-AAB", "MAABMA", "-_AAACAAMAAB_",
    };
    uint8_t binary[64];
    size_t size = 0;
    for (size_t i = 0; i < sizeof STREAMS / sizeof *STREAMS; i++) {
        const uint8_t *text = (const uint8_t *)STREAMS[i];
        size_t length = strlen(STREAMS[i]);
        cut(&TEXT, text, length);
        if (cesr_text_to_binary(text, length / 4 * 4, binary, sizeof binary, &size) == CESR_ACCEPTED) {
            cut(&BINARY, binary, size);
            cut(&BINARY, binary, size > 0 ? size - 1 : 0);
        }
    }
}

/* What the header says: how a state starts, of which form it is, and the rows read. */
static void said(void) {
    size_t text[CESR_PIECES] = CESR_PIECES_TEXT, binary[CESR_PIECES] = CESR_PIECES_BINARY, given[2], answer = 99;
    uint8_t items[CESR_FEED_ROOM_TEXT(12)], refusals[CESR_FEED_ROOM_TEXT(12)], rest[CESR_END_ROOM];
    struct cesr_item_row item;
    struct cesr_refusal_row refusal;
    struct cesr_remainder_row remainder;
    check(cesr_feed_binary(text, NULL, 0, NULL, 0, NULL, 0, given) == CESR_UNFIT_STATE, "a text's state is no binary's", 4);
    check(cesr_end_binary(text, NULL, 0, &answer) == CESR_UNFIT_STATE && answer == 0, "a text's end is no binary's", 4);
    check(cesr_feed_text(binary, NULL, 0, NULL, 0, NULL, 0, given) == CESR_UNFIT_STATE, "a binary's state is no text's", 3);
    check(cesr_feed_text(text, NULL, 0, NULL, 0, NULL, 0, given) == CESR_ACCEPTED, "nothing is a piece", 0);
    check(cesr_feed_text(text, (const uint8_t *)"MAABMQAA0H", 10, items, sizeof items, refusals, sizeof refusals, given) == CESR_ACCEPTED,
          "a piece", 10);
    check(cesr_fed_item(items, given[0], 0, &item) && item.offset == 0 && item.size == 4 && item.verdict == CESR_ACCEPTED, "item 0", 0);
    check(cesr_fed_item(items, given[0], 1, &item) && item.offset == 4 && item.size == 4 && item.verdict == CESR_NOT_ZERO, "item 1", 1);
    check(!cesr_fed_item(items, given[0], 2, &item) && item.offset == 4, "no item 2", 2);
    check(cesr_fed_refusal(refusals, given[1], 0, &refusal) && refusal.item == 1 && refusal.number == CESR_NOT_ZERO && refusal.place == 4,
          "a refusal", 0);
    check(!cesr_fed_refusal(refusals, given[1], 1, &refusal), "no more", 1);
    check(cesr_end_text(text, rest, sizeof rest, &answer) == CESR_ACCEPTED, "the end", 5);
    check(cesr_fed_remainder(rest, answer, &remainder) && remainder.offset == 8 && remainder.number == CESR_PAST_END, "4 from 8", 8);
    check(!cesr_fed_remainder(rest, 0, &remainder), "no remainder", 0);
}

/* Each number of a state past every bound: 13, or an answer that keeps to its buffers. The first one, the form, is the other's at most. */
static void damaged(const struct form *form) {
    static const size_t NUMBERS[] = {1, 2, 3, 5, 65, 255, 256, (size_t)1 << 20, (size_t)1 << 31, (size_t)-1};
    const uint8_t *piece = (const uint8_t *)"MAABMAAB";
    for (size_t place = 0; place < CESR_PIECES; place++) {
        for (size_t i = 0; i < sizeof NUMBERS / sizeof *NUMBERS; i++) {
            size_t state[CESR_PIECES];
            struct joined joined = {{0}, {0}, {0}, {0}};
            start(form, state);
            state[place] = NUMBERS[i];
            uint8_t number = fed(form, state, piece, 8, 27, 27, &joined);
            check(number == CESR_ACCEPTED || number == CESR_TOO_LONG || number == CESR_UNFIT_STATE, "13, 1 or taken in", place);
            if (NUMBERS[i] == (size_t)-1) {
                check(number == CESR_UNFIT_STATE, "no number is so large", place);
            }
        }
    }
}

/* 1 comes to the piece that passes the limit, after 13 and before 3, and the stream may still end. */
static void limits(const struct form *form) {
    uint8_t *stream = exact(form->limit);
    size_t state[CESR_PIECES], given[2], answer = 99;
    uint8_t rest[5];
    memset(stream, 0xFF, form->limit);
    start(form, state);
    check(form->feed(state, stream, form->limit - 1, NULL, 0, NULL, 0, given) == CESR_ACCEPTED, "up to the limit", form->limit);
    check(form->feed(state, stream, 2, NULL, 0, NULL, 0, given) == CESR_TOO_LONG, "past it is 1", form->limit);
    check(form->feed(state, stream, 1, NULL, 0, NULL, 0, given) == CESR_ACCEPTED, "the limit itself", form->limit);
    check(form->feed(state, stream, 0, NULL, 0, NULL, 0, given) == CESR_ACCEPTED, "nothing more", form->limit);
    check(form->feed(state, stream, 1, NULL, 0, NULL, 0, given) == CESR_TOO_LONG, "one more is 1", form->limit);
    check(form->end(state, rest, 5, &answer) == CESR_ACCEPTED && answer == 5 && rest[3] == 0, "all of it is the remainder", form->limit);
    check(form->feed(state, stream, 1, NULL, 0, NULL, 0, given) == CESR_UNFIT_STATE, "13 before 1", form->limit);
    free(stream);
}

int main(void) {
    cuts();
    said();
    damaged(&TEXT);
    damaged(&BINARY);
    limits(&TEXT);
    limits(&BINARY);
    printf("%d checks of pieces, %d failed\n", checks, failures);
    return failures != 0;
}
