/* What stands beside the proved calls in C, and what was added to them: whether a stream passed, a report's rows, room and limits, null
 * where a length is 0. With the word `words` it prints every number with its words, which run.sh holds against the list. Exits with 1 if
 * any differs. */
#include "cesr.h"

#include <stdio.h>
#include <string.h>

static int failures = 0;
static int checks = 0;

static void check(int holds, const char *what, const char *of) {
    checks++;
    if (!holds) {
        failures++;
        fprintf(stderr, "%s: %s\n", of, what);
    }
}

static const uint8_t *bytes(const char *text) {
    return (const uint8_t *)text;
}

/* ---- a report, whether it passed, and its rows */

static uint8_t report[CESR_REPORT_ROOM_TEXT(64)];

static size_t judged(const char *text) {
    size_t length = 0;
    check(cesr_report_text(bytes(text), strlen(text), report, CESR_REPORT_ROOM_TEXT(strlen(text)), &length) == 0, "room is enough", text);
    return length;
}

static void passes(const char *text, size_t expected) {
    size_t passed = 99;
    size_t length = judged(text);
    check(cesr_passed(report, length, &passed) == CESR_ACCEPTED && passed == expected, "passed or not", text);
    /* One byte more or less is no report. */
    check(cesr_passed(report, length - 1, &passed) == CESR_MALFORMED && passed == 0, "20 is no pass", text);
    report[length] = 0;
    check(cesr_passed(report, length + 1, &passed) == CESR_MALFORMED && passed == 0, "20 is no pass", text);
}

static void whether_passed(void) {
    passes("MAAB", 1);
    passes("-AABMAAB1AAM", 1);
    passes("", 0);
    passes("MAABMQAA", 0);
    passes("MQAA", 0);
    passes("MAABE8wY", 0);
    passes("_AAA", 0);
    size_t passed = 99;
    check(cesr_passed(bytes("MAAB"), 4, &passed) == CESR_MALFORMED && passed == 0, "20 is no pass", "a stream for its report");
    check(cesr_passed(NULL, 0, &passed) == CESR_MALFORMED && passed == 0, "20 is no pass", "no bytes");
    /* An item that is accepted and has the row of a refusal: nobody's report, and no pass. */
    static const uint8_t odd[] = {0, 0, 0, 1, 0, 0, 0, 0, 0, 0, 0, 4, 0, 0, 0, 0, 1, 0, 0, 0, 0, 8, 0, 0, 0, 0, 0, 0, 0, 0};
    check(cesr_passed(odd, sizeof odd, &passed) == CESR_ACCEPTED && passed == 0, "a refusal's row is no pass", "odd");
}

static void rows(void) {
    const char *text = "MAABMQAA-AAB0AAA_AAA";
    size_t length = judged(text);
    struct cesr_item_row item = {99, 99, 99};
    struct cesr_refusal_row refusal = {99, 99, 99};
    struct cesr_remainder_row rest = {99, 99};
    check(cesr_items(report, length) == 3 && cesr_refusals(report, length) == 2, "counts", text);
    check(cesr_item_row(report, length, 2, &item) && item.offset == 8 && item.size == 8 && item.verdict == CESR_PAST_END, "item 2", text);
    check(cesr_item_row(report, length, 0, &item) && item.offset == 0 && item.size == 4 && item.verdict == CESR_ACCEPTED, "item 0", text);
    check(!cesr_item_row(report, length, 3, &item) && item.size == 4, "no item 3, and the row stays", text);
    check(cesr_refusal_row(report, length, 0, &refusal) && refusal.item == 1 && refusal.number == 8 && refusal.place == 4, "refusal 0", text);
    check(cesr_refusal_row(report, length, 1, &refusal) && refusal.item == 2 && refusal.number == 4 && refusal.place == 12, "refusal 1", text);
    check(!cesr_refusal_row(report, length, 2, &refusal) && refusal.item == 2, "no refusal 2", text);
    check(cesr_remainder_row(report, length, &rest) && rest.offset == 16 && rest.number == CESR_UNKNOWN_CODE, "the remainder", text);
    /* Cut anywhere: rows that are whole, or none. Nothing past the length is read, which edges.sh would see. */
    for (size_t cut = 0; cut < length; cut++) {
        check(cesr_items(report, cut) == (cut < 31 ? 0u : 3u), "items of a cut report", text);
        check(cesr_refusals(report, cut) == (cut < 53 ? 0u : 2u), "refusals of a cut report", text);
        check(!cesr_remainder_row(report, cut, &rest), "no remainder in a cut report", text);
    }
    length = judged("MAAB");
    check(!cesr_remainder_row(report, length, &rest) && !cesr_refusal_row(report, length, 0, &refusal), "nothing refused", "MAAB");
    /* Four billion rows are not there. */
    memset(report, 0xFF, sizeof report);
    check(cesr_items(report, sizeof report) == 0 && !cesr_item_row(report, sizeof report, 0, &item), "no rows", "a count too large");
}

/* The rows of a mixed report: two accepted items, one refused between them, a remainder; cut anywhere; and one that passed. */
static void mixed_rows(void) {
    const char *text = "{\"v\":\"KERI10JSON000017_-AABMQAA-AAAMAAB";
    size_t length = 0;
    struct cesr_mixed_row item = {99, 99, 99, 99};
    struct cesr_refusal_row refusal = {99, 99, 99};
    struct cesr_remainder_row rest = {99, 99};
    size_t room = CESR_REPORT_ROOM_MIXED(strlen(text));
    check(cesr_report_mixed(bytes(text), strlen(text), report, room, &length) == 0, "room is enough", text);
    check(cesr_mixed_items(report, length) == 3 && cesr_mixed_refusals(report, length) == 1, "counts", text);
    check(cesr_mixed_item_row(report, length, 0, &item) && item.size == 23 && item.verdict == 0, "item 0", text);
    check(item.form == CESR_FORM_JSON, "JSON", text);
    check(cesr_mixed_item_row(report, length, 1, &item) && item.offset == 23 && item.verdict == 8, "item 1", text);
    check(item.form == CESR_FORM_TEXT, "text", text);
    check(!cesr_mixed_item_row(report, length, 3, &item) && item.offset == 23, "no item 3, and the row stays", text);
    check(cesr_mixed_refusal_row(report, length, 0, &refusal) && refusal.item == 1 && refusal.number == 8, "refusal 0", text);
    check(refusal.place == 27, "its place", text);
    check(!cesr_mixed_refusal_row(report, length, 1, &refusal), "no refusal 1", text);
    check(cesr_mixed_remainder_row(report, length, &rest) && rest.offset == 35 && rest.number == CESR_MIXED_START, "the remainder", text);
    check(!cesr_mixed_passed(report, length), "a refusal is no pass", text);
    for (size_t cut = 0; cut < length; cut++) {
        check(cesr_mixed_items(report, cut) == (cut < 34 ? 0u : 3u), "items of a cut report", text);
        check(cesr_mixed_refusals(report, cut) == (cut < 47 ? 0u : 1u), "refusals of a cut report", text);
        check(!cesr_mixed_remainder_row(report, cut, &rest) && !cesr_mixed_passed(report, cut), "a cut report", text);
    }
    check(cesr_report_mixed(bytes("\xF8\0\0-AAA"), 7, report, CESR_MIXED_ROOM(2), &length) == 0 && length == 32, "two items", "two forms");
    check(cesr_mixed_item_row(report, length, 0, &item) && item.form == CESR_FORM_BINARY && item.size == 3, "binary", "two forms");
    check(cesr_mixed_passed(report, length), "passed", "two forms");
    for (size_t cut = 0; cut < length; cut++) {
        check(!cesr_mixed_passed(report, cut), "a cut report has not passed", "two forms");
    }
    report[length] = 0;
    check(!cesr_mixed_passed(report, length + 1), "a longer one neither", "two forms");
    static const size_t places[] = {12, 27, 31};
    for (size_t at = 0; at < sizeof places / sizeof places[0]; at++) {
        report[places[at]]++;
        check(!cesr_mixed_passed(report, length), "nor with a verdict, a refusal or a remainder", "two forms");
        report[places[at]]--;
    }
    check(cesr_report_mixed(NULL, 0, report, CESR_MIXED_ROOM(0), &length) == 0 && !cesr_mixed_passed(report, length), "empty", "no pass");
}

/* ---- null where the length is 0 */

static void nulls(void) {
    uint8_t out[64], tag[CESR_TAG] = {0};
    size_t answer = 99, info[CESR_INFO], item[CESR_ITEM], state[CESR_STATE] = {0}, counts[CESR_COMPARED];
    check(cesr_text_to_binary(NULL, 0, NULL, 0, &answer) == 0 && answer == 0, "nothing converted", "null");
    check(cesr_binary_to_text(NULL, 0, NULL, 0, &answer) == 0 && answer == 0, "nothing converted", "null");
    check(cesr_text_to_binary(bytes("MAAB"), 4, NULL, 0, &answer) == CESR_ROOM, "no room", "null");
    check(cesr_binary_to_text(bytes("abc"), 3, NULL, 0, &answer) == CESR_ROOM, "no room", "null");
    check(cesr_report_text(NULL, 0, out, sizeof out, &answer) == 0 && answer == 12, "an empty report", "null");
    check(cesr_report_binary(NULL, 0, out, sizeof out, &answer) == 0 && answer == 12, "an empty report", "null");
    check(cesr_report_text(bytes("MAAB"), 4, NULL, 0, &answer) == CESR_ROOM, "no room", "null");
    check(cesr_report_binary(NULL, 0, NULL, 0, &answer) == CESR_ROOM, "no room", "null");
    check(cesr_report_mixed(NULL, 0, out, sizeof out, &answer) == 0 && answer == 12, "an empty report", "null");
    check(cesr_report_mixed(bytes("-AAA"), 4, NULL, 0, &answer) == CESR_ROOM, "no room", "null");
    check(cesr_mixed_items(NULL, 0) == 0 && cesr_mixed_refusals(NULL, 0) == 0 && !cesr_mixed_passed(NULL, 0), "no rows", "null");
    check(cesr_second_text(NULL, 0, out, sizeof out, &answer) == 0 && answer == 12, "an empty report", "null");
    check(cesr_second_binary(NULL, 0, NULL, 0, out, sizeof out, &answer) == 0 && answer == 12, "an empty report", "null");
    check(cesr_second_binary(bytes("ab"), 2, NULL, 0, out, sizeof out, &answer) == 0 && answer == 17, "no whole triplet", "null");
    check(cesr_second_binary(bytes("abc"), 3, NULL, 0, out, sizeof out, &answer) == CESR_ROOM, "no working room", "null");
    check(cesr_second_text(NULL, 0, NULL, 0, &answer) == CESR_ROOM, "no room", "null");
    check(cesr_read_text(NULL, 0, 0, NULL, 0, tag, info, &answer) == CESR_PAST_END, "nothing to read", "null");
    check(cesr_read_binary(NULL, 0, 0, NULL, 0, tag, info, &answer) == CESR_PAST_END, "nothing to read", "null");
    check(cesr_read_text(bytes("Xicp"), 4, 0, NULL, 0, tag, info, &answer) == 0 && tag[0] == 'i', "a tag asks no room", "null");
    check(cesr_write_text(4, 'M', tag, 0, NULL, 0, out, sizeof out, &answer) == 0 && answer == 4, "no raw value", "null");
    check(cesr_write_binary(4, 'M', tag, 0, NULL, 0, out, sizeof out, &answer) == 0 && answer == 3, "no raw value", "null");
    check(cesr_write_text(4, 'M', tag, 0, NULL, 0, NULL, 0, &answer) == CESR_ROOM, "no room", "null");
    check(cesr_read_indexed_text(NULL, 0, 0, NULL, 0, info, &answer) == CESR_PAST_END, "nothing to read", "null");
    check(cesr_read_indexed_binary(NULL, 0, 0, info, &answer) == CESR_PAST_END, "nothing to read", "null");
    check(cesr_write_indexed_text(0, 'A', 0, 0, NULL, 0, out, sizeof out, &answer) == CESR_UNFIT_LENGTH, "no raw value", "null");
    check(cesr_write_indexed_binary(0, 'A', 0, 0, NULL, 0, NULL, 0, &answer) == CESR_UNFIT_LENGTH, "no raw value", "null");
    check(cesr_group_text('A', 0, NULL, 0, &answer) == CESR_ROOM, "no room", "null");
    check(cesr_group_binary('A', 9, NULL, 0, &answer) == CESR_ROOM, "no room", "null");
    check(cesr_group_text('0', 0, NULL, 0, &answer) == CESR_UNKNOWN_CODE, "no group", "null");
    check(cesr_walk_text(NULL, 0, state, item, &answer) == CESR_END, "the end", "null");
    check(cesr_walk_binary(NULL, 0, state, item, &answer) == CESR_END, "the end", "null");
    check(cesr_walk_on_text(NULL, 0, state, 9, info, &answer) == CESR_END && info[0] == 0, "the end", "null");
    check(cesr_walk_on_binary(NULL, 0, state, 9, info, &answer) == CESR_END && info[0] == 0, "the end", "null");
    check(cesr_compare(NULL, 0, NULL, 0, counts) == CESR_MALFORMED && counts[CESR_COMPARED_AGREE] == 0, "20", "null");
    check(cesr_items(NULL, 0) == 0 && cesr_refusals(NULL, 0) == 0, "no rows", "null");
}

/* ---- room and limits */

static uint8_t stream[CESR_LIMIT_TEXT + 1], longest[CESR_REPORT_ROOM_TEXT(CESR_LIMIT_TEXT)];

static void limits(void) {
    size_t answer = 99, passed = 99;
    for (size_t i = 0; i < sizeof stream; i++) {
        stream[i] = (uint8_t)"MAAB"[i % 4];
    }
    check(cesr_report_text(stream, CESR_LIMIT_TEXT, longest, sizeof longest, &answer) == 0, "the longest text", "limits");
    check(cesr_items(longest, answer) == CESR_LIMIT_TEXT / 4, "items", "limits");
    check(cesr_passed(longest, answer, &passed) == 0 && passed == 1, "passed", "limits");
    check(cesr_report_text(stream, CESR_LIMIT_TEXT + 1, longest, sizeof longest, &answer) == CESR_TOO_LONG, "one more", "limits");
    check(cesr_second_text(stream, CESR_LIMIT_TEXT, longest, sizeof longest, &answer) == 0, "the second engine", "limits");
    check(cesr_passed(longest, answer, &passed) == 0 && passed == 1, "passed", "limits");
    check(CESR_SECOND_ROOM(CESR_LIMIT_BINARY) == CESR_LIMIT_TEXT, "working room", "limits");
    check(cesr_text_to_binary(stream, CESR_LIMIT_TEXT, longest, CESR_TO_BINARY_ROOM(CESR_LIMIT_TEXT), &answer) == 0, "room", "limits");
    check(answer == CESR_LIMIT_BINARY && CESR_TO_TEXT_ROOM(answer) == CESR_LIMIT_TEXT, "the longest binary", "limits");
    check(CESR_REPORT_ROOM_BINARY(CESR_LIMIT_BINARY) == sizeof longest, "as many items", "limits");
    for (size_t units = 4094; units < 4098; units++) {
        size_t headers = units > 4095 ? 2 : 1, length = 4 * units;
        check(CESR_GROUP_ROOM_TEXT(length) == length + 4 * headers, "room for a group", "text");
        check(CESR_GROUP_ROOM_BINARY(3 * units) == 3 * (units + headers), "room for a group", "binary");
        check(cesr_group_text('J', length, stream, CESR_GROUP_ROOM_TEXT(length) - 1, &answer) == CESR_ROOM, "one less", "limits");
        check(cesr_group_text('J', length, stream, CESR_GROUP_ROOM_TEXT(length), &answer) == 0, "that room", "limits");
        memcpy(stream, "MAABMAAB", 8);
    }
}

static int print_words(void) {
    for (int number = 1; number < CESR_END; number++) {
        const char *words = cesr_words((uint8_t)number);
        if (words[0] != 0) {
            printf("%d %s\n", number, words);
        }
    }
    return 0;
}

int main(int argc, char **argv) {
    if (argc > 1 && strcmp(argv[1], "words") == 0) {
        return print_words();
    }
    whether_passed();
    rows();
    mixed_rows();
    nulls();
    limits();
    check(strcmp(cesr_version(), CESR_VERSION) == 0, "one version", "version");
    printf("%d checks, %d failed\n", checks, failures);
    return failures != 0;
}
