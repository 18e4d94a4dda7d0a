/* A report's rows, read, and a mixed report's: three sections, each after its count in 4 bytes. Assumes that the bytes are those that a
 * report call wrote, with the length that it answered; of other bytes a row is told only where all of it is there. */
#include "cesr.h"

enum { COUNT = 4, ROW = 9, MIXED = 10, REMAINDER = 5 };

static size_t quad(const uint8_t *at) {
    return (size_t)at[0] << 24 | (size_t)at[1] << 16 | (size_t)at[2] << 8 | (size_t)at[3];
}

/* Rows of one width, and what stands behind them. */
struct section {
    const uint8_t *rows;
    size_t count, behind;
};

/* The section of so many bytes a row from a place on; no rows where its count or one of them is missing. */
static struct section section(const uint8_t *report, size_t length, size_t from, size_t width) {
    struct section none = {report, 0, length};
    if (length < from || length - from < COUNT) {
        return none;
    }
    size_t count = quad(report + from);
    if ((length - from - COUNT) / width < count) {
        return none;
    }
    struct section found = {report + from + COUNT, count, from + COUNT + width * count};
    return found;
}

/* The sections of a report whose items have rows of so many bytes. */
static struct section items(const uint8_t *report, size_t length, size_t width) {
    return section(report, length, 0, width);
}

static struct section refusals(const uint8_t *report, size_t length, size_t width) {
    return section(report, length, items(report, length, width).behind, ROW);
}

static struct section remainders(const uint8_t *report, size_t length, size_t width) {
    return section(report, length, refusals(report, length, width).behind, REMAINDER);
}

static int refusal_row(struct section found, size_t index, struct cesr_refusal_row *row) {
    if (index >= found.count) {
        return 0;
    }
    const uint8_t *at = found.rows + ROW * index;
    row->item = quad(at);
    row->number = at[4];
    row->place = quad(at + 5);
    return 1;
}

static int remainder_row(struct section found, struct cesr_remainder_row *row) {
    if (found.count == 0) {
        return 0;
    }
    row->offset = quad(found.rows);
    row->number = found.rows[4];
    return 1;
}

size_t cesr_items(const uint8_t *report, size_t report_len) {
    return items(report, report_len, ROW).count;
}

size_t cesr_refusals(const uint8_t *report, size_t report_len) {
    return refusals(report, report_len, ROW).count;
}

int cesr_item_row(const uint8_t *report, size_t report_len, size_t index, struct cesr_item_row *row) {
    struct section found = items(report, report_len, ROW);
    if (index >= found.count) {
        return 0;
    }
    const uint8_t *at = found.rows + ROW * index;
    row->offset = quad(at);
    row->size = quad(at + 4);
    row->verdict = at[8];
    return 1;
}

int cesr_refusal_row(const uint8_t *report, size_t report_len, size_t index, struct cesr_refusal_row *row) {
    return refusal_row(refusals(report, report_len, ROW), index, row);
}

int cesr_remainder_row(const uint8_t *report, size_t report_len, struct cesr_remainder_row *row) {
    return remainder_row(remainders(report, report_len, ROW), row);
}

size_t cesr_mixed_items(const uint8_t *report, size_t report_len) {
    return items(report, report_len, MIXED).count;
}

size_t cesr_mixed_refusals(const uint8_t *report, size_t report_len) {
    return refusals(report, report_len, MIXED).count;
}

int cesr_mixed_item_row(const uint8_t *report, size_t report_len, size_t index, struct cesr_mixed_row *row) {
    struct section found = items(report, report_len, MIXED);
    if (index >= found.count) {
        return 0;
    }
    const uint8_t *at = found.rows + MIXED * index;
    row->offset = quad(at);
    row->size = quad(at + 4);
    row->verdict = at[8];
    row->form = at[9];
    return 1;
}

int cesr_mixed_refusal_row(const uint8_t *report, size_t report_len, size_t index, struct cesr_refusal_row *row) {
    return refusal_row(refusals(report, report_len, MIXED), index, row);
}

int cesr_mixed_remainder_row(const uint8_t *report, size_t report_len, struct cesr_remainder_row *row) {
    return remainder_row(remainders(report, report_len, MIXED), row);
}

int cesr_mixed_passed(const uint8_t *report, size_t report_len) {
    struct section found = items(report, report_len, MIXED);
    /* Three counts and the items: no refusal, no remainder, nothing missing and nothing left over. */
    if (found.count == 0 || report_len != 3 * COUNT + MIXED * found.count) {
        return 0;
    }
    for (size_t index = 0; index < found.count; index++) {
        if (found.rows[MIXED * index + 8] != CESR_ACCEPTED) {
            return 0;
        }
    }
    return quad(report + found.behind) == 0 && quad(report + found.behind + COUNT) == 0;
}
