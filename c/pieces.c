/* The rows that pieces of a stream, and its end, gave, read. Assumes that the bytes are those that a call wrote, with the length that it
 * answered; of other bytes a row is told only where all of it is there. */
#include "cesr.h"

enum { ROW = 9, REMAINDER = 5 };

static size_t quad(const uint8_t *at) {
    return (size_t)at[0] << 24 | (size_t)at[1] << 16 | (size_t)at[2] << 8 | (size_t)at[3];
}

int cesr_fed_item(const uint8_t *items, size_t given, size_t index, struct cesr_item_row *row) {
    if (index >= given / ROW) {
        return 0;
    }
    const uint8_t *at = items + ROW * index;
    row->offset = quad(at);
    row->size = quad(at + 4);
    row->verdict = at[8];
    return 1;
}

int cesr_fed_refusal(const uint8_t *refusals, size_t given, size_t index, struct cesr_refusal_row *row) {
    if (index >= given / ROW) {
        return 0;
    }
    const uint8_t *at = refusals + ROW * index;
    row->item = quad(at);
    row->number = at[4];
    row->place = quad(at + 5);
    return 1;
}

int cesr_fed_remainder(const uint8_t *out, size_t given, struct cesr_remainder_row *row) {
    if (given < REMAINDER) {
        return 0;
    }
    row->offset = quad(out);
    row->number = out[4];
    return 1;
}
