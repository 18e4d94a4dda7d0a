/* Judges a text stream over the installed library: its refusals in words, its sums; 0 if every byte lies in an accepted item, else 1. */
#include <cesr.h>

#include <stdio.h>
#include <string.h>

static uint8_t stream[CESR_LIMIT_TEXT + 1];
static uint8_t report[CESR_REPORT_ROOM_TEXT(CESR_LIMIT_TEXT)];

int main(void) {
    size_t length = 0, passed = 0;
    size_t read = fread(stream, 1, sizeof stream, stdin);
    struct cesr_refusal_row refusal;
    struct cesr_remainder_row remainder;
    if (strcmp(cesr_version(), CESR_VERSION) != 0 || ferror(stdin)) {
        return 2;
    }
    uint8_t number = cesr_report_text(stream, read, report, sizeof report, &length);
    if (number != CESR_ACCEPTED || cesr_passed(report, length, &passed) != CESR_ACCEPTED) {
        fprintf(stderr, "refused %u: %s\n", number, cesr_words(number));
        return 2;
    }
    for (size_t i = 0; cesr_refusal_row(report, length, i, &refusal); i++) {
        printf("item %zu refused %u at %zu: %s\n", refusal.item, refusal.number, refusal.place, cesr_words(refusal.number));
    }
    if (cesr_remainder_row(report, length, &remainder)) {
        printf("remainder %u from %zu\n", remainder.number, remainder.offset);
    }
    printf("%zu items, %zu refused\n", cesr_items(report, length), cesr_refusals(report, length));
    return passed ? 0 : 1;
}
