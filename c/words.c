/* The numbers in words, and the version. Made by tools/numbers from include/numbers.txt: change that, and make it anew. */
#include "cesr.h"

const char *cesr_words(uint8_t number) {
    switch (number) {
    case CESR_ACCEPTED:
        return "accepted";
    case CESR_TOO_LONG:
        return "stream longer than 4,194,304 characters or 3,145,728 bytes, a mixed one than 4,194,304 bytes";
    case CESR_NOT_WHOLE_UNITS:
        return "whole-stream conversion: not whole units";
    case CESR_ROOM:
        return "output room too small";
    case CESR_PAST_END:
        return "header or full size passes the end of stream or enclosing group";
    case CESR_CHARACTER:
        return "character outside the alphabet but `+`, `/`, `=` (in T, or a character of a tag or text given to a writer)";
    case CESR_UNKNOWN_CODE:
        return "code unknown or reserved";
    case CESR_GENUS_VERSION:
        return "genus/version required but not `AAACAA`";
    case CESR_NOT_ZERO:
        return "pad bit or lead byte not zero";
    case CESR_LEAD_WITHOUT_VALUE:
        return "selector 5, 6, 8, 9 with n = 0";
    case CESR_PREPAD:
        return "tag prepad not `_`";
    case CESR_TOO_DEEP:
        return "group standing within 64 groups already";
    case CESR_UNFIT_LENGTH:
        return "writer: raw length, tag length, index or ondex unfit for the code";
    case CESR_UNFIT_STATE:
        return "walk state unfit for the stream, or state of pieces unfit or ended";
    case CESR_NOT_A_PRIMITIVE:
        return "primitive asked for, group or genus/version found";
    case CESR_ONDEX:
        return "ondex digits not zero in a code for the current key list only";
    case CESR_TEXT_FILL:
        return "type `A` without its full fill, or text that itself starts with `A`";
    case CESR_MIXED_START:
        return "mixed stream: first byte not `-`, F8 to FB or `{`, or a JSON header that is malformed or states a length below 23";
    case CESR_NOT_SHORT:
        return "large variable code or large group whose size fits the small code";
    case CESR_ORDINARY_BASE64:
        return "`+`, `/` or `=` of ordinary Base64 (in T, or a character of a tag or text given to a writer)";
    case CESR_MALFORMED:
        return "expectation file or report with a missing count, a section shorter than its count says, a remainder count above 1, or bytes left over";
    case CESR_END:
        return "the end of the stream";
    default:
        return "";
    }
}

const char *cesr_version(void) {
    return CESR_VERSION;
}
