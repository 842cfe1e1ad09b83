/* Numbers and times as a person reads them. */
#include "words.h"

#include <inttypes.h>
#include <stdio.h>

const char *grouped(uint64_t number, char text[WORD])
{
    char digits[24];
    const int length = snprintf(digits, sizeof digits, "%" PRIu64, number);
    int at = 0;
    for (int i = 0; i < length; i++) {
        if (i > 0 && (length - i) % 3 == 0)
            text[at++] = ',';
        text[at++] = digits[i];
    }
    text[at] = '\0';
    return text;
}

const char *time_text(uint64_t micros, char text[WORD])
{
    const uint64_t tenths = (micros + 50) / 100;         /* of a millisecond */
    const uint64_t hundredths = (micros + 5000) / 10000; /* of a second */
    const uint64_t seconds = (micros + 500000) / 1000000;
    if (micros < 1000)
        snprintf(text, WORD, "%" PRIu64 " " MICROS, micros);
    else if (tenths < 10000)
        snprintf(text, WORD, "%" PRIu64 ".%" PRIu64 " ms", tenths / 10, tenths % 10);
    else if (hundredths < 6000)
        snprintf(text, WORD, "%" PRIu64 ".%02" PRIu64 " s", hundredths / 100, hundredths % 100);
    else
        snprintf(text, WORD, "%" PRIu64 " min %" PRIu64 " s", seconds / 60, seconds % 60);
    return text;
}

const char *share_text(uint64_t part, uint64_t whole, char text[WORD])
{
    const uint64_t tenths = part * 1000 / whole; /* of a hundredth, rounded down: 100 % is all */
    snprintf(text, WORD, "%" PRIu64 ".%" PRIu64 " %%", tenths / 10, tenths % 10);
    return text;
}
