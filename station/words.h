/* Numbers and times as a person reads them. */
#ifndef PEATLANTERN_WORDS_H
#define PEATLANTERN_WORDS_H

#include <stdint.h>

/* The unit of the chip's time. */
#define MICROS "\302\265s"

/* Room for a number or a time in words. */
#define WORD 48

/* A number with its thousands apart: 60,988. Gives the text back. */
const char *grouped(uint64_t number, char text[WORD]);

/* A time, given in microseconds, in the unit that suits it: 20 µs, 58.9 ms, 12.35 s, 4 min 12 s. */
const char *time_text(uint64_t micros, char text[WORD]);

/* A part of a whole in hundredths: 99.9 %. The whole is not 0. */
const char *share_text(uint64_t part, uint64_t whole, char text[WORD]);

#endif
