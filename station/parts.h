/* The parts by name, and their figures. */
#ifndef PEATLANTERN_PARTS_H
#define PEATLANTERN_PARTS_H

#include <stdbool.h>
#include <stddef.h>
#include <stdint.h>

/* The name of a part, or its absence in words. */
const char *part_name(uint32_t part);

/* The part that a text names: by its name, in capitals or not, with SST39 before it or not; or by its number,
   which need not be a part's. */
bool part_of(const char *text, uint32_t *part);

/* A number: decimal, or hexadecimal as 0x1234 or 1234H. */
bool number_of(const char *text, uint32_t *number);

/* The cells of a sector: the least number of values of which a job is taken; 0 where there is no such part. */
int sector_of(uint32_t part, size_t *sector);

/* Whether an erase of the part can be suspended and resumed: whether the model, asked so, suspends one. */
int holds_erases(uint32_t part, bool *held);

/* What a blank cell of the part holds. */
uint16_t blank_of(uint32_t part);

/* Prints the parts with their figures, a line each. */
int print_parts(void);

#endif
