/* The bill as a person reads it, and a refusal in words. */
#ifndef PEATLANTERN_BILL_H
#define PEATLANTERN_BILL_H

#include "station.h"
#include "words.h"

/* A line of the bill: its name, its number, the unit, and what is to be said beside it. */
struct bill_line {
    const char *name;
    char number[WORD];
    char unit[WORD];
    char remark[3 * WORD];
};

#define BILL_LINES 9

/* The lines of the bill of an accepted job that polled every p microseconds, in their order. */
void bill_lines(const struct station_bill *bill, uint32_t p, struct bill_line lines[BILL_LINES]);

/* Prints them. */
void print_bill(const struct station_bill *bill, uint32_t p);

/* Prints the answer line of a refused call, says on standard error what it means, and gives the answer back. */
int refused(uint32_t answer);

#endif
