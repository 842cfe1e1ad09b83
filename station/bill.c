/* The bill as a person reads it, and a refusal in words. */
#include "bill.h"

#include <inttypes.h>
#include <stdio.h>

#include "fault.h"

/* A line without a remark. A unit that is counted is one of it, as "read". */
static void set_line(struct bill_line *line, const char *name, uint64_t number, const char *unit, bool counted)
{
    line->name = name;
    line->remark[0] = '\0';
    grouped(number, line->number);
    snprintf(line->unit, sizeof line->unit, "%s%s", unit, counted && number != 1 ? "s" : "");
}

void bill_lines(const struct station_bill *bill, uint32_t p, struct bill_line lines[BILL_LINES])
{
    char saved[WORD], share[WORD], whole[WORD];
    const uint64_t full = bill->saved + bill->spent;
    const uint64_t polling = bill->polls * p; /* the rest of what was spent is the confirming reads' */
    set_line(&lines[0], "saved", bill->saved, MICROS, false);
    set_line(&lines[1], "spent", bill->spent, MICROS, false);
    set_line(&lines[2], "erases", bill->erases, "sector", true);
    set_line(&lines[3], "programs", bill->programs, "cell", true);
    set_line(&lines[4], "polls", bill->polls, "read", true);
    set_line(&lines[5], "scans", bill->scans, "read", true);
    set_line(&lines[6], "confirms", bill->confirms, "read", true);
    set_line(&lines[7], "sum", bill->sum, "", false);
    set_line(&lines[8], "answer", bill->answer, "", false);
    if (full > 0)
        snprintf(lines[0].remark, sizeof lines[0].remark, "%s, %s of the %s of a full load",
                 time_text(bill->saved, saved), share_text(bill->saved, full, share), time_text(full, whole));
    if (bill->spent >= 1000)
        time_text(bill->spent, lines[1].remark);
    if (bill->polls > 0) {
        time_text(polling, lines[4].remark);
        time_text(bill->spent - polling, lines[6].remark);
    }
    snprintf(lines[7].remark, sizeof lines[7].remark, "%04XH", (unsigned)bill->sum);
}

void print_bill(const struct station_bill *bill, uint32_t p)
{
    struct bill_line lines[BILL_LINES];
    bill_lines(bill, p, lines);
    for (int i = 0; i < BILL_LINES; i++) {
        printf("%-8s %15s", lines[i].name, lines[i].number);
        if (lines[i].unit[0] != '\0')
            printf(" %s", lines[i].unit);
        if (lines[i].remark[0] != '\0')
            printf("  %s", lines[i].remark);
        printf("\n");
    }
}

/* What an answer says, in the words of docs/USING.md. */
static const char *const meanings[] = {"",
                                       "there is no part of that number (station parts)",
                                       "the cells are not as many as the part has",
                                       "the address is at or past the cells",
                                       "the data is above 255 on an eight-bit part",
                                       "that is no state in range for the part",
                                       "the first address or the number of values is no multiple of the sector (--pad)",
                                       "the image ends past the cells",
                                       "an image value is above 255 on an eight-bit part",
                                       "WP# is low, and the range holds a protected cell",
                                       "p is 0 or above 1,000 microseconds",
                                       "polling gave up",
                                       "the confirming read differs",
                                       "the job file is malformed or too long",
                                       "there is no such command",
                                       "that is past the end"};

int refused(uint32_t answer)
{
    const bool known = answer < sizeof meanings / sizeof meanings[0];
    printf("answer %" PRIu32 "\n", answer);
    return fault((int)answer, "refused with %" PRIu32 ": %s", answer, known ? meanings[answer] : "no meaning is known");
}
