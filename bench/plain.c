/*
 * What bench/run compares with: the job of crates/speed and the bus cycles of crates/cycles in plain C, for part 8 alone. The chip is a
 * handful of variables. There is no table, no refusal and no test of a state's range, and every reply is believed.
 */
#include <inttypes.h>
#include <stdint.h>
#include <stdio.h>
#include <stdlib.h>
#include <string.h>

enum { CELLS = 1048576, SECTOR = 2048, P = 10, PROGRAM_TIME = 28, ERASE_TIME = 36000, CONFIRMING_TIME = 1, ALL_BUT_7 = 0xff7f };

static uint16_t cells[CELLS], image[CELLS];

/* The chip beside its cells: the stage of the write sequence, the operation that runs while time is left, and whether one has
   completed 0 microseconds ago. */
static unsigned stage, left, erasing, toggle, recent;
static uint32_t at;
static uint16_t word;

static uint64_t erases, programs, polls, scans, confirms;

static void scatter(uint16_t *words, uint32_t x)
{
    for (size_t i = 0; i < CELLS; i++) {
        x = (x * 1103515245u + 12345u) & 0x7fffffff;
        words[i] = (uint16_t)(x >> 12);
    }
}

static void pass(unsigned elapsed)
{
    if (elapsed < left) {
        left -= elapsed;
        return;
    }
    recent = elapsed == left;
    left = 0;
    if (erasing)
        memset(cells + (at & ~(SECTOR - 1u)), 0xff, SECTOR * sizeof *cells);
    else
        cells[at] &= word;
}

static void begin(unsigned erase, unsigned time, uint32_t a, uint16_t x)
{
    stage = 0, left = time, erasing = erase, toggle = 1, recent = 0, at = a, word = x;
}

static void write_cycle(uint32_t a, uint16_t x)
{
    int one = (a & 0x7fff) == 0x5555, two = (a & 0x7fff) == 0x2aaa, code = x & 0xff;
    if (left)
        return;
    switch (stage) {
    case 0: stage = one && code == 0xaa ? 1 : 0; return;
    case 1: stage = two && code == 0x55 ? 2 : 0; return;
    case 2: stage = one && code == 0xa0 ? 3 : one && code == 0x80 ? 4 : 0; return;
    case 3: begin(0, PROGRAM_TIME, a, x); return;
    case 4: stage = one && code == 0xaa ? 5 : 0; return;
    case 5: stage = two && code == 0x55 ? 6 : 0; return;
    default: stage = 0;
    }
    if (code == 0x30)
        begin(1, ERASE_TIME, a, x);
}

static uint16_t read_cycle(unsigned elapsed, uint32_t a)
{
    if (left)
        pass(elapsed);
    else if (elapsed)
        recent = 0;
    if (!left)
        return (uint16_t)(cells[a] ^ (recent ? ALL_BUT_7 : 0));
    toggle ^= 1;
    return (uint16_t)((erasing ? 0 : ~word & 0x80) | (toggle ? 0 : 0x40));
}

static void poll(uint32_t a, uint16_t wanted)
{
    do
        polls++;
    while ((read_cycle(P, a) ^ wanted) & 0x80);
    confirms++;
    if (read_cycle(CONFIRMING_TIME, a) != wanted)
        exit(12);
}

static void unlock(uint16_t code)
{
    write_cycle(0x5555, 0xaa);
    write_cycle(0x2aaa, 0x55);
    write_cycle(0x5555, code);
}

static void program(uint32_t a, uint16_t x)
{
    unlock(0xa0);
    write_cycle(a, x);
    programs++;
    poll(a, x);
}

static void erase(uint32_t a)
{
    unlock(0x80);
    write_cycle(0x5555, 0xaa);
    write_cycle(0x2aaa, 0x55);
    write_cycle(a, 0x30);
    erases++;
    poll(a, 0xffff);
}

static void load_sector(uint32_t first)
{
    int rises = 0;
    for (uint32_t a = first; a < first + SECTOR; a++, scans++)
        rises |= image[a] & ~read_cycle(0, a);
    if (rises) {
        erase(first);
        for (uint32_t a = first; a < first + SECTOR; a++)
            if (image[a] != 0xffff)
                program(a, image[a]);
        return;
    }
    for (uint32_t a = first; a < first + SECTOR; a++, scans++)
        if (read_cycle(0, a) != image[a])
            program(a, image[a]);
}

static void job(uint32_t count)
{
    uint16_t sum = 0;
    for (uint32_t first = 0; first < count; first += SECTOR)
        load_sector(first);
    for (uint32_t a = 0; a < count; a++)
        sum = (uint16_t)(sum + cells[a]);
    printf("answer 0\nerases %" PRIu64 "\nprograms %" PRIu64 "\npolls %" PRIu64 "\n", erases, programs, polls);
    printf("scans %" PRIu64 "\nconfirms %" PRIu64 "\nsum %u\n", scans, confirms, sum);
}

static void cycles(uint32_t count)
{
    uint64_t sent = 0, sum = 0;
    memset(cells, 0xff, sizeof cells);
    for (uint32_t a = 0; a < count; a++, sent += 8) {
        unlock(0xa0);
        write_cycle(a, image[a]);
        for (int k = 0; k < 4; k++)
            sum += read_cycle(P, a);
    }
    printf("cycles %" PRIu64 "\nsum %" PRIu64 "\n", sent, sum);
}

int main(int argc, char **argv)
{
    uint32_t count = argc == 3 ? (uint32_t)strtoul(argv[2], NULL, 10) : CELLS + 1u;
    if (count > CELLS) {
        fprintf(stderr, "usage: plain job|cycles COUNT, at most %d\n", CELLS);
        return 1;
    }
    scatter(cells, 1);
    scatter(image, 2);
    if (strcmp(argv[1], "job") == 0)
        job(count);
    else
        cycles(count);
    return 0;
}
