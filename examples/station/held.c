/* An erase is held to fetch code: on the proved model of part 7 a sector erase is started, suspended, read around, a word is programmed
   beside it, and it is resumed and ends. Prints what each read shows; the steps and the values are those of docs/USING.md. */
#include <inttypes.h>
#include <stddef.h>
#include <stdio.h>

#include "station.h"

/* WF1601: 1,048,576 cells, and sectors of 2,048. */
enum { PART = 7, CELLS = 1048576, HELD = 0x1234 };

/* The two writes that no command has: the data counts, at any address. */
enum { SUSPEND = 0xb0, RESUME = 0x30 };

/* The chip: what it holds, and its state. */
static uint16_t cells[CELLS];
static struct station_device device;

static void write_at(uint32_t micros, uint32_t address, uint16_t data)
{
    device = station_write(PART, cells, CELLS, device, micros, 1, address, data).device;
}

/* A command: its writes, the first some microseconds after the last cycle. */
static void command(uint32_t micros, uint32_t which, uint32_t address, uint16_t data)
{
    for (uint32_t k = 0; station_write_answer(PART, which, address, data, k) == STATION_TAKEN; k++)
        write_at(k == 0 ? micros : 0, station_write_address(PART, which, address, data, k),
                 station_write_data(PART, which, address, data, k));
}

static void show(uint32_t micros, uint32_t address)
{
    const struct station_reply reply = station_read(PART, cells, CELLS, device, micros, 1, address);
    device = reply.device;
    printf("  %" PRIu32 " us later, read %" PRIu32 ": %04" PRIX32 "H\n", micros, address, (uint32_t)reply.value);
}

int main(void)
{
    for (size_t i = 0; i < CELLS; i++)
        cells[i] = HELD;
    device = station_fresh();

    printf("erase the sector at 2053\n");
    command(0, STATION_SECTOR_ERASE, 2053, 0);
    show(0, 2048);
    show(0, 2047);
    show(0, 4095);
    write_at(100, 0, SUSPEND);
    printf("100 us later suspend it: %" PRIu32 " us left\n", device.suspended.left);
    show(0, 2048);
    show(5, 4095);
    show(0, 4096);
    printf("program 0F0FH at 4096\n");
    command(0, STATION_PROGRAM, 4096, 0x0f0f);
    show(0, 2048);
    show(28, 4096);
    show(0, 2048);
    show(1, 2048);
    write_at(0, 9, RESUME);
    printf("resume it: %" PRIu32 " us left\n", device.running.left);
    show(0, 2048);
    show(35900, 2048);
    show(1, 2048);
    show(0, 4096);
    return 0;
}
