/* Prints the part table, a line a part, then the writes of some commands, a line a command; and the answers to questions that
   are refused. */
#include <inttypes.h>
#include <stdio.h>

#include "station.h"

static void print_writes(uint32_t part, uint32_t command, uint32_t address, uint16_t data)
{
    printf("part %" PRIu32 " command %" PRIu32 ":", part, command);
    for (uint32_t k = 0; station_write_answer(part, command, address, data, k) == STATION_TAKEN; k++)
        printf(" %" PRIX32 "H@%" PRIX32 "H", (uint32_t)station_write_data(part, command, address, data, k),
               station_write_address(part, command, address, data, k));
    printf("\n");
}

int main(void)
{
    for (uint32_t part = 0; station_figure_answer(part, STATION_WIDTH) == STATION_TAKEN; part++) {
        printf("%" PRIu32, part);
        for (uint32_t column = STATION_WIDTH; station_figure_answer(part, column) == STATION_TAKEN; column++)
            printf(column == STATION_DEVICE ? " %" PRIX32 "H" : " %" PRIu32, station_figure(part, column));
        printf("\n");
    }
    printf("part 11: %" PRIu32 "\n", station_figure_answer(11, 7));
    printf("column 7: %" PRIu32 "\n", station_figure_answer(10, 7));

    print_writes(5, STATION_PROGRAM, 0x1234, 0xabcd);
    print_writes(3, STATION_SECTOR_ERASE, 0x7ffff, 0);
    print_writes(9, STATION_SECTOR_ERASE, 2053, 0);
    print_writes(7, STATION_BLOCK_ERASE, 2053, 0);
    print_writes(9, STATION_BLOCK_ERASE, 2053, 0);
    print_writes(0, STATION_CHIP_ERASE, 0xffffffff, 0xffff);
    printf("part 11: %" PRIu32 "\n", station_write_answer(11, 4, 0xffffffff, 0, 6));
    printf("block of part 3: %" PRIu32 "\n", station_write_answer(3, STATION_BLOCK_ERASE, 0xffffffff, 0, 6));
    printf("past the cells: %" PRIu32 "\n", station_write_answer(3, STATION_PROGRAM, 524288, 0x100, 4));
    printf("data 100H on part 3: %" PRIu32 "\n", station_write_answer(3, STATION_PROGRAM, 0, 0x100, 4));
    printf("fifth write of a program: %" PRIu32 "\n", station_write_answer(3, STATION_PROGRAM, 0, 0xff, 4));
    return 0;
}
