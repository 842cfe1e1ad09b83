// From C++: of each part, how long programming every cell and erasing the chip takes, in milliseconds.
#include <stdint.h>
#include <stdio.h>

#include "station.h"

int main()
{
    for (uint32_t part = 0; station_figure_answer(part, STATION_CELLS) == STATION_TAKEN; part++) {
        const uint64_t cells = station_figure(part, STATION_CELLS);
        const uint64_t whole = cells * station_figure(part, STATION_PROGRAM_TIME);
        const uint64_t erase = station_figure(part, STATION_CHIP_TIME);
        printf("%u program %llu erase %llu\n", static_cast<unsigned>(part), static_cast<unsigned long long>(whole / 1000),
                    static_cast<unsigned long long>(erase / 1000));
    }
    return 0;
}
