/* The parts by name, and their figures, which the proved library gives. */
#include "parts.h"

#include <ctype.h>
#include <inttypes.h>
#include <stdio.h>
#include <stdlib.h>
#include <string.h>

#include "fault.h"
#include "station.h"
#include "words.h"

/* By the part's number. */
static const char *const names[] = {"bench",  "SF010A", "SF020A", "SF040",   "VF200A", "VF400A",
                                    "VF800A", "WF1601", "WF1602", "VF6401B", "VF6402B"};
#define NAMES (sizeof names / sizeof names[0])

/* The maker's prefix, which may stand before a name. */
static const char prefix[] = "SST39";

const char *part_name(uint32_t part)
{
    return part < NAMES ? names[part] : "no part";
}

/* Whether two texts are the same in their first n characters, or to their ends; capitals or not. */
static bool same(const char *text, const char *other, size_t n)
{
    for (size_t i = 0; i < n && (text[i] != '\0' || other[i] != '\0'); i++)
        if (toupper((unsigned char)text[i]) != toupper((unsigned char)other[i]))
            return false;
    return true;
}

bool part_of(const char *text, uint32_t *part)
{
    const char *name = same(text, prefix, sizeof prefix - 1) ? text + sizeof prefix - 1 : text;
    for (uint32_t i = 0; i < NAMES; i++)
        if (same(name, names[i], strlen(names[i]) + 1)) {
            *part = i;
            return true;
        }
    return number_of(text, part);
}

/* What a digit counts; 16 for what is none. */
static uint32_t digit_of(char digit)
{
    static const char digits[] = "0123456789ABCDEF";
    const char *at = digit == '\0' ? NULL : strchr(digits, toupper((unsigned char)digit));
    return at == NULL ? 16 : (uint32_t)(at - digits);
}

bool number_of(const char *text, uint32_t *number)
{
    size_t length = strlen(text);
    uint32_t base = 10;
    if (length > 2 && same(text, "0x", 2)) {
        base = 16;
        text += 2;
        length -= 2;
    } else if (length > 1 && toupper((unsigned char)text[length - 1]) == 'H') {
        base = 16;
        length -= 1;
    }
    uint64_t value = 0;
    for (size_t i = 0; i < length; i++) {
        value = value * base + digit_of(text[i]);
        if (digit_of(text[i]) >= base || value > UINT32_MAX)
            return false;
    }
    *number = (uint32_t)value;
    return length > 0;
}

int sector_of(uint32_t part, size_t *sector)
{
    const size_t cells = station_figure(part, STATION_CELLS);
    uint16_t *lent = (uint16_t *)calloc(cells + 1, sizeof *lent);
    uint16_t *image = (uint16_t *)calloc(cells + 1, sizeof *image);
    size_t count = 0;
    if (lent != NULL && image != NULL && cells > 0)
        do /* the second call with no cycle to send: it answers, and does nothing */
            count++;
        while (station_load_first(part, lent, cells, 0, image, count, 1, 1, 0).answer == STATION_NOT_SECTORS &&
               count < cells);
    bool held = lent != NULL && image != NULL;
    free(lent);
    free(image);
    *sector = count;
    return held ? STATUS_DONE : no_memory();
}

uint16_t blank_of(uint32_t part)
{
    return station_figure(part, STATION_WIDTH) == 16 ? 0xffff : 0xff;
}

int holds_erases(uint32_t part, bool *held)
{
    enum { ERASE_WRITES = 6, SUSPEND = 0xb0 };
    const size_t cells = station_figure(part, STATION_CELLS);
    uint16_t *lent = (uint16_t *)calloc(cells + 1, sizeof *lent);
    struct station_device device = station_fresh();
    if (lent == NULL)
        return no_memory();
    for (uint32_t k = 0; k < ERASE_WRITES; k++)
        device = station_write(part, lent, cells, device, 0, 1, station_write_address(part, STATION_SECTOR_ERASE, 0, 0, k),
                               station_write_data(part, STATION_SECTOR_ERASE, 0, 0, k))
                     .device;
    device = station_write(part, lent, cells, device, 0, 1, 0, SUSPEND).device;
    free(lent);
    *held = device.suspended.left > 0;
    return STATUS_DONE;
}

/* Prints a figure, right in its column; "none" for a block that is none. */
static void print_figure(uint32_t part, uint32_t column, int width)
{
    char text[WORD];
    const uint32_t figure = station_figure(part, column);
    if (column == STATION_DEVICE)
        snprintf(text, sizeof text, "%" PRIX32 "H", figure);
    else if (column == STATION_BLOCK && figure == 0)
        snprintf(text, sizeof text, "none");
    else
        grouped(figure, text);
    printf("%*s", width, text);
}

int print_parts(void)
{
    printf("No  Part     Bits      Cells  Sector   Block  Device  Program   Erase     Chip  Erase\n"
           "                              cells   cells      ID       " MICROS "      " MICROS "       " MICROS "   held\n");
    for (uint32_t part = 0; station_figure_answer(part, STATION_WIDTH) == STATION_TAKEN; part++) {
        char text[WORD];
        size_t sector;
        bool held;
        int status = sector_of(part, &sector);
        if (status == STATUS_DONE)
            status = holds_erases(part, &held);
        if (status != STATUS_DONE)
            return status;
        printf("%2" PRIu32 "  %-8s", part, part_name(part));
        print_figure(part, STATION_WIDTH, 5);
        print_figure(part, STATION_CELLS, 11);
        printf("%8s", grouped(sector, text));
        print_figure(part, STATION_BLOCK, 8);
        print_figure(part, STATION_DEVICE, 8);
        print_figure(part, STATION_PROGRAM_TIME, 9);
        print_figure(part, STATION_ERASE_TIME, 8);
        print_figure(part, STATION_CHIP_TIME, 9);
        printf("%7s\n", held ? "yes" : "no");
    }
    return STATUS_DONE;
}
