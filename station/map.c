/* The map: what each sector of a part got from a job. */
#include "map.h"

#include <inttypes.h>
#include <stdio.h>
#include <stdlib.h>
#include <string.h>

#include "fault.h"
#include "words.h"

/* Sectors on a line of the map. */
#define ON_A_LINE 64

/* What a sector gets: the first cycles of its own job are sent, more and more of them until one has erased or programmed, or
   until they are all. */
static enum mark mark_of(const struct job *job, struct values *before, uint32_t first, const uint16_t *image)
{
    for (uint64_t most = 2 * job->sector + 8;; most *= 2) {
        const struct station_report report = station_load_first(job->part, before->at, before->count, first, image,
                                                                job->sector, job->wp, job->p, most);
        if (report.erases > 0)
            return MARK_ERASED;
        if (report.programs > 0)
            return MARK_CLEARED;
        if (report.sent < most)
            return MARK_SAME;
    }
}

int make_map(const struct job *job, struct values *before, struct map *map)
{
    map->sector = job->sector;
    map->sectors = before->count / job->sector;
    memset(map->count, 0, sizeof map->count);
    map->marks = (unsigned char *)calloc(map->sectors, 1);
    if (map->marks == NULL)
        return no_memory();
    for (size_t at = 0; at < job->image.count; at += job->sector) {
        const uint32_t first = job->first + (uint32_t)at;
        map->marks[first / job->sector] = (unsigned char)mark_of(job, before, first, job->image.at + at);
    }
    for (size_t i = 0; i < map->sectors; i++)
        map->count[map->marks[i]]++;
    return STATUS_DONE;
}

void free_map(struct map *map)
{
    free(map->marks);
    map->marks = NULL;
}

const char *mark_text(int mark)
{
    static const char *const texts[MARKS] = {"not in the image", "nothing differs", "cleared", "erased"};
    return texts[mark];
}

static const char signs[MARKS + 1] = " .o#";

/* Where the last sector of the range ends on a line of the map; its start where it has none. */
static size_t end_of_line(const struct map *map, size_t from)
{
    size_t to = from + ON_A_LINE < map->sectors ? from + ON_A_LINE : map->sectors;
    while (to > from && map->marks[to - 1] == MARK_OUTSIDE)
        to--;
    return to;
}

void print_map(const struct map *map)
{
    char text[WORD];
    printf("\nsectors of %s cells, %d to a line, by the address of the first:\n", grouped(map->sector, text), ON_A_LINE);
    for (size_t from = 0; from < map->sectors; from += ON_A_LINE) {
        const size_t to = end_of_line(map, from);
        if (to == from)
            continue;
        printf("%06" PRIX64 "H  ", (uint64_t)from * map->sector);
        for (size_t i = from; i < to; i++)
            putchar(signs[map->marks[i]]);
        putchar('\n');
    }
    for (int mark = MARK_SAME; mark < MARKS; mark++)
        printf("%c %s: %s\n", signs[mark], mark_text(mark), grouped(map->count[mark], text));
}
