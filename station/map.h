/* The map: what each sector of a part got from a job. */
#ifndef PEATLANTERN_MAP_H
#define PEATLANTERN_MAP_H

#include "job.h"

enum mark {
    MARK_OUTSIDE = 0, /* not in the range */
    MARK_SAME = 1,    /* nothing differs */
    MARK_CLEARED = 2, /* programmed without an erase: bits are cleared alone */
    MARK_ERASED = 3,
    MARKS = 4
};

/* A mark of each sector of the part, which free_map gives back. */
struct map {
    unsigned char *marks;
    size_t sectors;
    size_t sector; /* cells of one */
    size_t count[MARKS];
};

/* Makes the map of a job that is taken. before are the cells as they were; they are used up. Each sector of the
   range is begun as a job of its own, and its counts say what the sector gets. */
int make_map(const struct job *job, struct values *before, struct map *map);
void free_map(struct map *map);

/* What a mark means, in words. */
const char *mark_text(int mark);

/* Prints the map, a character a sector, and what the characters mean. */
void print_map(const struct map *map);

#endif
