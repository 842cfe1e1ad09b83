/* The command load: an image onto the cells of a part, all of them files. */
#ifndef PEATLANTERN_LOAD_H
#define PEATLANTERN_LOAD_H

#include <stdbool.h>
#include <stdint.h>

/* What is asked. A name is NULL where none is given. */
struct asked {
    uint32_t part;
    uint32_t first;
    uint32_t p;
    uint32_t wp; /* 0: low */
    const char *cells;
    const char *image;
    const char *out;
    const char *svg;
    bool pad;
    bool map;
};

/* Loads, prints the bill and what else is asked, and gives the exit status. */
int load(const struct asked *asked);

#endif
