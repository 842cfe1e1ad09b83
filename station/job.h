/* A job on a part: the cells as they are lent, and the image. */
#ifndef PEATLANTERN_JOB_H
#define PEATLANTERN_JOB_H

#include "files.h"
#include "station.h"

struct job {
    uint32_t part;
    uint32_t first;
    uint32_t p;
    uint32_t wp; /* 0: low */
    size_t sector;
    struct values cells;
    struct values image;
};

#endif
