/* The map and the bill as a picture (SVG). */
#ifndef PEATLANTERN_PICTURE_H
#define PEATLANTERN_PICTURE_H

#include <stdio.h>

#include "map.h"

/* Writes the picture of a job's map and bill. */
void put_picture(FILE *to, const struct job *job, const struct map *map, const struct station_bill *bill);

/* What is loaded, in a line: the part, the values and where they go, p and WP#. */
#define HEADING 160
const char *heading(const struct job *job, char text[HEADING]);

#endif
