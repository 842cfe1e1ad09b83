/* The command load: an image onto the cells of a part, all of them files. */
#include "load.h"

#include <stdlib.h>
#include <string.h>

#include "bill.h"
#include "fault.h"
#include "job.h"
#include "map.h"
#include "parts.h"
#include "picture.h"

/* As many blank values as the part has cells. */
static int blank_cells(uint32_t part, struct values *cells)
{
    int status = make_values(station_figure(part, STATION_CELLS), cells);
    for (size_t i = 0; status == STATUS_DONE && i < cells->count; i++)
        cells->at[i] = blank_of(part);
    return status;
}

/* Fills the image up with blank to whole sectors. */
static int pad(struct job *job)
{
    const size_t over = job->sector == 0 ? 0 : job->image.count % job->sector;
    if (over == 0)
        return STATUS_DONE;
    struct values longer;
    int status = make_values(job->image.count + job->sector - over, &longer);
    if (status != STATUS_DONE)
        return status;
    memcpy(longer.at, job->image.at, job->image.count * sizeof *longer.at);
    for (size_t i = job->image.count; i < longer.count; i++)
        longer.at[i] = blank_of(job->part);
    free_values(&job->image);
    job->image = longer;
    return STATUS_DONE;
}

/* Reads the files, as they are or filled up. */
static int prepare(const struct asked *asked, struct job *job)
{
    const uint32_t width = station_figure(asked->part, STATION_WIDTH);
    int status = asked->cells == NULL ? blank_cells(asked->part, &job->cells)
                                      : read_values(asked->cells, width, &job->cells);
    if (status == STATUS_DONE)
        status = read_values(asked->image, width, &job->image);
    if (status == STATUS_DONE)
        status = sector_of(asked->part, &job->sector);
    return status == STATUS_DONE && asked->pad ? pad(job) : status;
}

/* A copy of values. */
static int copy(const struct values *values, struct values *made)
{
    int status = make_values(values->count, made);
    if (status == STATUS_DONE)
        memcpy(made->at, values->at, values->count * sizeof *made->at);
    return status;
}

/* Writes the cells, beside their place. */
static int make_out(struct output *out, const char *path, const struct job *job)
{
    int status = open_output(out, path);
    if (status == STATUS_DONE)
        status = put_values(out, &job->cells, station_figure(job->part, STATION_WIDTH));
    return status == STATUS_DONE ? end_output(out) : status;
}

/* Writes the picture, beside its place. */
static int make_svg(struct output *svg, const char *path, const struct job *job, const struct map *map,
                    const struct station_bill *bill)
{
    int status = open_output(svg, path);
    if (status != STATUS_DONE)
        return status;
    put_picture(svg->file, job, map, bill);
    return end_output(svg);
}

/* Writes the files that are asked for: each is whole before any is put in its place. */
static int put_files(const struct asked *asked, const struct job *job, const struct map *map,
                     const struct station_bill *bill)
{
    struct output out = {NULL, NULL, NULL}, svg = {NULL, NULL, NULL};
    int status = asked->out == NULL ? STATUS_DONE : make_out(&out, asked->out, job);
    if (status == STATUS_DONE && asked->svg != NULL)
        status = make_svg(&svg, asked->svg, job, map, bill);
    if (status == STATUS_DONE && asked->out != NULL)
        status = place_output(&out);
    if (status == STATUS_DONE && asked->svg != NULL)
        status = place_output(&svg);
    free_output(&svg);
    free_output(&out);
    return status;
}

/* Loads what is prepared. before has room for the cells as they were, where a map is to be made of them. */
static int perform(const struct asked *asked, struct job *job, struct values *before, struct map *map)
{
    const bool mapped = asked->map || asked->svg != NULL;
    int status = mapped ? copy(&job->cells, before) : STATUS_DONE;
    if (status != STATUS_DONE)
        return status;
    const struct station_bill bill = station_load_alone(job->part, job->cells.at, job->cells.count, job->first, job->image.at,
                                                        job->image.count, job->wp, job->p);
    if (bill.answer != STATION_TAKEN)
        return refused(bill.answer);
    if (mapped)
        status = make_map(job, before, map);
    if (status == STATUS_DONE)
        status = put_files(asked, job, map, &bill);
    if (status != STATUS_DONE)
        return status;
    char text[HEADING];
    printf("%s\n", heading(job, text));
    print_bill(&bill, job->p);
    if (asked->map)
        print_map(map);
    return STATUS_DONE;
}

int load(const struct asked *asked)
{
    struct job job = {asked->part, asked->first, asked->p, asked->wp, 0, {NULL, 0}, {NULL, 0}};
    struct values before = {NULL, 0};
    struct map map = {NULL, 0, 0, {0, 0, 0, 0}};
    int status = prepare(asked, &job);
    if (status == STATUS_DONE)
        status = perform(asked, &job, &before, &map);
    free_map(&map);
    free_values(&before);
    free_values(&job.image);
    free_values(&job.cells);
    return status;
}
