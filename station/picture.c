/* The map and the bill as a picture (SVG). */
#include "picture.h"

#include <inttypes.h>
#include <string.h>

#include "bill.h"
#include "parts.h"
#include "words.h"

/* The places of the picture, in its own units. */
enum place {
    EDGE = 24,        /* the margin */
    LABELS = 76,      /* room for the addresses left of the map */
    MAP_WIDTH = 768,  /* a multiple of every number of columns */
    MAP_TOP = 84,
    LEGEND_ROOM = 64, /* from the map's end to the bill */
    LINE = 22,        /* from a line of the bill to the next */
    WIDTH = EDGE + LABELS + MAP_WIDTH + EDGE
};

/* How the sectors are laid out: a rectangle a sector, rows of equal length. */
struct layout {
    size_t columns;
    size_t rows;
    unsigned width; /* of a sector's rectangle */
    unsigned height;
};

/* Twice as many columns as rows, or as near to it as powers of two allow. */
static struct layout layout_of(const struct map *map)
{
    struct layout layout;
    layout.columns = 1;
    while (layout.columns * layout.columns < 2 * map->sectors && layout.columns < map->sectors)
        layout.columns *= 2;
    layout.rows = (map->sectors + layout.columns - 1) / layout.columns;
    layout.width = (unsigned)(MAP_WIDTH / layout.columns);
    layout.height = layout.width < 32 ? layout.width : 32;
    return layout;
}

static const char *const classes[MARKS] = {"outside", "same", "cleared", "erased"};

static const char style[] = "text { font-family: 'DejaVu Sans', Verdana, Arial, sans-serif; fill: #1c2733; }\n"
                            ".outside { fill: #eef1f4; }\n"
                            ".same { fill: #bcc5ce; }\n"
                            ".cleared { fill: #2f7fc1; }\n"
                            ".erased { fill: #e07b1a; }\n"
                            ".frame { fill: none; stroke: #5c6873; stroke-width: 1; }\n"
                            ".title { font-size: 20px; font-weight: bold; }\n"
                            ".under { font-size: 14px; }\n"
                            ".label { font-size: 11px; text-anchor: end; fill: #46525d; }\n"
                            ".number { text-anchor: end; }\n"
                            ".line { font-size: 14px; }\n";

static void put_head(FILE *to, const struct job *job, unsigned height)
{
    char text[HEADING], number[WORD];
    fprintf(to,
            "<svg xmlns=\"http://www.w3.org/2000/svg\" viewBox=\"0 0 %d %u\" width=\"%d\" height=\"%u\">\n"
            "<title>%s</title>\n<style>\n%s</style>\n"
            "<rect width=\"%d\" height=\"%u\" fill=\"#ffffff\"/>\n",
            WIDTH, height, WIDTH, height, heading(job, text), style, WIDTH, height);
    fprintf(to,
            "<text class=\"title\" x=\"%d\" y=\"38\">What each sector of %s gets</text>\n"
            "<text class=\"under\" x=\"%d\" y=\"62\">%s; a box is a sector of %s cells</text>\n",
            EDGE, part_name(job->part), EDGE, heading(job, text), grouped(job->sector, number));
}

/* The runs of equal sectors of a row, a rectangle each, but for those outside the image. */
static void put_row(FILE *to, const struct map *map, const struct layout *layout, size_t row)
{
    const size_t start = row * layout->columns;
    const size_t end = start + layout->columns < map->sectors ? start + layout->columns : map->sectors;
    for (size_t from = start, next; from < end; from = next) {
        next = from + 1;
        while (next < end && map->marks[next] == map->marks[from])
            next++;
        if (map->marks[from] != MARK_OUTSIDE)
            fprintf(to, "<rect class=\"%s\" x=\"%u\" y=\"%u\" width=\"%u\" height=\"%u\"/>\n", classes[map->marks[from]],
                    EDGE + LABELS + (unsigned)(from - start) * layout->width, MAP_TOP + (unsigned)row * layout->height,
                    (unsigned)(next - from) * layout->width, layout->height);
    }
}

/* The addresses left of the rows: of each, or of each fourth where they stand close. */
static void put_labels(FILE *to, const struct map *map, const struct layout *layout)
{
    const size_t step = layout->height < 16 ? 4 : 1;
    for (size_t row = 0; row < layout->rows; row += step)
        fprintf(to, "<text class=\"label\" x=\"%d\" y=\"%u\">%06" PRIX64 "H</text>\n", EDGE + LABELS - 8,
                MAP_TOP + (unsigned)row * layout->height + layout->height / 2 + 4,
                (uint64_t)(row * layout->columns * map->sector));
}

/* The rows, thin lines between the sectors, and a frame. */
static void put_map(FILE *to, const struct map *map, const struct layout *layout)
{
    const unsigned height = (unsigned)layout->rows * layout->height;
    fprintf(to, "<rect class=\"outside\" x=\"%d\" y=\"%d\" width=\"%d\" height=\"%u\"/>\n", EDGE + LABELS, MAP_TOP, MAP_WIDTH,
            height);
    for (size_t row = 0; row < layout->rows; row++)
        put_row(to, map, layout, row);
    fprintf(to,
            "<defs><pattern id=\"sectors\" x=\"%d\" y=\"%d\" width=\"%u\" height=\"%u\" patternUnits=\"userSpaceOnUse\">"
            "<path d=\"M %u 0 H 0 V %u\" fill=\"none\" stroke=\"#ffffff\" stroke-width=\"1.4\"/>"
            "</pattern></defs>\n",
            EDGE + LABELS, MAP_TOP, layout->width, layout->height, layout->width, layout->height);
    fprintf(to,
            "<rect x=\"%d\" y=\"%d\" width=\"%d\" height=\"%u\" fill=\"url(#sectors)\"/>\n"
            "<rect class=\"frame\" x=\"%d\" y=\"%d\" width=\"%d\" height=\"%u\"/>\n",
            EDGE + LABELS, MAP_TOP, MAP_WIDTH, height, EDGE + LABELS, MAP_TOP, MAP_WIDTH, height);
    put_labels(to, map, layout);
}

/* A box of each colour, what it means, and how many sectors have it. */
static void put_legend(FILE *to, const struct map *map, unsigned y)
{
    static const int order[MARKS] = {MARK_SAME, MARK_CLEARED, MARK_ERASED, MARK_OUTSIDE};
    char text[WORD];
    for (int i = 0; i < MARKS; i++) {
        const unsigned x = EDGE + LABELS + (unsigned)i * (MAP_WIDTH / MARKS);
        fprintf(to,
                "<rect class=\"%s\" x=\"%u\" y=\"%u\" width=\"14\" height=\"14\"/>\n"
                "<rect class=\"frame\" x=\"%u\" y=\"%u\" width=\"14\" height=\"14\"/>\n"
                "<text class=\"line\" x=\"%u\" y=\"%u\">%s: %s</text>\n",
                classes[order[i]], x, y, x, y, x + 20, y + 12, mark_text(order[i]), grouped(map->count[order[i]], text));
    }
}

static void put_bill(FILE *to, const struct station_bill *bill, uint32_t p, unsigned y)
{
    struct bill_line lines[BILL_LINES];
    bill_lines(bill, p, lines);
    for (int i = 0; i < BILL_LINES; i++, y += LINE)
        fprintf(to,
                "<text class=\"line\" x=\"%d\" y=\"%u\">%s</text>"
                "<text class=\"line number\" x=\"%d\" y=\"%u\">%s</text>"
                "<text class=\"line\" x=\"%d\" y=\"%u\">%s</text>"
                "<text class=\"line\" x=\"%d\" y=\"%u\">%s</text>\n",
                EDGE + LABELS, y, lines[i].name, EDGE + LABELS + 220, y, lines[i].number, EDGE + LABELS + 230, y,
                lines[i].unit, EDGE + LABELS + 320, y, lines[i].remark);
}

void put_picture(FILE *to, const struct job *job, const struct map *map, const struct station_bill *bill)
{
    const struct layout layout = layout_of(map);
    const unsigned legend = MAP_TOP + (unsigned)layout.rows * layout.height + 18;
    put_head(to, job, legend + LEGEND_ROOM + (BILL_LINES - 1) * LINE + EDGE);
    put_map(to, map, &layout);
    put_legend(to, map, legend);
    put_bill(to, bill, job->p, legend + LEGEND_ROOM);
    fprintf(to, "</svg>\n");
}

const char *heading(const struct job *job, char text[HEADING])
{
    char values[WORD];
    snprintf(text, HEADING, "%s: %s values from address %" PRIX32 "H on, p %" PRIu32 " " MICROS ", WP# %s",
             part_name(job->part), grouped(job->image.count, values), job->first, job->p, job->wp ? "high" : "low");
    return text;
}
