/* Plays recorded cases (tests/second/FORMAT.md) through the calls from C, with the cells of the largest part from malloc: reads the
   commands from standard input, and prints what each has to print. A line that is no command ends it with status 65. */
#include <inttypes.h>
#include <stdbool.h>
#include <stdio.h>
#include <stdlib.h>
#include <string.h>

#include "station.h"

enum size {
    CELLS = 4194304,
    IMAGE = 16384,
    FILE_BYTES = 20500,
    BENCH = 8192,
    SEEN = 4096,
    WRITES = 6,
    NUMBERS = 30 /* of a line, and some more */
};

/* What the commands work on. */
struct held {
    uint16_t *cells; /* the largest part's; the first lent of them are lent */
    uint32_t part;
    size_t lent;
    struct station_device device;
    uint16_t reply;
    struct station_driver driver;
    uint16_t image[IMAGE];
    size_t count;
    uint8_t file[FILE_BYTES];
    size_t bytes;
};

/* A command: what it does with its numbers, of which the first is its own. False where they are out of place. */
typedef bool (*command)(struct held *held, const uint64_t *n);

static void put(uint64_t number)
{
    printf(" %" PRIu64, number);
}

static bool end_line(void)
{
    return putchar('\n') != EOF;
}

static void begin_line(const uint64_t *n)
{
    printf("%" PRIu64, n[0]);
}

/* Values from to to of an array by a pattern, which goes by the index in the whole array. */
static bool fill(uint16_t *values, size_t size, uint64_t from, uint64_t to, const uint64_t *pattern)
{
    if (from > to || to > size)
        return false;
    for (uint64_t i = from; i < to; i++)
        values[i] = (uint16_t)((pattern[0] + pattern[1] * i) & pattern[2]);
    return true;
}

static uint32_t hash(const uint16_t *values, size_t count)
{
    uint32_t sum = 0;
    for (size_t i = 0; i < count; i++)
        sum = sum * 31 + values[i];
    return sum;
}

/* ---- Marks and cells */

static bool mark(struct held *held, const uint64_t *n)
{
    (void)held;
    begin_line(n);
    put(n[1]);
    return end_line();
}

static bool lend(struct held *held, const uint64_t *n)
{
    held->part = (uint32_t)n[1];
    held->lent = n[2];
    return n[2] <= CELLS;
}

static bool new_chip(struct held *held, const uint64_t *n)
{
    held->device = station_fresh();
    held->reply = 0;
    return lend(held, n) && fill(held->cells, CELLS, 0, n[2], n + 3);
}

static bool fill_cells(struct held *held, const uint64_t *n)
{
    return fill(held->cells, CELLS, n[1], n[2], n + 3);
}

static bool set_cell(struct held *held, const uint64_t *n)
{
    if (n[1] >= CELLS)
        return false;
    held->cells[n[1]] = (uint16_t)n[2];
    return true;
}

static bool show_cell(struct held *held, const uint64_t *n)
{
    if (n[1] >= CELLS)
        return false;
    begin_line(n);
    put(held->cells[n[1]]);
    return end_line();
}

static bool hash_cells(struct held *held, const uint64_t *n)
{
    if (n[1] > n[2] || n[2] > CELLS)
        return false;
    begin_line(n);
    put(hash(held->cells + n[1], n[2] - n[1]));
    return end_line();
}

/* ---- Bus cycles */

static void put_operation(const struct station_operation *operation)
{
    put(operation->kind);
    put(operation->address);
    put(operation->data);
    put(operation->left);
    put(operation->toggle);
}

static void put_device(const struct station_device *device)
{
    put(device->mode);
    put(device->stage);
    put_operation(&device->running);
    put(device->recent);
    put(device->turned);
    put_operation(&device->suspended);
}

/* An operation of five numbers. */
static struct station_operation operation_of(const uint64_t *n)
{
    const struct station_operation operation = {(uint32_t)n[0], (uint32_t)n[1], (uint16_t)n[2], (uint32_t)n[3], (uint32_t)n[4]};
    return operation;
}

static bool set_device(struct held *held, const uint64_t *n)
{
    const struct station_device device = {(uint32_t)n[1], (uint32_t)n[2],      (uint32_t)n[8],
                                          (uint32_t)n[9], operation_of(n + 3), operation_of(n + 10)};
    held->device = device;
    return true;
}

/* Keeps what a cycle gave. */
static void keep(struct held *held, const struct station_reply *reply)
{
    held->device = reply->device;
    held->reply = reply->value;
}

static bool put_reply(struct held *held, const uint64_t *n, struct station_reply reply)
{
    keep(held, &reply);
    begin_line(n);
    put(reply.answer);
    put(reply.value);
    put_device(&reply.device);
    return end_line();
}

static bool read_cycle(struct held *held, const uint64_t *n)
{
    return put_reply(held, n,
                     station_read(held->part, held->cells, held->lent, held->device, (uint32_t)n[1], (uint32_t)n[2], (uint32_t)n[3]));
}

static bool write_cycle(struct held *held, const uint64_t *n)
{
    return put_reply(held, n,
                     station_write(held->part, held->cells, held->lent, held->device, (uint32_t)n[1], (uint32_t)n[2], (uint32_t)n[3],
                                   (uint16_t)n[4]));
}

static bool idle_cycle(struct held *held, const uint64_t *n)
{
    return put_reply(held, n, station_idle(held->part, held->cells, held->lent, held->device, (uint32_t)n[1], (uint32_t)n[2]));
}

static bool cut_cycle(struct held *held, const uint64_t *n)
{
    return put_reply(held, n,
                     station_cut(held->part, held->cells, held->lent, held->device, (uint32_t)n[1], (uint32_t)n[2], (uint16_t)n[3]));
}

/* ---- The driver */

/* The command's writes together, one by one from the k-th. */
static bool all_writes(struct held *held, const uint64_t *n)
{
    const uint32_t part = (uint32_t)n[1], number = (uint32_t)n[2], address = (uint32_t)n[3];
    const uint16_t data = (uint16_t)n[4];
    uint32_t count = 0;
    (void)held;
    while (station_write_answer(part, number, address, data, count) == STATION_TAKEN)
        count++;
    begin_line(n);
    put(station_write_answer(part, number, address, data, 0));
    put(count);
    for (uint32_t k = 0; k < WRITES; k++) {
        put(station_write_address(part, number, address, data, k));
        put(station_write_data(part, number, address, data, k));
    }
    return end_line();
}

static bool one_write(struct held *held, const uint64_t *n)
{
    const uint32_t part = (uint32_t)n[1], number = (uint32_t)n[2], address = (uint32_t)n[3], k = (uint32_t)n[5];
    const uint16_t data = (uint16_t)n[4];
    (void)held;
    begin_line(n);
    put(station_write_answer(part, number, address, data, k));
    put(station_write_address(part, number, address, data, k));
    put(station_write_data(part, number, address, data, k));
    return end_line();
}

static void put_driver(const struct station_driver *driver)
{
    put(driver->part);
    put(driver->command);
    put(driver->address);
    put(driver->data);
    put(driver->p);
    put(driver->phase);
    put(driver->count);
}

static bool start(struct held *held, const uint64_t *n)
{
    const struct station_started started =
        station_start((uint32_t)n[1], (uint32_t)n[2], (uint32_t)n[3], (uint16_t)n[4], (uint32_t)n[5]);
    held->driver = started.driver;
    held->reply = 0;
    begin_line(n);
    put(started.answer);
    put_driver(&held->driver);
    return end_line();
}

static bool set_driver(struct held *held, const uint64_t *n)
{
    const struct station_driver driver = {(uint32_t)n[1], (uint32_t)n[2], (uint32_t)n[3], (uint16_t)n[4],
                                          (uint32_t)n[5], (uint32_t)n[6], (uint32_t)n[7]};
    held->driver = driver;
    held->reply = 0;
    return true;
}

static bool step(struct held *held, const uint64_t *n)
{
    const struct station_stepped stepped = station_step(held->driver, (uint16_t)n[1]);
    held->driver = stepped.driver;
    begin_line(n);
    put(stepped.answer);
    put(stepped.cycle.kind);
    put(stepped.cycle.elapsed);
    put(stepped.cycle.address);
    put(stepped.cycle.data);
    put(stepped.polls);
    put_driver(&held->driver);
    return end_line();
}

/* Sends a cycle that a step names to the model; gives its answer. */
static uint32_t send(struct held *held, const struct station_cycle *cycle, uint32_t wp)
{
    const struct station_reply reply =
        cycle->kind == STATION_A_READ
            ? station_read(held->part, held->cells, held->lent, held->device, cycle->elapsed, wp, cycle->address)
            : station_write(held->part, held->cells, held->lent, held->device, cycle->elapsed, wp, cycle->address, cycle->data);
    keep(held, &reply);
    return reply.answer;
}

static bool run(struct held *held, const uint64_t *n)
{
    struct station_stepped stepped;
    uint64_t steps = 0;
    uint32_t refused = 0;
    do {
        stepped = station_step(held->driver, held->reply);
        held->driver = stepped.driver;
        steps++;
        if (stepped.cycle.kind == STATION_NO_CYCLE)
            break;
        refused = send(held, &stepped.cycle, (uint32_t)n[1]);
    } while (refused == STATION_TAKEN && steps < n[2]);
    begin_line(n);
    put(stepped.answer);
    put(stepped.cycle.kind);
    put(steps);
    put(stepped.polls);
    put(refused);
    put(held->reply);
    put_driver(&held->driver);
    put_device(&held->device);
    return end_line();
}

/* ---- Figures and jobs */

static bool figure(struct held *held, const uint64_t *n)
{
    (void)held;
    begin_line(n);
    put(station_figure_answer((uint32_t)n[1], (uint32_t)n[2]));
    put(station_figure((uint32_t)n[1], (uint32_t)n[2]));
    return end_line();
}

static bool new_image(struct held *held, const uint64_t *n)
{
    held->count = n[1];
    return fill(held->image, IMAGE, 0, n[1], n + 2);
}

static bool fill_image(struct held *held, const uint64_t *n)
{
    return fill(held->image, held->count, n[1], n[2], n + 3);
}

static bool set_value(struct held *held, const uint64_t *n)
{
    if (n[1] >= held->count)
        return false;
    held->image[n[1]] = (uint16_t)n[2];
    return true;
}

static bool copy_cells(struct held *held, const uint64_t *n)
{
    if (n[1] + n[3] > held->count || n[2] + n[3] > CELLS)
        return false;
    for (uint64_t i = 0; i < n[3]; i++)
        held->image[n[1] + i] = (uint16_t)(held->cells[n[2] + i] & n[4]);
    return true;
}

static void put_bill(const struct station_bill *bill)
{
    put(bill->saved);
    put(bill->spent);
    put(bill->erases);
    put(bill->programs);
    put(bill->polls);
    put(bill->scans);
    put(bill->confirms);
    put(bill->sum);
    put(bill->answer);
}

/* The job under way on the cells as they were, by turns over the model: whether it ends as its bill says, and leaves the same cells. */
static bool same_by_turns(const struct held *held, uint16_t *cells, struct station_loading loading, const struct station_bill *bill)
{
    struct station_device device = station_fresh();
    uint16_t seen[SEEN] = {0}, shown = 0;
    uint64_t time = 0;
    for (;;) {
        const struct station_turned turn = station_turn(loading, held->image, held->count, seen, shown);
        const struct station_cycle cycle = turn.cycle;
        if (cycle.kind == STATION_NO_CYCLE)
            return turn.answer == bill->answer && time == bill->spent &&
                   memcmp(cells, held->cells, held->lent * sizeof *cells) == 0;
        const struct station_reply reply =
            cycle.kind == STATION_A_READ
                ? station_read(held->part, cells, held->lent, device, cycle.elapsed, turn.wp, cycle.address)
                : station_write(held->part, cells, held->lent, device, cycle.elapsed, turn.wp, cycle.address, cycle.data);
        if (reply.answer != STATION_TAKEN)
            return false;
        loading = turn.loading;
        device = reply.device;
        shown = reply.value;
        time += cycle.elapsed;
    }
}

/* The job, and the same by turns; a line more where they differ. */
static bool load(struct held *held, const uint64_t *n)
{
    const uint32_t first = (uint32_t)n[1], wp = (uint32_t)n[2], p = (uint32_t)n[3];
    uint16_t *before = (uint16_t *)malloc((held->lent + 1) * sizeof *before);
    if (before == NULL)
        return false;
    memcpy(before, held->cells, held->lent * sizeof *before);
    const struct station_bill bill = station_load(held->part, held->cells, held->lent, first, held->image, held->count, wp, p);
    const struct station_begun begun = station_begin(held->part, first, held->image, held->count, wp, p);
    begin_line(n);
    put_bill(&bill);
    end_line();
    if (bill.answer != STATION_WRONG_CELLS && begun.answer != bill.answer)
        printf("begun with %" PRIu32 "\n", begun.answer);
    if (bill.answer == STATION_TAKEN && !same_by_turns(held, before, begun.loading, &bill))
        printf("by turns it goes otherwise\n");
    free(before);
    return true;
}

static bool load_first(struct held *held, const uint64_t *n)
{
    const struct station_report report = station_load_first(held->part, held->cells, held->lent, (uint32_t)n[1], held->image,
                                                            held->count, (uint32_t)n[2], (uint32_t)n[3], n[4]);
    begin_line(n);
    put(report.answer);
    put(report.sent);
    put(report.last.kind);
    put(report.last.elapsed);
    put(report.last.wp);
    put(report.last.address);
    put(report.last.data);
    put(report.reply);
    put(report.erases);
    put(report.programs);
    put(report.polls);
    put(report.scans);
    put(report.confirms);
    put(report.time);
    return end_line();
}

/* ---- Job files */

static bool new_file(struct held *held, const uint64_t *n)
{
    if (n[1] > FILE_BYTES)
        return false;
    held->bytes = n[1];
    for (uint64_t i = 0; i < n[1]; i++)
        held->file[i] = (uint8_t)(n[2] + n[3] * i);
    return true;
}

static bool set_bytes(struct held *held, const uint64_t *n)
{
    if (n[1] + n[2] > held->bytes || n[2] > NUMBERS - 3)
        return false;
    for (uint64_t i = 0; i < n[2]; i++)
        held->file[n[1] + i] = (uint8_t)n[3 + i];
    return true;
}

static bool parse(struct held *held, const uint64_t *n)
{
    const struct station_asked asked = station_job(held->file, held->bytes);
    uint16_t image[IMAGE];
    if (asked.count > IMAGE)
        return false;
    station_image(held->file, held->bytes, asked.start, image, asked.count);
    begin_line(n);
    put(asked.answer);
    put(asked.part);
    put(asked.wp);
    put(asked.first);
    put(asked.p);
    put(asked.count);
    put(hash(image, asked.count));
    return end_line();
}

/* The job of the file on blank bench cells, which the bill's own call does not show. */
static bool load_file(struct held *held)
{
    static const uint64_t blank[] = {0xffff, 0, 0xffff};
    uint16_t image[IMAGE];
    held->part = 0;
    held->lent = BENCH;
    held->device = station_fresh();
    fill(held->cells, CELLS, 0, BENCH, blank);
    const struct station_asked asked = station_job(held->file, held->bytes);
    if (asked.count > IMAGE)
        return false;
    station_image(held->file, held->bytes, asked.start, image, asked.count);
    return station_load(asked.part, held->cells, BENCH, asked.first, image, asked.count, asked.wp, asked.p).answer == STATION_TAKEN;
}

static bool bill(struct held *held, const uint64_t *n)
{
    const struct station_bill bill = station_bill(held->file, held->bytes);
    const bool taken = bill.answer == STATION_TAKEN;
    begin_line(n);
    if (taken)
        put_bill(&bill);
    else
        put(bill.answer);
    return end_line() && (!taken || load_file(held));
}

/* ---- Lines */

/* The commands by their numbers, and how many numbers follow; of set_bytes at least. */
static const struct {
    uint64_t number;
    int follow;
    command act;
} commands[] = {{0, 1, mark},         {10, 5, new_chip},   {11, 5, fill_cells},  {12, 2, set_cell},   {13, 1, show_cell},
                {14, 2, hash_cells},  {15, 2, lend},       {20, 14, set_device}, {21, 3, read_cycle}, {22, 4, write_cycle},
                {23, 2, idle_cycle},  {24, 3, cut_cycle},  {30, 4, all_writes},  {31, 5, one_write},  {32, 5, start},
                {33, 7, set_driver},  {34, 1, step},       {35, 2, run},         {40, 2, figure},     {50, 4, new_image},
                {51, 5, fill_image},  {52, 2, set_value},  {53, 4, copy_cells},  {54, 3, load},       {55, 4, load_first},
                {60, 3, new_file},    {61, 3, set_bytes},  {62, 0, parse},       {63, 0, bill}};

/* The numbers of a line, and how many; the rest are 0. */
static int numbers_of(const char *line, uint64_t n[NUMBERS])
{
    int count = 0;
    memset(n, 0, NUMBERS * sizeof *n);
    while (count < NUMBERS && *line != '\0' && *line != '\n') {
        char *end;
        n[count++] = strtoull(line, &end, 10);
        if (end == line)
            return 0;
        line = end;
    }
    return count;
}

static bool act(struct held *held, const char *line)
{
    uint64_t n[NUMBERS];
    const int count = numbers_of(line, n);
    for (size_t i = 0; count > 0 && i < sizeof commands / sizeof commands[0]; i++)
        if (commands[i].number == n[0])
            return count > commands[i].follow && commands[i].act(held, n);
    return false;
}

int main(void)
{
    char line[400];
    struct held *held = (struct held *)calloc(1, sizeof *held);
    uint16_t *cells = (uint16_t *)calloc(CELLS, sizeof *cells);
    bool sound = held != NULL && cells != NULL;
    if (sound)
        held->cells = cells;
    while (sound && fgets(line, sizeof line, stdin) != NULL) {
        sound = act(held, line);
        if (!sound)
            fprintf(stderr, "no command, or out of place: %s", line);
    }
    free(cells);
    free(held);
    return sound && !ferror(stdin) && fflush(stdout) == 0 ? 0 : 65;
}
