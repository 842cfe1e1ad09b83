/* A controller in C: one program, one erase and one whole job over a bus that is three functions: read, write and wait. Which cycle
   comes next, and when an operation is over, the proved library says; nothing here knows a rule of the chip. The buses are the proved
   model, a dead socket, where nothing answers, and a chip that dies in the middle of a job. */
#include <inttypes.h>
#include <stdio.h>

#include "station.h"

/* A bus; a controller's own is its pins. The socket is what the functions work on. */
struct bus {
    const char *name;
    void *socket;
    uint16_t (*read)(void *socket, uint32_t address);
    void (*write)(void *socket, uint32_t address, uint16_t data);
    void (*wait)(void *socket, uint32_t micros);
};

/* How an operation or a job ended, and what went over the bus for it. */
struct outcome {
    uint32_t answer;
    uint64_t cycles;
    uint64_t micros;
};

/* Sends a cycle that the library names, and gives what it showed; of a write, 0. */
static uint16_t send(const struct bus *bus, const struct station_cycle *cycle, struct outcome *so_far)
{
    so_far->cycles++;
    so_far->micros += cycle->elapsed;
    if (cycle->elapsed > 0)
        bus->wait(bus->socket, cycle->elapsed);
    if (cycle->kind == STATION_A_READ)
        return bus->read(bus->socket, cycle->address);
    bus->write(bus->socket, cycle->address, cycle->data);
    return 0;
}

/* One program or erase. */
static struct outcome perform(const struct bus *bus, uint32_t part, uint32_t command, uint32_t address, uint16_t data, uint32_t p)
{
    struct outcome outcome = {0, 0, 0};
    const struct station_started started = station_start(part, command, address, data, p);
    struct station_driver driver = started.driver;
    uint16_t shown = 0;
    outcome.answer = started.answer;
    while (outcome.answer == STATION_TAKEN) {
        const struct station_stepped step = station_step(driver, shown);
        outcome.answer = step.answer;
        if (step.cycle.kind == STATION_NO_CYCLE)
            break;
        driver = step.driver;
        shown = send(bus, &step.cycle, &outcome);
    }
    return outcome;
}

/* The values in which station_turn keeps what it has read of a sector. */
#define SEEN 4096

/* One whole job: the m values of an image from address first on. WP# is at the job's level already. */
static struct outcome load(const struct bus *bus, uint32_t part, uint32_t first, const uint16_t *image, size_t m, uint32_t wp, uint32_t p)
{
    struct outcome outcome = {0, 0, 0};
    uint16_t seen[SEEN] = {0}, shown = 0;
    const struct station_begun begun = station_begin(part, first, image, m, wp, p);
    struct station_loading loading = begun.loading;
    outcome.answer = begun.answer;
    while (outcome.answer == STATION_TAKEN) {
        const struct station_turned turn = station_turn(loading, image, m, seen, shown);
        outcome.answer = turn.answer;
        if (turn.cycle.kind == STATION_NO_CYCLE)
            break;
        loading = turn.loading;
        shown = send(bus, &turn.cycle, &outcome);
    }
    return outcome;
}

/* The model as a socket: a device, its cells, and the time that was waited since the last cycle. */
struct model {
    uint32_t part;
    uint16_t *cells;
    size_t count;
    struct station_device device;
    uint32_t waited;
    uint32_t wp;
};

static uint16_t model_read(void *socket, uint32_t address)
{
    struct model *model = (struct model *)socket;
    const struct station_reply reply =
        station_read(model->part, model->cells, model->count, model->device, model->waited, model->wp, address);
    model->device = reply.device;
    model->waited = 0;
    return reply.value;
}

static void model_write(void *socket, uint32_t address, uint16_t data)
{
    struct model *model = (struct model *)socket;
    model->device =
        station_write(model->part, model->cells, model->count, model->device, model->waited, model->wp, address, data).device;
    model->waited = 0;
}

static void model_wait(void *socket, uint32_t micros)
{
    struct model *model = (struct model *)socket;
    model->waited += micros;
}

/* A dead socket: every read shows the same, whatever was written. */
static uint16_t dead_read(void *socket, uint32_t address)
{
    (void)address;
    return *(const uint16_t *)socket;
}

static void dead_write(void *socket, uint32_t address, uint16_t data)
{
    (void)socket;
    (void)address;
    (void)data;
}

static void dead_wait(void *socket, uint32_t micros)
{
    (void)socket;
    (void)micros;
}

/* A chip that dies after so many cycles: the model until then, and a dead socket from then on. */
struct dying {
    struct bus alive;
    struct bus dead;
    uint64_t cycles;
};

/* What the next cycle meets. */
static const struct bus *dying_bus(struct dying *dying)
{
    if (dying->cycles == 0)
        return &dying->dead;
    dying->cycles--;
    return &dying->alive;
}

static uint16_t dying_read(void *socket, uint32_t address)
{
    const struct bus *bus = dying_bus((struct dying *)socket);
    return bus->read(bus->socket, address);
}

static void dying_write(void *socket, uint32_t address, uint16_t data)
{
    const struct bus *bus = dying_bus((struct dying *)socket);
    bus->write(bus->socket, address, data);
}

static void dying_wait(void *socket, uint32_t micros)
{
    const struct bus *bus = &((struct dying *)socket)->alive;
    bus->wait(bus->socket, micros);
}

static void print_outcome(const struct bus *bus, const char *what, struct outcome outcome)
{
    printf("%s: %s: answer %" PRIu32 ", %" PRIu64 " cycles, %" PRIu64 " us\n", bus->name, what, outcome.answer, outcome.cycles,
           outcome.micros);
}

/* The values of the jobs below, blank but for one. */
#define VALUES 2048

static void make_image(uint16_t *image, uint16_t fifth)
{
    for (size_t i = 0; i < VALUES; i++)
        image[i] = 0xffff;
    image[5] = fifth;
}

/* What the controller does on any bus. */
static void work(const struct bus *bus)
{
    const uint32_t part = 0, p = 10;
    uint16_t image[VALUES];
    print_outcome(bus, "program 1234H at 5", perform(bus, part, STATION_PROGRAM, 5, 0x1234, p));
    print_outcome(bus, "program 1235H over it", perform(bus, part, STATION_PROGRAM, 5, 0x1235, p));
    print_outcome(bus, "erase the sector at 5", perform(bus, part, STATION_SECTOR_ERASE, 5, 0, p));
    print_outcome(bus, "program 1235H at 5", perform(bus, part, STATION_PROGRAM, 5, 0x1235, p));
    print_outcome(bus, "program past the cells", perform(bus, part, STATION_PROGRAM, 8192, 0, p));
    make_image(image, 0x1234);
    print_outcome(bus, "a job with 1234H at 5", load(bus, part, 0, image, VALUES, 1, p));
    make_image(image, 0x1235);
    print_outcome(bus, "a job with 1235H at 5", load(bus, part, 0, image, VALUES, 1, p));
    print_outcome(bus, "a job of 2,047 values", load(bus, part, 0, image, VALUES - 1, 1, p));
}

/* A job on a chip that holds 1235H at 5, and dies after so many cycles: in the erase, and in the program after it. */
static void work_on_dying(struct bus alive, struct bus dead)
{
    const uint64_t lives[] = {3000, 3857};
    struct model *model = (struct model *)alive.socket;
    uint16_t image[VALUES];
    make_image(image, 0x1236);
    for (size_t i = 0; i < sizeof lives / sizeof lives[0]; i++) {
        struct dying dying = {alive, dead, lives[i]};
        const struct bus bus = {"dying chip", &dying, dying_read, dying_write, dying_wait};
        make_image(model->cells, 0x1235);
        model->device = station_fresh();
        print_outcome(&bus, "a job with 1236H at 5", load(&bus, model->part, 0, image, VALUES, 1, 10));
    }
}

int main(void)
{
    uint16_t cells[8192], nothing = 0;
    const size_t count = sizeof cells / sizeof cells[0];
    struct model model = {0, cells, count, station_fresh(), 0, 1};
    const struct bus buses[] = {{"model", &model, model_read, model_write, model_wait},
                                {"dead socket", &nothing, dead_read, dead_write, dead_wait}};
    for (size_t i = 0; i < count; i++)
        cells[i] = 0xffff;
    for (size_t i = 0; i < sizeof buses / sizeof buses[0]; i++)
        work(&buses[i]);
    printf("cell 5 of the model: %04XH\n", (unsigned)cells[5]);
    work_on_dying(buses[0], buses[1]);
    return 0;
}
