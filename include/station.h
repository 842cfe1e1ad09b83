/* What the station's C or C++ controller links from libstation.a, which `rt staticlib station`
   writes; one call is in libalone.a. The archives are for x86-64 Linux and need no library but C's
   memset. Every function in them is proved to meet its promise.

   In the order in which a controller comes to them: the figures of a part; a command by the driver,
   cycle by cycle, against a chip; a whole job, so too; the model, which answers cycles where no chip
   is; the job file, the job and its bill; and single writes of a command.

   Arguments and results are plain numbers. Any number may be given: what is out of place is
   answered with the number of the refusal, never by a fault. A refused call changes no cell, hands
   back a state as it came, and gives 0 for every other number. No call keeps anything: a state (of
   a driver, of a job, of a device) is the caller's, given and handed back by value. Keep the one
   handed back and give it to the next call.

   What a caller has to keep to:
   - the types as they are declared here, for an archive of the same version: nothing in it checks
     them, but tests/pages/header holds this file to the sources;
   - a pointer is not NULL and points to as many elements as the size after it says (seen, which has
     none, to 4,096), in memory that nothing else uses during the call; what is read and what is
     written do not overlap;
   - a WP# level given as a number is low for 0 and high for any other;
   - data is 16 bits wide, in C too and on eight-bit parts: a wider number has to be tested before
     it is passed, as C drops its upper bits in silence;
   - a function that gives one number gives 0 where it refuses: ask the one that ends in _answer;
   - structures have padding: compare their fields, not their bytes. */
#ifndef PEATLANTERN_STATION_H
#define PEATLANTERN_STATION_H

#include <stdbool.h>
#include <stddef.h>
#include <stdint.h>

#ifdef __cplusplus
extern "C" {
#endif

/* The answers: 0, or why a call is refused, or how a driver or a job ended. docs/USING.md says what
   to do about each. Where two apply, a call gives the one that it names first. */
enum station_answer {
    STATION_TAKEN = 0,
    STATION_NO_PART = 1,         /* part above 10 */
    STATION_WRONG_CELLS = 2,     /* not as many cells lent as the part has */
    STATION_NO_ADDRESS = 3,      /* address at or past the cells */
    STATION_DATA_TOO_LARGE = 4,  /* data above 255 on an eight-bit part */
    STATION_BAD_STATE = 5,       /* numbers that are no state, or none in range for the part */
    STATION_NOT_SECTORS = 6,     /* first address or number of values no multiple of the sector */
    STATION_PAST_CELLS = 7,      /* the image ends past the cells */
    STATION_VALUE_TOO_LARGE = 8, /* an image value above 255 on an eight-bit part */
    STATION_PROTECTED = 9,       /* WP# low, and the range holds a protected cell */
    STATION_BAD_INTERVAL = 10,   /* p is 0 or above 1,000 */
    STATION_GAVE_UP = 11,        /* an end: polling gave up */
    STATION_DIFFERS = 12,        /* an end: the confirming read differs */
    STATION_BAD_FILE = 13,       /* job file malformed or too long */
    STATION_NO_COMMAND = 14,     /* command above 3, or a block erase of a part without blocks */
    STATION_PAST_THE_END = 15    /* column above 6, or k past the command's writes */
};

/* ---- The figures of a part */

/* The columns of the part table. */
enum station_column {
    STATION_WIDTH = 0,        /* bits of a cell: 8 or 16 */
    STATION_CELLS = 1,        /* how many cells, that is addresses */
    STATION_BLOCK = 2,        /* cells of a block; 0: the part has no blocks */
    STATION_DEVICE = 3,       /* the device ID */
    STATION_PROGRAM_TIME = 4, /* typical time of a program, in microseconds */
    STATION_ERASE_TIME = 5,   /* of a sector or block erase, in microseconds */
    STATION_CHIP_TIME = 6     /* of a chip erase, in microseconds */
};

/* The figure of a part, 0 to 10, in a column of the part table, in the column's unit; 0 where it
   is refused. */
uint32_t station_figure(uint32_t part, uint32_t column);

/* The answer to the same question: STATION_TAKEN (the figure stands), STATION_NO_PART or
   STATION_PAST_THE_END. */
uint32_t station_figure_answer(uint32_t part, uint32_t column);

/* ---- A command by the driver: station_start once, then station_step and the cycle that it names,
   until it names none */

/* The commands. An erase ignores the data given, a chip erase the address too. */
enum station_command {
    STATION_PROGRAM = 0,
    STATION_SECTOR_ERASE = 1,
    STATION_BLOCK_ERASE = 2, /* parts with blocks only */
    STATION_CHIP_ERASE = 3
};

/* How far a driver is. */
enum station_phase {
    STATION_WRITING = 0,
    STATION_POLLING = 1,
    STATION_CONFIRMING = 2,
    STATION_ENDED_DONE = 3,
    STATION_ENDED_GAVE_UP = 4,
    STATION_ENDED_DIFFERS = 5
};

/* A driver: what is asked, its phase, and how many writes are named, from the polling on polls. */
struct station_driver {
    uint32_t part;
    uint32_t command;
    uint32_t address;
    uint16_t data;
    uint32_t p; /* the polling interval, in microseconds: 1 to 1,000 */
    uint32_t phase;
    uint32_t count;
};

/* A start: STATION_TAKEN and a driver, or the refusal and zeros. */
struct station_started {
    uint32_t answer;
    struct station_driver driver;
};

/* The kinds of a cycle. */
enum station_kind {
    STATION_NO_CYCLE = 0,
    STATION_A_READ = 1,
    STATION_A_WRITE = 2
};

/* A cycle to send: its kind, and the microseconds to wait since the last one before it. Data is of
   a write. The caller sets WP#. */
struct station_cycle {
    uint32_t kind;
    uint32_t elapsed;
    uint32_t address;
    uint16_t data;
};

/* A step. With a cycle: STATION_TAKEN; send it. Without one (STATION_NO_CYCLE) the driver has ended:
   STATION_TAKEN (done), STATION_GAVE_UP or STATION_DIFFERS; or it is refused: STATION_BAD_STATE, and
   driver is as it came. */
struct station_stepped {
    uint32_t answer;
    struct station_driver driver;
    struct station_cycle cycle;
    uint32_t polls; /* named so far */
};

/* Starts a command, polled every p microseconds. Refused with STATION_NO_PART, STATION_BAD_INTERVAL,
   STATION_NO_COMMAND, STATION_NO_ADDRESS, STATION_DATA_TOO_LARGE. */
struct station_started station_start(uint32_t part, uint32_t command, uint32_t address,
                                     uint16_t data, uint32_t p);

/* The next cycle, or the end. read is the value that the last read cycle showed; any number as long
   as none was sent. A driver that has ended gives its end again. */
struct station_stepped station_step(struct station_driver state, uint16_t read);

/* ---- A whole job on a bus: station_begin once, then station_turn and the cycle that it names, until
   it names none. It is lent no cells and goes by what the bus shows. From b, which station_begin gave:

     t = station_turn(b.loading, image, n, seen, 0);
     while (t.cycle.kind != STATION_NO_CYCLE) {
         (set WP# to t.wp, wait t.cycle.elapsed, send the cycle; read is what a read showed)
         t = station_turn(t.loading, image, n, seen, read);
     }

   and t.answer is the job's end. It comes whatever the bus shows. */

/* How far a job is. */
enum station_progress {
    STATION_WAITING = 0,  /* no cycle named yet */
    STATION_SCANNING = 1, /* a sector is read */
    STATION_LOOKING = 2,  /* it stays unerased, and is read again */
    STATION_ERASING = 3,  /* a driver erases the sector, */
    STATION_FILLING = 4,  /* programs a cell of an erased one, */
    STATION_BURNING = 5,  /* or of one that stays unerased */
    STATION_OVER = 6
};

/* A job under way: what is asked, how far it is, the sector's first value in the image, the cell in
   the sector, the driver while it drives one, and the answer of its end. */
struct station_loading {
    uint32_t part;
    uint32_t first;
    uint32_t count; /* values of the image */
    uint32_t wp;
    uint32_t p;
    uint32_t progress; /* STATION_WAITING to STATION_OVER */
    uint32_t base;
    uint32_t at;
    struct station_driver driver;
    uint32_t ending;
};

/* A begin: STATION_TAKEN and a job, or the refusal and zeros. */
struct station_begun {
    uint32_t answer;
    struct station_loading loading;
};

/* A turn. With a cycle: STATION_TAKEN; send it at the WP# level wp. Without one the job is over:
   STATION_TAKEN (the range holds the image), STATION_GAVE_UP or STATION_DIFFERS; or it is refused,
   with any other number, and loading is as it came. */
struct station_turned {
    uint32_t answer;
    struct station_loading loading;
    struct station_cycle cycle;
    uint32_t wp; /* 0 low, 1 high */
};

/* Begins the load of the n values of an image from address first on, polled every p microseconds, at
   a WP# level. Refused with STATION_NO_PART, STATION_BAD_INTERVAL, STATION_NOT_SECTORS,
   STATION_PAST_CELLS, STATION_VALUE_TOO_LARGE, STATION_PROTECTED. */
struct station_begun station_begin(uint32_t part, uint32_t first, const uint16_t *image, size_t n,
                                   uint32_t wp, uint32_t p);

/* The next cycle, or the end. image is the one that the job was begun with; seen points to 4,096
   values, which the caller keeps from turn to turn and does not change (their first content does not
   matter); read is the value that the last read cycle showed, any number as long as none was sent. A
   job that is over gives its end again. */
struct station_turned station_turn(struct station_loading loading, const uint16_t *image, size_t n,
                                   uint16_t *seen, uint16_t read);

/* ---- The model of a chip: cells and a device, which answer cycles as the chip does */

/* The modes of a device. */
enum station_mode {
    STATION_READ_MODE = 0,
    STATION_IDENTIFICATION = 1
};

/* An operation: the command, its address and data. */
struct station_operation {
    uint32_t kind;
    uint32_t address;
    uint16_t data;
    uint32_t left;   /* microseconds until it ends; 0: there is none */
    uint32_t toggle; /* what bit 6 shows at the next read while it runs: 0 or 1 */
};

/* A device: all of a chip but its cells. */
struct station_device {
    uint32_t mode;
    uint32_t stage;  /* of a sequence of writes: 0 none begun, to 6 */
    uint32_t recent; /* 1 while a completion is 0 microseconds old, else 0 */
    uint32_t turned; /* 1 where the next read that shows bit 2 shows it as 0, else 0 */
    struct station_operation running;
    struct station_operation suspended; /* a sector or block erase of parts 7 to 10 */
};

/* A reply: STATION_TAKEN or the refusal, the value read (0 but for a read), the device afterwards. */
struct station_reply {
    uint32_t answer;
    uint16_t value;
    struct station_device device;
};

/* A fresh device: read mode, no sequence begun, nothing running, nothing suspended, no completion 0
   microseconds old. */
struct station_device station_fresh(void);

/* One bus cycle on all n cells of a part, elapsed microseconds after the last one, at a WP# level:
   a read, a write, time alone, or a power cut, which leaves the scar on the cells of an operation
   that it cuts short, running or suspended. At the moment of a completion a read shows all the
   part's bits but 7 inverted, the whole value 1 microsecond later. On parts 7 to 10 the data B0H at
   any address suspends a sector or block erase that runs, and 30H, no sequence being begun, resumes
   it (docs/USING.md). Refused with STATION_NO_PART, STATION_WRONG_CELLS,
   STATION_BAD_STATE; then a read and a write with STATION_NO_ADDRESS, and a write with
   STATION_DATA_TOO_LARGE. */
struct station_reply station_read(uint32_t part, uint16_t *cells, size_t n,
                                  struct station_device device, uint32_t elapsed, uint32_t wp,
                                  uint32_t address);
struct station_reply station_write(uint32_t part, uint16_t *cells, size_t n,
                                   struct station_device device, uint32_t elapsed, uint32_t wp,
                                   uint32_t address, uint16_t data);
struct station_reply station_idle(uint32_t part, uint16_t *cells, size_t n,
                                  struct station_device device, uint32_t elapsed, uint32_t wp);
struct station_reply station_cut(uint32_t part, uint16_t *cells, size_t n,
                                 struct station_device device, uint32_t elapsed, uint32_t wp,
                                 uint16_t scar);

/* ---- The job file */

/* What a job file asks: STATION_TAKEN, or STATION_BAD_FILE and zeros. */
struct station_asked {
    uint32_t answer;
    uint32_t part;
    bool wp; /* true: high */
    uint32_t first;
    uint32_t p;
    size_t start; /* the image's first byte in the file */
    size_t count; /* its values */
};

/* What a file of n bytes asks. */
struct station_asked station_job(const uint8_t *file, size_t n);

/* Writes m values of a file, from byte start on: with start and count of station_job, its image. A
   byte past the file counts 0. */
void station_image(const uint8_t *file, size_t n, size_t start, uint16_t *image, size_t m);

/* ---- The job: an image onto a range of whole sectors of a part */

/* The bill; docs/USING.md has its lines. Times are in microseconds of the chip's time. */
struct station_bill {
    uint64_t saved;
    uint64_t spent;
    uint64_t erases;
    uint64_t programs;
    uint64_t polls;
    uint64_t scans;
    uint64_t confirms;
    uint16_t sum;
    uint32_t answer;
};

/* The last cycle that a job sent: its kind, and WP#'s level at it. */
struct station_last {
    uint32_t kind;
    uint32_t elapsed;
    bool wp; /* true: high */
    uint32_t address;
    uint16_t data;
};

/* A job after its first cycles: how many were sent, the last one and what it showed, the counts so
   far, and the microseconds. */
struct station_report {
    uint32_t answer;
    uint64_t sent;
    struct station_last last;
    uint16_t reply;
    uint64_t erases;
    uint64_t programs;
    uint64_t polls;
    uint64_t scans;
    uint64_t confirms;
    uint64_t time;
};

/* Loads the m values of the image onto the n cells of a part, from address first on, polling every
   p microseconds. Refused with STATION_NO_PART, STATION_WRONG_CELLS, STATION_BAD_INTERVAL,
   STATION_NOT_SECTORS, STATION_PAST_CELLS, STATION_VALUE_TOO_LARGE, STATION_PROTECTED. */
struct station_bill station_load(uint32_t part, uint16_t *cells, size_t n, uint32_t first,
                                 const uint16_t *image, size_t m, uint32_t wp, uint32_t p);

/* The same, in an archive of its own, libalone.a, which is linked beside libstation.a where the time
   of a whole job counts: it takes a third. */
struct station_bill station_load_alone(uint32_t part, uint16_t *cells, size_t n, uint32_t first,
                                       const uint16_t *image, size_t m, uint32_t wp, uint32_t p);

/* The same job, but only its first k cycles are sent; all of them if it has fewer. */
struct station_report station_load_first(uint32_t part, uint16_t *cells, size_t n, uint32_t first,
                                         const uint16_t *image, size_t m, uint32_t wp, uint32_t p,
                                         uint64_t k);

/* The bill of the job that a file of n bytes asks for, on a blank bench part. Refused with
   STATION_BAD_FILE where the file is malformed or has more than 20,480 bytes; then as station_load.
   It needs up to 48 kilobytes of stack, the other calls up to 12. */
struct station_bill station_bill(const uint8_t *file, size_t n);

/* ---- Single writes of a command, for a controller that sends them by itself */

/* The address of the k-th write, from 0, of a command at an address with data: a program has 4
   writes, an erase 6. 0 where it is refused. */
uint32_t station_write_address(uint32_t part, uint32_t command, uint32_t address, uint16_t data,
                               uint32_t k);

/* The data of the same write; 0 where it is refused. */
uint16_t station_write_data(uint32_t part, uint32_t command, uint32_t address, uint16_t data,
                            uint32_t k);

/* The answer to the same question: STATION_TAKEN (the write stands), STATION_NO_PART,
   STATION_NO_COMMAND, STATION_NO_ADDRESS, STATION_DATA_TOO_LARGE or STATION_PAST_THE_END, the first
   of these that applies. */
uint32_t station_write_answer(uint32_t part, uint32_t command, uint32_t address, uint16_t data,
                              uint32_t k);

#ifdef __cplusplus
}
#endif

#endif
