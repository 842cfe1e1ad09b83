/* Files: read whole, and written whole or not at all. */
#ifndef PEATLANTERN_FILES_H
#define PEATLANTERN_FILES_H

#include <stddef.h>
#include <stdint.h>
#include <stdio.h>

/* A file's bytes, which free_bytes gives back. */
struct bytes {
    uint8_t *at;
    size_t count;
};

/* Values of cells or of an image; at is not NULL once they are made, and free_values gives them back. */
struct values {
    uint16_t *at;
    size_t count;
};

/* Reads a file whole: STATUS_DONE, or STATUS_FILE after a line on standard error. A file of MOST_BYTES
   bytes or more, which no part takes, is not read. */
#define MOST_BYTES ((size_t)1 << 26)
int read_bytes(const char *path, struct bytes *file);
void free_bytes(struct bytes *file);

/* Reads the values of a file: little-endian words of 16 bits, or its bytes where the width is another.
   An odd number of bytes is no whole words: STATUS_FILE. */
int read_values(const char *path, uint32_t width, struct values *values);

/* Room for so many values. */
int make_values(size_t count, struct values *values);
void free_values(struct values *values);

/* A file on its way: written beside its place, and put there when it is whole. It begins as NULLs. */
struct output {
    const char *path;
    char *made; /* the name that it is written under */
    FILE *file;
};

/* Opens an output that path names; write to its file. */
int open_output(struct output *output, const char *path);

/* Writes values as they are read. */
int put_values(struct output *output, const struct values *values, uint32_t width);

/* The last of the writing: what was written is on the disk, and not yet in its place. */
int end_output(struct output *output);

/* Puts an ended output in its place. */
int place_output(struct output *output);

/* Gives back what an output holds, and removes the file where it was not put in its place. */
void free_output(struct output *output);

#endif
