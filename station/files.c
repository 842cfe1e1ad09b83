/* Files: read whole, and written whole or not at all. */
#ifndef _GNU_SOURCE
#define _GNU_SOURCE
#endif
#include "files.h"

#include <errno.h>
#include <fcntl.h>
#include <inttypes.h>
#include <stdbool.h>
#include <stdlib.h>
#include <string.h>
#include <sys/stat.h>
#include <unistd.h>

#include "fault.h"

static int cannot_read(const char *path, const char *why)
{
    return fault(STATUS_FILE, "%s: it cannot be read: %s", path, why);
}

static int cannot_write(const char *path, const char *why)
{
    return fault(STATUS_FILE, "%s: it cannot be written: %s", path, why);
}

/* Reads an open file to its end. */
static int read_to_end(FILE *source, const char *path, struct bytes *file)
{
    size_t room = 4096;
    for (;;) {
        uint8_t *larger = (uint8_t *)realloc(file->at, room);
        if (larger == NULL)
            return cannot_read(path, strerror(ENOMEM));
        file->at = larger;
        file->count += fread(file->at + file->count, 1, room - file->count, source);
        if (ferror(source))
            return cannot_read(path, strerror(errno));
        if (file->count < room)
            return STATUS_DONE;
        if (room == MOST_BYTES)
            return cannot_read(path, "it is longer than the file of any part");
        room *= 2;
    }
}

int read_bytes(const char *path, struct bytes *file)
{
    file->at = NULL;
    file->count = 0;
    FILE *source = fopen(path, "rb");
    if (source == NULL)
        return cannot_read(path, strerror(errno));
    int status = read_to_end(source, path, file);
    if (fclose(source) != 0 && status == STATUS_DONE)
        return cannot_read(path, strerror(errno));
    return status;
}

void free_bytes(struct bytes *file)
{
    free(file->at);
    file->at = NULL;
}

int make_values(size_t count, struct values *values)
{
    values->count = count;
    values->at = (uint16_t *)malloc((count + 1) * sizeof *values->at);
    return values->at == NULL ? no_memory() : STATUS_DONE;
}

void free_values(struct values *values)
{
    free(values->at);
    values->at = NULL;
}

/* The values of a file's bytes. */
static int values_of(const char *path, const struct bytes *file, uint32_t width, struct values *values)
{
    if (width != 16) {
        int status = make_values(file->count, values);
        for (size_t i = 0; status == STATUS_DONE && i < file->count; i++)
            values->at[i] = file->at[i];
        return status;
    }
    if (file->count % 2 != 0)
        return cannot_read(path, "its bytes are an odd number, and so no whole words of 16 bits");
    int status = make_values(file->count / 2, values);
    for (size_t i = 0; status == STATUS_DONE && i < values->count; i++)
        values->at[i] = (uint16_t)(file->at[2 * i] | file->at[2 * i + 1] << 8);
    return status;
}

int read_values(const char *path, uint32_t width, struct values *values)
{
    struct bytes file;
    int status = read_bytes(path, &file);
    if (status == STATUS_DONE)
        status = values_of(path, &file, width, values);
    free_bytes(&file);
    return status;
}

/* Whether something else than a file stands in the place: a folder, a device. It is asked by statx, whose
   structure is the same on every processor, as tools/compile may use the headers of another. */
static bool is_no_file(const char *path)
{
    struct statx found;
    return statx(AT_FDCWD, path, 0, STATX_TYPE, &found) == 0 && !S_ISREG(found.stx_mode);
}

int open_output(struct output *output, const char *path)
{
    output->path = path;
    if (is_no_file(path))
        return cannot_write(path, "what stands there is no file");
    const size_t room = strlen(path) + 40;
    char *made = (char *)malloc(room);
    if (made == NULL)
        return cannot_write(path, strerror(ENOMEM));
    snprintf(made, room, "%s.%" PRIdMAX ".making", path, (intmax_t)getpid());
    output->file = fopen(made, "wbx");
    if (output->file == NULL) {
        const int why = errno;
        free(made);
        return cannot_write(path, strerror(why));
    }
    output->made = made;
    return STATUS_DONE;
}

int put_values(struct output *output, const struct values *values, uint32_t width)
{
    const size_t each = width == 16 ? 2 : 1;
    uint8_t *bytes = (uint8_t *)malloc(values->count * each + 1);
    if (bytes == NULL)
        return cannot_write(output->path, strerror(ENOMEM));
    for (size_t i = 0; i < values->count; i++) {
        bytes[each * i] = (uint8_t)(values->at[i] & 0xff);
        if (each == 2)
            bytes[2 * i + 1] = (uint8_t)(values->at[i] >> 8);
    }
    const bool written = fwrite(bytes, each, values->count, output->file) == values->count;
    int why = errno;
    free(bytes);
    return written ? STATUS_DONE : cannot_write(output->path, strerror(why));
}

int end_output(struct output *output)
{
    FILE *file = output->file;
    output->file = NULL;
    bool whole = !ferror(file) && fflush(file) == 0 && fsync(fileno(file)) == 0;
    int why = errno;
    if (fclose(file) != 0 && whole) {
        whole = false;
        why = errno;
    }
    return whole ? STATUS_DONE : cannot_write(output->path, strerror(why));
}

int place_output(struct output *output)
{
    if (rename(output->made, output->path) != 0)
        return cannot_write(output->path, strerror(errno));
    free(output->made);
    output->made = NULL;
    return STATUS_DONE;
}

void free_output(struct output *output)
{
    if (output->file != NULL)
        fclose(output->file);
    if (output->made != NULL)
        remove(output->made);
    free(output->made);
}
