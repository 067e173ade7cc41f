/* Files in and out. "-" is standard input or standard output. */
#ifndef FILES_H
#define FILES_H

#include <limits.h>
#include <stdbool.h>
#include <stddef.h>
#include <stdint.h>
#include <sys/stat.h>

/* What was read, and which file it came from. */
struct input {
    const char *name;
    const uint8_t *bytes;
    size_t length;
    struct stat file;
};

/* Reads until the input ends or `room` bytes are there, so a room of one byte more than a cap shows that the input is
   above it. Tells its trouble and returns false if the input cannot be read. */
bool read_input(const char *path, uint8_t *bytes, size_t room, struct input *input);

/* A file that is being written. What goes to a regular file stands in a temporary file beside it until it is kept. */
struct output {
    const char *name;
    int file;
    bool whole; /* a regular file: written whole or not at all */
    char target[PATH_MAX];
};

/* Opens the output. One of `inputs` is never written over. Tells its trouble and returns false if that fails. */
bool open_output(struct output *output, const char *path, const struct input *inputs, size_t count);

/* Writes the bytes, and waits until they are on the disk. Tells its trouble, removes the temporary file and returns
   false if that fails. */
bool fill_output(struct output *output, const uint8_t *bytes, size_t length);

/* Gives the temporary file its name. Tells its trouble, removes it and returns false if that fails. */
bool keep_output(struct output *output);

/* Removes the temporary file. */
void drop_output(struct output *output);

/* All of it at once. */
bool write_output(const char *path, const uint8_t *bytes, size_t length, const struct input *inputs, size_t count);

/* Makes sure that no file that is opened later takes the place of a closed standard input, output or error. */
bool hold_standard_files(void);

/* Brings out what was printed. Returns false if that fails, which close_standard_output will tell. */
bool flush_standard_output(void);

/* Closes standard output. Tells its trouble and returns TROUBLE if what was printed did not get out. */
int close_standard_output(int status);

#endif
