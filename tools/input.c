#include <errno.h>
#include <fcntl.h>
#include <string.h>
#include <unistd.h>

#include "files.h"
#include "refusals.h"

/* Reads until the end or until `room` bytes are there. */
static bool read_all(int file, uint8_t *bytes, size_t room, size_t *length)
{
    *length = 0;
    while (*length < room) {
        ssize_t got = read(file, bytes + *length, room - *length);

        if (got == 0)
            return true;
        if (got > 0)
            *length += (size_t)got;
        else if (errno != EINTR)
            return false;
    }
    return true;
}

bool read_input(const char *path, uint8_t *bytes, size_t room, struct input *input)
{
    const bool standard = strcmp(path, "-") == 0;
    const int file = standard ? STDIN_FILENO : open(path, O_RDONLY | O_NOCTTY);
    bool good;

    input->name = standard ? "standard input" : path;
    input->bytes = bytes;
    good = file >= 0 && fstat(file, &input->file) == 0 && read_all(file, bytes, room, &input->length);
    if (!good)
        trouble(input->name, strerror(errno));
    if (file >= 0 && !standard)
        close(file);
    return good;
}
