#include <errno.h>
#include <fcntl.h>
#include <signal.h>
#include <stdio.h>
#include <stdlib.h>
#include <string.h>
#include <unistd.h>

#include "exits.h"
#include "files.h"
#include "refusals.h"

/* The temporary file that stands now; empty if none does. A signal that ends the command removes it. */
static char temporary[PATH_MAX];

static const int ends[] = {SIGHUP, SIGINT, SIGQUIT, SIGTERM};

static void remove_and_end(int signal_number)
{
    if (temporary[0] != '\0')
        unlink(temporary);
    signal(signal_number, SIG_DFL);
    raise(signal_number);
}

/* The signals that end the command remove the temporary file first. One that the caller ignores stays ignored. */
static void watch_signals(sigset_t *all)
{
    sigemptyset(all);
    for (size_t i = 0; i < sizeof ends / sizeof ends[0]; i++) {
        struct sigaction action;

        sigaddset(all, ends[i]);
        if (sigaction(ends[i], NULL, &action) == 0 && action.sa_handler == SIG_DFL) {
            memset(&action, 0, sizeof action);
            action.sa_handler = remove_and_end;
            sigaction(ends[i], &action, NULL);
        }
    }
}

/* Makes a temporary file in the folder of the target, for the same readers that the target has or will have. */
static int make_temporary(const char *target, const struct stat *old)
{
    const char *slash = strrchr(target, '/');
    const int folder = slash == NULL ? 0 : (int)(slash - target) + 1;
    const mode_t mask = umask(0);
    const mode_t mode = old != NULL ? old->st_mode & 0777 : 0666 & ~mask;
    char path[PATH_MAX];
    sigset_t all, before;
    int file;

    umask(mask);
    if (snprintf(path, sizeof path, "%.*s.ballastwren.XXXXXX", folder, target) >= (int)sizeof path) {
        errno = ENAMETOOLONG;
        return -1;
    }
    watch_signals(&all);
    sigprocmask(SIG_BLOCK, &all, &before);
    file = mkstemp(path);
    if (file >= 0)
        memcpy(temporary, path, sizeof path);
    sigprocmask(SIG_SETMASK, &before, NULL);
    if (file >= 0 && fchmod(file, mode) != 0) {
        close(file);
        unlink(temporary);
        temporary[0] = '\0';
        return -1;
    }
    return file;
}

static bool is_input(const struct stat *file, const struct input *inputs, size_t count)
{
    for (size_t i = 0; i < count; i++)
        if (S_ISREG(file->st_mode) && inputs[i].file.st_dev == file->st_dev && inputs[i].file.st_ino == file->st_ino)
            return true;
    return false;
}

/* Where the bytes will stand in the end: behind links if the path is one to a file. */
static bool find_target(struct output *output, const char *path, bool exists)
{
    if (exists)
        return access(path, W_OK) == 0 && realpath(path, output->target) != NULL;
    if (snprintf(output->target, sizeof output->target, "%s", path) >= (int)sizeof output->target) {
        errno = ENAMETOOLONG;
        return false;
    }
    return true;
}

bool open_output(struct output *output, const char *path, const struct input *inputs, size_t count)
{
    const bool standard = strcmp(path, "-") == 0;
    struct stat old;
    const bool exists = standard ? fstat(STDOUT_FILENO, &old) == 0 : stat(path, &old) == 0;

    output->name = standard ? "standard output" : path;
    output->whole = !standard && (!exists || S_ISREG(old.st_mode));
    if (exists && is_input(&old, inputs, count)) {
        trouble(output->name, "is an input of this command and is not written over");
        return false;
    }
    if (standard)
        output->file = STDOUT_FILENO;
    else if (!exists && errno != ENOENT)
        output->file = -1;
    else if (output->whole)
        output->file = find_target(output, path, exists) ? make_temporary(output->target, exists ? &old : NULL) : -1;
    else if (S_ISCHR(old.st_mode) || S_ISFIFO(old.st_mode))
        output->file = open(path, O_WRONLY | O_NOCTTY);
    else {
        trouble(output->name, "is not a file that can be written");
        return false;
    }
    if (output->file < 0)
        trouble(output->name, strerror(errno));
    return output->file >= 0;
}

static bool write_all(int file, const uint8_t *bytes, size_t length)
{
    while (length > 0) {
        ssize_t put = write(file, bytes, length);

        if (put < 0 && errno != EINTR)
            return false;
        if (put > 0) {
            bytes += put;
            length -= (size_t)put;
        }
    }
    return true;
}

bool fill_output(struct output *output, const uint8_t *bytes, size_t length)
{
    if (write_all(output->file, bytes, length) && (!output->whole || fsync(output->file) == 0))
        return true;
    trouble(output->name, strerror(errno));
    drop_output(output);
    return false;
}

static bool close_output(struct output *output)
{
    const int file = output->file;

    output->file = -1;
    return file < 0 || file == STDOUT_FILENO || close(file) == 0;
}

bool keep_output(struct output *output)
{
    if (close_output(output) && (!output->whole || rename(temporary, output->target) == 0)) {
        temporary[0] = '\0';
        return true;
    }
    trouble(output->name, strerror(errno));
    drop_output(output);
    return false;
}

void drop_output(struct output *output)
{
    close_output(output);
    if (temporary[0] != '\0')
        unlink(temporary);
    temporary[0] = '\0';
}

bool write_output(const char *path, const uint8_t *bytes, size_t length, const struct input *inputs, size_t count)
{
    struct output output;

    return open_output(&output, path, inputs, count) && fill_output(&output, bytes, length) && keep_output(&output);
}

bool hold_standard_files(void)
{
    /* Opened the wrong way round, so that using one is still an error. */
    for (int file = STDIN_FILENO; file <= STDERR_FILENO; file++)
        if (fcntl(file, F_GETFD) < 0 && open("/dev/null", file == STDIN_FILENO ? O_WRONLY : O_RDONLY) < 0)
            return false;
    return true;
}

/* Why standard output could not be written, where that is known. */
static int output_trouble;

bool flush_standard_output(void)
{
    if (fflush(stdout) == 0 && !ferror(stdout))
        return true;
    output_trouble = errno;
    return false;
}

int close_standard_output(int status)
{
    const bool good = flush_standard_output();

    if (fclose(stdout) == 0 && good)
        return status;
    return trouble("standard output", output_trouble != 0 ? strerror(output_trouble) : "not all of it could be written");
}
