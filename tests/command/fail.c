/*
 * Stands between the command and the system, linked with --wrap: the call that the variable FAIL names fails, the one
 * that SHORTEN names does only part of its work, and before the one that INTERRUPT names a signal arrives.
 */
#include <errno.h>
#include <signal.h>
#include <stdlib.h>
#include <string.h>
#include <sys/stat.h>
#include <unistd.h>

static int named(const char *variable, const char *call)
{
    const char *value = getenv(variable);

    return value != NULL && strcmp(value, call) == 0;
}

static int fails(const char *call)
{
    if (named("INTERRUPT", call))
        raise(SIGTERM);
    if (!named("FAIL", call))
        return 0;
    errno = ENOSPC;
    return 1;
}

ssize_t __real_read(int file, void *bytes, size_t count);
ssize_t __wrap_read(int file, void *bytes, size_t count)
{
    return fails("read") ? -1 : __real_read(file, bytes, named("SHORTEN", "read") && count > 0 ? 1 : count);
}

ssize_t __real_write(int file, const void *bytes, size_t count);
ssize_t __wrap_write(int file, const void *bytes, size_t count)
{
    static int before;

    if (named("FAIL", "second write") && before++ > 0) {
        errno = ENOSPC;
        return -1;
    }
    if (fails("write"))
        return -1;
    return __real_write(file, bytes, (named("SHORTEN", "write") || before > 0) && count > 0 ? 1 : count);
}

ssize_t __real_pread(int file, void *bytes, size_t count, off_t at);
ssize_t __wrap_pread(int file, void *bytes, size_t count, off_t at)
{
    const ssize_t got = fails("pread") ? -1 : __real_pread(file, bytes, count, at);

    /* A disk that gives back another byte than it took. */
    if (got > 0 && named("CHANGE", "pread"))
        *(char *)bytes ^= 1;
    return got;
}

int __real_fsync(int file);
int __wrap_fsync(int file)
{
    return fails("fsync") ? -1 : __real_fsync(file);
}

int __real_fchmod(int file, mode_t mode);
int __wrap_fchmod(int file, mode_t mode)
{
    return fails("fchmod") ? -1 : __real_fchmod(file, mode);
}

int __real_close(int file);
int __wrap_close(int file)
{
    /* Only what was opened for writing matters; inputs are closed by their own function. */
    return fails("close") ? -1 : __real_close(file);
}

int __real_rename(const char *from, const char *to);
int __wrap_rename(const char *from, const char *to)
{
    return fails("rename") ? -1 : __real_rename(from, to);
}
