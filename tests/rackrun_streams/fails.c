/* Stands before the C library: moves at most CHUNK bytes a call, and lets the call of number READ_FAILS of read, or WRITE_FAILS
 * of write to standard output, fail. Numbers count from 1. */
#include <errno.h>
#include <stdlib.h>
#include <sys/syscall.h>
#include <unistd.h>

static size_t setting(const char *name, size_t otherwise)
{
    const char *text = getenv(name);
    return text == NULL ? otherwise : strtoul(text, NULL, 10);
}

static ssize_t moved(long call, int fd, const void *bytes, size_t count, size_t turn, size_t fails)
{
    size_t chunk = setting("CHUNK", 1000);
    if (turn == fails) {
        errno = EIO;
        return -1;
    }
    return syscall(call, fd, bytes, count < chunk ? count : chunk);
}

ssize_t read(int fd, void *bytes, size_t count)
{
    static size_t turn;
    turn++;
    return moved(SYS_read, fd, bytes, count, turn, setting("READ_FAILS", 0));
}

ssize_t write(int fd, const void *bytes, size_t count)
{
    static size_t turn;
    if (fd != STDOUT_FILENO)
        return syscall(SYS_write, fd, bytes, count);
    turn++;
    return moved(SYS_write, fd, bytes, count, turn, setting("WRITE_FAILS", 0));
}
