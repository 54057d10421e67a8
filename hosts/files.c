/* Files, random bytes, and the clearing of secrets. */
#define _DEFAULT_SOURCE
#include "files.h"

#include <errno.h>
#include <fcntl.h>
#include <sys/stat.h>
#include <unistd.h>

int read_file(const char *path, uint8_t *bytes, size_t most, size_t *length)
{
    int file = open(path, O_RDONLY);
    ssize_t got = 1;

    if (file < 0)
        return 0;
    *length = 0;
    while (*length < most && got > 0) {
        got = read(file, bytes + *length, most - *length);
        if (got > 0)
            *length += (size_t)got;
    }
    close(file);
    return got >= 0;
}

static int write_all(int file, const uint8_t *bytes, size_t length)
{
    while (length > 0) {
        ssize_t gone = write(file, bytes, length);

        if (gone < 0)
            return 0;
        bytes += gone;
        length -= (size_t)gone;
    }
    return 1;
}

/* Removes a file that was not written whole, and keeps the reason. A device stays. */
static void remove_part(const char *path)
{
    int reason = errno;
    struct stat state;

    if (stat(path, &state) == 0 && S_ISREG(state.st_mode))
        unlink(path);
    errno = reason;
}

/* Writes an open file, and closes it. */
static int write_open(int file, const char *path, const uint8_t *bytes, size_t length)
{
    int written;

    if (file < 0)
        return 0;
    written = write_all(file, bytes, length);
    if (close(file) != 0)
        written = 0;
    if (!written)
        remove_part(path);
    return written;
}

int write_file(const char *path, const uint8_t *bytes, size_t length)
{
    return write_open(open(path, O_WRONLY | O_CREAT | O_TRUNC, 0666), path, bytes, length);
}

int write_secret_file(const char *path, const uint8_t *bytes, size_t length)
{
    return write_open(open(path, O_WRONLY | O_CREAT | O_EXCL, 0600), path, bytes, length);
}

int is_same_file(const char *one, const char *other)
{
    struct stat a, b;

    return stat(one, &a) == 0 && stat(other, &b) == 0 && a.st_dev == b.st_dev && a.st_ino == b.st_ino;
}

int fill_with_random(uint8_t *bytes, size_t length)
{
    return getentropy(bytes, length) == 0;
}

/* The pointer is volatile, or a compiler could leave out what nobody reads. */
void forget(void *secret, size_t length)
{
    volatile uint8_t *bytes = secret;
    size_t i;

    for (i = 0; i < length; i++)
        bytes[i] = 0;
}
