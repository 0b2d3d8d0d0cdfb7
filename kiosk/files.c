#define _POSIX_C_SOURCE 200809L
#include "files.h"
#include <errno.h>
#include <fcntl.h>
#include <limits.h>
#include <stdio.h>
#include <unistd.h>

/* All bytes into a file that is made anew, and to the disk. */
static int write_whole(const char *name, const uint8_t *bytes, size_t length) {
    int file = open(name, O_WRONLY | O_CREAT | O_TRUNC | O_CLOEXEC, 0666);
    if (file < 0) return 0;
    size_t at = 0;
    while (at < length) {
        ssize_t count = write(file, bytes + at, length - at);
        if (count < 0 && errno != EINTR) break;
        if (count > 0) at += (size_t)count;
    }
    int wrong = at < length || fsync(file) != 0 ? errno : 0;
    if (close(file) != 0 && wrong == 0) wrong = errno;
    errno = wrong;
    return wrong == 0;
}

int file_write(const char *name, const uint8_t *bytes, size_t length) {
    char beside[PATH_MAX];
    int size = snprintf(beside, sizeof beside, "%s.new", name);
    if (*name == 0 || size < 0 || (size_t)size >= sizeof beside) {
        errno = *name == 0 ? ENOENT : ENAMETOOLONG;
        return 0;
    }
    if (write_whole(beside, bytes, length) && rename(beside, name) == 0) return 1;
    int wrong = errno;
    unlink(beside);
    errno = wrong;
    return 0;
}

int file_read(const char *name, uint8_t *bytes, size_t most, size_t *length) {
    int file = open(name, O_RDONLY | O_NONBLOCK | O_CLOEXEC);
    if (file < 0) return 0;
    ssize_t count = 1;
    for (*length = 0; *length < most && count != 0; *length += count > 0 ? (size_t)count : 0) {
        count = read(file, bytes + *length, most - *length);
        if (count < 0 && errno != EINTR) break;
    }
    int wrong = count < 0 ? errno : 0;
    close(file);
    errno = wrong;
    return wrong == 0;
}
