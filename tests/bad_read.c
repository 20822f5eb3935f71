/*
 * A library for LD_PRELOAD, in which one read of standard input fails, as that of a bad block on a disk does: in the program
 * that BAD_WHO names, the read behind the first BAD_AT bytes. Reads behind it go on as if nothing had been, so that a failure
 * that is taken for the end, or passed over, is seen.
 */
#define _GNU_SOURCE
#include <errno.h>
#include <stdlib.h>
#include <string.h>
#include <sys/syscall.h>
#include <unistd.h>

/* How many bytes may still be read before the read that fails. Of another input, or behind that read, as many as one likes. */
static size_t good_bytes(int fd, size_t done)
{
    const char *who = getenv("BAD_WHO"), *at = getenv("BAD_AT");
    if (fd != STDIN_FILENO || who == NULL || at == NULL || strcmp(who, program_invocation_short_name) != 0) {
        return (size_t)-1;
    }
    return (size_t)strtoul(at, NULL, 10) - done;
}

/* Stands in the place of the C library's read. */
ssize_t read(int fd, void *to, size_t len)
{
    static size_t done;
    static int failed;
    size_t good = failed ? (size_t)-1 : good_bytes(fd, done);
    if (good == 0) {
        failed = 1;
        errno = EIO;
        return -1;
    }
    ssize_t got = syscall(SYS_read, fd, to, len < good ? len : good);
    if (fd == STDIN_FILENO && got > 0) {
        done += (size_t)got;
    }
    return got;
}
