/* A library that tests/refusals loads before the C library: it stands where PROGRAM opens, seeks, reads and writes. It refuses the calls
 * that the environment names, and tells of each on standard error: `open NAME`, `seek NAME`, `read NAME PLACE BYTES`, `write BYTES`, with
 * -1 for the bytes where the call fails. What the environment names, each a number that may be left out:
 *
 *     REFUSED_OPEN, REFUSED_SEEK, REFUSED_READ, REFUSED_WRITE   the call of this number, counted from 1, is refused
 *     MOST_READ, MOST_WRITTEN                                   a call gives or takes at most so many bytes
 *     CUT with CUT_FILE=NAME                                    reads of this file from this place on are refused, and one ends before it
 *     ROOM                                                      so many bytes are written, and then a write is refused
 *     STUCK                                                     then it takes nothing, and is not refused
 */
#define _GNU_SOURCE
#include <errno.h>
#include <fcntl.h>
#include <limits.h>
#include <stdio.h>
#include <stdlib.h>
#include <string.h>
#include <sys/syscall.h>
#include <sys/types.h>
#include <unistd.h>

enum { MOST_FILES = 64 };

/* The names of the files that are open. */
static char *names[MOST_FILES];

static long number(const char *name, long otherwise) {
    const char *text = getenv(name);
    return text ? atol(text) : otherwise;
}

static long least(long one, long other) { return one < other ? one : other; }

/* Counts a call, and says whether it is the refused one. */
static int is_refused(const char *name, long *count) { return ++*count == number(name, 0); }

static const char *name_of(int file) { return file >= 0 && file < MOST_FILES ? names[file] : NULL; }

static int refuse(int error) {
    errno = error;
    return -1;
}

int open(const char *name, int flags, ...) {
    static long count;
    int file = is_refused("REFUSED_OPEN", &count) ? refuse(EACCES) : (int)syscall(SYS_openat, AT_FDCWD, name, flags, 0);
    dprintf(2, "open %s\n", name);
    if (file >= 0 && file < MOST_FILES) names[file] = strdup(name);
    return file;
}

off_t lseek(int file, off_t place, int from) {
    static long count;
    if (name_of(file)) dprintf(2, "seek %s\n", name_of(file));
    return is_refused("REFUSED_SEEK", &count) ? refuse(ESPIPE) : syscall(SYS_lseek, file, place, from);
}

/* How many bytes a file has from a place on before it is cut. */
static long uncut(const char *name, long place) {
    const char *cut_file = getenv("CUT_FILE");
    return cut_file && !strcmp(name, cut_file) ? number("CUT", LONG_MAX) - place : LONG_MAX;
}

ssize_t read(int file, void *into, size_t room) {
    static long count;
    const char *name = name_of(file);
    if (!name) return syscall(SYS_read, file, into, room);
    long place = syscall(SYS_lseek, file, 0, SEEK_CUR);
    long most = least(least((long)room, number("MOST_READ", LONG_MAX)), uncut(name, place));
    long given = is_refused("REFUSED_READ", &count) || most <= 0 ? refuse(EIO) : syscall(SYS_read, file, into, most);
    int error = errno;
    dprintf(2, "read %s %ld %ld\n", name, place, given);
    errno = error;
    return given;
}

ssize_t write(int file, const void *bytes, size_t size) {
    static long count, written;
    if (file != 1) return syscall(SYS_write, file, bytes, size);
    long most = least(least((long)size, number("MOST_WRITTEN", LONG_MAX)), number("ROOM", LONG_MAX) - written);
    int is_full = most == 0 && size > 0;
    long taken;
    if (is_refused("REFUSED_WRITE", &count) || (is_full && !number("STUCK", 0)))
        taken = refuse(ENOSPC);
    else
        taken = is_full ? 0 : syscall(SYS_write, file, bytes, most);
    int error = errno;
    if (taken > 0) written += taken;
    dprintf(2, "write %ld\n", taken);
    errno = error;
    return taken;
}
