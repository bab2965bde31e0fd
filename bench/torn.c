/* Preloaded into the program by torn.py: makes chosen calls fail or fall short.
 *
 * TORN_CALL   open, read, write or memory
 * TORN_AT     the number of the call, counted from 1 over its kind
 * TORN_WITH   the number of an error, `none` (no byte is moved), or `cut LENGTH PATH` and `add LENGTH PATH`: just before the
 *             call the file is cut to that length, or so many bytes are added to it
 * TORN_MOST   how many bytes one read or write moves at most
 * TORN_COUNTS a descriptor, to which the numbers of calls are written at the end, one line
 *
 * Calls go straight to the kernel and to the C library's own heap, so that nothing here counts itself. */
#define _GNU_SOURCE
#include <errno.h>
#include <fcntl.h>
#include <stdarg.h>
#include <stdio.h>
#include <stdlib.h>
#include <string.h>
#include <sys/syscall.h>
#include <sys/uio.h>
#include <unistd.h>

enum kind { OPEN, READ, WRITE, MEMORY, KINDS };

static const char *const names[KINDS] = {"open", "read", "write", "memory"};
static long counts[KINDS];
static int chosen = KINDS;
static long chosen_at;
static const char *with = "";
static size_t most_moved = (size_t)-1 >> 1;
static int counts_to = -1;
static char counts_line[128];

void *__libc_malloc(size_t);
void *__libc_calloc(size_t, size_t);
void *__libc_realloc(void *, size_t);

__attribute__((constructor)) static void begin(void)
{
    const char *call = getenv("TORN_CALL"), *at = getenv("TORN_AT"), *how = getenv("TORN_WITH");
    const char *most = getenv("TORN_MOST"), *to = getenv("TORN_COUNTS");
    if (to)
        counts_to = atoi(to);
    if (most)
        most_moved = (size_t)atol(most);
    if (!call || !at || !how)
        return;
    with = how;
    chosen_at = atol(at);
    for (int kind = 0; kind < KINDS; kind++)
        if (!strcmp(call, names[kind]))
            chosen = kind;
}

__attribute__((destructor)) static void end(void)
{
    if (counts_to < 0)
        return;
    int length = snprintf(counts_line, sizeof counts_line, "%ld %ld %ld %ld\n", counts[OPEN], counts[READ], counts[WRITE], counts[MEMORY]);
    syscall(SYS_write, counts_to, counts_line, (size_t)length);
}

static int is_hit(int kind)
{
    counts[kind]++;
    return kind == chosen && counts[kind] == chosen_at;
}

/* What was chosen happens: whether the call may go on, and if not, with errno set or with no byte moved. */
enum end { GOES_ON, FAILS, MOVES_NONE };

static enum end happen(void)
{
    char path[4096];
    long size;
    if (!strcmp(with, "none"))
        return MOVES_NONE;
    if (sscanf(with, "cut %ld %4095s", &size, path) == 2) {
        syscall(SYS_truncate, path, size);
        return GOES_ON;
    }
    if (sscanf(with, "add %ld %4095s", &size, path) == 2) {
        int file = (int)syscall(SYS_openat, AT_FDCWD, path, O_WRONLY | O_APPEND, 0);
        for (; size > 0; size--)
            syscall(SYS_write, file, "#", (size_t)1);
        syscall(SYS_close, file);
        return GOES_ON;
    }
    errno = atoi(with);
    return FAILS;
}

static int opened(int folder, const char *path, int flags, mode_t mode)
{
    if (is_hit(OPEN) && happen() == FAILS)
        return -1;
    return (int)syscall(SYS_openat, folder, path, flags, mode);
}

#define MODE(flags, mode)                                                                                                          \
    va_list rest;                                                                                                                  \
    va_start(rest, flags);                                                                                                         \
    mode_t mode = flags & (O_CREAT | O_TMPFILE) ? va_arg(rest, mode_t) : 0;                                                        \
    va_end(rest)

int open(const char *path, int flags, ...)
{
    MODE(flags, mode);
    return opened(AT_FDCWD, path, flags, mode);
}

int open64(const char *path, int flags, ...)
{
    MODE(flags, mode);
    return opened(AT_FDCWD, path, flags, mode);
}

int openat(int folder, const char *path, int flags, ...)
{
    MODE(flags, mode);
    return opened(folder, path, flags, mode);
}

int openat64(int folder, const char *path, int flags, ...)
{
    MODE(flags, mode);
    return opened(folder, path, flags, mode);
}

static size_t least(size_t length)
{
    return length < most_moved ? length : most_moved;
}

ssize_t read(int file, void *to, size_t length)
{
    enum end end = is_hit(READ) ? happen() : GOES_ON;
    return end == FAILS ? -1 : end == MOVES_NONE ? 0 : syscall(SYS_read, file, to, least(length));
}

static ssize_t written(int file, const void *from, size_t length)
{
    enum end end = is_hit(WRITE) ? happen() : GOES_ON;
    return end == FAILS ? -1 : end == MOVES_NONE ? 0 : syscall(SYS_write, file, from, least(length));
}

ssize_t write(int file, const void *from, size_t length)
{
    return written(file, from, length);
}

/* Of several parts, the first that has bytes. */
ssize_t writev(int file, const struct iovec *parts, int count)
{
    for (int k = 0; k < count; k++)
        if (parts[k].iov_len > 0)
            return written(file, parts[k].iov_base, parts[k].iov_len);
    return written(file, "", 0);
}

void *malloc(size_t length)
{
    if (is_hit(MEMORY)) {
        errno = ENOMEM;
        return NULL;
    }
    return __libc_malloc(length);
}

void *calloc(size_t count, size_t length)
{
    if (is_hit(MEMORY)) {
        errno = ENOMEM;
        return NULL;
    }
    return __libc_calloc(count, length);
}

void *realloc(void *block, size_t length)
{
    if (is_hit(MEMORY)) {
        errno = ENOMEM;
        return NULL;
    }
    return __libc_realloc(block, length);
}
