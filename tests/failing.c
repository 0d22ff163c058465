/* Put before a program by LD_PRELOAD: counts the growths that the program asks of the heap, by malloc,
   calloc and realloc, its reads of files, and its writes to standard output; and lets one of them fail.

   FAIL_AT=N   the Nth growth is refused, and no other; without it, or with 0, none is
   MOST=N      from the first read of a file on, each growth is refused behind which the program would hold more than
               N bytes more than it held at that read; without it none is
   READ_AT=N   the Nth read of a file fails, as one of a drive that dropped out; the others don't
   TOLD=FILE   the name of the file that this read was of, without its folder, is written to FILE
   WRITE_AT=N  the Nth write to standard output fails, as one on a full disk; the others don't
   ONE_BYTE=1  each read gives one byte at the most, and each write takes one
   COUNTS=1    at the end of the program one line on standard error: how many growths, reads and writes there
               were; how many bytes the growths asked for together, and how many the largest asked for; how many
               bytes more than at the first read of a file were held behind it at the most */
#define _GNU_SOURCE
#include <dlfcn.h>
#include <errno.h>
#include <fcntl.h>
#include <limits.h>
#include <malloc.h>
#include <stdarg.h>
#include <stddef.h>
#include <stdio.h>
#include <stdlib.h>
#include <string.h>
#include <unistd.h>

static void *(*next_malloc)(size_t);
static void *(*next_calloc)(size_t, size_t);
static void *(*next_realloc)(void *, size_t);
static ssize_t (*next_read)(int, void *, size_t);
static ssize_t (*next_write)(int, const void *, size_t);
static int (*next_open)(const char *, int, ...);

/* Counting starts with the program's own code: what the loader and the C library ask for before is
   always given. */
static int counting;
static long growths, fail_at, reads, read_at, writes, write_at;
static int one_byte;
static size_t together, largest;

/* From the first read of a file on: how many bytes more are held than then, how many may be, and how many were at the
   most. */
static long held, most = LONG_MAX, most_held;

/* dlsym may itself call calloc, before that is known: it gets bytes from here, which are never given
   back. */
static char early[4096];
static size_t early_used;

static int is_early(const void *p)
{
    return (const char *)p >= early && (const char *)p < early + sizeof early;
}

static void *early_bytes(size_t size)
{
    size = (size + 15) & ~(size_t)15;
    if (size > sizeof early - early_used)
        return NULL;
    void *p = early + early_used;
    early_used += size;
    return p;
}

static void find_next(void)
{
    static int finding;
    if (finding)
        return;
    finding = 1;
    next_malloc = (void *(*)(size_t))dlsym(RTLD_NEXT, "malloc");
    next_calloc = (void *(*)(size_t, size_t))dlsym(RTLD_NEXT, "calloc");
    next_realloc = (void *(*)(void *, size_t))dlsym(RTLD_NEXT, "realloc");
    next_read = (ssize_t(*)(int, void *, size_t))dlsym(RTLD_NEXT, "read");
    next_write = (ssize_t(*)(int, const void *, size_t))dlsym(RTLD_NEXT, "write");
    next_open = (int (*)(const char *, int, ...))dlsym(RTLD_NEXT, "open");
    finding = 0;
}

static void tell(void)
{
    char line[192];
    counting = 0;
    int n = snprintf(line, sizeof line, "growths %ld reads %ld writes %ld bytes %zu largest %zu held %ld\n",
                     growths, reads, writes, together, largest, most_held);
    if (n > 0 && write(2, line, (size_t)n) < 0)
        _exit(3);
}

static long number(const char *name)
{
    const char *at = getenv(name);
    return at ? atol(at) : 0;
}

__attribute__((constructor)) static void begin(void)
{
    find_next();
    fail_at = number("FAIL_AT");
    read_at = number("READ_AT");
    write_at = number("WRITE_AT");
    one_byte = number("ONE_BYTE") != 0;
    if (getenv("MOST"))
        most = number("MOST");
    if (getenv("COUNTS"))
        atexit(tell);
    counting = 1;
}

/* The bytes of a block, as the C library made it. */
static long bytes_of(void *p)
{
    return p ? (long)malloc_usable_size(p) : 0;
}

/* Counts the bytes that are held behind a growth, or less where a block is given back. */
static void hold(long bytes)
{
    if (!reads)
        return;
    held += bytes;
    if (held > most_held)
        most_held = held;
}

/* Whether so many bytes more would be too many. */
static int is_too_much(long bytes)
{
    return reads && held + bytes > most;
}

/* Counts a growth of a block, which has so many bytes already, and says whether it is one that is refused. */
static int is_refused(size_t size, long before)
{
    if (!counting)
        return 0;
    growths++;
    together += size;
    if (size > largest)
        largest = size;
    if (growths != fail_at && !is_too_much((long)size - before))
        return 0;
    errno = ENOMEM;
    return 1;
}

/* A block that was asked for, or none; what is held grows by it. */
static void *held_block(void *p)
{
    hold(bytes_of(p));
    return p;
}

void *malloc(size_t size)
{
    if (!next_malloc)
        find_next();
    if (!next_malloc)
        return early_bytes(size);
    return is_refused(size, 0) ? NULL : held_block(next_malloc(size));
}

void *calloc(size_t count, size_t size)
{
    if (!next_calloc)
        find_next();
    if (!next_calloc)
        return size && count > sizeof early / size ? NULL : early_bytes(count * size);
    return is_refused(count * size, 0) ? NULL : held_block(next_calloc(count, size));
}

void *realloc(void *p, size_t size)
{
    if (!next_realloc)
        find_next();
    if (!next_realloc)
        return p ? NULL : early_bytes(size);
    long before = is_early(p) ? 0 : bytes_of(p);
    if (is_refused(size, before))
        return NULL;
    if (is_early(p)) {
        size_t there = (size_t)(early + early_used - (char *)p);
        void *q = held_block(next_malloc(size));
        return q ? memcpy(q, p, there < size ? there : size) : NULL;
    }
    void *q = next_realloc(p, size);
    if (q)
        hold(bytes_of(q) - before);
    return q;
}

void free(void *p)
{
    static void (*next_free)(void *);
    if (!p || is_early(p))
        return;
    if (!next_free)
        next_free = (void (*)(void *))dlsym(RTLD_NEXT, "free");
    hold(-bytes_of(p));
    next_free(p);
}

/* The names of the files that are open. */
static char names[64][64];

int open(const char *path, int flags, ...)
{
    mode_t mode = 0;
    if (flags & O_CREAT) {
        va_list rest;
        va_start(rest, flags);
        mode = va_arg(rest, mode_t);
        va_end(rest);
    }
    if (!next_open)
        find_next();
    int fd = next_open(path, flags, mode);
    if (fd >= 0 && fd < 64) {
        const char *slash = strrchr(path, '/');
        snprintf(names[fd], sizeof names[fd], "%s", slash ? slash + 1 : path);
    }
    return fd;
}

/* Says of which file the read was that fails. */
static void tell_of(int fd)
{
    const char *path = getenv("TOLD");
    int told = path ? next_open(path, O_WRONLY | O_CREAT | O_TRUNC, 0666) : -1;
    const char *name = fd < 64 ? names[fd] : "";
    if (told >= 0 && next_write(told, name, strlen(name)) < 0)
        _exit(3);
    if (told >= 0)
        close(told);
}

ssize_t read(int fd, void *bytes, size_t count)
{
    if (!next_read)
        find_next();
    if (counting && fd > 2) {
        if (++reads == read_at) {
            tell_of(fd);
            errno = EIO;
            return -1;
        }
        if (one_byte && count > 1)
            count = 1;
    }
    return next_read(fd, bytes, count);
}

ssize_t write(int fd, const void *bytes, size_t count)
{
    if (!next_write)
        find_next();
    if (counting && fd == 1) {
        if (++writes == write_at) {
            errno = ENOSPC;
            return -1;
        }
        if (one_byte && count > 1)
            count = 1;
    }
    return next_write(fd, bytes, count);
}
