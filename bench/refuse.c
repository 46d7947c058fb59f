/* A counter that is loaded before a program (LD_PRELOAD), for bench/refusing.py: it counts the program's
 * requests for memory, its writes, its openings of files and its reads, and refuses some of them.
 *
 *   REFUSE_REQUEST=N      the Nth request for memory, counted from 1, is refused; N+ refuses all behind it too
 *   REFUSE_WRITE=N        the Nth write to a descriptor is refused; N+ refuses all behind it too
 *   REFUSE_DESCRIPTOR=D   that descriptor: 1 unless it is named
 *   REFUSE_OPEN=N         the Nth opening of a file is refused; N+ refuses all behind it too
 *   REFUSE_READ=N         the Nth read, of whatever file, is refused; N+ refuses all behind it too
 *   REFUSE_ERROR=WORD     why a write, an opening or a read is refused: the name of an error, ENOSPC unless another one
 *                         of the table below is named; or one of the words that stand next
 *     NOTHING             it takes nothing, and no error is told: the end of the file, where it is a read
 *     SHORT               it takes one byte
 *     PART                half of a write is taken, and each write behind it fails with ENOSPC
 *     GROW                before this read "Bw" and a line feed are appended to the file
 *     CUT                 before this read the file loses half of what wasn't read
 *   REFUSE_COUNTS=PATH    at the end "requests N writes M opens O reads R" is written to this file
 *
 * It counts from the start of main on: what the loader asks for before isn't the program's.
 */
#define _GNU_SOURCE
#include <errno.h>
#include <fcntl.h>
#include <stdarg.h>
#include <stddef.h>
#include <stdio.h>
#include <stdlib.h>
#include <string.h>
#include <sys/stat.h>
#include <sys/syscall.h>
#include <sys/uio.h>
#include <unistd.h>

/* What the C library itself calls. */
extern void *__libc_malloc(size_t);
extern void *__libc_calloc(size_t, size_t);
extern void *__libc_realloc(void *, size_t);
extern void *__libc_memalign(size_t, size_t);

struct series {
    unsigned long count; /* how many there were */
    unsigned long first; /* the first that is refused; 0: none */
    int rest;            /* whether all behind it are refused too */
};

enum way { FAIL, NOTHING, SHORT, PART, GROW, CUT };

static const struct word {
    const char *name;
    enum way way;
    int error;
} words[] = {
    {"ENOSPC", FAIL, ENOSPC}, {"EPIPE", FAIL, EPIPE},   {"EINTR", FAIL, EINTR},   {"EIO", FAIL, EIO},
    {"EAGAIN", FAIL, EAGAIN}, {"EACCES", FAIL, EACCES}, {"EMFILE", FAIL, EMFILE}, {"NOTHING", NOTHING, 0},
    {"SHORT", SHORT, 0},      {"PART", PART, ENOSPC},   {"GROW", GROW, 0},        {"CUT", CUT, 0},
};

static struct series requests, writes, opens, reads;
static int started, descriptor = 1, error = ENOSPC;
static enum way way = FAIL;
static const char *counts;

static void read_series(struct series *it, const char *name)
{
    const char *value = getenv(name);
    char *end;
    if (!value)
        return;
    it->first = strtoul(value, &end, 10);
    it->rest = *end == '+';
}

static void read_word(const char *name)
{
    for (size_t i = 0; i < sizeof words / sizeof *words; i++)
        if (!strcmp(name, words[i].name)) {
            way = words[i].way;
            error = words[i].error;
            return;
        }
    fprintf(stderr, "refuse.c has no word %s\n", name);
    exit(99);
}

__attribute__((constructor)) static void start(void)
{
    const char *word = getenv("REFUSE_DESCRIPTOR");
    if (word)
        descriptor = atoi(word);
    word = getenv("REFUSE_ERROR");
    if (word)
        read_word(word);
    counts = getenv("REFUSE_COUNTS");
    read_series(&requests, "REFUSE_REQUEST");
    read_series(&writes, "REFUSE_WRITE");
    read_series(&opens, "REFUSE_OPEN");
    read_series(&reads, "REFUSE_READ");
    started = 1;
}

static int is_refused(struct series *it)
{
    if (!started)
        return 0;
    it->count++;
    return it->first && (it->count == it->first || (it->rest && it->count > it->first));
}

static int has_no_memory(void)
{
    if (!is_refused(&requests))
        return 0;
    errno = ENOMEM;
    return 1;
}

void *malloc(size_t size) { return has_no_memory() ? NULL : __libc_malloc(size); }

void *calloc(size_t count, size_t size) { return has_no_memory() ? NULL : __libc_calloc(count, size); }

void *realloc(void *old, size_t size) { return has_no_memory() ? NULL : __libc_realloc(old, size); }

void *aligned_alloc(size_t align, size_t size) { return has_no_memory() ? NULL : __libc_memalign(align, size); }

void *memalign(size_t align, size_t size) { return has_no_memory() ? NULL : __libc_memalign(align, size); }

int posix_memalign(void **result, size_t align, size_t size)
{
    void *block = has_no_memory() ? NULL : __libc_memalign(align, size);
    if (!block)
        return ENOMEM;
    *result = block;
    return 0;
}

/* How many bytes of a write or a read that is refused may be taken; -1 with errno where it fails. */
static ssize_t let(size_t size)
{
    switch (way) {
    case FAIL:
        errno = error;
        return -1;
    case NOTHING:
        return 0;
    case PART:
        way = FAIL;
        writes.rest = 1;
        return size / 2;
    default:
        return size < 1 ? size : 1;
    }
}

ssize_t write(int to, const void *bytes, size_t size)
{
    if (to == descriptor && is_refused(&writes)) {
        ssize_t some = let(size);
        return some <= 0 ? some : syscall(SYS_write, to, bytes, some);
    }
    return syscall(SYS_write, to, bytes, size);
}

/* The name by which the C library calls it itself. */
ssize_t __write(int to, const void *bytes, size_t size) { return write(to, bytes, size); }

ssize_t writev(int to, const struct iovec *parts, int count)
{
    if (to == descriptor && is_refused(&writes))
        for (int i = 0; i < count; i++)
            if (parts[i].iov_len) {
                ssize_t some = let(parts[i].iov_len);
                return some <= 0 ? some : syscall(SYS_write, to, parts[i].iov_base, some);
            }
    return syscall(SYS_writev, to, parts, count);
}

/* Lets the file behind a descriptor grow, or lose half of what wasn't read. */
static void change(int from)
{
    char path[40];
    struct stat now;
    long long place = lseek(from, 0, SEEK_CUR);
    int file;
    snprintf(path, sizeof path, "/proc/self/fd/%d", from);
    file = syscall(SYS_openat, AT_FDCWD, path, O_WRONLY | O_APPEND);
    if (file < 0)
        return;
    if (way == GROW)
        syscall(SYS_write, file, "Bw\n", 3);
    else if (!fstat(file, &now) && now.st_size > place && ftruncate(file, place + (now.st_size - place) / 2))
        perror("refuse.c");
    syscall(SYS_close, file);
}

ssize_t read(int from, void *bytes, size_t size)
{
    if (is_refused(&reads)) {
        if (way == GROW || way == CUT) {
            change(from);
        } else {
            ssize_t some = let(size);
            return some <= 0 ? some : syscall(SYS_read, from, bytes, some);
        }
    }
    return syscall(SYS_read, from, bytes, size);
}

ssize_t __read(int from, void *bytes, size_t size) { return read(from, bytes, size); }

static int open_in(int folder, const char *path, int flags, int mode)
{
    if (is_refused(&opens)) {
        errno = error;
        return -1;
    }
    return syscall(SYS_openat, folder, path, flags, mode);
}

static int mode_of(int flags, va_list rest) { return flags & (O_CREAT | __O_TMPFILE) ? va_arg(rest, int) : 0; }

int openat(int folder, const char *path, int flags, ...)
{
    va_list rest;
    int file;
    va_start(rest, flags);
    file = open_in(folder, path, flags, mode_of(flags, rest));
    va_end(rest);
    return file;
}

int open(const char *path, int flags, ...)
{
    va_list rest;
    int file;
    va_start(rest, flags);
    file = open_in(AT_FDCWD, path, flags, mode_of(flags, rest));
    va_end(rest);
    return file;
}

int openat64(int folder, const char *path, int flags, ...) __attribute__((alias("openat")));
int open64(const char *path, int flags, ...) __attribute__((alias("open")));

static void tell(void)
{
    char line[120];
    int file, size;
    if (!counts)
        return;
    size = snprintf(line, sizeof line, "requests %lu writes %lu opens %lu reads %lu\n", requests.count, writes.count,
                    opens.count, reads.count);
    file = syscall(SYS_openat, AT_FDCWD, counts, O_WRONLY | O_CREAT | O_TRUNC, 0666);
    if (file < 0)
        return;
    syscall(SYS_write, file, line, size);
    syscall(SYS_close, file);
    counts = NULL;
}

__attribute__((destructor)) static void end(void) { tell(); }

void _exit(int status)
{
    tell();
    for (;;)
        syscall(SYS_exit_group, status);
}
