/* Stands between a program and the C library (LD_PRELOAD), counts the program's requests for memory, reads, writes and opened
   files, and refuses those that it is told to refuse. What it is told comes by the environment:

   HOSTILE_CALL    memory, read, write or open: which kind of call is refused; none where it isn't set
   HOSTILE_NUMBER  the number of the call that is refused, counted from 1
   HOSTILE_ON      set: every later call of the kind is refused too
   HOSTILE_ERROR   the number of the error of a refused read, write or open
   HOSTILE_STEP    the most bytes that a read or a write moves
   HOSTILE_COUNTS  the file to which the four counts are written at the end, in the order of HOSTILE_CALL, the most memory that
                   the program had, in kilobytes, and the milliseconds that it took of the processor

   Calls that the C library makes of its own accord, before main or within itself, don't pass here. */
#define _GNU_SOURCE
#include <errno.h>
#include <fcntl.h>
#include <stdarg.h>
#include <stdio.h>
#include <stdlib.h>
#include <string.h>
#include <sys/resource.h>
#include <sys/syscall.h>
#include <unistd.h>

/* The C library's own allocator, by the names under which it keeps it for such use. */
extern void *__libc_malloc(size_t);
extern void *__libc_calloc(size_t, size_t);
extern void *__libc_realloc(void *, size_t);
extern void *__libc_memalign(size_t, size_t);

enum kind { MEMORY, READ, WRITE, OPEN, KINDS };

static const char *const names[KINDS] = {"memory", "read", "write", "open"};
static unsigned long made[KINDS];
static int refused = KINDS;
static unsigned long number, step = -1UL;
static int goes_on, error = EIO;
static const char *counts;

static unsigned long number_in(const char *name, unsigned long otherwise)
{
    const char *text = getenv(name);
    return text ? strtoul(text, NULL, 10) : otherwise;
}

__attribute__((constructor)) static void begin(void)
{
    const char *kind = getenv("HOSTILE_CALL");
    for (int i = 0; kind && i < KINDS; i++)
        if (!strcmp(kind, names[i])) refused = i;
    number = number_in("HOSTILE_NUMBER", 0);
    goes_on = getenv("HOSTILE_ON") != NULL;
    error = (int)number_in("HOSTILE_ERROR", EIO);
    step = number_in("HOSTILE_STEP", -1UL);
    counts = getenv("HOSTILE_COUNTS");
    memset(made, 0, sizeof made);
}

/* The most memory that the program had, of which the system tells here what it had after it was started alone. */
static unsigned long peak(void)
{
    char status[4096];
    long file = syscall(SYS_openat, AT_FDCWD, "/proc/self/status", O_RDONLY, 0);
    long length = file < 0 ? 0 : syscall(SYS_read, file, status, sizeof status - 1);
    status[length < 0 ? 0 : length] = 0;
    const char *line = strstr(status, "VmHWM:");
    return line ? strtoul(line + 6, NULL, 10) : 0;
}

static long milliseconds(void)
{
    struct rusage usage;
    getrusage(RUSAGE_SELF, &usage);
    return (usage.ru_utime.tv_sec + usage.ru_stime.tv_sec) * 1000 + (usage.ru_utime.tv_usec + usage.ru_stime.tv_usec) / 1000;
}

__attribute__((destructor)) static void end(void)
{
    char line[128];
    if (!counts) return;
    int length = snprintf(line, sizeof line, "%lu %lu %lu %lu %lu %ld\n", made[MEMORY], made[READ], made[WRITE], made[OPEN], peak(),
                          milliseconds());
    long file = syscall(SYS_openat, AT_FDCWD, counts, O_WRONLY | O_CREAT | O_TRUNC, 0600);
    if (file >= 0) syscall(SYS_write, file, line, (size_t)length);
}

/* Counts a call, and tells whether it is refused. */
static int is_refused(int kind)
{
    made[kind]++;
    return kind == refused && (made[kind] == number || (goes_on && made[kind] > number));
}

static int no_memory(void)
{
    int is = is_refused(MEMORY);
    if (is) errno = ENOMEM;
    return is;
}

void *malloc(size_t size) { return no_memory() ? NULL : __libc_malloc(size); }

void *calloc(size_t count, size_t size) { return no_memory() ? NULL : __libc_calloc(count, size); }

void *realloc(void *old, size_t size) { return no_memory() ? NULL : __libc_realloc(old, size); }

void *memalign(size_t alignment, size_t size) { return no_memory() ? NULL : __libc_memalign(alignment, size); }

void *aligned_alloc(size_t alignment, size_t size) { return memalign(alignment, size); }

int posix_memalign(void **into, size_t alignment, size_t size)
{
    void *memory = memalign(alignment, size);
    if (!memory) return ENOMEM;
    *into = memory;
    return 0;
}

/* A call that moves bytes, by the system itself. */
static ssize_t moved(int kind, long call, int file, const void *bytes, size_t count)
{
    if (is_refused(kind)) {
        errno = error;
        return -1;
    }
    return syscall(call, file, bytes, count < step ? count : step);
}

ssize_t read(int file, void *into, size_t count) { return moved(READ, SYS_read, file, into, count); }

ssize_t write(int file, const void *from, size_t count) { return moved(WRITE, SYS_write, file, from, count); }

ssize_t __write(int file, const void *from, size_t count) { return write(file, from, count); }

static int opened(int folder, const char *path, int flags, mode_t mode)
{
    if (is_refused(OPEN)) {
        errno = error;
        return -1;
    }
    return (int)syscall(SYS_openat, folder, path, flags, mode);
}

static mode_t mode_of(int flags, va_list rest) { return flags & (O_CREAT | O_TMPFILE) ? va_arg(rest, mode_t) : 0; }

#define OPENED(folder)                        \
    va_list rest;                             \
    va_start(rest, flags);                    \
    mode_t mode = mode_of(flags, rest);       \
    va_end(rest);                             \
    return opened(folder, path, flags, mode)

int open(const char *path, int flags, ...) { OPENED(AT_FDCWD); }

int open64(const char *path, int flags, ...) { OPENED(AT_FDCWD); }

int openat(int folder, const char *path, int flags, ...) { OPENED(folder); }

int openat64(int folder, const char *path, int flags, ...) { OPENED(folder); }
