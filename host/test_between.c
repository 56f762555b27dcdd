/* Loaded before the C library (LD_PRELOAD), so that a test can act between any two calls by which the program reads and writes files:
 * each of them first hands a letter to descriptor BETWEEN_ASKS and waits for a byte on BETWEEN_ANSWERS. A byte other than '.' makes the
 * call fail: with EPERM for 'p', EINVAL for 'i', EIO for 'e'. */
#define _GNU_SOURCE
#include <dlfcn.h>
#include <errno.h>
#include <fcntl.h>
#include <stdarg.h>
#include <stdlib.h>
#include <sys/stat.h>
#include <sys/types.h>
#include <time.h>
#include <unistd.h>

#define NEXT(name) ((__typeof__(&name))dlsym(RTLD_NEXT, #name))

/* Whether the call is to be made. */
static int may(char letter)
{
    const char *asks = getenv("BETWEEN_ASKS"), *answers = getenv("BETWEEN_ANSWERS");
    ssize_t n;
    if (asks == NULL || answers == NULL)
        return 1;
    n = NEXT(write)(atoi(asks), &letter, 1);
    if (n == 1)
        do
            n = NEXT(read)(atoi(answers), &letter, 1);
        while (n < 0 && errno == EINTR);
    if (n != 1 || letter == '.')
        return 1;
    errno = letter == 'p' ? EPERM : letter == 'i' ? EINVAL : EIO;
    return 0;
}

#define WRAPPED(letter, type, name, parameters, arguments) \
    type name parameters { return may(letter) ? NEXT(name) arguments : -1; }

WRAPPED('r', ssize_t, read, (int file, void *to, size_t n), (file, to, n))
WRAPPED('p', ssize_t, pread, (int file, void *to, size_t n, off_t at), (file, to, n, at))
WRAPPED('w', ssize_t, write, (int file, const void *from, size_t n), (file, from, n))
WRAPPED('s', int, fstat, (int file, struct stat *to), (file, to))
WRAPPED('a', int, fstatat, (int folder, const char *name, struct stat *to, int flags), (folder, name, to, flags))
WRAPPED('m', int, fchmod, (int file, mode_t mode), (file, mode))
WRAPPED('f', int, fsync, (int file), (file))
WRAPPED('c', int, close, (int file), (file))
WRAPPED('l', int, linkat, (int from, const char *old, int to, const char *name, int flags), (from, old, to, name, flags))
WRAPPED('u', int, unlinkat, (int folder, const char *name, int flags), (folder, name, flags))
WRAPPED('n', int, nanosleep, (const struct timespec *time, struct timespec *left), (time, left))

int open(const char *name, int flags, ...)
{
    va_list rest;
    mode_t mode;
    va_start(rest, flags);
    mode = flags & O_CREAT ? va_arg(rest, mode_t) : 0;
    va_end(rest);
    return may('o') ? NEXT(open)(name, flags, mode) : -1;
}

int openat(int folder, const char *name, int flags, ...)
{
    va_list rest;
    mode_t mode;
    va_start(rest, flags);
    mode = flags & O_CREAT ? va_arg(rest, mode_t) : 0;
    va_end(rest);
    return may('t') ? NEXT(openat)(folder, name, flags, mode) : -1;
}

/* renameat2, which the program calls by its number */
long syscall(long number, ...)
{
    long a[6];
    va_list rest;
    va_start(rest, number);
    for (int i = 0; i < 6; i++)
        a[i] = va_arg(rest, long);
    va_end(rest);
    return may('x') ? NEXT(syscall)(number, a[0], a[1], a[2], a[3], a[4], a[5]) : -1;
}
