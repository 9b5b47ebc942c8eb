/* Refuses one call for a file in a folder: the one whose number the variable REFUSE names, from 1 on, of those that
   open, write, synchronize, rename or read files in the folder that FOLDER names. It is loaded before a program by
   LD_PRELOAD. */
#define _GNU_SOURCE
#include <dlfcn.h>
#include <errno.h>
#include <fcntl.h>
#include <stdarg.h>
#include <stdlib.h>
#include <string.h>
#include <sys/stat.h>
#include <unistd.h>

static long left;
static const char *folder;
static char is_ours[1024];

__attribute__((constructor)) static void begin(void)
{
    const char *number = getenv("REFUSE");
    left = number ? atol(number) : 0;
    folder = getenv("FOLDER");
}

static int is_refused(void)
{
    if (left > 0 && --left == 0) {
        errno = EIO;
        return 1;
    }
    return 0;
}

static int is_there(const char *path)
{
    return folder && path && !strncmp(path, folder, strlen(folder)) && path[strlen(folder)] == '/';
}

static int is_open(int file)
{
    return file >= 0 && file < (int)sizeof is_ours && is_ours[file];
}

static int opened(int file, int ours)
{
    if (file >= 0 && file < (int)sizeof is_ours)
        is_ours[file] = ours;
    return file;
}

#define OPEN(name) \
    int name(const char *path, int flags, ...) \
    { \
        int (*next)(const char *, int, ...) = dlsym(RTLD_NEXT, #name); \
        va_list more; \
        va_start(more, flags); \
        mode_t mode = va_arg(more, mode_t); \
        va_end(more); \
        int ours = is_there(path); \
        return ours && is_refused() ? -1 : opened(next(path, flags, mode), ours); \
    }

OPEN(open)
OPEN(open64)

ssize_t write(int file, const void *bytes, size_t count)
{
    ssize_t (*next)(int, const void *, size_t) = dlsym(RTLD_NEXT, "write");
    return is_open(file) && is_refused() ? -1 : next(file, bytes, count);
}

ssize_t read(int file, void *bytes, size_t count)
{
    ssize_t (*next)(int, void *, size_t) = dlsym(RTLD_NEXT, "read");
    return is_open(file) && is_refused() ? -1 : next(file, bytes, count);
}

int fsync(int file)
{
    int (*next)(int) = dlsym(RTLD_NEXT, "fsync");
    return is_open(file) && is_refused() ? -1 : next(file);
}

int rename(const char *from, const char *to)
{
    int (*next)(const char *, const char *) = dlsym(RTLD_NEXT, "rename");
    return is_there(to) && is_refused() ? -1 : next(from, to);
}

int close(int file)
{
    int (*next)(int) = dlsym(RTLD_NEXT, "close");
    opened(file, 0);
    return next(file);
}
