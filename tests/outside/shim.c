/* Stands between wcc and the C library: refuses one of its calls, or does what a wrong adapter would do. Built as a shared object that
   LD_PRELOAD names, it does something only in the program that PROGRAM names.

   REFUSE=KIND:N   the call of this kind with this number, counted from 1, fails: memory, open, seek, read, write (into a file) or
                   put (to the standard output). A byte written to the descriptor that TELL names says that it was refused.
   PLANT=NAME      one of the names below.
   STEP=N          no read and no write moves more bytes than N. */
#define _GNU_SOURCE
#include <dlfcn.h>
#include <errno.h>
#include <fcntl.h>
#include <stdarg.h>
#include <stdlib.h>
#include <string.h>
#include <sys/syscall.h>
#include <unistd.h>

static int is_there;
static int tell = -1;
static unsigned long wanted;
static char kind[16];
static const char *plant = "";
static size_t step = (size_t)-1;

__attribute__((constructor)) static void begin(void)
{
    char path[4096];
    const char *program = getenv("PROGRAM"), *refuse = getenv("REFUSE"), *said = getenv("TELL"), *name = getenv("PLANT"),
               *most = getenv("STEP");
    ssize_t length = readlink("/proc/self/exe", path, sizeof path - 1);
    if (program == NULL || length < 0)
        return;
    path[length] = 0;
    if (strcmp(path, program) != 0)
        return;
    if (refuse != NULL) {
        size_t size = strcspn(refuse, ":");
        if (size < sizeof kind && refuse[size] != 0) {
            memcpy(kind, refuse, size);
            wanted = strtoul(refuse + size + 1, NULL, 10);
        }
    }
    if (said != NULL)
        tell = atoi(said);
    if (name != NULL)
        plant = name;
    if (most != NULL)
        step = strtoul(most, NULL, 10);
    is_there = 1;
}

static int is_refused(const char *name)
{
    static unsigned long seen;
    return is_there && strcmp(kind, name) == 0 && ++seen == wanted && syscall(SYS_write, tell, "!", 1L) == 1;
}

static int is_planted(const char *name)
{
    return is_there && strcmp(plant, name) == 0;
}

static size_t moved(size_t size)
{
    return is_there && size > step ? step : size;
}

static long fails(int error)
{
    errno = error;
    return -1;
}

#define NEXT(result, name, ...) \
    static result (*next)(__VA_ARGS__); \
    if (next == NULL) \
        *(void **)&next = dlsym(RTLD_NEXT, name)

void *malloc(size_t size)
{
    NEXT(void *, "malloc", size_t);
    return is_refused("memory") ? NULL : next(size);
}

void *realloc(void *old, size_t size)
{
    NEXT(void *, "realloc", void *, size_t);
    return is_refused("memory") ? NULL : next(old, size);
}

int open(const char *path, int flags, ...)
{
    NEXT(int, "open", const char *, int, ...);
    va_list rest;
    va_start(rest, flags);
    mode_t mode = (flags & O_CREAT) != 0 ? va_arg(rest, mode_t) : 0;
    va_end(rest);
    if (is_refused("open"))
        return (int)fails(EMFILE);
    if (is_planted("older_bytes_stay"))
        flags &= ~O_TRUNC;
    if (is_planted("written_at_the_start"))
        flags &= ~O_APPEND;
    return next(path, flags, mode);
}

off_t lseek(int file, off_t at, int from)
{
    NEXT(off_t, "lseek", int, off_t, int);
    if (is_refused("seek"))
        return fails(EINVAL);
    if (is_planted("seeks_to_half"))
        at /= 2;
    if (is_planted("never_seeks"))
        return at;
    return next(file, at, from);
}

ssize_t read(int file, void *into, size_t size)
{
    NEXT(ssize_t, "read", int, void *, size_t);
    if (is_refused("read"))
        return fails(EIO);
    ssize_t count = next(file, into, moved(size));
    return is_planted("failed_read_is_the_end") && count < 0 ? 0 : count;
}

ssize_t write(int file, const void *from, size_t size)
{
    NEXT(ssize_t, "write", int, const void *, size_t);
    int is_put = file == STDOUT_FILENO;
    if (is_refused(is_put ? "put" : "write"))
        return fails(ENOSPC);
    ssize_t count = next(file, from, moved(size));
    return count < 0 && is_planted(is_put ? "failed_put_is_done" : "failed_write_is_done") ? (ssize_t)size : count;
}

__attribute__((destructor)) static void end(void)
{
    if (is_planted("status_is_0"))
        _exit(0);
}
