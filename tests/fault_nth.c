/* Loaded before the C library: one call of a process on a file or folder of the test, on its standard input or on its
   standard output fails or is cut short, and each such call is written down.

   FAULT_FOLDER  the folder of the test: the beginning of its files' paths, and on their device
   FAULT_TRACE   the file that the calls are written to: a line 'NAME KIND INODE OFFSET ASKED DONE ERRNO' for each, and
                 behind that of a write the bytes that were written. KIND is f of a file, d of a folder, i of the input,
                 o of the output. OFFSET is the length of a cut. ASKED and DONE are bytes, or 1 for all of a call
   FAULT_NTH     the number of the call at fault, from 1; 0 or nothing: none
   FAULT_DONE    how many bytes of that call are done; of one without bytes 1 if it is done
   FAULT_ERRNO   what it then reports; 0: no fault, but what was done
   FAULT_STAYS   what each later write, cut and sync of a file then reports, and does nothing; 0: no fault
   FAULT_KILL    1: the process is ended by SIGKILL instead */
#define _GNU_SOURCE
#include <errno.h>
#include <fcntl.h>
#include <limits.h>
#include <signal.h>
#include <stdarg.h>
#include <stdio.h>
#include <stdlib.h>
#include <string.h>
#include <sys/stat.h>
#include <sys/syscall.h>
#include <sys/uio.h>
#include <unistd.h>

#define TRACE 500 /* the least number of the trace's descriptor: the process has its own below */

static int trace = -1;
static dev_t device;
static long nth, done_of_nth, error_of_nth, error_after, ends, count;
static int stays;

static long number(const char *name)
{
    const char *text = getenv(name);
    return text == NULL ? 0 : atol(text);
}

__attribute__((constructor)) static void begin(void)
{
    struct stat folder;
    const char *path = getenv("FAULT_FOLDER"), *file = getenv("FAULT_TRACE");
    if (path == NULL || file == NULL || stat(path, &folder) != 0)
        return;
    device = folder.st_dev;
    int opened = syscall(SYS_openat, AT_FDCWD, file, O_WRONLY | O_CREAT | O_TRUNC | O_CLOEXEC, 0600);
    trace = fcntl(opened, F_DUPFD_CLOEXEC, TRACE);
    syscall(SYS_close, opened);
    nth = number("FAULT_NTH");
    done_of_nth = number("FAULT_DONE");
    error_of_nth = number("FAULT_ERRNO");
    error_after = number("FAULT_STAYS");
    ends = number("FAULT_KILL");
}

/* The kind of what a descriptor leads to, and its inode; 0 if its calls aren't counted. */
static char kind_of(int fd, unsigned long *inode)
{
    struct stat found;
    if (trace < 0 || fd == 2 || fd >= TRACE || fstat(fd, &found) != 0)
        return 0;
    *inode = found.st_ino;
    if (found.st_dev == device && (S_ISREG(found.st_mode) || S_ISDIR(found.st_mode)))
        return S_ISREG(found.st_mode) ? 'f' : 'd';
    return fd == 0 ? 'i' : fd == 1 ? 'o' : 0;
}

static void note(const char *name, char kind, unsigned long inode, long at, size_t asked, long done, int error,
                 const void *data)
{
    char line[200];
    int length = snprintf(line, sizeof line, "%s %c %lu %ld %zu %ld %d\n", name, kind, inode, at, asked, done, error);
    struct iovec parts[2] = {{line, length}, {(void *)data, data == NULL || done < 0 ? 0 : done}};
    if (syscall(SYS_writev, trace, parts, 2) < 0)
        abort();
}

/* How much of the next call is done, asked for this much, and what it reports instead. */
static size_t share(char kind, int changes, size_t asked, int *error)
{
    *error = 0;
    if (++count == nth) {
        *error = error_of_nth;
        stays = error_after != 0;
        return (size_t)done_of_nth < asked ? (size_t)done_of_nth : asked;
    }
    if (stays && changes && kind == 'f') {
        *error = error_after;
        return 0;
    }
    return asked;
}

/* Ends a call: notes it, and gives what it reports. */
static long end(const char *name, char kind, unsigned long inode, long at, size_t asked, long done, int error,
                const void *data)
{
    int own = done < 0 ? errno : 0;
    note(name, kind, inode, at, asked, done, error ? error : own, data);
    if (ends && count == nth)
        kill(getpid(), SIGKILL);
    errno = error ? error : own;
    return error ? -1 : done;
}

/* A call with bytes, at an offset if it takes one (else it is -1). */
static long with_bytes(const char *name, long call, int fd, void *data, size_t size, long at, int changes)
{
    unsigned long inode;
    int error;
    char kind = kind_of(fd, &inode);
    if (kind == 0)
        return syscall(call, fd, data, size, at);
    long place = kind == 'f' && at < 0 ? lseek(fd, 0, SEEK_CUR) : at;
    if (kind == 'f' && at < 0 && fcntl(fd, F_GETFL) & O_APPEND)
        place = lseek(fd, 0, SEEK_END);
    size_t part = share(kind, changes, size, &error);
    long done = part == 0 && (size > 0 || error) ? 0 : syscall(call, fd, data, part, at);
    return end(name, kind, inode, place, size, done, error, changes ? data : NULL);
}

/* A call that is done or not. */
static int whole(const char *name, long call, int fd, long word, int changes)
{
    unsigned long inode;
    int error;
    char kind = kind_of(fd, &inode);
    if (kind == 0)
        return syscall(call, fd, word);
    long done = 0;
    if (share(kind, changes, 1, &error) == 1)
        done = syscall(call, fd, word) == 0 ? 1 : -1;
    return end(name, kind, inode, word, 1, done, error, NULL) < 0 ? -1 : 0;
}

ssize_t read(int fd, void *data, size_t size) { return with_bytes("read", SYS_read, fd, data, size, -1, 0); }

ssize_t write(int fd, const void *data, size_t size)
{
    return with_bytes("write", SYS_write, fd, (void *)data, size, -1, 1);
}

ssize_t pread64(int fd, void *data, size_t size, off64_t at)
{
    return with_bytes("pread", SYS_pread64, fd, data, size, at, 0);
}

ssize_t pread(int fd, void *data, size_t size, off_t at) { return pread64(fd, data, size, at); }

ssize_t pwrite64(int fd, const void *data, size_t size, off64_t at)
{
    return with_bytes("pwrite", SYS_pwrite64, fd, (void *)data, size, at, 1);
}

ssize_t pwrite(int fd, const void *data, size_t size, off_t at) { return pwrite64(fd, data, size, at); }

int fsync(int fd) { return whole("fsync", SYS_fsync, fd, 0, 1); }

int fdatasync(int fd) { return whole("fdatasync", SYS_fdatasync, fd, 0, 1); }

int ftruncate64(int fd, off64_t length) { return whole("ftruncate", SYS_ftruncate, fd, length, 1); }

int ftruncate(int fd, off_t length) { return ftruncate64(fd, length); }

int open64(const char *path, int flags, ...)
{
    va_list rest;
    va_start(rest, flags);
    int mode = flags & (O_CREAT | O_TMPFILE) ? va_arg(rest, int) : 0, error = 0;
    va_end(rest);
    if (trace < 0 || strncmp(path, getenv("FAULT_FOLDER"), strlen(getenv("FAULT_FOLDER"))) != 0)
        return syscall(SYS_openat, AT_FDCWD, path, flags, mode);
    int made = share('f', 0, 1, &error) == 1 ? syscall(SYS_openat, AT_FDCWD, path, flags, mode) : -1;
    int own = made < 0 && error == 0 ? errno : error;
    if (made >= 0 && error != 0)
        syscall(SYS_close, made);
    end("open", 'f', 0, 0, 1, made < 0 ? 0 : 1, own, NULL);
    return own != 0 ? -1 : made;
}

int open(const char *path, int flags, ...)
{
    va_list rest;
    va_start(rest, flags);
    int mode = flags & (O_CREAT | O_TMPFILE) ? va_arg(rest, int) : 0;
    va_end(rest);
    return open64(path, flags, mode);
}

int flock(int fd, int word) { return whole("flock", SYS_flock, fd, word, 0); }
