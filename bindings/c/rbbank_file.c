/* The calls on a journal's file, as the library asks for them. rbbank_file.h says what each function does. */
#include "rbbank_file.h"

#include <errno.h>
#include <fcntl.h>
#include <stdio.h>
#include <stdlib.h>
#include <string.h>
#include <sys/file.h>
#include <sys/stat.h>
#include <unistd.h>

/* All of the bytes, at this place; -1 if the file fails. */
static int write_all(int descriptor, const char *bytes, size_t length, uint64_t at) {
    while (length > 0) {
        ssize_t n = pwrite(descriptor, bytes, length, (off_t)at);
        if (n < 0 && errno == EINTR)
            continue;
        if (n <= 0)
            return -1;
        bytes += n, length -= (size_t)n, at += (uint64_t)n;
    }
    return 0;
}

/* Waits until the names in a file's folder are on the disk. */
static int sync_folder(const char *path) {
    char *folder = strdup(path), *slash = folder == NULL ? NULL : strrchr(folder, '/');
    if (folder == NULL)
        return -1;
    if (slash != NULL)
        slash[slash == folder] = '\0';
    int descriptor = open(slash == NULL ? "." : folder, O_RDONLY | O_CLOEXEC);
    int done = descriptor < 0 ? -1 : fsync(descriptor);
    if (descriptor >= 0)
        close(descriptor);
    free(folder);
    return done;
}

/* Adds what is about to be cut off to the end of the file of the same name and `.cut`. */
static int keep(const struct rbbank_file *file, const char *bytes, size_t length) {
    struct stat all;
    size_t size = strlen(file->path) + sizeof ".cut";
    char *beside = malloc(size);
    if (beside == NULL || fstat(file->descriptor, &all) != 0) {
        free(beside);
        return -1;
    }
    snprintf(beside, size, "%s.cut", file->path);
    int descriptor = open(beside, O_RDWR | O_CREAT | O_CLOEXEC, all.st_mode & 0777);
    int done = descriptor < 0 ? -1 : fstat(descriptor, &all);
    if (done == 0)
        done = write_all(descriptor, bytes, length, (uint64_t)all.st_size);
    if (done == 0)
        done = fsync(descriptor);
    if (descriptor >= 0)
        close(descriptor);
    if (done == 0)
        done = sync_folder(beside);
    free(beside);
    return done;
}

/* Whether the name still leads to the open file: a start would open another one else. */
static int is_at_its_name(const struct rbbank_file *file) {
    struct stat named, open_one;
    if (stat(file->path, &named) != 0 || fstat(file->descriptor, &open_one) != 0)
        return 0;
    if (named.st_dev == open_one.st_dev && named.st_ino == open_one.st_ino)
        return 1;
    errno = ESTALE;
    return 0;
}

/* Whether the file ends here, where a batch is written: nobody else wrote it or cut it. */
static int is_its_end(const struct rbbank_file *file, uint64_t at) {
    struct stat all;
    if (fstat(file->descriptor, &all) != 0)
        return 0;
    errno = ESTALE;
    return (uint64_t)all.st_size == at;
}

/* Makes a call that was asked for; -1 if it failed. */
static int make(const struct rbbank_file *file, int32_t kind, uint64_t at, size_t length) {
    switch (kind) {
    case RBBANK_CALL_WRITE:
        /* The byte that makes a batch count is written alone. */
        if (length == 1 ? !is_at_its_name(file) : !is_its_end(file, at))
            return -1;
        return write_all(file->descriptor, file->bytes, length, at);
    case RBBANK_CALL_CUT:
        return ftruncate(file->descriptor, (off_t)at) != 0 ? -1 : fsync(file->descriptor);
    case RBBANK_CALL_SYNC:
        return fsync(file->descriptor);
    case RBBANK_CALL_KEEP:
        return keep(file, file->bytes, length);
    default:
        errno = ENOSYS;
        return -1;
    }
}

/* Makes room for so many bytes; -1 if there is no memory. */
static int reserve(struct rbbank_file *file, size_t length) {
    if (length <= file->capacity)
        return 0;
    char *bytes = realloc(file->bytes, length);
    if (bytes == NULL)
        return -1;
    file->bytes = bytes;
    file->capacity = length;
    return 0;
}

/* Makes the calls that are left, one after another, and none after one that failed. */
static int32_t make_all(struct rbbank_file *file) {
    for (;;) {
        size_t length;
        uint64_t at;
        int32_t kind = rbbank_journal_call(&file->journal, file->bytes, file->capacity, &length, &at);
        if (kind == 0)
            return RBBANK_OK;
        if (length > file->capacity) {
            if (reserve(file, length) == 0)
                continue;
            rbbank_file_close(file);
            return RBBANK_NO_MEMORY;
        }
        int made = make(file, kind, at, length) == 0;
        rbbank_journal_done(&file->journal, (uint8_t)made);
        if (!made) {
            int why = errno;
            rbbank_file_close(file);
            errno = why;
            return RBBANK_FILE_FAILED;
        }
    }
}

/* Reads the whole file, and writes what was read again: after a wait for the disk that failed, the system may have what
 * an earlier process wrote in its memory alone. -1 if the file fails. */
static int read_whole(struct rbbank_file *file, size_t *length) {
    struct stat all;
    *length = 0;
    if (fsync(file->descriptor) != 0 || fstat(file->descriptor, &all) != 0 || reserve(file, (size_t)all.st_size) != 0)
        return -1;
    while (*length < (size_t)all.st_size) {
        ssize_t n = pread(file->descriptor, file->bytes + *length, (size_t)all.st_size - *length, (off_t)*length);
        if (n < 0 && errno == EINTR)
            continue;
        if (n <= 0)
            return -1;
        *length += (size_t)n;
    }
    if (write_all(file->descriptor, file->bytes, *length, 0) != 0 || fsync(file->descriptor) != 0)
        return -1;
    return sync_folder(file->path);
}

/* Opens the file, or makes it if it is a new one, above the standard streams' descriptors, and locks it. */
static int32_t open_locked(struct rbbank_file *file, const char *path, int is_new) {
    struct stat all;
    int descriptor = open(path, O_RDWR | O_CLOEXEC | (is_new ? O_CREAT : 0), 0666);
    if (descriptor < 0)
        return errno == ENOENT && !is_new ? RBBANK_FILE_NO_JOURNAL : RBBANK_FILE_FAILED;
    file->descriptor = descriptor > 2 ? descriptor : fcntl(descriptor, F_DUPFD_CLOEXEC, 3);
    if (descriptor <= 2)
        close(descriptor);
    if (file->descriptor < 0)
        return RBBANK_FILE_FAILED;
    if (flock(file->descriptor, LOCK_EX | LOCK_NB) != 0)
        return errno == EWOULDBLOCK ? RBBANK_FILE_IN_USE : RBBANK_FILE_FAILED;
    if (fstat(file->descriptor, &all) != 0)
        return RBBANK_FILE_FAILED;
    if (is_new && all.st_size != 0)
        return RBBANK_FILE_JOURNAL_THERE;
    /* A name that is a link would have its file's name synced nowhere. */
    file->path = realpath(path, NULL);
    return file->path == NULL ? RBBANK_FILE_FAILED : RBBANK_OK;
}

int32_t rbbank_file_open(struct rbbank_file *file, const char *path, uint8_t me, size_t resend, int is_new,
                         const char *config, size_t length, uint64_t *number) {
    size_t read;
    *number = 0;
    rbbank_file_close(file);
    int32_t status = open_locked(file, path, is_new);
    if (status == RBBANK_OK && read_whole(file, &read) != 0)
        status = RBBANK_FILE_FAILED;
    if (status == RBBANK_OK)
        status = rbbank_journal_open(&file->journal, me, resend, config, length, file->bytes, read, number);
    if (status == RBBANK_OK) {
        free(file->bytes);
        file->bytes = NULL;
        file->capacity = 0;
        return make_all(file);
    }
    int why = errno;
    rbbank_file_close(file);
    errno = why;
    return status;
}

int32_t rbbank_file_answer(struct rbbank_file *file, size_t number, const char *line, size_t length) {
    int32_t status = rbbank_journal_answer(&file->journal, number, line, length);
    if (status == RBBANK_OK)
        return make_all(file);
    if (status == RBBANK_NO_MEMORY)
        rbbank_file_close(file);
    return status;
}

void rbbank_file_close(struct rbbank_file *file) {
    rbbank_journal_close(&file->journal);
    if (file->descriptor > 2)
        close(file->descriptor);
    free(file->path);
    free(file->bytes);
    memset(file, 0, sizeof *file);
}
