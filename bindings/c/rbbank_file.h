/* A site whose journal is in a file, for C and a Unix system: rbbank_file.c makes the calls on the file that
 * rbbank_journal_call asks for, in its order, and says how each ended. What was answered is on the disk before its
 * reply can be read. The file is the one that `rbbank site` has, and either goes on from it.
 *
 * librbbank_file.a is this alone, and is linked before librbbank. A file that is zeroed
 * (`struct rbbank_file file = {0};`) isn't open. It is used by one thread at a time.
 */
#ifndef RBBANK_FILE_H
#define RBBANK_FILE_H

#include "rbbank.h"

#ifdef __cplusplus
extern "C" {
#endif

struct rbbank_file {
    struct rbbank_journal journal; /* rbbank_journal_reply reads the answer from it */
    int descriptor;
    char *path;
    char *bytes;
    size_t capacity;
};

/* What rbbank_file_open and rbbank_file_answer return, beside the statuses of rbbank_journal_open and _answer. */
enum {
    RBBANK_FILE_FAILED = 10,       /* a call on the file failed, and `errno` says why: open the file again. ESTALE: it
                                      was replaced, or somebody else changed its length. One that was replaced or made
                                      shorter is an older copy: don't go on with it, since it makes other operations
                                      under names that are taken (docs/RUNNING.md, Faults and crashes) */
    RBBANK_FILE_IN_USE = 11,       /* another process has the journal, or this one has it open already */
    RBBANK_FILE_NO_JOURNAL = 12,   /* it isn't there, and no new one was asked for */
    RBBANK_FILE_JOURNAL_THERE = 13 /* a new one was asked for, and it is there with bytes in it */
};

/* Opens site `me` of the configuration's line over the journal at `path`, and locks it against other processes. With
 * `is_new` it begins a new journal, and only then makes the file: a mistyped name, or a disk that isn't mounted, is
 * never a new site, which would make other operations under names that are taken. An empty file (docs/FORMAT.md, The
 * journal) is begun either way. The reply is then what the last `resend` entries sent, a line for each that sent any.
 * `*number` is as rbbank_journal_open has it. After another status than 0 nothing is open. A fork shares handle and
 * lock: open it after the fork, in one process. */
int32_t rbbank_file_open(struct rbbank_file *file, const char *path, uint8_t me, size_t resend, int is_new,
                         const char *config, size_t length, uint64_t *number);

/* Answers a line, as rbbank_journal_answer does, and makes the calls on the file: 0, and the reply may be seen; 1, 4 or
 * RBBANK_FILE_FAILED, after which the file is closed. */
int32_t rbbank_file_answer(struct rbbank_file *file, size_t number, const char *line, size_t length);

/* Closes the file and ends the site. A second time does nothing. */
void rbbank_file_close(struct rbbank_file *file);

#ifdef __cplusplus
}
#endif

#endif
