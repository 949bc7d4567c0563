/* A site whose journal is in a file, as a filter: it begins a new journal with `--new`, else it goes on from the one
 * that is there, and answers each line of its input by a line. Kill it at any moment and start it again, without
 * `--new`: what was answered is there.
 *
 *     cc -D_DEFAULT_SOURCE -I bindings/c bindings/c/journal.c bindings/c/rbbank_file.c bindings/out/librbbank.a \
 *         -o journal && ./journal 0 site.journal --new < events
 */
#include "rbbank_file.h"

#include <stdio.h>
#include <stdlib.h>
#include <string.h>

static const char CONFIG[] = "{\"accounts\":[[\"ann\",0],[\"bob\",1000]],\"sites\":2,\"version\":1}";

static void stop(const char *why, int32_t status) {
    fprintf(stderr, "journal: %s: status %d\n", why, (int)status);
    exit(1);
}

/* What is wrong with a journal that isn't opened. */
static const char *unopened(int32_t status) {
    switch (status) {
    case RBBANK_FILE_NO_JOURNAL: return "no journal";
    case RBBANK_FILE_JOURNAL_THERE: return "there is a journal";
    default: return "the journal isn't opened";
    }
}

/* Writes the reply, which is on the disk now. */
static void put_out(struct rbbank_file *file) {
    size_t length = rbbank_journal_reply(&file->journal, NULL, 0);
    char *reply = malloc(length + 1);
    if (reply == NULL)
        stop("out of memory", RBBANK_NO_MEMORY);
    rbbank_journal_reply(&file->journal, reply, length);
    fwrite(reply, 1, length, stdout);
    fflush(stdout);
    free(reply);
}

int main(int count, char **words) {
    struct rbbank_file file = {0};
    uint64_t wrong;
    int is_new = count == 4 && strcmp(words[3], "--new") == 0;
    if (count != 3 && !is_new)
        stop("usage: journal SITE JOURNAL [--new] < EVENTS", 0);
    int32_t status =
        rbbank_file_open(&file, words[2], (uint8_t)atoi(words[1]), 0, is_new, CONFIG, strlen(CONFIG), &wrong);
    if (status != RBBANK_OK)
        stop(unopened(status), status);
    char *line = NULL;
    size_t size = 0, number = 1;
    for (ssize_t length; (length = getline(&line, &size, stdin)) > 0;) {
        status = rbbank_file_answer(&file, ++number, line, (size_t)length - (line[length - 1] == '\n'));
        if (status != RBBANK_OK)
            stop("the site ended", status);
        put_out(&file);
    }
    free(line);
    rbbank_file_close(&file);
    return 0;
}
