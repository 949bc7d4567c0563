/* A site that begins a new journal with `--new`, else goes on from the one that is there, and then answers the lines of
 * its input.
 *
 *     cc -I bindings/c bindings/c/restart.c bindings/out/librbbank.a -o restart
 *     ./restart 0 site.journal --new < events
 *
 * Each reply is one line on standard output. Each message is a line on standard error, `to 1: {..}` or `to all: {..}`:
 * here a program hands it to its network. What a restart sends again comes first.
 */
#include "rbbank.h"

#include <stdio.h>
#include <stdlib.h>
#include <string.h>
#include <unistd.h>

static const char CONFIG[] = "{\"accounts\":[[\"ann\",0],[\"bob\",1000]],\"sites\":2,\"version\":1}";

static void stop(const char *why) {
    fprintf(stderr, "restart: %s\n", why);
    exit(1);
}

struct text {
    char *bytes;
    size_t length;
};

static char *memory(size_t size) {
    char *bytes = malloc(size + 1);
    if (bytes == NULL)
        stop("out of memory");
    return bytes;
}

typedef size_t copying(struct rbbank_site *, char *, size_t);

/* All that a copying call has. */
static struct text whole(copying *call, struct rbbank_site *site) {
    struct text text = {NULL, call(site, NULL, 0)};
    text.bytes = memory(text.length);
    call(site, text.bytes, text.length);
    return text;
}

/* Hands on each message of the last call. No JSON is read for it. */
static void send_messages(struct rbbank_site *site) {
    size_t length;
    uint8_t to;
    int32_t status;
    for (size_t i = 0; (status = rbbank_site_send(site, i, NULL, 0, &length, &to)) == RBBANK_OK; i++) {
        char *text = memory(length);
        if (rbbank_site_send(site, i, text, length, &length, &to) != RBBANK_OK)
            stop("out of memory");
        if (to == RBBANK_EACH_OTHER_SITE)
            fprintf(stderr, "to all: %.*s\n", (int)length, text);
        else
            fprintf(stderr, "to %u: %.*s\n", to, (int)length, text);
        free(text);
    }
    if (status == RBBANK_NO_MEMORY)
        stop("out of memory");
}

/* Adds the entries of the last call to the journal, and waits until they are on the disk. */
static void keep_entries(struct rbbank_site *site, FILE *journal) {
    struct text entries = whole(rbbank_site_entries, site);
    if (fwrite(entries.bytes, 1, entries.length, journal) != entries.length || fflush(journal) != 0 ||
        fsync(fileno(journal)) != 0)
        stop("the journal can't be written");
    free(entries.bytes);
}

static struct text read_all(FILE *file) {
    struct text all = {memory(0), 0};
    char part[4096];
    size_t n;
    while ((n = fread(part, 1, sizeof part, file)) > 0) {
        all.bytes = realloc(all.bytes, all.length + n + 1);
        if (all.bytes == NULL)
            stop("out of memory");
        memcpy(all.bytes + all.length, part, n);
        all.length += n;
    }
    return all;
}

/* Replays the entries of a journal, each sent again. Gives how long its whole lines are: they begin with a brace. */
static size_t replay(struct rbbank_site *site, struct text journal) {
    struct text head = whole(rbbank_site_entries, site);
    if (journal.length >= 2 && memcmp(journal.bytes + journal.length - 2, "\n\t", 2) == 0)
        stop("the journal is sealed, and no site goes on from it");
    if (journal.length < head.length || memcmp(journal.bytes, head.bytes, head.length) != 0)
        stop("it is another bank's journal, and is left as it is");
    size_t at = head.length;
    free(head.bytes);
    for (char *end; at < journal.length && journal.bytes[at] == '{'; at = (size_t)(end - journal.bytes) + 1) {
        end = memchr(journal.bytes + at, '\n', journal.length - at);
        if (end == NULL)
            break;
        if (rbbank_site_replay(site, journal.bytes + at, (size_t)(end - journal.bytes) - at) != RBBANK_OK)
            stop("the journal has a line that isn't the site's next entry");
        send_messages(site);
    }
    return at;
}

/* The journal, at the place where its next line goes. A new one, which gets its first line, is made only where it is
 * asked for: a mistyped name is never a new site, which would make other operations under names that are taken. */
static FILE *opened(struct rbbank_site *site, const char *path, int is_new) {
    FILE *journal = fopen(path, is_new ? "a+b" : "r+b");
    if (journal == NULL)
        stop(is_new ? "the journal can't be made" : "no journal");
    struct text before = read_all(journal);
    if (is_new && before.length != 0)
        stop("there is a journal");
    if (is_new) {
        keep_entries(site, journal);
    } else {
        size_t end = replay(site, before);
        /* After the last whole line is what a crash left of an entry whose answer nobody has seen. */
        if (ftruncate(fileno(journal), (off_t)end) != 0 || fseek(journal, 0, SEEK_END) != 0)
            stop("the journal can't be written");
    }
    free(before.bytes);
    return journal;
}

static void answer(struct rbbank_site *site, FILE *journal, const char *line, size_t length) {
    int32_t status = rbbank_site_answer(site, line, length);
    if (status == RBBANK_BAD_LINE) {
        char why[400];
        size_t all = rbbank_error(RBBANK_EVENT, CONFIG, strlen(CONFIG), line, length, why, sizeof why);
        printf("%.*s\n", (int)all, why);
        return;
    }
    if (status != RBBANK_OK)
        stop("out of memory");
    /* First the journal, then the reply and the messages. */
    keep_entries(site, journal);
    struct text reply = whole(rbbank_site_reply, site);
    fwrite(reply.bytes, 1, reply.length, stdout);
    fflush(stdout);
    free(reply.bytes);
    send_messages(site);
}

int main(int count, char **words) {
    struct rbbank_site site = {0};
    int is_new = count == 4 && strcmp(words[3], "--new") == 0;
    if (count != 3 && !is_new)
        stop("usage: restart SITE JOURNAL [--new] < EVENTS");
    if (rbbank_site_open(&site, (uint8_t)atoi(words[1]), CONFIG, strlen(CONFIG)) != RBBANK_OK)
        stop("no such site");
    FILE *journal = opened(&site, words[2], is_new);
    char *line = NULL;
    size_t size = 0;
    for (ssize_t length; (length = getline(&line, &size, stdin)) > 0;)
        answer(&site, journal, line, (size_t)length - (line[length - 1] == '\n'));
    free(line);
    fclose(journal);
    rbbank_site_close(&site);
    return 0;
}
