/* A bank of two sites in one process, and one site with a new journal. Prints each reply.
 *
 *     cc -I bindings/c bindings/c/example.c bindings/out/librbbank.a -o example && ./example site.journal
 *
 * restart.c goes on from a journal that is there.
 */
#include "rbbank.h"

#include <stdio.h>
#include <string.h>
#include <unistd.h>

#define TEXT(text) (text), strlen(text)

static const char CONFIG[] = "{\"accounts\":[[\"ann\",0],[\"bob\",1000]],\"sites\":2,\"version\":1}";

/* Says why a command isn't taken. */
static void print_fault(const char *line) {
    char why[400];
    size_t length = rbbank_error(RBBANK_COMMAND, TEXT(CONFIG), TEXT(line), why, sizeof why);
    printf("%.*s\n", (int)length, why);
}

static int a_bank(void) {
    static const char *const commands[] = {
        "{\"deposit\":[\"ann\",500],\"site\":0}",
        "{\"deliver\":1,\"site\":1}",
        "{\"deposit\":[\"ann\",500,\"site\":0}",
        "{\"apply\":\"B0.1\",\"site\":1}",
        "{\"balance\":\"ann\",\"site\":1}",
    };
    char reply[4096];
    struct rbbank bank = {0};
    int32_t status = rbbank_open(&bank, TEXT(CONFIG));
    for (size_t i = 0; status != RBBANK_NO_MEMORY && i < sizeof commands / sizeof *commands; i++) {
        status = rbbank_answer(&bank, TEXT(commands[i]));
        if (status == RBBANK_OK)
            fwrite(reply, 1, rbbank_reply(&bank, reply, sizeof reply), stdout);
        else if (status == RBBANK_BAD_LINE)
            print_fault(commands[i]);
    }
    rbbank_close(&bank);
    return status;
}

/* Adds the entries of the last call to the journal, and waits until they are on the disk. */
static int keep_entries(struct rbbank_site *site, FILE *journal) {
    char entries[4096];
    size_t length = rbbank_site_entries(site, entries, sizeof entries);
    if (length > sizeof entries || fwrite(entries, 1, length, journal) != length)
        return -1;
    return fflush(journal) == 0 && fsync(fileno(journal)) == 0 ? 0 : -1;
}

static int a_site(const char *path) {
    static const char event[] = "{\"deposit\":[\"ann\",500]}";
    char answer[4096];
    struct rbbank_site site = {0};
    /* With "x" a journal that is there is left as it is, and this fails: "w" alone would cut it to nothing. */
    FILE *journal = fopen(path, "wbx");
    int32_t status = rbbank_site_open(&site, 0, TEXT(CONFIG));
    if (journal == NULL || status != RBBANK_OK || keep_entries(&site, journal) != 0)
        status = status != RBBANK_OK ? status : -1;
    else if ((status = rbbank_site_answer(&site, TEXT(event))) == RBBANK_OK) {
        /* First the journal, then the answer: whoever has seen it can rely on it. */
        if ((status = keep_entries(&site, journal)) == 0)
            fwrite(answer, 1, rbbank_site_reply(&site, answer, sizeof answer), stdout);
    }
    rbbank_site_close(&site);
    if (journal != NULL)
        fclose(journal);
    return status;
}

int main(int count, char **words) {
    int status = a_bank();
    if (status == 0 && count > 1)
        status = a_site(words[1]);
    if (status != 0)
        fprintf(stderr, "example: status %d\n", status);
    return status != 0;
}
