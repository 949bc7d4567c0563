/* Each allocation of the library refused in turn: every call still answers, by 0 or by 4, and after 4 the handle is
 * closed. Linked with -Wl,--wrap=malloc,--wrap=realloc. Prints what is wrong; ends in 0 where nothing is. */
#include "rbbank.h"

#include <stdio.h>
#include <stdlib.h>
#include <string.h>

static const char CONFIG[] = "{\"accounts\":[[\"ann\",900]],\"sites\":2,\"version\":1}";
static const char *const COMMANDS[] = {
    "{\"deposit\":[\"ann\",500],\"site\":0}",
    "{\"batch\":[{\"withdraw\":[\"ann\",9]},{\"cancel\":\"B0.1\"}],\"site\":0}",
    "{\"deliver\":1,\"site\":1}",
    "{\"apply\":\"B0.1\",\"site\":1}",
    "{\"site\":1,\"statement\":\"ann\"}",
    "{\"pass\":1,\"site\":0}",
};
static const char *const EVENTS[] = {
    "{\"deposit\":[\"ann\",500]}",
    "{\"shadow\":{\"account\":\"ann\",\"amount\":5,\"deps\":[[0,0,0,0,0,0,0,0],0],\"home\":1,\"kind\":\"deposit\","
    "\"name\":\"B1.1\"}}",
    "{\"batch\":[{\"withdraw\":[\"ann\",9]},{\"cancel\":\"B0.1\"}]}",
    "{\"statement\":\"ann\"}",
};
static const char ENTRY[] = "{\"event\":{\"deposit\":[\"ann\",500]},"
                            "\"reply\":{\"kind\":\"deposit\",\"name\":\"B0.1\"},\"site\":0}";
#define EACH(list, i) for (size_t i = 0; i < sizeof(list) / sizeof *(list); i++)
#define TEXT(text) (text), strlen(text)

static long left = -1; /* allocations until one is refused; none is while it is below 0 */
static int refused;

void *__real_malloc(size_t size);
void *__real_realloc(void *at, size_t size);
void *__wrap_malloc(size_t size);
void *__wrap_realloc(void *at, size_t size);

static int refuses(void) {
    if (left < 0 || --left != 0)
        return 0;
    left = -1;
    return refused = 1;
}

void *__wrap_malloc(size_t size) {
    return refuses() ? NULL : __real_malloc(size);
}

void *__wrap_realloc(void *at, size_t size) {
    return refuses() ? NULL : __real_realloc(at, size);
}

/* Whether a call answered as it has to: 4 just where an allocation was refused, which closes the handle. */
static int fits(int32_t status, const void *handle, int was_open) {
    if (!was_open)
        return status == RBBANK_NONE && handle == NULL;
    return status == RBBANK_OK ? handle != NULL : status == RBBANK_NO_MEMORY && handle == NULL && refused;
}

static int a_bank(void) {
    struct rbbank bank = {0};
    char out[64];
    int32_t status = rbbank_open(&bank, TEXT(CONFIG));
    int fine = fits(status, bank.at, 1);
    EACH(COMMANDS, i) {
        int was_open = bank.at != NULL;
        status = rbbank_answer(&bank, TEXT(COMMANDS[i]));
        fine = fits(status, bank.at, was_open) && fine;
        fine = (rbbank_reply(&bank, out, sizeof out) > 0) == (bank.at != NULL) && fine;
    }
    rbbank_close(&bank);
    return fine;
}

/* Whether the first message is given, or memory ran out, and the site is as it was. */
static int a_send(struct rbbank_site *site) {
    char out[400];
    size_t length;
    uint8_t to;
    void *before = site->at;
    int32_t status = rbbank_site_send(site, 0, out, sizeof out, &length, &to);
    int fine = site->at == before && (status == RBBANK_OK) == (length > 0);
    if (before == NULL)
        return fine && status == RBBANK_NONE;
    return fine && (status == RBBANK_OK || (status == RBBANK_NO_MEMORY && refused));
}

/* Whether a line's fault is said, or memory ran out. */
static int an_error(void) {
    char out[100];
    static const char line[] = "{\"deposit\":[\"ann\",}";
    size_t length = rbbank_error(RBBANK_EVENT, TEXT(CONFIG), TEXT(line), out, sizeof out);
    return length >= 13 && (memcmp(out, "column 19: ", 11) == 0 || (refused && memcmp(out, "out of memory", 13) == 0));
}

static int a_site(void) {
    struct rbbank_site site = {0};
    char out[64];
    int32_t status = rbbank_site_open(&site, 0, TEXT(CONFIG));
    int fine = fits(status, site.at, 1);
    EACH(EVENTS, i) {
        int was_open = site.at != NULL;
        status = rbbank_site_answer(&site, TEXT(EVENTS[i]));
        fine = fits(status, site.at, was_open) && fine;
        fine = (rbbank_site_entries(&site, out, sizeof out) > 0) == (site.at != NULL) && fine;
        fine = (i != 0 || a_send(&site)) && fine;
    }
    fine = an_error() && fine;
    status = rbbank_site_open(&site, 0, TEXT(CONFIG));
    fine = fits(status, site.at, 1) && fine;
    int was_open = site.at != NULL;
    status = rbbank_site_replay(&site, TEXT(ENTRY));
    fine = fits(status, site.at, was_open) && fine;
    rbbank_site_close(&site);
    return fine;
}

static int a_journal(void) {
    struct rbbank_journal journal = {0};
    size_t length;
    uint64_t number, at;
    int32_t status = rbbank_journal_open(&journal, 0, 0, TEXT(CONFIG), NULL, 0, &number);
    int fine = fits(status, journal.at, 1);
    EACH(EVENTS, i) {
        while (rbbank_journal_call(&journal, NULL, 0, &length, &at) != 0)
            fine = rbbank_journal_done(&journal, 1) == RBBANK_OK && fine;
        int was_open = journal.at != NULL;
        status = rbbank_journal_answer(&journal, i + 2, TEXT(EVENTS[i]));
        fine = fits(status, journal.at, was_open) && rbbank_journal_reply(&journal, NULL, 0) == 0 && fine;
    }
    rbbank_journal_close(&journal);
    return fine;
}

static int whole_runs(void) {
    char lines[1000];
    char out[4000];
    size_t written = 0, length = (size_t)snprintf(lines, sizeof lines, "%s\n", CONFIG);
    uint64_t number;
    EACH(COMMANDS, i)
        length += (size_t)snprintf(lines + length, sizeof lines - length, "%s\n", COMMANDS[i]);
    int32_t status = rbbank_script(lines, length, out, sizeof out, &written, &number);
    int fine = status == 0 ? number == sizeof COMMANDS / sizeof *COMMANDS : status == 4 && refused;
    length = (size_t)snprintf(lines, sizeof lines, "%s\n%s\n", CONFIG, ENTRY);
    status = rbbank_audit(lines, length, out, sizeof out, &written, &number);
    fine = (status == 0 ? number == 1 : status == 4 && refused) && fine;
    status = rbbank_migrate(lines, length, out, sizeof out, &written, &number);
    return (status == 0 ? number == 2 : status == 4 && refused) && fine;
}

static const char HEAD[] = "{\"accounts\":[[\"ann\",900]],\"blue\":1000000,\"epoch\":4000000000,\"history\":100000000,"
                           "\"inbox\":4096,\"red\":1000000,\"sites\":2,\"version\":1}\n\t";

/* Two sites at which nothing happened. */
static int closed_books(void) {
    static char journals[2 * sizeof HEAD];
    static const size_t lengths[] = {sizeof HEAD - 1, sizeof HEAD - 1};
    char out[1000];
    size_t written, length = (size_t)snprintf(journals, sizeof journals, "%s%s", HEAD, HEAD);
    uint64_t number, journal;
    int32_t status = rbbank_close_books(3, TEXT("eve\nzed\n"), journals, length, lengths, 2, out,
                                        sizeof out, &written, &number, &journal);
    return status == 0 ? written > 0 && number == 1 : status == 4 && written == 0 && number == 0 && refused;
}

/* Whether all is as it has to be with each allocation refused, and with none. */
static int each_refused(const char *name, int (*uses)(void)) {
    long nth = 0;
    do {
        refused = 0;
        left = ++nth;
        int fine = uses();
        left = -1;
        if (!fine) {
            printf("refused.c: %s, allocation %ld\n", name, nth);
            return 0;
        }
    } while (refused);
    printf("%s: %ld allocations refused in turn\n", name, nth - 1);
    return nth > 1;
}

int main(void) {
    int fine = each_refused("a bank", a_bank);
    fine = each_refused("a site", a_site) && fine;
    fine = each_refused("a journal", a_journal) && fine;
    fine = each_refused("whole runs", whole_runs) && fine;
    fine = each_refused("closed books", closed_books) && fine;
    return !fine;
}
