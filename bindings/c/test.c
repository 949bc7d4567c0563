/* Each call once, and each status that a caller can bring about. Prints what is wrong; ends in 0 where nothing is. */
#include "rbbank.h"

#include <pthread.h>
#include <stdio.h>
#include <stdlib.h>
#include <string.h>

static const char CONFIG[] = "{\"accounts\":[[\"ann\",0]],\"sites\":2,\"version\":1}";
static const char DEPOSIT[] = "{\"deposit\":[\"ann\",500],\"site\":0}";
static const char MADE[] = "{\"kind\":\"deposit\",\"name\":\"B0.1\"}\n";
static const char EVENT[] = "{\"deposit\":[\"ann\",500]}";
static int wrong;

#define TEXT(text) (text), strlen(text)
#define WANTED(fact) ((fact) ? (void)0 : (wrong++, (void)printf("test.c:%d: not so: %s\n", __LINE__, #fact)))

typedef size_t copying(void *handle, char *out, size_t capacity);

static size_t version(void *none, char *out, size_t capacity) {
    (void)none;
    return rbbank_version(out, capacity);
}

static size_t bank_reply(void *bank, char *out, size_t capacity) {
    return rbbank_reply(bank, out, capacity);
}

static size_t site_reply(void *site, char *out, size_t capacity) {
    return rbbank_site_reply(site, out, capacity);
}

static size_t site_entries(void *site, char *out, size_t capacity) {
    return rbbank_site_entries(site, out, capacity);
}

static size_t journal_reply(void *journal, char *out, size_t capacity) {
    return rbbank_journal_reply(journal, out, capacity);
}

/* Whether what is kept is this text, by buffers of each size up to its length and one more: each gets as much as fits,
 * and no byte after that changes. */
static int keeps(copying *call, void *handle, const char *text) {
    size_t length = strlen(text);
    for (size_t size = 0; size <= length + 1; size++) {
        char *out = malloc(size + 1);
        memset(out, 'z', size + 1);
        size_t n = call(handle, out, size), fits = length < size ? length : size;
        int same = n == length && memcmp(out, text, fits) == 0 && out[fits] == 'z' && out[size] == 'z';
        free(out);
        if (!same)
            return 0;
    }
    return call(handle, NULL, 0) == length;
}

/* Whether what is kept begins with this text and ends in a line feed. */
static int begins(copying *call, void *handle, const char *text) {
    char out[600];
    size_t n = call(handle, out, sizeof out), length = strlen(text);
    return length < n && n <= sizeof out && memcmp(out, text, length) == 0 && out[n - 1] == '\n';
}

/* A handle of nothing: each call answers. */
static void of_nothing(void) {
    struct rbbank bank = {0};
    struct rbbank_site site = {0};
    struct rbbank_journal journal = {0};
    char out[4] = "abc";
    size_t length = 9;
    uint64_t at = 9;
    uint8_t to = 9;
    WANTED(rbbank_journal_answer(&journal, 2, TEXT(EVENT)) == RBBANK_NONE);
    WANTED(rbbank_journal_reply(&journal, out, sizeof out) == 0);
    WANTED(rbbank_journal_call(&journal, out, sizeof out, &length, &at) == 0 && length == 0 && at == 0);
    WANTED(rbbank_journal_done(&journal, 1) == RBBANK_NONE && rbbank_journal_done(&journal, 0) == RBBANK_NONE);
    WANTED(rbbank_journal_send(&journal, 0, out, sizeof out, &length, &to) == RBBANK_NONE && length == 0);
    rbbank_journal_close(&journal);
    length = 9;
    WANTED(rbbank_answer(&bank, TEXT(DEPOSIT)) == RBBANK_NONE);
    WANTED(rbbank_reply(&bank, out, sizeof out) == 0);
    WANTED(rbbank_site_answer(&site, TEXT(EVENT)) == RBBANK_NONE);
    WANTED(rbbank_site_replay(&site, TEXT(EVENT)) == RBBANK_NONE);
    WANTED(rbbank_site_reply(&site, out, sizeof out) == 0);
    WANTED(rbbank_site_entries(&site, out, sizeof out) == 0);
    WANTED(rbbank_site_send(&site, 0, out, sizeof out, &length, &to) == RBBANK_NONE && length == 0);
    WANTED(memcmp(out, "abc", 4) == 0);
    rbbank_close(&bank);
    rbbank_site_close(&site);
    WANTED(bank.at == NULL && site.at == NULL && journal.at == NULL);
}

static void a_bank(void) {
    struct rbbank bank = {0}, other = {0};
    WANTED(rbbank_open(&bank, TEXT(DEPOSIT)) == RBBANK_BAD_LINE && bank.at == NULL);
    WANTED(rbbank_open(&bank, NULL, 0) == RBBANK_BAD_LINE);
    WANTED(rbbank_open(&bank, TEXT(CONFIG)) == RBBANK_OK && bank.at != NULL);
    WANTED(rbbank_open(&other, TEXT(CONFIG)) == RBBANK_OK);
    WANTED(keeps(bank_reply, &bank, ""));
    WANTED(rbbank_answer(&bank, TEXT(DEPOSIT)) == RBBANK_OK && keeps(bank_reply, &bank, MADE));
    WANTED(rbbank_answer(&bank, TEXT("{\"balance\":\"ann\"}")) == RBBANK_BAD_LINE);
    WANTED(rbbank_answer(&bank, TEXT("\xff")) == RBBANK_BAD_LINE && keeps(bank_reply, &bank, MADE));
    WANTED(rbbank_answer(&bank, TEXT("{\"balance\":\"ann\",\"site\":0}")) == RBBANK_OK);
    WANTED(keeps(bank_reply, &bank, "{\"balance\":500}\n"));
    WANTED(rbbank_answer(&other, TEXT("{\"balance\":\"ann\",\"site\":0}")) == RBBANK_OK);
    WANTED(keeps(bank_reply, &other, "{\"balance\":0}\n"));
    /* A second opening ends the first bank. */
    WANTED(rbbank_open(&bank, TEXT(CONFIG)) == RBBANK_OK);
    WANTED(rbbank_answer(&bank, TEXT(DEPOSIT)) == RBBANK_OK && keeps(bank_reply, &bank, MADE));
    WANTED(rbbank_open(&other, TEXT("{}")) == RBBANK_BAD_LINE && other.at == NULL);
    WANTED(rbbank_answer(&other, TEXT(DEPOSIT)) == RBBANK_NONE);
    rbbank_close(&bank);
    rbbank_close(&bank);
    rbbank_close(&other);
    WANTED(bank.at == NULL && rbbank_answer(&bank, TEXT(DEPOSIT)) == RBBANK_NONE);
}

#define LIMITS "\"blue\":1000000,\"epoch\":4000000000,\"history\":100000000,\"inbox\":4096,\"red\":1000000,"
#define HEAD "{\"accounts\":[[\"ann\",0]]," LIMITS "\"sites\":2,\"version\":1}\n"
#define SHADOW "{\"shadow\":{\"account\":\"ann\",\"amount\":500,\"deps\":[[0,0,0,0,0,0,0,0],0],\"home\":0," \
               "\"kind\":\"deposit\",\"name\":\"B0.1\"}}"
#define SENT "\"sends\":[" SHADOW "]"
#define ENTRY "{\"event\":{\"deposit\":[\"ann\",500]},\"reply\":{\"kind\":\"deposit\",\"name\":\"B0.1\"},\"site\":0}"

static void a_site(void) {
    struct rbbank_site site = {0};
    char answer[600], entry[200];
    WANTED(rbbank_site_open(&site, 0, TEXT("{}")) == RBBANK_BAD_LINE);
    WANTED(rbbank_site_open(&site, 2, TEXT(CONFIG)) == RBBANK_REFUSED && site.at == NULL);
    WANTED(rbbank_site_open(&site, 255, TEXT(CONFIG)) == RBBANK_REFUSED);
    WANTED(rbbank_site_open(&site, 0, TEXT(CONFIG)) == RBBANK_OK);
    WANTED(keeps(site_entries, &site, HEAD) && keeps(site_reply, &site, ""));
    WANTED(rbbank_site_answer(&site, TEXT(EVENT)) == RBBANK_OK);
    snprintf(answer, sizeof answer, "{\"reply\":{\"kind\":\"deposit\",\"name\":\"B0.1\"},%s,\"then\":[]}\n", SENT);
    snprintf(entry, sizeof entry, "%s\n", ENTRY);
    WANTED(keeps(site_reply, &site, answer) && keeps(site_entries, &site, entry));
    WANTED(rbbank_site_answer(&site, TEXT(DEPOSIT)) == RBBANK_BAD_LINE);
    WANTED(keeps(site_reply, &site, answer) && keeps(site_entries, &site, entry));
    rbbank_site_close(&site);
    rbbank_site_close(&site);
    WANTED(site.at == NULL);
}

/* A file in memory, and what is kept of what is cut off it. */
struct memory_file {
    char bytes[4000], kept[1000];
    size_t length, kept_length, writes, syncs;
};

/* Makes a call on the file. Whether it is one that is asked for. */
static int make(struct memory_file *file, int32_t kind, uint64_t at, const char *bytes, size_t length) {
    if (kind == RBBANK_CALL_WRITE) {
        memcpy(file->bytes + at, bytes, length);
        file->length = at + length > file->length ? at + length : file->length;
        file->writes++;
    } else if (kind == RBBANK_CALL_CUT) {
        file->length = at;
    } else if (kind == RBBANK_CALL_KEEP) {
        memcpy(file->kept + file->kept_length, bytes, length);
        file->kept_length += length;
    } else if (kind == RBBANK_CALL_SYNC) {
        file->syncs++;
    } else {
        return 0;
    }
    return 1;
}

/* Whether nothing is answered before the call that is left, and it stays the same. */
static int waits(struct rbbank_journal *journal, int32_t kind, size_t length) {
    size_t again;
    uint64_t at;
    return rbbank_journal_reply(journal, NULL, 0) == 0 &&
           rbbank_journal_answer(journal, 9, TEXT(EVENT)) == RBBANK_REFUSED &&
           rbbank_journal_call(journal, NULL, 0, &again, &at) == kind && again == length;
}

/* Makes the calls that are left, up to one that fails: which that is, or none if it is below 0. Whether each went as it
 * has to. */
static int make_calls(struct rbbank_journal *journal, struct memory_file *file, int fails) {
    static char bytes[4000];
    size_t length;
    uint64_t at;
    int32_t kind;
    while ((kind = rbbank_journal_call(journal, bytes, sizeof bytes, &length, &at)) != 0) {
        if (!waits(journal, kind, length))
            return 0;
        if (fails-- == 0)
            return rbbank_journal_done(journal, 0) == RBBANK_NONE && journal->at == NULL;
        if (!make(file, kind, at, bytes, length) || rbbank_journal_done(journal, 1) != RBBANK_OK)
            return 0;
    }
    return rbbank_journal_done(journal, 1) == RBBANK_REFUSED;
}

static int is_file(struct memory_file *file, const char *text) {
    return file->length == strlen(text) && memcmp(file->bytes, text, file->length) == 0;
}

/* How a site's journal is opened over a file of this text. */
static int32_t opens(struct rbbank_journal *journal, const char *text, size_t resend, uint64_t *number) {
    return rbbank_journal_open(journal, 0, resend, TEXT(CONFIG), TEXT(text), number);
}

static void a_journal(void) {
    struct rbbank_journal journal = {0};
    struct memory_file file = {.length = 0};
    uint64_t number = 9;
    char answer[600];
    static const char reply[] = "{\"kind\":\"deposit\",\"name\":\"B0.1\"}";
    snprintf(answer, sizeof answer, "{\"reply\":%s,%s,\"then\":[]}\n", reply, SENT);
    WANTED(rbbank_journal_open(&journal, 0, 0, TEXT("{}"), NULL, 0, &number) == RBBANK_BAD_LINE && number == 0);
    WANTED(rbbank_journal_open(&journal, 2, 0, TEXT(CONFIG), NULL, 0, &number) == RBBANK_REFUSED);
    WANTED(opens(&journal, "", 0, &number) == RBBANK_OK && number == 0 && make_calls(&journal, &file, -1));
    WANTED(is_file(&file, HEAD " ") && keeps(journal_reply, &journal, ""));
    file.writes = file.syncs = 0;
    WANTED(rbbank_journal_answer(&journal, 2, TEXT(EVENT)) == RBBANK_OK && make_calls(&journal, &file, -1));
    WANTED(is_file(&file, HEAD ENTRY "\n ") && file.writes == 2 && file.syncs == 2);
    WANTED(keeps(journal_reply, &journal, answer));
    size_t length;
    uint8_t to;
    WANTED(rbbank_journal_send(&journal, 0, NULL, 0, &length, &to) == RBBANK_OK && length == strlen(SHADOW));
    WANTED(to == RBBANK_EACH_OTHER_SITE);
    WANTED(rbbank_journal_send(&journal, 1, NULL, 0, &length, &to) == RBBANK_REFUSED);
    WANTED(rbbank_journal_answer(&journal, 3, TEXT(" ")) == RBBANK_OK && keeps(journal_reply, &journal, ""));
    WANTED(rbbank_journal_answer(&journal, 4, TEXT("{}")) == RBBANK_OK);
    WANTED(begins(journal_reply, &journal, "{\"bad\":\"line\",\"line\":4,\"why\":\"column "));
    WANTED(is_file(&file, HEAD ENTRY "\n ") && file.kept_length == 0);
    rbbank_journal_close(&journal);
    WANTED(journal.at == NULL);
    /* It goes on, and what a crash left of a line is cut off and kept. */
    WANTED(opens(&journal, HEAD ENTRY "\n{\"event\":", 1, &number) == RBBANK_OK && make_calls(&journal, &file, -1));
    WANTED(is_file(&file, HEAD ENTRY "\n ") && memcmp(file.kept, "{\"event\":", file.kept_length) == 0);
    WANTED(keeps(journal_reply, &journal, "{" SENT "}\n") && file.kept_length == 9);
    WANTED(rbbank_journal_answer(&journal, 2, TEXT("{\"balance\":\"ann\"}")) == RBBANK_OK);
    WANTED(make_calls(&journal, &file, -1));
    WANTED(keeps(journal_reply, &journal, "{\"reply\":{\"balance\":500},\"sends\":[],\"then\":[]}\n"));
    rbbank_journal_close(&journal);
}

/* Each call fails in turn: no answer is given, and a start over what is there goes on with all of the entry or none. */
static void calls_that_fail(void) {
    for (int nth = 0; nth < 4; nth++) {
        struct rbbank_journal journal = {0};
        struct memory_file file = {.length = 0};
        uint64_t number;
        WANTED(opens(&journal, "", 0, &number) == RBBANK_OK && make_calls(&journal, &file, -1));
        WANTED(rbbank_journal_answer(&journal, 2, TEXT(EVENT)) == RBBANK_OK && make_calls(&journal, &file, nth));
        WANTED(rbbank_journal_reply(&journal, NULL, 0) == 0);
        file.bytes[file.length] = '\0';
        WANTED(opens(&journal, file.bytes, 0, &number) == RBBANK_OK && make_calls(&journal, &file, -1));
        WANTED(rbbank_journal_answer(&journal, 2, TEXT("{\"about\":\"site\"}")) == RBBANK_OK);
        WANTED(is_file(&file, nth < 3 ? HEAD " " : HEAD ENTRY "\n "));
        rbbank_journal_close(&journal);
    }
}

static void journals_not_opened(void) {
    struct rbbank_journal journal = {0};
    uint64_t number;
    WANTED(opens(&journal, "{}\n", 0, &number) == RBBANK_ANOTHER_JOURNAL && number == 0 && journal.at == NULL);
    WANTED(opens(&journal, "abc", 0, &number) == RBBANK_ANOTHER_JOURNAL);
    WANTED(opens(&journal, HEAD "{}\n ", 0, &number) == RBBANK_BAD_ENTRY && number == 2);
    WANTED(opens(&journal, HEAD ENTRY "\n" ENTRY "\n ", 0, &number) == RBBANK_WRONG_REPLY && number == 3);
    WANTED(opens(&journal, HEAD ENTRY "\nx", 0, &number) == RBBANK_DAMAGED && number == 3);
    WANTED(opens(&journal, HEAD ENTRY "\n\t", 0, &number) == RBBANK_SEALED && number == 0);
}

/* Whether a site's message of this index is this text for this site, by buffers of each size. */
static int sends(struct rbbank_site *site, size_t index, const char *text, uint8_t wanted) {
    size_t length = strlen(text), found;
    uint8_t to;
    for (size_t size = 0; size <= length + 1; size++) {
        char *out = malloc(size + 1);
        out[size] = 'z';
        int32_t status = rbbank_site_send(site, index, out, size, &found, &to);
        int same = status == RBBANK_OK && found == length && to == wanted && out[size] == 'z' &&
                   memcmp(out, text, length < size ? length : size) == 0;
        free(out);
        if (!same)
            return 0;
    }
    return 1;
}

/* Whether a site's answer has just so many messages. */
static int sends_in_all(struct rbbank_site *site, size_t count) {
    size_t length;
    uint8_t to;
    char out[2] = "a";
    for (size_t i = 0; i < count; i++)
        if (rbbank_site_send(site, i, NULL, 0, &length, &to) != RBBANK_OK || length == 0)
            return 0;
    return rbbank_site_send(site, count, out, 2, &length, &to) == RBBANK_REFUSED && length == 0 && out[0] == 'a' &&
           rbbank_site_send(site, SIZE_MAX, out, 2, &length, &to) == RBBANK_REFUSED;
}

static void messages(void) {
    struct rbbank_site site = {0}, other = {0};
    char text[400];
    size_t length;
    uint8_t to;
    WANTED(rbbank_site_open(&site, 0, TEXT(CONFIG)) == RBBANK_OK && sends_in_all(&site, 0));
    WANTED(rbbank_site_open(&other, 1, TEXT(CONFIG)) == RBBANK_OK);
    WANTED(rbbank_site_answer(&site, TEXT(EVENT)) == RBBANK_OK && sends_in_all(&site, 1));
    WANTED(sends(&site, 0, SHADOW, RBBANK_EACH_OTHER_SITE));
    /* A message is given on as it is. */
    WANTED(rbbank_site_send(&site, 0, text, sizeof text, &length, &to) == RBBANK_OK);
    WANTED(rbbank_site_answer(&other, text, length) == RBBANK_OK && sends_in_all(&other, 0));
    static const char batch[] = "{\"batch\":[{\"deposit\":[\"ann\",1]},{\"deposit\":[\"ann\",2]}]}";
    WANTED(rbbank_site_answer(&site, TEXT(batch)) == RBBANK_OK && sends_in_all(&site, 2));
    WANTED(rbbank_site_answer(&site, TEXT("{\"balance\":\"ann\"}")) == RBBANK_OK && sends_in_all(&site, 0));
    /* The token is for one site. */
    WANTED(rbbank_site_answer(&site, TEXT("{\"pass\":1}")) == RBBANK_OK && sends_in_all(&site, 1));
    WANTED(sends(&site, 0, "{\"token\":[1,1,0]}", 1));
    /* Those of a resend, through all its lines. */
    WANTED(rbbank_site_answer(&site, TEXT("{\"resend\":100}")) == RBBANK_OK && sends_in_all(&site, 4));
    WANTED(sends(&site, 0, SHADOW, RBBANK_EACH_OTHER_SITE) && sends(&site, 3, "{\"token\":[1,1,0]}", 1));
    rbbank_site_close(&site);
    rbbank_site_close(&other);
}

/* Whether this is said of a line that should have been of this kind. */
static int is_fault(uint8_t kind, const char *config, const char *line, size_t length, const char *text) {
    size_t all = strlen(text);
    for (size_t size = 0; size <= all + 1; size++) {
        char *out = malloc(size + 1);
        out[size] = 'z';
        size_t n = rbbank_error(kind, TEXT(config), line, length, out, size);
        int same = n == all && out[size] == 'z' && memcmp(out, text, all < size ? all : size) == 0;
        free(out);
        if (!same)
            return 0;
    }
    return 1;
}

static void errors(void) {
    static const char entry[] = "{\"event\":{\"balance\":\"ann\"},\"reply\":{\"refused\":25},\"site\":0}";
    static const char other[] = "{\"event\":{\"balance\":\"ann\"},\"reply\":{\"balance\":0},\"site\":1}";
    static char longer[1048577];
    WANTED(is_fault(RBBANK_ENTRY, CONFIG, TEXT(entry), "column 47: 25 is out of range: a refusal is 1 to 24"));
    WANTED(is_fault(RBBANK_CONFIG, "", TEXT("{\"accounts\":[[\"ann\",0]],\"sites\":17,\"version\":1}"),
                    "column 33: 17 is out of range: the number of sites is 2 to 16"));
    WANTED(is_fault(RBBANK_COMMAND, CONFIG, TEXT("{\"balance\":\"ann\"}"),
                    "column 17: the key \"site\" of a command is missing"));
    WANTED(is_fault(RBBANK_EVENT, CONFIG, TEXT("{\"deposit\":[\"ann\",1.0]}"),
                    "column 19: 1.0 has a point, and an amount in cents is a whole number"));
    WANTED(is_fault(RBBANK_COMMAND, CONFIG, TEXT("{\"balance\":\"\xff\"}"), "column 13: the byte 0xff isn't UTF-8"));
    WANTED(is_fault(RBBANK_COMMAND, CONFIG, NULL, 0, "column 1: the line ends here, and a value is missing"));
    WANTED(is_fault(RBBANK_ENTRY, CONFIG, TEXT(other),
                    "it is an entry: another site's, of an id that is there, or not as a site writes it"));
    memset(longer, ' ', sizeof longer);
    memcpy(longer, other, sizeof other - 1);
    WANTED(is_fault(RBBANK_ENTRY, CONFIG, longer, sizeof longer,
                    "column 1048577: the line has 1,048,577 bytes, and the limit is 1,048,576"));
    WANTED(is_fault(RBBANK_COMMAND, "{}", TEXT(DEPOSIT), "no configuration"));
    WANTED(is_fault(RBBANK_ENTRY + 1, CONFIG, TEXT(DEPOSIT), "no such kind of line"));
}

/* What another thread does with the handles that it is given: nothing else has them meanwhile. */
static void *with_handles(void *given) {
    struct rbbank_site *site = given;
    WANTED(rbbank_site_answer(site, TEXT(EVENT)) == RBBANK_OK && sends_in_all(site, 1));
    rbbank_site_close(&site[1]);
    WANTED(rbbank_site_open(&site[1], 1, TEXT(CONFIG)) == RBBANK_OK);
    return NULL;
}

/* Handles go to another thread and come back. */
static void another_thread(void) {
    struct rbbank_site sites[2] = {{0}, {0}};
    pthread_t thread;
    WANTED(rbbank_site_open(&sites[0], 0, TEXT(CONFIG)) == RBBANK_OK);
    WANTED(rbbank_site_answer(&sites[0], TEXT(EVENT)) == RBBANK_OK);
    WANTED(rbbank_site_open(&sites[1], 0, TEXT(CONFIG)) == RBBANK_OK);
    WANTED(pthread_create(&thread, NULL, with_handles, sites) == 0 && pthread_join(thread, NULL) == 0);
    WANTED(rbbank_site_answer(&sites[0], TEXT("{\"balance\":\"ann\"}")) == RBBANK_OK);
    WANTED(keeps(site_reply, &sites[0], "{\"reply\":{\"balance\":1000},\"sends\":[],\"then\":[]}\n"));
    WANTED(rbbank_site_answer(&sites[1], TEXT("{\"balance\":\"ann\"}")) == RBBANK_OK);
    rbbank_site_close(&sites[0]);
    rbbank_site_close(&sites[1]);
}

static void a_replay(void) {
    struct rbbank_site site = {0};
    char text[600];
    WANTED(rbbank_site_open(&site, 0, TEXT(CONFIG)) == RBBANK_OK);
    WANTED(rbbank_site_replay(&site, TEXT("{\"event\":{\"balance\":\"ann\"},\"reply\":{\"balance\":0},\"site\":1}"))
           == RBBANK_BAD_LINE);
    WANTED(rbbank_site_replay(&site, TEXT(ENTRY)) == RBBANK_OK);
    snprintf(text, sizeof text, "{%s}\n", SENT);
    WANTED(keeps(site_reply, &site, text) && keeps(site_entries, &site, ""));
    WANTED(rbbank_site_answer(&site, TEXT("{\"balance\":\"ann\"}")) == RBBANK_OK);
    WANTED(keeps(site_reply, &site, "{\"reply\":{\"balance\":500},\"sends\":[],\"then\":[]}\n"));
    WANTED(rbbank_site_replay(&site, TEXT(ENTRY)) == RBBANK_REFUSED && site.at == NULL);
    WANTED(rbbank_site_replay(&site, TEXT(ENTRY)) == RBBANK_NONE);
    rbbank_site_close(&site);
}

typedef int32_t running(const char *, size_t, char *, size_t, size_t *, uint64_t *);

/* Whether a run gives this status and number, and this text, by a buffer of each size. One that is too short gets a
 * prefix, and the number is the length. */
static int runs(running *call, const char *input, int32_t status, uint64_t number, const char *text) {
    size_t length = strlen(text);
    for (size_t size = 0; size <= length + 1; size++) {
        char *out = malloc(size + 1);
        size_t written = SIZE_MAX;
        uint64_t found = UINT64_MAX;
        out[size] = 'z';
        int32_t given = call(TEXT(input), out, size, &written, &found);
        int same = written <= size && memcmp(out, text, written) == 0 && out[size] == 'z';
        same = same && (size < length ? given == 3 && written == size && found == length
                                      : given == status && written == length && found == number);
        free(out);
        if (!same)
            return 0;
    }
    return 1;
}

static void whole_runs(void) {
    char lines[600], wanted[600];
    snprintf(lines, sizeof lines, "%s\n%s\n", CONFIG, DEPOSIT);
    WANTED(runs(rbbank_script, lines, 0, 1, MADE));
    snprintf(lines, sizeof lines, "%s\n\n%s\n{}\n%s\n", CONFIG, DEPOSIT, DEPOSIT);
    WANTED(runs(rbbank_script, lines, 2, 4, MADE));
    WANTED(runs(rbbank_script, "", 2, 0, "") && runs(rbbank_script, "\n{}\n", 2, 2, ""));
    snprintf(lines, sizeof lines, "%s\n%s\n", CONFIG, ENTRY);
    WANTED(runs(rbbank_audit, lines, 0, 1, "{\"order\":[0]}\n"));
    static const char balance[] = "{\"event\":{\"balance\":\"ann\"},\"reply\":{\"balance\":1},\"site\":0}";
    snprintf(lines, sizeof lines, "%s\n%s\n", CONFIG, balance);
    WANTED(runs(rbbank_audit, lines, 1, 1, "{\"event\":1,\"fault\":\"reply\",\"site\":0}\n"));
    snprintf(lines, sizeof lines, "%s%s\n", HEAD, ENTRY);
    snprintf(wanted, sizeof wanted, "%s%s\n", HEAD, ENTRY);
    *strstr(wanted, "1}\n") = '2';
    WANTED(runs(rbbank_migrate, lines, 0, 2, wanted));
}

/* The texts one after another, and their lengths, each in memory of just that size. */
struct journals {
    char *bytes;
    size_t length, *lengths, count;
};

static struct journals together(const char *const *texts, size_t count) {
    struct journals all = {NULL, 0, malloc(count * sizeof(size_t) + 1), count};
    for (size_t i = 0; i < count; i++)
        all.length += all.lengths[i] = strlen(texts[i]);
    all.bytes = malloc(all.length + 1);
    for (size_t i = 0, at = 0; i < count; at += all.lengths[i++])
        memcpy(all.bytes + at, texts[i], all.lengths[i]);
    return all;
}

/* What closing the books has to find. */
struct found {
    int32_t status;
    uint64_t number, journal;
    const char *text;
};

/* What closing the books finds, by a buffer of this size. */
static struct found books(uint8_t sites, const char *names, struct journals all, char *out, size_t size,
                          size_t *written) {
    struct found found = {0, UINT64_MAX, UINT64_MAX, out};
    *written = SIZE_MAX;
    found.status = rbbank_close_books(sites, TEXT(names), all.bytes, all.length, all.lengths, all.count, out, size,
                                      written, &found.number, &found.journal);
    return found;
}

/* Whether closing the books finds this, by a buffer of each size. One that is too short gets a prefix, and the number
 * is the length. */
static int closes(uint8_t sites, const char *names, struct journals all, struct found wanted) {
    size_t length = strlen(wanted.text), written;
    for (size_t size = 0; size <= length + 1; size++) {
        struct found fits = size < length ? (struct found){RBBANK_TOO_SHORT, length, 0, wanted.text} : wanted;
        char *out = malloc(size + 1);
        out[size] = 'z';
        struct found found = books(sites, names, all, out, size, &written);
        int same = found.status == fits.status && found.number == fits.number && found.journal == fits.journal &&
                   written == (size < length ? size : length) && memcmp(out, wanted.text, written) == 0 &&
                   out[size] == 'z';
        free(out);
        if (!same)
            return 0;
    }
    return 1;
}

/* Whether closing the books by these journals finds this. */
static int closes_by(uint8_t sites, const char *names, const char *first, const char *second, struct found wanted) {
    const char *texts[] = {first, second};
    struct journals all = together(texts, second == NULL ? 1 : 2);
    int same = closes(sites, names, all, wanted);
    free(all.bytes);
    free(all.lengths);
    return same;
}

#define SEALED "\t"
#define MADE_AT_0 HEAD ENTRY "\n" SEALED
#define APPLIED_AT_1 HEAD "{\"event\":" SHADOW ",\"reply\":{\"held\":\"B0.1\"},\"site\":1}\n" \
                     "{\"event\":{\"apply\":\"B0.1\"},\"reply\":{\"applied\":\"B0.1\"},\"site\":1}\n" SEALED
#define NOTHING_AT_1 HEAD SEALED

static void closed_books(void) {
    struct found next = {0, 1, 0, "{\"accounts\":[[\"ann\",500]]," LIMITS "\"sites\":2,\"version\":1}\n"};
    WANTED(closes_by(0, "", MADE_AT_0, APPLIED_AT_1, next));
    struct found larger = {0, 1, 0, "{\"accounts\":[[\"ann\",500],[\"eve\",0],[\"zed\",0]]," LIMITS
                                    "\"sites\":9,\"version\":2}\n"};
    WANTED(closes_by(9, "eve\nzed\n", MADE_AT_0, APPLIED_AT_1, larger));
    WANTED(closes_by(9, "eve\nzed", MADE_AT_0, APPLIED_AT_1, larger));
    struct found open = {RBBANK_NOT_CLOSED, 1, 0, "{\"fault\":\"open\",\"lacks\":[[],[\"B0.1\"]]}\n"};
    WANTED(closes_by(0, "", MADE_AT_0, NOTHING_AT_1, open));
    WANTED(closes_by(0, "", MADE_AT_0, HEAD, (struct found){RBBANK_NOT_SEALED, 0, 1, ""}));
    WANTED(closes_by(0, "", MADE_AT_0, "{}\n" SEALED, (struct found){RBBANK_ANOTHER_BANK, 0, 1, ""}));
    WANTED(closes_by(0, "", MADE_AT_0, HEAD "{}\n" SEALED, (struct found){RBBANK_BAD_LINE, 2, 1, ""}));
    WANTED(closes_by(0, "", MADE_AT_0, MADE_AT_0, (struct found){RBBANK_ANOTHER_SITE, 2, 1, ""}));
    WANTED(closes_by(0, "", MADE_AT_0, NULL, (struct found){RBBANK_WRONG_JOURNALS, 2, 0, ""}));
}

/* The words are wrong. */
static void books_not_closed(void) {
    static const uint8_t wrong_sites[] = {1, 17, 255};
    for (size_t i = 0; i < sizeof wrong_sites; i++)
        WANTED(closes_by(wrong_sites[i], "", MADE_AT_0, APPLIED_AT_1, (struct found){RBBANK_WRONG_SITES, 0, 0, ""}));
    struct found there = {RBBANK_ACCOUNT_THERE, 1, 0, ""}, no_name = {RBBANK_NO_NAME, 1, 0, ""};
    WANTED(closes_by(0, "zed\nann\n", MADE_AT_0, APPLIED_AT_1, there));
    WANTED(closes_by(0, "zed\nzed\n", MADE_AT_0, APPLIED_AT_1, there));
    WANTED(closes_by(0, "zed\nAnn\n", MADE_AT_0, APPLIED_AT_1, no_name));
    WANTED(closes_by(0, "zed\n\n", MADE_AT_0, APPLIED_AT_1, no_name));
    WANTED(closes_by(0, "zed\n\xff\n", MADE_AT_0, APPLIED_AT_1, no_name));
    char many[6 * 1000 + 1];
    for (int i = 0; i < 1000; i++)
        snprintf(many + 5 * i, 6, "a%03d\n", i);
    WANTED(closes_by(0, many, MADE_AT_0, APPLIED_AT_1, (struct found){RBBANK_TOO_MANY_ACCOUNTS, 0, 0, ""}));
    const char *texts[] = {MADE_AT_0, APPLIED_AT_1};
    struct journals all = together(texts, 2), none = {NULL, 0, NULL, 0};
    struct found wrong_lengths = {RBBANK_WRONG_LENGTHS, 0, 0, ""};
    WANTED(closes(0, "", none, wrong_lengths));
    all.lengths[1]--;
    WANTED(closes(0, "", all, wrong_lengths));
    all.lengths[1] += 2;
    WANTED(closes(0, "", all, wrong_lengths));
    all.lengths[1] = SIZE_MAX;
    WANTED(closes(0, "", all, wrong_lengths));
    free(all.bytes);
    free(all.lengths);
}

int main(void) {
    WANTED(keeps(version, NULL, RBBANK_WANTED_VERSION));
    of_nothing();
    a_bank();
    a_site();
    a_journal();
    calls_that_fail();
    journals_not_opened();
    messages();
    errors();
    another_thread();
    a_replay();
    whole_runs();
    closed_books();
    books_not_closed();
    printf("C: %s\n", wrong == 0 ? "as wanted" : "wrong");
    return wrong != 0;
}
