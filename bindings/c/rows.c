/* The commands of the program over the library, for check.py: what each writes has to be what the program writes.
 *
 * usage: rows script|audit|migrate|bank|odd < LINES
 *        rows site|journal --me S --journal FILE [--new] [--resend N] [--record all] < LINES
 *        rows close [--sites N] [--account NAME].. JOURNAL..
 *        rows odd-site --me S < LINES
 *        rows calls COUNT < TWO LINES
 *
 * `bank` answers a script line by line. `site` keeps the journal itself, `journal` by rbbank_file.h. `odd` and
 * `odd-site` go on after bad lines, and write the status before each answer. `calls` gives the second line COUNT times
 * to the bank of the first, and writes nothing, for bench/bindings.py. A fault is `rbbank: line N` without its kind.
 */
#include "rbbank_file.h"

#include <stdio.h>
#include <stdlib.h>
#include <string.h>

struct text {
    char *bytes;
    size_t length;
};

/* A line of a text, with its number from 1. Blank lines are left out. */
struct line {
    struct text text;
    size_t number, rest;
};

static void stop(const char *what, size_t number, const char *more) {
    fflush(stdout);
    if (number == 0)
        fprintf(stderr, "rbbank: %s\n", what);
    else
        fprintf(stderr, "rbbank: %s %zu%s\n", what, number, more);
    exit(2);
}

static void *larger(void *bytes, size_t size) {
    void *more = realloc(bytes, size);
    if (more == NULL)
        exit(4);
    return more;
}

static struct text read_all(FILE *file) {
    struct text all = {larger(NULL, 1), 0};
    size_t size = 1, n;
    while ((n = fread(all.bytes + all.length, 1, size - all.length, file)) > 0) {
        all.length += n;
        if (all.length == size)
            all.bytes = larger(all.bytes, size *= 2);
    }
    return all;
}

static int is_blank(struct text line) {
    for (size_t i = 0; i < line.length; i++)
        if (line.bytes[i] != ' ' && line.bytes[i] != '\t' && line.bytes[i] != '\r')
            return 0;
    return 1;
}

static int next_line(struct text all, struct line *line) {
    while (line->rest < all.length) {
        char *at = all.bytes + line->rest, *end = memchr(at, '\n', all.length - line->rest);
        size_t length = end == NULL ? all.length - line->rest : (size_t)(end - at);
        line->text = (struct text){at, length};
        line->rest += length + 1;
        line->number++;
        if (!is_blank(line->text))
            return 1;
    }
    return 0;
}

typedef int32_t running(const char *, size_t, char *, size_t, size_t *, uint64_t *);

/* A whole run, with a larger output where the first is too short. */
static int whole(running *call, struct text all) {
    size_t capacity = all.length, written;
    uint64_t number;
    char *out = larger(NULL, capacity + 1);
    int32_t status = call(all.bytes, all.length, out, capacity, &written, &number);
    if (status == 3) {
        capacity = (size_t)number;
        out = larger(out, capacity);
        status = call(all.bytes, all.length, out, capacity, &written, &number);
    }
    fwrite(out, 1, written, stdout);
    free(out);
    if (status == 2)
        stop(number == 0 ? "no configuration" : "line", number, "");
    return status;
}

/* Prints a reply, by a buffer of its length. */
static void print_reply(struct rbbank *bank) {
    size_t length = rbbank_reply(bank, NULL, 0);
    char *reply = larger(NULL, length + 1);
    fwrite(reply, 1, rbbank_reply(bank, reply, length), stdout);
    free(reply);
}

static void first_line(struct text all, struct line *line) {
    if (!next_line(all, line))
        stop("no configuration", 0, "");
}

/* A script, a line at a time. With `odd` it goes on after a bad line, and prints each status. */
static int bank(struct text all, int odd) {
    struct line line = {0};
    struct rbbank bank = {0};
    first_line(all, &line);
    int32_t status = rbbank_open(&bank, line.text.bytes, line.text.length);
    while (status == RBBANK_OK && next_line(all, &line)) {
        status = rbbank_answer(&bank, line.text.bytes, line.text.length);
        if (odd)
            printf("%d\n", status);
        if (status == RBBANK_OK)
            print_reply(&bank);
        if (odd && status == RBBANK_BAD_LINE)
            status = RBBANK_OK;
    }
    rbbank_close(&bank);
    if (status == RBBANK_BAD_LINE)
        stop("line", line.number, "");
    return status;
}

/* One command over and over: the two calls that a host makes of it. */
static int calls(struct text all, long count) {
    struct line line = {0};
    struct rbbank bank = {0};
    char reply[4096];
    first_line(all, &line);
    int32_t status = rbbank_open(&bank, line.text.bytes, line.text.length);
    if (!next_line(all, &line))
        stop("no command", 0, "");
    for (long i = 0; i < count && status == RBBANK_OK; i++) {
        status = rbbank_answer(&bank, line.text.bytes, line.text.length);
        if (rbbank_reply(&bank, reply, sizeof reply) == 0)
            status = 1;
    }
    rbbank_close(&bank);
    return status;
}

typedef size_t copying(struct rbbank_site *, char *, size_t);

/* Adds all that a copying call has to a text. */
static struct text with(struct text text, copying *call, struct rbbank_site *site) {
    size_t length = call(site, NULL, 0);
    text.bytes = larger(text.bytes, text.length + length + 1);
    text.length += call(site, text.bytes + text.length, length);
    return text;
}

static void print_site(struct rbbank_site *site) {
    struct text answer = with((struct text){NULL, 0}, rbbank_site_reply, site);
    fwrite(answer.bytes, 1, answer.length, stdout);
    free(answer.bytes);
}

static struct text entries_of(struct rbbank_site *site) {
    return with((struct text){NULL, 0}, rbbank_site_entries, site);
}

static void keep_entries(struct rbbank_site *site, FILE *journal) {
    struct text entries = entries_of(site);
    fwrite(entries.bytes, 1, entries.length, journal);
    fflush(journal);
    free(entries.bytes);
}

/* The lines of a journal up to what a crash left: each begins with a brace, and has its line feed. */
static size_t whole_lines(struct text journal) {
    size_t end = 0;
    while (end < journal.length && journal.bytes[end] == '{') {
        char *at = memchr(journal.bytes + end, '\n', journal.length - end);
        if (at == NULL)
            break;
        end = (size_t)(at - journal.bytes) + 1;
    }
    return end;
}

/* How many lines a text has. */
static long count_of(struct text text) {
    long count = 0;
    for (size_t i = 0; i < text.length; i++)
        count += text.bytes[i] == '\n';
    return count;
}

/* Gives a site the entries of its journal, and then prints again what the last of them sent. */
static void replay(struct rbbank_site *site, struct text journal, long resend) {
    struct line line = {0};
    struct text again = {NULL, 0};
    long left = count_of(journal) - 1;
    for (next_line(journal, &line); next_line(journal, &line); left--) {
        int32_t status = rbbank_site_replay(site, line.text.bytes, line.text.length);
        if (status != RBBANK_OK)
            stop("journal line", line.number, status == RBBANK_REFUSED ? ": wrong reply" : ": bad line");
        if (resend < 0 || left <= resend)
            again = with(again, rbbank_site_reply, site);
    }
    fwrite(again.bytes, 1, again.length, stdout);
    free(again.bytes);
}

/* What a journal's file has, which is there unless it is new. */
static struct text stored(const char *path, int is_new) {
    FILE *file = fopen(path, "rb");
    struct text all = {NULL, 0};
    if (file != NULL) {
        all = read_all(file);
        fclose(file);
    } else if (!is_new)
        stop("no journal", 0, "");
    if (is_new && all.length != 0)
        stop("there is a journal", 0, "");
    return all;
}

/* The journal that a site goes on from: that of a file, replayed, or a new one. */
static struct text opened(struct rbbank_site *site, const char *path, int is_new, long resend) {
    struct text config = entries_of(site), all = stored(path, is_new);
    struct text before = {all.bytes, whole_lines(all)};
    if (before.length == 0 && (all.length == 0 || all.bytes[0] == ' ')) {
        free(all.bytes);
        return config;
    }
    if (before.length < config.length || memcmp(before.bytes, config.bytes, config.length) != 0)
        stop("another bank's journal", 0, "");
    free(config.bytes);
    replay(site, before, resend);
    return before;
}

static int site(struct text all, unsigned me, const char *path, int is_new, long resend) {
    struct line line = {0};
    struct rbbank_site site = {0};
    first_line(all, &line);
    int32_t status = rbbank_site_open(&site, (uint8_t)me, line.text.bytes, line.text.length);
    if (status != RBBANK_OK)
        stop(status == RBBANK_REFUSED ? "no such site" : "line", status == RBBANK_REFUSED ? 0 : line.number, "");
    struct text kept = opened(&site, path, is_new, resend);
    FILE *journal = fopen(path, "wb");
    if (journal == NULL)
        return 3;
    fwrite(kept.bytes, 1, kept.length, journal);
    free(kept.bytes);
    while ((status == RBBANK_OK || status == RBBANK_BAD_LINE) && next_line(all, &line)) {
        status = rbbank_site_answer(&site, line.text.bytes, line.text.length);
        if (status == RBBANK_OK) {
            keep_entries(&site, journal);
            print_site(&site);
        } else if (status == RBBANK_BAD_LINE)
            printf("{\"bad\":\"line\",\"line\":%zu}\n", line.number);
    }
    fwrite(" ", 1, 1, journal);
    fclose(journal);
    rbbank_site_close(&site);
    return status == RBBANK_BAD_LINE ? 0 : status;
}

/* Says why a journal wasn't opened, as the program does, where it says so. */
static void say_unopened(int32_t status, size_t line, uint64_t number) {
    switch (status) {
    case RBBANK_BAD_LINE: stop("line", line, ""); break;
    case RBBANK_REFUSED: stop("no such site", 0, ""); break;
    case RBBANK_ANOTHER_JOURNAL: stop("another bank's journal", 0, ""); break;
    case RBBANK_BAD_ENTRY: stop("journal line", (size_t)number, ": bad line"); break;
    case RBBANK_WRONG_REPLY: stop("journal line", (size_t)number, ": wrong reply"); break;
    case RBBANK_DAMAGED: stop("journal line", (size_t)number, ": damaged"); break;
    case RBBANK_SEALED: stop("journal is sealed", 0, ""); break;
    case RBBANK_FILE_IN_USE: stop("journal is in use", 0, ""); break;
    case RBBANK_FILE_NO_JOURNAL: stop("no journal", 0, ""); break;
    case RBBANK_FILE_JOURNAL_THERE: stop("there is a journal", 0, ""); break;
    default: break;
    }
}

static void print_journal(struct rbbank_file *file) {
    size_t length = rbbank_journal_reply(&file->journal, NULL, 0);
    char *reply = larger(NULL, length + 1);
    fwrite(reply, 1, rbbank_journal_reply(&file->journal, reply, length), stdout);
    free(reply);
}

/* A site whose journal the library keeps. A `resend` of -1 is all. */
static int journal(struct text all, unsigned me, const char *path, int is_new, long resend) {
    struct line line = {0};
    struct rbbank_file file = {0};
    uint64_t wrong;
    first_line(all, &line);
    int32_t status = rbbank_file_open(&file, path, (uint8_t)me, resend < 0 ? SIZE_MAX : (size_t)resend, is_new,
                                      line.text.bytes, line.text.length, &wrong);
    if (status != RBBANK_OK)
        say_unopened(status, line.number, wrong);
    while (status == RBBANK_OK) {
        print_journal(&file);
        if (!next_line(all, &line))
            break;
        status = rbbank_file_answer(&file, line.number, line.text.bytes, line.text.length);
    }
    rbbank_file_close(&file);
    return status;
}

/* A site that goes on after a bad line, with no journal. */
static int odd_site(struct text all, unsigned me) {
    struct line line = {0};
    struct rbbank_site site = {0};
    first_line(all, &line);
    int32_t status = rbbank_site_open(&site, (uint8_t)me, line.text.bytes, line.text.length);
    while ((status == RBBANK_OK || status == RBBANK_BAD_LINE) && next_line(all, &line)) {
        status = rbbank_site_answer(&site, line.text.bytes, line.text.length);
        printf("%d\n", status);
        if (status == RBBANK_OK)
            print_site(&site);
        free(entries_of(&site).bytes);
    }
    rbbank_site_close(&site);
    return status == RBBANK_BAD_LINE ? 0 : status;
}

static void add(struct text *text, const void *bytes, size_t length) {
    text->bytes = larger(text->bytes, text->length + length + 1);
    memcpy(text->bytes + text->length, bytes, length);
    text->length += length;
}

/* What a fault of closing the books is, as the program says it of these files. */
static void say_fault(int32_t status, uint64_t number, const char *file, char **names, size_t files) {
    unsigned long long n = number;
    fprintf(stderr, "rbbank: ");
    switch (status) {
    case RBBANK_BAD_LINE: fprintf(stderr, "%s: line %llu: bad line\n", file, n); break;
    case RBBANK_NOT_SEALED: fprintf(stderr, "%s: not sealed\n", file); break;
    case RBBANK_ANOTHER_BANK: fprintf(stderr, "%s: another bank's journal\n", file); break;
    case RBBANK_ANOTHER_SITE: fprintf(stderr, "%s: line %llu: another site's entry\n", file, n); break;
    case RBBANK_WRONG_JOURNALS: fprintf(stderr, "%zu journals for %llu sites\n", files, n); break;
    case RBBANK_ACCOUNT_THERE: fprintf(stderr, "account %s: there is one already\n", names[n]); break;
    case RBBANK_NO_NAME: fprintf(stderr, "account %s: no name\n", names[n]); break;
    case RBBANK_TOO_MANY_ACCOUNTS: fprintf(stderr, "too many accounts\n"); break;
    default: fprintf(stderr, "status %d\n", (int)status);
    }
}

/* How the books are to be closed: the accounts to add, and the files with what they have. */
struct closing {
    uint8_t sites;
    char **accounts, **files;
    size_t *lengths, count;
    struct text names, journals;
};

static struct closing closing_of(int count, char **words) {
    size_t size = (size_t)count * sizeof(char *);
    struct closing all = {0, larger(NULL, size), larger(NULL, size), larger(NULL, (size_t)count * sizeof(size_t)), 0,
                          {0}, {0}};
    size_t accounts = 0;
    for (int i = 2; i < count; i++) {
        if (strcmp(words[i], "--sites") == 0) {
            all.sites = (uint8_t)atoi(words[++i]);
        } else if (strcmp(words[i], "--account") == 0) {
            all.accounts[accounts++] = words[++i];
            add(&all.names, words[i], strlen(words[i]));
            add(&all.names, "\n", 1);
        } else {
            FILE *file = fopen(words[i], "rb");
            if (file == NULL)
                stop("no journal", 0, "");
            struct text journal = read_all(file);
            fclose(file);
            add(&all.journals, journal.bytes, journal.length);
            all.files[all.count] = words[i];
            all.lengths[all.count++] = journal.length;
            free(journal.bytes);
        }
    }
    return all;
}

/* Closes the books by the journals in files. */
static int close_books(struct closing all) {
    struct text out = {NULL, 0};
    uint64_t number = 1, journal;
    int32_t status;
    do {
        size_t capacity = number;
        out.bytes = larger(out.bytes, capacity);
        status = rbbank_close_books(all.sites, all.names.bytes, all.names.length, all.journals.bytes,
                                    all.journals.length, all.lengths, all.count, out.bytes, capacity, &out.length,
                                    &number, &journal);
    } while (status == RBBANK_TOO_SHORT);
    fwrite(out.bytes, 1, out.length, stdout);
    if (status > RBBANK_NOT_CLOSED)
        say_fault(status, number, all.files[journal], all.accounts, all.count);
    free(out.bytes);
    return status > RBBANK_NOT_CLOSED ? 2 : (int)status;
}

/* Closes the books as the words ask for. */
static int closing(int count, char **words) {
    struct closing all = closing_of(count, words);
    int status = close_books(all);
    free(all.accounts);
    free(all.files);
    free(all.lengths);
    free(all.names.bytes);
    free(all.journals.bytes);
    return status;
}

/* The word after an option. */
static const char *word(int count, char **words, const char *option, const char *otherwise) {
    for (int i = 1; i + 1 < count; i++)
        if (strcmp(words[i], option) == 0)
            return words[i + 1];
    return otherwise;
}

/* Whether a word is given. */
static int has(int count, char **words, const char *wanted) {
    for (int i = 1; i < count; i++)
        if (strcmp(words[i], wanted) == 0)
            return 1;
    return 0;
}

static int run(int count, char **words, struct text all) {
    const char *what = count > 1 ? words[1] : "";
    const char *path = word(count, words, "--journal", "journal");
    unsigned me = (unsigned)atoi(word(count, words, "--me", "0"));
    long resend = atol(word(count, words, "--resend", "-1"));
    int is_new = has(count, words, "--new");
    if (strcmp(what, "script") == 0)
        return whole(rbbank_script, all);
    if (strcmp(what, "audit") == 0)
        return whole(rbbank_audit, all);
    if (strcmp(what, "migrate") == 0)
        return whole(rbbank_migrate, all);
    if (strcmp(what, "close") == 0)
        return closing(count, words);
    if (strcmp(what, "bank") == 0 || strcmp(what, "odd") == 0)
        return bank(all, what[0] == 'o');
    if (strcmp(what, "calls") == 0)
        return calls(all, count > 2 ? atol(words[2]) : 0);
    if (strcmp(what, "odd-site") == 0)
        return odd_site(all, me);
    if (strcmp(what, "site") == 0)
        return site(all, me, path, is_new, resend);
    if (strcmp(what, "journal") == 0)
        return journal(all, me, path, is_new, resend);
    stop("rows script|audit|migrate|bank|odd|site|journal|close|odd-site|calls", 0, "");
    return 2;
}

int main(int count, char **words) {
    struct text all = read_all(stdin);
    int status = run(count, words, all);
    free(all.bytes);
    return status;
}
