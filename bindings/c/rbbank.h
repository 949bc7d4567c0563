/* The core of the bank, for C: sites that answer lines, and four whole runs.
 *
 * Lines, limits, refusals and statuses are those of docs/FORMAT.md. What each call does is proved of the code behind
 * it (crates/rb_capi), but for the words of `rbbank_error`. The rest is the caller's to keep:
 *
 * - A handle begins with all bytes zero (`struct rbbank bank = {0};`). It is never copied, compared or looked into;
 *   two copies of one handle would end one bank twice. It may be moved: the old place is then forgotten.
 * - A handle may go to another thread, and is used by one at a time: a caller that shares one has a lock round each
 *   call on it, and round a call with the reading of its answer. Two handles know nothing of each other, and may be
 *   used at once.
 * - Each pointer has as many bytes behind it as its length says, for the time of the call alone: nothing that is
 *   passed is kept. With a length of 0 the pointer isn't followed. What is written (`out`, `written`, `number` ..)
 *   overlaps nothing else that is passed.
 * - A handle that was opened is closed, else its memory is lost. Closing twice, and a zeroed handle, are fine.
 *
 * Text is UTF-8 with a length, and has no NUL at its end. No call has another condition: any bytes are answered. A line
 * is passed without its line feed, and has at most 1,048,576 bytes if the program's limit is to hold. Nothing is
 * printed, no file is opened, no thread started.
 *
 * A call that copies a text to `out`, of `capacity` bytes, gives the length of the whole text. As much of it as fits is
 * at the beginning of `out`, and the rest of `out` stays. So `rbbank_reply(&bank, NULL, 0)` is how long the reply is.
 */
#ifndef RBBANK_H
#define RBBANK_H

#include <stddef.h>
#include <stdint.h>

#ifdef __cplusplus
extern "C" {
#endif

/* Copies the library's version, such as "2.0.0". */
size_t rbbank_version(char *out, size_t capacity);

/* What a line should have been. */
enum {
    RBBANK_CONFIG = 0,  /* a configuration: rbbank_open, rbbank_site_open, rbbank_journal_open */
    RBBANK_COMMAND = 1, /* a command: rbbank_answer, rbbank_script */
    RBBANK_EVENT = 2,   /* an event, or a question: rbbank_site_answer */
    RBBANK_ENTRY = 3    /* an entry: rbbank_site_replay, rbbank_audit, rbbank_migrate, and a line of a journal */
};

/* Copies why a line isn't taken, as `rbbank` says it, on one line: "column 47: 25 is out of range: ..". The column
 * counts characters, from 1; the words may change. Call it after RBBANK_BAD_LINE, with the same line and what it
 * should have been. `config` is the bank's configuration; for RBBANK_CONFIG it isn't read.
 *
 * An entry isn't taken either if it is another site's, if its id is there, or if a journal has it not as a site writes
 * it: the text then names these, and has no column. "no such kind of line" or "no configuration" if `kind` or `config`
 * isn't one; "out of memory". */
size_t rbbank_error(uint8_t kind, const char *config, size_t config_length, const char *line, size_t length, char *out,
                    size_t capacity);

/* What calls on a handle return. */
enum {
    RBBANK_OK = 0,
    RBBANK_NONE = 1,     /* the handle is zeroed or closed, by its caller or by a status below: nothing happened */
    RBBANK_BAD_LINE = 2, /* no command, no event, no entry of this site: nothing changed; no configuration: closed */
    RBBANK_REFUSED = 3,  /* rbbank_site_open and rbbank_journal_open: no such site; rbbank_site_replay: the site gives
                            another reply than the entry has, or its history is full: closed; rbbank_site_send and
                            rbbank_journal_send: no such message; rbbank_journal_answer: calls on the file are left, and
                            rbbank_journal_done: none is left: nothing has changed */
    RBBANK_NO_MEMORY = 4 /* memory ran out: the handle is closed, and the last answer is lost; rbbank_site_send:
                            nothing has changed */
};

/* Why something was refused: the number of a reply {"refused":N}. What is in backticks are keys of the reply; the keys
 * stand by their names, so other ones may come first, as in {"cause":8,"index":1,"refused":13}. In a site's answer the
 * reply is the value of "reply"; a `refused` in "then" is that of an application. */
enum {
    RBBANK_REFUSAL_UNKNOWN_ACCOUNT = 1,   /* unknown account */
    RBBANK_REFUSAL_BAD_AMOUNT = 2,        /* amount out of range: 1 to 100,000,000,000 cents */
    RBBANK_REFUSAL_BAD_RATE = 3,          /* rate out of range: 0 to 10,000 basis points */
    RBBANK_REFUSAL_UNKNOWN_OPERATION = 4, /* unknown operation: none of this name is applied here */
    RBBANK_REFUSAL_NOT_CANCELLABLE = 5,   /* can't be cancelled (declined, or a cancellation) */
    RBBANK_REFUSAL_ALREADY_CANCELLED = 6, /* already cancelled, first at `position` */
    RBBANK_REFUSAL_NUMBERS_EXHAUSTED = 7, /* numbers, or epochs, are used up */
    RBBANK_REFUSAL_NEED_TOKEN = 8,        /* the site hasn't the token */
    RBBANK_REFUSAL_RED_BEHIND = 9,        /* `seen` red operations applied, `needed` before the next */
    RBBANK_REFUSAL_WOULD_OVERDRAW = 10,   /* would leave a balance below zero */
    RBBANK_REFUSAL_DELTA_TOO_LARGE = 11,  /* interest over its limit */
    RBBANK_REFUSAL_BAD_BATCH = 12,        /* bad batch: no request, or more than 16 */
    RBBANK_REFUSAL_BATCH_REFUSED = 13,    /* a request of the batch would be declined or is refused */
    RBBANK_REFUSAL_NOT_HELD = 14,         /* nothing is held under the name */
    RBBANK_REFUSAL_NOT_READY = 15,        /* its past isn't applied here yet */
    RBBANK_REFUSAL_INBOX_FULL = 16,       /* the inbox is full, and the operation isn't ready */
    RBBANK_REFUSAL_BAD_MESSAGE = 17,      /* bad message */
    RBBANK_REFUSAL_CONFLICT = 18,         /* another operation has the name, or it is said to be of this site, which
                                             didn't make it */
    RBBANK_REFUSAL_NO_MESSAGE = 19,       /* no such message */
    RBBANK_REFUSAL_NO_SITE = 20,          /* no such site, or the token passed to the own one */
    RBBANK_REFUSAL_NOT_YOURS = 21,        /* the token message is for another site */
    RBBANK_REFUSAL_POSITION_BEYOND = 22,  /* the position is beyond the operations that the site applied */
    RBBANK_REFUSAL_HISTORY_FULL = 23,     /* the site's history is full */
    RBBANK_REFUSAL_SAME_ACCOUNT = 24,     /* a transfer's two accounts are one */
    RBBANK_REFUSAL_OTHER_REQUEST = 25,    /* the id is that of another request */
    RBBANK_REFUSAL_OTHER_BANK = 26        /* the line is of another bank */
};

/* ---- All sites of a bank, with the messages between them, as `rbbank script` has them */

struct rbbank {
    void *at;
};

/* Opens the bank of a configuration's line, before any command. A bank that the handle had is ended first.
 * 0, 2 (no configuration) or 4; after 2 and 4 the handle is closed. */
int32_t rbbank_open(struct rbbank *bank, const char *config, size_t length);

/* Gives the bank a command's line, such as {"deposit":["ann",500],"site":0}. 0: the reply is kept, a refusal too, and
 * can be read by rbbank_reply; 1; 2 (no command): nothing has changed, the reply that was kept before neither; 4. */
int32_t rbbank_answer(struct rbbank *bank, const char *line, size_t length);

/* Copies the kept reply, which has one line feed, at its end; 0 if no reply is kept. It is kept until rbbank_answer
 * returns 0 or 4, or the bank is opened or closed. */
size_t rbbank_reply(struct rbbank *bank, char *out, size_t capacity);

/* Ends the bank, and gives its memory back. The handle is zeroed, and may be opened again. */
void rbbank_close(struct rbbank *bank);

/* ---- One site, as `rbbank site` has it; the journal is the caller's */

struct rbbank_site {
    void *at;
};

/* Opens site `me` (0 to 15) of the bank of a configuration's line, before any event. Its entries are then the
 * journal's first line. If a journal is there, compare: one that begins with another line is another bank's, and
 * its entries might be replayed here all the same. A site that the handle had is ended first.
 * 0, 2 (no configuration), 3 (the configuration has no such site) or 4; after 2, 3 and 4 the handle is closed. */
int32_t rbbank_site_open(struct rbbank_site *site, uint8_t me, const char *config, size_t length);

/* Gives the site an event's line: any command but "deliver", without its site, or a message of another site. 0: the
 * answer {"reply":..,"sends":[..],"then":[..]} is kept, and so are its entries; 1; 2 (no event, and no question):
 * nothing has changed, what was kept before neither; 4.
 * Write the entries where they last before anyone sees the answer: then a crash takes back nothing that was seen.
 * A request or a batch may have a further key "id", 1 to 64 characters of A-Z a-z 0-9 . _ : -, which its answer and
 * its entry have too. Once it is made, the same line gets {"again":true,"id":..}, with the same reply and messages, and
 * another request of the id gets {"refused":25}. Neither changes anything or has entries: so a client may ask again
 * until it has a reply.
 * A question changes nothing and has no entries: {"about":"site"}, or {"resend":N}, N 0 to 100,000,000, whose answer
 * has a line {"sends":[..]} before its last for each of the last N entries that sent any message. */
int32_t rbbank_site_answer(struct rbbank_site *site, const char *line, size_t length);

/* Copies the kept answer, as rbbank_reply does. After a replay it is the line {"sends":[..]} of what the entry sent,
 * and nothing if it sent nothing. */
size_t rbbank_site_reply(struct rbbank_site *site, char *out, size_t capacity);

/* Copies the lines that the kept answer adds to the journal, each with its line feed, as rbbank_reply does; none if
 * it recorded nothing, and none after a replay. After an open it is the configuration's line, with all eight keys. */
size_t rbbank_site_entries(struct rbbank_site *site, char *out, size_t capacity);

/* For which site a message is that goes to each other one. */
#define RBBANK_EACH_OTHER_SITE 255

/* Copies the message of this index, from 0, of the kept answer, without a line feed: it is the line that a receiver is
 * to be given as an event, word for word. `*length` is how many bytes it has, and `*to` the site that it is for, or
 * RBBANK_EACH_OTHER_SITE. The messages of several lines, as a `resend` is answered by, are counted through all of them.
 * Each call reads the answer again, up to the message: those of a long answer, as to a `resend` of all, are better
 * taken from its lines, each of which has them in the list of its key "sends".
 * 0; 1; 3 (the answer has no such message); 4. After 1, 3 and 4 `*length` is 0, and `out` as it was. */
int32_t rbbank_site_send(struct rbbank_site *site, size_t index, char *out, size_t capacity, size_t *length,
                         uint8_t *to);

/* Gives a site that was opened again the next line of its journal, after the first; it may have an id. 0; 1; 2 (no
 * entry of this site, or the id of an entry before): nothing has changed; 3 (the site gives another reply than the
 * entry has, or its history is full): the handle is closed; 4. The entry may be spelled in any way, but the program
 * takes a journal's line only as it writes it. */
int32_t rbbank_site_replay(struct rbbank_site *site, const char *line, size_t length);

/* Ends the site, and gives its memory back. The handle is zeroed, and may be opened again. */
void rbbank_site_close(struct rbbank_site *site);

/* ---- One site with its journal in a file, as `rbbank site --record all` has it, in a program with a loop of its own
 *
 * No call here opens a file. After an open and after each answer rbbank_journal_call says which call on the file is to
 * be made next; the caller makes it, says by rbbank_journal_done how it ended, and asks again, until none is left. Only
 * then is there a reply: so nothing is seen that a crash takes back. rbbank_file.h and rbbank_file.c do all of this on
 * a Unix system. */

struct rbbank_journal {
    void *at;
};

/* What rbbank_journal_open returns, beside 0, RBBANK_BAD_LINE, RBBANK_REFUSED and RBBANK_NO_MEMORY. The handle is
 * closed, and the file is to stay as it is. */
enum {
    RBBANK_ANOTHER_JOURNAL = 5, /* the file is another bank's journal, or isn't a journal */
    RBBANK_BAD_ENTRY = 6,       /* the line is no entry of this site, not as a site writes it, or of an id before */
    RBBANK_WRONG_REPLY = 7,     /* the site gives another reply than the line has, or its history is full */
    RBBANK_DAMAGED = 8,         /* a byte that no crash leaves is where the line, or the gate before it, should begin */
    RBBANK_SEALED = 9           /* the journal is sealed */
};

/* Opens site `me` (0 to 15) of the bank of a configuration's line over its journal, of whose file these are all bytes:
 * none if it is new. They are all on the disk, and nobody else writes the file until the handle is closed. Calls are
 * left then, and after them the reply is what the last `resend` entries sent, a line for each that sent any.
 * 0, 2, 3 (no such site), 4 or one of those above. With 6, 7 and 8 `*number` is the line's number in the file, from 1;
 * else 0. */
int32_t rbbank_journal_open(struct rbbank_journal *journal, uint8_t me, size_t resend, const char *config,
                            size_t length, const char *file, size_t file_length, uint64_t *number);

/* Answers a line as `rbbank site` does: an event, a question, or by {"bad":"line",..} with its `number` and why; a
 * blank line has no answer. Calls are left then if anything was recorded. 0; 1; 3: calls of the answer before are
 * left, and nothing has changed; 4: the site is ended. */
int32_t rbbank_journal_answer(struct rbbank_journal *journal, size_t number, const char *line, size_t length);

/* What rbbank_journal_call returns, beside 0. */
enum {
    RBBANK_CALL_WRITE = 1, /* write the bytes at `*at`, over what is there, and past the end */
    RBBANK_CALL_CUT = 2,   /* cut the file to `*at` bytes, and wait until that is on the disk */
    RBBANK_CALL_SYNC = 3,  /* wait until all that was written is on the disk */
    RBBANK_CALL_KEEP = 6   /* add the bytes, which are about to be cut off, to a file beside it that keeps them, and
                              wait until they are on the disk */
};

/* The call that is to be made next: copies its bytes, of which there are `*length`, as rbbank_reply does. It is the
 * same until rbbank_journal_done. 0 if none is left, or there is no site. */
int32_t rbbank_journal_call(struct rbbank_journal *journal, char *out, size_t capacity, size_t *length, uint64_t *at);

/* Says that the next call was made, and succeeded (`made` is 1), or failed (0), which ends the site: open the file
 * again. With 1: 0; 1: there is no site; 3: no call is left, and nothing has changed. With 0 always 1, and the site is
 * ended, whether a call was left or not. */
int32_t rbbank_journal_done(struct rbbank_journal *journal, uint8_t made);

/* Copies the kept answer, as rbbank_site_reply does; none as long as calls are left. */
size_t rbbank_journal_reply(struct rbbank_journal *journal, char *out, size_t capacity);

/* Copies a message of the kept answer, as rbbank_site_send does; there is no message as long as calls are left. */
int32_t rbbank_journal_send(struct rbbank_journal *journal, size_t index, char *out, size_t capacity, size_t *length,
                            uint8_t *to);

/* Ends the site, and gives its memory back. The file may be left as it is: a start repairs it. */
void rbbank_journal_close(struct rbbank_journal *journal);

/* ---- Whole runs, from all lines of an input to all lines of the output
 *
 * The first three return the program's statuses: 0; 1 if an audit found a fault; 2 for a bad line; 3 if `out`, of
 * `capacity` bytes, is too short for what was to be written, however the run ended; 4 if memory ran out. `*written`
 * bytes of `out` were written: with 0 and 1 the whole output, with 2 what was written before the bad line, with 3 a
 * prefix, with 4 what was written by then, maybe nothing. `*number` is with 0 and 1 how many lines were written; with 2
 * the number of the bad line, from 1, blank ones counted, or 0 if the input has no configuration; with 3 how many
 * bytes `out` has to have; with 4 it is 0. */

/* Commands in, replies out: `rbbank script`. */
int32_t rbbank_script(const char *input, size_t length, char *out, size_t capacity, size_t *written,
                      uint64_t *number);

/* The histories of a bank's sites in; an order of all of it, or the fault: `rbbank audit`. */
int32_t rbbank_audit(const char *input, size_t length, char *out, size_t capacity, size_t *written,
                     uint64_t *number);

/* The histories of either version in, of version 2 out: `rbbank migrate`. */
int32_t rbbank_migrate(const char *input, size_t length, char *out, size_t capacity, size_t *written,
                       uint64_t *number);

/* What rbbank_close_books returns, beside 0, RBBANK_BAD_LINE and RBBANK_NO_MEMORY. */
enum {
    RBBANK_NOT_CLOSED = 1,         /* the line says why the books can't be closed */
    RBBANK_TOO_SHORT = 3,          /* `out` is too short */
    RBBANK_NOT_SEALED = 5,         /* a journal doesn't end in a line feed and a TAB */
    RBBANK_ANOTHER_BANK = 6,       /* its first line is no configuration as a site writes it, or not journal 0's */
    RBBANK_ANOTHER_SITE = 7,       /* an entry in it is another site's */
    RBBANK_WRONG_JOURNALS = 8,     /* there are more journals than sites, or fewer */
    RBBANK_WRONG_SITES = 9,        /* `sites` is neither 0 nor 2 to 16 */
    RBBANK_ACCOUNT_THERE = 10,     /* an account has the name already, in the bank or before it in `names` */
    RBBANK_NO_NAME = 11,           /* a name isn't 1 to 32 bytes of a-z 0-9 . _ - */
    RBBANK_TOO_MANY_ACCOUNTS = 12, /* there would be more than 1,000 accounts */
    RBBANK_WRONG_LENGTHS = 13      /* `count` is 0, or the sum of `lengths` isn't `journals_length` */
};

/* The sealed journals of all sites in, the next bank's configuration out: `rbbank close`. A journal is sealed by a TAB
 * after its last line feed, once its site is ended for good; a file that a crash may have left is sealed by
 * `rbbank site --seal`.
 *
 * The journals are one after another in `journals`, in the order of their sites: `count` of them, of `lengths[0]`,
 * `lengths[1]`, .. bytes. The next bank has `sites` sites, 2 to 16, or as many as before if it is 0. `names` has the
 * names of the accounts that it has after the others, each with its line feed (the last one may lack it), such as
 * "eve\nzed\n"; they start with 0 cents.
 *
 * 0: the line in `out` is the next bank's configuration, with all eight keys. 1: it says why there is none: what an
 * audit finds, {"fault":"open",..} or {"account":..,"fault":"limit"}. With another status no line was written, but
 * with 3 a prefix of it.
 *
 * `*number` is with 0 and 1 how many lines were written, 1; with 2 and 7 the number of the line in its journal, from
 * 1; with 3 how many bytes `out` has to have; with 8 how many sites the configuration has; with 10 and 11 which of the
 * names it is, from 0; else 0. `*journal` is with 2, 5, 6 and 7 which journal it is, from 0; else 0. */
int32_t rbbank_close_books(uint8_t sites, const char *names, size_t names_length, const char *journals,
                           size_t journals_length, const size_t *lengths, size_t count, char *out,
                           size_t capacity, size_t *written, uint64_t *number, uint64_t *journal);

#ifdef __cplusplus
}
#endif

#endif
