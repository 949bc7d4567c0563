#!/usr/bin/env python3
"""Runs sites under a bank's name (`rbbank site --bank NAME`), with lines of their own bank and of others.

usage: banks.py [--quiet] PROGRAM      (--quiet prints only what is different)

Each kind of line with the name, without it, with another, and with what is no text; ids beside a bank, in each order of
keys; a known id again; what is sent again at a start and by a question; a torn journal, and an end by SIGKILL; the
journals with and without the option, which are the same; without the option each line with the key, which is bad; names
of each length, and with each byte; words that don't go together.
"""
import itertools
import json
import os
import re
import subprocess
import sys
import tempfile

import report
from site_process import compact, read, whole_lines
from sites import AT_REST, BANK, EVENTS, LINE_LIMIT, Sites, stored, write
from bank import REQUESTS, TAKES, command, without_why

NAME = "b2026"
OTHER = b'{"reply":{"refused":26},"sends":[],"then":[]}\n'  # the answer to another bank's line
KEY = b'"bank":"b2026",'
DEPOSIT = b'{"deposit":["ann",500]}'
SHADOW = (b'{"shadow":{"account":"ann","amount":5,"deps":[[0,0,0,0,0,0,0,0],0],"home":1,"kind":"deposit","name":'
          b'"B1.1"}}')
TOKEN = b'{"token":[2,0,0]}'
# what isn't the name, as JSON: other texts, and then what is no text
TEXTS = [b'"b2025"', b'""', b'"b2026 "', b'"B2026"', b'"b20266"', b'"b2026\\u0000"', b'"' + b"b" * 65 + b'"']
NO_TEXTS = [b"7", b"null", b"true", b'["b2026"]', b'{"b2026":1}', b"2026.0"]
# events and questions of a site's own, each with what its answer begins with at a site that has made B0.1
OWN = {
    b'{"balance":"ann"}': b'{"reply":{"balance":',
    b'{"statement":"ann"}': b'{"reply":{"balance":',
    b'{"asof":["ann",0]}': b'{"reply":{"balance":',
    b'{"batch":[{"deposit":["ann",1]}]}': b'{"reply":{"names":',
    b'{"batch":[]}': b'{"reply":{"refused":12}',
    b'{"apply":"B1.9"}': b'{"reply":{"refused":14}',
    b'{"pass":1}': b'{"reply":{"passed":1}',
    b'{"about":"site"}': b'{"reply":{"about":',
    b'{"resend":0}': b'{"reply":{"resent":0}',
}
# and the requests: each is made, but for one to an account that the bank doesn't have
VALUES = {"account": "ann", "to": "bob", "cents": 1, "rate": 100, "name": "B0.1"}
OWN |= {compact(command(verb, VALUES)).encode(): b'{"reply":{"refused":1}' if "to" in TAKES[verb] else
        b'{"reply":{"kind":"%s"' % verb.encode() for verb in REQUESTS}


def with_bank(line, value=b'"b2026"'):
    """A line with the key `bank` first in its object."""
    return b'{"bank":' + value + b"," + line[1:]


def bad(number):
    """The answer to a bad line of this number."""
    return b'{"bad":"line","line":%d}\n' % number


def answers(sites, lines, before=None, bank=BANK, name=NAME, **words):
    """The answers of a site that is given these lines, one for each, and its journal; None if it ends otherwise."""
    given = bank + b"".join(line + b"\n" for line in lines)
    out, errors, status, journal = sites.run(given, before, resend=0, bank=name, **words)
    found = without_why(out).splitlines(keepends=True)
    return (found, journal) if (errors, status, len(found)) == ("", 0, len(lines)) else (None, journal)


def of_the_bank(sites):
    """A line with the bank's name is answered as without it. Each message that is sent begins with the name."""
    for line, begins in OWN.items():
        known, journal = answers(sites, [DEPOSIT, with_bank(line)])
        plain, same = answers(sites, [DEPOSIT, line])
        fine = known is not None and known == plain and known[1].startswith(begins) and journal == same
        yield f"with the bank: {line.decode()}", fine
        without, same = answers(sites, [DEPOSIT, line], name=None)
        fine = known is not None and [message.replace(KEY, b"") for message in known] == without and journal == same
        yield "... as without the option, but for the messages", fine and all_named(known)
    sent = b'"sends":[{"bank":"b2026","shadow":{"account":"ann","amount":500,'
    found, _ = answers(sites, [with_bank(DEPOSIT)])
    yield "a message's first key", found is not None and found[0].count(sent) == 1
    found, _ = answers(sites, [with_bank(b'{"pass":1}')])
    sent = b'{"reply":{"passed":1},"sends":[{"bank":"b2026","token":[1,1,0]}],"then":[]}\n'
    yield "... of the token", found == [sent]
    spelled = [b'{"deposit":["ann",500],"bank":"b2026"}', b'{ "bank" : "b\\u0032026" , "deposit" : [ "ann" , 500 ] }',
               b'{"bank":"b2025","bank":"b2026","deposit":["ann",500]}',
               b'{"bank":7,"deposit":["ann",500],"bank":"b2026"}']
    plain = answers(sites, [DEPOSIT])
    for line in spelled:
        yield f"spelled as {line.decode()}", answers(sites, [line]) == plain


def all_named(found):
    """Whether each message of these answers has the bank's name."""
    messages = [message for line in found for message in json.loads(line).get("sends", [])]
    return all(list(message)[0] == "bank" and message["bank"] == NAME for message in messages)


def of_others(sites):
    """A line of another bank is answered by 26, and a message without one too; what is no text makes a bad line. None
    of these leaves a trace."""
    before = answers(sites, [DEPOSIT])[1]
    lines = [*OWN, SHADOW, TOKEN, b'{"nonsense":1}', b'{"balance":"ann","site":0}', b'{"deposit":["ann",1],"id":"a-1"}',
             b'{"id":7,"deposit":["ann"]}', b'{"accounts":[["ann",0]],"sites":2,"version":1}']
    for line in lines:
        for value in TEXTS:
            found = answers(sites, [with_bank(line, value)], before)
            yield f"with bank {value.decode()}: {line.decode()}", found == ([OTHER], before)
        for value in NO_TEXTS:
            found = answers(sites, [with_bank(line, value)], before)
            yield f"with bank {value.decode()}: {line.decode()}", found == ([bad(2)], before)
    for line in (SHADOW, TOKEN):
        yield f"without a bank: {line.decode()}", answers(sites, [line], before) == ([OTHER], before)
    alone = answers(sites, [b'{"bank":"b2025"}', b'{"bank":"b2026"}'], before)
    yield "a bank alone", alone == ([OTHER, bad(3)], before)
    for line in (b'["bank"]', b'"b2025"', b'{"bank":"b2025"', b'{"batch":[{"bank":"b2026","deposit":["ann",1]}]}'):
        yield f"no line: {line.decode()}", answers(sites, [line], before) == ([bad(2)], before)
    long = b'{"bank":"b2025"}'.rjust(LINE_LIMIT + 1)
    yield "too long", answers(sites, [long], before) == ([b'{"bad":"long","line":2}\n'], before)
    for record in ("changes", "all"):
        found, journal = answers(sites, [DEPOSIT, SHADOW, with_bank(DEPOSIT, b'"x"'), DEPOSIT], record=record)
        plain, same = answers(sites, [DEPOSIT, DEPOSIT], record=record)
        fine = found is not None and found[1:3] == [OTHER] * 2 and found[::3] == plain and journal == same
        yield f"between others, --record {record}", fine
    full = BANK.replace(b'"sites"', b'"history":1,"sites"')
    found, _ = answers(sites, [DEPOSIT, DEPOSIT, with_bank(DEPOSIT, b'"x"'), SHADOW], bank=full)
    fine = found is not None and found[1].startswith(b'{"reply":{"refused":23}') and found[2:] == [OTHER] * 2
    yield "at a full history", fine


def received(sites):
    """A message with the bank's name is received as one without it and without the option."""
    for message in (SHADOW, TOKEN):
        found, journal = answers(sites, [with_bank(message)] * 2)
        plain, same = answers(sites, [message] * 2, name=None)
        yield f"received: {message.decode()[:20]}", found is not None and found == plain and journal == same
    found, _ = answers(sites, [with_bank(SHADOW)])
    yield "... and applied", found == [b'{"reply":{"held":"B1.1"},"sends":[],"then":[{"applied":"B1.1"}]}\n']
    sent, _ = answers(sites, [DEPOSIT, b'{"withdraw":["ann",1]}', b'{"pass":1}'])
    messages = [json.dumps(message, separators=(",", ":")).encode()
                for line in sent or [] for message in json.loads(line)["sends"]]
    found, _ = answers(sites, messages, me=1)
    fine = found is not None and [json.loads(line)["reply"] for line in found]
    yield "what one site sends, another takes", fine == [{"held": "B0.1"}, {"held": "R1"}, {"taken": 1}]
    found, _ = answers(sites, messages, me=1, name="b2027")
    yield "... of its own bank alone", found == [OTHER] * 3


def by_ids(sites):
    """A bank and an id are beside one another, in any order of keys. A known id is known with the bank and without."""
    members = [b'"bank":"b2026"', b'"deposit":["ann",500]', b'"id":"a-1"']
    first = answers(sites, [b'{"deposit":["ann",500],"id":"a-1"}'])
    for order in itertools.permutations(members):
        yield f"keys: {b','.join(order).decode()}", answers(sites, [b"{" + b",".join(order) + b"}"]) == first
    ask, other = b'{"deposit":["ann",500],"id":"a-1"}', b'{"deposit":["ann",501],"id":"a-1"}'
    lines = [with_bank(ask), ask, with_bank(ask), with_bank(ask, b'"b2025"'), with_bank(other), other, SHADOW]
    found, journal = answers(sites, lines)
    made = first[0][0] if first[0] else b""
    again = made.replace(b'{"id"', b'{"again":true,"id"', 1)
    refused = b'{"id":"a-1","reply":{"refused":25},"sends":[],"then":[]}\n'
    fine = found == [made, again, again, OTHER, refused, refused, OTHER] and made.count(KEY) == 1
    yield "a known id again", fine and journal == first[1]
    plain, same = answers(sites, [ask], name=None)
    yield "... the journal has no bank", same == journal and plain == [made.replace(KEY, b"")]
    found, after = answers(sites, [with_bank(ask), ask, with_bank(ask, b'"b2025"')], journal)
    yield "... at another start", (found, after) == ([again, again, OTHER], journal)


def sent_again(sites):
    """What is sent again has the name, at a start and by a question, whatever the site was started with before."""
    _, journal = answers(sites, [DEPOSIT, b'{"withdraw":["ann",1]}', b'{"pass":1}'], name=None)
    plain = sites.run(BANK, journal)
    named = sites.run(BANK, journal, bank=NAME)
    fine = named[1:] == ("", 0, journal) and named[0].count(b'{"bank":"b2026","shadow":') == 2
    fine = fine and named[0].count(b'{"bank":"b2026","token":') == 1 and named[0].replace(KEY, b"") == plain[0]
    yield "at a start", fine
    yield "... and without the option", b"bank" not in plain[0] and plain[0].count(b'"sends"') == 3
    yield "at a start by --resend", sites.run(BANK, journal, resend=1, bank=NAME)[0] == (
        b'{"sends":[{"bank":"b2026","token":[1,1,1]}]}\n')
    for question in (b'{"resend":9}', with_bank(b'{"resend":9}')):
        out, *ended = sites.run(BANK + question + b"\n", journal, resend=0, bank=NAME)
        wanted = named[0] + b'{"reply":{"resent":3},"sends":[],"then":[]}\n'
        yield f"by {question.decode()}", (out, ended) == (wanted, ["", 0, journal])
    out, *ended = sites.run(BANK + with_bank(b'{"resend":9}', b'"x"') + b"\n", journal, resend=0, bank=NAME)
    yield "... but not of another bank", (out, ended) == (OTHER, ["", 0, journal])


def however_read(sites):
    """All events, with other banks' lines between them, answer the same and leave the same journal, at once or with a
    restart before each; and a torn journal goes on."""
    bank = b'{"accounts":[["ann",100],["bob",0]],"sites":2,"version":1}\n'
    events = EVENTS.splitlines()
    plain, journal = answers(sites, events, bank=bank, name=None)
    own = [with_bank(event) for event in events]
    found, same = answers(sites, own, bank=bank)
    fine = found is not None and [line.replace(KEY, b"") for line in found] == plain and all_named(found)
    yield "each kind of event", fine and same == journal
    mixed = [line for event in own for line in (event.replace(b"b2026", b"b2025"), event)]
    between, same = answers(sites, mixed, bank=bank)
    fine = between is not None and between[::2] == [OTHER] * len(own) and between[1::2] == found
    yield "... with another bank's before each", fine and same == journal
    with tempfile.TemporaryDirectory() as folder:
        path, out = os.path.join(folder, "journal"), b""
        for line in mixed:
            answer, errors, status = sites.at(path, bank + line + b"\n", resend=0, bank=NAME)
            out += answer if (errors, status) == ("", 0) else b"?"
        yield "... started again before each", out == b"".join(between or [b""]) and read(path) == journal
    torn = stored("site_deposit.site.journal")[:-30]
    _, errors, status, after = sites.run(BANK + with_bank(b'{"balance":"ann"}') + b"\n", torn, resend=0, bank=NAME)
    fine = (errors.count("cut off"), status) == (1, 0) and after == stored("site_deposit.site.journal")
    yield "a torn journal goes on", fine


def killed(sites):
    """A site that is ended by SIGKILL goes on under its name: what it answered is known, and is sent by the name."""
    ask = with_bank(b'{"deposit":["ann",500],"id":"a-1"}')
    with tempfile.TemporaryDirectory() as folder:
        path = os.path.join(folder, "journal")
        run = subprocess.Popen(sites.words(path, bank=NAME), stdin=subprocess.PIPE, stdout=subprocess.PIPE)
        run.stdin.write(BANK + ask + b"\n" + SHADOW + b"\n")
        run.stdin.flush()
        first, second = run.stdout.readline(), run.stdout.readline()
        run.kill()
        run.communicate()
        out, errors, status = sites.at(path, BANK + ask + b"\n" + with_bank(SHADOW) + b"\n", bank=NAME)
        again, made, held = (out.splitlines(keepends=True) + [b""] * 3)[:3]
        fine = (second, errors, status) == (OTHER, "", 0) and first.count(KEY) == 1
        yield "ended by SIGKILL", fine and made == first.replace(b'{"id"', b'{"again":true,"id"', 1)
        yield "... and sent again", again == b'{"sends":[' + sent_by(first) + b"]}\n"
        yield "... and goes on", held.startswith(b'{"reply":{"held":"B1.1"}')


def sent_by(line):
    """The text of the one message of an answer."""
    found = re.search(rb'"sends":\[(.*)\],"then"', line)
    return found[1] if found else b""


def without_the_option(sites):
    """Without the option a key `bank` makes a line bad, whatever it has."""
    before = stored("site_deposit.site.journal")
    for line in [*OWN, SHADOW, TOKEN, b'{"deposit":["ann",1],"id":"a-1"}']:
        for value in (b'"b2026"', b'""', b"7"):
            found = answers(sites, [with_bank(line, value)], before, name=None)
            yield f"without the option: {with_bank(line, value).decode()}", found == ([bad(2)], before)
    plain, journal = answers(sites, [DEPOSIT, SHADOW], name=None)
    yield "... and none is wanted", plain is not None and b"bank" not in b"".join(plain) + journal
    config = b'{"accounts":[["ann",0]],"bank":"b2026","sites":2,"version":1}\n'
    said = "rbbank: line 1: bad configuration\n  column 25: a configuration has no key \"bank\""
    for name in (None, NAME):
        out, errors, status = sites.run(config, bank=name)[:3]
        yield f"a configuration has no bank, with {name}", (out, status) == (b"", 2) and errors.startswith(said)


def names(sites):
    """A name is 1 to 64 bytes of those that an id has; any other is a fault of the words, and no file is made."""
    fine = ["b", "0001", "A-Z", ".", "_", ":", "x-", "b" * 64, "abcdefghijklmnopqrstuvwxyz0123456789._:-",
            "ABCDEFGHIJKLMNOPQRSTUVWXYZ"]
    for name in fine:
        found, _ = answers(sites, [with_bank(DEPOSIT, b'"' + name.encode() + b'"')], name=name)
        sent = b'"sends":[{"bank":"' + name.encode() + b'","shadow":'
        yield f"a name: {name}", found is not None and sent in found[0]
    for name in ["", "b" * 65, "a b", "a/b", "a,b", "a\n", "ä", '"', "a+b", "@", "[", "`", "{"]:
        said = f"rbbank: bank {name}: 1 to 64 of A-Z a-z 0-9 . _ : -\n"
        yield f"no name: {name!r}", sites.run(BANK + DEPOSIT, bank=name) == (b"", said, 2, None)
    journal = stored("site_deposit.site.journal")
    said = "rbbank: bank : 1 to 64 of A-Z a-z 0-9 . _ : -\n"
    yield "... and the journal stays", sites.run(BANK + DEPOSIT, journal, bank="") == (b"", said, 2, journal)


def words_at_fault(sites):
    """A seal takes no bank's name, and the option is given once, with its value."""
    journal = stored("site_deposit.site.journal")
    begin = ["--me", "0", "--journal", "j"]
    wanted = [[*begin, "--bank", NAME, "--seal"], ["--seal", "--bank", NAME, *begin],
              [*begin, "--seal", f"--bank={NAME}"], [*begin, "--seal", "--bank", ""], [*begin, "--bank"],
              [*begin, "--bank", NAME, "--bank", NAME], [*begin, "--bank", "-b"]]
    for words in wanted:
        with tempfile.TemporaryDirectory() as folder:
            path = os.path.join(folder, "j")
            write(path, journal)
            run = subprocess.run([sites.program, "site", *words], input=BANK, capture_output=True, cwd=folder)
            fine = (run.stdout, run.returncode, read(path)) == (b"", 2, journal) and run.stderr.startswith(b"error: ")
            fine = fine and ("--seal" not in words or b"'--bank <NAME>' cannot be used with '--seal'" in run.stderr)
            yield f"words: site {' '.join(words)}", fine and os.listdir(folder) == ["j"]
    asked = [["--me", "0"], ["--journal", "j"], ["--new"], ["--resend", "7"], ["--record", "all"], ["--bank", NAME]]
    out = stored("site_deposit.site.expected").replace(b'{"shadow"', b'{"bank":"b2026","shadow"')
    for words in [*itertools.permutations(asked)][::17] + [[*asked[:5], ["--bank=b2026"]]]:
        with tempfile.TemporaryDirectory() as folder:
            run = subprocess.run([sites.program, "site", *sum(words, [])], cwd=folder, capture_output=True,
                                 input=BANK + DEPOSIT + b'\n{"balance":"ann"}\n')
            fine = (run.stdout, run.stderr, read(os.path.join(folder, "j"))) == (out, b"", journal)
            yield f"words: site {' '.join(sum(words, []))}", fine
    found, _ = answers(sites, [with_bank(DEPOSIT, b'"-b"')], name=None)
    with tempfile.TemporaryDirectory() as folder:
        run = subprocess.run([sites.program, "site", *begin, "--new", "--bank=-b"], cwd=folder, capture_output=True,
                             input=BANK + with_bank(DEPOSIT, b'"-b"') + b"\n")
        fine = run.stdout.count(b'{"bank":"-b","shadow"') == 1 and run.returncode == 0
    yield "a name that begins with a hyphen", fine and found == [bad(2)]


def sealed_after(sites):
    """A journal of a named bank is sealed, audited and closed as any other: it has no name."""
    _, journal = answers(sites, [DEPOSIT, b'{"balance":"ann"}'])
    yield "the journal is any journal", journal == stored("site_deposit.site.journal")
    run = subprocess.run([sites.program, "audit"], input=whole_lines(journal or b"") + AT_REST, capture_output=True)
    yield "... for an audit", (run.stdout, run.stderr) == (b'{"order":[0,0]}\n', b"")


PARTS = [of_the_bank, of_others, received, by_ids, sent_again, however_read, killed, without_the_option, names,
         words_at_fault, sealed_after]


def results(program):
    """Each case with whether it is as wanted."""
    return report.of_parts(PARTS, lambda: Sites(program))


if __name__ == "__main__":
    sys.exit(report.run(__doc__, results))
