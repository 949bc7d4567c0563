"""Each call once, and each exception that a caller can bring about: python3 -m unittest -v test_rbbank."""
import copy
import doctest
import errno
import glob
import json
import os
import re
import subprocess
import sys
import tempfile
import threading
import unittest

import rbbank

CONFIG = '{"accounts":[["ann",0]],"sites":2,"version":1}'
DEPOSIT = '{"deposit":["ann",500],"site":0}'
MADE = '{"kind":"deposit","name":"B0.1"}'
EVENT = '{"deposit":["ann",500]}'


class Banks(unittest.TestCase):

    def test_answers(self):
        with rbbank.Bank(CONFIG) as bank:
            self.assertEqual(bank.answer(DEPOSIT), MADE)
            self.assertEqual(bank.answer(b'{"deliver":1,"site":1}'), '{"held":"B0.1"}')
            self.assertEqual(bank.answer('{"apply":"B0.1","site":1}'), '{"applied":"B0.1"}')
            self.assertEqual(bank.answer('{"balance":"eve","site":1}'), '{"refused":1}')
            for bad in ["", "{", "{}", CONFIG, '{"balance":"ann"}', b"\xff", "\0"]:
                self.assertRaises(rbbank.BadLine, bank.answer, bad)
            self.assertEqual(bank.answer('{"balance":"ann","site":1}'), '{"balance":500}')

    def test_a_long_reply_comes_whole(self):
        with rbbank.Bank(CONFIG) as bank:
            for _ in range(2000):
                bank.answer(DEPOSIT)
            statement = json.loads(bank.answer('{"statement":"ann","site":0}'))
            self.assertEqual((len(statement["rows"]), statement["balance"]), (2000, 1_000_000))
            self.assertEqual(bank.answer('{"balance":"ann","site":0}'), '{"balance":1000000}')

    def test_each_length_of_a_reply(self):
        """Replies around the size of the buffer."""
        with rbbank.Bank(CONFIG) as bank:
            lengths = set()
            for _ in range(150):
                bank.answer('{"deposit":["ann",1],"site":0}')
                text = bank.answer('{"statement":"ann","site":0}')
                lengths.add(len(text))
                json.loads(text)
            self.assertTrue(min(lengths) < 4000 and max(lengths) > 4200)

    def test_closed(self):
        bank = rbbank.Bank(CONFIG)
        other = copy.copy(bank)
        bank.close()
        bank.close()
        self.assertRaises(rbbank.Closed, bank.answer, DEPOSIT)
        self.assertRaises(rbbank.Closed, other.answer, DEPOSIT)

    def test_not_opened(self):
        self.assertRaises(rbbank.BadLine, rbbank.Bank, DEPOSIT)
        self.assertRaises(rbbank.BadLine, rbbank.Site, 0, "")
        self.assertRaises(rbbank.NoSuchSite, rbbank.Site, 2, CONFIG)
        self.assertRaises(rbbank.NoSuchSite, rbbank.Site, 256, CONFIG)
        self.assertRaises(rbbank.NoSuchSite, rbbank.Site, -1, CONFIG)

    def test_threads_wait_for_each_other(self):
        with rbbank.Bank(CONFIG) as bank:
            names = []

            def deposit():
                names.extend(json.loads(bank.answer(DEPOSIT))["name"] for _ in range(500))

            threads = [threading.Thread(target=deposit) for _ in range(4)]
            for thread in threads:
                thread.start()
            for thread in threads:
                thread.join()
            self.assertEqual(sorted(names), sorted(f"B0.{n}" for n in range(1, 2001)))

    def test_a_handle_goes_to_another_thread(self):
        bank, site = rbbank.Bank(CONFIG), rbbank.Site(0, CONFIG)
        site.answer(EVENT)

        def there():
            bank.answer(DEPOSIT)
            site.answer(EVENT)
            rbbank.Site(1, CONFIG).close()

        thread = threading.Thread(target=there)
        thread.start()
        thread.join()
        self.assertEqual(bank.reply(), MADE)
        self.assertEqual(json.loads(site.answer('{"balance":"ann"}'))["reply"], {"balance": 1000})
        closing = threading.Thread(target=bank.close)
        closing.start()
        closing.join()
        self.assertRaises(rbbank.Closed, bank.answer, DEPOSIT)
        self.assertEqual(bank.reply(), "")

    def test_why_a_line_is_not_taken(self):
        with rbbank.Bank(CONFIG) as bank:
            for line, text, column in [
                ('{"deposit":["ann",1.0],"site":0}',
                 "column 19: 1.0 has a point, and an amount in cents is a whole number", 19),
                ("deposit 500", 'column 1: deposit is no value: a text is between " and "', 1),
                ('{"balance":"ann"}', 'column 17: the key "site" of a command is missing', 17),
                (b'{"balance":"\xff","site":0}', "column 13: the byte 0xff isn't UTF-8", 13),
            ]:
                with self.assertRaises(rbbank.BadLine) as bad:
                    bank.answer(line)
                self.assertEqual((str(bad.exception), bad.exception.column), (text, column))
        self.assertRaisesRegex(rbbank.BadLine, "column 33: 17 is out of range: the number of sites is 2 to 16",
                               rbbank.Bank, CONFIG.replace('"sites":2', '"sites":17'))
        with rbbank.Site(0, CONFIG) as site:
            entry = '{"event":{"balance":"ann"},"reply":{"refused":25},"site":0}'
            self.assertRaisesRegex(rbbank.BadLine, "^column 47: 25 is out of range: a refusal is 1 to 24$",
                                   site.replay, entry)
            self.assertRaisesRegex(rbbank.BadLine, "^column 1: a line is an object, and this is a list$",
                                   site.answer, "[]")
            # An entry of another site has nothing wrong with it but that.
            entry = '{"event":{"balance":"ann"},"reply":{"balance":0},"site":1}'
            self.assertRaisesRegex(rbbank.BadLine, "^it is an entry: another site's, ", site.replay, entry)

    def test_the_programs_words(self):
        """The column and the reason of each bad line of examples/ are those that the program says."""
        folder, count = os.path.join(os.path.dirname(os.path.abspath(__file__)), "..", "..", "examples"), 0
        for runs, path in [(rbbank.script, "scripts/*.fault"), (rbbank.audit, "histories/*.fault")]:
            for fault in glob.glob(os.path.join(folder, path)):
                with open(fault, encoding="utf-8") as file:
                    where, *reason = file.read().splitlines()
                with open(fault.removesuffix("fault") + "jsonl", encoding="utf-8") as file:
                    with self.assertRaises(rbbank.LineFault) as bad:
                        runs(file.read())
                self.assertEqual(bad.exception.line, int((re.findall(r"line (\d+)", where) or [0])[0]))
                if reason:
                    self.assertEqual(f"  column {bad.exception.column}: {bad.exception.why}", reason[0])
                    count += 1
        self.assertGreater(count, 4)

    def test_values(self):
        """Dicts in place of lines."""
        configuration = json.loads(CONFIG)
        with rbbank.Bank(configuration) as bank, rbbank.Site(0, configuration) as home, rbbank.Site(1, CONFIG) as other:
            self.assertEqual(bank.answer(json.loads(DEPOSIT)), json.loads(MADE))
            self.assertEqual(bank.reply(), MADE)
            self.assertEqual(bank.answer({"balance": "\xe9", "site": 0}), {"refused": rbbank.Refusal.UNKNOWN_ACCOUNT})
            self.assertRaisesRegex(rbbank.BadLine, "^column 19: 1.0 has a point", bank.answer,
                                   {"deposit": ["ann", 1.0], "site": 0})
            self.assertRaises(TypeError, bank.answer, {"deposit": {1}})
            answer = home.answer(json.loads(EVENT))
            self.assertEqual(other.answer(answer["sends"][0])["then"], [{"applied": "B0.1"}])
            self.assertEqual(home.answer({"resend": 1})["reply"], {"resent": 1})
        self.assertRaises(rbbank.BadLine, rbbank.Bank, {})

    def test_refusals(self):
        self.assertEqual([int(it) for it in rbbank.Refusal], list(range(1, 27)))
        self.assertEqual(rbbank.Refusal(8).words, "the site hasn't the token")
        self.assertRaises(ValueError, rbbank.Refusal, 27)
        with rbbank.Site(1, CONFIG) as site:
            site.answer({"deposit": ["ann", 5], "id": "x"})
            for event, refusal in [({"pass": 1}, rbbank.Refusal.NO_SITE), ({"pass": 0}, rbbank.Refusal.NEED_TOKEN),
                                   ({"deposit": ["ann", 6], "id": "x"}, rbbank.Refusal.OTHER_REQUEST)]:
                answer = site.answer(event)
                self.assertEqual(answer["reply"], {"refused": refusal})
                self.assertIs(rbbank.Refusal.of(answer), refusal)
                self.assertIs(rbbank.Refusal.of(site.reply()), refusal)
            for other in [site.answer('{"resend":1}'), MADE, "", b'{"refused":27}', {"reply": {"balance": 1}}]:
                self.assertIsNone(rbbank.Refusal.of(other))

    def test_version(self):
        self.assertRegex(rbbank.version(), r"^\d+\.\d+\.\d+$")

    def test_no_library(self):
        code = "import rbbank; rbbank.version()"
        found = subprocess.run([sys.executable, "-c", code], env=os.environ | {"RBBANK_LIB": "/nowhere"},
                               capture_output=True, text=True)
        last = found.stderr.splitlines()[-1]
        self.assertRegex(last, r"^OSError: rbbank finds no library: .*/nowhere/librbbank.so.*make bindings")


class Sites(unittest.TestCase):

    def test_a_message_comes(self):
        with rbbank.Site(0, CONFIG) as home, rbbank.Site(1, CONFIG) as other:
            answer = home.answer(EVENT)
            (message,) = home.sends()
            self.assertEqual((message.to, f'"sends":[{message.line}]' in answer), (None, True))
            taken = other.answer(message.line)
            self.assertEqual(taken, '{"reply":{"held":"B0.1"},"sends":[],"then":[{"applied":"B0.1"}]}')
            self.assertEqual(other.entries().count(b"\n"), 2)
            self.assertRaises(rbbank.BadLine, other.answer, DEPOSIT)
            other.answer('{"balance":"ann"}')
            self.assertEqual(other.entries(), b'{"event":{"balance":"ann"},"reply":{"balance":500},"site":1}\n')

    def test_each_message_of_an_answer(self):
        with rbbank.Site(0, CONFIG) as site:
            self.assertEqual(site.sends(), [])
            site.answer('{"batch":[{"deposit":["ann",1]},{"deposit":["ann",2]}]}')
            self.assertEqual([json.loads(line)["shadow"]["name"] for line, _ in site.sends()], ["B0.1", "B0.2"])
            site.answer('{"pass":1}')
            self.assertEqual(site.sends(), [('{"token":[1,1,0]}', 1)])
            site.answer('{"resend":9}')
            self.assertEqual([to for _, to in site.sends()], [None, None, 1])
        self.assertRaises(rbbank.Closed, site.sends)

    def test_a_journal_is_replayed(self):
        with rbbank.Site(0, CONFIG) as site:
            first = site.entries()
            self.assertEqual(json.loads(first)["blue"], 1_000_000)
            sends = json.loads(site.answer(EVENT))["sends"]
            entry = site.entries()
        again = rbbank.Site(0, CONFIG)
        self.assertRaises(rbbank.BadLine, again.replay, entry.replace(b'"site":0', b'"site":1').rstrip())
        self.assertEqual(json.loads(again.replay(entry.rstrip())), {"sends": sends})
        self.assertRaises(rbbank.WrongReply, again.replay, entry.rstrip())
        self.assertRaises(rbbank.Closed, again.replay, entry.rstrip())


class Runs(unittest.TestCase):

    def test_script(self):
        self.assertEqual(rbbank.script(f"{CONFIG}\n{DEPOSIT}\n"), MADE + "\n")
        with self.assertRaises(rbbank.LineFault) as fault:
            rbbank.script(f"{CONFIG}\n\n{DEPOSIT}\n{{}}\n{DEPOSIT}\n")
        self.assertEqual((fault.exception.line, fault.exception.written), (4, MADE + "\n"))
        self.assertEqual(str(fault.exception), f"line 4: column 2: {fault.exception.why}")
        self.assertEqual(fault.exception.column, 2)
        with self.assertRaises(rbbank.LineFault) as fault:
            rbbank.script(f"\n {DEPOSIT}\n{DEPOSIT}\n")
        self.assertRegex(str(fault.exception), "^line 2: column 2: the first line is the configuration, as {")
        self.assertRaisesRegex(rbbank.LineFault, "no configuration", rbbank.script, " \n")

    def test_an_output_longer_than_was_thought(self):
        lines = [CONFIG] + [DEPOSIT] * 100 + ['{"statement":"ann","site":0}'] * 100
        self.assertEqual(rbbank.script("\n".join(lines)).count("\n"), 200)

    def test_audit_and_migrate(self):
        history = CONFIG + '\n{"event":{"balance":"ann"},"reply":{"balance":0},"site":1}\n'
        self.assertEqual(rbbank.audit(history), (True, '{"order":[1]}'))
        wrong = rbbank.audit(history.replace(":0},", ":7},"))
        self.assertEqual(wrong, (False, '{"event":1,"fault":"reply","site":1}'))
        self.assertTrue(rbbank.migrate(history).split("\n")[0].endswith('"version":2}'))


def journals(received):
    """The sealed journals of two sites: one made a deposit, which the other has applied if it received it."""
    with rbbank.Site(0, CONFIG) as home, rbbank.Site(1, CONFIG) as other:
        first, second = home.entries(), other.entries()
        message = json.loads(home.answer(EVENT))["sends"][0]
        first += home.entries()
        if received:
            other.answer(json.dumps(message, separators=(",", ":")))
            second += other.entries()
        return [first + b"\t", second + b"\t"]


class Journals(unittest.TestCase):

    def setUp(self):
        folder = tempfile.TemporaryDirectory()
        self.addCleanup(folder.cleanup)
        self.path = os.path.join(folder.name, "journal")

    def stored(self, name="journal"):
        with open(os.path.join(os.path.dirname(self.path), name), "rb") as file:
            return file.read()

    def store(self, data):
        with open(self.path, "wb") as file:
            file.write(data)

    def test_goes_on(self):
        with rbbank.Journal(self.path, 0, CONFIG, new=True) as site:
            self.assertEqual(site.reply(), "")
            self.assertTrue(site.answer(EVENT).startswith('{"reply":{"kind":"deposit","name":"B0.1"},'))
            self.assertEqual(len(site.sends()), 1)
            self.assertEqual(site.answer(" "), "")
            with self.assertRaises(rbbank.BadLine) as bad:
                site.answer("{}")
            self.assertEqual(bad.exception.column, 2)
            self.assertTrue(site.reply().startswith('{"bad":"line","line":4,"why":"column 2: '))
            self.assertRaisesRegex(rbbank.BadLine, "1,048,576", site.answer, " " * 1_048_577 + "{}")
            self.assertRaises(rbbank.BadLine, site.answer, {"deposit": ["ann", 1.0]})
            self.assertEqual(site.sends(), [])
            self.assertRaisesRegex(BlockingIOError, "the journal is in use: ", rbbank.Journal, self.path, 0, CONFIG)
        self.assertRaises(rbbank.Closed, site.answer, EVENT)
        dropped = rbbank.Journal(self.path, 0, CONFIG)
        del dropped  # its file is given back
        before = self.stored()
        cut = rbbank.Journal(self.path, 0, CONFIG)
        self.store(before[:-9])
        with self.assertRaisesRegex(OSError, "somebody else changed its length") as stale:
            cut.answer(EVENT)
        self.assertEqual(stale.exception.errno, errno.ESTALE)
        self.assertRaises(rbbank.Closed, cut.answer, EVENT)
        self.assertEqual(self.stored(), before[:-9])
        self.store(before)
        rbbank.Journal(self.path, 0, CONFIG).close()
        before = self.stored()
        self.store(before[:-1] + b'{"event":')
        with rbbank.Journal(self.path, 0, CONFIG, resend=1) as site:
            self.assertEqual((self.stored(), self.stored("journal.cut")), (before, b'{"event":'))
            self.assertTrue(site.reply().startswith('{"sends":[{"shadow":'))
            self.assertEqual(site.answer('{"balance":"ann"}'), '{"reply":{"balance":500},"sends":[],"then":[]}')

    def test_a_process_that_is_killed(self):
        code = "import rbbank, os, sys; new = not os.path.exists(sys.argv[1]); " \
               "site = rbbank.Journal(sys.argv[1], 0, sys.argv[2], new=new); " \
               "site.answer(sys.argv[3]); os.kill(os.getpid(), 9)"
        for _ in range(3):
            subprocess.run([sys.executable, "-c", code, self.path, CONFIG, EVENT], check=False)
        with rbbank.Journal(self.path, 0, CONFIG) as site:
            self.assertEqual(site.answer('{"balance":"ann"}'), '{"reply":{"balance":1500},"sends":[],"then":[]}')

    def test_not_opened(self):
        with rbbank.Site(0, CONFIG) as site:
            head = site.entries()
            site.answer(EVENT)
            entry = site.entries()
        for data, reason, line in [(b"{}\n ", "another bank's journal", None), (head + b"{}\n ", "bad line", 2),
                                   (head + entry + entry + b" ", "wrong reply", 3), (head + entry + b"x", "damaged", 3),
                                   (head + entry + b"\t", "sealed", None)]:
            self.store(data)
            with self.assertRaises(rbbank.JournalFault) as fault:
                rbbank.Journal(self.path, 0, CONFIG)
            self.assertEqual((fault.exception.reason, fault.exception.line), (reason, line))
            self.assertEqual(getattr(fault.exception.fault, "column", None), 2 if reason == "bad line" else None)
            self.assertEqual(self.stored(), data)
        self.store(b"")
        self.assertRaises(rbbank.BadLine, rbbank.Journal, self.path, 0, "{}")
        self.assertRaises(rbbank.BadLine, rbbank.Journal, self.path, 0, "{}", new=True)
        self.assertRaises(rbbank.NoSuchSite, rbbank.Journal, self.path, 2, CONFIG)
        self.assertRaises(rbbank.NoSuchSite, rbbank.Journal, self.path, 256, CONFIG)

    def fault(self, **more):
        with self.assertRaises(rbbank.JournalFault) as fault:
            rbbank.Journal(self.path, 0, CONFIG, **more)
        self.assertIsNone(fault.exception.line)
        return fault.exception.reason

    def test_a_new_one_is_asked_for(self):
        self.assertEqual((self.fault(), self.fault(resend=1)), ("no journal", "no journal"))
        self.assertFalse(os.path.exists(self.path))
        self.store(b"")
        for new in (True, False):
            with rbbank.Journal(self.path, 0, CONFIG, new=new):
                before = self.stored()
        self.assertEqual(self.fault(new=True), "there is a journal")
        self.store(b" ")
        self.assertEqual(self.fault(new=True), "there is a journal")
        with rbbank.Journal(self.path, 0, CONFIG):
            self.assertEqual(self.stored(), before)

    def test_a_name_that_is_gone(self):
        with rbbank.Journal(self.path, 0, CONFIG, new=True) as site:
            os.remove(self.path)
            self.assertRaises(OSError, site.answer, EVENT)
            self.assertRaises(rbbank.Closed, site.answer, EVENT)
            self.assertEqual(site.reply(), "")


class Closings(unittest.TestCase):

    def test_closed(self):
        books = rbbank.close(journals(True))
        self.assertTrue(books.closed)
        self.assertEqual(json.loads(books.line)["accounts"], [["ann", 500]])
        with rbbank.Bank(books.line) as bank:
            self.assertEqual(bank.answer('{"balance":"ann","site":1}'), '{"balance":500}')
        larger = json.loads(rbbank.close(iter(journals(True)), 9, accounts=["eve", "zed"]).line)
        self.assertEqual(larger["accounts"], [["ann", 500], ["eve", 0], ["zed", 0]])
        self.assertEqual((larger["sites"], larger["version"]), (9, 2))

    def test_open(self):
        self.assertEqual(rbbank.close(journals(False)), (False, '{"fault":"open","lacks":[[],["B0.1"]]}'))

    def fault(self, *given):
        with self.assertRaises(rbbank.CloseFault) as fault:
            rbbank.close(*given)
        return fault.exception

    def test_journals_that_are_wrong(self):
        first, second = journals(True)
        for wrong, reason, journal, line, text in [
            ([first, second[:-1]], "not sealed", 1, None, "journal 1: not sealed"),
            ([b"{}\n\t", second], "another bank's journal", 0, None, "journal 0: another bank's journal"),
            ([first, first], "another site's entry", 1, 2, "journal 1: line 2: another site's entry"),
            ([first, second[:-1] + b"{}\n\t"], "bad line", 1, 4, "journal 1: line 4: bad line: column 2: "
             'the key "event" of an entry is missing'),
            ([first], "number of journals", None, None, "1 journals for 2 sites"),
            ([], "no journal", None, None, "no journal"),
        ]:
            fault = self.fault(wrong)
            found = (fault.reason, fault.journal, fault.line, fault.account, str(fault))
            self.assertEqual(found, (reason, journal, line, None, text))

    def test_next_banks_that_can_not_be(self):
        for names, reason in [(["zed", "ann"], "there is one already"), (["zed", "zed"], "there is one already"),
                              (["zed", "Ann"], "no name"), (["zed", ""], "no name"), (["zed", "a\nb"], "no name"),
                              (["zed", "\udcff"], "no name")]:
            fault = self.fault(journals(True), None, names)
            found = (fault.reason, fault.account, str(fault))
            self.assertEqual(found, (reason, names[1], f"account {names[1]}: {reason}"))
        self.assertEqual(self.fault(journals(True), None, [f"a{n}" for n in range(1000)]).reason, "too many accounts")
        for sites in [-1, 0, 1, 17, 256, 258]:
            self.assertEqual(self.fault(journals(True), sites).reason, "number of sites")

    def test_no_lists(self):
        self.assertRaises(TypeError, rbbank.close, journals(True), None, "zed")
        self.assertRaises(TypeError, rbbank.close, journals(True)[0])


def load_tests(_loader, tests, _pattern):
    tests.addTests(doctest.DocTestSuite(rbbank))
    return tests


if __name__ == "__main__":
    unittest.main()
