#!/usr/bin/env python3
"""Tries mutants of the service: each change below, on a copy, has to be caught by the check of check.py beside it.

usage: mutants.py PROGRAM [NAME]..

The checks pass without a change first. Where packages are missing it says so, and ends in status 77.
"""
from __future__ import annotations

import os
import shutil
import subprocess
import sys
import tempfile
from typing import NamedTuple

sys.dont_write_bytecode = True
import cluster

PATIENCE = 1500  # seconds, after which a check has caught what it doesn't end by
(LINES, KILLS, UNHEARD, RESTARTS, FAULTS, TOKEN, CLOSES, ASKS, FRONTS, DESCRIBED, APART, WAITS, TOKENS, KEEPS, QUEUES,
 PERIODS) = ("lines", "kills", "unheard", "restarts", "faults", "token", "closes", "asks", "fronts", "described",
             "apart", "waits", "tokens", "keeps", "queues", "periods")


class Mutant(NamedTuple):
    file: str
    old: str
    new: str
    check: str


MUTANTS = {
    "sent_again_from_the_last": Mutant("site_child.py", '{"resend": entries - known}', '{"resend": 0}', RESTARTS),
    "handed_on_before_it_came": Mutant("site_child.py", '{"resend": entries - known}',
                                       '{"resend": 0 if self.starts else entries - known}', UNHEARD),
    "unanswered_are_forgotten": Mutant("site_child.py", "self.give(*(line for _, line, _ in self.asked))",
                                       "self.asked.clear()", KILLS),
    "no_id_of_its_own": Mutant("site_child.py", 'if "id" not in event and', "if False and", UNHEARD),
    "older_copy_is_served": Mutant("site_child.py", "        if entries < known:",
                                   "        known = min(known, entries)\n        if False:", FAULTS),
    "questions_are_entries": Mutant("site_child.py", '"balance", "already"', '"already"', LINES),
    "messages_count_once_more": Mutant("site_child.py", ' + len(answer["then"])', "", LINES),
    "missing_journal_is_made": Mutant("site_child.py", '"--resend", "0"]', '"--resend", "0", "--new"]', FAULTS),
    "behind_isnt_counted_anew": Mutant("site_child.py", "        return {other: (clock", """\
        self.last: dict[int, int] = getattr(self, "last", None) or self.now()
        return self.last

    def now(self) -> dict[int, int]:
        return {other: (clock""", TOKEN),
    "token_stays": Mutant("site_child.py", "if wanting and not self.closing", "if False", TOKEN),
    "token_goes_to_the_first": Mutant("site_child.py", "(other - me) % sites", "-other", TOKEN),
    "token_goes_at_once": Mutant("site_child.py", "now >= self.view.since + HOLD", "True", TOKEN),
    "batches_dont_wait": Mutant("site_child.py", '"cause" if reply.get("refused") == 13 else "refused"', '"refused"',
                                TOKEN),
    "sealed_before_it_stops": Mutant("site_child.py", 'if step == "seal" and self.closing:', 'if step == "seal":',
                                     CLOSES),
    "closed_by_other_words": Mutant("site_child.py", 'if not os.path.exists(self.path("bank")):', "if True:", CLOSES),
    "ending_is_taken_for_sealed": Mutant("site_child.py", 'if step != "open" and site.is_sealed:',
                                         'if step != "open" and (site.is_sealed or site.stopping):', CLOSES),
    "stop_isnt_kept": Mutant("site_child.py", 'period.keep("closing", self.closing)', "pass", CLOSES),
    "sealed_without_a_closing": Mutant("site_child.py", 'self.is_sealed and self.period.kept("closing")',
                                       "self.is_sealed", CLOSES),
    "key_is_dropped": Mutant("service.py", 'event.setdefault("id", key)', 'event.get("id", key)', ASKS),
    "anyone_may": Mutant("service.py", "if not wanted <= may:", "if False:", TOKENS),
    "a_beginning_is_enough": Mutant("service.py", "hmac.compare_digest(row[\"token\"].encode(), token)",
                                    "row['token'].encode().startswith(token)", TOKENS),
    "another_page_may": Mutant("service.py", 'if request.headers.get("Origin") not in (None, *self.urls):', "if False:",
                               ASKS),
    "another_name_may": Mutant("service.py", 'if host != self.bank["http"][self.me]:', "if False:", ASKS),
    "a_page_is_plain": Mutant("front.py", 'b"origin", ', "", ASKS),
    "a_form_is_plain": Mutant("service.py", 'if heads.get(b"content-type", b"").lower() == b"application/json":',
                              "if True:", ASKS),
    "two_lengths_are_plain": Mutant("front.py", "if len(heads) == len(pairs) and ODD", "if ODD", FRONTS),
    "chunks_are_plain": Mutant("front.py", ' b"transfer-encoding",', "", FRONTS),
    "what_comes_next_is_lost": Mutant("front.py", "self.came, self.is_busy = self.came[end:], True",
                                      'self.came, self.is_busy = b"", True', FRONTS),
    "a_part_is_all": Mutant("front.py", "if len(self.came) < end < MOST:", "if False:", FRONTS),
    "a_second_at_once": Mutant("front.py", "        if not self.is_busy:\n", "        if True:\n", FRONTS),
    "an_answer_isnt_described": Mutant("openapi.yaml", '"422": {description', '"423": {description', DESCRIBED),
    "a_verb_isnt_described": Mutant("openapi.yaml", "        pass: {type: integer}\n", "", DESCRIBED),
    "listens_to_all": Mutant("service.py", "if not self.clients and self.host not in", "if False and self.host in",
                             TOKENS),
    "clients_arent_stopped": Mutant("service.py", "if self.ends.is_set() or self.desk.closing:",
                                    "if self.ends.is_set():", ASKS),
    "nobody_is_sent_away": Mutant("service.py", "self.desk.waiters > MOST_WAITING or self.wires.unconfirmed() > MOST",
                                  "self.desk.waiters < 0 or 0 > MOST", WAITS),
    "when_to_ask_again_is_hidden": Mutant("service.py", '"Access-Control-Expose-Headers"', '"X"', ASKS),
    "a_client_sends_messages": Mutant("service.py", "or not verbs <= MAY.keys()", "", ASKS),
    "not_one_at_a_time": Mutant("wires.py", '"x-single-active-consumer": True', '"x-max-length": 10**9', QUEUES),
    "acknowledged_before_answered": Mutant("wires.py", '''await self.take(delivery.body)
                    await delivery.ack()
''', '''await delivery.ack()
                    await asyncio.sleep(0.005)
                    await self.take(delivery.body)
''', QUEUES),
    "silence_is_borne": Mutant("wires.py", "await asyncio.wait_for(came.get(), SILENCE)", "await came.get()", QUEUES),
    "confirmed_before_the_broker": Mutant(
        "wires.py", "min([self.site.entries, *(lines[0][0] for lines in self.out.values() if lines)])",
        "self.site.entries", QUEUES),
    "forgotten_before_confirmed": Mutant("wires.py", "                await channel.default_exchange.publish(", """\
                del lines[:len(part)]
                part = []
                await channel.default_exchange.publish(""", KEEPS),
    "confirms_arent_waited_for": Mutant("wires.py", "connection.channel(on_return_raises=True)",
                                        "connection.channel(publisher_confirms=False)", QUEUES),
    "a_cut_ends_the_service": Mutant("wires.py", "AMQPError, PAMQPException,", "AMQPError,", KEEPS),
    "a_handshake_ends_the_service": Mutant("wires.py", "          StopAsyncIteration)", "          OSError)", KEEPS),
    "full_inbox_is_done": Mutant("wires.py", "FULL = (16, 23)", "FULL = (23,)", KEEPS),
    "keys_of_the_closed_are_unknown": Mutant("service.py", "if line is None or event.get", "if True or event.get",
                                             PERIODS),
    "sealed_while_apart": Mutant("close.py", "            self.rest()\n", '            self.all("stop")\n', APART),
}


def end_of(folder: str, check: str, program: str) -> tuple[int, str]:
    """How a check ends, in this folder, and the first that it says."""
    try:
        run = subprocess.run([sys.executable, os.path.join(folder, "service", "check.py"), program, check], text=True,
                             capture_output=True, timeout=PATIENCE, env=os.environ | {"PATIENCE": "60"})
    except subprocess.TimeoutExpired:
        return 1, f"no end in {PATIENCE} s"
    return run.returncode, run.stdout.partition("\n")[0] or run.stderr.strip().rpartition("\n")[2]


def tried(mutant: Mutant | None, check: str, program: str) -> tuple[int | None, str]:
    """How a check ends on a copy with this change, and what it says; None if the change can't be made."""
    with tempfile.TemporaryDirectory(prefix="mutant-") as folder:
        for part in ("service", "docs", "examples"):
            shutil.copytree(os.path.join(cluster.HERE, "..", part), os.path.join(folder, part))
        if mutant:
            path = os.path.join(folder, "service", mutant.file)
            with open(path) as file:
                text = file.read()
            if text.count(mutant.old) != 1:
                return None, ""
            with open(path, "w") as file:
                file.write(text.replace(mutant.old, mutant.new))
        return end_of(folder, check, program)


def main() -> int:
    if len(sys.argv) < 2 or not os.access(sys.argv[1], os.X_OK):
        print(__doc__)
        return 2
    cluster.check_packages()
    program, names = os.path.abspath(sys.argv[1]), sys.argv[2:] or list(MUTANTS)
    found, passed = {}, {}
    for name in names:
        mutant = MUTANTS[name]
        if mutant.check not in passed:
            passed[mutant.check] = tried(None, mutant.check, program)
        end, why = passed[mutant.check]
        end, why = tried(mutant, mutant.check, program) if end == 0 else (-1, why)
        found[name] = {1: "caught", 0: "NOT CAUGHT", None: "CAN'T BE MADE"}.get(end, "NOT TRIED")
        print(f"{found[name]:13} {name}, by {mutant.check}: {why}", flush=True)
    return 0 if set(found.values()) == {"caught"} else 1


if __name__ == "__main__":
    sys.exit(main())
