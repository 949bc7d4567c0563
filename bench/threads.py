#!/usr/bin/env python3
"""Measures `rbbank threads`, and beside it the very same events in one thread, as a script. Prints a table, a line for
each number of sites and of tellers. With `--other` it compares runs of a second program in place of that.

README.md says what each number is.
"""
import argparse
import json
import os
import subprocess
import sys
import tempfile
import time

sys.dont_write_bytecode = True
import run

HEAD = ["Sites", "Tellers", "Events", "Threads, events a second", "One thread, events a second", "Ratio"]
BESIDE = ["Sites", "Tellers", "Processor time, ms", "The other's", "Ratio"]
BESIDE += ["From start to end, ms", "The other's", "Ratio"]


def written(value):
    """A JSON value as the program writes it."""
    return json.dumps(value, separators=(",", ":"), sort_keys=True)


def timed(words, given, runs):
    """The least wall time of some runs in seconds, and what the last one wrote."""
    best, text = None, b""
    for _ in range(runs):
        began = time.perf_counter()
        text = subprocess.run(words, input=given, stdout=subprocess.PIPE, check=True).stdout
        taken = time.perf_counter() - began
        best = min(taken, best or taken)
    return best, text


def idle(text, threads, given):
    """The least wall time in seconds in which `cat` writes a text that is in a file, or the program of --idle makes as
    many threads, which do nothing, and then writes as many bytes."""
    if given.idle:
        return timed([given.idle, str(threads), str(len(text))], b"", given.runs)[0]
    with tempfile.NamedTemporaryFile() as file:
        file.write(text)
        file.flush()
        return timed(["cat", file.name], b"", given.runs)[0]


def sent_by(reply):
    """The keys of the messages that an entry sends, in order: names of operations, or a token's epoch."""
    if "kind" in reply:
        return [reply["name"]]
    return reply.get("names") or ([reply["passed"]] if "passed" in reply else [])


def as_script(text, order):
    """Histories as one world's script, in an order that certifies them, and the replies that it has to give."""
    config, *lines = text.decode().splitlines()
    entries = [[] for _ in range(json.loads(config)["sites"])]
    for line in lines:
        entry = json.loads(line)
        entries[entry["site"]].append(entry)
    nexts, numbers = [iter(of_site) for of_site in entries], {}
    commands, replies = [config], []
    for site in order:
        entry = next(nexts[site])
        event = entry["event"]
        if "shadow" in event:
            event = {"deliver": numbers[event["shadow"]["name"]]}
        elif "token" in event:
            event = {"deliver": numbers[event["token"][0]]}
        for key in sent_by(entry["reply"]):
            numbers[key] = len(numbers) + 1
        commands.append(written(event | {"site": site}))
        replies.append(written(entry["reply"]))
    return "\n".join(commands).encode() + b"\n", "\n".join(replies).encode() + b"\n"


def row(program, sites, tellers, given):
    """The numbers of one line. The script of a run has to answer what the run's sites answered."""
    words = [program, "threads", "--sites", str(sites), "--tellers", str(tellers), "--seed", str(given.seed)]
    threads, text = timed(words, b"", given.runs)
    _, verdict = timed([program, "audit"], text, 1)
    script, replies = as_script(text, json.loads(verdict)["order"])
    alone, answered = timed([program, "script"], script, given.runs)
    if answered != replies:
        sys.exit(f"{' '.join(words)}: the script of its events is answered otherwise")
    events = replies.count(b"\n")
    rates = [f"{events / taken:,.0f}" for taken in (threads, alone, idle(text, sites + tellers, given))]
    return [sites, tellers, f"{events:,}", *rates[:2], f"{alone / threads:.2f}", rates[2]]


def spent(words):
    """What a run took: seconds of processor time, user and system, and seconds by the clock."""
    began = time.perf_counter()
    with subprocess.Popen(words, stdout=subprocess.DEVNULL) as started:
        _, status, used = os.wait4(started.pid, 0)
        started.returncode = os.waitstatus_to_exitcode(status)
    if status != 0:
        sys.exit(f"{' '.join(words)}: status {started.returncode}")
    return used.ru_utime + used.ru_stime, time.perf_counter() - began


def beside(programs, sites, tellers, given):
    """The numbers of one line that compares two programs: the least of interleaved runs."""
    options = ["threads", "--sites", str(sites), "--tellers", str(tellers), "--seed", str(given.seed)]
    rounds = [[spent([program, *options]) for program in programs] for _ in range(given.runs)]
    numbers = []
    for measure in (0, 1):
        own, other = (min(taken[at][measure] for taken in rounds) for at in (0, 1))
        numbers += [f"{own * 1000:.1f}", f"{other * 1000:.1f}", f"{own / other:.2f}"]
    return [sites, tellers, *numbers]


def main():
    words = argparse.ArgumentParser(description=__doc__)
    words.add_argument("program", nargs="?", help="a built rbbank; without it, `make build` makes it")
    words.add_argument("--other", help="a second program, to compare the processor time of runs")
    words.add_argument("--idle", help="bench/plain's program idle, in place of cat, for the last column")
    words.add_argument("--sites", default="2,4,8")
    words.add_argument("--tellers", default="1,8,64")
    words.add_argument("--runs", type=int, default=5, help="runs, of which the best counts")
    words.add_argument("--seed", type=int, default=1)
    given = words.parse_args()
    program = os.path.abspath(given.program) if given.program else run.built()
    last = "Idle threads and the text" if given.idle else "The text alone"
    head = BESIDE if given.other else [*HEAD, f"{last}, events a second"]
    print("|", " | ".join(head), "|\n|" + "---|" * len(head))
    for sites in map(int, given.sites.split(",")):
        for tellers in map(int, given.tellers.split(",")):
            if given.other:
                numbers = beside([program, os.path.abspath(given.other)], sites, tellers, given)
            else:
                numbers = row(program, sites, tellers, given)
            print("|", " | ".join(map(str, numbers)), "|", flush=True)


if __name__ == "__main__":
    main()
