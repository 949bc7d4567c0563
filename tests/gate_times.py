#!/usr/bin/env python3
"""Runs the gate's proofs and says how much processor time each crate took.

usage: gate_times.py [--every SECONDS] [COMMAND..]      (COMMAND: `rt ci` if none is given)
       gate_times.py --write-table FILE                 puts what such a run printed into docs/CHANGING.md

While the command runs, the prover's processes are looked at twice a second. The table that is printed at the end has,
for each crate, the minutes of processor time of its proof, of its tests and of its mutants. After it come the commit,
the sums of the prover and of all processes, the prover's in proofs of UNIT, which is nearly the same on another machine
and beside other work, and the longest lane, a crate whose tasks wait for one another. What a process took in its last
half second is missing.
"""
import os
import re
import resource
import subprocess
import sys
import time

PAGE = os.path.join(os.path.dirname(os.path.dirname(os.path.abspath(__file__))), "docs", "CHANGING.md")
# a table as it is printed, and the line behind it
TABLE = re.compile(r"(?m)^\| Crate \| proof \| tests \| mutants \|\n(?:\|.*\n)+\nAt commit (?:.+\n)+")
PROVER = "rattle"
# the crate whose proof is the unit
UNIT = "rb_ledger"
TICKS = os.sysconf("SC_CLK_TCK")
KINDS = ("proof", "tests", "mutants")


def fields_of(pid):
    """The command line, the working folder and the seconds of processor time of a process; none where it has ended."""
    try:
        # (a check's further processes have names of their own)
        if os.path.basename(os.readlink(f"/proc/{pid}/exe")) != PROVER:
            return None
        with open(f"/proc/{pid}/cmdline", encoding="utf-8", errors="replace") as it:
            words = it.read().split("\0")
        with open(f"/proc/{pid}/stat", encoding="utf-8", errors="replace") as it:
            # (behind the name, which ends in a bracket: the fields from the third on)
            stat = it.read().rpartition(")")[2].split()
        return words, os.readlink(f"/proc/{pid}/cwd"), (int(stat[11]) + int(stat[12])) / TICKS
    except (OSError, IndexError):
        return None


def session_of(pid):
    """The session that a process belongs to, so that other checks on the machine don't count."""
    try:
        return os.getsid(pid)
    except OSError:
        return None


def kind_of(words, folder):
    """Whether a check of the prover's is a crate's proof, its tests or a mutant, which is tried on a copy."""
    if "--test" in words:
        return "tests"
    return "mutants" if os.path.basename(folder).startswith("rt-edit") else "proof"


def look(session, seen):
    """Notes the processor time so far of each check of this session."""
    for pid in filter(str.isdigit, os.listdir("/proc")):
        if session_of(int(pid)) != session:
            continue
        found = fields_of(pid)
        if found and "--crate-name" in found[0]:
            words, folder, seconds = found
            seen[pid, folder] = (words[words.index("--crate-name") + 1], kind_of(words, folder), seconds)


def table_of(seen):
    """The rows of the table, the minutes of all, how many proofs of UNIT these are, and the longest lane's minutes with
    its crate."""
    minutes = {}
    for crate, kind, seconds in seen.values():
        minutes.setdefault(crate, dict.fromkeys(KINDS, 0.0))[kind] += seconds / 60
    rows = ["| Crate | proof | tests | mutants |", "|---|---|---|---|"]
    rows += [f"| {crate} | " + " | ".join(f"{of[it]:.1f}" if of[it] else "-" for it in KINDS) + " |"
             for crate, of in sorted(minutes.items())]
    sums = [sum(of[it] for of in minutes.values()) for it in KINDS]
    lane = max(((sum(of.values()), crate) for crate, of in minutes.items()), default=(0.0, "none"))
    unit = minutes.get(UNIT, {}).get("proof")
    units = f"{sum(sums) / unit:.1f}" if unit else "?"
    return [*rows, "| together | " + " | ".join(f"{it:.1f}" for it in sums) + " |"], sum(sums), units, lane


def commit():
    """The commit whose sources are proved, with its day."""
    words = ["git", "log", "-1", "--format=%h of %cs"]
    run = subprocess.run(words, cwd=os.path.dirname(PAGE), capture_output=True, text=True)
    return run.stdout.strip() or "unknown"


def write_table(path):
    """Puts the table that a run printed in place of the one of the page; says why not."""
    with open(path, encoding="utf-8") as file:
        printed = TABLE.search(file.read())
    with open(PAGE, encoding="utf-8") as file:
        page = file.read()
    if not printed or len(TABLE.findall(page)) != 1:
        print(f"gate_times: {PAGE if printed else path} has no such table", file=sys.stderr)
        return 1
    with open(PAGE, "w", encoding="utf-8") as file:
        file.write(TABLE.sub(lambda _: printed.group(0), page))
    return 0


def main(words):
    if words[:1] == ["--write-table"] and len(words) == 2:
        return write_table(words[1])
    if re.fullmatch("-h|--help", words[0] if words else ""):
        print(__doc__.strip())
        return 0
    every = 0.5
    if words[:1] == ["--every"]:
        every, words = float(words[1]), words[2:]
    begun, seen = time.time(), {}
    running = subprocess.Popen(words or ["rt", "ci"], start_new_session=True)
    while running.poll() is None:
        look(running.pid, seen)
        time.sleep(every)
    rows, minutes, units, lane = table_of(seen)
    used = resource.getrusage(resource.RUSAGE_CHILDREN)
    total, wall = (used.ru_utime + used.ru_stime) / 60, (time.time() - begun) / 60
    print("\n".join(rows) + "\n")
    print(f"At commit {commit()} the prover took {minutes:.1f}, all processes {total:.1f} minutes of processor time,\n"
          f"in {wall:.1f} minutes on {len(os.sched_getaffinity(0))} processors. The prover's are {units} times "
          f"those of {UNIT}'s proof.\nThe longest lane is that of {lane[1]}, {lane[0]:.1f}.")
    return running.returncode


if __name__ == "__main__":
    sys.exit(main(sys.argv[1:]))
