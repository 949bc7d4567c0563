"""Runs a command of a program on an input in a file: its processor time, peak memory, replies and instructions."""
import ctypes
import os
import re
import subprocess
import time

# Copies and clearings of any size by vector instructions: of a `rep movsb` callgrind would count each byte.
NO_REP = "glibc.cpu.x86_rep_movsb_threshold=1000000000000:glibc.cpu.x86_rep_stosb_threshold=1000000000000"
SUBREAPER = 36
# A run that takes more seconds of processor time is ended.
LIMIT = 20


def written(folder, lines):
    """A file of these lines, which are bytes or ASCII."""
    path = os.path.join(folder, "lines")
    with open(path, "wb") as file:
        file.writelines(line if isinstance(line, bytes) else line.encode() for line in lines)
    return path


def seconds(command, path):
    """Seconds that a command takes on a file."""
    with open(path, "rb") as given:
        begun = time.perf_counter()
        subprocess.run(command, stdin=given, stdout=subprocess.DEVNULL, check=True)
        return time.perf_counter() - begun


def adopt():
    """Has the system hand orphans below this process to it, so that it can wait for what a shell started and left."""
    if ctypes.CDLL(None, use_errno=True).prctl(SUBREAPER, 1, 0, 0, 0) != 0:
        raise OSError(ctypes.get_errno(), "can't wait for programs that a shell started")


def counts(program, word, path, *more):
    """What the system counted of a run, or None over the limit.

    It counts the memory of the process that starts a program to the program's peak. So a small shell starts it, and is
    gone when the program begins.
    """
    line = f'ulimit -t {LIMIT}; exec 3<&0; {{ read go <&3; exec "$@" < "$0" > /dev/null 3<&-; }} & echo $!'
    words = ["sh", "-c", line, path, program, word, *more]
    with subprocess.Popen(words, stdin=subprocess.PIPE, stdout=subprocess.PIPE) as shell:
        number = int(shell.stdout.readline())
        shell.wait()
    _, status, used = os.wait4(number, 0)
    if os.WIFSIGNALED(status) and used.ru_utime + used.ru_stime >= LIMIT - 1:
        return None
    if status != 0:
        raise SystemExit(f"{program} {word}: status {os.waitstatus_to_exitcode(status)}")
    return used


def usage(program, word, path, *more):
    """What a run used: seconds of processor time, user and system, and the peak of its memory in bytes. None over the
    limit."""
    used = counts(program, word, path, *more)
    return used and (used.ru_utime + used.ru_stime, used.ru_maxrss * 1024)


def refused(program, word, path):
    """How many lines of the answer are refusals, or an audit's fault."""
    with open(path, "rb") as script, subprocess.Popen([program, word], stdin=script, stdout=subprocess.PIPE) as run:
        return sum(b'"refused"' in line or b'"fault"' in line for line in run.stdout)


def instructions(program, word, path, *more):
    """How many instructions a run takes, by callgrind, or None where it can't tell."""
    words = ["valgrind", "--tool=callgrind", "--callgrind-out-file=/dev/null", program, word, *more]
    with open(path, "rb") as script:
        done = subprocess.run(words, stdin=script, capture_output=True, env=os.environ | {"GLIBC_TUNABLES": NO_REP})
    told = re.search(rb"Collected : (\d+)", done.stderr)
    return int(told.group(1)) if told and done.returncode == 0 else None


def writes(program, word, path):
    """How many write calls a run makes, by strace, or None where it can't tell."""
    return calls(program, word, path, "write", "writev")


def calls(program, word, path, *names):
    """How many calls of these names a run makes, by strace, or None where it can't tell."""
    words = ["strace", "-f", "-c", "-e", f"trace={','.join(names)}", program, word]
    with open(path, "rb") as script:
        done = subprocess.run(words, stdin=script, stdout=subprocess.DEVNULL, stderr=subprocess.PIPE)
    rows = [line.split() for line in done.stderr.decode().splitlines()]
    return sum(int(row[3]) for row in rows if row and row[-1] in names) if done.returncode == 0 else None
