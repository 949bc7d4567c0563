#!/usr/bin/env python3
"""Tries the mutants that the gate leaves out for its time: those of tests/mutants/*.edits. The prover must refuse each,
by the function that it changes.

usage: mutants.py [--jobs N] CRATE..   tries the mutants of these crates, and notes the run in their files
       mutants.py [--jobs N] --all     tries those of every crate, an hour or more
       mutants.py --check              proves nothing: whether each mutant still applies, whether the tables of
                                       promises (docs/PROVED.md, crates/*/README.md) name those of must-fail/, and
                                       whether each file was tried since its crate's code or contracts changed

A file tests/mutants/CRATE.edits begins with a line that says when all of it was last tried, and at which commit. Then
it has the crate's mutants, each after its name in brackets, in the form of a must-fail edit: a line 'file: src/..', and
pairs of lines 'old: TEXT' and 'new: TEXT'. A mutant applies where each old text is in its file exactly once.

Mutants of functions that don't call each other are tried in one check, on a copy of the repository, over what earlier
checks kept: the prover says of each function whether it is proved. Where it says that one isn't proved because of
another, its mutant is tried again with others of that kind. A mutant that changes no function is tried alone.
"""
import collections
import datetime
import glob
import os
import re
import shutil
import subprocess
import sys
import tempfile

ROOT = os.path.dirname(os.path.dirname(os.path.abspath(__file__)))
MUTANTS = os.path.join(ROOT, "tests", "mutants")
CRATES = os.path.join(ROOT, "crates")
# how many mutants there are, those of must-fail/ among them, so that none is lost with a change
MUTANTS_IN_ALL = 925
# a file has to be tried again when the last change of its crate's code or contracts is this many commits after its run
MOST_COMMITS = 10
RUN = re.compile(r"Last tried as a whole: (\d{4}-\d\d-\d\d) at ([0-9a-f]{8}), (\d+) refused\n")
NEVER = "Last tried as a whole: never\n"
# what the prover says of a function
SAID = re.compile(r"^fn (\S+): (proved(?:, may wait)?|not proved|no proof.*)$", re.M)
# a line that a commit adds or takes away, and that is neither empty nor a comment nor an import: no two definitions
# share a name (closure.py), so that no import decides what one means
CODE = re.compile(r"[+-](?!--|\+\+|\s*(?://|--|(?:pub )?(?:ghost )?use |$))")
# an error that only says that a proof names what the mutant took away
ONLY_A_NAME = re.compile(r"has no field|is not in scope|has no `|was not admitted")

Edit = collections.namedtuple("Edit", "path old new")
# where a function is: its file, its first and last line (from 0), its name and its text
Function = collections.namedtuple("Function", "path first last name text")


def read(path):
    """The text of a file."""
    with open(path, encoding="utf-8") as file:
        return file.read()


def file_of(crate):
    """The file of the crate's mutants."""
    return os.path.join(MUTANTS, crate + ".edits")


def mutants_of(crate):
    """The crate's mutants by name, each as its edits."""
    parts = re.split(r"^\[(\w+)\]\n", read(file_of(crate)), flags=re.M)
    names = parts[1::2]
    if not (RUN.match(parts[0]) or parts[0].startswith(NEVER)) or len(set(names)) < len(names):
        sys.exit(f"mutants: {crate}.edits: no line about its last run, or a name that is there twice")
    return {name: edits_of(crate, name, text) for name, text in zip(names, parts[2::2])}


def edits_of(crate, name, text):
    """The edits of a mutant, in order."""
    found, path, old = [], None, None
    for line in text.splitlines():
        key, _, said = line.partition(": ")
        if key == "file":
            path = said
        elif key == "old":
            old = said
        elif key == "new" and path and old is not None:
            found.append(Edit(path, old, said))
        elif line:
            sys.exit(f"mutants: {crate} {name}: a line that is neither file, old nor new: {line}")
    return found


def applied(folder, edits):
    """The texts of the files of the crate's folder with the edits, or why they don't apply."""
    texts = {}
    for path, old, new in edits:
        text = texts.get(path) or read(os.path.join(folder, path))
        if text.count(old) != 1:
            return None, f"an old text is in {path} {text.count(old)} times"
        texts[path] = text.replace(old, new)
    return texts, None if texts else "it changes nothing"


def functions_of(path, text):
    """The functions of a source, in the layout that `rt fmt` gives it."""
    lines, found = text.split("\n"), []
    for first, line in enumerate(lines):
        head = re.match(r"( *)(?:pub(?:\([^)]*\))? )?(?:const |unsafe |extern \"C\" )*fn (\w+)", line)
        if head:
            ends = (at for at in range(first, len(lines)) if lines[at] == head[1] + "}")
            last = next(ends, first)
            found.append(Function(path, first, last, head[2], "\n".join(lines[first:last + 1])))
    return found


def changed_by(folder, edits):
    """The functions in whose text the edits are; None where one is outside every function."""
    found, texts = [], {}
    for path, old, new in edits:
        text = texts.get(path) or read(os.path.join(folder, path))
        first = text[: text.index(old) + len(old) - len(old.lstrip())].count("\n")
        around = [it for it in functions_of(path, text) if it.first <= first <= it.last]
        if not around:
            return None
        # (the innermost)
        found.append(around[-1])
        texts[path] = text.replace(old, new)
    return found


def calls(one, other):
    """Whether a function's text names another's call."""
    return re.search(rf"\b{other.name}\b\s*(::<[^>]*>)?\(", one.text) is not None


def batch_of(waiting, where):
    """The mutants to try in one check: each changes functions of its own, none of which calls another's."""
    batch, taken = [], []
    for name in waiting:
        own = where[name]
        if own is None:
            if not batch:
                return [name]
            continue
        met = any(it[:2] == that[:2] or it.name == that.name or calls(it, that) or calls(that, it)
                  for it in own for that in taken)
        if not met:
            batch.append(name)
            taken += own
    return batch


def module_of(crate, path):
    """The module that a source is."""
    inside = path.removeprefix("src/").removesuffix(".rt").replace("/", "::")
    return crate if inside in ("lib", "main") else f"{crate}::{inside}"


def states_of(crate, function, said):
    """What the prover says of the functions of this name in this file, or, where an impl isn't in the file of its type,
    of the only one of this name."""
    named = {name: state for name, state in said.items() if name.rpartition("::")[2] == function.name}
    own = [state for name, state in named.items() if name.startswith(module_of(crate, function.path) + "::")]
    return own or (list(named.values()) if len(named) == 1 else [])


def verdict_of(crate, functions, said, errors):
    """What a check says of a mutant's functions: refused, name (only by a name), missed or unclear."""
    states = [state for it in functions for state in states_of(crate, it, said)]
    failed = [it for it in states if not it.startswith("proved")]
    if not states or failed and all("it calls" in it for it in failed):
        return "unclear"
    if not failed:
        return "missed"
    own = [it for it in errors for that in functions if f"/{that.name}/" in it]
    return "name" if own and all(map(ONLY_A_NAME.search, own)) and "not proved" in failed else "refused"


def check_of(folder, texts, jobs):
    """What `rt check` prints of the crate with these texts, which are put back then."""
    before = {path: read(os.path.join(folder, path)) for path in texts}
    try:
        for path, text in texts.items():
            with open(os.path.join(folder, path), "w", encoding="utf-8") as file:
                file.write(text)
        words = ["rt", "check", "--jobs", str(jobs)]
        return subprocess.run(words, cwd=folder, stdout=subprocess.PIPE, stderr=subprocess.STDOUT, text=True,
                              errors="replace").stdout
    finally:
        for path, text in before.items():
            with open(os.path.join(folder, path), "w", encoding="utf-8") as file:
                file.write(text)


def try_batch(crate, folder, batch, mutants, where, jobs):
    """What a check with all mutants of the batch says of each."""
    texts, why = applied(folder, [it for name in batch for it in mutants[name]])
    if why:
        return halves(crate, folder, batch, mutants, where, jobs, why)
    printed = check_of(folder, texts, jobs)
    said = dict(SAID.findall(printed))
    if not said:
        first = next((it for it in printed.splitlines() if "error" in it), "nothing was said of a function")
        return halves(crate, folder, batch, mutants, where, jobs, first)
    errors = re.findall(r"(?m)^\./proofs/.*: error: .*$", printed)
    if len(batch) > 1:
        return {name: verdict_of(crate, where[name], said, errors) for name in batch}
    found = verdict_of(crate, where[batch[0]] or [], said, errors)
    if found == "unclear":
        found = "refused" if "logic=not-proved" in printed else "missed"
    return {batch[0]: found}


def halves(crate, folder, batch, mutants, where, jobs, why):
    """What is said of a batch that as a whole can't be tried, by its halves."""
    if len(batch) == 1:
        return {batch[0]: f"can't be tried: {why[:200]}"}
    half, found = len(batch) // 2, {}
    for part in (batch[:half], batch[half:]):
        found.update(try_batch(crate, folder, part, mutants, where, jobs))
    return found


def try_crate(crate, folder, jobs):
    """Tries all mutants of a crate, says what each came to, and returns whether all are refused."""
    mutants = mutants_of(crate)
    where = {name: changed_by(folder, edits) or None for name, edits in mutants.items()}
    waiting, unclear, counts = list(mutants), [], collections.Counter()
    while waiting or unclear:
        if not waiting:
            # (among each other, of which the lowest in the calls are clear)
            waiting, unclear = unclear, []
        batch, settled = batch_of(waiting, where), False
        for name, found in try_batch(crate, folder, batch, mutants, where, jobs).items():
            waiting.remove(name)
            if found == "unclear" and len(batch) > 1:
                unclear.append(name)
                continue
            settled = True
            counts[found] += 1
            if found not in ("refused", "name"):
                print(f"{crate} {name}: {'NOT REFUSED' if found == 'missed' else found}", flush=True)
        if not settled:
            where[batch[0]] = None
    refused = counts["refused"] + counts["name"]
    print(f"{crate}: {refused} of {len(mutants)} refused, {counts['name']} of them by a name that a proof cites",
          flush=True)
    return refused if refused == len(mutants) else None


def git(*words):
    """What git prints, or None where it fails."""
    run = subprocess.run(["git", *words], cwd=ROOT, capture_output=True, text=True)
    return run.stdout.strip() if run.returncode == 0 else None


def sources_of(crate):
    """What the verdict on a crate's mutants rests on, as git knows it."""
    return [f"crates/{crate}/{part}" for part in ("src", "specs", "proofs")]


def note(crate, refused):
    """Writes into the crate's file that all of it was tried at this commit; not where its sources aren't committed."""
    if git("status", "--porcelain", "--", *sources_of(crate)) != "":
        print(f"{crate}: its sources aren't committed, so the run isn't noted")
        return
    day, commit = datetime.date.today().isoformat(), git("rev-parse", "--short=8", "HEAD")
    text = read(file_of(crate))
    with open(file_of(crate), "w", encoding="utf-8") as file:
        file.write(f"Last tried as a whole: {day} at {commit}, {refused} refused\n" + text.partition("\n")[2])


def changed(crate, since):
    """The last commit since another that changed the crate's code or contracts, comments and imports apart; or that
    other. Proofs don't count: none lets a body through that its contract refuses."""
    sources = sources_of(crate)[:2]
    for commit in git("log", "--format=%H", f"{since}..", "--", *sources).split():
        shown = git("show", "--format=", "--unified=0", commit, "--", *sources)
        if any(map(CODE.match, shown.splitlines())):
            return commit
    return since


def age_of(crate):
    """Why the crate's file has to be tried, or None."""
    run = RUN.match(read(file_of(crate)))
    if not run:
        return "never tried as a whole"
    if git("rev-parse", "--is-shallow-repository") != "false":
        # (no history to compare with)
        return None
    if git("rev-parse", "--verify", run[2]) is None:
        return f"its commit {run[2]} isn't in the history"
    count = git("rev-list", "--count", f"{run[2]}..{changed(crate, run[2])}")
    if int(count) >= MOST_COMMITS:
        return f"its crate changed {count} commits after {run[2]}, where it was last tried"
    return None


def check(crates):
    """Says what doesn't apply, isn't named or is too old; whether nothing is."""
    count, faults = len(glob.glob(os.path.join(CRATES, "*", "must-fail", "*.edit"))), []
    for crate in crates:
        for name, edits in mutants_of(crate).items():
            twice = os.path.exists(os.path.join(CRATES, crate, "must-fail", name + ".edit"))
            why = "must-fail/ has one of that name" if twice else applied(os.path.join(CRATES, crate), edits)[1]
            faults += [f"{crate} {name}: {why}"] if why else []
            count += 1
        faults += [f"{crate}: {why}: make mutants CRATE={crate}" for why in [age_of(crate)] if why]
    if count != MUTANTS_IN_ALL:
        faults.append(f"there are {count} mutants, and not {MUTANTS_IN_ALL}")
    faults += named(crates)
    for it in faults:
        print(f"mutants: {it}")
    return not faults


def named(crates):
    """What is wrong with the mutants that the tables of promises name, in their last cells."""
    pages = [os.path.join(ROOT, "docs", "PROVED.md"), *glob.glob(os.path.join(CRATES, "*", "README.md"))]
    rows = re.findall(r"^\|.*\| \d+ \|([^|]*)\|$", "\n".join(map(read, pages)), flags=re.M)
    said = collections.Counter(name for cell in rows for name in re.findall(r"`(\w+)`", cell))
    edits = glob.glob(os.path.join(CRATES, "*", "must-fail", "*.edit"))
    gate = {os.path.basename(it)[: -len(".edit")] for it in edits}
    there = gate.union(*map(mutants_of, crates))
    faults = [f"no table of promises names {it}, of must-fail/" for it in sorted(gate - set(said))]
    faults += [f"a table of promises names {it}, and there is no such mutant" for it in sorted(set(said) - there)]
    return faults + [f"tables of promises name {it} twice" for it, times in sorted(said.items()) if times > 1]


def try_all(crates, jobs):
    """Tries the mutants of the crates on a copy; whether all are refused."""
    well = True
    with tempfile.TemporaryDirectory() as top:
        shutil.copytree(CRATES, os.path.join(top, "crates"), ignore=shutil.ignore_patterns("out"))
        for name in ("crates.txt", "HANDLES"):
            shutil.copyfile(os.path.join(ROOT, name), os.path.join(top, name))
        for crate in crates:
            refused = try_crate(crate, os.path.join(top, "crates", crate), jobs)
            if refused is not None:
                note(crate, refused)
            well = well and refused is not None
            # what a crate's checks keep is large
            shutil.rmtree(os.path.join(top, "crates", crate, "out", "incremental"), ignore_errors=True)
    return well


def main(words):
    every = sorted(os.path.basename(it)[: -len(".edits")] for it in glob.glob(os.path.join(MUTANTS, "*.edits")))
    if words == ["--check"]:
        return 0 if check(every) else 1
    jobs = 1
    if words[:1] == ["--jobs"] and len(words) > 1 and words[1].isdigit():
        jobs, words = int(words[1]), words[2:]
    crates = every if words == ["--all"] else words
    if not crates or not set(crates) <= set(every):
        sys.exit(__doc__)
    return 0 if try_all(crates, jobs) else 1


if __name__ == "__main__":
    sys.exit(main(sys.argv[1:]))
