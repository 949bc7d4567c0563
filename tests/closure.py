#!/usr/bin/env python3
"""Prints what a statement rests on: the definitions that it names, those that these name, and so on, until only the
toolchain's own are left. A statement is a function with a contract, as World::run, or a definition.

usage: closure.py                  the headline's: the clauses of the first table of docs/PROVED.md
       closure.py STATEMENT..      that of others, by all clauses: Ledger::apply, rb_site::Site::open, run_script, Funds
       closure.py --all            every definition with the comment above it, in four parts: those of the headline, of
                                   the program's text, of other public contracts, and of inner contracts
       closure.py --write          writes docs/MODEL.md: the definitions of the headline, each with the comment above it
                                   and behind those that it names, between the first and the last section, which are
                                   written by hand
       closure.py --check          whether docs/MODEL.md is what --write makes and names only definitions that exist,
                                   whether the functions and clauses of the tables of promises are there, each clause
                                   in one table, and rest on as many definitions as these say, README.md's numbers too,
                                   whether each crate's list of conditions has just its public functions that have one,
                                   whether other crates cite each file of proofs/Public and none else of proofs/,
                                   whether no two definitions share a name, and whether the check of an order names
                                   nothing of the search for one; this is silent if all is well

The tables of promises are that of docs/PROVED.md and, in each crate's README.md, the one whose first column is "What is
proved": its functions are the crate's own. A row rests on the clauses that it names, or on all of a function of which
it names none, with the functions' signatures and `requires`. An item that begins with 'Conditions:' lists the functions
that have one.

Words are resolved by the 'use' lines of their file. A type of the code is resolved to the types of its fields, and one
that clients see as a value of a model to that value.
"""
import collections
import glob
import itertools
import os
import re
import sys
import textwrap

ROOT = os.path.dirname(os.path.dirname(os.path.abspath(__file__)))
PARTS = ["The headline", "The program's text", "Other public contracts", "Inner contracts"]
PROGRAM = ["run_script", "run_histories", "run_audit", "run_migrate", "run_threads", "run_site", "read_words"]
WORD = re.compile(r"[^\W\d]\w*")

# a type of the code with its fields, and a trait with its functions
TYPE = re.compile(r"(?ms)^(?:pub(?:\([^)]*\))? )?(struct|enum|trait|type) (\w+)(?:[^\n]*;$|.*?^})")

# the head or the end of an impl or a trait, or a function with its signature and contract
IMPL = r"^(?:impl(?:<[^\n]*?>)? (?:[\w:<>]+ for )?|(?:pub )?trait )(\w+)|^(}) *$"
HEAD = r'^( *)(pub(?:\([^)]*\))? )?(?:extern "C" )?fn (\w+)'
FUNCTION = re.compile(r"(?ms)" + IMPL + "|" + HEAD + r"(.*?)(?=^\3\{|^\3    \{\}|\{\n|;\n)")

# a function and its clauses in a table of promises: of another crate than the table's, or of its own
CALL = re.compile(r"`(\w+(?:::\w+)+)`(?:: ((?:(?:, )?`\w+`)+))?")
OWN_CALL = re.compile(r"`(\w+(?:::\w+)*)`(?:: ((?:(?:, )?`\w+`)+))?")

# a definition of specs/ with the comment above it, a type of the code, or a function with a contract; `scope` says what
# its words mean
Thing = collections.namedtuple("Thing", "kind crate file name text scope public comment", defaults=[""])


def read(*path):
    with open(os.path.join(ROOT, *path), encoding="utf-8") as text:
        return text.read()


def without(text, comment):
    """A text without comments, strings, and names after a dot that follows a word."""
    text = re.sub(r'"[^"\n]*"', " ", text)
    text = re.sub(r"(?m)(^|\s)" + comment + r".*$", " ", text)
    return re.sub(r"(?<=[\w)])\.[^\W\d]\w*", " ", text)


def imports(text):
    """What each word of the 'use' lines of proofs means: its module and its name there."""
    scope = {}
    for module, items in re.findall(r"(?m)^\s*(?:pub |ghost )?use ([\w.]+)\.\{(.*?)\}", text):
        for item in items.split(","):
            name, _, alias = item.strip().partition(" as ")
            scope[alias.strip() or name] = (module, name)
    return scope


def files(crate, folder, kind):
    top = os.path.join(ROOT, "crates", crate)
    return [os.path.relpath(path, top) for path in sorted(glob.glob(f"{top}/{folder}/**/*.{kind}", recursive=True))]


def blocks(text, start):
    """The parts of a text that begin where a pattern is found."""
    found = list(re.finditer(start, text, re.MULTILINE))
    ends = [at.start() for at in found[1:]] + [len(text)]
    return [(at, text[at.start():end]) for at, end in zip(found, ends)]


def comment_above(text, start):
    """The comment that ends just above a place of a text."""
    lines = []
    for line in reversed(text[:start].rstrip(" ").splitlines()):
        if not line.strip().startswith("-- ") or line.strip().startswith("-- ----"):
            break
        lines.insert(0, line.strip()[3:])
    return " ".join(lines)


def definitions(crate):
    """The definitions of a crate's specs/."""
    for file in files(crate, "specs", "antt"):
        text = read("crates", crate, file)
        scope = imports(text)
        parts = blocks(text, r"^(?:module|(?:  )?abbrev pub|unfoldable pub|pub record|pub data) +([^\W\d]\w*)")
        parts = [(at.group(1), part) for at, part in parts if not at.group(0).startswith("module")]
        scope.update({name: (f"{crate}/{file}", name) for name, _ in parts})
        for name, part in parts:
            comment = comment_above(text, text.find(part))
            yield Thing("definition", crate, file, name, without(part, "--"), scope, True, comment)


def value_of(text, name):
    """The value of the model as which clients see a type, if they do, and the 'use' lines beside it."""
    found = re.search(r"(?ms)^impl[^\n]*\bModel for " + name + r"\b.*?^}", text)
    value = found and re.search(r"ghost Value = \{(.*?)\};", found.group(0), re.DOTALL)
    return (value.group(1), found.group(0)) if value else None


def types(crate):
    """The structs, enums and traits of a crate."""
    for file in files(crate, "src", "rt"):
        text = read("crates", crate, file)
        for found in TYPE.finditer(text):
            value = value_of(text, found.group(2))
            part, beside = value if value else (found.group(0), "")
            if found.group(1) == "trait":
                own = re.findall(r"\b(?:ghost|type) ([A-Z]\w*)\s*[:;]", part)
                part = " ".join(clause for clause in re.findall(r"(?:requires|ensures|ghost)\b[^{]*\{(.*)\}", part))
                # (a type that each implementation gives is none of the repository's, of whatever name)
                part = " ".join(word for word in WORD.findall(part) if word not in own)
            part = re.sub(r"(?m)^\s*(?:pub )?(?:ghost )?\w+:", " ", part)
            yield Thing("type", crate, file, found.group(2), without(part, "//"), imports(text) | imports(beside), True)


def open_files(texts):
    """The files of a crate that other crates name: its root, and the modules that are public in one of these."""
    for file in ("src/lib.rt", "src/main.rt"):
        waiting = [file] if file in texts else []
        for at in waiting:
            folder = at.removesuffix("mod.rt") if at.endswith("/mod.rt") else "src/"
            for name in re.findall(r"(?m)^pub mod (\w+);", texts[at]):
                waiting += [it for it in (f"{folder}{name}.rt", f"{folder}{name}/mod.rt") if it in texts]
        yield from waiting


def exported(crate):
    """The names that a crate's root and its public modules hand to other crates, or any of its files to C."""
    texts = {file: read("crates", crate, file) for file in files(crate, "src", "rt")}
    roots = [texts[file] for file in open_files(texts)]
    found = re.findall(r"(?ms)^pub use (.*?);|^pub (?:type|struct|enum|trait|fn) (\w+)", "".join(roots))
    to_c = re.findall(r'(?m)^pub extern "C" fn (\w+)', "".join(texts.values()))
    return set(WORD.findall(" ".join(part for parts in found for part in parts))).union(to_c)


def functions(crate):
    """The functions of a crate with their signatures and contracts. Those are public that other crates may call."""
    handed = exported(crate)
    for file in files(crate, "src", "rt"):
        # (a comment between clauses may end in what ends a signature)
        text, owner, of_trait = re.sub(r"(?m)^ *//.*$", "", read("crates", crate, file)), None, False
        for found in FUNCTION.finditer(text):
            if found.group(1) or found.group(2):
                owner, of_trait = found.group(1), "trait " in found.group(0)
            else:
                name = (f"{owner}::" if owner and found.group(3) else "") + found.group(5)
                public = (of_trait or found.group(4) == "pub ") and name.split("::")[0] in handed
                signature = name.split("::")[0] + found.group(6)
                yield Thing("function", crate, file, name, signature, imports(text), public)


class Things:
    def __init__(self):
        # (of the crates of tests no contract names anything)
        crates = {os.path.basename(os.path.dirname(path)) for path in glob.glob(f"{ROOT}/crates/*/src")}
        self.crates = sorted(crates - {"rb_tests", "rb_tests_runs"})
        self.definitions, self.types, self.functions = {}, collections.defaultdict(list), collections.defaultdict(list)
        for crate in self.crates:
            for it in definitions(crate):
                self.definitions[it.crate, it.file, it.name] = it
            for it in types(crate):
                self.types[it.name].append(it)
            for it in functions(crate):
                self.functions[it.name].append(it)

    def type_named(self, crate, name):
        """The type of a name: the crate's own, or else the first."""
        named = self.types.get(name, [])
        return next((it for it in named if it.crate == crate), named[0] if named else None)

    def imported(self, module, name):
        """What a name of a module is, if it is one of the repository's."""
        if "/" in module:
            crate, _, file = module.partition("/")
            return self.definitions.get((crate, file, name))
        path = module.split(".")
        if len(path) < 3 or path[1] not in self.crates:
            return None
        if "declared" not in path:
            return self.definitions.get((path[1], "/".join(path[2:]) + ".antt", name))
        names = [part for part in path if not part.startswith("The")]
        return self.type_named(path[1], names[-1])

    def named_by(self, it):
        """The definitions and types that one names."""
        alone = set(WORD.findall(re.sub(r"\.\w+", "", it.text)))
        for word in dict.fromkeys(WORD.findall(it.text)):
            if word in it.scope:
                thing = self.imported(*it.scope[word])
            else:
                is_type = it.kind != "definition" and word in alone
                thing = self.type_named(it.crate, word) if is_type else None
            if thing and thing is not it:
                yield thing

    def closure(self, statements):
        """All that statements rest on, themselves left out where they are functions."""
        found, waiting = {}, list(statements)
        while waiting:
            it = waiting.pop()
            if id(it) not in found:
                found[id(it)] = it
                waiting.extend(self.named_by(it))
        return [it for it in found.values() if it.kind != "function"]

    def statements(self, name, clauses=()):
        """The functions, types or definitions of a name, with its crate before it or without: functions with those
        clauses alone, or with all if none is given."""
        crate, _, rest = name.partition("::")
        within = crate if crate in self.crates else None
        rest = rest if within else name
        found = self.functions.get(rest, []) + self.types.get(rest, [])
        found += [it for it in self.definitions.values() if it.name == rest]
        return [it._replace(text=with_clauses(it.text, clauses)) if clauses else it for it in found
                if within in (None, it.crate)]


def with_clauses(text, clauses):
    """A signature and contract with those named `ensures` alone. One without a name is there alone, and stays."""
    parts = re.split(r"\b(?=(?:ensures|requires) )", text)
    return "".join(part for part in parts if re.match(r"ensures (\w*)|", part).group(1) in (None, "", *clauses))


def headline_table():
    """The headline's table in docs/PROVED.md."""
    found = re.search(r"(?ms)^\| The sentence.*?\n\n", read("docs/PROVED.md"))
    if not found:
        sys.exit("closure.py: docs/PROVED.md has no table that begins with '| The sentence'")
    return found.group(0)


def calls(text, form=CALL):
    """The functions that a text names, with the clauses that it names of each."""
    return [(name, re.findall(r"\w+", clauses)) for name, clauses in form.findall(text)]


def resting(things, called):
    """The definitions on which clauses rest."""
    found = things.closure([it for name, clauses in called for it in things.statements(name, clauses)])
    return [it for it in found if it.kind == "definition"]


def table_rows(text):
    """The rows of a page's tables."""
    return re.findall(r"(?m)^\| .*\|$", text)


def pages(things):
    """The pages with tables of promises: each with its crate, if it is of one, and its text from there on."""
    yield "docs/PROVED.md", None, read("docs/PROVED.md")
    for crate in things.crates:
        page = f"crates/{crate}/README.md"
        yield page, crate, "".join(read(page).partition("| What is proved |")[1:])


def promises(things):
    """The rows of promises: each with its page, what it names with the clauses, and the number that it says, if any."""
    for page, crate, text in pages(things):
        for row in table_rows(text):
            own = calls(row.split("|")[1], OWN_CALL)
            called = [(f"{crate}::{name}", clauses) for name, clauses in own] if crate else calls(row)
            number = re.search(r"\| (\d+) \|(?:[^|]*\|)?$", row)
            if called:
                yield page, row, called, number and int(number.group(1))


def counted(things):
    """The rows of promises, and the numbers of README.md, that say another number than there are definitions, name
    what isn't there, or name a clause that another row names; the pages that have no such rows."""
    yield from (f"{page}: there is no table of promises" for page, _, text in pages(things) if not table_rows(text))
    seen, of_headline = collections.Counter(), table_rows(headline_table())
    for page, row, called, number in promises(things):
        names = [name for name, _ in called]
        yield from (f"{page}: there is no {name}" for name in names if not things.statements(name))
        if number != len(resting(things, called)):
            yield f"{page}: {', '.join(names)} rests on {len(resting(things, called))}, and not on {number}"
        for name, clauses in called:
            text = "".join(it.text for it in things.statements(name))
            yield from (f"{page}: {name} has no clause {clause}" for clause in clauses
                        if not re.search(rf"\b(?:ensures|requires) {clause} ", text))
            if row not in of_headline:
                seen.update((name, clause) for clause in clauses or [""])
    yield from (f"two rows have {name} {clause}" for (name, clause), times in seen.items() if times > 1)
    for said, called in ((r"must believe (\d+)", calls(headline_table())),
                         (r"`World::never_negative` alone (\d+)", [("World::never_negative", [])])):
        rests = len(resting(things, called))
        if re.findall(said, read("README.md")) != [str(rests)]:
            yield f"README.md: '{said}' should say {rests}"


def conditions(things):
    """Says which public functions have a condition that isn't in their crate's list of these, and the reverse."""
    for page, crate, text in pages(things):
        listed = "".join(re.findall(r"(?m)^- Conditions: .*\n(?:  .*\n)*", text))
        said = set(re.findall(r"`([\w:]+)`", listed))
        found = {it.name for its in things.functions.values() for it in its
                 if it.crate == crate and it.public and re.search(r"\brequires\b", it.text)}
        yield from (f"{page}: {name} has a condition, and isn't in the list of these" for name in sorted(found - said))
        yield from (f"{page}: no public {name} has a condition" for name in sorted(said - found))


def parts(things):
    """Each definition's part, the first that it belongs to."""
    roots = [[it for called in calls(headline_table()) for it in things.statements(*called)], [], [], []]
    roots[1] += [it for name in PROGRAM for it in things.statements(name)]
    roots[1] += [it for its in things.functions.values() for it in its if it.crate == "rbbank"]
    roots[2] += [it for its in things.functions.values() for it in its if it.public]
    roots[3] += list(things.definitions.values())
    part_of = {}
    for at, statements in enumerate(roots):
        for it in things.closure(statements):
            if it.kind == "definition":
                part_of.setdefault((it.crate, it.file, it.name), at)
    return part_of


def tell(found):
    """Definitions by file, with their number."""
    by_file = collections.defaultdict(list)
    for it in found:
        by_file[f"crates/{it.crate}/{it.file}"].append(it.name)
    for file in sorted(by_file):
        print(f"{file}: {len(by_file[file])}")
        print("    " + " ".join(sorted(by_file[file])))


def tell_closure(things, names):
    statements = []
    for name, clauses in [(name, []) for name in names] or calls(headline_table()):
        found = things.statements(name, clauses)
        if not found:
            sys.exit(f"closure.py: nothing is named {name}")
        statements += found
    found = things.closure(statements)
    tell([it for it in found if it.kind == "definition"])
    print("types of the code: " + " ".join(sorted({f"{it.crate}::{it.name}" for it in found if it.kind == "type"})))
    print(f"{sum(it.kind == 'definition' for it in found)} definitions")


def tell_all(things):
    """Every definition with its comment, part by part, in each by crate from the bottom up and by file."""
    part_of, order = parts(things), re.findall(r"(?m)^(rb\w+)", read("crates.txt"))
    for at, name in enumerate(PARTS):
        print(f"## {name}\n")
        for crate in reversed(order):
            found = [it for key, it in things.definitions.items() if it.crate == crate and part_of[key] == at]
            print("\n".join(section(crate, found)) if found else "", end="\n" if found else "")


def wrapped(text):
    """A text in lines of 120 columns, those behind the first two columns in."""
    behind = "  " if text.startswith("- ") else ""
    return textwrap.fill(text, 120, subsequent_indent=behind, break_long_words=False, break_on_hyphens=False)


def joined(found):
    """The definitions of a file in groups: one without a comment of its own joins the one before."""
    groups = []
    for it in found:
        if it.comment or not groups:
            groups.append([it])
        else:
            groups[-1].append(it)
    return groups


def entry(group):
    """The lines for definitions that have one comment."""
    comment = group[0].comment
    ending = "." if comment and not comment.endswith(".") else ""
    names = ", ".join(f"`{it.name}`" for it in group)
    return wrapped("- " + names + (": " if comment else "") + comment + ending)


def section(crate, found):
    """The lines for the definitions of a crate in one part."""
    root = next(file for file in files(crate, "src", "rt") if file in ("src/lib.rt", "src/main.rt"))
    about = re.match(r"(?://! ?.*\n)+", read("crates", crate, root)).group(0)
    about = " ".join(line[3:].strip() for line in about.splitlines())
    yield f"### {crate} (crates/{crate}/specs)\n\n" + wrapped(re.match(r".*?\.(?= |$)", about).group(0)) + "\n"
    for file in dict.fromkeys(it.file for it in found):
        first = read("crates", crate, file).splitlines()[0]
        head = f"**{file.removeprefix('specs/')}**" + (": " + first[3:] if first.startswith("-- ") else "")
        groups = joined(it for it in found if it.file == file)
        yield wrapped(head) + "\n\n" + "\n".join(map(entry, groups)) + "\n"


def behind_what_they_name(things, groups):
    """Groups of definitions in an order in which each is behind those that it names, and those of a file are together
    where they can be."""
    place = {id(it): at for at, group in enumerate(groups) for it in group}
    waits = [{place[id(named)] for it in group for named in things.named_by(it) if id(named) in place} - {at}
             for at, group in enumerate(groups)]
    left, file = list(range(len(groups))), None
    while left:
        ready = [at for at in left if not waits[at] & set(left)] or left
        at = next((at for at in ready if groups[at][0].file == file), ready[0])
        left.remove(at)
        file = groups[at][0].file
        yield groups[at]


def by_need(things):
    """The rows of the headline's table, each with the definitions that it rests on and none before it does; first the
    row that rests on the fewest."""
    rows, listed = [], set()
    for row in re.findall(r"(?m)^\| (?!The sentence|---).*\|$", headline_table()):
        rows.append((row, {id(it): it for it in resting(things, calls(row))}))
    order = re.findall(r"(?m)^(rb\w+)", read("crates.txt"))
    for row, rests in sorted(rows, key=lambda it: len(it[1])):
        new = [it for it in things.definitions.values() if id(it) in rests and id(it) not in listed]
        new.sort(key=lambda it: order.index(it.crate), reverse=True)
        listed.update(rests)
        if new:
            by_file = (joined(its) for _, its in itertools.groupby(new, key=lambda it: (it.crate, it.file)))
            yield row, list(behind_what_they_name(things, [group for groups in by_file for group in groups]))


def model(things, text):
    """docs/MODEL.md: the definitions of the headline, and what this text has by hand before them and behind them."""
    sections = blocks(text, r"^## .*$")
    made = [text[:sections[0][0].start()], sections[0][1]]
    for row, groups in by_need(things):
        sentence, clauses = (cell.strip() for cell in row.split("|")[1:3])
        sentence = sentence.removeprefix("... ")
        made.append(f"## {sentence[0].upper()}{sentence[1:]}\n\n" + wrapped(f"{clauses}.") + "\n\n")
        for (crate, file), its in itertools.groupby(groups, key=lambda it: (it[0].crate, it[0].file)):
            made.append(f"**{crate}, {file.removeprefix('specs/')}**\n\n" + "\n".join(map(entry, its)) + "\n\n")
    return "".join(made) + sections[-1][1]


def known(things):
    """Every name that a definition, type or function of the repository has, or a case of a type."""
    names = {it.name for it in things.definitions.values()} | set(things.types)
    names.update(part for name in things.functions for part in name.split("::"))
    return names.union(*(WORD.findall(it.text) for its in things.types.values() for it in its))


def lemmas(things):
    """Says which files of proofs/ but for Public.antt, or those of proofs/Public, are open to other crates, and which
    of these none cites."""
    wrong, cited = [], set()
    for crate in things.crates:
        for folder, kind in (("src", "rt"), ("specs", "antt"), ("proofs", "antt")):
            for file in files(crate, folder, kind):
                found = re.findall(r"Rattle\.(\w+)\.proofs\.(Public(?:\.\w+)?)", read("crates", crate, file))
                cited.update((it, path.replace(".", "/")) for it, path in found if it != crate)
    for crate in things.crates:
        for file in files(crate, "proofs", "antt"):
            if file == "proofs/Lib.antt":
                opened = re.findall(r"(?m)^pub mod (?!Public$)(\w+)", read("crates", crate, file))
                wrong += [f"crates/{crate}/proofs/{it}.antt: only the files of proofs/Public are open to other crates"
                          for it in opened]
            module = file[len("proofs/"):-len(".antt")]
            if not module.startswith("Public") or "pub mod" in read("crates", crate, file):
                continue
            if (crate, module) not in cited:
                wrong.append(f"crates/{crate}/{file}: no other crate cites it")
    return wrong


def namesakes(things):
    """Says which definitions have one name, or names that differ in case alone."""
    files = collections.defaultdict(list)
    for crate, file, name in sorted(things.definitions):
        files[name.lower()].append(f"{name} of crates/{crate}/{file}")
    return [" and ".join(its) + ": two definitions, one name" for its in files.values() if len(its) > 1]


def searches():
    """Says what of the search for an order its check names: rb_auditor's own files, but for those of the check and the
    type of orders."""
    other = re.compile(r"\b(?:crate|super)::(?!checking::|Certificate;)[^;\s]*")
    return [f"crates/rb_auditor/{file}: the check of an order uses {used}" for file in files("rb_auditor", "src", "rt")
            if file.startswith("src/checking/") for used in other.findall(read("crates", "rb_auditor", file))]


def check(things):
    """Says where docs/MODEL.md isn't as it is made, which clauses of the tables of promises aren't there, where proofs/
    isn't as docs/ARCHITECTURE.md says, which definitions share a name, and what a check shares with a search; how many.
    """
    wrong, text = lemmas(things) + namesakes(things) + searches(), read("docs/MODEL.md")
    if text != model(things, text):
        wrong.append("docs/MODEL.md isn't what the comments say now: tests/closure.py --write makes it")
    for name in sorted(set(re.findall(r"`(\w*(?:[a-z]_|[a-z][A-Z])\w*)`", text)) - known(things)):
        wrong.append(f"docs/MODEL.md: there is no {name}")
    for name, clauses in calls(headline_table()):
        found = "".join(it.text for it in things.statements(name))
        if not found:
            wrong.append(f"docs/PROVED.md: there is no {name}")
        wrong += [f"docs/PROVED.md: {name} has no clause {it}" for it in clauses if f"ensures {it} " not in found]
    wrong += [*counted(things), *conditions(things)]
    print("\n".join(wrong), end="\n" if wrong else "")
    return len(wrong)


def main():
    things, words = Things(), sys.argv[1:]
    if words == ["--all"]:
        tell_all(things)
    elif words == ["--write"]:
        made = model(things, read("docs/MODEL.md"))
        with open(os.path.join(ROOT, "docs/MODEL.md"), "w", encoding="utf-8") as file:
            file.write(made)
    elif words == ["--check"]:
        sys.exit(1 if check(things) else 0)
    elif words and words[0].startswith("--"):
        sys.exit(__doc__)
    else:
        tell_closure(things, words)


if __name__ == "__main__":
    main()
