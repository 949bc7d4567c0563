#!/usr/bin/env python3
"""Makes a manual page and completions for bash, zsh and fish from the help of a program by `clap`.

usage: from_help.py PROGRAM PREFIX     writes them below PREFIX: share/man, share/bash-completion, share/zsh, share/fish
       from_help.py --check [PROGRAM]  makes them from the help in tests/help, and compares them with what is there;
                                       with PROGRAM it also compares that help with the program's own; beside it
                                       commands.json is compared with the commands and kinds that the program has,
                                       and with what service/ has of it
       from_help.py --write PROGRAM    stores the program's help in tests/help, what is made from it, and what service/
                                       has of commands.json

It asks for `PROGRAM --help`, and for `PROGRAM WORD --help` of each command that is listed there. --check ends in 1
where something differs.
"""
import json
import os
import re
import subprocess
import sys
from typing import NamedTuple, Optional

import bank

STORED = os.path.join(bank.ROOT, "tests", "help")
MADE_BY = "Made by examples/tools/from_help.py from the help of the program."
COMMAND = re.compile(r"  (\S+)(?:\s+(.*))?$")
VALUE = re.compile(r"  [<\[]([^>\]]+)[>\]](?:\.\.\.)?(?:\s\s+(.*))?$")
OPTION = re.compile(r"\s+(?:-(\w), )?--([\w-]+)(?: <([^>]+)>)?(?:\s\s+(.*))?$")
FILES = ("FILE", "JOURNAL")  # the names of values that are files'
SERVICE = os.path.join(bank.ROOT, "service")
# what a service may be asked: not what other sites send
ASKED = {verb: takes for verb, takes in bank.TAKES.items() if verb not in ("apply", "deliver")}


class Option(NamedTuple):
    """An option: its letter, its name, the name of its value, and what it is."""

    short: Optional[str]
    long: str
    value: Optional[str]
    text: str


class Page(NamedTuple):
    """A page of help: what is done, how it is used, the commands with what they do, the values that belong to no
    option with what they are, the options, and all below."""

    about: str
    usage: str
    commands: list
    values: list
    options: list
    rest: str


def rows_of(lines):
    """The rows of a section, each in one line: what is further in than ten spaces belongs to the row above it."""
    rows = []
    for line in lines:
        if rows and line.startswith(" " * 10):
            rows[-1] += "  " + line.strip()
        else:
            rows.append(line)
    return rows


def matched(pattern, line):
    found = pattern.match(line)
    if not found:
        raise bank.Stop(f"no row of clap's help: {line}")
    return found.groups(default=None)


def parsed(text):
    """A page of help by clap's layout: parts between blank lines, the sections in this order."""
    parts = text.strip("\n").split("\n\n")
    about = " ".join(parts.pop(0).split("\n"))
    if not parts or not parts[0].startswith("Usage: "):
        raise bank.Stop("no line of clap's help begins with 'Usage: '")
    usage = parts.pop(0).removeprefix("Usage: ")
    commands, values, options = [], [], []
    while parts and parts[0].split("\n")[0] in ("Commands:", "Arguments:", "Options:"):
        title, *lines = parts.pop(0).split("\n")
        if title == "Commands:":
            commands = [(name, what or "") for name, what in (matched(COMMAND, row) for row in rows_of(lines))]
        elif title == "Arguments:":
            values = [(name, what or "") for name, what in (matched(VALUE, row) for row in rows_of(lines))]
        else:
            options = [Option(s, name, value, what or "") for s, name, value, what in
                       (matched(OPTION, row) for row in rows_of(lines))]
    return Page(about, usage, commands, values, options, "\n\n".join(parts))


# ---- the manual page

def roff(text):
    """A line as roff shows it."""
    text = text.replace("\\", "\\e").replace("-", "\\-").replace("'", "\\(aq").replace("^", "\\(ha")
    return "\\&" + text if text.startswith(".") else text


def roff_rest(text):
    """What is below the options: indented lines as they are, the others filled."""
    lines, as_it_is = [], False
    for line in text.split("\n"):
        indented = line.startswith("  ")
        if line and indented != as_it_is:
            lines += [".RS 4", ".nf"] if indented else [".fi", ".RE"]
            as_it_is = indented
        if line:
            lines.append(roff(line[2:] if indented else line))
        elif lines and lines[-1] != ".PP":
            lines.append("" if as_it_is else ".PP")
    return lines + ([".fi", ".RE"] if as_it_is else [])


def roff_options(options):
    lines = []
    for option in options:
        names = ([f"-{option.short}"] if option.short else []) + [f"--{option.long}"]
        shown = ", ".join(f"\\fB{roff(name)}\\fR" for name in names)
        lines += [".TP", shown + (f" \\fI{roff(option.value)}\\fR" if option.value else ""), roff(option.text)]
    return lines


def manual(name, top, pages):
    """The manual page."""
    lines = [f'.\\" {MADE_BY}', f".TH {name.upper()} 1", ".SH NAME", f"{name} \\- {roff(top.about)}"]
    lines.append(".SH SYNOPSIS")
    for page in pages.values():
        lines += [".nf", f"\\fB{roff(page.usage)}\\fR", ".fi"]
    lines += [".SH OPTIONS", *roff_options(top.options), ".SH COMMANDS"]
    for command, page in pages.items():
        values = [line for value, text in page.values for line in (".TP", f"\\fI{roff(value)}\\fR", roff(text))]
        lines += [f".SS {name} {command}", f"{roff(page.about)}.", *values, *roff_options(page.options)]
        lines += [".PP", *roff_rest(page.rest)] if page.rest else []
    lines += [".SH EXAMPLES", *roff_rest(top.rest)] if top.rest else []
    others = ", ".join(f"\\fB{roff(other)}\\fR({n})" for other, n in
                       ((name, 5), (f"{name}-running", 7), (f"{name}-periods", 7)))
    return "\n".join([*lines, ".SH SEE ALSO", others]) + "\n"


# ---- completions

def names_of(options):
    return [name for it in options for name in ([f"-{it.short}"] if it.short else []) + [f"--{it.long}"]]


def with_value(pages, is_file):
    """The names of the options with a value that is a file's, or that is none."""
    found = [f"--{option.long}" for page in pages.values() for option in page.options
             if option.value and (option.value in FILES) == is_file]
    return "|".join(dict.fromkeys(found))


def takes_files(page):
    """The command takes files behind its options."""
    return any(value in FILES for value, _ in page.values)


def bash(name, top, pages):
    commands = [command for command, _ in top.commands]
    lines = [
        f"# {MADE_BY}", f"_{name}() {{",
        '    local word="${COMP_WORDS[COMP_CWORD]}" before="${COMP_WORDS[COMP_CWORD-1]}" names=""',
        '    if [ "$COMP_CWORD" -eq 1 ]; then', f'        names="{" ".join(commands + names_of(top.options))}"',
        "    else", '        case "$before" in',
    ]
    if with_value(pages, True):
        lines += [f"            {with_value(pages, True)})", "                compopt -o filenames",
                  '                mapfile -t COMPREPLY < <(compgen -f -- "$word")', "                return ;;"]
    if with_value(pages, False):
        lines.append(f"            {with_value(pages, False)}) return ;;")
    lines += ["        esac", '        case "${COMP_WORDS[1]}" in']
    for command, page in pages.items():
        lines.append(f'            {command}) names="{" ".join(names_of(page.options))}"')
        if takes_files(page):
            lines += ["                compopt -o filenames",
                      '                mapfile -t COMPREPLY < <(compgen -f -W "$names" -- "$word")',
                      "                return ;;"]
        else:
            lines[-1] += " ;;"
    lines.append(f'            help) [ "$COMP_CWORD" -gt 2 ] || names="{" ".join(commands)}" ;;')
    lines += ["        esac", "    fi", '    mapfile -t COMPREPLY < <(compgen -W "$names" -- "$word")', "}",
              f"complete -F _{name} {name}"]
    return "\n".join(lines) + "\n"


def quoted(text):
    """A text in single quotes, of bash and zsh."""
    return "'" + text.replace("'", "'\\''") + "'"


def zsh_row(option):
    """An option as _arguments takes it."""
    text = re.sub(r"([\[\]:\\])", r"\\\1", option.text)
    action = ":" + (f"{option.value}:_files" if option.value in FILES else f"{option.value}: ") if option.value else ""
    row = quoted(f"--{option.long}[{text}]{action}")
    return [quoted(f"-{option.short}[{text}]{action}"), row] if option.short else [row]


def zsh_arguments(options):
    return [f"{' ' * 16}{row} \\" for option in options for row in zsh_row(option)]


def zsh(name, top, pages):
    commands = [quoted(command + ":" + re.sub(r"([:\\])", r"\\\1", what)) for command, what in top.commands]
    lines = [f"#compdef {name}", f"# {MADE_BY}", f"_{name}() {{", "    local -a commands", "    commands=("]
    lines += [f"        {row}" for row in commands]
    lines += ["    )", "    if (( CURRENT == 2 )); then", "        _describe command commands",
              "        compadd -- " + " ".join(names_of(top.options)), "        return", "    fi",
              "    local command=$words[2]", "    shift words", "    (( CURRENT-- ))", "    case $command in"]
    for command, page in pages.items():
        lines += [f"        {command})", "            _arguments \\", *zsh_arguments(page.options)]
        lines += [f"{' ' * 16}{quoted(f'*:{value}:_files')} \\" for value, _ in page.values if value in FILES]
        lines[-1] = lines[-1].removesuffix(" \\")
        lines.append("            ;;")
    lines += ["        help) _describe command commands ;;", "    esac", "}", f'_{name} "$@"']
    return "\n".join(lines) + "\n"


def fish_text(text):
    return "'" + text.replace("\\", "\\\\").replace("'", "\\'") + "'"


def fish_option(name, condition, option):
    short = f" -s {option.short}" if option.short else ""
    value = (" -r -F" if option.value in FILES else " -x") if option.value else ""
    return f"complete -c {name} -n '{condition}'{short} -l {option.long}{value} -d {fish_text(option.text)}"


def fish(name, top, pages):
    lines = [f"# {MADE_BY}", f"complete -c {name} -f"]
    first = "__fish_use_subcommand"
    lines += [f"complete -c {name} -n '{first}' -a {command} -d {fish_text(what)}" for command, what in top.commands]
    lines += [fish_option(name, first, option) for option in top.options]
    for command, page in pages.items():
        lines += [fish_option(name, f"__fish_seen_subcommand_from {command}", option) for option in page.options]
        lines += [f"complete -c {name} -n '__fish_seen_subcommand_from {command}' -F"] if takes_files(page) else []
    names = " ".join(command for command, _ in top.commands)
    lines.append(f"complete -c {name} -n '__fish_seen_subcommand_from help' -a {fish_text(names)}")
    return "\n".join(lines) + "\n"


# ---- files

def made(texts):
    """What is made from the pages of help, each text with its place below PREFIX. The first page is the program's."""
    (name, whole), *rest = texts.items()
    top, pages = parsed(whole), {command: parsed(text) for command, text in rest}
    return {
        f"share/man/man1/{name}.1": manual(name, top, pages),
        f"share/bash-completion/completions/{name}": bash(name, top, pages),
        f"share/zsh/site-functions/_{name}": zsh(name, top, pages),
        f"share/fish/vendor_completions.d/{name}.fish": fish(name, top, pages),
    }


def help_of(program, *words):
    try:
        words_of_run = [program, *words, "--help"]
        run = subprocess.run(words_of_run, capture_output=True, encoding="utf-8", stdin=subprocess.DEVNULL)
    except OSError as error:
        raise bank.Stop(f"{program}: {error.strerror}") from None
    if run.returncode != 0:
        raise bank.Stop(f"{program} {' '.join(words)} --help: status {run.returncode}")
    return run.stdout


def asked(program):
    """The pages of a program: its own by its name, and then each command's. `help` itself has none."""
    top = help_of(program)
    commands = [command for command, _ in parsed(top).commands if command != "help"]
    return {os.path.basename(program): top, **{command: help_of(program, command) for command in commands}}


def written(folder, files):
    for place, text in files.items():
        path = os.path.join(folder, place)
        os.makedirs(os.path.dirname(path), exist_ok=True)
        bank.write(path, text)


def read(path):
    return bank.read(path).decode()


def stored():
    """The pages in tests/help, in the order of the program's page."""
    top = read(os.path.join(STORED, "rbbank.txt"))
    commands = [command for command, _ in parsed(top).commands if command != "help"]
    return {"rbbank": top, **{command: read(os.path.join(STORED, f"{command}.txt")) for command in commands}}


def bash_completes(words):
    """What bash completes the last of these words to, by the stored completion."""
    path = os.path.join(STORED, "share", "bash-completion", "completions", "rbbank")
    line = " ".join(quoted(word) for word in words)
    # compopt can be used only while a line is completed
    script = f"compopt() {{ :; }}; . {quoted(path)}; COMP_WORDS=({line}); COMP_CWORD={len(words) - 1}; _rbbank\n"
    script += 'echo "${COMPREPLY[*]}"'
    return subprocess.run(["bash", "-c", script], capture_output=True, encoding="utf-8", cwd=STORED).stdout.split()


BASH_CASES = [
    (["rbbank", "scr"], ["script"]),
    (["rbbank", "--v"], ["--version"]),
    (["rbbank", "threads", "--s"], ["--sites", "--seed"]),
    (["rbbank", "threads", "--sites", ""], []),
    (["rbbank", "site", "--journal", "thr"], ["threads.txt"]),
    (["rbbank", "close", "--a"], ["--account"]),
    (["rbbank", "close", "--sites", "2", "thr"], ["threads.txt"]),
    (["rbbank", "script", "thr"], ["threads.txt"]),
    (["rbbank", "audit", "threads.txt", "mig"], ["migrate.txt"]),
    (["rbbank", "help", "mig"], ["migrate"]),
]


def console():
    """The table of the console: what its form asks, amounts first, with fields, and the sign of what is moved."""
    rows = []
    for verb in (*sorted(bank.REQUESTS, key=lambda verb: "cents" not in bank.TAKES[verb]), "pass"):
        takes = ", ".join(f"'{field}'" for field in bank.TAKES[verb])
        moves = f", moves: {bank.COMMANDS[verb]['moves']}" if verb in bank.REQUESTS else ""
        rows.append(f"  {verb}: {{takes: [{takes}]{moves}}},\n")
    return "const VERBS = {\n", "".join(rows), "};\n"


def openapi():
    """The events of the service's page for tools, each with the types of its fields, and the kinds."""
    types = {"cents": '{$ref: "#/components/schemas/Cents"}', "rate": '{$ref: "#/components/schemas/Cents"}',
             "next": "{type: integer}", "position": "{type: integer}",
             "requests": "{type: array, items: {type: object, minProperties: 1, maxProperties: 1}}"}
    rows = []
    for verb, takes in ASKED.items():
        parts = [types.get(field, "{type: string}") for field in takes]
        items = f"{{type: array, minItems: {len(parts)}, maxItems: {len(parts)}, prefixItems: [{', '.join(parts)}]}}"
        rows.append(f"        {verb}: {items if len(parts) > 1 else parts[0]}\n")
    kinds = f"    Kind: {{enum: [{', '.join(bank.KINDS)}]}}\n"
    return "from commands.json\n", "".join([*rows, kinds]), "    Said:\n"


def of_service():
    """What service/ has of commands.json, since it is installed alone: each path with its text, as it has to be."""
    yield "commands.json", read(os.path.join(bank.HERE, "commands.json"))
    for name, (before, rows, behind) in (("console.html", console()), ("openapi.yaml", openapi())):
        text = read(os.path.join(SERVICE, name))
        front, _, rest = text.partition(before)
        yield name, front + before + rows + behind + rest.partition(behind)[2]


def other_commands(page):
    """The commands and kinds that commands.json has otherwise than this page and tests/cases."""
    examples = page.split("The commands, an example each.")[1].split("\n\n")[1]
    shown = {verb: tuple(map(type, value if isinstance(value, list) and verb != "batch" else [value]))
             for line in re.findall(r"(?m)^  (\{.*?\})(?: |$)", examples)
             for verb, value in json.loads(line).items() if verb != "site"}
    types = {"account": str, "to": str, "name": str, "requests": list}
    known = {verb: tuple(types.get(field, int) for field in takes) for verb, takes in bank.TAKES.items()}
    reasons = read(os.path.join(bank.ROOT, "tests", "cases", "reasons.cases"))
    kinds = re.search("is no kind: there are: (.*)", reasons)[1]
    others = {verb for verb, _ in shown.items() ^ known.items()} | set(kinds.split(", ")) ^ set(bank.KINDS)
    return [f"{verb} of commands.json" for verb in others]


def differences(program):
    """The names of what differs."""
    texts = stored()
    found = [place for place, text in made(texts).items() if read(os.path.join(STORED, place)) != text]
    found += [f"service/{name}" for name, text in of_service() if read(os.path.join(SERVICE, name)) != text]
    found += [" ".join(words) for words, wanted in BASH_CASES if bash_completes(words) != wanted]
    if program:
        now = asked(program)
        found += [f"{name}.txt" for name in {**texts, **now} if texts.get(name) != now.get(name)]
    return found + other_commands(texts["script"])


def main(words):
    if words in (["-h"], ["--help"]):
        print(__doc__.strip())
        return 0
    if words[:1] == ["--check"] and len(words) <= 2:
        found = differences(words[1] if len(words) == 2 else None)
        for name in found:
            print(f"DIFFERENT {name}: not as the program has it now; see from_help.py --help")
        return 1 if found else 0
    if words[:1] == ["--write"] and len(words) == 2:
        texts = asked(words[1])
        written(STORED, {**{f"{name}.txt": text for name, text in texts.items()}, **made(texts)})
        written(SERVICE, dict(of_service()))
        return 0
    if len(words) == 2 and not words[0].startswith("-"):
        written(words[1], made(asked(words[0])))
        return 0
    print(__doc__.strip(), file=sys.stderr)
    return 2


if __name__ == "__main__":
    bank.stops_in_words("from_help", lambda: main(sys.argv[1:]))
