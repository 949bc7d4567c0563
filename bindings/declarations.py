#!/usr/bin/env python3
"""Compares the declarations of the library's calls with its exports: names, order and widths; the version; and the
names of refusals.

usage: declarations.py             the table of calls
       declarations.py --check     nothing, or what is different, with status 1

The exports are the `extern "C"` functions of crates/rb_capi/src; the declarations are those of c/rbbank.h,
rust/src/c.rs and python/rbbank. What an export takes is compared as C passes it: a slice is a pointer and a length,
the allocator is nothing, and a handle is one pointer, to a struct of one pointer. The version is that of
crates/rb_capi/src/version.rt: the program and Rust's crates have to say the same. A refusal's name and number are
those of the program, in crates/rb_money and rb_node, and its meaning is that of docs/FORMAT.md; each language has them
again.
"""
import ctypes
import glob
import os
import re
import sys

sys.dont_write_bytecode = True
HERE = os.path.dirname(os.path.abspath(__file__))
CRATES = os.path.join(os.path.dirname(HERE), "crates")
EXPORTS = os.path.join(CRATES, "rb_capi", "src")
sys.path[1:1] = [os.path.join(HERE, "python"), os.path.join(os.path.dirname(HERE), "examples", "tools")]
import bank
import build
import rbbank

# What a call takes or returns, in the words of each language.
OF_EXPORTS = {
    "Global": [], "&[u8]": ["bytes in", "usize"], "&mut [u8]": ["bytes out", "usize"],
    "&[usize]": ["usizes in", "usize"], "&mut usize": ["usize out"], "&mut u64": ["u64 out"], "&mut u8": ["u8 out"],
    "usize": ["usize"], "u8": ["u8"], "i32": ["i32"], "": ["nothing"],
}
OF_C = {
    "const char *": "bytes in", "char *": "bytes out", "const size_t *": "usizes in", "size_t *": "usize out",
    "uint64_t *": "u64 out", "uint8_t *": "u8 out", "size_t": "usize", "uint8_t": "u8", "int32_t": "i32",
    "void": "nothing",
}
OF_RUST = {
    "*mut Handle": "handle", "*const u8": "bytes in", "*mut u8": "bytes out", "*const usize": "usizes in",
    "*mut usize": "usize out", "*mut u64": "u64 out", "&mut u8": "u8 out", "usize": "usize", "u8": "u8", "i32": "i32",
    "": "nothing",
}
OF_PYTHON = {
    ctypes.POINTER(ctypes.c_void_p): "handle", ctypes.c_char_p: "bytes", ctypes.POINTER(ctypes.c_size_t): "u64s",
    ctypes.POINTER(ctypes.c_uint64): "u64s", ctypes.POINTER(ctypes.c_uint8): "u8s", ctypes.c_size_t: "u64",
    ctypes.c_uint64: "u64", ctypes.c_uint8: "u8", ctypes.c_int32: "i32", None: "nothing",
}


def read(*path):
    with open(os.path.join(*path), encoding="utf-8") as file:
        return file.read()


def parts(text):
    return [part.strip() for part in text.split(",") if part.strip()]


def typed(parameter):
    return parameter.partition(":")[2].strip()


def handles(text):
    """The structs of one raw pointer, beside what takes no place in C."""
    for name, fields in re.findall(r"#\[repr\(C\)\]\s*pub struct (\w+) \{(.*?)\n\}", text, re.S):
        real = [field for field in re.findall(r"(?m)^\s*(?:pub )?(ghost )?\w+: ([^,]+),", fields)]
        if [kind for ghost, kind in real if not ghost and kind != "Global"] == ["*mut u8"]:
            yield name


def exports():
    """Each export, with what it returns and takes."""
    text = "\n".join(read(path) for path in sorted(glob.glob(os.path.join(EXPORTS, "**", "*.rt"), recursive=True)))
    kinds = OF_EXPORTS | {f"&mut {name}": ["handle"] for name in handles(text)}
    form = r'#\[unsafe\(no_mangle\)\]\s*pub extern "C" fn (\w+)\((.*?)\)\s*(?:-> (\w+))?'
    return {name: [*kinds[result], *(kind for one in parts(takes) for kind in kinds[typed(one)])]
            for name, takes, result in re.findall(form, text, re.S)}


def of_c():
    """Each call of the header. The handles of a bank, a site and a journal are each of its own type there."""
    text = re.sub(r"/\*.*?\*/", " ", read(HERE, "c", "rbbank.h"), flags=re.S)
    found = {}
    for result, name, takes in re.findall(r"(?m)^(int32_t|size_t|void) +(\w+)\(([^)]*)\);", text):
        kind = re.match("rbbank(_site|_journal)?(?=_)", name)[0]
        kinds = OF_C | {f"struct {kind} *": "handle"}
        found[name] = [kinds[kind] for kind in [result, *(re.sub(r"\w+$", "", one).strip() for one in parts(takes))]]
    return found


def of_rust():
    text = read(HERE, "rust", "src", "c.rs")
    block = text[text.index('extern "C" {'):]
    return {name: [OF_RUST[kind] for kind in [result, *map(typed, parts(takes))]]
            for name, takes, result in re.findall(r"pub fn (\w+)\((.*?)\)(?: -> (\w+))?;", block, re.S)}


def of_python():
    return {name: [OF_PYTHON[kind] for kind in [result, *takes]] for name, (result, takes) in rbbank.CALLS.items()}


def as_python_has_it(kinds):
    """ctypes knows no `const`, and lengths as numbers of 64 bits."""
    known = (re.sub("^bytes .*", "bytes", kind).replace("usize", "u64") for kind in kinds)
    return [re.sub("^(u64|u8)s? .*", r"\1s", kind) for kind in known]


def versions():
    """The files that have the version again, each with what it says."""
    for path in ("rust/Cargo.toml", "rust/serde/Cargo.toml", "../crates/rb_cli/src/texts.rt"):
        yield path, re.search(r'(?m)^(?:version|pub const VERSION: &str) = "(.*)"', read(HERE, path))[1]


# ---- refusals

def refusals():
    """Each number of a refusal, with its name and what it means."""
    ledger = read(CRATES, "rb_money", "src", "refusal.rt")
    of_ledger = re.findall(r"Refusal::(\w+)(?: \{ \.\. \})? => ([1-9]\d*),", ledger)
    of_site = re.findall(r"(?m)^pub const (OTHER_\w+)_REFUSED: u64 = (\d+);", ledger)
    named = {int(number): upper(name) for name, number in [*of_ledger, *of_site]}
    return {number: (named.get(number), re.sub(r" \(only `.*", "", bank.meaning(number)))
            for number in sorted(named | bank.NUMBERS)}


def upper(name):
    """BadAmount as BAD_AMOUNT."""
    return re.sub(r"(?<=[a-z])(?=[A-Z])", "_", name).upper()


def refusals_of_c():
    found = re.findall(r"(?s)RBBANK_REFUSAL_(\w+) = (\d+),? +/\* (.*?) \*/", read(HERE, "c", "rbbank.h"))
    return {int(number): (name, re.sub(r"\s+", " ", meaning)) for name, number, meaning in found}


def refusals_of_rust():
    found = re.findall(r'(?m)^    (\w+) = (\d+), "(.*)";$', read(HERE, "rust", "src", "refusal.rs"))
    return {int(number): (upper(name), meaning) for name, number, meaning in found}


def refusals_that_differ():
    """What isn't the same of the names of refusals, in words."""
    wanted, of_module = refusals(), {it.value: (it.name, it.words) for it in rbbank.Refusal}
    for where, found in [("c/rbbank.h", refusals_of_c()), ("rust/src/refusal.rs", refusals_of_rust()),
                         ("python/rbbank", of_module)]:
        for number in sorted(wanted.keys() | found.keys()):
            if wanted.get(number) != found.get(number):
                yield f"refusal {number}: {found.get(number)} in {where}; {wanted.get(number)} in crates/ and docs/"


def differences():
    """What isn't the same, in words."""
    yield from refusals_that_differ()
    for path, found in versions():
        if found != build.version():
            yield f"{path} has the version {found}; crates/rb_capi/src/version.rt {build.version()}"
    made, in_c, in_rust, in_python = exports(), of_c(), of_rust(), of_python()
    if not made:
        yield "crates/rb_capi/src has no export"
        return
    for where, found in [("c/rbbank.h", in_c), ("rust/src/c.rs", in_rust), ("python/rbbank", in_python)]:
        for name in sorted(made.keys() ^ found.keys()):
            yield f"{name}: " + (f"not in {where}" if name in made else f"in {where}, and no export")
        if list(found) != list(in_c):
            yield f"{where} has another order than c/rbbank.h"
        for name in made.keys() & found.keys():
            wanted = as_python_has_it(made[name]) if found is in_python else made[name]
            if found[name] != wanted:
                yield f"{name}: {', '.join(found[name])} in {where}; {', '.join(wanted)} is exported"


def main():
    if sys.argv[1:] not in ([], ["--check"]):
        print(__doc__)
        return 0 if sys.argv[1:] in (["--help"], ["-h"]) else 2
    try:
        different = list(differences())
    except KeyError as kind:
        sys.exit(f"declarations.py: {kind}: no type that C passes")
    for line in different:
        print(f"declarations.py: {line}", file=sys.stderr)
    if not sys.argv[1:]:
        for name, kinds in of_c().items():
            print(f"{name:20} {', '.join(kinds[1:])} -> {kinds[0]}")
    return 1 if different else 0


if __name__ == "__main__":
    sys.exit(main())
