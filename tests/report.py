"""How a test of a built program is run: its words, a line for each case, and its status."""
import os
import subprocess
import sys

ERRORS = (OSError, subprocess.SubprocessError, ValueError, IndexError, KeyError, TypeError)


def program_of(words, doc):
    """The program that the words name. Other words end the process: in 0 if they ask for help."""
    if len(words) != 1 or words[0].startswith("-"):
        print(doc)
        sys.exit(0 if words in (["--help"], ["-h"]) else 2)
    if not os.access(words[0], os.X_OK) or os.path.isdir(words[0]):
        sys.exit(f"{os.path.basename(sys.argv[0])}: {words[0]}: no program")
    return os.path.abspath(words[0])


def of_parts(parts, given):
    """The cases of each part. A part that an error ends has one that isn't as wanted, by its words."""
    for part in parts:
        try:
            yield from part(given())
        except ERRORS as why:
            yield f"{part.__name__}: {why}", False


def run(doc, results):
    """Prints each case that `results` yields of the program, with whether it is as wanted; with --quiet just those that
    aren't. The status."""
    program, fine = program_of([word for word in sys.argv[1:] if word != "--quiet"], doc), True
    for name, same in results(program):
        fine = fine and same
        if not same or "--quiet" not in sys.argv:
            print("same     " if same else "DIFFERENT", name, flush=True)
    return 0 if fine else 1
