"""A site whose journal is in a file, as a filter: journal.py SITE JOURNAL [--new] < EVENTS. It begins a new journal
with --new, else it goes on from the one that is there, and answers each line of its input by a line, a bad one by
{"bad":..}. Kill it at any moment and start it again, without --new."""
import sys

import rbbank

CONFIG = '{"accounts":[["ann",0],["bob",1000]],"sites":2,"version":1}'


def main() -> int:
    me, path, *more = sys.argv[1:] if len(sys.argv) > 2 else ("", "", "usage")
    if more not in ([], ["--new"]):
        print(__doc__, file=sys.stderr)
        return 2
    with rbbank.Journal(path, int(me), CONFIG, new=bool(more)) as site:
        for line in sys.stdin.buffer:
            try:
                reply = site.answer(line.removesuffix(b"\n"))
            except rbbank.BadLine:
                reply = site.reply()
            if reply:
                print(reply, flush=True)
    return 0


if __name__ == "__main__":
    sys.exit(main())
