"""The limits, by the names of the constants in the Rust sources, which have their units; and the way to bank.py."""
import pathlib
import re
import sys

CRATES = pathlib.Path(__file__).resolve().parent.parent / "crates"
sys.path.append(str(CRATES.parent / "examples" / "tools"))
FILES = ("rb_money/src/limits.rt", "rb_money/src/cents.rt", "rb_money/src/rate.rt")
CONSTANT = re.compile(r"^pub const (\w+): \w+ = ([\d_]+);", re.MULTILINE)
LIMITS = {name: int(value) for file in FILES for name, value in CONSTANT.findall((CRATES / file).read_text())}


def version_of(sites):
    """The version of the lines of a configuration of this number of sites."""
    return 1 if sites <= LIMITS["MOST_SITES_OF_VERSION_1"] else 2
