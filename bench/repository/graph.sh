#!/usr/bin/env bash
# Holds crates.txt to the sources. A crate lists each library that its sources name (src/, specs/ and proofs/), and nothing else:
# what it lists and does not name makes its proof wait, and be done again, for nothing. Words in comments and texts do not
# count. Quiet where all is so; else prints what is amiss, and ends with status 1.
set -u
cd "$(dirname "$(readlink -f "$0")")/../.." || exit 1
python3 - <<'END'
import os
import re
import sys

with open("crates.txt", encoding="utf-8") as file:
    lists = {name: rest.split() for name, _, rest in (line.partition(":") for line in file) if name.strip()}
libraries = {name for listed in lists.values() for name in listed} | set(lists)
# Comments and texts of Rattle, and comments of ANTT.
PASSED = {
    ".rt": re.compile(r"""//[^\n]*|/\*.*?\*/|b?"(?:\\.|[^"\\])*"|b?'(?:\\.[^']*|[^\\'])'""", re.S),
    ".antt": re.compile(r"--[^\n]*"),
}


def named(crate):
    """The libraries that the sources of the crate name, as the first word of a path, or after `Rattle.`."""
    found = set()
    for part in ("src", "specs", "proofs"):
        for folder, _, names in os.walk(f"crates/{crate}/{part}"):
            for name in names:
                kind = os.path.splitext(name)[1]
                if kind in PASSED:
                    with open(f"{folder}/{name}", encoding="utf-8") as file:
                        text = PASSED[kind].sub(" ", file.read())
                    found.update(re.findall(r"(?<![\w.:])(\w+)\s*::|\bRattle\.(\w+)|(?<![\w.])use\s+(\w+)\s*;", text))
    return {word for words in found for word in words} & libraries - {crate}


wrong = []
for crate, listed in lists.items():
    names = named(crate)
    wrong += [f"{crate} lists {name}, which its sources do not name" for name in listed if name not in names]
    wrong += [f"{crate} does not list {name}, which its sources name" for name in sorted(names - set(listed))]
print(*wrong, sep="\n", end="\n" * bool(wrong), file=sys.stderr)
sys.exit(1 if wrong else 0)
END
