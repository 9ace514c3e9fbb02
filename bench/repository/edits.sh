#!/usr/bin/env bash
# Holds the wrong edits to the sources, without a proof: each file of more-edits/CRATE and of crates/CRATE/must-fail is an edit of
# a crate that exists, in lines `file: PATH`, `old: TEXT` and `new: TEXT` alone; each old text stands just once in its file, after
# the pairs before it, and the whole changes something. No name stands in both folders. So no edit rots unseen: `rt ci` passes
# over one that cannot be made, and tries none of more-edits. Quiet where all is so; else prints what is amiss, and ends with
# status 1.
set -u
cd "$(dirname "$(readlink -f "$0")")/../.." || exit 1
python3 - <<'END'
import glob
import os
import re
import sys


def amiss(edit, crate):
    """Says why the edit cannot be made in the folder of its crate, or nothing."""
    texts, before, path, old = {}, {}, None, None
    with open(edit, encoding="utf-8") as file:
        lines = file.read().split("\n")
    for line in lines:
        word, _, text = line.partition(": ") if line != "new:" else ("new", "", "")
        if word == "file":
            path, old = text.strip(), None
            if not re.fullmatch(r"(src|specs|proofs)/[^/].*", path) or not os.path.isfile(f"{crate}/{path}"):
                return f"there is no file {path}"
            if path not in texts:
                with open(f"{crate}/{path}", encoding="utf-8") as file:
                    texts[path] = before[path] = file.read()
        elif word == "old" and path and text:
            old = text
        elif word == "new" and old:
            if texts[path].count(old) != 1:
                return f"{path} has {texts[path].count(old)} times, and not once: {old}"
            texts[path], old = texts[path].replace(old, text), None
        elif line.strip():
            return f"a line that is not read: {line}"
    return "an old text without a new one" if old else None if texts != before else "it changes nothing"


wrong = []
for edit in sorted(glob.glob("more-edits/**", recursive=True) + glob.glob("crates/*/must-fail/**", recursive=True)):
    if os.path.isdir(edit):
        continue
    parts = edit.split("/")
    crate = f"crates/{parts[1]}"
    if parts[-1].endswith(".md"):
        continue
    if len(parts) != (3 if parts[0] == "more-edits" else 4) or not re.fullmatch(r"[A-Za-z0-9_-][A-Za-z0-9_.-]*\.edit", parts[-1]):
        wrong.append(f"{edit}: no name of an edit: more-edits/CRATE/NAME.edit, or crates/CRATE/must-fail/NAME.edit")
    elif not os.path.isdir(f"{crate}/src"):
        wrong.append(f"{edit}: there is no crate {parts[1]}")
    elif parts[0] == "more-edits" and os.path.exists(f"{crate}/must-fail/{parts[-1]}"):
        wrong.append(f"{edit}: crates/{parts[1]}/must-fail has an edit of that name too")
    else:
        why = amiss(edit, crate)
        wrong += [f"{edit}: {why}"] if why else []
print(*wrong, sep="\n", end="\n" * bool(wrong), file=sys.stderr)
sys.exit(1 if wrong else 0)
END
