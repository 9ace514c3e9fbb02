#!/usr/bin/env bash
# Holds the documents to the repository, without a proof: the program's version heads CHANGELOG.md; each link of a document to a
# file leads to one, and to a heading of it where it names one; each path that a document names in backticks is there; each source
# file begins with a line `//!` and each definition at the top of a specs/ with a line `--` that says what it is; and each crate
# stands in ARCHITECTURE, and each crate pg_* in PROVED. Quiet where all is so; else prints what is amiss, and ends with status 1.
#
#   bench/repository/documents.sh                    compares
#   bench/repository/documents.sh --list [CRATE..]   prints what each source file of these crates says that it is; of all where none is named
set -u
cd "$(dirname "$(readlink -f "$0")")/../.." || exit 1
exec python3 - "$@" <<'END'
import glob
import os
import re
import sys

wrong = []


def read(path):
    with open(path, encoding="utf-8") as file:
        return file.read()


def said(path, mark):
    """The first sentence of the comment with which a file begins."""
    words = []
    for line in read(path).split("\n"):
        if not line.startswith(mark) or not line[len(mark):].strip():
            break
        words.append(line[len(mark):].strip())
    if not words:
        wrong.append(f"{path}: its first line is no `{mark} ` with what the file is")
    return re.match(r"(.*?[.](?= |$)|.*)", " ".join(words))[0]


def rows(folder, kind, mark):
    """A row for each file of the kind in the folder and below it, by its path there."""
    paths = sorted(path for path in glob.glob(f"{folder}/**/*{kind}", recursive=True))
    return {os.path.relpath(path, folder): said(path, mark) for path in paths}


def listed(crate):
    """What each source file of a crate says that it is, a line for each."""
    sources = rows(f"crates/{crate}/src", ".rt", "//!")
    first = "main.rt" if "main.rt" in sources else "lib.rt"
    text = f"\n{crate}: {sources.pop(first, '')}\n"
    definitions = sorted(path for path in glob.glob(f"crates/{crate}/specs/*.antt") if not is_list(path))
    sources |= {"specs/" + os.path.basename(path): said(path, "--") for path in definitions}
    return text + "".join(f"    {name}  {what}\n" for name, what in sources.items())


def is_list(path):
    """Whether a file of specs/ names modules and defines nothing."""
    return all(line.startswith(("pub mod ", "mod ", "--")) for line in read(path).split("\n") if line.strip())


def anchors(path):
    heads = re.findall(r"^#+ (.*)$", re.sub(r"^```.*?^```", "", read(path), flags=re.S | re.M), re.M)
    return {re.sub(r"[^\w\- ]", "", head.lower()).replace(" ", "-") for head in heads}


def links(path):
    """What is amiss with the links and the named paths of a document."""
    text = re.sub(r"^```.*?^```", "", read(path), flags=re.S | re.M)
    for target in re.findall(r"\]\(([^)\s]+)\)", text):
        if re.match(r"[a-z]+:", target):
            continue
        name, _, heading = target.partition("#")
        file = os.path.normpath(os.path.join(os.path.dirname(path), name)) if name else path
        if not os.path.exists(file):
            yield f"{path}: there is no {target}"
        elif heading and heading not in anchors(file):
            yield f"{path}: {file} has no heading #{heading}"
    for name in re.findall(r"`((?:bench|crates|docs|examples|more-edits)/[\w./-]+)`", text):
        if not re.search(r"/[A-Z]+(/|$)", name) and not os.path.exists(name):
            yield f"{path}: there is no {name}"


crates = re.findall(r"^(\w+):", read("crates.txt"), re.M)
for document, pattern in (("docs/ARCHITECTURE.md", ""), ("docs/PROVED.md", "pg_")):
    wrong += [f"{document} says nothing of {crate}" for crate in crates
              if crate.startswith(pattern) and f"`{crate}`" not in read(document)]
version = re.search(r'\.version\("([^"]+)"\)', "".join(map(read, glob.glob("crates/pg_words/src/*.rt"))))
newest = re.search(r"^## (\d\S*)", read("CHANGELOG.md"), re.M)
if not version or not newest or version[1] != newest[1]:
    wrong.append(f"CHANGELOG.md begins with version {newest and newest[1]}, and pg --version says {version and version[1]}")
words = sys.argv[1:]
if words and (words[0] != "--list" or set(words[1:]) - set(crates)):
    sys.exit("bench/repository/documents.sh: --list and names of crates are the only words that it takes")
made = [listed(crate) for crate in words[1:] or crates]
if words:
    print("".join(made).lstrip("\n"), end="")
    sys.exit()
for document in ["README.md", "CHANGELOG.md", "CONTRIBUTING.md", "examples/README.md", *sorted(glob.glob("docs/*.md"))]:
    wrong += links(document) if os.path.exists(document) else [f"there is no {document}"]
print(*wrong, sep="\n", end="\n" * bool(wrong), file=sys.stderr)
sys.exit(1 if wrong else 0)
END
