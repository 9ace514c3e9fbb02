#!/usr/bin/env bash
# Lemmas that nothing cites: definitions of crates/*/proofs that no answer, no invariant, no clause's tactic and no other lemma that
# is itself cited names. A name counts where its file, or a file that imports it from there, has it as a word outside of its own
# definition. So it is of the names that a crate's proofs/Common.antt has for its files: one that no file takes is told. Quiet where there
# is none; else a line each, and status 1.
cd "$(dirname "$(readlink -f "$0")")/../.." || exit 1
exec python3 - <<'PY'
import glob
import re
import sys

WORD = re.compile(r"[^\s(){}\[\];,.:`|]+")
HEAD = re.compile(r"(?:(?:abbrev|unfoldable|opaque|pub)\s+)*(?:(?:record|data)\s+)?([^\s:({]+)\s*(?::\s|[({].*:\s*Type)")
LINES = re.compile(r"^(?:(?:unfoldable )?pub )?use (?:(Rattle(?:\.\w+)+)\.\{(.*)\}|.*)$|^--.*$", re.M)


def words(text):
    return set(WORD.findall(text))


def definitions(text):
    """Each name that a file defines at the margin, and the words of its definition; by the empty name those of its modules."""
    found, name = {"": set()}, None
    for line in text.split("\n"):
        head = HEAD.match(line) if line[:1].strip() and not line.startswith(("use ", "--")) else None
        if line.startswith(("module ", "syntax ", "ruleset ")):
            name = ""
        elif head and head[1] not in found:
            name = head[1]
        if name is not None and not line.startswith("--"):
            found.setdefault(name, set()).update(words(line))
    return found


lemmas, cited, work, taken = {}, set(), [], set()
for path in glob.glob("crates/*/proofs/**/*.antt", recursive=True) + glob.glob("crates/*/specs/**/*.antt", recursive=True):
    with open(path, encoding="utf-8") as file:
        text = file.read()
    imports = {}
    for module, names in ((m[1], m[2]) for m in LINES.finditer(text) if m[1]):
        for name in names.split(","):
            first, _, other = name.strip().partition(" as ")
            imports[(other or first).strip()] = (module, first.strip())
    taken.update(imports.values())
    module = "Rattle." + path[len("crates/"):-len(".antt")].replace("/", ".")
    if re.search(r"/(Answers|Invariants|Proof|Lib)\.antt$", path) or "/specs/" in path:
        work.append((module, imports, words(LINES.sub("", text))))
    if not re.search(r"/(Answers|Invariants|Proof|Lib)\.antt$", path):
        lemmas[module] = (path, imports, definitions(text))
        work.append((module, imports, lemmas[module][2].pop("")))
for path in glob.glob("crates/*/src/**/*.rt", recursive=True):
    with open(path, encoding="utf-8") as file:
        for named in re.findall(r"proofs::([\w:]+)", file.read()):
            work.append((f"Rattle.{path.split('/')[1]}.proofs.{named.rpartition('::')[0].replace('::', '.')}", {}, {named.rpartition("::")[2]}))
while work:
    module, imports, used = work.pop()
    for word in used:
        place = (module, word) if word in lemmas.get(module, ("", {}, {}))[2] else imports.get(word)
        if place and place[0] in lemmas and place not in cited:
            cited.add(place)
            _, others, defined = lemmas[place[0]]
            work.append((place[0], others, defined.get(place[1], set())))
            if place[1] not in defined:
                work.append((place[0], others, {place[1]}))
wrong = [f"{path}: nothing cites {name}" for module, (path, _, defined) in lemmas.items() if "/proofs/" in path
         for name in defined if (module, name) not in cited]
wrong += [f"{path}: nothing takes {name}" for module, (path, imports, _) in lemmas.items() if module.endswith(".proofs.Common")
          for name in imports if (module, name) not in taken]
print("\n".join(sorted(wrong)), end="\n" if wrong else "")
sys.exit(bool(wrong))
PY
