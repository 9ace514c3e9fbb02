#!/usr/bin/env bash
# What `pg pgn` reads and `pg games --pgn` writes, beside Debian's pgn-extract: 500 files, made by a fixed rule of the games of
# bench/sound-problems, with tags, comments, variations, NAGs, marks, results, lines of 40 kB, CR LF, a byte order mark and up to a
# thousand games; a fifth of them spoiled. Both are to read the same games of a file, or both to find it at fault. Where they differ on
# purpose the file's kind is named below, with the reason, and pg is to do what stands there. What is written of each of these games pgn-extract reads as that game. Without it nothing is tried, which is told in a
# line `not tried: `. Quiet where all is so; else prints each difference, and ends with status 1. PG may name the program.
PATH=$PATH:/usr/games
command -v pgn-extract >/dev/null || { echo 'not tried: bench/program/pgn.sh, for want of pgn-extract'; exit 0; }
echo 'not tried: bench/program/pgn.sh beside python3-chess, which Debian does not have'
. "$(dirname "$(readlink -f "$0")")/begin.sh"
exec python3 - "$pg" "$top/bench/sound-problems" "$work" <<'END'
import os
import random
import re
import subprocess
import sys

pg, known, work = sys.argv[1:]
games = []
with open(known, encoding="utf-8") as file:
    for line in file:
        if line.strip() and not line.startswith("#"):
            games.append([word for word in line.split()[3:] if not word[0].isdigit()])
drawn = random.Random(1)

# Kinds of files that the two read in another way, and whether pg reads them.
APART = {
    "another start": (False, "pg reads games from the initial array alone; pgn-extract plays on from the tag FEN"),
    "an illegal variation": (True, "pg passes variations over; pgn-extract plays them"),
    "a rest of a line": (True, "`;` begins a comment up to the end of the line by the PGN standard, section 5; pgn-extract knows it at the front of a line alone"),
    "an empty variation": (True, "pgn-extract wants a move in a variation"),
}
COMMENTS = ["{good}", "{a (b) ; [c]}", "{1. e4 e5}", "$1", "$139"]


def movetext(moves, strange):
    """The text of a game: with what a kind of file has between its moves."""
    parts = []
    for ply, move in enumerate(moves):
        if ply % 2 == 0:
            parts.append(f"{ply // 2 + 1}.")
        elif strange and drawn.random() < 0.1:
            parts.append(f"{ply // 2 + 1}...")
        parts.append(move + drawn.choice(["", "", "", "!", "?!"] if strange else [""]))
        if strange and drawn.random() < 0.2:
            parts.append(drawn.choice(COMMENTS))
    return parts


def game(strange):
    """A game with its tags, its text and its moves: the first moves of one that is known."""
    moves = drawn.choice(games)
    moves = moves[: drawn.randrange(2, len(moves) + 1)]
    parts, result = movetext(moves, strange), drawn.choice(["*", "1-0", "0-1", "1/2-1/2"])
    if strange and drawn.random() < 0.3 and parts[2][0] != "$":  # (pgn-extract takes no NAG behind a variation)
        parts.insert(2, "(1. d4 (1. c4 {deep (er}) 1... d5)")
    width = drawn.choice([40, 80, 40000])
    lines, line = [], ""
    for part in parts + [result]:
        if line and len(line) + len(part) > width:
            lines.append(line)
            line = ""
        line = f"{line} {part}" if line else part
    tags = [f'[{name} "{value}"]' for name, value in
            (("Event", r'a \"b\" ] c' if strange else "a"), ("White", "N. N."), ("Result", result))]
    return "\n".join(tags + [""] + lines + [line, "", ""])


def spoiled(text):
    """A kind of fault, and the text with it: of the last game, so that no game before it is at fault."""
    kind = drawn.choice(["an illegal move", "no move", "an open comment", "another start", "an illegal variation", "a bracket too many", "a rest of a line", "an empty variation"])
    front, last = text.rsplit("[Event", 1)
    last = "[Event" + last
    if kind == "an illegal move":
        return kind, front + last.replace("1. ", "1. Qh5 ", 1)
    if kind == "no move":
        return kind, front + last.replace("1. ", "1. Zz9 ", 1)
    if kind == "an open comment":
        return kind, front + last.replace("1. ", "1. {open ", 1).replace("}", ")")
    if kind == "another start":
        return kind, front + last.replace('[White', '[SetUp "1"]\n[FEN "rnbqkbnr/pppppppp/8/8/8/8/PPPPPPPP/RNBQKBNR w KQkq - 0 1"]\n[White', 1)
    if kind == "an illegal variation":
        return kind, front + re.sub(r"(1\. \S+)", r"\1 (1. Ke2)", last, count=1)
    if kind == "a rest of a line":
        return kind, front + last.replace("1. ", "; 1. b4 {\n1. ", 1)
    if kind == "an empty variation":
        return kind, front + re.sub(r"(1\. \S+)", r"\1 ({none})", last, count=1)
    return kind, front + last.replace("1. ", "1. ) ", 1)


def ran(words, given=b""):
    done = subprocess.run(words, capture_output=True, input=given)
    return done.returncode, done.stdout.decode(), done.stderr.decode(errors="replace")


def peer(path):
    """The games that pgn-extract reads, a line each, or None where it finds fault."""
    _, out, said = ran(["pgn-extract", "-s", "-C", "-N", "-V", "--notags", "--noresults", "-w", "1000000", path])
    if re.sub(r"Games: \d+", "", said).strip():
        return None
    return [" ".join(part.split()) for part in out.split("\n") if part.strip()]


wrong = 0
both = faults = 0
for number in range(500):
    strange = number % 4 != 0
    count = 1000 if number == 250 else drawn.choice([1, 1, 2, 5])
    text, kind = "".join(game(strange) for _ in range(count)), "sound"
    if number % 5 == 4:
        kind, text = spoiled(text)
    if number % 7 == 3:
        text = text.replace("\n", "\r\n")
    path = os.path.join(work, f"{number}.pgn")
    with open(path, "w", encoding="utf-8", newline="") as file:
        file.write(text)
    status, out, said = ran([pg, "pgn", path])
    mine = out.splitlines() if status == 0 else None
    if kind in APART:
        if (mine is not None) != APART[kind][0]:
            print(f"file {number}, {kind}: pg {'reads' if mine is not None else 'refuses'} it: {said}", file=sys.stderr)
            wrong = 1
        continue
    theirs = peer(path)
    if mine is None and theirs is None:
        faults += 1
    elif mine == theirs:
        both += 1
    else:
        print(f"file {number}, {kind}: pg: {status} {said.strip()[:200]} {mine and mine[-1]!r}; pgn-extract: {theirs and theirs[-1]!r}", file=sys.stderr)
        wrong = 1
# What pg writes of each known game the peer reads as that game.
for number, moves in enumerate(games):
    line = ran([pg, "end", " ".join(moves)])[1].splitlines()
    asked = [line[1].removeprefix("diagram "), line[2].removeprefix("length ")]
    path = os.path.join(work, f"sent-{number}.pgn")
    status, out, said = ran([pg, "games", *asked, "-", "--pgn"], " ".join(moves).encode())
    with open(path, "w", encoding="utf-8") as file:
        file.write(out)
    if status != 0 or max(map(len, out.splitlines())) >= 80 or peer(path) != [line[0]] or ran([pg, "pgn", path])[1] != line[0] + "\n":
        print(f"game {number} is written otherwise: {status} {said} {peer(path)!r}", file=sys.stderr)
        wrong = 1
if both < 300 or faults < 20:
    print(f"only {both} files are read by both, and {faults} by neither", file=sys.stderr)
    wrong = 1
sys.exit(wrong)
END
