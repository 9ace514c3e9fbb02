#!/usr/bin/env python3
"""How often the last line of `pg show DIAGRAM LENGTH` holds: how many nodes a search by journeys may visit.

`bench/forecast.py SEED..` draws problems by `bench_checks chance SEED MOVES 4 [SLACK]`, of 3 to 12 moves, without SLACK
and with 0 and 1. Where a search meets a shorter game, the problem is asked for that length. Those whose search by
journeys ends within a million nodes and 30 seconds of CPU time with a certificate that a check takes, of a game or
more, and for which there is such a line are counted: how many of them visit as many nodes as it says.
`bench/forecast.py -` does the same with the problems on standard input, a diagram and a length a line. Prints a row for
each problem: what it is (`many`: more than 4,096 games; `open`: no end), its nodes, the two numbers of the line, plies,
captured men, free men, by how many plies the least length is shorter, and its diagram; then the sums. It measures, and
holds nothing. Both programs are to be built; PG and BENCH may name them, JOBS how many run side by side."""
import os
import re
import resource
import subprocess
import sys
from concurrent.futures import ThreadPoolExecutor
from pathlib import Path

CRATES = Path(__file__).resolve().parent.parent / "crates"
PG = os.environ.get("PG", CRATES / "pg_cli/out/pg_cli")
BENCH = os.environ.get("BENCH", CRATES / "bench_checks/out/bench_checks")
MOVES = range(3, 13)
SLACKS = [[], ["0"], ["1"]]
NODES, SECONDS, EACH = "1000000", 30, "4"
UNITS = {"": 1, "thousand": 10**3, "million": 10**6, "billion": 10**9}
LINE = re.compile(r"may visit (\d+) ?([a-z]*) to (\d+) ?([a-z]*)(?: or more)? nodes")


def said(*words):
    """What a program prints, on either stream; it ends after so many seconds of CPU time."""
    limit = lambda: resource.setrlimit(resource.RLIMIT_CPU, (SECONDS, SECONDS))
    done = subprocess.run(words, capture_output=True, text=True, preexec_fn=limit, check=False)
    return done.stdout + done.stderr


def drawn(seed):
    """The problems of a seed, each once: diagrams and lengths."""
    lines = [said(BENCH, "chance", seed, str(moves), EACH, *slack) for moves in MOVES for slack in SLACKS]
    return list(dict.fromkeys(tuple(line.split()) for line in "".join(lines).splitlines()))


def plies_of(length):
    """A length in plies."""
    moves, half = length.split(".")
    return 2 * int(moves) + (half == "5")


def settled(diagram, length):
    """The length for which a search ends or gives up, what the problem is then, and its nodes, 0 where it gives up."""
    while True:
        text = said(BENCH, "search", diagram, length, NODES, "journeys", "check")
        found = re.search(r"games (\d+) .* nodes (\d+)", text)
        shorter = re.search(r"a game of (\d+) plies", text)
        if found:
            return length, {"0": "none", "1": "sound"}.get(found[1], "cooked"), int(found[2])
        if not shorter:
            return length, "many" if "more than 4096 games" in text else "open", 0
        length = f"{int(shorter[1]) // 2}.{int(shorter[1]) % 2 * 5}"


def asked(problem):
    """A row for a problem: what it is, its nodes, the numbers of the line, and what the line goes by."""
    length, kind, nodes = settled(*problem)
    text = said(PG, "show", problem[0], length)
    line = LINE.search(text)
    low, high = (int(line[1]) * UNITS[line[2]], int(line[3]) * UNITS[line[4]]) if line else ("-", "-")
    still = sum(len(men.split(",")) for men in re.findall(r"never moved: (.*)", text))
    captured = sum(map(int, re.findall(r"captured (\d+)", text)))
    least = re.search(r"shorter than (.*)", text)
    spare = plies_of(length) - plies_of(least[1]) if least else "-"
    return kind, nodes, low, high, plies_of(length), captured, 32 - still, spare, problem[0]


def main():
    """Asks about all problems, and prints the rows and the sums."""
    given = [tuple(line.split()[:2]) for line in sys.stdin] if sys.argv[1:] == ["-"] else []
    problems = given or [problem for seed in sys.argv[1:] for problem in drawn(seed)]
    rows = []
    with ThreadPoolExecutor(int(os.environ.get("JOBS", "2"))) as pool:
        for row in pool.map(asked, problems):
            print(*row, flush=True)
            rows.append(row)
    told = [row for row in rows if row[0] in ("sound", "cooked") and row[2] != "-"]
    for kinds in (["sound"], ["cooked"], ["sound", "cooked"]):
        chosen = [row for row in told if row[0] in kinds]
        within = sum(low <= nodes <= high for _, nodes, low, high, *_ in chosen)
        above = sum(nodes > high for _, nodes, _, high, *_ in chosen)
        print(f"{' and '.join(kinds)}: {within} of {len(chosen)} within, {above} above")


main()
