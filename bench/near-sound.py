#!/usr/bin/env python3
"""Draws problems near sound ones: `bench/near-sound.py SEED COUNT` prints so many, a line each, as `pg judge` reads them.

Each begins with the game of one of bench/sound-problems, and has one change or two: a ply is another move (half of the
changes), or two plies in a row are put in, or two are left out. All others are the same moves from square to square;
a change that makes one of them illegal is drawn again at another place. The changed game stands in the line as the
author's. No two problems have one diagram, and none has that of a sound one."""
import os
import random
import re
import sys

ARRAY = "RNBQKBNR" + "P" * 8 + "." * 32 + "p" * 8 + "rnbqkbnr"
START = (ARRAY, True, frozenset(), None)  # the board from a1 to h8, whether White moves, squares left or come to, the passed square
LINES = {"R": [(0, 1), (1, 0), (0, -1), (-1, 0)], "B": [(1, 1), (1, -1), (-1, 1), (-1, -1)]}
LINES["Q"] = LINES["K"] = LINES["R"] + LINES["B"]
LINES["N"] = [(a, b) for a in (-2, -1, 1, 2) for b in (-2, -1, 1, 2) if abs(a) != abs(b)]
LINES["P"] = [(-1, 1), (1, 1)]
CHANGES = [(1, 1), (1, 1), (2, 0), (0, 2)]  # so many plies are put in, and so many left out
SOUND = os.path.join(os.path.dirname(os.path.abspath(__file__)), "sound-problems")


def attacked(board, square):
    """The squares that the man there attacks."""
    man = board[square]
    for x_step, y_step in LINES[man.upper()]:
        y_step = -y_step if man == "p" else y_step
        x, y = square % 8 + x_step, square // 8 + y_step
        while 0 <= x < 8 and 0 <= y < 8:
            yield 8 * y + x
            if board[8 * y + x] != "." or man in "PpNnKk":
                break
            x, y = x + x_step, y + y_step


def is_attacked(board, square, white):
    """Whether White attacks the square, or Black."""
    return any(man != "." and man.isupper() == white and square in attacked(board, source) for source, man in enumerate(board))


def play(position, move):
    """The position after a move: the squares from and to, and what a pawn becomes."""
    board, white, touched, passed = position
    source, target, becomes = move
    man, cells = board[source], list(board)
    cells[source], cells[target] = ".", becomes or man
    if man in "Pp" and target == passed:
        cells[target - (8 if white else -8)] = "."
    if man in "Kk" and abs(target - source) == 2:
        corner = target + 1 if target > source else target - 2
        cells[(source + target) // 2], cells[corner] = cells[corner], "."
    passed = (source + target) // 2 if man in "Pp" and abs(target - source) == 16 else None
    return "".join(cells), not white, touched | {source, target}, passed


def castlings(position, king):
    """Where the king may castle to."""
    board, white, touched, _ = position
    home = 4 if white else 60
    for corner, step in (home + 3, 1), (home - 4, -1):
        if king != home or touched & {home, corner} or set(board[min(home, corner) + 1:max(home, corner)]) != {"."}:
            continue
        if not any(is_attacked(board, home + step * far, not white) for far in range(3)):
            yield home + 2 * step


def moves_of(position, source):
    """The legal moves of the man there, if he is of the side that moves."""
    board, white, _, passed = position
    man = board[source]
    if man == "." or man.isupper() != white:
        return
    targets = [to for to in attacked(board, source) if board[to] == "." or board[to].isupper() != white]
    if man in "Pp":
        targets = [to for to in targets if board[to] != "." or to == passed]
        ahead = 8 if white else -8
        for far in range(1, 3 if source // 8 == (1 if white else 6) else 2):
            if board[source + far * ahead] != ".":
                break
            targets.append(source + far * ahead)
    if man in "Kk":
        targets += castlings(position, source)
    for target in targets:
        for becomes in ("QRBN" if white else "qrbn") if man in "Pp" and target // 8 in (0, 7) else [""]:
            after = play(position, (source, target, becomes))[0]
            if not is_attacked(after, after.index("K" if white else "k"), not white):
                yield source, target, becomes


def legal_moves(position):
    return [move for source in range(64) for move in moves_of(position, source)]


def name(square):
    return "abcdefgh"[square % 8] + "12345678"[square // 8]


def read(position, word):
    """The move that a word says as `pg` writes it."""
    white, word = position[1], word.rstrip("+#")
    if word in ("O-O", "O-O-O"):
        home = 4 if white else 60
        return home, home + (2 if word == "O-O" else -2), ""
    man, origin, target, becomes = re.fullmatch("([KQRBN]?)([a-h]?[1-8]?)x?([a-h][1-8])(?:=([QRBN]))?", word).groups()
    said = [move for move in legal_moves(position) if position[0][move[0]].upper() == (man or "P") and name(move[1]) == target
            and set(origin) <= set(name(move[0])) and move[2].upper() == (becomes or "")]
    (move,) = said
    return move


def read_game(words):
    position, game = START, []
    for word in words:
        if not re.fullmatch(r"\d+\.+", word):
            game.append(read(position, word))
            position = play(position, game[-1])
    return game


def played(position, game):
    """The position after the moves; none where one of them is not legal."""
    for move in game:
        if move not in moves_of(position, move[0]):
            return None
        position = play(position, move)
    return position


def change(game, put_in, left_out, dice):
    """The game with so many plies put in at a drawn place, and so many left out; none where that is no game, or the same."""
    at = dice.randrange(len(game) + 1 - left_out)
    position, new = played(START, game[:at]), []
    for _ in range(put_in):
        moves = legal_moves(position)
        if not moves:
            return None
        new.append(dice.choice(moves))
        position = play(position, new[-1])
    rest = game[at + left_out:]
    return game[:at] + new + rest if new != game[at:at + left_out] and played(position, rest) else None


def draw(games, dice):
    game = dice.choice(games)
    for _ in range(dice.choice((1, 2))):
        kind, other = dice.choice(CHANGES), None
        while not other:
            other = change(game, *kind, dice)
        game = other
    return game


def placement(board):
    ranks = [board[start:start + 8] for start in range(56, -1, -8)]
    return re.sub(r"\.+", lambda empty: str(len(empty[0])), "/".join(ranks))


def print_problems(seed, count):
    with open(SOUND, encoding="utf-8") as file:
        problems = [line.split() for line in file if line.strip() and not line.startswith("#")]
    games = [read_game(words[3:]) for words in problems]
    dice, met, printed = random.Random(seed), {words[1] for words in problems}, 0
    while printed < count:
        game = draw(games, dice)
        diagram = placement(played(START, game)[0])
        if diagram not in met:
            met.add(diagram)
            printed += 1
            moves = " ".join(name(source) + name(target) + becomes.upper() for source, target, becomes in game)
            print(f"near-{seed}-{printed} {diagram} {len(game) // 2}.{len(game) % 2 * 5} {moves}")


if len(sys.argv) != 3 or not all(word.isdecimal() for word in sys.argv[1:]):
    sys.exit("bench/near-sound.py: a seed and how many problems are wanted")
print_problems(int(sys.argv[1]), int(sys.argv[2]))
