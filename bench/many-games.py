"""Prints the trees of a certificate with more than 4,096 games: the pawns a to e of each side go one step, in any order, in ten plies.

Every other move is cut by travel. Once so many games are there, all that is left is cut, which nothing gets to judge."""
import sys

ARRAY = "RNBQKBNR" + "P" * 8 + "." * 32 + "p" * 8 + "rnbqkbnr"
LINES = {"R": [(0, 1), (1, 0), (0, -1), (-1, 0)], "B": [(1, 1), (1, -1), (-1, 1), (-1, -1)]}
LINES["Q"] = LINES["K"] = LINES["R"] + LINES["B"]
LINES["N"] = [(a, b) for a in (-2, -1, 1, 2) for b in (-2, -1, 1, 2) if abs(a) != abs(b)]
GAMES = 4200
CUT = b"\x02\x04"


def targets(board, square):
    """The squares to which the man there goes; no king is near any check here, so each such move is legal."""
    man, file, rank = board[square], square % 8, square // 8
    white, found = man.isupper(), []
    if man in "Pp":
        ahead = 8 if white else -8
        if board[square + ahead] == ".":
            found.append(square + ahead)
            if rank == (1 if white else 6) and board[square + 2 * ahead] == ".":
                found.append(square + 2 * ahead)
        sides = [square + ahead + step for step in (-1, 1) if 0 <= file + step < 8]
        return sorted(found + [to for to in sides if board[to] != "." and board[to].isupper() != white])
    for step in LINES[man.upper()]:
        x, y = file + step[0], rank + step[1]
        while 0 <= x < 8 and 0 <= y < 8:
            there = board[8 * y + x]
            if there == "." or there.isupper() != white:
                found.append(8 * y + x)
            if there != "." or man in "KkNn":
                break
            x, y = x + step[0], y + step[1]
    return sorted(found)


def leads(board, square, to):
    """Whether the move is the first step of a pawn of the files a to e, and a single one."""
    return board[square] in "Pp" and square % 8 < 5 and square // 8 in (1, 6) and abs(to - square) == 8


def tree(board, white, left, games):
    """The records of a node with so many plies left, and how many games there are with those below it."""
    if left == 0:
        return [], games + 1
    if games >= GAMES:
        return [CUT], games
    records = [b"\x01"]
    for square in range(64):
        if board[square] == "." or board[square].isupper() != white:
            continue
        for to in targets(board, square):
            if leads(board, square, to):
                after = board[:]
                after[to], after[square] = after[square], "."
                below, games = tree(after, not white, left - 1, games)
                records += below
            elif left > 1:
                records.append(CUT)
    return records, games


sys.stdout.buffer.write(CUT * 9 + b"".join(tree(list(ARRAY), True, 10, 0)[0]))
