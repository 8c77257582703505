"""Boards with hidden men, and the positions of their choices. What examples/hidden and examples/twins share; examples/hidden says what such
a board is."""

import collections
import itertools
import pathlib
import re
import sys

import texts

MOST = 200_000
FIELDS = ["side to move (w or b)", "castling rights (-)", "mark (-)"]
SQUARES = [file + rank for rank in "12345678" for file in "abcdefgh"]


def script():
    """The script that runs, as it is called."""
    return f"examples/{pathlib.Path(sys.argv[0]).name}"


def fail(number, what):
    sys.exit(f"{script()}: line {number}: {what}")


def choices(number, words):
    """The squares that a line names, with None where the man may be nowhere."""
    found = []
    for word in words:
        block = re.fullmatch(r"([a-h])([1-8])(?:-([a-h])([1-8]))?", word)
        if word == "*":
            found += SQUARES
        elif word == "-":
            found.append(None)
        elif re.fullmatch("![a-h][1-8]", word):
            found = [square for square in found if square != word[1:]]
        elif block:
            file, rank, to_file, to_rank = (block[1], block[2], block[3] or block[1], block[4] or block[2])
            found += [square for square in SQUARES if min(file, to_file) <= square[0] <= max(file, to_file)
                      and min(rank, to_rank) <= square[1] <= max(rank, to_rank)]
        else:
            fail(number, f"{word} is not a square")
    return list(dict.fromkeys(found))


def board_fault(words):
    """What makes a line no board with its fields, or nothing; the rest the program judges."""
    ranks = words[0].split("/")
    counts = [sum(int(letter) if letter.isdigit() else 1 for letter in rank) for rank in ranks]
    if len(ranks) == 1:
        return "this is not a position"
    if re.search("[^PNBRQKpnbrqk1-8/]", words[0]):
        return "this is not a position: men are P, N, B, R, Q, K and p, n, b, r, q, k"
    if len(ranks) != 8:
        return f"this is not a position: the board has {len(ranks)} ranks, and not 8"
    for number, count in zip("87654321", counts):
        if count != 8:
            return f"this is not a position: rank {number} has {count} squares"
    if len(words) < 4:
        return f"this is not a position: missing behind the board: {', '.join(FIELDS[len(words) - 1 :])}"
    return None if len(words) in (4, 6) else "this is not a position"


def read(lines):
    """The known men with the fields behind them, the hidden ones with their choices, the first lines and the entries."""
    known = rest = None
    hidden, head, entries, dialect = [], {"side": "w"}, [], None
    for number, line in enumerate(lines, 1):
        words = line.split()
        if not words:
            continue
        if known is None:
            if board_fault(words):
                fail(number, board_fault(words))
            known, (_, rest) = texts.men(words[0]), line.strip().split(" ", 1)
        elif re.fullmatch("[pnbrqkPNBRQK]:", words[0]):
            hidden.append((words[0][0], choices(number, words[1:])))
        elif words[0] in ("opens", "try", "heard"):
            entries.append(line.strip())
        elif len(words) == 2 and words[0] in ("side", "dialect"):
            head[words[0]] = words[1]
        else:
            fail(number, "this is not a line of a board")
    if known is None:
        fail(1, "this is not a position")
    first = ["krieg sheet 2", f"dialect {head['dialect']}"] if "dialect" in head else ["krieg sheet 1"]
    return known, rest, hidden, [*first, f"side {head['side']}"], entries


def placed(known, rest, hidden):
    """Each choice as a position, once."""
    found = {}
    for squares in itertools.product(*(squares for _, squares in hidden)):
        there = [square for square in squares if square]
        if len(set(there)) == len(there) and not known.keys() & set(there):
            men = known | {square: letter for (letter, _), square in zip(hidden, squares) if square}
            found[texts.position(men, rest)] = None
        if len(found) > MOST:
            sys.exit(f"{script()}: more than {MOST} positions")
    return list(found)


def valid(head, positions):
    """Those that the program takes for positions, and how many others there are by what is wrong with them."""
    faults = collections.Counter()
    good, left = [], positions
    while left:
        status, _, err = texts.ask(["believe", str(MOST)], texts.sheet(head, left))
        fault = re.match(r"krieg: line (\d+): (.*)", err)
        if status == 0:
            good += left
            break
        if status not in (3, 4) or not fault or int(fault[1]) <= len(head) + 1:
            sys.exit(f"{script()}: {err.splitlines()[0]}")
        bad = int(fault[1]) - len(head) - 2
        faults[fault[2]] += 1
        good += left[:bad]
        left = left[bad + 1 :]
    return good, faults
