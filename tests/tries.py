"""Which first tries mate as fast, by a search for each of them: `find` is asked what comes of each thing that may be heard behind a try.
What `keys` answers in one search must be the same. tests/examples uses it; it does nothing by itself."""

import pathlib
import sys

sys.path.insert(0, str(pathlib.Path(__file__).resolve().parent.parent / "examples"))
import texts
from heard import believed, legal

BUDGET = "50000000"


def mates(head, positions, entries, moves):
    """Whether there is a plan within so many moves."""
    if moves == 0:
        return False
    return not texts.answer(["find", str(moves), BUDGET, "200000"], texts.sheet(head, positions, entries)).startswith("none")


def begins(head, positions, heard, found, move, moves):
    """Whether a plan that begins with this try mates within so many moves behind what was heard; `found` has the legal tries of each
    position that may stand then."""
    told = {lines[move] for lines in found.values() if move in lines}
    if any(words.endswith("stalemate") for words in told):
        return False
    sets = [([f"try {move} ok {words}"], moves - 1) for words in told if not words.endswith("mate")]
    if any(move not in lines for lines in found.values()):
        sets.append(([f"try {move} illegal"], moves))
    return all(mates(head, positions, [*heard, *entries], most) for entries, most in sets)


def first_tries(sheet, heard, most):
    """The least number of moves behind these lines that are heard first, which is at most this one, and the tries with which it is enough."""
    head, positions, _ = texts.parts(sheet)
    side = head[-1].split()[1]
    found = {position: legal(head, position, side) for position in believed(head, positions, heard)}
    least = next((n for n in range(1, most) if mates(head, positions, heard, n)), most)
    tries = sorted({move for lines in found.values() for move in lines}, key=order)
    good = [move for move in tries if begins(head, positions, heard, found, move, least)]
    return least, [move + " no" * any(move not in lines for lines in found.values()) for move in good]


def order(move):
    """The place of a move among all: by its first square, its second one, and the man of a promotion."""
    return move[1], move[0], move[3], move[2], " qrbn".find(move[4:] or " ")
