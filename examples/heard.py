"""What may be tried in a position, and what may be heard of it; what comes next in a plan. What examples/try-of and examples/practice share.
The program says which tries are legal, and what is told of them."""

import pathlib
import sys

import texts

sys.path.insert(0, str(pathlib.Path(__file__).resolve().parent.parent / "tests"))
import strategies

OTHER = {"w": "b", "b": "w"}
SQUARES = [file + rank for rank in "12345678" for file in "abcdefgh"]


def judged(head, position, side, tries):
    """What a side is told of its tries in a position. The dialect is that of the first lines of a sheet."""
    first = [line.replace("sheet", "session") for line in head[:-1]]
    lines = [*first, f"start {position}", *(f"{side} {move}" for move in tries), "end", ""]
    said = texts.answer(["umpire", "all"], "\n".join(lines)).splitlines()
    return [line[2:] for line in said if line.startswith(f"{side} try ")]


def all_tries(side, men):
    """Every try from a square of an own man, also those that no man can make; promotions where a pawn stands before its last rank."""
    for square in SQUARES:
        letter = men.get(square, "")
        if letter and letter.isupper() == (side == "w"):
            last = letter in "Pp" and square[1] == ("7" if side == "w" else "2")
            for to in SQUARES:
                yield from ([f"{square}{to}{kind}" for kind in "qrbn"] if last else [f"{square}{to}"])


def legal(head, position, side):
    """Each legal try in a position, with what the umpire says of it."""
    left, found = list(all_tries(side, texts.men(position))), {}
    while left:
        said = judged(head, position, side, left)
        done = next((i for i, line in enumerate(said) if " ok " in line), None)
        if done is None:
            return found
        _, move, _, words = said[done].split(" ", 3)
        found[move] = words
        left = left[done + 1 :]
    return found


def opening(head, position):
    """The opening words of a position."""
    first = [line.replace("sheet", "session") for line in head[:-1]]
    said = texts.answer(["umpire", "all"], "\n".join([*first, f"start {position}", "end", ""]))
    return said.split("\n")[0].removeprefix("w opens ")


def believed(head, positions, entries):
    """The positions that are possible where these were listed, behind what was tried and heard."""
    return texts.parts(texts.answer(["believe", "200000"], texts.sheet(head, positions, entries)))[1]


def replies(head, positions):
    """All that may be heard of the opponent's move in some of these positions."""
    side = OTHER[head[-1].split()[1]]
    return sorted({words for position in positions for words in legal(head, position, side).values()})


def openings(head, positions):
    """What may be heard before the player's first try, each as the lines of a sheet: the opening words, and where the opponent is to move
    what is said of his move."""
    waits = positions[0].split()[1] != head[-1].split()[1]
    for words in sorted({opening(head, position) for position in positions}):
        lines = [f"opens {words}"]
        if not waits:
            yield lines
            continue
        yield from ([*lines, f"heard {reply}"] for reply in replies(head, believed(head, positions, lines)))


def after(head, position, side, move, words):
    """The position after a legal move of a side, of which it is told these words: the only one that its sheet of that move leaves open."""
    return believed([*head[:-1], f"side {side}"], [position], [f"try {move} ok {words}"])[0]


def advised(text, lines):
    """What comes next for a player who follows a plan or a strategy and heard these lines."""
    followed = "\n".join([text.rstrip("\n"), *lines, ""])
    if text.startswith("krieg plan "):
        return texts.answer(["next"], followed).strip()
    if "advise" in texts.PROGRAMS:
        return texts.answer(["advise"], followed).strip()
    # The script that judges strategies without krieg says it too.
    try:
        return strategies.advised(followed.encode())
    except strategies.BadLine as bad:
        sys.exit(f"{pathlib.Path(sys.argv[0]).name}: {bad}")
