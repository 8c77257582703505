"""What the scripts beside this file share: their pages, calls of the program, positions by squares, and the listed positions of a sheet.

It knows no rules: whether a position is valid and a move legal, the program says."""

import pathlib
import re
import subprocess
import sys

TOP = pathlib.Path(__file__).resolve().parent.parent
sys.path.insert(0, str(TOP / "docs"))
import commands
from usage import show_help
KRIEG = TOP / "krieg"
CRATES = TOP / "crates"
EXAMPLES = TOP / "examples"
# Folders of plans that are judged and neither drawn nor played: each has a table of its own.
UNDRAWN = {"endings", "mastered"}
# What is said of a word that stands where a try does and is none.
NO_TRY = "a try is two squares, as g1f3 for Nf3 and e7e8q for e8=Q; castling is the king's move, as e1g1"
# The program of each command.
PROGRAMS = {name: it.program for name, it in commands.commands().items()}
# Whether the programs themselves are called, which saves time: behind a first call of ./krieg, which builds them where they are stale.
is_built = False


def command(words):
    """The program for these words, with them."""
    if not is_built:
        return [KRIEG, *words]
    program = PROGRAMS.get(words[0], "krieg")
    return [CRATES / program / "out" / program, *words]


def ask(words, text):
    """The status of a run, its answer, and what it says on standard error."""
    global is_built
    done = subprocess.run(command(words), input=text, capture_output=True, text=True)
    is_built = (CRATES / "krieg/out/built").exists()
    # Where nothing is built ./krieg says so first.
    said = [line for line in done.stderr.splitlines() if not line.startswith("krieg: this answer comes from")]
    return done.returncode, done.stdout, "\n".join(said)


def answer(words, text):
    """The answer of a run, which ends this script where the program refuses."""
    status, out, err = ask(words, text)
    if status != 0:
        sys.exit(f"{pathlib.Path(sys.argv[0]).name}: krieg {' '.join(words)}: {err}")
    return out


def is_try(word):
    """Whether a word is a move of the formats."""
    return re.fullmatch("(?:[a-h][1-8]){2}[qrbn]?", word) is not None


def men(position):
    """The men of a position by their squares, as {"b6": "K"}."""
    placed = {}
    for rank, row in zip("87654321", position.split()[0].split("/")):
        file = 0
        for letter in row:
            if letter.isdigit():
                file += int(letter)
            else:
                placed["abcdefgh"[file] + rank] = letter
                file += 1
    return placed


def position(placed, rest):
    """The text of the position with these men, and these fields behind them."""
    ranks = ["".join(placed.get(file + rank, " ") for file in "abcdefgh") for rank in "87654321"]
    board = "/".join(ranks)
    for empty in range(8, 0, -1):
        board = board.replace(" " * empty, str(empty))
    return f"{board} {rest}"


def drawn(placed):
    """The lines of a board with these men or words on its squares."""
    ranks = [rank + "".join(f"{placed.get(file + rank, '.'):>4}" for file in "abcdefgh") for rank in "87654321"]
    return [*ranks, " " + "".join(f"{file:>4}" for file in "abcdefgh")]


def parts(sheet):
    """A sheet's first lines up to its side, its listed positions, and the lines behind them up to `end`."""
    lines = sheet.splitlines()
    here = next(i for i, line in enumerate(lines) if line.startswith("list "))
    count = int(lines[here].split()[1])
    return lines[:here], lines[here + 1 : here + 1 + count], lines[here + 1 + count : -1]


def sheet(head, positions, entries=()):
    """The text of a sheet of these parts."""
    return "\n".join([*head, f"list {len(positions)}", *positions, *entries, "end", ""])


def keys(text):
    """What an answer of `keys` tells: for each thing that may be heard before the first try its line, the least number of moves, and the
    tries, with `no` behind one that may be refused."""
    lines = text.splitlines()
    here = next(i for i, line in enumerate(lines) if line.startswith("roots ")) + 1
    while lines[here] != "end":
        _, least, _, count = lines[here + 1].split()
        behind = here + 2 + int(count)
        yield lines[here], int(least), lines[here + 2 : behind]
        here = behind


def studies(ending):
    """Each file of a study with this ending. The whole endings and what is mastered of them are no studies."""
    return sorted(path for path in EXAMPLES.rglob(f"*{ending}") if path.parent.name not in UNDRAWN)


def rows(text):
    """The rows of the tables of a page that begin with a name: the name, and the row's cells by the heads of its table."""
    heads = []
    for line in text.split("\n"):
        cells = [cell.strip() for cell in line[1:-1].split("|")] if line.startswith("| ") else []
        name = re.match(r"\[?`([a-z0-9/-]+)`", cells[0]) if cells else None
        if not cells or cells[0] == "Name":
            heads = cells
        elif heads and name:
            if len(cells) != len(heads):
                sys.exit(f"{pathlib.Path(sys.argv[0]).name}: {name[1]}: its row has {len(cells)} cells")
            yield name[1], dict(zip(heads, cells))
