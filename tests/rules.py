"""Chess and the umpire's words, slowly and plainly from docs/RULES.md and docs/FORMATS.md alone, without krieg. For tests/refuter and
tests/strategies.py.

A board is a text of 64 letters from a1 to h8, with `.` where nothing stands. Squares are numbers, a1 is 0. A move is a from-square, a
to-square and a promotion, which is empty, `q`, `r`, `b` or `n`. Words are four numbers, in the order of words: the end, what was taken,
the checks and the tries."""

import collections
import functools
import re

Position = collections.namedtuple("Position", "board rights mark side")
Words = collections.namedtuple("Words", "end took checks tries")

SQUARES = [file + rank for rank in "12345678" for file in "abcdefgh"]
NUMBER = {name: number for number, name in enumerate(SQUARES)}
MEN = ".PNBRQKpnbrqk"
PROMOTIONS = ["", "q", "r", "b", "n"]
ENDS = ["", "mate", "stalemate"]
CHECKS = {"file": 1, "rank": 2, "long": 4, "short": 8, "knight": 16}
DIALECTS = ["wild16", "anytry", "plain"]
LEAPS = [(1, 2), (2, 1), (2, -1), (1, -2), (-1, -2), (-2, -1), (-2, 1), (-1, 2)]
LINES = [(0, 1), (1, 0), (0, -1), (-1, 0)]
DIAGONALS = [(1, 1), (1, -1), (-1, -1), (-1, 1)]
# Of each right: the squares of the king and of the rook, where the king arrives, and where he crosses.
CASTLING = {"K": (4, 7, 6, 5), "Q": (4, 0, 2, 3), "k": (60, 63, 62, 61), "q": (60, 56, 58, 59)}


class Fault(Exception):
    """A text is not a position; `kind` says why."""

    def __init__(self, kind):
        super().__init__(kind)
        self.kind = kind


def along(square, step):
    """The squares that lie from this one in a direction, the nearest first."""
    file, rank = square % 8 + step[0], square // 8 + step[1]
    found = []
    while 0 <= file < 8 and 0 <= rank < 8:
        found.append(8 * rank + file)
        file, rank = file + step[0], rank + step[1]
    return found


RAYS = {step: [along(square, step) for square in range(64)] for step in LINES + DIAGONALS}
NEAR = {step: [along(square, step)[:1] for square in range(64)] for step in LEAPS + LINES + DIAGONALS}
KEPT = dict.fromkeys(range(64), "")
for right, (king, rook, _, _) in CASTLING.items():
    KEPT[king] += right
    KEPT[rook] += right


def other(side):
    return "b" if side == "w" else "w"


def of_side(kind, side):
    """The letter of a man."""
    return kind.upper() if side == "w" else kind.lower()


def is_own(man, side):
    return man != "." and man.isupper() == (side == "w")


def attackers(board, square, side):
    """The squares of the men of a side that attack a square."""
    found = []
    for steps, far in [(LINES, "rq"), (DIAGONALS, "bq")]:
        men = {of_side(kind, side) for kind in far}
        for step in steps:
            for at in RAYS[step][square]:
                if board[at] != ".":
                    if board[at] in men:
                        found.append(at)
                    break
    up = 1 if side == "w" else -1
    for kind, steps in [("n", LEAPS), ("k", LINES + DIAGONALS), ("p", [(-1, -up), (1, -up)])]:
        man = of_side(kind, side)
        found += [at for step in steps for at in NEAR[step][square] if board[at] == man]
    return found


def king_of(board, side):
    return board.index(of_side("k", side))


def in_check(position):
    return bool(attackers(position.board, king_of(position.board, position.side), other(position.side)))


def steps_of_pawn(position, square):
    """Where a pawn goes, but for its own king's safety."""
    board, side = position.board, position.side
    up = 1 if side == "w" else -1
    ahead = RAYS[0, up][square]
    if board[ahead[0]] == ".":
        yield ahead[0]
        if square // 8 == (1 if side == "w" else 6) and board[ahead[1]] == ".":
            yield ahead[1]
    for step in [(-1, up), (1, up)]:
        for to in NEAR[step][square]:
            if is_own(board[to], other(side)) or to == position.mark:
                yield to


def castlings(position):
    """Where the king castles to."""
    board, side = position.board, position.side
    for right in position.rights:
        king, rook, to, crossed = CASTLING[right]
        if right.isupper() == (side == "w") and all(board[at] == "." for at in range(min(king, rook) + 1, max(king, rook))):
            if not any(attackers(board, at, other(side)) for at in (king, crossed, to)):
                yield to


def steps_of(position, square):
    """Where a man goes, but for his own king's safety."""
    board, side, kind = position.board, position.side, position.board[square].lower()
    if kind == "p":
        yield from steps_of_pawn(position, square)
        return
    reach = NEAR if kind in "nk" else RAYS
    for step in {"n": LEAPS, "r": LINES, "b": DIAGONALS}.get(kind, LINES + DIAGONALS):
        for to in reach[step][square]:
            if not is_own(board[to], side):
                yield to
            if board[to] != ".":
                break
    if kind == "k":
        yield from castlings(position)


def after(position, move):
    """The position after a legal move."""
    start, to, promotion = move
    side, board = position.side, list(position.board)
    man, board[start] = board[start], "."
    if man in "Pp" and to == position.mark:
        board[8 * (start // 8) + to % 8] = "."
    if man in "Kk" and abs(start - to) == 2:
        _, rook, _, crossed = next(squares for squares in CASTLING.values() if squares[2] == to)
        board[crossed], board[rook] = board[rook], "."
    board[to] = of_side(promotion, side) if promotion else man
    rights = "".join(right for right in position.rights if right not in KEPT[start] + KEPT[to])
    mark = (start + to) // 2 if man in "Pp" and abs(start - to) == 16 else None
    return Position("".join(board), rights, mark, other(side))


@functools.lru_cache(1 << 18)
def moves(position):
    """The legal moves, in order."""
    found = []
    for start, man in enumerate(position.board):
        if not is_own(man, position.side):
            continue
        for to in sorted(steps_of(position, start)):
            for promotion in "qrbn" if man in "Pp" and to // 8 in (0, 7) else [""]:
                board = after(position, (start, to, promotion)).board
                if not attackers(board, king_of(board, position.side), other(position.side)):
                    found.append((start, to, promotion))
    return tuple(found)


def kinds_of_check(position):
    """The kinds of check that hold, as a number."""
    king, found = king_of(position.board, position.side), 0
    file, rank = king % 8, king // 8
    rises_longer = abs(file - rank) < abs(file + rank - 7)
    for at in attackers(position.board, king, other(position.side)):
        files, ranks = at % 8 - file, at // 8 - rank
        if position.board[at] in "Nn":
            kind = "knight"
        elif files == 0 or ranks == 0:
            kind = "file" if files == 0 else "rank"
        else:
            kind = "long" if ((files > 0) == (ranks > 0)) == rises_longer else "short"
        found |= CHECKS[kind]
    return found


@functools.lru_cache(1 << 18)
def words_after(position, took):
    """What is said of a position that is reached, where that was taken: 0 for nothing, or of a pawn 1 and the square, of a piece 65 and
    the square."""
    legal = moves(position)
    pairs = {move[:2] for move in legal if position.board[move[0]] in "Pp" and move[0] % 8 != move[1] % 8}
    end = 0 if legal else 1 if in_check(position) else 2
    return Words(end, took, kinds_of_check(position), len(pairs))


def opening_words(position):
    return words_after(position, 0)


def words_of(position, move):
    """What is said of a legal move."""
    start, to, _ = move
    took = 0 if position.board[to] == "." else (1 if position.board[to] in "Pp" else 65) + to
    if position.board[start] in "Pp" and to == position.mark:
        took = 1 + 8 * (start // 8) + to % 8
    return words_after(after(position, move), took)


def told(dialect, words):
    """What is told of words in a dialect, as words."""
    if dialect == "wild16":
        return words
    if dialect == "anytry":
        return words._replace(tries=min(words.tries, 1))
    took = words.took and 65 + (words.took - 1) % 64
    return Words(words.end, took, min(words.checks, 1), 0)


def words_text(dialect, words):
    """Words that are told in a dialect, as a text."""
    parts = []
    if words.took:
        kind = "took" if dialect == "plain" else "pawn" if words.took <= 64 else "piece"
        parts.append(f"{kind} {SQUARES[(words.took - 1) % 64]}")
    if words.checks:
        kinds = "+".join(kind for kind, bit in CHECKS.items() if words.checks & bit)
        parts.append("check" if dialect == "plain" else f"check {kinds}")
    if words.tries:
        parts.append("tries some" if dialect == "anytry" else f"tries {words.tries}")
    parts += [ENDS[words.end]] if words.end else []
    return ", ".join(parts) or "silent"


def kinds_form():
    return "(?=[frlsk])" + "".join(rf"(?:(?:(?<= )|\+){kind})?" for kind in CHECKS)


FORMS = {
    dialect: re.compile("silent|(?!, )" + "".join(f"(?:(?:^|, )(?P<{name}>{form}))?" for name, form in [
        ("took", "took [a-h][1-8]" if dialect == "plain" else "(?:pawn|piece) [a-h][1-8]"),
        ("checks", "check" if dialect == "plain" else f"check {kinds_form()}"),
        ("tries", {"wild16": "tries (?:[1-9]|1[0-6])", "anytry": "tries some", "plain": "(?!)"}[dialect]),
        ("end", "mate|stalemate"),
    ]))
    for dialect in DIALECTS
}


def are_words(dialect, text):
    """Whether a text is that of words in a dialect."""
    return text != "" and FORMS[dialect].fullmatch(text) is not None


def move_text(move):
    return SQUARES[move[0]] + SQUARES[move[1]] + move[2]


def read_move(text):
    """The move of a text, or None."""
    if not re.fullmatch("(?:[a-h][1-8]){2}[qrbn]?", text):
        return None
    return NUMBER[text[:2]], NUMBER[text[2:4]], text[4:]


def move_order(move):
    return move[0], move[1], PROMOTIONS.index(move[2])


CODES = str.maketrans(MEN, "abcdefghijklm")


def position_order(position):
    """Positions are in the order of these."""
    rights = sum(1 << "KQkq".index(right) for right in position.rights)
    return position.board.translate(CODES), rights, -1 if position.mark is None else position.mark, position.side == "b"


def in_order(positions):
    """These positions as a set: each once, in order."""
    return tuple(sorted(set(positions), key=position_order))


def position_text(position):
    ranks = [position.board[at : at + 8] for at in range(56, -1, -8)]
    board = re.sub(r"\.+", lambda empty: str(len(empty[0])), "/".join(ranks))
    mark = "-" if position.mark is None else SQUARES[position.mark]
    return f"{board} {position.side} {position.rights or '-'} {mark}"


FIELDS = [r"[1-8PNBRQKpnbrqk]+(?:/[1-8PNBRQKpnbrqk]+){7}", "[wb]", "-|(?=[KQkq])K?Q?k?q?", "-|[a-h][36]", "[0-9]{1,10}", "[0-9]{1,10}"]


def read_position(text):
    """The position of a text, which raises its fault."""
    fields = text.split(" ")
    if len(fields) not in (4, 6) or not all(re.fullmatch(form, field) for form, field in zip(FIELDS, fields)):
        raise Fault("syntax")
    ranks = [re.sub("[1-8]", lambda digit: "." * int(digit[0]), rank) for rank in fields[0].split("/")]
    if any(len(rank) != 8 for rank in ranks):
        raise Fault("syntax")
    mark = None if fields[3] == "-" else NUMBER[fields[3]]
    position = Position("".join(reversed(ranks)), fields[2].replace("-", ""), mark, fields[1])
    fault = fault_of(position)
    if fault:
        raise Fault(fault)
    return position


def fault_of(position):
    """The first fault of a position, or None."""
    board, side = position.board, position.side
    if board.count("K") != 1 or board.count("k") != 1:
        return "kings"
    if any(man in "Pp" for man in board[:8] + board[56:]):
        return "pawn rank"
    if any(sum(map(board.count, men)) > 16 or board.count(men[0]) > 8 for men in (MEN[1:7], MEN[7:])):
        return "too many men"
    if attackers(board, king_of(board, other(side)), side):
        return "idle side in check"
    if not all(board[CASTLING[right][0]] == of_side("k", owner) and board[CASTLING[right][1]] == of_side("r", owner)
               for right in position.rights for owner in ["w" if right.isupper() else "b"]):
        return "rights"
    return None if position.mark is None or is_mark(position) else "mark"


def is_mark(position):
    """Whether a pawn of the idle side may just have crossed the mark."""
    board, mark, up = position.board, position.mark, 8 if position.side == "w" else -8
    is_rank = mark // 8 == (5 if position.side == "w" else 2)
    return is_rank and board[mark - up] == of_side("p", other(position.side)) and board[mark] == "." and board[mark + up] == "."


def hand(position, side):
    """What a side knows of a position for sure."""
    own = "".join(man if is_own(man, side) else "." for man in position.board)
    return own, [right for right in position.rights if right.isupper() == (side == "w")], position.side
