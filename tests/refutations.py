"""Refutations without krieg: how they are read, judged and made, from docs/FORMATS.md and docs/RULES.md alone.

A set of positions is a tuple of them in order, each once. A claim says that no plan mates from its set within its number of moves, and has
a reason for each try: a tuple of `lives`, `stale`, `class` with the texts of the words of the try and of the reply and a claim's number, or
`refused` with a claim's number. Claims are numbered from 1."""

import collections
import functools
import itertools
import pathlib
import re
import sys

import rules
sys.path.insert(0, str(pathlib.Path(__file__).resolve().parent.parent / "docs"))
import limits

Refutation = collections.namedtuple("Refutation", "dialect side moves listed claims")
Claim = collections.namedtuple("Claim", "moves positions reasons")

# The most moves, listed positions and claims, and the most positions and reasons of all claims.
MOST_MOVES, MOST_LISTED, MOST_CLAIMS, MOST_IN_ALL = limits.MOST_MOVES, limits.MOST_LISTED, limits.MOST_CLAIMS, limits.MOST_CLAIMED


class BadLine(Exception):
    """The first bad line of a text: its number and its kind."""

    def __init__(self, number, kind):
        super().__init__(f"line {number}: {kind}")
        self.number, self.kind = number, kind


# What a try makes of a set: the positions in which it is illegal, whether it stalemates in one, and what is left behind each pair of words.
Parts = collections.namedtuple("Parts", "refused stalemates classes")


@functools.lru_cache(1 << 16)
def parts(dialect, positions, move):
    refused, classes, stalemates = [], {}, False
    for position in positions:
        if move not in rules.moves(position):
            refused.append(position)
            continue
        there = rules.after(position, move)
        own = rules.told(dialect, rules.words_of(position, move))
        stalemates = stalemates or own.end == 2
        for reply in rules.moves(there):
            key = own, rules.told(dialect, rules.words_of(there, reply))
            classes.setdefault(key, set()).add(rules.after(there, reply))
    return Parts(tuple(refused), stalemates, {key: rules.in_order(classes[key]) for key in sorted(classes)})


@functools.lru_cache(1 << 16)
def tries(positions):
    """The moves that are legal in some position of a set, in order."""
    return sorted({move for position in positions for move in rules.moves(position)}, key=rules.move_order)


@functools.lru_cache(None)
def is_lost(dialect, positions, moves):
    """Whether no plan that begins at this set mates from it within so many moves."""
    return all(block(dialect, positions, moves, move) for move in tries(positions))


def block(dialect, positions, moves, move):
    """The first reason why a try begins no plan that mates from the set within so many moves, or None. A set stands in it for a claim."""
    made = parts(dialect, positions, move)
    if moves == 1 and (made.classes or made.stalemates):
        return ("lives",)
    if made.stalemates:
        return ("stale",)
    for key, left in made.classes.items():
        if is_lost(dialect, left, moves - 1):
            return ("class", *(rules.words_text(dialect, words) for words in key), left)
    if made.refused and is_lost(dialect, made.refused, moves):
        return ("refused", made.refused)
    return None


def claims(dialect, positions, moves):
    """The claims that show that a set is lost: each behind those that it cites, depth first in the order of the tries, each once."""
    numbers, found = {}, []

    def number(positions, moves):
        if (positions, moves) not in numbers:
            reasons = {}
            for move in tries(positions):
                kind, *rest = block(dialect, positions, moves, move)
                if rest:
                    rest[-1] = number(rest[-1], moves - (kind == "class"))
                reasons[move] = (kind, *rest)
            found.append(Claim(moves, positions, reasons))
            numbers[positions, moves] = len(found)
        return numbers[positions, moves]

    number(positions, moves)
    return found


def refute(dialect, side, listed, moves):
    """The refutation for these positions, in which the side is to move, or None where some plan mates from all of them in time."""
    listed = rules.in_order(listed)
    openings = {}
    for position in listed:
        openings.setdefault(rules.told(dialect, rules.opening_words(position)), []).append(position)
    for words in sorted(openings):
        opening = tuple(openings[words])
        if is_lost(dialect, opening, moves):
            return Refutation(dialect, side, moves, listed, claims(dialect, opening, moves))
    return None


def price(refutation):
    """The units that the judgement takes: for each try of each claim one for each position of its set, and one for each reply."""
    return sum(
        len(claim.positions) + sum(len(rules.moves(rules.after(position, move))) for position in claim.positions
                                   if move in rules.moves(position))
        for claim in refutation.claims for move in tries(claim.positions))


def refutes(refutation):
    """Whether each claim holds, and the last one denies what is listed."""
    dialect, side, moves, listed, claims = refutation
    last = claims[-1]
    openings = {rules.told(dialect, rules.opening_words(position)) for position in last.positions}
    return (all(position.side == side for position in listed)
            and all(holds(dialect, claim, claims[:place]) for place, claim in enumerate(claims))
            and last.moves >= moves and set(last.positions) <= set(listed) and len(openings) == 1)


def holds(dialect, claim, before):
    """Whether a claim has a reason for each try and no other, and each is so; it may cite the claims before it."""
    return (list(claim.reasons) == tries(claim.positions)
            and all(is_so(dialect, claim, before, move, *reason) for move, reason in claim.reasons.items()))


def is_so(dialect, claim, before, move, kind, *rest):
    """Whether a reason is so."""
    made = parts(dialect, claim.positions, move)
    if kind == "lives":
        return claim.moves == 1 and (made.stalemates or bool(made.classes))
    if kind == "stale":
        return made.stalemates
    cited = before[rest[-1] - 1]
    if kind == "refused":
        return cited.moves >= claim.moves and set(cited.positions) <= set(made.refused)
    left = {tuple(rules.words_text(dialect, words) for words in key): found for key, found in made.classes.items()}
    return claim.moves > 1 and cited.moves >= claim.moves - 1 and set(cited.positions) <= set(left.get(rest[:2], ()))


def reason_text(move, kind, *rest):
    words = " / ".join(rest[:-1])
    return " ".join([rules.move_text(move), kind, *([words] if words else []), *map(str, rest[-1:])])


def text_of(refutation):
    """The text of a refutation."""
    dialect, side, moves, listed, claims = refutation
    lines = ["krieg refutation 1", f"dialect {dialect}", f"side {side}", f"moves {moves}", f"list {len(listed)}"]
    lines += [*map(rules.position_text, listed), f"claims {len(claims)}"]
    for claim in claims:
        lines += [f"claim {claim.moves} {len(claim.positions)}", *map(rules.position_text, claim.positions), f"tries {len(claim.reasons)}"]
        lines += [reason_text(move, *reason) for move, reason in claim.reasons.items()]
    return "\n".join([*lines, "end", ""])


def of_a_king_alone():
    """A text of 0.4 megabytes: a king alone does not mate in one move, wherever Black's king and two knights stand on their side."""
    squares = list(itertools.product("abcdefgh", (7, 6, 5, 4)))
    found = []
    for king, knights in itertools.product(itertools.product("abcdefgh", (8, 7)), itertools.combinations(squares, 2)):
        if king in knights:
            continue
        men = {("a", 1): "K", king: "k", **dict.fromkeys(knights, "n")}
        ranks = ["".join(men.get((file, rank), "1") for file in "abcdefgh") for rank in range(8, 0, -1)]
        board = re.sub("1+", lambda empty: str(len(empty[0])), "/".join(ranks))
        found.append(rules.read_position(f"{board} w - -"))
    listed = rules.in_order(found)
    lives = {rules.read_move(move): ("lives",) for move in ("a1b1", "a1a2", "a1b2")}
    return text_of(Refutation("wild16", "w", 1, listed, [Claim(1, listed, lives)])).encode()


def denied(text, budget):
    """What `deny` must end with and what it must write, on standard output or on standard error."""
    try:
        refutation = read(text)
    except BadLine as bad:
        return 3 if bad.kind in ("syntax", "version", "count", "out of place", "large") else 4, f"krieg: {bad}\n"
    if price(refutation) > budget:
        return 8, "krieg: budget spent\n"
    return (0, f"refuted {refutation.moves}\n") if refutes(refutation) else (18, "krieg: refutation fails\n")


def read_sheet(text):
    """The dialect, the side and the positions of a sheet that says no more."""
    lines = text.splitlines()
    dialect = lines.pop(1).split()[1] if lines[0] == "krieg sheet 2" else "wild16"
    if lines[-1] != "end" or lines[2] != f"list {len(lines) - 4}":
        raise SystemExit("tests/refuter: this is not a sheet without tries and words")
    return dialect, lines[1].split()[1], [rules.read_position(line) for line in lines[3:-1]]


class Reader:
    """The lines of a text, read one after another."""

    def __init__(self, text):
        self.lines = text.decode("latin-1").split("\n")
        if self.lines[-1] == "":
            self.lines.pop()
        self.number = 0

    def line(self, form):
        """What a pattern finds in the next line, which must have its form."""
        self.number += 1
        found = re.fullmatch(form, self.lines[self.number - 1]) if self.number <= len(self.lines) else None
        return found or self.bad("syntax")

    def bad(self, kind):
        raise BadLine(self.number, kind)

    def numbers(self, form, *ranges):
        """The plain decimals of the next line, each in its range."""
        found = [int(number) for number in self.line(form.replace("N", "(0|[1-9][0-9]*)")).groups()]
        if not all(low <= number <= most for number, (low, most) in zip(found, ranges)):
            self.bad("count")
        return found

    def position(self):
        try:
            return rules.read_position(self.line("(.*)")[1])
        except rules.Fault as fault:
            return self.bad(fault.kind)


def read(text):
    """The refutation of a text, which raises its first bad line."""
    lines = Reader(text)
    if lines.line("krieg refutation (0|[1-9][0-9]*)")[1] != "1":
        lines.bad("version")
    dialect = lines.line("dialect (wild16|anytry|plain)")[1]
    side = lines.line("side ([wb])")[1]
    [moves] = lines.numbers("moves N", (1, MOST_MOVES))
    listed = read_list(lines, side)
    [count] = lines.numbers("claims N", (1, MOST_CLAIMS))
    claims, positions, reasons = [], 0, 0
    for number in range(1, count + 1):
        claims.append(read_claim(lines, dialect, number, positions, reasons))
        positions, reasons = positions + len(claims[-1].positions), reasons + len(claims[-1].reasons)
    lines.line("end")
    if len(lines.lines) > lines.number:
        lines.number += 1
        lines.bad("syntax")
    return Refutation(dialect, side, moves, listed, claims)


def read_list(lines, side):
    """The listed positions: the side is to move in the first, and all have its hand."""
    [count] = lines.numbers("list N", (1, MOST_LISTED))
    found = []
    for _ in range(count):
        position = lines.position()
        if found and rules.hand(position, side) != rules.hand(found[0], side):
            lines.bad("differs")
        if position.side != side:
            lines.bad("out of place")
        found.append(position)
    return found


def read_claim(lines, dialect, number, positions, reasons):
    """The claim with this number, behind so many positions and reasons of other claims."""
    moves, count = lines.numbers("claim N N", (1, MOST_MOVES), (1, MOST_LISTED))
    if positions + count > MOST_IN_ALL:
        lines.bad("large")
    found, given, last = [], {}, None
    for _ in range(count):
        position = lines.position()
        if found and rules.position_order(position) <= rules.position_order(found[-1]):
            lines.bad("out of place")
        found.append(position)
    [count] = lines.numbers("tries N", (0, MOST_IN_ALL))
    if reasons + count > MOST_IN_ALL:
        lines.bad("large")
    for _ in range(count):
        move, reason = read_reason(lines, dialect)
        is_cited = reason[0] in ("lives", "stale") or 1 <= reason[-1] < number
        if not is_cited or last is not None and rules.move_order(move) <= rules.move_order(last):
            lines.bad("out of place")
        given[move], last = reason, move
    return Claim(moves, tuple(found), given)


def read_reason(lines, dialect):
    """A try and its reason."""
    line = lines.line("([^ ]+) (?:(lives|stale)|(refused) (0|[1-9][0-9]*)|(class) (.*) / (.*) (0|[1-9][0-9]*))")
    move = rules.read_move(line[1])
    if move is None or line[5] and not (rules.are_words(dialect, line[6]) and rules.are_words(dialect, line[7])):
        lines.bad("syntax")
    if line[2]:
        return move, (line[2],)
    return move, (line[3], int(line[4])) if line[3] else (line[5], line[6], line[7], int(line[8]))
