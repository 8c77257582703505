"""Texts that are made of others by small changes, for tests/fuzz. All chance comes from the generator that is passed."""

import re

from dictionary import ALGEBRAIC, BYTES, MOVES, NUMBERS, PIECES, POSITIONS, REASONS, WORDS


def span(rng, length):
    """A short span of so many things."""
    start = rng.randrange(length + 1)
    return start, min(length, start + rng.choice([1, 1, 1, 2, 3, 8]))


def with_lines(change):
    """The change of a text that this change of its lines makes."""

    def changed(rng, text):
        lines = text.split(b"\n")
        change(rng, lines)
        return b"\n".join(lines)

    return changed


def swap(rng, items):
    if items:
        i, j = rng.randrange(len(items)), rng.randrange(len(items))
        items[i], items[j] = items[j], items[i]


def delete(rng, items):
    start, stop = span(rng, len(items))
    del items[start:stop]


def double(rng, items):
    start, stop = span(rng, len(items))
    items[stop:stop] = items[start:stop] * rng.choice([1, 1, 2, 20])


def insert_line(rng, lines):
    lines.insert(rng.randrange(len(lines) + 1), rng.choice(PIECES))


def replace_line(rng, lines):
    lines[rng.randrange(len(lines))] = rng.choice(PIECES)


def with_bytes(change):
    def changed(rng, text):
        text = bytearray(text)
        change(rng, text)
        return bytes(text)

    return changed


def insert_bytes(rng, text):
    at = rng.randrange(len(text) + 1)
    text[at:at] = rng.choice(BYTES)


def replace_byte(rng, text):
    if text:
        text[rng.randrange(len(text))] = rng.randrange(256)


def nudge_byte(rng, text):
    if text:
        at = rng.randrange(len(text))
        text[at] = (text[at] + rng.choice([-1, 1])) % 256


def replace_by(rng, pattern, text, change):
    """Changes one place where the pattern stands."""
    places = list(pattern.finditer(text))
    if not places:
        return text
    place = rng.choice(places)
    return text[: place.start()] + change(place.group()) + text[place.end() :]


def replace_match(pattern, choices):
    """Puts one of the choices in one place where the pattern stands."""
    return lambda rng, text: replace_by(rng, pattern, text, lambda _: rng.choice(choices).encode())


def any_move(rng):
    squares = [rng.choice("abcdefgh") + rng.choice("12345678") for _ in range(2)]
    return ("".join(squares) + rng.choice(["", "", "", "", "q", "n"])).encode()


def replace_move(rng, text):
    """Puts any move in the place of one."""
    return replace_by(rng, MOVE, text, lambda _: any_move(rng))


def replace_algebraic(rng, text):
    """Puts any move of a record in the place of one, or says more of it."""
    places = [lambda move: rng.choice(ALGEBRAIC).encode(), lambda move: move.rstrip(b"+#"), lambda move: move + rng.choice([b"+", b"#"]),
              lambda move: move[:1] + rng.choice(b"abcdefgh12345678").to_bytes(1, "big") + move[1:]]
    return replace_by(rng, ALGEBRAIC_PLACE, text, rng.choice(places)) if text.startswith(b"krieg record") else text


def replace_reason(rng, text):
    """Puts another reason in the place of one, or says another number of moves of a claim."""
    place, others = rng.choice([(REASON, REASONS), (CLAIM, "1123")])
    return replace_by(rng, place, text, lambda _: rng.choice(others).encode()) if text.startswith(b"krieg refutation") else text


def with_man_moved(rng, board):
    squares = re.sub(rb"[1-8]", lambda digit: b"." * int(digit.group()), board.replace(b"/", b""))
    if len(squares) != 64:
        return board
    squares = bytearray(squares)
    men = [i for i, man in enumerate(squares) if man != ord(".")]
    i, j = rng.choice(men or [0]), rng.randrange(64)
    squares[i], squares[j] = squares[j], squares[i]
    ranks = [bytes(squares[i : i + 8]) for i in range(0, 64, 8)]
    return b"/".join(re.sub(rb"\.+", lambda empty: b"%d" % len(empty.group()), rank) for rank in ranks)


def move_man(rng, text):
    """Puts a man of one position on another square."""
    return replace_by(rng, BOARD, text, lambda board: with_man_moved(rng, board))


def nudge_number(rng, text):
    return replace_by(rng, NUMBER, text, lambda number: b"%d" % max(0, int(number) + rng.choice([-1, 1])))


def list_more(rng, text):
    """Lists the first position once more."""
    return re.sub(rb"\nlist ([0-9]{1,6})\n(.*\n)", lambda at: b"\nlist %d\n" % (int(at[1]) + 1) + at[2] * 2, text, count=1)


def add_entry(rng, text):
    """Puts a try, a move, an entry or a root before the last line, or an entry behind a plan."""
    mv, words, algebraic = any_move(rng), rng.choice(WORDS).encode(), rng.choice(ALGEBRAIC).encode()
    session = [b"w " + mv, b"b " + mv]
    record = [b"w " + algebraic, b"b " + algebraic]
    sheet = [b"heard " + words, b"try %s ok %s" % (mv, words), b"try %s illegal" % mv, b"try %s early" % mv]
    roots = [b"on %s 1" % words, b"on silent / %s 1" % words]
    entry = rng.choice({b"session": session, b"record": record, b"strategy": roots}.get(text[6:14].split(b" ")[0], sheet))
    if text.startswith(b"krieg plan"):
        return text + entry + b"\n"
    return re.sub(rb"\nend(?=[^\n]*\n?$)", lambda _: b"\n" + entry + b"\nend", text)


MOVE = re.compile(rb"[a-h][1-8][a-h][1-8][qrbn]?")
NUMBER = re.compile(rb"(?<= )[0-9]{1,18}(?=\n|$)")
REASON = re.compile(rb"(?<= )(?:lives|stale|refused|class)(?= |\n)[^\n]*")
CLAIM = re.compile(rb"(?<=\nclaim )[0-9]+(?= )")
ALGEBRAIC_PLACE = re.compile(rb"(?<=\n[wb] )[^\n]+")
KEY_PART = re.compile(rb"(?<=[n/] )[^\n/]+(?= (?:/ |[0-9]+\n))")
NODE = re.compile(rb"(?<= no )[0-9]+(?= [0-9])|(?<=\non silent / silent )[0-9]+|(?<=\non silent )[0-9]+")
BOARD = re.compile(rb"(?:[1-8pnbrqkPNBRQK]+/){7}[1-8pnbrqkPNBRQK]+")

# Changes after which the text is mostly refused.
ROUGH = [
    with_lines(swap),
    with_lines(delete),
    with_lines(double),
    with_lines(insert_line),
    with_lines(replace_line),
    with_bytes(swap),
    with_bytes(delete),
    with_bytes(double),
    with_bytes(insert_bytes),
    with_bytes(replace_byte),
    with_bytes(nudge_byte),
    replace_match(NUMBER, NUMBERS),
    replace_match(MOVE, MOVES),
    replace_match(re.compile(rb"[^ \n]+/[^\n]*"), POSITIONS),
]

# Changes after which it mostly has its form.
GENTLE = [
    replace_move,
    replace_algebraic,
    replace_reason,
    replace_reason,
    move_man,
    move_man,
    nudge_number,
    list_more,
    add_entry,
    add_entry,
    replace_match(re.compile(rb"(?<=ok |ns |rd |on )[^\n]*"), WORDS),
    replace_match(KEY_PART, WORDS),
    replace_match(NODE, list("0123")),
    replace_match(re.compile(rb"(?<= )[wb](?= |\n)"), ["w", "b"]),
]


def mutated(rng, text, others):
    """The text after one to four changes, and now and then the front of it joined with the end of another one."""
    if rng.randrange(8) == 0:
        other = rng.choice(others)
        text = text[: rng.randrange(len(text) + 1)] + other[rng.randrange(len(other) + 1) :]
    changes = rng.choice([ROUGH, GENTLE, GENTLE])
    for _ in range(rng.choice([1, 1, 1, 2, 3, 4])):
        text = rng.choice(changes)(rng, text)
    return text
