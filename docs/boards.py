"""Boards with men on them, and trees and tables of boards, as pictures. What docs/draw-plan draws with."""

import collections
import html

# The size of a square and of a board, and the room around it.
SQUARE = 26
BOARD = 8 * SQUARE
MARGIN, GAP, RANKS = 22, 58, 16
LINE, CAPTION = 16, 40
# So wide are the letters of a heading.
LETTER = 9
# Where the columns beside the boards of a table begin, and how wide all are.
COLUMNS, ACROSS = (0, 300, 360, 440), 510

INK = "#2b2b2b"

# Each kind of man in a box of 45 by 45.
BASE = "M11 35h23v4.5H11z"
SHAPES = {
    "p": "M22.5 8.5a6 6 0 0 1 4.2 10.3h2.3v3h-2.6c.6 6 4.6 7.7 5.1 13.2h-18c.5-5.5 4.5-7.2 5.1-13.2h-2.6v-3h2.3"
         "A6 6 0 0 1 22.5 8.5z" + BASE,
    "r": "M12 8h4.8v3.5h3.7V8h4v3.5h3.7V8H33v8l-3.5 3v11.5l3 4.5h-20l3-4.5V19L12 16z" + BASE,
    "n": "M13 35c0-8 8-9.5 8.5-14.5-2.5 2.5-5.5 2.5-7.5 5.5-1.5 2-5.5.5-5-2.5 1.5-2 3-7.5 7.5-11l-.5-5.5 4.5 3"
         "C28.5 9.5 33.5 15 33 25c-.2 4-1 6-1 10z" + BASE,
    "b": "M22.5 5a2.8 2.8 0 0 1 1.8 4.9c5 3.6 7.2 8.6 5.2 13.1l-3 4.5c0 3 3 4.5 5.5 7.5H13c2.5-3 5.5-4.5 5.5-7.5"
         "l-3-4.5c-2-4.5.2-9.5 5.2-13.1A2.8 2.8 0 0 1 22.5 5z" + BASE,
    "q": "M7.5 13.5 15 24l1-14.5L22.5 23 29 9.5 30 24l7.5-10.5L33 35H12z" + BASE,
    "k": "M21 4h3v2.7h2.8v3H24V13h-3V9.7h-2.8v-3H21zM22.5 20c2-5 7-7.5 11-5 5.5 3.5 3 11-2.5 16.5V35H14v-3.5"
         "C8.5 26 6 18.5 11.5 15c4-2.5 9 0 11 5z" + BASE,
}

# A board of a tree: the lines above it, the positions that are drawn on it, perhaps a try, a bold line below it and others below that, and
# the boards behind it: where a try was refused, and elsewhere.
Board = collections.namedtuple("Board", "above found move bold notes refused edges")

# A row of a table: the positions that are drawn on its board, perhaps a try, and what stands beside it: a bold line, one below that, and
# others, each a style and the texts of its columns.
Row = collections.namedtuple("Row", "found move bold note lines")


def behind(node):
    """The boards behind a board."""
    return [*node.refused, *node.edges]


def all_boards(nodes):
    """These boards and all behind them, those that stand before others first."""
    for node in nodes:
        yield node
        yield from all_boards(behind(node))


def places(nodes):
    """A column and a row for each board by its identity. The first board behind another stands beside it, and each other one lower, where
    there is room for it and for what stands beside it."""
    spots, free = {}, collections.Counter()

    def room(node, column):
        row = free[column]
        while behind(node):
            node, column = behind(node)[0], column + 1
            row = max(row, free[column])
        return row

    def place(node, column, row):
        spots[id(node)] = column, row
        free[column] = row + 1
        for index, child in enumerate(behind(node)):
            place(child, column + 1, room(child, column + 1) if index else row)

    for node in nodes:
        place(node, 0, room(node, 0))
    return spots


def men(position):
    """The men of a position by their squares, as (file, rank) from 0."""
    placed = {}
    for rank, row in zip(range(7, -1, -1), position.split()[0].split("/")):
        file = 0
        for letter in row:
            if letter.isdigit():
                file += int(letter)
            else:
                placed[file, rank] = letter
                file += 1
    return placed


def standing(boards):
    """What may stand on each square in these positions, the letters in order; and in how many of them a man does."""
    counts, letters, held = collections.Counter(item for placed in boards for item in placed.items()), {}, collections.Counter()
    for (square, letter), count in sorted(counts.items()):
        letters.setdefault(square, []).append(letter)
        held[square] += count
    return letters, held


def corner_of(square, x, y):
    """The corner of a square of the board whose corner is at (x, y)."""
    return x + SQUARE * square[0], y + SQUARE * (7 - square[1])


def tints(squares, x, y):
    """The squares where what stands there is not certain."""
    path = "".join(f"M{left:g} {top:g}h{SQUARE}v{SQUARE}h-{SQUARE}z" for left, top in (corner_of(square, x, y) for square in squares))
    return [f'<path d="{path}" fill="#7048e8" opacity=".3"/>'] if squares else []


def square_men(letters, x, y, sure, most):
    """The men that may stand on a square, pale where that is not certain. Several, at most six, are small: two in a row if they are no more
    than `most`, and else three."""
    across = 1 if len(letters) == 1 else 2 if len(letters) <= most else 3
    small, drawn = SQUARE / across, []
    for index, letter in enumerate(letters):
        left, top = x + small * (index % across), y + small * (index // across)
        spot = f'x="{left:g}" y="{top:g}"' if across == 1 else f'transform="translate({left:.1f} {top:.1f})scale({1 / across:.2f})"'
        look = "" if sure else ' opacity=".5"'
        drawn.append(f'<use href="#{letter.lower()}" class="{"white" if letter.isupper() else "black"}" {spot}{look}/>')
    return drawn


def arrow(move, x, y):
    """The try from square to square."""
    ends = [(x + SQUARE * (ord(move[i]) - ord("a") + 0.5), y + SQUARE * (8 - int(move[i + 1]) + 0.5)) for i in (0, 2)]
    (x1, y1), (x2, y2) = ends
    length = max(((x2 - x1) ** 2 + (y2 - y1) ** 2) ** 0.5, 1)
    dx, dy = (x2 - x1) / length, (y2 - y1) / length
    x1, y1, bx, by = x1 + 8 * dx, y1 + 8 * dy, x2 - 11 * dx, y2 - 11 * dy
    tip = f"{x2:.1f},{y2:.1f} {bx - 7 * dy:.1f},{by + 7 * dx:.1f} {bx + 7 * dy:.1f},{by - 7 * dx:.1f}"
    return (f'<g fill="#e8590c" stroke="#e8590c" opacity=".8"><line x1="{x1:.1f}" y1="{y1:.1f}" x2="{bx:.1f}" y2="{by:.1f}" '
            f'stroke-width="5" stroke-linecap="round"/><polygon points="{tip}" stroke="none"/></g>')


def shapes(drawn):
    """What is drawn many times: the empty board with the names of files and ranks, and each kind of man that is drawn."""
    dark = "".join(f"M{SQUARE * file} {SQUARE * (7 - rank)}h{SQUARE}v{SQUARE}h{-SQUARE}z"
                   for rank in range(8) for file in range(8) if (file + rank) % 2 == 0)
    made = ['<defs>', '<g id="board">', f'<rect width="{BOARD}" height="{BOARD}" fill="#e9edf2"/>',
            f'<path d="{dark}" fill="#bcc8d6"/>',
            f'<rect width="{BOARD}" height="{BOARD}" fill="none" stroke="#5c6773"/>']
    for i in range(8):
        middle = SQUARE * (i + 0.5)
        made += [words("abcdefgh"[i], middle, BOARD + 12, "name"), words(str(8 - i), -8, middle + 3.5, "name")]
    made.append("</g>")
    made += [f'<path id="{kind}" d="{shape}" stroke="{INK}" stroke-width="1.8" stroke-linejoin="round" '
             f'transform="scale({SQUARE / 45:.3f})"/>'
             for kind, shape in SHAPES.items() if any(f'"#{kind}"' in line for line in drawn)]
    return made + ["</defs>"]


def board(boards, move, shares, x, y):
    """A board with its men, perhaps a try, and perhaps shares, below which small men leave room."""
    letters, held = standing(boards)
    sure = [square for square in letters if len(letters[square]) == 1 and held[square] == len(boards)]
    unsure = [square for square in letters if square not in sure]
    known = [line for square in sure for line in square_men(letters[square], *corner_of(square, x, y), True, 4)]
    hidden = [line for square in unsure for line in square_men(letters[square], *corner_of(square, x, y), False, 3 if shares else 4)]
    numbers = [share(held[square], len(boards), *corner_of(square, x, y)) for square in unsure if shares]
    # Pale men are seen over the arrow, and the arrow over the man that it takes.
    arrows = [arrow(move, x, y)] if move else []
    return [f'<use href="#board" x="{x:g}" y="{y:g}"/>', *tints(unsure, x, y), *known, *arrows, *hidden, *numbers]


def share(held, count, x, y):
    """In how many of a hundred positions a man stands on a square."""
    return words(str(max(1, 100 * held // count)), x + SQUARE - 1, y + SQUARE - 1, "share")


def words(text, x, y, style):
    """A line of text in a style of the picture's own."""
    return f'<text x="{x:g}" y="{y:g}" class="{style}">{html.escape(text)}</text>'


def framed(width, height, title, drawn, style=""):
    """A picture of this size with what is drawn, perhaps with one more style of words."""
    return [
        f'<svg xmlns="http://www.w3.org/2000/svg" viewBox="0 0 {width:.0f} {height:.0f}" width="{width:.0f}" height="{height:.0f}">',
        f"<title>{title}</title>",
        "<style>text{font-family:'DejaVu Sans',Verdana,Arial,sans-serif;fill:#212529}.name{font-size:9px;fill:#868e96;"
        "text-anchor:middle}.key{font-size:12px}.no{font-size:12px;fill:#c92a2a}.try{font-size:13px;font-weight:bold;fill:#d9480f}"
        ".note{font-size:11px;fill:#5c6773}.head{font-size:14px;font-weight:bold}"
        f".white{{fill:#fff}}.black{{fill:{INK}}}{style}</style>",
        f'<rect width="{width:.0f}" height="{height:.0f}" fill="#ffffff"/>',
        *shapes(drawn),
        *drawn,
        "</svg>",
    ]


def curve(x1, y1, x2, y2, refused):
    """A line from one board to the next, broken where it is the illegal case."""
    middle = (x1 + x2) / 2
    look = 'stroke="#c92a2a" stroke-dasharray="5 4"' if refused else 'stroke="#868e96"'
    return (f'<path d="M{x1:g} {y1:g}C{middle:g} {y1:g} {middle:g} {y2:g} {x2:g} {y2:g}" fill="none" '
            f'stroke-width="2" {look}/>')


def drawn_board(node, is_refused, shares, x, y):
    """One board of a tree, with what stands above and below it."""
    drawn = [words(line, x, y - 8 - LINE * (len(node.above) - 1 - i), "no" if is_refused else "key") for i, line in enumerate(node.above)]
    drawn += board(node.found, node.move, shares, x, y)
    drawn.append(words(node.bold, x, y + BOARD + RANKS + 16, "try"))
    return drawn + [words(line, x, y + BOARD + RANKS + 32 + LINE * i, "note") for i, line in enumerate(node.notes)]


def drawn_lines(nodes, corner):
    """The lines from each board to those behind it."""
    drawn, middle = [], BOARD / 2
    for node in nodes:
        x, y = corner[id(node)]
        for i, child in enumerate(behind(node)):
            to_x, to_y = corner[id(child)]
            drawn.append(curve(x + BOARD + 4, y + middle, to_x - RANKS, to_y + middle, i < len(node.refused)))
    return drawn


def tree(title, heading, roots):
    """The picture of a tree of boards, below the lines of a heading."""
    nodes, spots = list(all_boards(roots)), places(roots)
    refused = {id(child) for node in nodes for child in node.refused}
    above = LINE * max(len(node.above) for node in nodes)
    below = LINE * (max(len(node.notes) for node in nodes) - 1)
    high, wide = above + 8 + BOARD + RANKS + CAPTION + below + 14, BOARD + RANKS + GAP
    top = MARGIN + (LINE * len(heading) + 14 if heading else 0)
    corner = {spot: (MARGIN + RANKS + wide * column, top + above + 4 + high * row) for spot, (column, row) in spots.items()}
    width = 2 * MARGIN + wide * (1 + max(column for column, _ in spots.values())) - GAP
    height = top + high * (1 + max(row for _, row in spots.values()))
    return framed(max([width, *(2 * MARGIN + RANKS + LETTER * len(line) for line in heading)]), height, title, [
        *(words(line, MARGIN + RANKS, MARGIN + 6 + LINE * i, "note" if i else "head") for i, line in enumerate(heading)),
        *drawn_lines(nodes, corner),
        *(line for node in nodes for line in drawn_board(node, id(node) in refused, False, *corner[id(node)])),
    ])


def columns(texts, x, y, style):
    """The texts of a line of a table, each in its column."""
    return [words(text, x + at, y, style) for text, at in zip(texts, COLUMNS) if text]


def height_of(row):
    """How high a row of a table is."""
    return max(BOARD + RANKS, LINE * (len(row.lines) + 3)) + 20


def drawn_row(row, x, y):
    """A row of a table: a line above it, its board, and what stands beside that."""
    beside = x + BOARD + GAP
    drawn = [f'<path d="M{x - RANKS:g} {y - 10:g}h{RANKS + BOARD + GAP + ACROSS:g}" stroke="#ced4da"/>']
    drawn += board(row.found, row.move, False, x, y)
    drawn += [words(row.bold, beside, y + 12, "try"), words(row.note, beside, y + 12 + LINE, "note")]
    for place, (style, texts) in enumerate(row.lines):
        drawn += columns(texts, beside, y + 20 + LINE * (place + 2), style)
    return drawn


def table(title, heading, heads, rows):
    """The picture of a table, below the lines of a heading and the names of its columns."""
    x, y = MARGIN + RANKS, MARGIN + LINE * len(heading) + 14
    drawn = [words(line, x, MARGIN + 6 + LINE * place, "note" if place else "head") for place, line in enumerate(heading)]
    drawn += columns(heads, x + BOARD + GAP, y + 6, "note")
    y += 22
    for row in rows:
        drawn += drawn_row(row, x, y)
        y += height_of(row)
    return framed(x + BOARD + GAP + ACROSS + MARGIN, y, title, drawn)


def alone(title, found, note):
    """The picture of one board: in how many of these positions a hidden man stands on a square."""
    x, y = MARGIN + RANKS, MARGIN
    drawn = [*board(found, None, True, x, y), words(note, x, y + BOARD + RANKS + 16, "note")]
    return framed(x + BOARD + MARGIN, y + BOARD + RANKS + CAPTION, title, drawn, ".share{font-size:7px;text-anchor:end}")
