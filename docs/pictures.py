"""Plans as trees of boards, refutations as trees of their claims, games as rows of boards, and sheets as one board. What docs/draw-plan and
examples/draw draw with; docs/draw-plan says how the pictures are to be read."""

import collections
import subprocess
import sys
import textwrap

from boards import Board, alone, men, tree

# A plan is read and drawn node below node.
sys.setrecursionlimit(10_000)

# A node of a plan: what is heard on the way to it, alone and from the start, its try, and the nodes below it. Where nodes are folded into
# one, it has the keys of all, what is heard on each way, a number, and perhaps that of a node at which the plan goes on alike.
Node = collections.namedtuple("Node", "keys heard move edges refused number same", defaults=[None, None])

# A claim of a refutation: its number, its number of moves, its positions, and its reasons, each a move, the kind, perhaps what is heard,
# and perhaps the number of a claim.
Claim = collections.namedtuple("Claim", "number moves positions reasons")
Reason = collections.namedtuple("Reason", "move kind heard cited")

# So wide is a line of words at most, and so many keys stand above a board at most. So many moves are named below one, and so many claims.
WRAP, NOTE = 32, 38
KEYS, MOVES, CITED = 3, 4, 6
# So many boards of a game stand in a row.
ROW = 6


class Fault(Exception):
    """A text that cannot be drawn."""


class Plan:
    """The lines of a plan file, read one after another."""

    def __init__(self, text):
        lines = iter(text.splitlines())
        version = next(lines)
        dialect = [next(lines)] if version.endswith(" 2") else []
        side = next(lines)
        size = next(lines)
        positions = [next(lines) for _ in range(int(size.split()[1]))]
        self.head = [version.replace("plan", "sheet"), *dialect, side, size, *positions]
        self.dialect, self.side, self.positions = dialect[0].split()[1] if dialect else "wild16", side.split()[1], positions
        self.worst = int(next(lines).split()[1])
        count = int(next(lines).split()[1])
        self.roots = [self.root(lines, next(lines)) for _ in range(count)]

    def root(self, lines, key):
        """The node of a root, which is entered by its key."""
        own, _, reply = key.removeprefix("on ").partition(" / ")
        return self.node(lines, key, [f"opens {own}"] + [f"heard {reply}"] * (reply != ""))

    def node(self, lines, key, heard):
        """The next node, with all that the player has heard when he comes to it."""
        words = next(lines).split()
        move, count = words[1], int(words[-1])
        refused = self.node(lines, f"no ({move} is illegal)", heard + [f"try {move} illegal"]) if "no" in words else None
        edges = []
        for _ in range(count):
            edge = next(lines)
            own, reply = edge.removeprefix("on ").split(" / ")
            edges.append(self.node(lines, edge, heard + [f"try {move} ok {own}", f"heard {reply}"]))
        return Node([key], [heard], move, edges, refused)


def children(node):
    """The nodes below a node, that of the illegal case first."""
    return ([node.refused] if node.refused else []) + node.edges


def size_of(node):
    """How many nodes there are from a node on."""
    return 1 + sum(map(size_of, children(node)))


def goes_with(node, other):
    """Whether a plan goes on alike at two nodes, as far as the same may be heard at both."""
    if node.move != other.move or node.refused and other.refused and not goes_with(node.refused, other.refused):
        return False
    there = {edge.keys[0]: edge for edge in other.edges}
    return all(goes_with(edge, there[edge.keys[0]]) for edge in node.edges if edge.keys[0] in there)


def is_within(node, other):
    """Whether the plan of another node says all that this one says."""
    if node.move != other.move or node.refused and not (other.refused and is_within(node.refused, other.refused)):
        return False
    there = {edge.keys[0]: edge for edge in other.edges}
    return all(edge.keys[0] in there and is_within(edge, there[edge.keys[0]]) for edge in node.edges)


def joined(node, other):
    """Two nodes that go with each other as one."""
    edges = {edge.keys[0]: edge for edge in node.edges}
    for edge in other.edges:
        key = edge.keys[0]
        edges[key] = joined(edges[key], edge) if key in edges else edge
    refused = joined(node.refused, other.refused) if node.refused and other.refused else node.refused or other.refused
    keys = list(dict.fromkeys(node.keys + other.keys))
    return Node(keys, node.heard + other.heard, node.move, list(edges.values()), refused)


def folded(nodes, drawn):
    """These nodes with what is alike drawn once; `drawn` has the numbers so far, with the nodes behind which all is drawn."""
    groups = []
    for node in nodes:
        at = next((i for i, group in enumerate(groups) if goes_with(node, group)), len(groups))
        groups[at:] = [joined(groups[at], node), *groups[at + 1 :]] if at < len(groups) else [node]
    found = []
    for node in groups:
        same = next((number for number, other in drawn.items() if other and is_within(node, other)), None) if children(node) else None
        number = len(drawn) + 1
        drawn[number] = None
        if same:
            found.append(node._replace(number=number, same=same, edges=[], refused=None))
        else:
            refused = folded([node.refused], drawn)[0] if node.refused else None
            found.append(node._replace(number=number, refused=refused, edges=folded(node.edges, drawn)))
            drawn[number] = node
    return found


def asked(krieg, words, text, where):
    """What the program answers."""
    done = subprocess.run([krieg, *words], input=text, capture_output=True, text=True)
    if done.returncode != 0:
        raise Fault(f"{where}: {done.stderr}")
    return done.stdout


def believed(krieg, sheet, where):
    """The positions that a sheet leaves open."""
    return [line for line in asked(krieg, ["believe", "200000"], sheet, where).splitlines() if "/" in line]


def possible(krieg, plan, node):
    """The boards of the positions that may stand at a node, each as the men on its squares."""
    found = dict.fromkeys(position for heard in node.heard
                          for position in believed(krieg, "\n".join(plan.head + heard + ["end", ""]), f"at the node on {heard}"))
    return [men(position) for position in found]


def caption(node, count):
    """What stands below a board of a plan."""
    if node.same:
        return f"{node.move}: on as at board {node.same}"
    end = "" if node.edges or count == 0 else ": mate where it is legal" if node.refused else ": mate"
    return f"{node.move}{end}"


def positions(count):
    return "no position" if count == 0 else "1 position" if count == 1 else f"{count:,} positions"


def labels(keys, number=None):
    """The lines above a board: its number, and what is heard on the way to it."""
    lines = [line for key in keys[:KEYS] for line in textwrap.wrap(key, WRAP)]
    more = [f"or {len(keys) - KEYS} other words"] if len(keys) > KEYS else []
    return ([f"board {number}"] if number else []) + lines + more


def plan_board(krieg, plan, node):
    """The board of a node, and those of the nodes below it."""
    found = possible(krieg, plan, node)
    refused = [plan_board(krieg, plan, node.refused)] if node.refused else []
    edges = [plan_board(krieg, plan, edge) for edge in node.edges]
    return Board(labels(node.keys, node.number), found, node.move, caption(node, len(found)), [positions(len(found))], refused, edges)


def to_move(position):
    return "White is to move" if position.split()[1] == "w" else "Black is to move"


def first_board(plan, roots):
    """The board of the listed positions, before the roots."""
    return Board([], [men(position) for position in plan.positions], None, to_move(plan.positions[0]),
                 [positions(len(plan.positions))], [], roots)


def plan_picture(krieg, text, is_folded):
    plan = Plan(text)
    within, count = f"within {plan.worst} move{'s' * (plan.worst > 1)}", sum(map(size_of, plan.roots))
    heading = [f"{'White' if plan.side == 'w' else 'Black'} mates {within}", f"{plan.dialect}, {count} node{'s' * (count > 1)}"]
    heading += ["What goes on alike is drawn once."] * is_folded
    roots = [plan_board(krieg, plan, root) for root in (folded(plan.roots, {}) if is_folded else plan.roots)]
    is_alone = len(roots) == 1 and plan.positions[0].split()[1] == plan.side
    return tree(f"A plan that mates {within}, as a tree of boards", heading, roots if is_alone else [first_board(plan, roots)])


def read_claims(lines):
    """The claims of a refutation, from its line `claims` on."""
    found = []
    for number in range(1, int(next(lines).split()[1]) + 1):
        _, moves, count = next(lines).split()
        listed = [next(lines) for _ in range(int(count))]
        reasons = [read_reason(next(lines)) for _ in range(int(next(lines).split()[1]))]
        found.append(Claim(number, int(moves), listed, reasons))
    return found


def read_reason(line):
    move, kind, *rest = line.split(" ", 2)
    heard, _, cited = rest[0].rpartition(" ") if rest else ("", "", "")
    return Reason(move, kind, heard, int(cited) if cited else None)


def named(moves):
    """Some moves, or how many they are."""
    return ", ".join(moves) if len(moves) <= MOVES else f"{len(moves)} tries"


def claim_notes(claim, behind, is_left_out):
    """What stands below the board of a claim: how many positions it has, and how its tries fail. `behind` has the numbers of the claims
    that are drawn behind it."""
    groups = {}
    for reason in claim.reasons:
        if reason.cited in behind:
            groups.setdefault("class" if reason.kind == "class" else "refused", []).append(reason.move)
        else:
            at = f"as at claim {reason.cited}" if reason.cited and not is_left_out(reason.cited) else "by claims that cite none"
            groups.setdefault(at if reason.cited else reason.kind, []).append(reason.move)
    lines = [f"{kind}: {named(moves)}" for kind, moves in groups.items()]
    more = [f"and as at {len(lines) - CITED} other claims"] if len(lines) > CITED else []
    notes = [positions(len(claim.positions)), *(lines[:CITED] or ["no try is legal"]), *more]
    return [line for note in notes for line in textwrap.wrap(note, NOTE)]


def claim_board(claims, number, ways, drawn, is_folded):
    """The board of a claim, and those of the claims that it is the first to cite; `drawn` has the numbers of those that have a board, and
    `ways` what leads to this one."""

    def is_left_out(cited):
        return is_folded and all(reason.cited is None for reason in claims[cited - 1].reasons)

    claim, first = claims[number - 1], {}
    for reason in claim.reasons:
        if reason.cited and (reason.cited in first or reason.cited not in drawn) and not is_left_out(reason.cited):
            drawn.add(reason.cited)
            first.setdefault(reason.cited, []).append(reason)
    refused, edges = [], []
    for cited, reasons in first.items():
        leads = [f"{reason.move} is illegal" if reason.kind == "refused" else f"{reason.move}: {reason.heard}" for reason in reasons]
        is_refused = all(reason.kind == "refused" for reason in reasons)
        (refused if is_refused else edges).append(claim_board(claims, cited, leads, drawn, is_folded))
    bold = f"claim {number}: not within {claim.moves} move{'s' * (claim.moves > 1)}"
    notes = claim_notes(claim, first, is_left_out)
    return Board(labels(ways), [men(position) for position in claim.positions], None, bold, notes, refused, edges)


def refutation_picture(text, is_folded):
    lines = iter(text.splitlines()[1:])
    dialect, _, moves, count = (next(lines).split()[1] for _ in range(4))
    for _ in range(int(count)):
        next(lines)
    claims = read_claims(lines)
    within = f"no plan mates within {moves} move{'s' * (moves != '1')}"
    heading = [within.capitalize(), f"{dialect}, {len(claims)} claim{'s' * (len(claims) > 1)}"]
    heading += ["Claims that cite no other are not drawn."] * is_folded
    return tree(f"Why {within}, as a tree of claims", heading, [claim_board(claims, len(claims), [], {len(claims)}, is_folded)])


def read_games(text):
    """The head of the sessions of some games, and for each its start and its tries."""
    dialect, games = "dialect wild16", []
    for line in text.splitlines()[1:]:
        word, _, rest = line.partition(" ")
        if word == "dialect":
            dialect = line
        elif word == "start":
            games.append((rest, []))
        elif word in ("w", "b"):
            games[-1][1].append((word, rest))
    return ["krieg session 2", dialect], games


def judged(krieg, head, start, tries):
    """What is said to each player of his own tries."""
    session = [*head, f"start {start}", *(" ".join(one) for one in tries), "end", ""]
    lines = asked(krieg, ["umpire", "all"], "\n".join(session), "a game").splitlines()
    return [line.split(" ", 3)[3] for line in lines if line[2:].startswith("try ")]


def game_boards(krieg, head, start, tries):
    """The boards of a game in their order, none with another behind it: one for each move that was done, with its number as in books, and a
    last one."""
    sheet = [head[0].replace("session", "sheet"), head[1]]
    said, vain, made, position = judged(krieg, head, start, tries), [], [], start
    for (side, move), words in zip(tries, said):
        if not words.startswith("ok "):
            vain.append(f"{side} {move} {words}")
            continue
        number = 1 + (len(made) + (start.split()[1] == "b")) // 2
        notes = textwrap.wrap(words.removeprefix("ok "), NOTE)
        made.append(Board(vain, [men(position)], move, f"{number} {side} {move}", notes, [], []))
        entry = [*sheet, f"side {side}", "list 1", position, f"try {move} {words}", "end", ""]
        vain, position = [], believed(krieg, "\n".join(entry), f"behind {move}")[0]
    return [*made, Board(vain, [men(position)], None, "so it stands", [position.split(" ", 1)[1]], [], [])]


def in_rows(boards, name):
    """Boards in rows, each as the first of its row with the others behind it. The name stands above each row."""
    rows = []
    for first in range(0, len(boards), ROW):
        row = None
        for one in reversed(boards[first : first + ROW]):
            row = one._replace(edges=[row] if row else [])
        rows.append(row._replace(above=[f"{name}, on"] * bool(name and rows) + [name] * bool(name and not rows) + row.above))
    return rows


def games_picture(krieg, text):
    head, games = read_games(text)
    rows = []
    for number, (start, tries) in enumerate(games, 1):
        rows += in_rows(game_boards(krieg, head, start, tries), f"game {number}" if len(games) > 1 else "")
    return tree("Games, each as rows of boards" if len(games) > 1 else "A game as rows of boards", [], rows)


def sheet_picture(krieg, text):
    """The picture of a sheet: where the hidden men may be."""
    found = believed(krieg, text, "the sheet")
    if not found:
        raise Fault("no position is possible")
    note = f"{positions(len(found))}, {to_move(found[0])}"
    return alone("Where the hidden men may be", [men(position) for position in found], note)


def strategy_picture(text, first):
    """The picture of a strategy, which needs no program: tests/strategies.py says which positions may stand at a node."""
    import tables

    try:
        return tables.picture(text, first)
    except tables.Fault as fault:
        raise Fault(str(fault)) from fault


def picture(krieg, text, is_folded=False, first=None):
    """The picture of a text, as docs/draw-plan says, which asks this program. It raises a fault where there is none."""
    kind = text.split(" ", 2)[1] if text.startswith("krieg ") else ""
    if kind == "strategy" and not is_folded:
        drawn = strategy_picture(text, first)
    elif first is not None:
        raise Fault("the input is not a strategy")
    elif kind == "plan":
        drawn = plan_picture(krieg, text, is_folded)
    elif kind == "refutation":
        drawn = refutation_picture(text, is_folded)
    elif kind in ("games", "session") and not is_folded:
        drawn = games_picture(krieg, text)
    elif kind == "sheet" and not is_folded:
        drawn = sheet_picture(krieg, text)
    else:
        raise Fault("the input is not a text that it draws")
    return "\n".join([*drawn, ""])
