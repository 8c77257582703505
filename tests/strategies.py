#!/usr/bin/env python3
"""Reads and judges strategies without krieg, from docs/RULES.md and docs/FORMATS.md alone. It is slow.

usage: tests/strategies.py FILE..
       tests/strategies.py --unfold < STRATEGY > PLAN
       tests/strategies.py --next < STRATEGY_AND_LINES

Of each FILE it says `mates W`, where W is the most own moves that the strategy needs, or why it does not mate: the node, what is heard there,
and the game that comes to it, line by line as its player hears it. Of a text that is no strategy it says `line N: ` and what is wrong with the
first bad line. It also says how many units the judgement takes, and of one that mates how many nodes the plan has that it stands for. The
status is 0 where each of them mates in time.

With --unfold it writes the plan that a strategy stands for, if that has at most 100,000 nodes. With --next it says what comes next for a player
who follows a strategy, of whom the lines that he heard stand behind it, in the words of `next` for a plan: a try, `wait`, `mated` or `lost`.

A node has a try, the number of the node to go on with where the try is illegal, or None, and such numbers by what is heard where it is legal.
What is heard is a key: the words of the try and of the reply. The key of a root has the opening words, and at the opponent's turn also those
of his first move. Nodes are numbered from 1, and each leads to lower numbers."""

import collections
import pathlib
import re
import sys

sys.dont_write_bytecode = True
sys.path.insert(0, str(pathlib.Path(__file__).resolve().parent.parent / "docs"))
from limits import MOST_EDGES, MOST_LISTED, MOST_NODES, MOST_ROOTS, MOST_WORST
import rules
from refutations import BadLine, Reader

Strategy = collections.namedtuple("Strategy", "dialect side listed worst nodes roots")
Node = collections.namedtuple("Node", "move no edges")

# One way to go on: what is heard, or None where the try is illegal; the number of the node there, or None; and the position.
Step = collections.namedtuple("Step", "key to position")

# How a position came to a node: from which node and position, or None and a listed position, and what was heard.
Way = collections.namedtuple("Way", "number position key")

# What was found of a strategy: the positions that reach each node, each with its way; within how many moves each of these is mated, or None;
# and what the judgement takes.
Judgement = collections.namedtuple("Judgement", "reached needs worst units")

NUMBER = "(0|[1-9][0-9]*)"


# ---- what may come next


def heard(strategy, position, move):
    """What is told of a legal move."""
    return rules.told(strategy.dialect, rules.words_of(position, move))


def waits(strategy, position):
    """Whether the opponent is to move first."""
    return position.side != strategy.side


def first_steps(strategy, position):
    """How a game from a listed position comes to the first own turn."""
    opens = rules.told(strategy.dialect, rules.opening_words(position))
    if not waits(strategy, position):
        return [Step((opens,), strategy.roots.get((opens,)), position)]
    keys = [(move, (opens, heard(strategy, position, move))) for move in rules.moves(position)]
    return [Step(key, strategy.roots.get(key), rules.after(position, move)) for move, key in keys]


def steps(strategy, number, position):
    """What may come next of a position at a node. Nothing comes behind a try that ends the game."""
    node = strategy.nodes[number - 1]
    if node.move not in rules.moves(position):
        return [Step(None, node.no, position)]
    there, own = rules.after(position, node.move), heard(strategy, position, node.move)
    keys = [(reply, (own, heard(strategy, there, reply))) for reply in rules.moves(there)]
    return [Step(key, node.edges.get(key), rules.after(there, reply)) for reply, key in keys]


# ---- the judgement


def carried(strategy, first):
    """The positions that reach each node, each with a way, where these pairs of a number and a position come first, each with its way. A node
    leads to lower ones alone, so all that reach it are known once the higher ones are done."""
    found = {number: {} for number in range(len(strategy.nodes), 0, -1)}
    for (number, position), way in first.items():
        found[number][position] = way
    for number, positions in found.items():
        for position in positions:
            for key, to, left in steps(strategy, number, position):
                if to is not None:
                    found[to].setdefault(left, Way(number, position, key))
    return found


def carried_from_roots(strategy):
    """The same from the listed positions on."""
    first = {}
    for position in strategy.listed:
        for key, to, left in first_steps(strategy, position):
            if to is not None:
                first.setdefault((to, left), Way(None, position, key))
    return carried(strategy, first)


def greatest(numbers):
    """The greatest of these numbers, or None where there is none or one of them is None."""
    return None if None in numbers or not numbers else max(numbers)


def is_stalemate(position):
    return not rules.moves(position) and not rules.in_check(position)


def need(strategy, known, number, position):
    """Within how many own moves a position at a node is mated, or None, where that is known of lower nodes."""
    move, found = strategy.nodes[number - 1].move, steps(strategy, number, position)
    if not found:
        return None if is_stalemate(rules.after(position, move)) else 1
    most = greatest([known.get((step.to, step.position)) for step in found])
    return most if most is None or found[0].key is None else most + 1


def needs_of(strategy, reached):
    """Within how many own moves each position is mated at each node that it reaches: from the lowest node up."""
    known = {}
    for number in sorted(reached):
        for position in reached[number]:
            known[number, position] = need(strategy, known, number, position)
    return known


def worst_case(strategy, known):
    """Within how many own moves each listed position is mated, however the game starts, or None."""
    starts = [first_steps(strategy, position) for position in strategy.listed]
    return greatest([known.get((step.to, step.position)) for found in starts for step in found] + [None] * ([] in starts))


def price(strategy, reached):
    """The units of a judgement: one for each pair of a node and a position that reaches it, one for each reply to its try, and one for each
    first move of the opponent in each listed position, which counts once."""
    firsts = sum(len(rules.moves(position)) for position in set(strategy.listed) if waits(strategy, position))
    replies = sum(1 for number, positions in reached.items() for position in positions
                  for step in steps(strategy, number, position) if step.key is not None)
    return firsts + sum(map(len, reached.values())) + replies


def judgement(strategy):
    reached = carried_from_roots(strategy)
    needs = needs_of(strategy, reached)
    return Judgement(reached, needs, worst_case(strategy, needs), price(strategy, reached))


def judged(text, budget):
    """What `judge` must end with and what it must write, on standard output or on standard error."""
    try:
        strategy = read(text)
    except BadLine as bad:
        return 3 if bad.kind in ("syntax", "version", "count", "out of place", "large") else 4, f"krieg: {bad}\n"
    found = judgement(strategy)
    if found.units > budget:
        return 8, "krieg: budget spent\n"
    is_won = found.worst is not None and found.worst <= strategy.worst
    return (0, f"mates {found.worst}\n") if is_won else (13, "krieg: plan fails\n")


# ---- why it fails


def key_text(strategy, key):
    return " / ".join(rules.words_text(strategy.dialect, words) for words in key)


def lines_of(strategy, way):
    """What the player hears on a way."""
    if way.number is None:
        words = [rules.words_text(strategy.dialect, one) for one in way.key]
        return [f"opens {words[0]}", *(f"heard {one}" for one in words[1:])]
    move = rules.move_text(strategy.nodes[way.number - 1].move)
    if way.key is None:
        return [f"try {move} illegal"]
    own, reply = (rules.words_text(strategy.dialect, words) for words in way.key)
    return [f"try {move} ok {own}", f"heard {reply}"]


def game_to(strategy, reached, number, position):
    """A game that comes to a position at a node: the listed position, and what is heard from there on."""
    ways = [reached[number][position]]
    while ways[-1].number is not None:
        ways.append(reached[ways[-1].number][ways[-1].position])
    return ways[-1].position, [line for way in reversed(ways) for line in lines_of(strategy, way)]


def failure_at(strategy, number, position):
    """What goes wrong at a node in a position, whatever comes later; or None."""
    node = strategy.nodes[number - 1]
    move, found = rules.move_text(node.move), steps(strategy, number, position)
    if not found:
        return f"{move} stalemates" if is_stalemate(rules.after(position, node.move)) else None
    if found[0].key is None:
        return f"{move} is illegal, and there is no `no`" if node.no is None else None
    lost = [step.key for step in found if step.to is None]
    return f"{move} has no edge `on {key_text(strategy, lost[0])}`" if lost else None


def failure_at_start(strategy):
    """The first listed position that no root serves, and what goes wrong there; or None."""
    for position in strategy.listed:
        found = first_steps(strategy, position)
        lost = [step.key for step in found if step.to is None]
        if lost or not found:
            return position, f"there is no root `on {key_text(strategy, lost[0])}`" if lost else "the game is over"
    return None


def why(strategy, found):
    """The lines that say why a strategy does not mate in time."""
    start = failure_at_start(strategy)
    if start is not None:
        return [start[1], f"from {rules.position_text(start[0])}"]
    for number, positions in found.reached.items():
        for position in positions:
            what = failure_at(strategy, number, position)
            if what is not None:
                listed, lines = game_to(strategy, found.reached, number, position)
                listed, here = rules.position_text(listed), rules.position_text(position)
                return [f"at node {number} {what}", f"from {listed}", *lines, f"stands {here}"]
    return [f"it needs {found.worst} moves, and claims {strategy.worst}"]


def said(text):
    """Whether a text is a strategy that mates in time, and what is said of it."""
    try:
        strategy = read(text)
    except BadLine as bad:
        return False, [str(bad)]
    found = judgement(strategy)
    pairs, nodes = len(found.needs), sum(map(bool, found.reached.values()))
    there = f"{pairs} positions at {nodes} of {len(strategy.nodes)} nodes"
    price_line = f"{found.units} units: {there}, {found.units - pairs} moves of the opponent"
    if found.worst is not None and found.worst <= strategy.worst:
        return True, [f"mates {found.worst}", price_line, f"as a tree {size_of_plan(strategy)} nodes"]
    first, *rest = why(strategy, found)
    return False, [f"strategy fails: {first}", *(f"  {line}" for line in rest), price_line]


# ---- the plan


def sizes(strategy):
    """How many nodes the tree of each node has, by its number."""
    found = [0]
    for node in strategy.nodes:
        found.append(1 + found[node.no or 0] + sum(found[to] for to in node.edges.values()))
    return found


def size_of_plan(strategy):
    """How many nodes the plan has that a strategy unfolds to."""
    found = sizes(strategy)
    return sum(found[to] for to in strategy.roots.values())


def links_text(strategy, links, trees):
    """The lines of edges or roots, each with the tree to which it leads."""
    return "".join(f"on {key_text(strategy, key)}\n{trees[to]}" for key, to in links.items())


def trees_of(strategy):
    """The text of the tree of each node, by its number."""
    trees = [""]
    for node in strategy.nodes:
        refused = " no" * (node.no is not None)
        play = f"play {rules.move_text(node.move)}{refused} {len(node.edges)}\n"
        trees.append(play + trees[node.no or 0] + links_text(strategy, node.edges, trees))
    return trees


def unfolded(strategy):
    """The text of the plan that a strategy unfolds to, or None where the tree of a node has too many nodes. As a plan is written, it is in the
    first version where that says all."""
    if max(sizes(strategy)) > MOST_NODES:
        return None
    is_first = strategy.dialect == "wild16" and not waits(strategy, strategy.listed[0])
    head = ["krieg plan 1"] if is_first else ["krieg plan 2", f"dialect {strategy.dialect}"]
    listed = [rules.position_text(position) for position in strategy.listed]
    head += [f"side {strategy.side}", f"list {len(listed)}", *listed, f"worst {strategy.worst}", f"roots {len(strategy.roots)}", ""]
    return "\n".join(head) + links_text(strategy, strategy.roots, trees_of(strategy)) + "end\n"


# ---- a player who follows it

# Where a player stands who follows a strategy: at a node; or behind its try, or before the first own turn, with the words that he heard and the
# ways on from there. Of one who heard nothing yet, who has mated, or who is lost, `what` says it.
Stand = collections.namedtuple("Stand", "what number links key", defaults=[None, {}, ()])
LOST, MATED = Stand("lost"), Stand("mated")


def at(number):
    """He stands at a node, or is lost where there is none."""
    return LOST if number is None else Stand("try", number)


def read_line(lines, dialect):
    """The next line that a player heard: what it is, and its words or its move."""
    found = lines.line("(opens|heard) (.+)|try ([^ ]+) (illegal|early|over|ok (.+))")
    kind, words = (found[1], found[2]) if found[1] else (found[4].split(" ")[0], found[5])
    move = found[3] and rules.read_move(found[3])
    if words and not rules.are_words(dialect, words) or found[3] and move is None:
        lines.bad("syntax")
    return kind, words and words_of_text(dialect, words), move


def stand_behind(strategy, stand, kind, words, move):
    """Where a player stands behind one line more."""
    if kind in ("early", "over"):
        return stand
    if kind == "opens" and stand.what == "new":
        return Stand("wait", None, strategy.roots, (words,)) if waits(strategy, strategy.listed[0]) else at(strategy.roots.get((words,)))
    if kind == "heard" and stand.links:
        return at(stand.links.get((*stand.key, words)))
    node = strategy.nodes[stand.number - 1] if stand.number else None
    if node is None or move != node.move:
        return LOST
    if kind == "illegal":
        return at(node.no)
    return MATED if words.end == 1 else Stand("wait", None, node.edges, (words,))


def advised(text):
    """What comes next for a player who follows a strategy, behind which stand the lines that he heard."""
    head, mark, behind = text.partition(b"\nend\n")
    strategy, lines = read(head + mark), Reader(text)
    lines.number, stand = head.count(b"\n") + 2, Stand("new")
    for _ in range(len(lines.lines) - lines.number):
        stand = stand_behind(strategy, stand, *read_line(lines, strategy.dialect))
    if stand.what == "try":
        return f"try {rules.move_text(strategy.nodes[stand.number - 1].move)}"
    return "wait" if stand.what == "new" else stand.what


# ---- the text


def number_of(text):
    """A plain decimal. Of a long one the first nine digits say that it is above every limit."""
    return int(text[:9])


def read(text):
    """The strategy of a text, which raises its first bad line."""
    lines = Reader(text)
    if lines.line(f"krieg strategy {NUMBER}")[1] != "1":
        lines.bad("version")
    dialect = lines.line("dialect (wild16|anytry|plain)")[1]
    side = lines.line("side ([wb])")[1]
    listed = read_list(lines, side)
    worst = read_count(lines, "worst", 1, MOST_WORST)
    nodes, edges = [], 0
    for number in range(1, read_count(lines, "nodes", 1, MOST_NODES) + 1):
        nodes.append(read_node(lines, dialect, number, edges))
        edges += len(nodes[-1].edges)
    roots = read_roots(lines, dialect, 2 if listed[0].side != side else 1, len(nodes))
    lines.line("end")
    if len(lines.lines) > lines.number:
        lines.number += 1
        lines.bad("syntax")
    return Strategy(dialect, side, listed, worst, nodes, roots)


def read_count(lines, word, low, most):
    """The number of the next line, which has this word before it."""
    number = number_of(lines.line(f"{word} {NUMBER}")[1])
    return number if low <= number <= most else lines.bad("count")


def read_list(lines, side):
    """The listed positions. Either side is to move, and all have the hand of the first."""
    found = []
    for _ in range(read_count(lines, "list", 1, MOST_LISTED)):
        found.append(lines.position())
        if rules.hand(found[-1], side) != rules.hand(found[0], side):
            lines.bad("differs")
    return found


def read_node(lines, dialect, number, edges):
    """The node with this number, behind so many edges of other nodes."""
    line = lines.line(f"play ([^ ]+)(?: no {NUMBER})? {NUMBER}")
    move, no, count = rules.read_move(line[1]), line[2], number_of(line[3])
    if move is None:
        lines.bad("syntax")
    if count > MOST_EDGES:
        lines.bad("count")
    if no is not None and not 1 <= number_of(no) < number:
        lines.bad("out of place")
    if edges + count > MOST_EDGES:
        lines.bad("large")
    return Node(move, no and number_of(no), read_links(lines, dialect, count, 2, [2], number - 1))


def read_roots(lines, dialect, parts, nodes):
    """The roots, whose keys have so many parts."""
    return read_links(lines, dialect, read_count(lines, "roots", 1, MOST_ROOTS), parts, [1, 2], nodes)


def read_links(lines, dialect, count, parts, forms, most):
    """So many lines that lead to a number up to `most`, by their keys, which have so many parts. One with another number of parts is out of
    place where that is one of `forms`, and no such line at all elsewhere."""
    found, last = {}, ()
    for _ in range(count):
        line = lines.line(f"on (.*) {NUMBER}")
        texts = line[1].split(" / ")
        if len(texts) not in forms or not all(rules.are_words(dialect, text) for text in texts):
            lines.bad("syntax")
        key = tuple(words_of_text(dialect, text) for text in texts)
        if len(key) != parts or key <= last or not 1 <= number_of(line[2]) <= most:
            lines.bad("out of place")
        found[key], last = number_of(line[2]), key
    return found


def words_of_text(dialect, text):
    """The words that a text of a dialect tells, as `told` gives them."""
    found = rules.FORMS[dialect].fullmatch(text).groupdict()
    took, checks, tries = found["took"] or "", found["checks"] or "", found["tries"] or ""
    kind = 0 if not took else 1 if took.startswith("pawn") else 65
    bits = [rules.CHECKS.get(one, 1) for one in re.split(r"[+ ]", checks)[1:]] if dialect != "plain" else [1] * bool(checks)
    number = {"": "0", "some": "1"}.get(tries[6:], tries[6:])
    return rules.Words(rules.ENDS.index(found["end"] or ""), kind and kind + rules.NUMBER[took[-2:]], sum(bits), int(number))


def answer(option, text):
    """What is written with an option."""
    try:
        said = unfolded(read(text)) if option == "--unfold" else f"{advised(text)}\n"
    except BadLine as bad:
        sys.exit(f"strategies.py: {bad}")
    return said or sys.exit(f"strategies.py: the plan has more than {MOST_NODES:,} nodes")


def main():
    files = sys.argv[1:]
    if files in (["--unfold"], ["--next"]):
        print(answer(files[0], sys.stdin.buffer.read()), end="")
        return
    if not files or files[0].startswith("-"):
        sys.exit(__doc__)
    are_won = True
    for name in files:
        is_won, lines = said(pathlib.Path(name).read_bytes())
        are_won = are_won and is_won
        print(f"{name}: {lines[0]}", *(f"  {line}" for line in lines[1:]), sep="\n", flush=True)
    sys.exit(0 if are_won else 1)


if __name__ == "__main__":
    main()
