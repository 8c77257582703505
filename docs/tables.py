"""Strategies as tables of boards, a row a node. What docs/draw-plan draws them with; it says how they are to be read."""

import pathlib
import sys
import textwrap

sys.path.insert(0, str(pathlib.Path(__file__).resolve().parent.parent / "tests"))
import rules
import strategies

import boards

# So wide is what is heard at most.
WRAP = 40
HEADS = ["What is heard", "Node", "Its try", "Positions"]


class Fault(Exception):
    """A strategy that cannot be drawn."""


def counted(number, name):
    return f"no {name}" if number == 0 else f"{number:,} {name}{'s' * (number != 1)}"


def grouped(steps):
    """The positions of each way to go on, each once, by what is heard."""
    found = {}
    for step in steps:
        found.setdefault(step.key, set()).add(step.position)
    return found


def way_lines(strategy, style, name, to, positions):
    """The lines of one way to go on, in a style: what is heard, the node there, or None, its try, and the positions."""
    first, *rest = textwrap.wrap(name, WRAP)
    there = [str(to), rules.move_text(strategy.nodes[to - 1].move)] if to else ["none", ""]
    return [(style, [first, *there, f"{len(positions):,}"]), *((style, [line]) for line in rest)]


def link_lines(strategy, links, steps):
    """The lines of edges or roots, in their order, and behind them those of what may be heard where there is none."""
    found, lines = grouped(steps), []
    for key in [*links, *sorted(key for key in found if key not in links)]:
        name = f"on {strategies.key_text(strategy, key)}"
        lines += way_lines(strategy, "key" if key in links else "no", name, links.get(key), found.get(key, []))
    return lines


def node_lines(strategy, number, positions):
    """The lines beside the board of a node: where its try mates or stalemates, where it is illegal, and what is heard elsewhere."""
    node, steps, ended, lines = strategy.nodes[number - 1], [], {}, []
    for position in positions:
        found = strategies.steps(strategy, number, position)
        steps += found
        if not found:
            end = "stalemate" if strategies.is_stalemate(rules.after(position, node.move)) else "mate"
            ended[end] = ended.get(end, 0) + 1
    for end in sorted(ended):
        lines.append(("key" if end == "mate" else "no", [end, "", "", f"{ended[end]:,}"]))
    refused = {step.position for step in steps if step.key is None}
    if refused or node.no:
        lines += way_lines(strategy, "no", f"no ({rules.move_text(node.move)} is illegal)", node.no, refused)
    return lines + link_lines(strategy, node.edges, [step for step in steps if step.key is not None])


def drawn(positions):
    """The positions as they are drawn, and how many they are."""
    return [boards.men(rules.position_text(position)) for position in positions], counted(len(positions), "position")


def need_note(numbers):
    """Within how many moves all positions of a node are mated, of which these are the numbers."""
    most = strategies.greatest(numbers)
    return "not mated from all of them" if most is None else f"mate within {counted(most, 'move')}"


def node_row(strategy, needs, number, positions):
    move, (found, count) = rules.move_text(strategy.nodes[number - 1].move), drawn(positions)
    note = f"{count}, {need_note([needs[number, position] for position in positions])}"
    return boards.Row(found, move, f"node {number}: {move}", note, node_lines(strategy, number, positions))


def start_row(strategy):
    """The row of the listed positions."""
    steps = [step for position in strategy.listed for step in strategies.first_steps(strategy, position)]
    turn, (found, count) = "White" if strategy.listed[0].side == "w" else "Black", drawn(strategy.listed)
    return boards.Row(found, None, f"start: {turn} is to move", count, link_lines(strategy, strategy.roots, steps))


def below(strategy, reached, first):
    """The positions that reach each node where a game has come to the first one."""
    if not 1 <= first <= len(strategy.nodes):
        raise Fault(f"there is no node {first}")
    if not reached[first]:
        raise Fault(f"no position reaches node {first}")
    return strategies.carried(strategy, {(first, position): way for position, way in reached[first].items()})


def picture(text, first):
    """The picture of a strategy, or of what lies below its node with that number."""
    try:
        strategy = strategies.read(text.encode())
    except strategies.BadLine as bad:
        raise Fault(str(bad)) from bad
    found = strategies.judgement(strategy)
    reached = found.reached if first is None else below(strategy, found.reached, first)
    rows = [] if first is not None else [start_row(strategy)]
    rows += [node_row(strategy, found.needs, number, positions) for number, positions in reached.items() if positions]
    within = f"within {counted(strategy.worst, 'move')}"
    heading = [f"{'White' if strategy.side == 'w' else 'Black'} mates {within}", f"{strategy.dialect}, {counted(len(strategy.nodes), 'node')}"]
    is_won = found.worst is not None and found.worst <= strategy.worst
    heading += [f"What lies below node {first}"] * (first is not None) + ["So it claims, and it fails."] * (not is_won)
    return boards.table(f"A strategy that mates {within}, as a table of boards", heading, HEADS, rows)
