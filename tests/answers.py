"""What the program may answer to a text, whatever the text is: the statuses and the lines of docs/FORMATS.md.

The scripts beside this file use it; it does nothing by itself."""

import collections
import os
import pathlib
import re
import shutil
import subprocess
import sys

TOP = pathlib.Path(__file__).resolve().parent.parent
sys.path.insert(1, str(TOP / "examples"))
from texts import PROGRAMS

# No run of a script takes longer.
SECONDS = 5

AT = rb"krieg: line ([1-9][0-9]*): "

# What stands on standard error at each status.
LINES = {
    0: rb"",
    1: rb"krieg: usage\n",
    2: rb"krieg: input too long\n",
    3: AT + rb"(?:version|syntax|count|out of place|deep|large)\n",
    4: AT + rb"(?:kings|pawn rank|too many men|idle side in check|rights|mark|differs)\n",
    5: rb"krieg: no consistent position\n",
    6: rb"krieg: not the player's turn\n",
    7: AT + rb"too many positions\n",
    8: rb"krieg: budget spent\n",
    9: rb"krieg: read fault\n",
    10: rb"krieg: write fault\n",
    11: rb"krieg: want of memory\n",
    12: rb"krieg: (?:no seat|seat fault) [wb]\n",
    13: rb"krieg: plan fails\n",
    14: rb"krieg: plan too large\n",
    17: rb"krieg: a plan exists\n",
    18: rb"krieg: refutation fails\n",
    19: rb"krieg: answer too long\n",
    20: rb"krieg: no such position\n",
}

# The statuses with which a command may end where its words are good, its input is short and there is memory.
STATUSES = {
    "umpire": {0, 3, 4},
    "san": {0, 3, 4},
    "unsan": {0, 3, 4},
    "believe": {0, 3, 4, 7},
    "why": {0, 3, 4, 5, 7, 19},
    "solve": {0, 3, 4, 5, 6, 7, 8, 14},
    "find": {0, 3, 4, 5, 6, 7, 8, 14},
    "keys": {0, 3, 4, 5, 6, 7, 8},
    "share": {0, 3, 4, 5, 6, 7, 8, 14},
    "check": {0, 3, 4, 8, 13},
    "judge": {0, 3, 4, 8, 13},
    "refute": {0, 3, 4, 5, 6, 7, 8, 14, 17},
    "deny": {0, 3, 4, 8, 18},
    "advise": {0, 3, 4},
    "conduct": {0, 3, 4, 12, 20},
    "next": {0, 3, 4},
    "lead": {0, 3, 4, 12, 20},
    "play": {0, 3, 4, 12},
    "make": {0},
    "job": {0},
}

# What an answer begins with.
ANSWERS = {
    "umpire": rb"krieg sheet [12]\n|[wb] opens ",
    "san": rb"krieg record 1\n",
    "unsan": rb"krieg session 1\n",
    "believe": rb"krieg sheet [12]\n",
    "why": rb"krieg games 1\n",
    "solve": rb"krieg plan [12]\n|none [1-6]\n$",
    "find": rb"krieg plan [12]\n|none [1-9][0-9]*\n$",
    "keys": rb"krieg keys 1\n|none [1-9][0-9]*\n$",
    "share": rb"krieg strategy 1\n|none [1-9][0-9]*\n$",
    "check": rb"mates [1-9][0-9]*\n$",
    "judge": rb"mates [1-9][0-9]*\n$",
    "refute": rb"krieg refutation 1\n",
    "deny": rb"refuted [1-6]\n$",
    "advise": rb"(?:try [a-h][1-8][a-h][1-8][qrbn]?|wait|mated|lost)\n$",
    "conduct": rb"krieg session [12]\n",
    "next": rb"(?:try [a-h][1-8][a-h][1-8][qrbn]?|wait|mated|lost)\n$",
    "lead": rb"krieg session [12]\n",
    "play": rb"krieg session 1\n",
    "make": rb"krieg (?:sheet|session) 1\n",
    "job": rb"listed [1-9][0-9]*\n",
}

# What is tried on a text of each kind: the commands that read such, each by its first words everywhere, and by the others where chance goes.
TRIED = {
    "sheet": [
        [["solve", "2", "200000", "100"], ["solve", "1", "20000", "100"], ["solve", "2", "20000", "100"], ["solve", "3", "5000", "8"]],
        [["believe", "100"], ["believe", "1"]],
        [["refute", "2", "200000", "100"], ["refute", "1", "20000", "100"], ["refute", "2", "20000", "8"]],
    ],
    "session": [[["umpire", "all"]], [["umpire", "w"]], [["umpire", "b"]], [["san"]]],
    "record": [[["unsan"]]],
    "plan": [[["check", "20000"], ["check", "5"]], [["next"]]],
    "followed": [[["next"]]],
    "refutation": [[["deny", "20000"], ["deny", "60"]]],
    "strategy": [[["judge", "20000"], ["judge", "4"]], [["advise"]]],
}

# The status is None where the run took too long, and negative where a signal ended it.
Answer = collections.namedtuple("Answer", "status out err")


def program(argument):
    """The program that is tried: the one that is named, or else the one that `krieg` at the top of this checkout builds."""
    if argument is not None:
        return str(pathlib.Path(argument).resolve())
    # Without words it builds where it must, and then only refuses.
    subprocess.run([TOP / "krieg"], stdin=subprocess.DEVNULL, stderr=subprocess.DEVNULL)
    return str(TOP / "crates/krieg/out/krieg")


def finder(krieg, argument=None):
    """The program krieg_find that is tried: the one that is named, here or as KRIEG_FIND in the environment, or else the one that stands
    beside krieg in its checkout."""
    named = argument or os.environ.get("KRIEG_FIND")
    beside = pathlib.Path(krieg).resolve().parent.parent.parent / "krieg_find/out/krieg_find"
    return str(pathlib.Path(named).resolve() if named else beside)


def program_of(krieg, words):
    """The program that has a command: krieg, or its krieg_find."""
    return finder(krieg) if PROGRAMS.get(words[0]) == "krieg_find" else krieg


def checkout(folder, krieg):
    """Makes a folder look as the top of this checkout does to one who has built it, with that program and its krieg_find; without the
    sources."""
    for name in ["krieg", "crates.txt", "README.md"]:
        shutil.copy2(TOP / name, folder)
    for name in ["examples", "docs", "bench", "tests"]:
        shutil.copytree(TOP / name, folder / name)
    for name, program in [("krieg", krieg), ("krieg_find", finder(krieg))]:
        home = folder / "crates" / name / "out"
        home.mkdir(parents=True)
        (home / name).symlink_to(program)
    (folder / "crates/krieg/out/built").touch()


def run(krieg, words, text, folder=None, seconds=SECONDS):
    """What the program answers to the text under these words, in that folder and within so many seconds."""
    try:
        done = subprocess.run([krieg, *words], input=text, capture_output=True, cwd=folder, timeout=seconds)
    except subprocess.TimeoutExpired:
        return Answer(None, b"", b"")
    return Answer(done.returncode, done.stdout, done.stderr)


def lines_of(text):
    """How many lines a text has. The last line feed may be absent."""
    return text.count(b"\n") + (not text.endswith(b"\n") and text != b"")


def bad_line(answer):
    """The number of the first bad line, where the answer is that there is one."""
    return int(re.match(AT, answer.err).group(1)) if answer.status in (3, 4) else None


def flaw(answer, words, text, statuses=None):
    """What is wrong with an answer to this text, or None. It may have these statuses, or those of its command."""
    if answer.status is None:
        return f"took more than {SECONDS} seconds"
    if answer.status < 0:
        return f"ended by signal {-answer.status}"
    if answer.status not in (statuses or STATUSES[words[0]]):
        return f"ended with {answer.status}"
    if not re.fullmatch(LINES[answer.status], answer.err):
        return f"ended with {answer.status}, and wrote on standard error {answer.err!r}"
    if answer.status != 0 and answer.out != b"":
        return f"ended with {answer.status}, and wrote on standard output {answer.out[:200]!r}"
    if answer.status == 0 and not (re.match(ANSWERS[words[0]], answer.out) and answer.out.endswith(b"\n")):
        return f"answered {answer.out[:200]!r}"
    line = bad_line(answer)
    if line is not None and line > lines_of(text):
        # All lines are accepted, and the text is not complete.
        if answer.err != b"krieg: line %d: syntax\n" % (lines_of(text) + 1):
            return f"says of a text of {lines_of(text)} lines {answer.err!r}"
    return None


def heard(plan):
    """The lines that a player hears along the first path of a plan, up to the reply before its last try."""
    lines, trying = [], None
    for line in re.sub(r"(?s).*\nroots \d+\n", "", plan.decode()).splitlines():
        word, *rest = line.split()
        if word == "on":
            own, *reply = line.removeprefix("on ").split(" / ")
            lines.append(f"try {trying} ok {own}" if trying else f"opens {own}")
            lines += [f"heard {words}" for words in reply]
        elif trying and is_refused:
            lines.append(f"try {trying} illegal")
        if word == "play":
            trying, is_refused = rest[0], "no" in rest
            if rest[1:] == ["0"]:
                break
    return "".join(line + "\n" for line in lines).encode()


def examples():
    """The name, the kind and the text of each sheet, session, record, plan and refutation directly in examples/, by their first lines; and
    each plan with lines that its player heard behind it, which are of the kind `followed`."""
    for path in sorted((TOP / "examples").glob("*")):
        if path.is_file():
            text = path.read_bytes()
            kind = re.match(rb"krieg (sheet|session|record|plan|refutation) [12]\n", text)
            name = str(path.relative_to(TOP))
            if kind:
                yield name, kind.group(1).decode(), text
            if kind and kind.group(1) == b"plan":
                yield f"{name} and lines", "followed", text + heard(text)
