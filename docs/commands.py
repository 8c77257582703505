"""The commands, as the last table of docs/FORMATS.md has them, and where the rows of krieg_args say something else."""

import collections
import pathlib
import re

FORMATS = pathlib.Path(__file__).resolve().parent / "FORMATS.md"
FILES = {"two names of files": 2, "four names of files": 4}

# A command: its name, its words in each of its forms, the ranges of its numbers, how many files it names, its program, and what it reads.
Command = collections.namedtuple("Command", "name forms ranges files program input")


def command_of(row):
    """The command of a row of the table."""
    words, ranges, program, read = (it.strip().replace("`", "") for it in row.split("|")[1:5])
    forms = [it.split() for it in words.split(", ")]
    numbers = [(int(low), int(top.replace(",", ""))) for low, top in re.findall(r"([\d,]+) to ([\d,]+)", ranges)]
    return Command(forms[0][0], forms, numbers, next((FILES[it] for it in FILES if it in ranges), 0), program, read)


def commands():
    """All commands by their names, in the order of the table."""
    rows = [it for it in FORMATS.read_text().partition("| Words |")[2].split("\n") if it.startswith("| `")]
    return {it.name: it for it in map(command_of, rows)}


def kinds_of(text, named):
    """The kinds of a list of them in antt, where names stand for kinds, or for lists of kinds."""
    found = []
    for word in text.strip("()").split(" ∷ "):
        if word in named:
            found += kinds_of(named[word], named)
        elif word != "[]":
            found.append(word.split())
    return found


def rows(crate, values):
    """The rows of krieg_args, whose folder this is: each name with its program and the kinds of its words, the constants by their values."""
    kinds, text = (crate / "specs/Kinds.antt").read_text(), (crate / "specs/Rows.antt").read_text()
    named = dict(re.findall(r"^(\w+) = ((?:Number|\w+ ∷) .*)$", kinds, re.MULTILINE))
    found = {}
    for program, rest in re.findall(r"^(krieg|find)_rows =\n((?:    .*\n)+)", text, re.MULTILINE):
        for name, form in re.findall(r'row \(codes "(\w+)"\) (\(.*?\)|\S+)', rest):
            found[name] = ("krieg" if program == "krieg" else "krieg_find", [[values.get(it, it) for it in kind] for kind in kinds_of(form, named)])
    return found


def differing(crate, values):
    """The commands of which the table says something else than their rows."""
    unread = {it.lower() for it in re.findall(r"^takes_input \((\w+).*\) = false$", (crate / "specs/Command.antt").read_text(), re.MULTILINE)}
    table, told = commands(), rows(crate, values)
    for name in sorted(table.keys() | told.keys()):
        it, (program, kinds) = table.get(name), told.get(name, ("", []))
        numbers = [(int(kind[1]), int(kind[2].replace(",", ""))) for kind in kinds if kind[0] == "Number"]
        spelled = ["A" if kind[0] in ("Number", "File") else "a" for kind in kinds]
        if it is None or name not in told or (it.program, it.ranges, it.files) != (program, numbers, kinds.count(["File"])):
            yield name
        elif (it.input == "not read") != (name in unread) or any(["A" if word.isupper() else "a" for word in form[1:]] != spelled for form in it.forms):
            yield name
