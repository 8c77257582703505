"""What the sources say of themselves: the crates as crates.txt names them, the definitions of specs/ with their comments, and which of them
stand behind others."""

import pathlib
import re

TOP = pathlib.Path(__file__).resolve().parent.parent
NAME = r"[A-Za-z_][\w']*(?:-[\w']+)*"
DECLARED = re.compile(rf"^( *)(?:(?:abbrev|unfoldable) )?(pub )?((?:record|data) )?({NAME})((?:, {NAME})*)(?= |:)([^=]*?):(?!:)")
WORD = re.compile(rf"{NAME}(?:\.{NAME})*")


class Crate:
    """A crate: its name, its group, what it is, and the libraries that it uses."""

    def __init__(self, name, group, about, uses):
        self.name, self.group, self.about, self.uses = name, group, about, uses


def crates():
    """The crates in the order of crates.txt, where a comment stands before each, and `# == GROUP` before those of a group."""
    found, group, about = [], "", ""
    for line in (TOP / "crates.txt").read_text().split("\n"):
        if line.startswith("# == "):
            group = line[5:]
        elif line.startswith("# "):
            about = line[2:]
        elif line:
            name, _, uses = line.partition(":")
            found.append(Crate(name, group, about, uses.split()))
    return found


class Definition:
    """A definition of a file of specs/: its comment, its first line and its text."""

    def __init__(self, name, comment, first):
        self.name, self.comment, self.first, self.text = name, comment, first, []


class File:
    """A file of specs/: its comment, its definitions in order, and what names from elsewhere mean in it."""

    def __init__(self, crate, path):
        self.crate, self.name = crate, path.stem
        self.definitions, self.meanings, self.aliases = {}, {}, {}
        self.comment = ""
        self.read(path.read_text().split("\n"))

    def read(self, lines):
        comment, here, indent, inside = [], None, 0, None
        for number, line in enumerate(lines):
            stripped = line.strip()
            if stripped.startswith("--"):
                comment.append(stripped[2:].strip())
                continue
            if number and not self.comment and comment and re.match(r"(?:pub )?use ", stripped):
                self.comment, comment = joined(comment), []
            if re.match(r"(?:pub )?use ", stripped):
                import_line(stripped, self.meanings, self.aliases)
            depth = len(line) - len(line.lstrip())
            if stripped and inside is not None and depth <= inside:
                inside = None
            found = DECLARED.match(line) if inside is None else None
            if found and not stripped.startswith(("use ", "pub use ", "module ", "where")) and (found[2] or found[3] or depth <= 2):
                here = Definition(found[4], joined(comment), stripped)
                self.definitions.setdefault(found[4], here)
                here = self.definitions[found[4]]
                inside = depth if found[3] else None
            if here and stripped and not re.match(r"(?:pub )?use ", stripped):
                here.text.append(stripped)
            if stripped.startswith("module ") and comment:
                comment = []
            if stripped:
                comment = []


def joined(comment):
    """The lines of a comment as one text, without rules of dashes."""
    return " ".join(it for it in comment if it and not it.startswith("--")).strip()


def import_line(line, meanings, aliases):
    """Notes what names a `use` line brings in."""
    found = re.match(rf"(?:ghost |pub )?use Rattle\.(\w+)\.specs\.([\w.]+?)(?:\.\{{(.*)\}}| as ({NAME}))?;?$", line)
    if not found:
        return
    crate, path, names, alias = found.groups()
    if path.startswith(("declared", "contracts")) or not crate.startswith("krieg_"):
        return
    if alias:
        aliases[alias] = (crate, path)
    for name in (names or "").split(", "):
        one, _, other = name.partition(" as ")
        if one:
            meanings[other or one] = (crate, path, one)


def cited_in(text, meanings, aliases):
    """The definitions that a text names."""
    for word in WORD.findall(text):
        first, _, rest = word.partition(".")
        if first in aliases and rest:
            yield (*aliases[first], rest.split(".")[0])
        elif first in meanings:
            yield meanings[first]


def clauses_of(text):
    """The parts of a source that callers read: the clauses of public functions, of traits and of impls of traits, and the models."""
    lines = text.split("\n")
    number = 0
    while number < len(lines):
        line = lines[number]
        is_whole = re.match(r"(pub trait |impl\b.* for )", line)
        if is_whole or re.match(r"\s*pub (const )?fn ", line):
            part, depth = [line], len(line) - len(line.lstrip())
            end = re.compile(rf"^ {{{depth}}}(\}}|\{{)$") if not is_whole else re.compile(r"^\}$")
            while not end.match(lines[number]) and not (not is_whole and len(part) == 1 and line.rstrip().endswith(("{", "}", ";")) and "(" in line and ")" in line):
                number += 1
                if number >= len(lines):
                    break
                part.append(lines[number])
                if not is_whole and re.match(rf"^ {{{depth}}}\)?.*\{{$", lines[number]) and not lines[number].strip().startswith(("ensures", "requires")) and len(lines[number]) - len(lines[number].lstrip()) == depth:
                    break
            yield "\n".join(part)
        number += 1


def cited_by(crate):
    """The definitions that the public contracts of a crate cite."""
    for path in sorted((TOP / "crates" / crate / "src").rglob("*.rt")):
        text = path.read_text()
        meanings, aliases = {}, {}
        for line in text.split("\n"):
            if line.strip().startswith("ghost use "):
                import_line(line.strip(), meanings, aliases)
        for part in clauses_of(text):
            yield from cited_in(part, meanings, aliases)


def constants_of(crate):
    """The numbers of a crate that have a name, each with its comment and its value."""
    for path in sorted((TOP / "crates" / crate / "src").rglob("*.rt")):
        for comment, name, value in re.findall(r"((?:^/// .*\n)+)(?:pub(?:\(crate\))? )?const ([A-Z_]+): [ui]\w+ = ([\d_]+);", path.read_text(), re.MULTILINE):
            yield name, joined([it[4:] for it in comment.strip().split("\n")]), value.replace("_", ",")


def libraries():
    """The names of the crates that have definitions, in order."""
    return [it.name for it in crates() if (TOP / "crates" / it.name / "specs/Lib.antt").exists()]


def files_of(crate):
    """The files of a crate's specs/, in the order of Lib.antt."""
    specs = TOP / "crates" / crate / "specs"
    names = re.findall(r"^pub mod (\w+)", (specs / "Lib.antt").read_text(), re.MULTILINE)
    return {name: File(crate, specs / f"{name}.antt") for name in names}


def words_of_clauses():
    """All words of what callers read."""
    words = set()
    for crate in libraries():
        for path in (TOP / "crates" / crate / "src").rglob("*.rt"):
            words |= {word for part in clauses_of(path.read_text()) for word in re.findall(NAME, part)}
    return words


def reached(files, todo):
    """All definitions of which these are made, with them, and the names that were not found."""
    todo, seen, lost = list(todo), set(), set()
    while todo:
        at = todo.pop()
        if at in seen:
            continue
        crate, name, word = at
        file = files.get(crate, {}).get(name)
        definition = file and file.definitions.get(word)
        if not definition and file and word in file.meanings:
            todo.append(file.meanings[word])
            continue
        if not definition:
            if not (file and any(word in "\n".join(it.text) for it in file.definitions.values())):
                lost.add(at)
            continue
        seen.add(at)
        text = "\n".join(definition.text)
        todo += cited_in(text, file.meanings, file.aliases)
        todo += [(crate, name, it) for it in set(re.findall(NAME, text)) & set(file.definitions) if it != word]
    return seen, lost


# What was added once, and the words by which a file of a crate names it: a file that names one of its kind is one that the next one touches.
ADDITIONS = {
    "dialect": r"\b[Aa]nytry\b",
    "command": r"\bBelieve\b|\bmod believe\b|\bbelieve\b(?=\.|::answer)",
    "reason": r"\bByStalemate\b|\bWhy::Stale\b",
}


def naming(kind, crate):
    """The files of a crate, its wrong bodies and what passes words on left out, that name what was added."""
    word, found = re.compile(ADDITIONS[kind]), []
    for part in ("specs", "src", "proofs", "data"):
        for path in sorted((TOP / "crates" / crate / part).rglob("*")):
            if path.is_file() and path.name != "Common.antt" and word.search(path.read_text(errors="replace")):
                found.append(path.relative_to(TOP / "crates" / crate))
    return found


# What 7 moves in the place of 6 change: a file, and behind it each text of it that stands there once, old and new.
RAISED_LIMIT = TOP / "tests/seven-moves.edit"


def limit_texts():
    """The files in which a limit stands in numbers, each with the texts that tell it."""
    found = {}
    for line in RAISED_LIMIT.read_text().split("\n"):
        word, _, text = line.partition(": ")
        if word == "file":
            file = found.setdefault(text, [])
        elif word == "old":
            file.append(text)
    return found


def limit_files():
    """The files of these texts, of which each must stand there once."""
    for path, texts in limit_texts().items():
        whole = (TOP / path).read_text()
        for text in texts:
            if whole.count(text) != 1:
                raise SystemExit(f"{RAISED_LIMIT.relative_to(TOP)}: {path} has this {whole.count(text)} times: {text}")
        yield path
