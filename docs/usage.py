"""The page that a script of docs/ or examples/ shows where its first word is --help: its usage, and then what it does. It is the comment or
the text at the head of the script.

usage: docs/usage.py SCRIPT"""

import pathlib
import re
import signal
import sys


def page(script):
    text = pathlib.Path(script).read_text()
    if text.startswith("#!/usr/bin/env bash"):
        head = re.match(r"#!.*\n((?:#.*\n)+)", text)[1]
        text = "\n".join(line.removeprefix("#").removeprefix(" ") for line in head.split("\n"))
    else:
        text = text.split('"""')[1]
    parts = text.strip().split("\n\n")
    usage = next(part for part in parts if part.startswith("usage: "))
    return "\n\n".join([usage, *(part for part in parts if part != usage)])


def show_help():
    """Shows the page of the script that runs, and ends it, where its first word is --help."""
    if sys.argv[1:2] == ["--help"]:
        # A reader who has seen enough may stop.
        signal.signal(signal.SIGPIPE, signal.SIG_DFL)
        print(page(sys.argv[0]))
        sys.exit()


if __name__ == "__main__":
    print(page(sys.argv[1]))
