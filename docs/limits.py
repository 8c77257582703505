"""The limits, as the table of docs/FORMATS.md has them: each by the name of its constant."""

import pathlib
import re

FORMATS = pathlib.Path(__file__).resolve().parent / "FORMATS.md"
TABLE = re.compile(r"^\| [^|]+ \| ([\d,]+) \| `(MOST_\w+)` \|$", re.MULTILINE)
globals().update({name: int(number.replace(",", "")) for number, name in TABLE.findall(FORMATS.read_text())})
