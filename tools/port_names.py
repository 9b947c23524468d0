#!/usr/bin/env python3
"""Brings the names of this repository's own definitions and lemmas to the spelling of today's Rattle: snake case, and a dash only between two names.

    tools/port_names.py [FOLDER]    once, in a checkout that port.py of the kit has run in; FOLDER is the top of it

What each name becomes stands in port_names.txt beside this script, a line each: OLD NEW. Functions of src/, exported names, texts, inputs and outputs keep
their names. In comments and pages only a name between backticks is turned.
"""

import re
import sys
from pathlib import Path

HERE = Path(__file__).resolve().parent
NAME = re.compile(r"[^\s(){}\[\].,;`λ\"]+")
QUOTED = re.compile(r"`[^`\n]*`")


def main():
    top = Path(sys.argv[1]) if len(sys.argv) > 1 else HERE.parent
    table = dict(line.split() for line in (HERE / "port_names.txt").read_text().splitlines())

    def turn(text):
        return NAME.sub(lambda m: table.get(m[0], m[0]), text)

    def turn_quoted(text):
        return QUOTED.sub(lambda m: turn(m[0]), text)

    def turn_line(line, comment):
        code, mark, said = line.partition(comment)
        return turn(code) + mark + turn_quoted(said)

    for path in sorted((top / "crates").rglob("*")):
        if path.suffix not in (".antt", ".rt", ".edit") or "out" in path.parts:
            continue
        comment = "--" if path.suffix == ".antt" else "//"
        old = path.read_text()
        new = "".join(turn_line(line, comment) for line in old.splitlines(keepends=True))
        if new != old:
            path.write_text(new)
    for path in [*top.glob("*.md"), *(top / "docs").glob("*.md")]:
        if path.name not in ("PORT.md", "CHANGELOG.md"):
            path.write_text(turn_quoted(path.read_text()))


main()
