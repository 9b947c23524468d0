#!/usr/bin/env python3
"""Imports from theory_method name its theorems in proofs/, where they moved from specs/; definitions stay in specs/. Can be run again."""

import re
from pathlib import Path

TOP = Path(__file__).resolve().parent.parent / "crates"
STAY = {"Stages": {"Rising", "Ready", "Crossing", "mirrored_all", "reversed_all"}, "Levels": {"Levels", "shifted_total"}}
LINE = re.compile(r"^((?:ghost )?use Rattle\.theory_method)\.specs\.(Stages|Levels)\.\{([^}]*)\}(;?)$", re.M)


def split(match):
    start, module, names, end = match.groups()
    names = [name.strip() for name in names.split(",")]
    stay = [name for name in names if name.split(" ")[0] in STAY[module]]
    gone = [name for name in names if name not in stay]
    parts = [("specs", stay), ("proofs", gone)]
    return "\n".join(f"{start}.{side}.{module}.{{{', '.join(part)}}}{end}" for side, part in parts if part)


for path in TOP.rglob("*"):
    if path.suffix in (".antt", ".rt") and "out" not in path.parts:
        old = path.read_text()
        new = LINE.sub(split, old)
        if new != old:
            path.write_text(new)
