"""The README's picture of the floors, and that it is not stale."""

from checks.tree import ROOT, floors

BEGIN, END = "<!-- docs/floors -->", "<!-- end of docs/floors -->"


def lines():
    """The floors from the top down: the name, what it is, and its crates below."""
    width = max(len(floor.name) for floor in floors()) + 2
    for floor in reversed(floors()):
        yield f"{floor.name:{width}}{floor.comment}"
        yield " " * width + "  ".join(floor.crates)


def block():
    return "\n".join([BEGIN, "```text", *lines(), "```", END])


def faults():
    if block() not in (ROOT / "README.md").read_text():
        yield "README.md's picture of the floors is stale: docs/floors README.md"
