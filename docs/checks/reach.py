"""Every function is reached from a program's `main` or from an entry for C; a method counts for every type that has one of its name."""

import re

from checks.tree import CRATES, NOT_CODE, functions

# Names brought in; a call, by a method or by a path, which may give types; a macro that calls the method `fmt` of what it prints.
USE = re.compile(r"^use ((?:\w+::)+)(\w+|\{[^}]*\});", re.M)
CALL = re.compile(r"(\.)?((?:\w+::)*\w+)(?:::<[^<>()]*>)?\(")
PRINT = re.compile(r"\b(?:write|writeln|print|println)!\(")


def called(crate, brought, body):
    """The functions that a body calls, as (crate, type or "", name); of a method, or of a type parameter's, crate and type are not known. A module counts for nothing."""
    for method, path in CALL.findall(body):
        first, *rest = path.split("::")
        whole = ["", *brought.get(first, [first]), *rest]
        owner = whole[-2] if whole[-2][:1].isupper() else ""
        home = whole[1] if (CRATES / whole[1]).is_dir() and whole[2:] else crate
        yield (None, None, whole[-1]) if method or len(owner) == 1 else (home, owner, whole[-1])
    if PRINT.search(body):
        yield None, None, "fmt"


def brought_in(source):
    text = NOT_CODE.sub("", source.read_text())
    return {name: [*path.split("::")[:-1], name] for path, names in USE.findall(text) for name in re.findall(r"\w+", names)}


def faults():
    calls, reached = {}, set()
    for function in functions():
        calls.setdefault(function.key, set()).update(called(function.crate, brought_in(function.source), function.body))
        if function.is_entry or (function.source.name, function.owner, function.name) == ("main.rt", "", "main"):
            reached.add(function.key)
    left = list(reached)
    while left:
        for call in calls[left.pop()]:
            meant = {f for f in calls if f[1] and f[2] == call[2]} if call[0] is None else {call} & calls.keys()
            left += meant - reached
            reached |= meant
    for function in sorted(calls.keys() - reached):
        yield f"no program and no entry for C reaches {'::'.join(filter(None, function))}"
