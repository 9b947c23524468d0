"""The page of wrong programs, docs/WRONG-PROGRAMS.md, and what each edit has to say for it."""

import re

from checks.tree import CRATES, DOCS, STATEMENT, edits, floors, functions, public_names, relative

PAGE = DOCS / "WRONG-PROGRAMS.md"
# The bullets of document 01's traps; a contract's clause; a definition or law that an edit is for.
TRAPS = re.compile(r"^## Traps in the method\n\n((?:- .*\n)+)", re.M)
CLAUSE = re.compile(r"^ *(?:ensures|requires)(?: \w+)? \{.*$", re.M)
STATED = re.compile(r"(\w+)/specs/(\w+)\.([^\s.]+)")
# A constant of code.
CONSTANT = re.compile(r"\b[A-Z]{2}[A-Z0-9_]*\b")
OF_A_CRATE = re.compile(r"\b[a-z_]\w*::[A-Z]\w*\b")

HEAD = """# Wrong programs

Printed by `docs/wrong_programs` from the first lines of the edits; `docs/check` fails where it is stale. Each edit is
refused by the prover; [PROMISES](PROMISES.md#wrong-programs-and-wrong-statements) says how to try one.
"""
TRAP_HEAD = """
## Document 01's traps

| trap | edit | wrong program or statement | the fact that fails |
|---|---|---|---|"""
PROGRAM_HEAD = """
## Programs, by floor and crate

An edit stands at each function whose contract rules it out: at the function that it changes, and at a caller whose
contract is that function's.
"""
FLOOR_HEAD = """
### {floor}

| function | edit | wrong program | the fact that fails |
|---|---|---|---|"""
STATEMENT_HEAD = """
## Statements

These change no program, but what is stated: a clause of a contract, or a text of `specs/`.

| what states it | edit | wrong statement | what refuses it |
|---|---|---|---|"""


def link(text, path):
    return f"[`{text}`](../{path})"


def link_edit(edit, home):
    """An edit of another crate than the row's is named with its crate."""
    text = edit.label if edit.crate == home else f"{edit.crate}/{edit.label}"
    return link(text, f"crates/{edit.crate}/must-fail/{edit.label}.edit")


def rows(subject, home, found):
    """A row for each edit; the subject stands in the first."""
    subject = f" {subject}"
    for edit in found:
        yield f"|{subject} | {link_edit(edit, home)} | {edit.wrong.removeprefix(STATEMENT)} | {edit.fails} |"
        subject = ""


def link_subject(subject):
    if stated := STATED.fullmatch(subject):
        crate, module, name = stated.groups()
        path = f"{crate}/specs/{module}"
        return f"{link(path, f'crates/{path}.antt')}, `{name}`"
    crate = subject.partition("::")[0]
    return f"the contract of {link(subject, f'crates/{crate}/src/lib.rt')}"


def trap_words():
    return [line.removeprefix("- ") for line in TRAPS.search((DOCS / "01-scope.md").read_text())[1].splitlines()]


def of_traps(found):
    for words in trap_words():
        yield from rows(words, "", [edit for edit in found if edit.trap and words.startswith(edit.trap)])


def of_floor(floor, there, programs):
    for function in there:
        if function.crate in floor.crates:
            subject = link(str(function), f"crates/{function.crate}/src/{function.source.name}")
            yield from rows(subject, function.crate, [edit for edit in programs if str(function) in edit.subjects])


def of_statements(statements):
    for crate in (crate for floor in floors() for crate in floor.crates):
        for subject in sorted({subject for edit in statements if edit.crate == crate for subject in edit.subjects}):
            yield from rows(link_subject(subject), crate, [edit for edit in statements if subject in edit.subjects])


def page():
    found, there = edits(), list(functions())
    programs = [edit for edit in found if not edit.is_statement]
    lines = [HEAD + TRAP_HEAD, *of_traps(found), PROGRAM_HEAD.rstrip("\n")]
    for floor in floors():
        if below := list(of_floor(floor, there, programs)):
            lines += [FLOOR_HEAD.format(floor=floor.name), *below]
    lines += [STATEMENT_HEAD, *of_statements([edit for edit in found if edit.is_statement])]
    return "\n".join(lines) + "\n"


def changes_statement(edit):
    """Whether an edit changes what is stated: a text of specs/, or a clause of a contract."""
    source = ""
    for line in edit.path.read_text().splitlines():
        if line.startswith("file: specs/"):
            return True
        if line.startswith("file: "):
            source = (edit.path.parent.parent / line.removeprefix("file: ")).read_text()
        elif line.startswith("old: ") and any(line.removeprefix("old: ") in clause for clause in CLAUSE.findall(source)):
            return True
    return False


def is_there(subject, functions_there):
    if stated := STATED.fullmatch(subject):
        crate, module, name = stated.groups()
        path = CRATES / crate / "specs" / f"{module}.antt"
        return path.exists() and name in public_names(path)
    return subject in functions_there


def faults_of_edits():
    there = {str(function) for function in functions()}
    words = trap_words()
    for edit in edits():
        wrong = changes_statement(edit)
        if not edit.wrong:
            yield f"{edit} does not say in its first line what is wrong"
        elif edit.is_statement != wrong:
            yield f"{edit} {'does not begin' if wrong else 'begins'} with '# {STATEMENT}'"
        if not edit.subjects:
            yield f"{edit} has no line '# For: ..'"
        if not edit.fails:
            yield f"{edit} has no line '# Fails: ..'"
        for subject in edit.subjects:
            if not is_there(subject, there):
                yield f"{edit} is for {subject}, which is not there"
        if edit.trap and not any(trap.startswith(edit.trap) for trap in words):
            yield f"{edit} names a trap that document 01 does not have"


def constants(text):
    """Those that a text names without their crate."""
    return set(CONSTANT.findall(OF_A_CRATE.sub("", text)))


def faults_of_texts():
    """An edit's old text stands once in its file, and its new one names no constant that the file has not."""
    for edit in edits():
        source = ""
        for line in edit.path.read_text().splitlines():
            word, _, text = line.partition(": ")
            if word == "file":
                source = (edit.path.parent.parent / text).read_text()
            elif word == "old" and source.count(text) != 1:
                yield f"{edit} quotes a text that stands {source.count(text)} times in its file: {text.strip()}"
            elif word == "new" and (missing := constants(text) - constants(source)):
                yield f"{edit} names what its file does not: {', '.join(sorted(missing))}"


def faults_of_coverage():
    found = edits()
    for function in functions():
        if function.is_public and sum(str(function) in edit.subjects for edit in found) < 2:
            yield f"{function} is public, and fewer than two edits are for it"
    for trap in trap_words():
        if not any(edit.trap and trap.startswith(edit.trap) for edit in found):
            yield f"no edit is for document 01's trap: {trap}"


def faults_of_page():
    if not PAGE.exists() or PAGE.read_text() != page():
        yield f"{relative(PAGE)} is stale: docs/wrong_programs > {relative(PAGE)}"
