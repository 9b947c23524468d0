"""What there is to read: documents, crates by floor, functions, definitions, must-fail edits."""

import pathlib
import re
from dataclasses import dataclass, field

ROOT = pathlib.Path(__file__).resolve().parents[2]
CRATES = ROOT / "crates"
DOCS = ROOT / "docs"
HEADER = ROOT / "include" / "cloverdrum.h"
# Documents that others wrote, which stand as they came.
GIVEN = [DOCS / "01-scope.md", DOCS / "02-change-requests.md"]

# A floor of crates.txt, `# Name: what it is.`, and a crate below it, `name: the crates that it needs`, or `name staticlib: ..`.
FLOOR = re.compile(r"^# (\w+): (.*?)\.?$")
CRATE = re.compile(r"^(\w+)(?: staticlib)?:")

# A source as `rt fmt` lays it out: what is no code; a trait, whose methods are those of its types; the methods of a type; a function, to the brace below it.
NOT_CODE = re.compile(r'b"(?:[^"\\]|\\.)*"|//[^\n]*|^ *(?:requires|ensures)\b[^\n]*', re.M | re.S)
TRAIT = re.compile(r"^(?:pub )?trait .*?^\}", re.M | re.S)
IMPL = re.compile(r"^impl(?:<[^>\n]*>)? (?:[\w:]+ for )?(\w+)(?:<[^>]*>)? \{\n(.*?)^\}", re.M | re.S)
FUNCTION = re.compile(r'^( *)(?:(pub(?:\(crate\))?) )?(extern "C" )?fn (\w+)(.*?)^\1\}', re.M | re.S)

# A declaration of specs/: a definition, a record, a data type or a law.
DECLARED = re.compile(r"(?:abbrev |unfoldable )?(pub )?(?:(record|data) )?([^\s:({]+)")

# The first lines of an edit.
NOTE = re.compile(r"# (For|Fails|Trap): (.*)")
STATEMENT = "Wrong statement: "


def relative(path):
    return path.relative_to(ROOT)


def documents():
    """The documents that are kept up to date; the landing notes are history."""
    names = [ROOT / "README.md", ROOT / "CONTRIBUTING.md", ROOT / "CHANGELOG.md", *sorted(DOCS.glob("*.md")), ROOT / "examples" / "README.md"]
    return [name for name in names if name.exists()]


@dataclass
class Floor:
    name: str
    comment: str
    crates: list = field(default_factory=list)


def floors():
    """The floors of crates.txt with their crates, from the bottom up. The first line of the file, about all of it, names no crate."""
    found = []
    for line in (ROOT / "crates.txt").read_text().splitlines():
        if heading := FLOOR.match(line):
            found.append(Floor(*heading.groups()))
        elif crate := CRATE.match(line):
            found[-1].crates.append(crate[1])
    return [floor for floor in found if floor.crates]


def sources(crate="*"):
    return sorted(CRATES.glob(f"{crate}/src/**/*.rt"))


@dataclass
class Function:
    crate: str
    owner: str
    name: str
    source: pathlib.Path
    body: str
    is_public: bool
    is_entry: bool

    @property
    def key(self):
        return self.crate, self.owner, self.name

    def __str__(self):
        return "::".join(filter(None, self.key))


def functions():
    """Every function, in the order of the crates and of the sources."""
    for crate in (crate for floor in floors() for crate in floor.crates):
        for source in sources(crate):
            text = TRAIT.sub("", NOT_CODE.sub("", source.read_text()))
            parts = [("", IMPL.sub("", text)), *IMPL.findall(text)]
            for owner, part in parts:
                for _, public, entry, name, body in FUNCTION.findall(part):
                    yield Function(crate, owner, name, source, body, public == "pub", bool(entry))


def public_names(module):
    """The public names that a module of specs/ declares. What is indented below a record or a data type is a field or a case, and no name of its own."""
    type_indent = None
    for line in module.read_text().splitlines():
        text = line.lstrip()
        indent = len(line) - len(text)
        if not text or type_indent is not None and indent > type_indent:
            continue
        declared = DECLARED.match(text)
        type_indent = indent if declared and declared[2] else None
        if declared and declared[1] and declared[3] not in ("mod", "use"):
            yield declared[3]


@dataclass
class Edit:
    """A must-fail edit: what is wrong, whom it is for, the fact that fails, and document 01's trap where it is one."""

    path: pathlib.Path
    wrong: str
    subjects: list
    fails: str
    trap: str

    @property
    def crate(self):
        return self.path.parts[-3]

    @property
    def label(self):
        return self.path.stem

    @property
    def is_statement(self):
        return self.wrong.startswith(STATEMENT)

    def __str__(self):
        return str(relative(self.path))


def read_edit(path):
    lines = path.read_text().splitlines()
    notes = dict(match.groups() for match in map(NOTE.fullmatch, lines) if match)
    subjects = [subject for subject in notes.get("For", "").split(", ") if subject]
    first = lines[0] if lines else ""
    wrong = first.removeprefix("# ") if first.startswith("# ") and not NOTE.fullmatch(first) else ""
    return Edit(path, wrong, subjects, notes.get("Fails", ""), notes.get("Trap", ""))


def edits():
    return [read_edit(path) for path in sorted(CRATES.glob("*/must-fail/*.edit"))]
