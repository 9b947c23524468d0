"""How proof files are written: short chains of `.before`, short lines, and a first line that says the idea, once for a function's two files."""

import re

from checks.tree import CRATES, relative

MOST_STEPS = 6
LONGEST_LINE = 240
CHAIN = re.compile(r"\.before\b(?:\s*\.before\b)*")
# A function's invariants and measures, and the answers to its goals.
OTHER = {"Answers.antt": "Invariants.antt", "Invariants.antt": "Answers.antt"}


def says_idea(proof):
    """Whether the other file of the same function does."""
    other = proof.with_name(OTHER.get(proof.name, proof.name))
    return other != proof and other.exists() and other.read_text().startswith("-- ")


def faults():
    for proof in sorted(CRATES.glob("*/proofs/**/*.antt")):
        name, text = relative(proof), proof.read_text()
        for chain in CHAIN.finditer(text):
            steps = chain[0].count(".before")
            if steps > MOST_STEPS:
                line = text.count("\n", 0, chain.start()) + 1
                yield f"{name}:{line} has a chain of {steps} `.before`, over {MOST_STEPS}: name the place"
        for number, line in enumerate(text.splitlines(), 1):
            if len(line) > LONGEST_LINE:
                yield f"{name}:{number} has {len(line)} characters, over {LONGEST_LINE}"
        if proof.name != "Lib.antt" and not text.startswith("-- ") and not says_idea(proof):
            yield f"{name} has no comment as its first line"
