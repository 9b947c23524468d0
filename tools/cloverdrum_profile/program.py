"""Runs the program `ranges`."""

import subprocess
from pathlib import Path
from typing import NamedTuple

from .model import Range

RANGES = Path(__file__).resolve().parents[2] / "ranges"
ANSWERED = (0, 1)
"""The exit statuses beside ranges and beside a refusal."""


class ProgramError(Exception):
    """The program could not be run, or printed something unknown."""


class Ranges(NamedTuple):
    total: Range
    days: list[Range]


def run_ranges(data: bytes) -> Ranges | int:
    """The ranges that the program prints for a file, or the number of its refusal."""
    try:
        run = subprocess.run([RANGES], input=data, stdout=subprocess.PIPE)
        if run.returncode not in ANSWERED:
            raise ProgramError(f"{RANGES} failed with exit status {run.returncode}")
        return _parse(run.stdout.decode("ascii"))
    except OSError as error:
        raise ProgramError(f"{RANGES} can't be run: {error.strerror}") from error
    except ValueError as error:
        raise ProgramError(f"{RANGES} printed something unknown: {error}") from error


def _parse(output: str) -> Ranges | int:
    match output.split():
        case ["refused", number]:
            return int(number)
    (_, *total), *days = (line.split() for line in output.splitlines())
    return Ranges(_range(total), [_range(bounds) for _, _, *bounds in days])


def _range(words: list[str]) -> Range:
    floor, ceiling = map(int, words)
    return Range(floor, ceiling)
