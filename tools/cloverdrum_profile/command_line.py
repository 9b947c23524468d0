"""The commands of tools/profile."""

import sys
from pathlib import Path
from textwrap import indent

from .chart import draw
from .explanation import Unexplained, ask, explain
from .file_format import decode, encode
from .files import InputError, LongError, OutputError, input_name, output_name, read, would_replace, write
from .program import ProgramError
from .refusals import Refused
from .text_form import TextError, format_text, parse_text

EXAMPLE = """\
total 35.00 40.00             # floor and ceiling of the sum of the counted days, in degree-days
first 1                       # the first counted day; without this line all days count
day 0 17.00 19.00 rise 0.50   # floor, ceiling, and the least rise to the next day
day 1 17.00 19.00 rise -1.00  # a negative rise allows a fall that large
day 2 18.00 20.50             # the last day has no rise
cut day 2 floor 18.25         # cuts, applied in this order
cut total ceiling 38.00
"""
USAGE = f"""\
usage:
  tools/profile make TEXT FILE    makes the profile file FILE from the text TEXT
  tools/profile text FILE         prints a profile file as such a text
  tools/profile chart FILE SVG    draws the ranges of a profile file as a picture
  tools/profile explain FILE      says what `ranges` answers for a profile file, and why

- in place of a name stands for standard input or standard output.
Exit status: 0 done; 1 the text or the file is refused; 2 wrong use, input that
can't be read, or no answer from `ranges`; 3 output that can't be written.
The text has degrees Celsius, and anything after # is a comment:

{indent(EXAMPLE, "  ")}"""


class UsageError(Exception):
    """A command that is not to be run."""


def main(arguments: list[str]) -> int:
    """Runs one command and gives the exit status."""
    try:
        return _run(arguments)
    except (Refused, TextError, LongError) as error:
        return _fail(1, error)
    except (UsageError, InputError, ProgramError, Unexplained) as error:
        return _fail(2, error)
    except OutputError as error:
        return _fail(3, error)
    except BrokenPipeError:
        return 3


def _fail(status: int, error: Exception) -> int:
    print(error, file=sys.stderr)
    return status


def _run(arguments: list[str]) -> int:
    match arguments:
        case ["make", text, file]:
            _keep_input(text, file)
            write(file, encode(parse_text(_read_text(text), input_name(text))))
        case ["text", file]:
            write("-", format_text(decode(_read_profile(file))).encode())
        case ["chart", file, svg]:
            _keep_input(file, svg)
            write(svg, draw(ask(_read_profile(file)), _title(file)).encode())
        case ["explain", file]:
            return _explain(file)
        case ["-h" | "--help"]:
            write("-", USAGE.encode())
        case _:
            raise UsageError(USAGE.rstrip())
    return 0


def _explain(file: str) -> int:
    try:
        write("-", explain(ask(_read_profile(file))).encode())
    except Refused as refused:
        write("-", f"{refused}\n".encode())
        return 1
    return 0


def _title(file: str) -> str:
    return "standard input" if file == "-" else Path(file).stem


def _keep_input(source: str, target: str) -> None:
    if would_replace(source, target):
        raise UsageError(f"{output_name(target)} is the input itself: name another file for the output")


def _read_profile(path: str) -> bytes:
    """The bytes of a profile file. Two letters would count over 8,000 days, so that a text is told by them."""
    data = read(path)
    if len(data) >= 2 and all(byte in b"\t\n\r" or 32 <= byte < 127 for byte in data[:2]):
        raise TextError(f"{input_name(path)}: this is a text: tools/profile make makes a profile file of it")
    return data


def _read_text(path: str) -> str:
    data = read(path)
    try:
        text = data.decode("utf-8-sig")
    except UnicodeDecodeError as error:
        raise TextError(f"{input_name(path)}: this is not a text: byte {error.start} is not UTF-8") from error
    if b"\0" in data:
        raise TextError(f"{input_name(path)}: this is not a text: byte {data.index(0)} is 0")
    return text
