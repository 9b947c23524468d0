"""Files by the names that a user gives; - is standard input or standard output."""

import os
import stat
from contextlib import suppress
from secrets import token_hex

from .messages import excerpt

STANDARD_INPUT, STANDARD_OUTPUT = 0, 1
MOST_BYTES = 1 << 20
"""Of a file that is read. The longest text has some 32,000 without comments, the longest profile file 7,186."""
MOST_OF_NAME = 255
"""Characters that a message shows of a name."""


class InputError(Exception):
    """A file that can't be read."""


class OutputError(Exception):
    """A file that can't be written."""


class LongError(Exception):
    """A file that has more than MOST_BYTES."""


def input_name(path: str) -> str:
    return "standard input" if path == "-" else excerpt(path, MOST_OF_NAME)


def output_name(path: str) -> str:
    return "standard output" if path == "-" else excerpt(path, MOST_OF_NAME)


def would_replace(source: str, target: str) -> bool:
    """Whether an input and an output are one regular file, under whatever names and links."""
    return _same_file(_input(source), _output(target)) and stat.S_ISREG(os.stat(_input(source)).st_mode)


def read(path: str) -> bytes:
    try:
        with open(_input(path), "rb", closefd=path != "-") as file:
            data = file.read(MOST_BYTES + 1)
    except OSError as error:
        raise InputError(f"{input_name(path)}: {error.strerror}") from error
    if len(data) > MOST_BYTES:
        raise LongError(f"{input_name(path)}: this is too long for a profile: it has over {MOST_BYTES:,} bytes")
    return data


def write(path: str, data: bytes) -> None:
    """Writes a file, whole or not at all where it is a regular one."""
    try:
        if path == "-" or _same_file(path, STANDARD_OUTPUT):
            _write_to(STANDARD_OUTPUT, data)
        elif _is_regular(path):
            _replace(path, data)
        else:
            _write_to(path, data)
    except BrokenPipeError:  # whoever reads our output has seen enough
        raise
    except OSError as error:
        raise OutputError(f"{output_name(path)}: {error.strerror}") from error


def _input(path: str) -> str | int:
    return STANDARD_INPUT if path == "-" else path


def _output(path: str) -> str | int:
    return STANDARD_OUTPUT if path == "-" else path


def _same_file(first: str | int, second: str | int) -> bool:
    try:
        return os.path.samefile(first, second)
    except OSError:  # one of them is not there
        return False


def _is_regular(path: str) -> bool:
    """Whether the name is that of a regular file, or of none that is there but could be."""
    try:
        return stat.S_ISREG(os.stat(path).st_mode)
    except FileNotFoundError:
        return os.path.basename(path) != ""


def _write_to(file: str | int, data: bytes) -> None:
    with open(file, "wb", closefd=isinstance(file, str)) as output:
        output.write(data)


def _replace(path: str, data: bytes) -> None:
    """Writes beside the file and renames, so that a failure leaves the file as it was."""
    target = os.path.realpath(path)
    beside = os.path.join(os.path.dirname(target), f".profile-{token_hex(8)}")
    output = open(beside, "xb")
    try:
        with output:
            _keep_mode(target, output.fileno())
            output.write(data)
        os.replace(beside, target)
    except BaseException:
        with suppress(OSError):
            os.unlink(beside)
        raise


def _keep_mode(target: str, descriptor: int) -> None:
    """Gives a file the mode of the one that it is to replace, which must be open to writing."""
    with suppress(FileNotFoundError), open(target, "r+b") as old:
        os.fchmod(descriptor, stat.S_IMODE(os.fstat(old.fileno()).st_mode))
