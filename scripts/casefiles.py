"""Case files and report lines, as docs/case-files.md has them; and what a program reports of a case file."""
from __future__ import annotations

import subprocess
import sys
from pathlib import Path
from typing import Union

PLACES = 64
TEXT_LIMIT = 16384
ROWS = 4096
FORWARD_MARK = 70

OPEN, PUT, GRANT, LAPSE, ORDER, CANCEL, WITHDRAW, CARRY, FIND, SIGN = range(1, 11)
# The fields of each kind, in bytes.
FIELDS: dict[int, tuple[int, ...]] = {
    OPEN: (4, 1, 4, 4), PUT: (1, 4, 4, 4), GRANT: (4,), LAPSE: (4,), ORDER: (4,), CANCEL: (4,), WITHDRAW: (1,),
    CARRY: (1,), FIND: (), SIGN: ()}
DIGITS = b"0123456789abcdefABCDEF"
FIND_LINE = "09"
SIGN_LINE = "0A"

Program = Union[str, Path]
SECONDS = 60


# Lines of a case file


def open_line(facts: int, standing: int, order: int, number: int = 42) -> str:
    return f"01{number:08X}{facts:02X}{standing:08X}{order:08X}"


def put_line(place: int, needs: int, gives: int, takes: int = 0) -> str:
    return f"02{place:02X}{needs:08X}{gives:08X}{takes:08X}"


def set_line(kind: int, facts: int) -> str:
    """A line of a kind that takes a set."""
    return f"{kind:02X}{facts:08X}"


def place_line(kind: int, place: int) -> str:
    """A line of a kind that takes a place."""
    return f"{kind:02X}{place:02X}"


# Reading a case file


def lines_of(text: bytes) -> list[bytes]:
    lines = text.split(b"\n")
    return lines if lines[-1] else lines[:-1]


def unreadable(line: bytes, served: frozenset[int] = frozenset(FIELDS)) -> tuple[int, int] | None:
    """The kind and the refusal of a line that is no served frame, or nothing."""
    if not line or len(line) % 2 or any(c not in DIGITS for c in line):
        return 0, 1
    frame = frame_of(line)
    kind = frame[0]
    if kind not in FIELDS:
        return kind, 2
    if len(frame) != 1 + sum(FIELDS[kind]):
        return kind, 3
    return None if kind in served else (kind, 2)


def frame_of(line: bytes) -> bytes:
    """The bytes that a line of digits spells."""
    return bytes.fromhex(line.decode())


def fields_of(frame: bytes) -> list[int]:
    values, at = [], 1
    for width in FIELDS[frame[0]]:
        values.append(int.from_bytes(frame[at:at + width], "big"))
        at += width
    return values


# Report lines


def layer(refusal: int) -> int:
    """The layer that refuses by this number."""
    if refusal <= 3 or refusal == 19:
        return 1
    if refusal <= 15:
        return 2
    return 4 if refusal == 21 else 3


def refused_line(kind: int, refusal: int, line_number: int) -> bytes:
    """The bytes of a report line, without what some refusals add."""
    return bytes([kind, refusal, layer(refusal)]) + line_number.to_bytes(2, "big")


def hexadecimal(line: bytes) -> str:
    return line.hex().upper()


# Running a program


def report_of(program: Program, text: bytes) -> tuple[bytes, int]:
    """The report of a case file, and the status that the program ends with."""
    try:
        ended = subprocess.run([program], input=text, stdout=subprocess.PIPE, timeout=SECONDS, check=False)
    except OSError as error:
        sys.exit(f"{program} can't be run: {error.strerror}")
    except subprocess.TimeoutExpired:
        sys.exit(f"the program still runs after {SECONDS} seconds, on a text of {len(text)} bytes: {shown(text)!r}")
    return ended.stdout, ended.returncode


def shown(line: str | bytes) -> str:
    """A line for a reader, cut where it is long."""
    text = line if isinstance(line, str) else line.decode("latin-1")
    return text if len(text) <= 200 else f"{text[:200]}... ({len(text)} characters)"
