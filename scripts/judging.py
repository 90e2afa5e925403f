"""Holds a report against its case file, line by line, for judge.py and judge_notices.py.

Every report line is held against a plain case (plain_case.py), which decides by trying everything. Where the rules
settle a line, it has to be that line to the byte: every refusal with its number, layer and line number, every accepted
line, find's set and its size, and 'none' exactly where no good set exists. A plan has to be a plan of the struck-out
case, whichever. A set that is beyond reach has to be outside the reach and one that find may query; 'list full' needs a
blocked set of low enough rank and 64 groups that can be listed with it. Besides, each end of find has to be the one
that is foretold with the groups entered as docs/RULES.md writes it.
"""
from __future__ import annotations

from collections import Counter
from collections.abc import Callable, Iterable
from typing import NamedTuple

from casefiles import (CANCEL, CARRY, FIELDS, FIND, FORWARD_MARK, GRANT, LAPSE, OPEN, ORDER, PUT, ROWS, SIGN,
                       TEXT_LIMIT, WITHDRAW, fields_of, frame_of, hexadecimal, lines_of, refused_line, shown,
                       unreadable)
from facts import inside, members, rank, size
from plain_case import EMPTY, LIST_LIMIT, Case, Refused, StruckOut

CALLS: dict[int, Callable[..., None]] = {
    OPEN: Case.open, PUT: Case.put, GRANT: Case.grant, LAPSE: Case.lapse, ORDER: Case.order_more, CANCEL: Case.cancel,
    WITHDRAW: Case.withdraw, CARRY: Case.carry, SIGN: Case.draw_and_sign}
# How many wrong lines are printed.
MOST_SHOWN = 20
ENDINGS = {"none": "refusal 20", "beyond reach": "refusal 21", "list full": "refusal 22"}
# What a case file can meet. A frame draws and signs at once, so that no slip is out between lines (5) and no other slip
# is signed (15); sheet, book and buffer (16 to 18) are the program's own.
MET_BY_FILES = ([f"accepted {kind:02X}" for kind in CALLS] + ["set"]
                + [f"refusal {number}" for number in range(1, 23) if number not in (5, 15, 16, 17, 18)])


class Wrong(NamedTuple):
    """A line that is reported wrongly: its number from 1, or 0 for the whole report, and what was to come."""

    line_number: int
    line: str | bytes
    expected: str
    came: str | bytes


class Mismatch(Exception):
    """A report line that the rules don't allow, with what they ask for."""


def judge_exact(report: bytes, expected: bytes) -> None:
    if report != expected:
        raise Mismatch(hexadecimal(expected))


# Judging a find


def expected_find(case: Case, line_number: int) -> str:
    """The ends that need nothing but the case, in words."""
    best = case.smallest_good()
    if best is None:
        return f"none, {hexadecimal(refused_line(FIND, 20, line_number))}"
    return f"the set {best:08X} of size {size(best)} with a plan"


def judge_set(case: Case, answer: bytes) -> int:
    """Judges an accepted find by the bytes after the accepted mark, and answers its set."""
    if len(answer) < 7:
        raise Mismatch("an accepted find with set, size and length")
    found, claimed, length = (int.from_bytes(answer[a:b], "big") for a, b in ((0, 4), (4, 5), (5, 7)))
    places = answer[7:]
    best = case.smallest_good()
    if found != best:
        raise Mismatch("none: no good set exists" if best is None else f"the set {best:08X}")
    if claimed != size(found):
        raise Mismatch(f"size {size(found)}")
    if length != len(places) or length >= ROWS:
        raise Mismatch(f"the plan's length, which is {len(places)} by its places, and below {ROWS}")
    fault = StruckOut(case, found).plan_fault(places)
    if fault:
        raise Mismatch(f"a plan; {fault}")
    if not case.reaches(found, ROWS):
        raise Mismatch("beyond reach: the set is outside the reach")
    if case.groups_before(found) > LIST_LIMIT:
        raise Mismatch("list full: this set is picked only after more groups than the list holds")
    return found


def judge_none(case: Case) -> None:
    best = case.smallest_good()
    if best is not None:
        raise Mismatch(f"the set {best:08X}: it is good")


def may_be_picked(case: Case, facts: int) -> bool:
    """Whether no good set has a lower rank."""
    return all(rank(lower) >= rank(facts) or not case.solvable(lower)
               for lower in case.needed_sets_up_to(size(facts)))


def judge_beyond_reach(case: Case, added: bytes) -> int:
    if len(added) != 5:
        raise Mismatch("beyond reach with a set and a mark")
    named, mark = int.from_bytes(added[:4], "big"), added[4]
    if mark != FORWARD_MARK:
        raise Mismatch(f"the mark {FORWARD_MARK}")
    if not inside(named, case.waivable()):
        raise Mismatch(f"a set of waivable facts, which are {case.waivable():08X}")
    if case.reaches(named, ROWS):
        raise Mismatch("a set that is outside the reach")
    widened = any(not case.solvable(named & ~fact) for fact in members(named))
    if not widened and not may_be_picked(case, named):
        raise Mismatch("a set that is picked, or that is not good without one of its facts")
    return named


def judge_list_full(case: Case, added: bytes) -> int:
    if len(added) != 4:
        raise Mismatch("list full with a set")
    picked = int.from_bytes(added, "big")
    if not inside(picked, case.waivable()):
        raise Mismatch(f"a set of waivable facts, which are {case.waivable():08X}")
    if case.solvable(picked):
        raise Mismatch("a set that is blocked")
    if not may_be_picked(case, picked):
        raise Mismatch("a set of lower rank than every good set")
    groups = case.groups_that_may_be_listed(picked)
    if groups < LIST_LIMIT:
        raise Mismatch(f"another end than list full: at most {groups} groups can be listed")
    return picked


def judge_first_query(case: Case, report: bytes, line_number: int) -> None:
    """With no group listed, the empty set is picked and queried first."""
    if case.groups == EMPTY and not case.reaches(0, ROWS):
        judge_exact(report, refused_line(FIND, 21, line_number) + bytes([0, 0, 0, 0, FORWARD_MARK]))


def judge_ending(case: Case, report: bytes, line_number: int) -> tuple[str, int | None]:
    """Judges how a find of an opened case ended: the name of the ending, and its set if it has one."""
    if report[:2] == bytes([FIND, 0]):
        return "set", judge_set(case, report[2:])
    added = report[5:]
    if report[:5] == refused_line(FIND, 20, line_number) and not added:
        judge_none(case)
        return "none", None
    if report[:5] == refused_line(FIND, 21, line_number):
        return "beyond reach", judge_beyond_reach(case, added)
    if report[:5] == refused_line(FIND, 22, line_number):
        return "list full", judge_list_full(case, added)
    raise Mismatch(expected_find(case, line_number))


def foretold_words(ending: str, facts: int | None) -> str:
    return ending if facts is None else f"{ending}, {facts:08X}"


def judge_find(case: Case, report: bytes, line_number: int) -> list[str]:
    """Judges a find of an opened case, tells the case what was found, and names the ends that it met."""
    foretold = case.find_by_list(ROWS)
    found: int | None = None
    try:
        judge_first_query(case, report, line_number)
        ending, facts = judge_ending(case, report, line_number)
        if foretold != (ending, facts):
            raise Mismatch(f"by the list of groups: {foretold_words(*foretold)}")
        found = facts if ending == "set" else None
    finally:
        case.found(found)
    return names_of_find(ending, facts, len(case.listed), len(report) - 9)


def names_of_find(ending: str, facts: int | None, groups: int, length: int) -> list[str]:
    """The ends that a find met: its own, and which of its corners."""
    if facts is None or ending != "set":
        corner = f"beyond reach with {'facts' if facts else 'nothing'} struck out"
        return [ENDINGS[ending]] + [corner] * (ending == "beyond reach")
    return (["set", f"set of size {size(facts)}"] + ["set with 60 groups or more listed"] * (groups >= 60)
            + ["plan of 1000 places or more"] * (length >= 1000) + ["plan of 4095 places"] * (length == ROWS - 1))


# Judging a report


def decoded(report_line: bytes) -> bytes:
    """The bytes of a report line in capital digits."""
    try:
        line: bytes | None = bytes.fromhex(report_line.decode("ascii"))
    except ValueError:
        line = None
    if line is None or hexadecimal(line).encode() != report_line:
        raise Mismatch("capital digits, two for each byte")
    return line


class Judgement:
    """One case file held against its report: the wrong lines, and how often each end was met."""

    def __init__(self, text: bytes, report: bytes, status: int = 0, served: frozenset[int] = frozenset(FIELDS)) -> None:
        self.case = Case()
        self.served = served
        self.wrong: list[Wrong] = []
        self.ends: Counter[str] = Counter()
        self.lines = lines_of(text)
        self.judge(text, report)
        if status != 0:
            self.wrong.append(Wrong(0, "the program", "status 0", f"status {status}"))

    def judge(self, text: bytes, report: bytes) -> None:
        if len(text) in (0, TEXT_LIMIT):
            self.ends[f"text of {len(text)} bytes"] += 1
        if len(text) > TEXT_LIMIT:
            self.lines = [b""]
            if report != b"0013010000\n":
                self.wrong.append(Wrong(0, "a text that is too long", "the line 0013010000", report[:80]))
            self.ends["refusal 19"] += 1
            return
        report_lines = report.split(b"\n")
        if report_lines.pop() != b"" or len(report_lines) != len(self.lines):
            self.wrong.append(Wrong(0, "the whole report", f"{len(self.lines)} lines, each with a line feed",
                                    f"{len(report_lines)} lines"))
        for index, (line, report_line) in enumerate(zip(self.lines, report_lines), start=1):
            self.judge_line(index, line, report_line)

    def judge_line(self, line_number: int, line: bytes, report_line: bytes) -> None:
        try:
            self.ends.update(self.ends_of(line_number, line, decoded(report_line)))
        except Mismatch as mismatch:
            self.wrong.append(Wrong(line_number, line, str(mismatch), report_line))

    def ends_of(self, line_number: int, line: bytes, report: bytes) -> list[str]:
        """Judges one line, and names the ends that it met."""
        fault = unreadable(line, self.served)
        if fault:
            kind, refusal = fault
            judge_exact(report, refused_line(kind, refusal, line_number))
            return [f"refusal {refusal}"]
        frame = frame_of(line)
        if frame[0] == FIND and self.case.facts != 0:
            return judge_find(self.case, report, line_number)
        return [self.end_of_call(line_number, frame, report)]

    def end_of_call(self, line_number: int, frame: bytes, report: bytes) -> str:
        kind = frame[0]
        try:
            if kind == FIND:
                self.case.refuse_unopened()
            CALLS[kind](self.case, *fields_of(frame))
        except Refused as refused:
            judge_exact(report, refused_line(kind, refused.number, line_number))
            return f"refusal {refused.number}"
        judge_exact(report, bytes([kind, 0]))
        return f"accepted {kind:02X}"


# Telling what is wrong


def print_wrong(name: str, wrong: Iterable[Wrong]) -> None:
    for line_number, line, expected, came in wrong:
        print(f"{name}, line {line_number}: {shown(line)!r}")
        print(f"  expected: {expected}")
        print(f"  came:     {shown(came)}")
