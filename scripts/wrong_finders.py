"""Wrong finders for judge_notices.py: each has one bug of a kind that a real finder could have.

Some are the plain finder (plain_finder.py) with a bug planted in its case or its search. The others stand around the
program that is judged: they spoil what it reads or what it writes. Each is a function that gets `run`, which answers
the program's report on a text, and a text, and answers its own report; its docstring says what is wrong with it.
"""
from __future__ import annotations

import re
from collections.abc import Callable
from functools import reduce
from operator import or_

from casefiles import ROWS, TEXT_LIMIT
from facts import all_meet, inside, members, sets_of_size, size
from plain_case import EMPTY, Case, refuse_if
from plain_finder import PlainFinder

# What a program reports of a text; and a wrong finder, which is given such a program and a text.
Reporter = Callable[[bytes], bytes]
WrongFinder = Callable[[Reporter, bytes], bytes]

# Bugs in the case and its list of groups


class GroupsKeptAfterGrant(Case):
    """keeps the listed groups after a grant"""

    def grant(self, facts: int) -> None:
        listed = self.listed
        super().grant(facts)
        self.listed = listed


class GroupsKeptAfterPut(Case):
    """keeps the listed groups after a put"""

    def put(self, place: int, needs: int, gives: int, takes: int) -> None:
        listed = self.listed
        super().put(place, needs, gives, takes)
        self.listed = listed


class GroupsKeptAfterCancel(Case):
    """keeps the listed groups after a cancel"""

    def cancel(self, facts: int) -> None:
        listed = self.listed
        super().cancel(facts)
        self.listed = listed


class GroupsKeptAfterSign(Case):
    """keeps the listed groups, with facts that are waived now, after a sign"""

    def draw_and_sign(self) -> None:
        listed = self.listed
        super().draw_and_sign()
        self.listed = listed


class OrderedFactsStayInGroups(Case):
    """leaves ordered facts in the listed groups"""

    def order_more(self, facts: int) -> None:
        listed = self.listed
        super().order_more(facts)
        self.listed = listed


class FindingKeptAfterLapse(Case):
    """keeps the finding after a lapse, and signs it"""

    def lapse(self, facts: int) -> None:
        finding = self.finding
        super().lapse(facts)
        self.finding = finding


class EmptySlipSigned(Case):
    """draws and signs a slip for the empty set"""

    def draw_and_sign(self) -> None:
        self.refuse_unopened()
        if self.finding == 0:
            self.changed(EMPTY)
        else:
            super().draw_and_sign()


class SignWaivesNothing(Case):
    """signs a slip and doesn't waive its facts"""

    def draw_and_sign(self) -> None:
        waived = self.waived
        super().draw_and_sign()
        self.waived = waived


class WaivedFactOrdered(Case):
    """takes an order of a waived fact"""

    def order_more(self, facts: int) -> None:
        super().order_more(facts & ~self.waived)


class CarryNeedsWaivedFacts(Case):
    """carries a step out only if its waived needs stand too"""

    def carry(self, place: int) -> None:
        self.refuse_unopened()
        self.refuse_without_step(place)
        refuse_if(not inside(self.steps[place][0], self.standing), 12)
        super().carry(place)


class CarryTakesNothing(Case):
    """carries a step out without what it takes"""

    def carry(self, place: int) -> None:
        standing = self.standing
        super().carry(place)
        self.standing |= standing


class PlaceCheckedFirst(Case):
    """checks the place of a put before its sets"""

    def put(self, place: int, needs: int, gives: int, takes: int) -> None:
        self.refuse_unopened()
        refuse_if(place > 63, 9)
        super().put(place, needs, gives, takes)


# Bugs in the search


class RanOutIsBlocked(Case):
    """takes a sheet that ran out for blocked"""

    def reaches(self, struck: int, rows: int) -> bool:
        return True

    def solvable(self, struck: int) -> bool:
        return super().reaches(struck, ROWS) and super().solvable(struck)


class PicksGreedily(Case):
    """picks a set that meets all groups and need not be a smallest one"""

    def picked(self) -> int | None:
        chosen = 0
        for group in self.listed:
            if group == 0:
                return None
            chosen |= 0 if chosen & group else members(group)[0]
        return chosen


class AnswersSuperset(Case):
    """answers a good set with a fact more than it takes"""

    def find_by_list(self, rows: int) -> tuple[str, int | None]:
        ending, facts = super().find_by_list(rows)
        spare = members(self.needed() & ~facts) if facts and ending == "set" else []
        return ending, facts | spare[0] if facts and spare else facts


class PicksTheHighest(Case):
    """picks the highest number among the smallest sets"""

    def picked(self) -> int | None:
        lowest = super().picked()
        if not lowest:
            return lowest
        occurring = reduce(or_, self.listed)
        return max(s for s in sets_of_size(occurring, size(lowest)) if all_meet(s, self.listed))


class NoneTooEarly(Case):
    """says none though a good set exists, since a group loses facts that matter"""

    def widened(self, blocked: int, rows: int, noted: list[int]) -> tuple[int, int | None]:
        return self.waivable(), None


class AsksWhatItKnows(Case):
    """queries sets that its noted answers settle, and so says beyond reach where it need not"""

    def widened(self, blocked: int, rows: int, noted: list[int]) -> tuple[int, int | None]:
        return super().widened(blocked, rows, [])


class ListOf63(Case):
    """says list full with 63 groups"""

    list_limit = 63


class ListNeverFull(Case):
    """lists more than 64 groups"""

    list_limit = 1000


def with_case(case_type: type[Case]) -> WrongFinder:
    """The plain finder with this case."""
    def report(_run: Reporter, text: bytes) -> bytes:
        return PlainFinder(case_type).report(text)
    report.__doc__ = case_type.__doc__
    return report


def one_row_fewer(_run: Reporter, text: bytes) -> bytes:
    """works with 4,095 rows"""
    finder = PlainFinder()
    finder.rows = ROWS - 1
    return finder.report(text)


# Bugs in reading


def last_line_lost(run: Reporter, text: bytes) -> bytes:
    """doesn't read a last line without a line feed"""
    return run(text[:text.rfind(b"\n") + 1])


def carriage_returns_skipped(run: Reporter, text: bytes) -> bytes:
    """reads over carriage returns"""
    return run(text.replace(b"\r", b""))


def long_text_cut(run: Reporter, text: bytes) -> bytes:
    """reads the first 16,384 bytes of a text that is too long"""
    return run(text[:TEXT_LIMIT])


def longest_text_refused(run: Reporter, text: bytes) -> bytes:
    """refuses a text of exactly 16,384 bytes"""
    return run(text + b"\n" if len(text) == TEXT_LIMIT else text)


def takes_not_read(run: Reporter, text: bytes) -> bytes:
    """reads the takes of every step as nothing"""
    return run(re.sub(rb"(?m)^(02[0-9A-Fa-f]{18})[0-9A-Fa-f]{8}$", rb"\g<1>00000000", text))


# Bugs in writing


def in_lines(change: Callable[[int, bytes], bytes]) -> WrongFinder:
    """A report in which each line is changed, by its number from 1 and its text."""
    def report(run: Reporter, text: bytes) -> bytes:
        lines = run(text).split(b"\n")[:-1]
        return b"".join(change(number, line) + b"\n" for number, line in enumerate(lines, start=1))
    report.__name__, report.__doc__ = change.__name__, change.__doc__
    return report


def is_set(line: bytes) -> bool:
    return line.startswith(b"0900")


def is_refusal(line: bytes) -> bool:
    return len(line) >= 10 and not is_set(line)


@in_lines
def size_off_by_one(_number: int, line: bytes) -> bytes:
    """writes a size that is one too high"""
    return line[:12] + b"%02X" % (int(line[12:14], 16) + 1) + line[14:] if is_set(line) else line


@in_lines
def places_swapped(_number: int, line: bytes) -> bytes:
    """swaps the first two places of a plan"""
    return line[:18] + line[20:22] + line[18:20] + line[22:] if is_set(line) and len(line) >= 22 else line


@in_lines
def plan_cut(_number: int, line: bytes) -> bytes:
    """leaves out the last place of a plan, and counts the others rightly"""
    length = int(line[14:18], 16) if is_set(line) else 0
    return line[:14] + b"%04X" % (length - 1) + line[18:-2] if length else line


@in_lines
def lines_from_zero(number: int, line: bytes) -> bytes:
    """counts lines from 0"""
    return line[:6] + b"%04X" % (number - 1) + line[10:] if is_refusal(line) else line


@in_lines
def wrong_layer(_number: int, line: bytes) -> bytes:
    """names the finder's layer for beyond reach"""
    return line[:4] + b"03" + line[6:] if line.startswith(b"091504") else line


@in_lines
def small_letters(_number: int, line: bytes) -> bytes:
    """writes small letters"""
    return line.lower()


@in_lines
def set_bytes_turned(_number: int, line: bytes) -> bytes:
    """writes a set with its least significant byte first"""
    return line[:4] + line[10:12] + line[8:10] + line[6:8] + line[4:6] + line[12:] if is_set(line) else line


def refused_lines_not_counted(run: Reporter, text: bytes) -> bytes:
    """doesn't count the refused lines"""
    accepted, lines = 0, []
    for line in run(text).split(b"\n")[:-1]:
        if is_refusal(line):
            line = line[:6] + b"%04X" % (accepted + 1) + line[10:]
        else:
            accepted += 1
        lines.append(line + b"\n")
    return b"".join(lines)


def stale_finding(run: Reporter, text: bytes) -> bytes:
    """answers find after a grant by what it found before"""
    found: bytes | None = None
    lines = []
    for line in run(text).split(b"\n")[:-1]:
        if is_set(line):
            line = found = found or line
        elif not is_refusal(line) and line != b"0300":
            found = None
        lines.append(line + b"\n")
    return b"".join(lines)


WRONG_FINDERS: dict[str, WrongFinder] = {
    **{case_type.__name__: with_case(case_type) for case_type in (
        GroupsKeptAfterGrant, GroupsKeptAfterPut, GroupsKeptAfterCancel, GroupsKeptAfterSign, OrderedFactsStayInGroups,
        FindingKeptAfterLapse, EmptySlipSigned, SignWaivesNothing, WaivedFactOrdered, CarryNeedsWaivedFacts,
        CarryTakesNothing, PlaceCheckedFirst, RanOutIsBlocked, PicksGreedily, AnswersSuperset, PicksTheHighest,
        NoneTooEarly, AsksWhatItKnows, ListOf63, ListNeverFull)},
    **{wrong.__name__: wrong for wrong in (
        one_row_fewer, last_line_lost, carriage_returns_skipped, long_text_cut, longest_text_refused, takes_not_read,
        size_off_by_one, places_swapped, plan_cut, lines_from_zero, refused_lines_not_counted, wrong_layer,
        small_letters, set_bytes_turned, stale_finding)},
}
