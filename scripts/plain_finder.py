"""A plain finder in Python, from docs/ and slow, for judge_notices.py.

It serves a case file by the plain case (plain_case.py), with groups entered as docs/RULES.md writes it. It is there so
that bugs can be planted in a whole finder (wrong_finders.py).
"""
from __future__ import annotations

from typing import Optional

from casefiles import (FIND, FORWARD_MARK, ROWS, TEXT_LIMIT, fields_of, frame_of, hexadecimal, lines_of, refused_line,
                       unreadable)
from facts import inside, size
from judging import CALLS
from plain_case import Case, Refused, StruckOut

# The standing and the place that each standing came by, nothing for the first.
CameBy = dict[int, Optional[tuple[int, int]]]


class PlainFinder:
    """Reads one case file, with a case of its own, and answers its report."""

    rows = ROWS
    places_by_rising = True

    def __init__(self, case_type: type[Case] = Case) -> None:
        self.case = case_type()

    def report(self, text: bytes) -> bytes:
        if len(text) > TEXT_LIMIT:
            return b"0013010000\n"
        replies = (self.reply(number, line) for number, line in enumerate(lines_of(text), start=1))
        return b"".join(hexadecimal(reply).encode() + b"\n" for reply in replies)

    def reply(self, number: int, line: bytes) -> bytes:
        """The bytes of a line's report line."""
        fault = unreadable(line)
        if fault:
            return refused_line(*fault, number)
        frame = frame_of(line)
        try:
            return self.served(frame, number)
        except Refused as refused:
            return refused_line(frame[0], refused.number, number)

    def served(self, frame: bytes, number: int) -> bytes:
        kind = frame[0]
        if kind == FIND:
            self.case.refuse_unopened()
            return self.find(number)
        getattr(self.case, CALLS[kind].__name__)(*fields_of(frame))
        return bytes([kind, 0])

    def find(self, number: int) -> bytes:
        ending, facts = self.case.find_by_list(self.rows)
        self.case.found(facts if ending == "set" else None)
        if facts is None:
            return refused_line(FIND, 20, number)
        named = facts.to_bytes(4, "big")
        if ending == "beyond reach":
            return refused_line(FIND, 21, number) + named + bytes([FORWARD_MARK])
        if ending == "list full":
            return refused_line(FIND, 22, number) + named
        plan = self.plan(facts)
        return bytes([FIND, 0]) + named + bytes([size(facts)]) + len(plan).to_bytes(2, "big") + plan

    def plan(self, struck: int) -> bytes:
        """A shortest plan."""
        task = StruckOut(self.case, struck)
        steps = sorted(task.steps().items(), reverse=not self.places_by_rising)
        listing = [task.standing]
        came_by: CameBy = {task.standing: None}
        for standing in listing:
            if inside(task.order, standing):
                return places_to(standing, came_by)
            for place, (needs, gives, takes) in steps:
                result = standing & ~takes | gives
                if inside(needs, standing) and result not in came_by:
                    came_by[result] = standing, place
                    listing.append(result)
        return b""


def places_to(standing: int, came_by: CameBy) -> bytes:
    """The places by which a standing was arrived at."""
    places = []
    while (last := came_by[standing]) is not None:
        standing, place = last
        places.append(place)
    return bytes(reversed(places))
