"""The case files that the benchmark measures, by family.

A family is a name, the lines that make its case, and the lines that are its work, which are repeated in the file: an
empty grant forgets the groups, so that the next find begins anew. Each file has at most 16,384 bytes.
"""
from __future__ import annotations

from collections.abc import Iterable, Sequence
from dataclasses import dataclass
from itertools import combinations

from casefiles import FIND_LINE, GRANT, LAPSE, TEXT_LIMIT, open_line, put_line, set_line
from facts import union

FORGET = set_line(GRANT, 0)


def put_lines(steps: Iterable[tuple[int, int, int]]) -> list[str]:
    """The steps, given by needs, gives and takes, in the places from 0 on."""
    return [put_line(place, needs, gives, takes) for place, (needs, gives, takes) in enumerate(steps)]


def text_of(lines: Iterable[str]) -> bytes:
    text = "".join(line + "\n" for line in lines).encode()
    if len(text) > TEXT_LIMIT:
        raise ValueError(f"a text of {len(text)} bytes")
    return text


@dataclass(frozen=True)
class Family:
    """One of the benchmark's files; picks says that the picker takes a good part of the time."""

    name: str
    about: str
    case: list[str]
    work: Sequence[str] = (FORGET, FIND_LINE)
    times: int = 1
    picks: bool = False

    def text(self) -> bytes:
        """The case and its work, so many times."""
        return text_of([*self.case, *list(self.work) * self.times])

    def once(self) -> bytes:
        """The case and one find."""
        return text_of(self.case + [FIND_LINE])


def missing(k: int) -> list[str]:
    """k ordered facts in a chain, each of which also needs a fact that never stands."""
    link = [1 << k + i for i in range(k)]
    steps = [(1 << i | (link[i - 1] if i else 0), link[i], 0) for i in range(k)]
    return [open_line(2 * k, 0, sum(link))] + put_lines(steps)


def any_of(blocks: int, size: int, of: int) -> list[str]:
    """Blocks of facts that never stand. Of each block any so many have to go, so that all its steps can be done."""
    goal = blocks * of
    order = 0
    steps: list[tuple[int, int, int]] = []
    for block in range(blocks):
        order |= 1 << goal + block
        facts = range(block * of, (block + 1) * of)
        steps += [(union(chosen), 1 << goal + block, 0) for chosen in combinations(facts, size)]
    return [open_line(goal + blocks, 0, order)] + put_lines(steps)


def switches(count: int, needed: int, idle: int) -> list[str]:
    """Switches, each with a fact for off and one for on that never stand together. One step needs both facts of the
    first switches. Idle facts, which no step names, have the lowest numbers."""
    off = [1 << idle + 2 * i for i in range(count)]
    on = [1 << idle + 2 * i + 1 for i in range(count)]
    goal = 1 << idle + 2 * count
    steps = [(sum(off[:needed] + on[:needed]), goal, 0)]
    for i in range(count):
        steps += [(off[i], on[i], off[i]), (on[i], off[i], on[i])]
    return [open_line(idle + 2 * count + 1, sum(off), goal)] + put_lines(steps)


def none_given(facts: int) -> list[str]:
    """An ordered fact that no step gives, beside a chain of steps."""
    steps = [(1 << i, 1 << i + 1, 0) for i in range(facts - 2)]
    return [open_line(facts, 1, 1 << facts - 1)] + put_lines(steps)


def none_together(count: int) -> list[str]:
    """Two ordered facts that never stand together, beside so many switches."""
    off = [1 << 2 * i for i in range(count)]
    on = [1 << 2 * i + 1 for i in range(count)]
    one, other = 1 << 2 * count, 1 << 2 * count + 1
    steps = [(0, one, other), (0, other, one)]
    for i in range(count):
        steps += [(off[i], on[i], off[i]), (on[i], off[i], on[i])]
    return [open_line(2 * count + 2, sum(off), one | other)] + put_lines(steps)


def hardly_changing() -> tuple[list[str], list[str]]:
    """A case in which four facts are missing beside six switches, and its work: each of two facts lapses and is granted
    in turn, with a find after each."""
    links, gone = range(4), range(4, 8)
    steps = [(1 << 4 + i | (1 << i - 1 if i else 1 << 20), 1 << i, 0) for i in links]
    for i in range(6):
        off, on = 1 << 8 + 2 * i, 1 << 9 + 2 * i
        steps += [(off, on, off), (on, off, on)]
    standing = union([8, 10, 12, 14, 16, 18, 20, 21])
    work: list[str] = []
    for fact in (20, 21):
        work += [set_line(LAPSE, 1 << fact), FIND_LINE, set_line(GRANT, 1 << fact), FIND_LINE]
    assert not standing & union(gone)
    return [open_line(22, standing, union(links))] + put_lines(steps), work


def counter(bits: int) -> list[str]:
    """A counter that has to go from 0 to all ones by single steps: its only plan goes through every number."""
    zero = [1 << i for i in range(bits)]
    one = [1 << bits + i for i in range(bits)]
    steps = []
    for i in range(bits):
        lower_zero, lower_one = sum(zero[:i]), sum(one[:i])
        steps.append((lower_one | zero[i], one[i] | lower_zero, zero[i] | lower_one))
    return [open_line(2 * bits, sum(zero), sum(one))] + put_lines(steps)


def short_lines() -> list[str]:
    """Ten short lines, most of them accepted."""
    return [set_line(GRANT, 1), set_line(LAPSE, 3), set_line(GRANT, 2), "0700", "0801", set_line(LAPSE, 1), "FF", "0A",
            "0500000000", "0600000000"]


def families() -> list[Family]:
    changing, changes = hardly_changing()
    lines = [open_line(8, 1, 128)] + put_lines([(1, 2, 0), (2, 4, 1)])
    return [
        Family("missing-1", "1 fact is missing", missing(1), times=1000),
        Family("missing-4", "4 facts are missing, each needed", missing(4), times=1000),
        Family("missing-8", "8 facts are missing, each needed", missing(8), times=1000),
        Family("missing-16", "16 facts are missing, each needed", missing(16), times=500, picks=True),
        Family("four-of-seven", "any four of seven facts have to go", any_of(1, 4, 7), times=200, picks=True),
        Family("three-of-five", "any three of five facts have to go, of each of five blocks", any_of(5, 3, 5), times=2,
               picks=True),
        Family("switches-12", "12 switches, 8 of them in the way: 4,096 standings", switches(12, 8, 7), times=2),
        Family("none-given", "none exists: no step gives an ordered fact", none_given(32), times=1000),
        Family("none-together", "none exists: two ordered facts exclude each other; 10 switches",
               none_together(10), times=20),
        Family("changing", "200 finds on a case that hardly changes", changing, work=changes, times=50,
               picks=True),
        Family("lines", "1,000 short lines", lines, work=short_lines(), times=100),
        Family("counter-12", "a plan of 4,095 places", counter(12), times=100),
    ]


def growing() -> list[Family]:
    """The switches again, with 256 to 4,096 standings."""
    return [Family(f"switches-{count}", f"{count} switches, 8 of them in the way", switches(count, 8, 7))
            for count in range(8, 13)]


def small() -> list[Family]:
    """Families again with fewer facts, so that slower ways of searching come to an end."""
    return [
        Family("three-of-five-2", "any three of five facts have to go, of each of two blocks", any_of(2, 3, 5)),
        Family("switches-5", "5 switches, 4 of them in the way", switches(5, 4, 2)),
    ]
