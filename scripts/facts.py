"""Sets of facts. A set is a number, whose bit f stands for the fact f."""
from __future__ import annotations

from collections.abc import Iterable, Iterator
from itertools import combinations

FACTS = 32
ALL_FACTS = 2**FACTS - 1


def union(facts: Iterable[int]) -> int:
    """The set of these facts."""
    return sum(1 << fact for fact in set(facts))


def size(facts: int) -> int:
    return bin(facts).count("1")


def rank(facts: int) -> tuple[int, int]:
    """Sets are ranked by rising size, and sets of one size by rising number."""
    return size(facts), facts


def inside(part: int, whole: int) -> bool:
    return part & ~whole == 0


def members(facts: int) -> list[int]:
    """The sets of one fact each that make up this one, by rising number."""
    return [1 << fact for fact in range(FACTS) if facts >> fact & 1]


def sets_of_size(facts: int, count: int) -> list[int]:
    """The sets of so many of these facts, by rising number."""
    return sorted(sum(chosen) for chosen in combinations(members(facts), count))


def ranked_sets(facts: int) -> Iterator[int]:
    """All sets of these facts, by rank."""
    for count in range(size(facts) + 1):
        yield from sets_of_size(facts, count)


def all_meet(facts: int, groups: Iterable[int]) -> bool:
    """Whether the set shares a fact with each of the groups."""
    return all(facts & group for group in groups)
