"""Makes random case files of several families, for judge.py.

A family is a function that gets a random source and answers the bytes of one case file. Its case is small at heart, so
that every set of facts can be tried, but its facts may lie anywhere among 32, its steps in any of the 64 places, and
its digits may be of either case. The same seed and index give the same file.
"""
from __future__ import annotations

import random
from collections.abc import Callable, Iterable, Sequence
from itertools import combinations
from typing import NamedTuple

from casefiles import (CANCEL, CARRY, FIND_LINE, GRANT, LAPSE, ORDER, PLACES, SIGN_LINE, TEXT_LIMIT, WITHDRAW,
                       open_line, place_line, put_line, set_line)
from facts import union

# Lines


def in_any_case(rng: random.Random, line: str) -> str:
    """The same digits, some of them small: in most lines none, in some all, in some a mixture."""
    style = rng.random()
    if style < 0.7:
        return line
    if style < 0.8:
        return line.lower()
    return "".join(rng.choice((c.lower(), c)) for c in line)


def mixed_text(rng: random.Random, lines: Iterable[str]) -> bytes:
    """The lines as a text, whose last line may lack its line feed."""
    text = "\n".join(in_any_case(rng, line) for line in lines)
    return (text + rng.choice(("\n", "\n", ""))).encode("latin-1")


# Sets


def random_set(rng: random.Random, facts: Sequence[int], most: int) -> int:
    """A set of at most so many of these facts."""
    return union(rng.sample(facts, rng.randint(0, min(most, len(facts)))))


class Layout:
    """A number of facts, some of which are in use, and places in a random order."""

    def __init__(self, rng: random.Random, used: int) -> None:
        self.facts = rng.choice((used, used, rng.randint(used, 32), 32))
        self.used = rng.sample(range(self.facts), used)
        if rng.random() < 0.5:
            self.used.sort()
        self.places = rng.sample(range(PLACES), PLACES)
        if rng.random() < 0.3:
            self.places.sort()

    def set_of(self, indices: Iterable[int]) -> int:
        return union(self.used[i] for i in indices)

    def put(self, needs: Iterable[int], gives: Iterable[int], takes: Iterable[int] = ()) -> str:
        """A line that puts a step into the next free place."""
        return put_line(self.places.pop(0), self.set_of(needs), self.set_of(gives), self.set_of(takes))

    def open(self, standing: Iterable[int], order: Iterable[int]) -> str:
        return open_line(self.facts, self.set_of(standing), self.set_of(order))


def random_step(rng: random.Random, facts: Sequence[int], most_needs: int = 3) -> tuple[int, int, int]:
    """Needs, gives and takes of a step that the case accepts."""
    gives = random_set(rng, facts, 2)
    return random_set(rng, facts, most_needs), gives, random_set(rng, facts, 2) & ~gives


def random_change(rng: random.Random, facts: Sequence[int], taken: Sequence[int]) -> str:
    """A line that changes an opened case, by one of the calls for sets and places."""
    kind = rng.choice((GRANT, LAPSE, ORDER, CANCEL, WITHDRAW, CARRY, CARRY))
    if kind <= CANCEL:
        return set_line(kind, random_set(rng, facts, 2))
    return place_line(kind, rng.choice(taken) if taken and rng.random() < 0.9 else rng.randrange(256))


# Families

# An open line, the lines of steps, their facts, and the free places.
Blocks = tuple[str, list[str], list[int], list[int]]


def mixed(rng: random.Random) -> bytes:
    """Calls of every kind, few facts, some of them refused."""
    count = rng.randint(1, 7)
    facts = list(range(count))
    loose = facts if rng.random() < 0.6 else facts + [min(count, 31), rng.randrange(32)]
    lines = [random_call(rng, facts, []) for _ in range(rng.choice((0, 0, 1)))]
    lines.append(open_line(rng.choice((count, count, count, 0, 33)), random_set(rng, loose, 3),
                           random_set(rng, facts, 2), rng.getrandbits(32)))
    order = random_set(rng, facts, 2)
    lines.append(open_line(count, random_set(rng, facts, rng.choice((0, 1, 3))), order, rng.choice((0, 2**32 - 1))))
    taken = [rng.randrange(PLACES)]
    lines.append(put_line(taken[0], union(rng.sample(facts, min(count, rng.randint(1, 3)))), order))
    for _ in range(rng.randint(3, 24)):
        lines.append(random_call(rng, rng.choice((facts, facts, loose)), taken))
        lines += [SIGN_LINE] if lines[-1] == FIND_LINE and rng.random() < 0.3 else []
    return mixed_text(rng, lines + [FIND_LINE])


def random_call(rng: random.Random, facts: Sequence[int], taken: list[int]) -> str:
    """One line of any kind; the places of steps are noted as taken."""
    roll = rng.random()
    if roll < 0.45:
        place = rng.choice((rng.randrange(6), rng.randrange(PLACES), rng.choice((63, 64, 255))))
        needs, gives, takes = random_step(rng, facts)
        taken.append(place)
        return put_line(place, needs, gives, takes if rng.random() < 0.95 else takes | gives)
    if roll < 0.65:
        return FIND_LINE
    if roll < 0.97:
        return random_change(rng, facts, taken)
    return rng.choice((SIGN_LINE, open_line(5, 1, 2), "0B"))


def wrong_lines(rng: random.Random) -> bytes:
    """Lines that are no frame, between lines that are."""
    facts = list(range(4))
    good = [open_line(4, 2, 8), put_line(1, 1, 4), put_line(0, 6, 8, 2), FIND_LINE]
    lines = list(good) if rng.random() < 0.7 else []
    for _ in range(rng.randint(1, 25)):
        lines.insert(rng.randint(0, len(lines)), wrong_line(rng, random_call(rng, facts, [])))
    return mixed_text(rng, lines)


def wrong_line(rng: random.Random, line: str) -> str:
    """A line spoiled in one of many ways."""
    at = rng.randrange(len(line))
    character = rng.choice((" ", "\r", "\t", "\0", "g", "G", "x", "/", ":", "@", "`", "\x7f", "\x80", "\xb2", "\xff"))
    return rng.choice((
        "", line[:-1], line + "0", line + "00", line[:-2], line + "\r", " " + line, line + " ", "0x" + line,
        line[:at] + character + line[at:], line[:at] + character + line[at + 1:], character, character * 2,
        f"{rng.randrange(256):02X}", f"{rng.randrange(256):02X}" + line[2:], f"{rng.randrange(11, 256):02X}" + line,
        line[:2], line * 2, "0" * rng.randint(1, 400), "09" * rng.randint(1, 300), "0" + line, line.lower()))


def odd_texts(rng: random.Random) -> bytes:
    """Texts at the limits: empty, line feeds only, bytes of any value, or as long as allowed."""
    choice = rng.randrange(8)
    if choice == 0:
        return b""
    if choice == 1:
        front = small_case()
        return rng.choice((b"\n", b"\n\n\n", b"\r\n", b"0", b"09", front, front[:-1]))
    if choice == 2:
        return bytes(rng.choice((10, 48, 57, rng.randrange(256))) for _ in range(rng.randint(1, 300)))
    return filled_text(rng, rng.choice((TEXT_LIMIT - 1, TEXT_LIMIT, TEXT_LIMIT)))


def too_long(rng: random.Random) -> bytes:
    """Texts that are longer than allowed, by one byte or by many."""
    return filled_text(rng, TEXT_LIMIT + rng.choice((1, 1, 1, 2, rng.randint(3, 20000), 50000)))


def small_case() -> bytes:
    return "\n".join((open_line(4, 2, 8), put_line(1, 1, 4), put_line(0, 6, 8, 2), FIND_LINE, "")).encode()


def filled_text(rng: random.Random, length: int) -> bytes:
    """A small case, filled up to this length with line feeds, short lines or one long line."""
    front = small_case()
    if rng.random() < 0.6:
        filler = rng.choice((b"0", b"F", b"09", b"9\n", b"\r", b"\n"))
        return (front + filler * length)[:length]
    end = rng.choice((b"\n09\n", b"\n09", b"0", b"\n"))
    return front + b"A" * (length - len(front) - len(end)) + end


def needs_waived(rng: random.Random) -> bytes:
    """A chain to the order for which at least k facts are missing, beside steps that give some others."""
    missing, present = rng.randint(0, 5), rng.randint(0, 2)
    layout = Layout(rng, missing + present + 2)
    facts = list(range(missing + present + 2))
    order, link = facts[-1], facts[-2]
    cut = rng.randint(0, missing)
    lines = [layout.put(facts[:cut] + facts[missing:missing + present], [link], facts[missing:missing + present][:1]),
             layout.put(facts[cut:missing] + [link], [order])]
    for _ in range(rng.randint(0, 4)):
        gives = rng.sample(facts[:-1], 1)
        needs = rng.sample(facts[:-1], min(len(facts) - 1, rng.randint(1, 3)))
        lines.append(layout.put(needs, gives, [f for f in rng.sample(facts, 1) if f not in gives]))
    rng.shuffle(lines)
    return mixed_text(rng, [layout.open(facts[missing:missing + present], [order])] + lines + [FIND_LINE, FIND_LINE])


def some_of_many(rng: random.Random) -> bytes:
    """Facts that never stand; each step needs another few of them and gives the order."""
    many, few = rng.choice(((7, 4), (7, 4), (7, 3), (6, 3), (6, 4), (5, 3), (6, 2)))
    layout = Layout(rng, many + 1)
    lines = [layout.put(needs, [many]) for needs in combinations(range(many), few)]
    rng.shuffle(lines)
    dropped = rng.choice((0, 0, 1, 2, len(lines) // 2))
    return mixed_text(rng, [layout.open([], [many])] + lines[dropped:] + [FIND_LINE] * rng.randint(1, 3))


def near_64_groups(rng: random.Random) -> bytes:
    """Cases that want about 64 groups: steps for five of eight facts each, of which all 56 want 70, or three routes."""
    opening, steps, facts, places = five_of_eight(rng) if rng.random() < 0.7 else three_routes(rng)
    early = [FIND_LINE] if rng.random() < 0.3 else []
    later: list[str] = []
    for _ in range(rng.randint(0, 3)):
        later += rng.choice(([FIND_LINE], [random_change(rng, facts, places), FIND_LINE], [SIGN_LINE, FIND_LINE]))
    return mixed_text(rng, [opening] + steps[:-1] + early + steps[-1:] + [FIND_LINE] + later)


def five_of_eight(rng: random.Random) -> Blocks:
    """Eight facts that never stand; most of the steps for five of them."""
    layout = Layout(rng, 9)
    steps = [layout.put(needs, [8]) for needs in combinations(range(8), 5)]
    rng.shuffle(steps)
    places = sorted(set(range(PLACES)) - set(layout.places))
    return layout.open([], [8]), steps[rng.choice((0, 0, 1, 1, 2, 2, 3, 6)):], layout.used, places


def three_routes(rng: random.Random) -> Blocks:
    """Three steps, each with three or four needs that never stand: one need of each step makes a group."""
    widths = rng.choice(((4, 4, 4), (4, 4, 4), (4, 4, 3), (4, 3, 3)))
    layout = Layout(rng, sum(widths) + 1)
    facts = list(range(sum(widths)))
    rng.shuffle(facts)
    steps: list[str] = []
    at = 0
    for width in widths:
        steps.append(layout.put(facts[at:at + width], [len(facts)]))
        at += width
    places = sorted(set(range(PLACES)) - set(layout.places))
    return layout.open([], [len(facts)]), steps, layout.used, places


def long_plans(rng: random.Random) -> bytes:
    """A binary counter, whose digit i has one fact for 0 and one for 1.

    The order is its last value, or a fact that its last value and a lacking fact give, or both facts of a digit, which
    never stand together. With 12 digits it has 4,096 standings, and with a step at the end one more.
    """
    digits = rng.choice((2, 3, 4, 5, 6, 7, 8, 9, 10, 11, 12, 12, 12, 13))
    layout = Layout(rng, 2 * digits + 2)
    zeros, ones = list(range(digits)), list(range(digits, 2 * digits))
    lacking, goal = 2 * digits, 2 * digits + 1
    lines = [layout.put([zeros[i]] + ones[:i], [ones[i]] + zeros[:i], [zeros[i]] + ones[:i]) for i in range(digits)]
    order, needs = rng.choice(((ones, []), ([goal], ones + [lacking]),
                               ([zeros[0], ones[0]], []), ([zeros[0], ones[0]], ones)))
    if needs:
        lines.append(layout.put(needs, [goal]))
    rng.shuffle(lines)
    return mixed_text(rng, [layout.open(zeros, order)] + lines + [FIND_LINE] * rng.randint(1, 2))


def beyond_reach(rng: random.Random) -> bytes:
    """Free facts that are switched on and off, and an order that wants two facts of which each ousts the other.

    In some files the switches need a key that doesn't stand: then the case is small until the key is struck out. In
    some files a few switches are withdrawn at last, which brings the case into reach.
    """
    free = rng.choice((10, 11, 11, 12, 12))
    left, right, goal, lacking, key = range(free, free + 5)
    layout = Layout(rng, free + 5)
    locked = [key] if rng.random() < 0.5 else []
    on = [layout.put(locked, [f]) for f in range(free)]
    off = [layout.put([f] + locked, [], [f]) for f in range(free)]
    both = locked if rng.random() < 0.5 else []
    pair = [layout.put(both, [left], [right]), layout.put(both, [right], [left])]
    needs = [left, right] + [lacking] * rng.randint(0, 1) + list(range(rng.choice((0, 0, 1))))
    lines = on + off + pair + [layout.put(needs, [goal])]
    rng.shuffle(lines)
    later = [FIND_LINE] * rng.randint(0, 1)
    if rng.random() < 0.3:
        later += [place_line(WITHDRAW, int(line[2:4], 16)) for line in rng.sample(on, 2)] + [FIND_LINE]
    return mixed_text(rng, [layout.open([], [goal])] + lines + [FIND_LINE] + later)


def none_exists(rng: random.Random) -> bytes:
    """An ordered fact that no step gives, or that another ordered fact ousts; in some files a step then gives it."""
    layout = Layout(rng, rng.randint(2, 8))
    facts = list(range(len(layout.used)))
    first, second, others = facts[0], facts[1], facts[2:]
    lines = []
    for _ in range(rng.randint(0, 6)):
        needs = rng.sample(facts, rng.randint(0, min(3, len(facts))))
        lines.append(layout.put(needs, rng.sample(others, min(len(others), 1)), []))
    ousting = rng.random() < 0.5
    if ousting:
        lines += [layout.put(others[:2], [first], [second]), layout.put(others[1:3], [second], [first])]
    opening = layout.open(rng.sample(others, len(others) // 2), [first, second] if ousting else [first])
    rescue = [layout.put(others[:2], [first]), FIND_LINE] if rng.random() < 0.5 else []
    return mixed_text(rng, [opening] + lines + [FIND_LINE, FIND_LINE] + rescue)


def repeated_finds(rng: random.Random) -> bytes:
    """Find after each of many changes, so that listed groups outlive them."""
    layout = Layout(rng, rng.randint(4, 8))
    facts = layout.used
    order = union(rng.sample(facts, 1))
    lines = [open_line(layout.facts, random_set(rng, facts, 1), order)]
    taken: list[int] = []
    for _ in range(rng.randint(3, 10)):
        lines.append(blocked_step(rng, layout, taken))
    for _ in range(rng.randint(3, 12)):
        lines += [FIND_LINE, SIGN_LINE] if rng.random() < 0.1 else [FIND_LINE]
        lines.append(blocked_step(rng, layout, taken) if rng.random() < 0.2 else random_change(rng, facts, taken))
    return mixed_text(rng, lines + [FIND_LINE, FIND_LINE])


def carried_steps(rng: random.Random) -> bytes:
    """Steps of which many can be carried out, among finds and other changes that keep the listed groups."""
    layout = Layout(rng, rng.randint(4, 8))
    facts = layout.used
    order = union(rng.sample(facts, rng.randint(1, 2)))
    lines = [open_line(layout.facts, random_set(rng, facts, len(facts)) & ~order, order)]
    taken = layout.places[:rng.randint(3, 8)]
    for place in taken:
        needs, gives, takes = random_step(rng, facts, rng.choice((1, 1, 4)))
        lines.append(put_line(place, needs, gives & ~order if rng.random() < 0.5 else gives, takes))
    for _ in range(rng.randint(4, 16)):
        change = place_line(CARRY, rng.choice(taken)) if rng.random() < 0.6 else random_change(rng, facts, taken)
        lines += [FIND_LINE, change] if rng.random() < 0.6 else [change]
    return mixed_text(rng, lines + [FIND_LINE])


def slips(rng: random.Random) -> bytes:
    """Slips signed one after another, with and without a finding, and calls on the waived facts between."""
    layout = Layout(rng, rng.randint(6, 9))
    goals, papers = layout.used[:3], layout.used[3:]
    lines = [open_line(layout.facts, random_set(rng, papers, 1), 1 << goals[0])] + [SIGN_LINE] * rng.choice((0, 0, 1))
    taken: list[int] = []
    for goal in goals + rng.sample(layout.used, 2):
        needs = rng.sample(papers, rng.randint(1, 3))
        takes = random_set(rng, papers, 1) & ~(1 << goal)
        taken.append(layout.places.pop(0))
        lines.append(put_line(taken[-1], union(needs), 1 << goal, takes))
    for goal in rng.sample(goals, 3):
        lines.append(FIND_LINE)
        lines += [random_change(rng, papers, taken)] if rng.random() < 0.15 else []
        lines += rng.choice(([SIGN_LINE], [SIGN_LINE], [SIGN_LINE, FIND_LINE], [SIGN_LINE, SIGN_LINE],
                             [SIGN_LINE, FIND_LINE, SIGN_LINE]))
        lines += [random_change(rng, papers, taken)] if rng.random() < 0.5 else []
        lines.append(set_line(ORDER, 1 << (goal if rng.random() < 0.7 else rng.choice(papers))))
    return mixed_text(rng, lines + [FIND_LINE, SIGN_LINE, FIND_LINE])


def blocked_step(rng: random.Random, layout: Layout, taken: list[int]) -> str:
    """A step with more needs than gives, so that much is blocked."""
    needs = union(rng.sample(layout.used, rng.randint(2, 4)))
    gives = union(rng.sample(layout.used, 1))
    takes = random_set(rng, layout.used, 1) & ~gives
    taken.append(layout.places.pop(0))
    return put_line(taken[-1], needs, gives, takes)


class Family(NamedTuple):
    """How a file is made, the family's share of the files, and the ends that its files are there to meet."""

    make: Callable[[random.Random], bytes]
    share: int
    ends: tuple[str, ...]


def refusals(*numbers: int) -> tuple[str, ...]:
    return tuple(f"refusal {number}" for number in numbers)


ACCEPTED = tuple(f"accepted {kind:02X}" for kind in (1, 2, 3, 4, 5, 6, 7, 8, 10))
FAMILIES = {
    "mixed": Family(mixed, 24, (*ACCEPTED, "set", *refusals(2, 4, 6, 7, 8, 9, 10, 11, 12, 14, 20))),
    "wrong_lines": Family(wrong_lines, 10, refusals(1, 2, 3)),
    "odd_texts": Family(odd_texts, 4, ("text of 0 bytes", "text of 16384 bytes")),
    "too_long": Family(too_long, 2, refusals(19)),
    "needs_waived": Family(needs_waived, 10, ("set of size 0", "set of size 1", "set of size 3")),
    "some_of_many": Family(some_of_many, 5, ("set of size 4",)),
    "near_64_groups": Family(near_64_groups, 6, ("set with 60 groups or more listed", *refusals(22))),
    "long_plans": Family(long_plans, 6, ("plan of 1000 places or more", "plan of 4095 places", *refusals(21))),
    "beyond_reach": Family(beyond_reach, 6, ("beyond reach with nothing struck out",
                                             "beyond reach with facts struck out")),
    "none_exists": Family(none_exists, 5, refusals(20)),
    "repeated_finds": Family(repeated_finds, 12, ("set of size 2", *refusals(20))),
    "carried_steps": Family(carried_steps, 8, ("accepted 08", *refusals(12))),
    "slips": Family(slips, 12, ("accepted 0A", *refusals(13, 14))),
}


def random_case(seed: str, index: int, families: Sequence[str]) -> tuple[str, bytes]:
    """The name of a family and one file of it."""
    rng = random.Random(f"{seed}/{index}")
    name = rng.choices(families, [FAMILIES[family].share for family in families])[0]
    return name, FAMILIES[name].make(rng)
