#!/usr/bin/env python3
"""Judges the finder's reports on random case files.

It makes case files of several families (random_cases.py), runs the program on each by standard input, and holds every
report line against a plain case of its own (judging.py).

    scripts/judge.py PROGRAM --seed 1 --files 1000     judge so many random files
    scripts/judge.py PROGRAM --file F                  judge one case file
    --kinds 01,02,09    the kinds that the program serves (01 to 0A else)
    --all-ends          fail too if the files don't meet every end that a file can meet, each family its own
    --families a,b      only files of these families
    --keep DIR          write the case files and the reports into DIR

It counts how the lines ended. The last line is 'judged N files, L lines: W wrong'. The status is 1 if any line is
wrong, or with --all-ends an end is lacking.
"""
from __future__ import annotations

import argparse
import sys
from collections import Counter
from collections.abc import Iterator, Mapping
from pathlib import Path

from casefiles import FIELDS, report_of
from judging import MET_BY_FILES, MOST_SHOWN, Judgement, print_wrong
from random_cases import FAMILIES, random_case

Ends = Counter[str]


def keep(folder: Path, name: str, text: bytes, report: bytes) -> None:
    folder.mkdir(parents=True, exist_ok=True)
    (folder / f"{name}.case").write_bytes(text)
    (folder / f"{name}.report").write_bytes(report)


def texts(options: argparse.Namespace) -> Iterator[tuple[str, str, bytes]]:
    """The case files to judge, each with its family and a name."""
    if options.file:
        yield "file", Path(options.file).name, Path(options.file).read_bytes()
        return
    for index in range(options.files):
        family, text = random_case(options.seed, index, options.families)
        yield family, f"seed{options.seed}-{index:05d}-{family}", text


# Counting ends


def print_ends(ends: Ends) -> None:
    """How the lines ended: finds, accepted lines and refusals."""
    sizes = sorted(name for name in ends if name.startswith("set of size"))
    notes = sorted(name for name in ends if name.startswith(("plan of", "beyond reach", "set with", "text of")))
    for title, names in (("sets found", ["set", *sizes]), ("further", notes),
                         ("accepted", [name for name in MET_BY_FILES if name.startswith("accepted")]),
                         ("refused", [name for name in MET_BY_FILES if name.startswith("refusal")])):
        print(f"{title}: " + ", ".join(f"{name.removeprefix('refusal ').removeprefix('accepted ')}: {ends[name]}"
                                       for name in names))


def all_ends(ends_of_families: Mapping[str, Ends]) -> Ends:
    return sum(ends_of_families.values(), Counter())


def lacking_ends(ends_of_families: Mapping[str, Ends]) -> Iterator[str]:
    """The ends that were not met: those of each family by its own files, and those that any file can meet."""
    for family, ends in ends_of_families.items():
        yield from (f"{family}: {name}" for name in FAMILIES[family].ends if not ends[name])
    whole = all_ends(ends_of_families)
    yield from (f"any family: {name}" for name in MET_BY_FILES if not whole[name])


def byte_list(text: str) -> frozenset[int]:
    return frozenset(int(kind, 16) for kind in text.split(","))


def family_list(text: str) -> list[str]:
    names = text.split(",")
    if not set(names) <= set(FAMILIES):
        raise argparse.ArgumentTypeError(f"the families are {', '.join(FAMILIES)}")
    return names


def options_given() -> argparse.Namespace:
    parser = argparse.ArgumentParser(description="Judges the finder's reports on random case files.")
    parser.add_argument("program")
    parser.add_argument("--seed", default="1")
    parser.add_argument("--files", type=int, default=1000)
    parser.add_argument("--file")
    parser.add_argument("--keep", type=Path)
    parser.add_argument("--kinds", type=byte_list, default=frozenset(FIELDS))
    parser.add_argument("--all-ends", action="store_true")
    parser.add_argument("--families", type=family_list, default=list(FAMILIES))
    return parser.parse_args()


def main() -> int:
    options = options_given()
    files = lines = wrong = 0
    ends_of_families: dict[str, Ends] = {} if options.file else {family: Counter() for family in options.families}
    for family, name, text in texts(options):
        report, status = report_of(options.program, text)
        if options.keep:
            keep(options.keep, name, text, report)
        judgement = Judgement(text, report, status, options.kinds)
        print_wrong(name, judgement.wrong[:max(0, MOST_SHOWN - wrong)])
        files += 1
        lines += len(judgement.lines)
        wrong += len(judgement.wrong)
        ends_of_families.setdefault(family, Counter()).update(judgement.ends)
    if wrong > MOST_SHOWN:
        print(f"({wrong - MOST_SHOWN} more wrong lines are not shown)")
    print_ends(all_ends(ends_of_families))
    lacking = list(lacking_ends(ends_of_families)) if options.all_ends and not options.file else []
    for name in lacking:
        print(f"no file met this: {name}")
    print(f"judged {files} files, {lines} lines: {wrong} wrong")
    return 1 if wrong or lacking else 0


if __name__ == "__main__":
    sys.exit(main())
