#!/usr/bin/env python3
"""Does the judge notice wrong finders, and nothing else?

It runs wrong finders (wrong_finders.py), each with one planted bug, on an example file and then on random case files
until the judge (judge.py) calls a report of each wrong. On the same files the judge has to accept the program itself,
the plain finder without a bug (plain_finder.py), and a finder that answers other plans, which the rules leave free.

    scripts/judge_notices.py PROGRAM --seed 1 --files 1000

The last line is 'noticed N of M wrong finders on F random files; 0 lines of right finders called wrong'. The status is
1 if a wrong finder is not noticed within so many files, or a right one is called wrong.
"""
from __future__ import annotations

import argparse
import sys
from pathlib import Path

from casefiles import Program, report_of, shown
from judging import MOST_SHOWN, Judgement, print_wrong
from plain_finder import PlainFinder
from random_cases import FAMILIES, random_case
from wrong_finders import WRONG_FINDERS

# No random file tells whether queries are asked that noted answers settle.
EXAMPLE = Path(__file__).resolve().parent.parent / "crates" / "examplefiles" / "data" / "known-answers.case"


class OtherPlans(PlainFinder):
    """A right finder whose plans may go by other places."""

    places_by_rising = False


class Trial:
    """The finders on one file after the other: which wrong ones are not noticed yet, and what right ones got."""

    def __init__(self, program: Program) -> None:
        self.program = program
        self.unnoticed = dict(WRONG_FINDERS)
        self.wrongly_refused = 0
        self.other_plans = 0

    def run(self, text: bytes) -> bytes:
        return report_of(self.program, text)[0]

    def try_file(self, name: str, text: bytes) -> None:
        """Judges each report once: a wrong finder's report that a right finder wrote too is right."""
        right = {self.run(text), PlainFinder().report(text), OtherPlans().report(text)}
        self.other_plans += len(right) > 1
        for report in right:
            wrong = Judgement(text, report).wrong
            print_wrong(f"{name}, a right finder", wrong[:max(0, MOST_SHOWN - self.wrongly_refused)])
            self.wrongly_refused += len(wrong)
        for finder, wrong_finder in list(self.unnoticed.items()):
            report = wrong_finder(self.run, text)
            wrong = [] if report in right else Judgement(text, report).wrong
            if wrong:
                del self.unnoticed[finder]
                first = wrong[0]
                print(f"noticed: {finder}, which {wrong_finder.__doc__}\n"
                      f"    {name}, line {first.line_number}: expected {first.expected}, came {shown(first.came)!r}")


def main() -> int:
    parser = argparse.ArgumentParser(description="Does the judge notice wrong finders, and nothing else?")
    parser.add_argument("program")
    parser.add_argument("--seed", default="1")
    parser.add_argument("--files", type=int, default=1000)
    options = parser.parse_args()
    trial, files = Trial(options.program), 0
    trial.try_file(EXAMPLE.stem, EXAMPLE.read_bytes())
    while trial.unnoticed and files < options.files:
        family, text = random_case(options.seed, files, list(FAMILIES))
        trial.try_file(f"seed{options.seed}-{files:05d}-{family}", text)
        files += 1
    for finder, wrong_finder in trial.unnoticed.items():
        print(f"NOT noticed: {finder}, which {wrong_finder.__doc__}")
    if trial.other_plans == 0:
        print("no file has two right reports: nothing shows that other plans are accepted")
    noticed = len(WRONG_FINDERS) - len(trial.unnoticed)
    print(f"noticed {noticed} of {len(WRONG_FINDERS)} wrong finders on {files} random files; "
          f"{trial.wrongly_refused} lines of right finders called wrong")
    return 1 if trial.unnoticed or trial.wrongly_refused or trial.other_plans == 0 else 0


if __name__ == "__main__":
    sys.exit(main())
