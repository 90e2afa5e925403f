#!/usr/bin/env python3
"""Brings the repository's own names in specs/ and proofs/ to one spelling: snake case, and camel case for types.

usage: tools/respell_names.py [--say]     at the top of the checkout, once, after the kit's port.py
       --say   only list the old and new names

A name is the repository's own if a file of specs/ or proofs/ declares it: a definition, a lemma, a field, a constructor.
`found-on` and `foundOn` become `found_on`, and `Found-truly` becomes `FoundTruly`. A name that the library has too, or
that Rattle makes for a goal, stays. Functions of src/, their parameters and fields, strings, inputs and outputs stay.
No two names may fall together: the script writes nothing then, and says which.
"""
from __future__ import annotations

import re
import sys
from collections.abc import Iterator
from pathlib import Path

# Names that would fall together with another one, each with what it is called.
SPECIAL = {
    "bit-and": "bit_of_and",
    "bit-or": "bit_of_or",
    "frame-of-kind": "some_frame_of_kind",
    "strike-out": "strike_out_lem",
    "found-parts": "found_parts_lem",
    "refused-parts": "refused_parts_lem",
}
# Names that a function or a field of src/ has too, where nothing mixes them up.
SHARED = {"half_bytes", "meets_all", "slip_out", "strike_out"}
TOKEN = re.compile(r"[A-Za-z0-9_'₀-₉](?:[A-Za-z0-9_'₀-₉′]|-(?=[A-Za-z0-9_'₀-₉]))*")
IMPORT = re.compile(r"\buse Rattle\.std\.[\w.]*\.\{([^}]*)\}", re.S)
DECLARED = re.compile(
    r"(?m)^[ \t]*(?:(?:abbrev|unfoldable|pub|record|data|ruleset)[ \t]+)*"
    r"([A-Za-z][^\s:()\[\]{},;=.]*)(?=[ \t][^\n=]*?:[ \t]|[ \t]*:[ \t]|[ \t]*=[ \t]*\(|[ \t]*\n[ \t]+: )")
MADE = re.compile(
    r"(returns|invariant|decreases|loop|overflow|bounds|slice|offset|nonzero|prove|if|then|else|in|not|field)"
    r"(_of|_add|_sub|_mul|_shl|_shr|_bounds|_div|_rem)?-|.*-(requires|init|preserved|smaller)(-|$)|.*-invariant(-|$)")


def texts(root: Path) -> Iterator[Path]:
    """The files that may hold the names: definitions, proofs, sources and edits."""
    for pattern in ("crates/*/specs/**/*.antt", "crates/*/proofs/**/*.antt", "crates/*/src/**/*.rt", "crates/*/must-fail/*"):
        yield from sorted(p for p in root.glob(pattern) if p.is_file())


def code(text: str) -> str:
    """A text without its comments."""
    return re.sub(r"(?m)^\s*(--|//).*$", "", text)


def snake(name: str) -> str:
    if name in SPECIAL:
        return SPECIAL[name]
    if name[0].isupper():
        first, *others = name.split("-")
        return first + "".join(o[0].upper() + o[1:] for o in others) if others else name
    words = re.sub(r"(?<=[a-z0-9])([A-Z])", lambda m: "_" + m[1].lower(), name)
    return words.replace("-", "_")


def new_names(files: dict[Path, str]) -> dict[str, str]:
    own: set[str] = set()
    library: set[str] = set()
    for path, text in files.items():
        for names in IMPORT.findall(text):
            library |= {n.split(" as ")[0].strip() for n in names.split(",")}
        own |= set(re.findall(r"[{,] *\w+ as ([a-z]+[A-Z]\w*)", text))
        if path.suffix != ".antt":
            continue
        for match in DECLARED.finditer(code(text)):
            own.add(match[1])
        if path.parent.name in ("specs", "proofs"):
            own |= set(re.findall(r"(?m)^use [\w.'+-]* as ([a-z][\w'-]*)$", text))
    changed: dict[str, str] = {}
    for name in sorted(own - library):
        if TOKEN.fullmatch(name) and not MADE.match(name) and snake(name) != name:
            changed[name] = snake(name)
    return changed


def together(changed: dict[str, str], files: dict[Path, str]) -> list[str]:
    """Pairs of names that would be one name afterwards."""
    used: set[str] = set()
    for text in files.values():
        used |= set(TOKEN.findall(code(text)))
    found = [f"{old} becomes {new}, which is used already" for old, new in changed.items() if new in used - SHARED]
    back: dict[str, list[str]] = {}
    for old, new in changed.items():
        back.setdefault(new, []).append(old)
    return found + [f"{', '.join(olds)} become {new}" for new, olds in back.items() if len(olds) > 1]


def main(argv: list[str]) -> int:
    root = Path.cwd()
    files = {path: path.read_text(encoding="utf-8") for path in texts(root)}
    changed = new_names(files)
    for old, new in changed.items():
        if "--say" in argv:
            print(f"{old} -> {new}")
    if together(changed, files):
        print("\n".join(together(changed, files)), file=sys.stderr)
        return 1
    if "--say" in argv:
        return 0
    written = 0
    for path, text in files.items():
        turned = TOKEN.sub(lambda m: changed.get(m[0], m[0]), text)
        if turned != text:
            path.write_text(turned, encoding="utf-8")
            written += 1
    print(f"{len(changed)} names in {written} files")
    return 0


if __name__ == "__main__":
    raise SystemExit(main(sys.argv[1:]))
