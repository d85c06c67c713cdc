#!/usr/bin/env python3
"""Writes the tables of the alphabets' source: what each octet is in a form; the squares and the supplementary
set, from either side; and how each character is spelt in a form.

    make_tables.py            writes the files
    make_tables.py --check    only compares them, with exit status 1 where one is not as it would be written

The numbers come from the model of the documents (model.py). The proof stays the judge: the check compares each entry with what the
definitions of specs/ compute, so that a cell that is altered is altered here and there. The layout is that of `rt fmt`.
"""
from __future__ import annotations

import pathlib
import sys
from typing import Iterable, Iterator

sys.dont_write_bytecode = True
import model

ROOT = pathlib.Path(__file__).resolve().parent.parent

# A to Z, a to z, SPACE: a column each. The marks in 01's order: a row each.
COLUMNS = [*(ord(letter) for letter in model.LETTERS), model.SPACE]
ROWS = list(model.MARKS)

# "What an octet is by itself, as one number": from here on there is no character.
NO_CHARACTER = 0x8000

# How many characters a page of what is looked up by a character has.
PAGE = 32


def entry(number: int, digits: int = 4) -> str:
    return f"0x{number:0{digits}X}" if number else "0"


def laid_out(lines: Iterable[str]) -> Iterator[str]:
    """The lines as the formatter lays them out: entries that stand behind one another fill a line of under 100 columns; others stay."""
    row = ""
    for line in lines:
        indent = len(line) - len(line.lstrip())
        is_entry = line.lstrip()[0].isdigit()
        if row and is_entry and len(row) + 1 + len(line.lstrip()) < 100:
            row += " " + line.lstrip()
            continue
        if row:
            yield row
        row = " " * indent + line.lstrip() if is_entry else ""
        if not is_entry:
            yield line
    if row:
        yield row


def table(name: str, of: str, lines: Iterable[str]) -> Iterator[str]:
    """A public static table: its name, its type, and its lines, each an entry, a comment or a bracket."""
    yield f"pub static {name}: {of} = ["
    yield from laid_out("    " + line for line in lines)
    yield "];"


def pages(of: str, numbers: dict[int, int], digits: int) -> Iterator[str]:
    """The pages in which some character has a number, each named by its first character. 0 is none."""
    for page in sorted({character // PAGE for character in numbers}):
        first = page * PAGE
        found = (numbers.get(character, 0) for character in range(first, first + PAGE))
        yield ""
        yield from table(f"FROM_{first:04X}", f"[{of}; {PAGE}]", (f"{entry(number, digits)}," for number in found))


# crates/lent_tables/src/codes.rt


def code(form: int, octet: int) -> int:
    sort = model.sort(form, octet)
    if sort.kind == "graphic" and model.spell(form, sort.value) == [octet]:
        return sort.value
    return NO_CHARACTER + (ROWS.index(sort.value) if sort.kind == "mark" else len(ROWS))


def code_lines(form: int) -> Iterator[str]:
    for octet in range(256):
        if octet % 16 == 0:
            yield f"// {octet:02X}"
        yield f"{entry(code(form, octet))},"


NAMES = {1: "EIGHT", 2: "SEVEN", 3: "BASIC"}


def codes_file() -> Iterator[str]:
    yield "// What each octet is by itself in a form: a spacing character, where the octet is its canonical spelling; or, counted from 2^15, the"
    yield "// row of a mark, and 13 where it is neither."
    for form in model.FORMS:
        yield ""
        yield f"// Form {form}."
        yield from table(NAMES[form], "[u16; 256]", code_lines(form))


# crates/squares/src/table.rt


def square_lines() -> Iterator[str]:
    for octet, mark in model.MARKS.items():
        yield f"// {octet:02X} {mark.name}"
        yield "["
        for follower in COLUMNS:
            yield f"    {entry(model.pair(octet, follower) or 0)},"
        yield "],"


def squares_file() -> Iterator[str]:
    yield "// The table of squares: 13 rows, one a mark, of 53 followers: A to Z, a to z, SPACE. 0 is an empty square."
    yield from table("SQUARES", "[[u16; 53]; 13]", square_lines())


# crates/squares/src/pages.rt


def pair_pages_file() -> Iterator[str]:
    yield "// The pair of each character: 0x100 times its mark, and its follower; 0 is none. Pages of 32, named by their first character."
    yield from pages("u16", {character: 0x100 * mark + follower for character, (mark, follower) in model.SQUARE_OF.items()}, 4)


# crates/spelling_tables/src/eight.rt, seven.rt, basic.rt

# The code points that have a place of their own in the table of packed spellings, range by range.
RANGES = [(0x0000, 0x017F), (0x02C7, 0x02DD), (0x2015, 0x201D), (0x2122, 0x2126), (0x215B, 0x215E), (0x2190, 0x2193), (0x266A, 0x266A)]


def packed(form: int, codepoint: int) -> int:
    """How many octets, times 2^24, and the octets, the last of them lowest; 0 where the form lacks the character."""
    octets = model.spell(form, codepoint) or []
    return (len(octets) << 24) + int.from_bytes(octets, "big")


def packed_lines(form: int) -> Iterator[str]:
    for first, last in RANGES:
        for codepoint in range(first, last + 1):
            if codepoint == first or codepoint % 16 == 0:
                yield f"// {codepoint:04X}"
            number = packed(form, codepoint)
            yield f"0x{number:08X}," if number else "0,"


def spellings_file(form: int) -> Iterator[str]:
    number = "how many octets, times 2^24, and the octets. 0 is none."
    yield f"// The canonical spelling of each character in form {form}, as one number: {number}"
    size = sum(last - first + 1 for first, last in RANGES)
    yield from table("SPELLINGS", f"[u32; {size}]", packed_lines(form))


# crates/sorts/src/supplementary.rt


def supplementary_file() -> Iterator[str]:
    yield "// The spacing characters of A0 to FF in forms 1 and 2. 0 is none: unallocated, or a mark."
    lines = (f"{entry(model.SUPPLEMENTARY.get(octet, 0))}," for octet in range(0xA0, 0x100))
    yield from table("SUPPLEMENTARY", "[u16; 96]", lines)


# crates/sorts/src/pages.rt


def spacing_pages_file() -> Iterator[str]:
    yield "// The octet of A0 to FF of each character in forms 1 and 2; 0 is none. Pages of 32, named by their first character."
    yield from pages("u8", {character: octet for octet, character in model.SUPPLEMENTARY.items()}, 2)


FILES = {
    "crates/sorts/src/supplementary.rt": supplementary_file,
    "crates/sorts/src/pages.rt": spacing_pages_file,
    "crates/squares/src/table.rt": squares_file,
    "crates/squares/src/pages.rt": pair_pages_file,
    "crates/lent_tables/src/codes.rt": codes_file,
    "crates/spelling_tables/src/eight.rt": lambda: spellings_file(1),
    "crates/spelling_tables/src/seven.rt": lambda: spellings_file(2),
    "crates/spelling_tables/src/basic.rt": lambda: spellings_file(3),
}


def is_written(name: str, text: str) -> bool:
    """Whether the file has just that text; says so where not."""
    path = ROOT / name
    same = path.exists() and path.read_bytes() == text.encode("ascii")
    if not same:
        print(f"{name} is not as tests/make_tables.py writes it", file=sys.stderr)
    return same


def main(arguments: list[str]) -> int:
    if arguments not in ([], ["--check"]):
        print(__doc__, file=sys.stderr)
        return 2
    texts = {name: "".join(line + "\n" for line in lines()) for name, lines in FILES.items()}
    if arguments == ["--check"]:
        return 0 if all([is_written(name, text) for name, text in texts.items()]) else 1
    for name, text in texts.items():
        (ROOT / name).write_bytes(text.encode("ascii"))
    return 0


if __name__ == "__main__":
    sys.exit(main(sys.argv[1:]))
