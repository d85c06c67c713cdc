#!/usr/bin/env python3
"""Writes the cases that the programs tlx_list and listings list, and what they must print.

    make_listings.py            writes the files
    make_listings.py --check    only compares them, with exit status 1 where one is not as it would be written

All of it comes from the model of the documents (model.py), never from our own code. crates/tlx_list/stdin is the document's whole example,
and so is examples/two-pages.tlx; crates/listings/data has a case of every other kind, and its stdout the name of each with its listing.
"""
from __future__ import annotations

import pathlib
import sys

sys.dont_write_bytecode = True
import model

ROOT = pathlib.Path(__file__).resolve().parent.parent
MOST_INPUT = 65_536


def case(form: int, *pages: bytes) -> bytes:
    answer, octets = model.write_case(form, [len(page) for page in pages], b"".join(pages))
    assert answer.number == 0
    return bytes(octets)


def listing(octets: bytes) -> str:
    """"lists it as exactly three lines, each ended by 0A"; "A refused case is the one line"; "longer input is the one line `too long`"."""
    if len(octets) > MOST_INPUT:
        return "too long\n"
    answer, _ = model.read_case(octets)
    if answer.number != 0:
        return "refused {number} page {page} element {element} place {place} count {count}\n".format(**answer._asdict())
    found = model.case_of(octets)
    assert not isinstance(found, int)
    lines = [f"TLX {found.form} pages {len(found.pages)}\n"]
    for page in range(len(found.pages)):
        lines.append(f"page {page} elements {model.page_elements(octets, page).element}\n")
    return "".join(lines)


EXAMPLE = bytes.fromhex(model.EXAMPLE)


def long_case(size: int) -> bytes:
    """A case of just so many octets, in two pages."""
    rest = size - 12
    return case(1, b"A" * 60_000, b"B" * (rest - 60_000))


# The order is that of the program.
CASES = {
    "example": EXAMPLE,
    "no-pages": case(2),
    "256-empty-pages": case(3, *[b""] * 256),
    "three-pages": case(3, bytes.fromhex("CC 41 9B 34 6D"), b"", bytes.fromhex("C2 65 0D 0A 23")),
    "refused-1": case(1, b"A\xa4"),
    "refused-2": case(1, b"AB\x1b"),
    "refused-3": case(1, b"\xc2b"),
    "refused-4": case(1, b"A\xc2", b"e"),
    "refused-5": case(2, b"A\x19\xc2"),
    "refused-6": case(3, b"\x9b\x3a\x6d"),
    "refused-7": case(3, b"\x9b1000\x6d"),
    "refused-8": case(3, b"\x9b" + b"0" * 38 + b"00"),
    "refused-on-page-2": case(1, b"A", b"\xc2e", b"\xc2eABC\xc2b", b"\xa4"),
    "refused-11": EXAMPLE[:5] + b"\x04" + EXAMPLE[6:],
    "refused-13-mark": b"TLY" + EXAMPLE[3:],
    "refused-13-short": EXAMPLE[:7],
    "refused-13-empty": b"",
    "refused-14": EXAMPLE[:4] + b"\x02" + EXAMPLE[5:],
    "refused-15-size": EXAMPLE + b"A",
    "refused-15-pages": b"TLX" + bytes.fromhex("00 01 01 01 01") + bytes(2 * 257),
    "octets-65536": long_case(MOST_INPUT),
    "octets-65537": long_case(MOST_INPUT + 1),
}


def files() -> dict[pathlib.Path, bytes]:
    written = {
        ROOT / "examples" / "two-pages.tlx": EXAMPLE,
        ROOT / "crates" / "tlx_list" / "stdin": EXAMPLE,
        ROOT / "crates" / "tlx_list" / "stdout": listing(EXAMPLE).encode("ascii"),
        ROOT / "crates" / "listings" / "stdout": "".join(f"{name}\n{listing(octets)}" for name, octets in CASES.items()).encode("ascii"),
    }
    for name, octets in CASES.items():
        written[ROOT / "crates" / "listings" / "data" / name] = octets
    return written


def main() -> int:
    # The numbers that a case can meet, each met by one at least.
    numbers = {model.read_case(octets)[0].number for octets in CASES.values() if len(octets) <= MOST_INPUT}
    assert numbers == {0, *range(1, 9), 11, 13, 14, 15}
    # One refusal has five different numbers, and none of them is the sixth's 0, so that none can stand in another's place.
    answer, _ = model.read_case(CASES["refused-on-page-2"])
    assert answer.respelled == 0 and len(set(answer)) == 6
    check = sys.argv[1:] == ["--check"]
    wrong = 0
    for path, octets in files().items():
        if check:
            if not path.exists() or path.read_bytes() != octets:
                print(f"{path.relative_to(ROOT)} is not as it would be written")
                wrong += 1
        else:
            path.parent.mkdir(parents=True, exist_ok=True)
            path.write_bytes(octets)
    return 1 if wrong else 0


if __name__ == "__main__":
    sys.exit(main())
