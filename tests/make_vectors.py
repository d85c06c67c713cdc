#!/usr/bin/env python3
"""Writes what the program crates/vectors_alphabet must print, and docs/PEERS.md.

    make_vectors.py            writes both files
    make_vectors.py --check    only compares them, with exit status 1 where one is not as it would be written

Both come from the model of the documents (model.py) and from other decoders' answers (crates/vectors_alphabet/data/*.csv), never
from our own code. Each difference between a decoder and the documents has its reason in peers.py. Of whole texts the page has what
make_peer_texts.py says of its files.
"""
from __future__ import annotations

import pathlib
import sys
from typing import Iterator

sys.dont_write_bytecode = True
import make_peer_texts
import model
from peers import PEERS, RULES, Difference, Peer, answers_of, code_point, differences_of, hexed, rule_errors

ROOT = pathlib.Path(__file__).resolve().parent.parent
CRATE = ROOT / "crates" / "vectors_alphabet"


# What is printed of the model. Each function gives lines without their ends.


def sort_text(sort: model.Sort) -> str:
    if sort.kind == "graphic":
        return f"graphic {code_point(sort.value)}"
    if sort.kind == "mark":
        return f"mark {sort.value:02X}"
    if sort.kind == "refused":
        return f"refused {sort.value}"
    return sort.kind


def form_lines() -> Iterator[str]:
    for number in (0, 1, 2, 3, 4, 257, 4294967295):
        yield f"form {number} = {number if number in model.FORMS else 'nothing'}"


def sort_lines(form: int) -> Iterator[str]:
    for octet in range(256):
        yield f"sort {form} {octet:02X} = {sort_text(model.sort(form, octet))}"


def shifted_lines(form: int) -> Iterator[str]:
    for octet in range(256):
        yield f"shifted {form} {octet:02X} = {sort_text(model.sort_shifted(form, octet))}"


def paired_text(first: model.Sort, follower: int) -> str:
    """The character; 3, "what follows a mark isn't its listed follower"; or what the first octet is, where it is no mark."""
    if first.kind != "mark":
        return sort_text(first)
    character = model.pair(first.value, follower)
    return "refused 3" if character is None else code_point(character)


def pair_lines(form: int) -> Iterator[str]:
    """C0 to CF before each follower. Form 2 has them as 40 to 4F after SS2."""
    for row in range(16):
        begins = [model.SS2, 0x40 + row] if form == 2 else [0xC0 + row]
        first = model.sort_shifted(form, begins[1]) if form == 2 else model.sort(form, begins[0])
        for follower in model.FOLLOWERS:
            yield f"pair {form} {hexed([*begins, follower])} = {paired_text(first, follower)}"


def spelling_lines(form: int) -> Iterator[str]:
    for character in range(0x3000):
        spelling = model.spell(form, character)
        if spelling is not None:
            yield f"spell {form} {code_point(character)} = {hexed(spelling)}"


def unspelt_lines(form: int) -> Iterator[str]:
    """Two numbers past the last code point."""
    for character in (0x110000, 0xFFFFFFFF):
        assert model.spell(form, character) is None
        yield f"spell {form} {code_point(character)} = unspelt"


def peer_lines(peer: Peer) -> Iterator[str]:
    differences = differences_of(peer)
    for code, theirs, ours in differences:
        yield f"peer {peer.file} {hexed(code)} = theirs {theirs}, ours {ours}"
    yield f"peer {peer.file} agree {len(answers_of(peer)) - len(differences)} differ {len(differences)}"


def stdout_lines() -> Iterator[str]:
    yield from form_lines()
    for lines_of in (sort_lines, shifted_lines, pair_lines, spelling_lines, unspelt_lines):
        for form in model.FORMS:
            yield from lines_of(form)
    for peer in PEERS:
        yield from peer_lines(peer)


# docs/PEERS.md


def ranges(numbers: list[int]) -> str:
    """Octets as `00 to 07, 09`."""
    runs: list[list[int]] = []
    for number in numbers:
        if runs and number == runs[-1][-1] + 1:
            runs[-1].append(number)
        else:
            runs.append([number])
    return ", ".join(f"{run[0]:02X} to {run[-1]:02X}" if len(run) > 2 else hexed(run).replace(" ", ", ") for run in runs)


def followers_text(followers: list[int]) -> str:
    """SPACE and letters, the letters as document 01 writes them after a mark."""
    if followers == model.FOLLOWERS:
        return "SPACE, A to Z, a to z"
    capitals = "".join(chr(follower) for follower in followers if chr(follower).isupper())
    smalls = "".join(chr(follower) for follower in followers if chr(follower).islower())
    return " ".join(part for part in ("SPACE" if model.SPACE in followers else "", capitals, smalls) if part)


IN_ORDER = "in the order of the letters"


def alike(difference: Difference) -> tuple[str, str, str]:
    """What is the same for the differences of a rule that stand in one row: the first of two octets, theirs, ours."""
    code, theirs, ours = difference
    last = code_point(code[-1])
    if len(code) == 1:
        return "", "the octet's own number" if theirs == last else theirs, ours
    if theirs == last:
        theirs = "the follower"
    elif theirs.startswith(last + " "):
        theirs = "the follower and " + theirs[len(last) + 1 :]
    elif theirs != "refused":
        theirs = IN_ORDER
    return f"{code[0]:02X}", theirs, "the follower, underlined" if ours == f"underlined {last}" else ours


def rows_of(differences: list[Difference]) -> Iterator[tuple[str, str, str]]:
    """Octets, theirs and ours, with the differences that read alike in one row."""
    groups: dict[tuple[str, str, str], list[Difference]] = {}
    for difference in differences:
        groups.setdefault(alike(difference), []).append(difference)
    for (first, theirs, ours), group in groups.items():
        lasts = [difference.code[-1] for difference in group]
        if theirs == IN_ORDER:
            theirs = " ".join(difference.theirs for difference in group)
        yield f"{first} and {followers_text(lasts)}" if first else ranges(lasts), theirs, ours


def peer_section(peer: Peer) -> Iterator[str]:
    differences = differences_of(peer)
    total = len(answers_of(peer))
    yield f"## {peer.decoder}"
    yield ""
    yield f"`{peer.file}`, compared with form {peer.form}: {total} codes, {total - len(differences)} agree, {len(differences)} differ."
    yield ""
    yield "| Octets | Theirs | Ours | Why |"
    yield "|---|---|---|---|"
    for rule in RULES:
        if rule.file == peer.file:
            named = [difference for difference in differences if difference.code in rule.codes]
            for codes, theirs, ours in rows_of(named):
                yield f"| {codes} | {theirs} | {ours} | {rule.reason} |"


def short(difference: Difference) -> str:
    """A difference in an allocated code, as `E2: 00D0, ours 0110`."""
    code = f"{difference.code[0]:02X}" + (f" and {followers_text([difference.code[1]])}" if len(difference.code) == 2 else "")
    return f"{code}: {difference.theirs}, ours {difference.ours}"


TEXTS = f"""\
## Whole texts that the GNU C library decoded

Texts of the codes that documents 01 and 02 allocate, up to {make_peer_texts.MOST_ELEMENTS} elements long and with each code in some of them, were decoded by `iconv`
of the GNU C library {make_peer_texts.VERSION}. They are stored with the code points that it gave and with how many octets it took
(`tests/make_peer_texts.py`; `--check` asks it again). CC and 9B are left out: it reads neither as document 01 has them. The program
`crates/vectors_text` reads the same octets by `text::read` and compares word by word, a control as its own number. A text that
the C library refuses midway is compared up to there, and has to be accepted by us to its end. In an allocated code they may differ
only as listed here, which `src/peers.rt` of that program has as `is_listed` and `is_refused`.

| Decoder | File | Form | Texts | The same | But for listed characters | Up to a code listed as refused | Otherwise |
|---|---|---|---|---|---|---|---|"""


def texts_section() -> Iterator[str]:
    yield from TEXTS.splitlines()
    for decoder in make_peer_texts.DECODERS:
        count = " | ".join(str(number) for number in make_peer_texts.totals(decoder))
        yield f"| `iconv -f {decoder.alphabet}` | `{decoder.file}` | {make_peer_texts.peer_of(decoder).form} | {count} | 0 |"
    yield ""
    for decoder in make_peer_texts.DECODERS:
        listed = "; ".join(short(difference) for difference in make_peer_texts.listed(decoder).values())
        yield f"- `{decoder.file}`: {listed}."


INTRODUCTION = """\
# Our answers beside other decoders'

The alphabets of document 01, with the one pair that document 02 adds, are held against six files of answers, one a decoder. Each answer
was obtained by running the decoder on one input alone: an octet, or one of C0 to CF and then SPACE or a letter. Where a decoder and the
documents differ, the documents decide, and the difference stands here with its reason.

That pair is C2 and g, small g with cedilla, U+0123: Annex A of T.51 (source document 001) codes it so and names it so, and its name
decides the character (document 02, No. 2). No decoder here agrees: two read g with acute, U+01F5, the others refuse it, and all of them
have U+0123 at CB and g, where the documents have nothing.

The program `crates/vectors_alphabet` makes the comparison in the gate, with the proved code on our side. What it must print, and this
page, are made by `tests/make_vectors.py` from `tests/model.py`, which is written from the documents alone. In `tests/peers.py` each
difference has to have its reason, and each reason its difference. Whole texts of two of the decoders are compared too.

Octets and code points are in hex. Ours is the character, a control's own number, or `refused`: where the documents refuse the octets,
and where they end inside an element, as a mark, CC or 9B alone does. Letters after a mark stand as in document 01, and where a
decoder gives a character of its own for each, these stand in the letters' order. For C0 and C9 before a letter Wireshark puts U+FFFD
and goes on; its file has that as refused. Its file has no line for 00. The file of libzvbi has no octets below A0.
"""


def page_lines() -> Iterator[str]:
    yield from INTRODUCTION.splitlines()
    yield ""
    yield "| Decoder | File | Form | Codes | Agree | Differ |"
    yield "|---|---|---|---|---|---|"
    for peer in PEERS:
        total, differ = len(answers_of(peer)), len(differences_of(peer))
        yield f"| {peer.decoder} | `{peer.file}` | {peer.form} | {total} | {total - differ} | {differ} |"
    yield ""
    yield from texts_section()
    for peer in PEERS:
        yield ""
        yield from peer_section(peer)


def write(path: pathlib.Path, text: str) -> None:
    path.parent.mkdir(parents=True, exist_ok=True)
    path.write_bytes(text.encode("ascii"))


def is_written(path: pathlib.Path, text: str) -> bool:
    """Whether the file has just that text; says so where not."""
    same = path.exists() and path.read_bytes() == text.encode("ascii")
    if not same:
        print(f"{path.relative_to(ROOT)} is not as tests/make_vectors.py writes it", file=sys.stderr)
    return same


def main(arguments: list[str]) -> int:
    if arguments not in ([], ["--check"]):
        print(__doc__, file=sys.stderr)
        return 2
    errors = list(rule_errors())
    for error in errors:
        print(error, file=sys.stderr)
    if errors:
        return 1
    texts = {
        CRATE / "stdout": "".join(line + "\n" for line in stdout_lines()),
        ROOT / "docs" / "PEERS.md": "".join(line + "\n" for line in page_lines()),
    }
    if arguments == ["--check"]:
        return 0 if all([is_written(path, text) for path, text in texts.items()]) else 1
    for path, text in texts.items():
        write(path, text)
    return 0


if __name__ == "__main__":
    sys.exit(main(sys.argv[1:]))
