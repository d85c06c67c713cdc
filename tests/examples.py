"""The examples: programs that convert a file from one form to another, one that reads a page as it comes, one that says what changed
between two files, one that names what is not canonical in a file, and those of README.md.

`check` runs one program on each text beside the model of the documents, and compares its exit status, its output file, the line that it
prints and its message: that of a refusal names the number, the octet in hex, its place and its element. `check_serial` does so with pages
on standard input, and compares the words that are printed; `check_compare` with two files, and compares the line that says what changed;
`check_respelled` with one file, and compares the lines that name its elements. `check_readme` runs the lines of a section of README.md as
they are written there, and compares what they write with the comments at their end. `check_own` runs a program of tests that Rust made.
Standard library only.
"""
from __future__ import annotations

import pathlib
import random
import re
import subprocess
import sys
from typing import Iterator, NamedTuple, Optional, Sequence, Union

sys.dont_write_bytecode = True
import make_text_vectors as texts
import model


class Conversion(NamedTuple):
    source: int
    target: int
    text: bytes


class Ending(NamedTuple):
    """How a run ends: exit status, what it prints, how its message begins, and what the output file has, or None where there is none."""

    status: int
    printed: bytes
    message: str
    output: Optional[bytes] = None


def conversions() -> Iterator[Conversion]:
    """The document's readings, what is not canonical, what every form refuses, a text of each form that the others hold, and what no form
    is asked for."""
    for form, text, _ in [*model.READINGS, *model.RESPELLED]:
        yield from (Conversion(form, target, bytes.fromhex(text)) for target in model.FORMS)
    for form in model.FORMS:
        yield from (Conversion(form, form, b"A" + bytes(octets)) for octets in texts.refused_octets(form))
    yield Conversion(1, 3, b"Caf\xC2e, na\xC8ive, \xA3 5\r\n" * 1000)
    yield Conversion(3, 2, b"caf\xC2e \xA6 1\x0A" * 1000)
    yield Conversion(3, 1, b"plain, then \xCCunderlined")
    yield from (Conversion(source, target, b"A") for source, target in [(0, 1), (1, 4), (9, 9)])
    yield Conversion(1, 1, b"A" * (model.MOST_ENTRIES + 1))


Refused = Union[model.Answer, model.ReadAnswer]


def named(answer: Refused) -> int:
    """The place of the octet that a refusal is about."""
    return answer.place if answer.number in (4, 10) else answer.count


def refusal_message(program: str, answer: Refused, text: bytes) -> str:
    """How the message of a refusal begins."""
    message = f"{program}: refused with {answer.number}: "
    if answer.number <= 10:
        at = named(answer)
        message += f"octet {text[at]:02X} at place {at}, in element {answer.element}, "
    return message


def expected(asked: Conversion) -> Ending:
    answer, octets = model.convert_text(asked.source, asked.target, asked.text)
    if answer.number == 0:
        said = f"elements that were not canonical in form {asked.source}: {answer.respelled}\n"
        return Ending(0, said.encode(), "", bytes(octets))
    return Ending(1, b"", refusal_message("convert", answer, asked.text))


def run(program: Sequence[str], asked: Conversion, folder: pathlib.Path) -> Ending:
    text, output = folder / "text", folder / "output"
    text.write_bytes(asked.text)
    output.unlink(missing_ok=True)
    command = [*program, str(asked.source), str(asked.target), str(text), str(output)]
    ended = subprocess.run(command, capture_output=True, check=False)
    return Ending(ended.returncode, ended.stdout, ended.stderr.decode(), output.read_bytes() if output.exists() else None)


def is_as(ending: Ending, wanted: Ending) -> bool:
    """A refusal is said in words after its numbers, on one line."""
    said = ending.message[len(wanted.message) :]
    in_words = len(said) > 10 and said.count("\n") == 1 if wanted.message else said == ""
    return ending._replace(message="") == wanted._replace(message="") and ending.message.startswith(wanted.message) and in_words


def check(name: str, program: Sequence[str], folder: pathlib.Path) -> tuple[int, int]:
    passed = failed = 0
    for asked in conversions():
        ending, wanted = run(program, asked, folder), expected(asked)
        if is_as(ending, wanted):
            passed += 1
        else:
            failed += 1
            print(f"  {name}: {asked.source} to {asked.target}, {asked.text[:40].hex(' ')}: {ending}, and not {wanted}")
    print(f"the example in {name}: {passed} of {passed + failed} files converted or refused as they should be")
    return passed, failed


def pages() -> Iterator[tuple[int, bytes]]:
    """The document's readings, what every form refuses, every character of each, no form, and a page over the limit."""
    yield from ((form, bytes.fromhex(text)) for form, text, _ in model.READINGS)
    for form in model.FORMS:
        yield from ((form, b"Ab" + bytes(octets)) for octets in texts.refused_octets(form))
        yield from ((form, bytes(text)) for text in texts.whole_texts(form))
    yield from ((form, b"A") for form in (0, 4, 9))
    yield 1, b"A" * (model.MOST_ENTRIES + 1)


def expected_page(form: int, page: bytes) -> Ending:
    """The words up to the end or the first fault, one to a line, and then the four counts."""
    if form not in model.FORMS:
        return Ending(1, b"", refusal_message("serial", model.Answer(11), page))
    # Off a file each piece has 7 octets, and the one that would pass the limit is not read.
    is_long = len(page) > model.MOST_ENTRIES
    pieces, refusal = model.read_pieces(form, page[: model.MOST_ENTRIES // 7 * 7] if is_long else page)
    words = model.words_of(pieces)
    printed = "".join(f"{word:08X}\n" for word in words)
    if is_long or refusal:
        return Ending(1, printed.encode(), refusal_message("serial", model.Answer(12) if is_long else refusal, page))
    elements = f"{len(pieces)} elements, {model.respelled_in(pieces)} of them not canonical"
    return Ending(0, f"{printed}{elements}; {len(page)} octets, {len(words)} words\n".encode(), "")


def run_page(program: Sequence[str], form: int, page: bytes, folder: pathlib.Path) -> Ending:
    (folder / "text").write_bytes(page)
    with open(folder / "text", "rb") as text:
        ended = subprocess.run([*program, str(form)], stdin=text, capture_output=True, check=False)
    return Ending(ended.returncode, ended.stdout, ended.stderr.decode())


def check_serial(program: Sequence[str], folder: pathlib.Path) -> tuple[int, int]:
    passed = failed = 0
    for form, page in pages():
        ending, wanted = run_page(program, form, page, folder), expected_page(form, page)
        if is_as(ending, wanted):
            passed += 1
        else:
            failed += 1
            print(f"  a page of form {form}, {page[:40].hex(' ')}: {ending}, and not {wanted}")
    print(f"the example of a page as it comes: {passed} of {passed + failed} pages read or refused as they should be")
    return passed, failed


class Comparing(NamedTuple):
    form: int
    first: bytes
    second: bytes


DRAWN = 40  # pairs of elements of each form
SEED = 4

# One element of each form, spelled in two lengths.
TWO_SPELLINGS = {1: (b"^", b"\xC3 "), 2: (b"^", b"\x19C "), 3: (b"\x9Bm", b"\x9B00m")}


def comparisons() -> Iterator[Comparing]:
    """The model's own; every character of each form beside its canonical spelling, and with more behind either; elements of each form
    behind one that is spelled otherwise; what every form refuses, in each text and in both; no form, and texts over the limit."""
    chance = random.Random(SEED)
    yield from (Comparing(form, bytes.fromhex(first), bytes.fromhex(second)) for form, first, second, *_ in model.COMPARISONS)
    for form in model.FORMS:
        for text in map(bytes, texts.whole_texts(form)):
            respelt = bytes(model.convert_text(form, form, text)[1])
            yield Comparing(form, text, respelt)
            yield from (Comparing(form, text + text + b"A", respelt), Comparing(form, text, respelt + text))
        for _ in range(DRAWN):
            yield Comparing(form, *(front + bytes(texts.some_element(form, chance)) + b"B" for front in TWO_SPELLINGS[form]))
        for octets in map(bytes, texts.refused_octets(form)):
            yield from (Comparing(form, b"Ab" + octets, b"Ac"), Comparing(form, b"Ab", b"Ac" + octets))
            yield Comparing(form, octets, b"A" + octets)
    yield from (Comparing(form, b"A", b"B") for form in (0, 4, 9))
    over = b"A" * (model.MOST_ENTRIES + 1)
    yield from (Comparing(1, over, b"\x1B"), Comparing(1, b"\x1B", over), Comparing(1, over, over))


def differing(form: int, place: int, text: bytes, name: str) -> str:
    """How the element of a text that differs is named."""
    _, _, after, _ = model.read_element(form, text, place)
    return f"{text[place:after].hex(' ').upper()} at place {place} of {name}"


def change(asked: Comparing, said: model.Comparison, names: Sequence[str]) -> str:
    """The line that says what changed between two accepted texts."""
    form, first, second = asked
    element = said.answer.element
    if said.same:
        return f"the same: {element} elements, {said.otherwise} of them spelled otherwise"
    if said.first_place < len(first) and said.second_place < len(second):
        one, other = differing(form, said.first_place, first, names[0]), differing(form, said.second_place, second, names[1])
        return f"element {element} differs: {one}, {other}"
    longer, shorter = names if said.tail_text == 1 else names[::-1]
    more = model.part_of(said, first, second)
    shown = differing(form, said.tail_place, first if said.tail_text == 1 else second, longer)
    return f"{longer} goes on where {shorter} ends, with element {element}: {shown}, {len(more)} octets more in all"


def expected_comparison(asked: Comparing, names: Sequence[str]) -> Ending:
    said = model.compared(*asked)
    if said.answer.number == 0:
        return Ending(0 if said.same else 1, f"{change(asked, said, names)}\n".encode(), "")
    if said.text == 0:
        return Ending(2, b"", refusal_message("compare", said.answer, b""))
    return Ending(2, b"", refusal_message(f"compare: {names[said.text - 1]}", said.answer, asked[said.text]))


def run_comparison(program: Sequence[str], asked: Comparing, names: Sequence[str]) -> Ending:
    for name, text in zip(names, asked[1:]):
        pathlib.Path(name).write_bytes(text)
    ended = subprocess.run([*program, str(asked.form), *names], capture_output=True, check=False)
    return Ending(ended.returncode, ended.stdout, ended.stderr.decode())


def check_compare(program: Sequence[str], folder: pathlib.Path) -> tuple[int, int]:
    names = [str(folder / "first"), str(folder / "second")]
    passed = failed = 0
    for asked in comparisons():
        ending, wanted = run_comparison(program, asked, names), expected_comparison(asked, names)
        if is_as(ending, wanted):
            passed += 1
        else:
            failed += 1
            both = " and ".join(text[:40].hex(" ") for text in asked[1:])
            print(f"  two files of form {asked.form}, {both}: {ending}, and not {wanted}")
    print(f"the example of two files compared: {passed} of {passed + failed} changes said or refused as they should be")
    return passed, failed


def not_canonical(form: int, text: bytes, pieces: Sequence[model.Piece], end: int) -> Iterator[str]:
    """A line for each of the elements, which stand before the place, that is not canonical."""
    for element, (piece, octets) in enumerate(zip(pieces, model.pieces_octets(pieces, text[:end]))):
        if not piece.canonical:
            canonical = bytes(model.spell_element(form, piece.words))
            yield f"element {element}: {octets.hex(' ').upper()} at place {piece.place}, canonical {canonical.hex(' ').upper()}\n"


def expected_respelled(form: int, text: bytes) -> Ending:
    """The elements up to the end or the first fault, one to a line, and then both counts."""
    refusal = model.refused_before([form], text)
    pieces, fault = ([], refusal) if refusal else model.read_pieces(form, text)
    printed = "".join(not_canonical(form, text, pieces, fault.place if fault else len(text)))
    if fault:
        return Ending(1, printed.encode(), refusal_message("respelled", fault, text))
    return Ending(0, f"{printed}{len(pieces)} elements, {model.respelled_in(pieces)} of them not canonical\n".encode(), "")


# Elements of as many words as one has: in 40 octets, the most of any spelling, and in 35, whose canonical spelling has 34, the most of one.
LONGEST = (3, b"\x9B0001;002;0000003;4;5;06;0007;00000000 L\x9B0999;999;999;999;999;999;999;999 L")


def check_respelled(program: Sequence[str], folder: pathlib.Path) -> tuple[int, int]:
    passed = failed = 0
    counted = [(form, bytes.fromhex(text)) for form, text, _ in model.RESPELLED] + [LONGEST]
    for form, text in [*pages(), *counted, *((form, text + b"\x1B") for form, text in counted)]:
        (folder / "text").write_bytes(text)
        ended = subprocess.run([*program, str(form), str(folder / "text")], capture_output=True, check=False)
        ending, wanted = Ending(ended.returncode, ended.stdout, ended.stderr.decode()), expected_respelled(form, text)
        if is_as(ending, wanted):
            passed += 1
        else:
            failed += 1
            print(f"  a file of form {form}, {text[:40].hex(' ')}: {ending}, and not {wanted}")
    print(f"the example of what is not canonical: {passed} of {passed + failed} files gone through or refused as they should be")
    return passed, failed


ROOT = pathlib.Path(__file__).resolve().parent.parent


def readme_lines(section: str) -> list[str]:
    """The lines of a section's first block."""
    after = (ROOT / "README.md").read_text(encoding="utf-8").split(f"\n## {section}\n")[1]
    return after.split("\n```\n")[1].splitlines()


def check_readme(section: str) -> tuple[int, int]:
    lines = readme_lines(section)
    wanted = [line[2:] for line in lines if line.startswith("# ")]
    ended = subprocess.run(["sh", "-e"], input="\n".join(lines).encode(), stdout=subprocess.PIPE, cwd=ROOT, check=False)
    written = ended.stdout.decode().splitlines()[-len(wanted) :]
    good = ended.returncode == 0 and written == wanted
    print(f"README.md, {section}: " + ("as written" if good else f"exit status {ended.returncode}, {written}"))
    return (1, 0) if good else (0, 1)


def check_own(program: Sequence[str]) -> tuple[int, int]:
    ended = subprocess.run(program, capture_output=True, check=False)
    result = re.search(r"(\d+) passed; (\d+) failed", ended.stdout.decode())
    passed, failed = (int(result[1]), int(result[2])) if result else (0, 1)
    print(f"the Rust crate's own tests: {passed} of {passed + failed}")
    return passed, failed
