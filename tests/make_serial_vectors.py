#!/usr/bin/env python3
"""Writes the vectors of the program crates/vectors_serial, and what it must print.

    make_serial_vectors.py            writes the files
    make_serial_vectors.py --check    only compares them, with exit status 1 where one is not as it would be written

All of it comes from the model of the documents (model.py), never from our own code. A file has a heading and a line a vector:
where a page starts, the calls, and the outcome of each. A page starts with the form that it is made fresh with, and then making fresh
is the first outcome; or, in carry.csv and respelled.csv, with the fields of a carry, `held` first. A call is its piece, the room that is
lent, and 1 if the page ends; `;` stands between calls. An outcome is the five numbers of the answer and how many words were handed out;
these words; and the carry that the call leaves (the five numbers, `holds`, `form`, `stopped`, and `held` up to its last entry that is not
0), with `/` between the three and `;` behind. The first number of an answer that is expected is in decimal, everything else in hex.
"""
from __future__ import annotations

import pathlib
import random
import sys
from typing import Iterable, Iterator, NamedTuple, Sequence, Union

sys.dont_write_bytecode = True
import make_text_vectors as texts
import model

CRATE = texts.ROOT / "crates" / "vectors_serial"
SEED = 2

# What the program has room for.
MOST_FILE = texts.MOST_FILE
MOST_ROOM = 256
MOST_PIECE = 256
MOST_ANSWER = 16_384

LEAST_CALLS = 20_000
LIMIT = model.MOST_ENTRIES
Pieces = Sequence[bytes]


class Call(NamedTuple):
    piece: bytes
    room: int
    ended: bool


class Vector(NamedTuple):
    """The form of a page that is made fresh, or a carry; and the calls."""

    start: Union[int, model.Carry]
    calls: tuple[Call, ...]


# Pages.


def elements(form: int) -> list[bytes]:
    """An element of each kind, and of a sequence the shortest, the longest and what a value can be."""
    found = [b"A", b" ", *map(bytes, ([0x0A], texts.supplementary(form, 0xA3), texts.supplementary(form, 0xFB)))]
    found += [bytes((*texts.supplementary(form, mark), follower)) for mark, follower in [(0xC2, 0x65), (0xC1, 0x20), (0xCF, 0x5A)]]
    if form == 3:
        found += map(bytes.fromhex, ["23", "24", "A4", "8B", "CC41", "CCA3", "CCC265", "CCC820"])
        found += map(bytes.fromhex, ["9B6D", "9B346D", "9B204C", "9B303B6D", "9B3B3B3B3B3B3B3B6D", "9B3939393B3030372F7E"])
        found += [bytes(texts.octets_of(texts.LONG_SEQUENCES[0])), bytes(texts.octets_of(texts.LONG_SEQUENCES[2]))]
        found += map(bytes.fromhex, ["9BB4ED", "9BA1CC", "9BB0BB6D", texts.LONG_UPPER[2]])
    return found


def pairs(form: int) -> Iterator[bytes]:
    """Each mark's first follower and its last, and SPACE."""
    for mark, listed in model.MARKS.items():
        for follower in (listed.letters[0], listed.letters[-1], " "):
            yield bytes((*texts.supplementary(form, mark), ord(follower)))


def pages(form: int, chance: random.Random) -> Iterator[bytes]:
    """Every kind of element between two others, one page of them all, what is counted by hand as respelled, and some drawn by chance."""
    kinds = elements(form)
    for element in kinds:
        yield b"A" + element + kinds[-1][:2] if element != kinds[-1] else b"A" + element + b"B"
    yield b"".join(kinds)
    yield from (bytes.fromhex(text) for each, text, _ in model.RESPELLED if each == form and text)
    for size in (1, 2, 3, 16, 17, 24, 40):
        yield bytes(texts.some_text(form, size, chance))


def long_pages(form: int, chance: random.Random) -> Iterator[bytes]:
    """Pages whose pieces are long enough to be read by the loops of a whole text, too."""
    for size in (64, 100, 128):
        yield bytes(texts.some_text(form, size, chance))


def faults(form: int, chance: random.Random) -> Iterator[bytes]:
    """Each refused element after others, at the end and with others behind; and every element cut off."""
    for refused in map(bytes, texts.refused_octets(form)):
        before = bytes(texts.some_text(form, chance.randrange(0, 5), chance))
        yield before + refused
        yield before + refused + b"A" + bytes(texts.some_element(form, chance))
    for element in elements(form):
        for size in {1, len(element) // 2, len(element) - 1} - {0}:
            yield b"A" + element[:size]


# Cuts.


def in_two(page: bytes) -> Iterator[Pieces]:
    for at in range(len(page) + 1):
        yield [page[:at], page[at:]]


def by(page: bytes, size: int) -> Pieces:
    return [page[at : at + size] for at in range(0, len(page), size)]


def by_chance(page: bytes, chance: random.Random) -> Pieces:
    """Empty pieces too."""
    ends = sorted(chance.randrange(len(page) + 1) for _ in range(chance.randrange(1, 6)))
    return [page[start:end] for start, end in zip([0, *ends], [*ends, len(page)])]


# Calls. The end is told with the last piece, or by an empty one behind it.


def told(pieces: Pieces, room: int = MOST_ROOM) -> tuple[Call, ...]:
    return tuple(Call(piece, room, at == len(pieces) - 1) for at, piece in enumerate(pieces))


def told_after(pieces: Pieces, room: int = MOST_ROOM) -> tuple[Call, ...]:
    return (*(Call(piece, room, False) for piece in pieces), Call(b"", room, True))


AFTER = (Call(b"", 0, False), Call(b"A", MOST_ROOM, False), Call(b"\x1B", 0, True), Call(b"", MOST_ROOM, True))


def short_before_exact(form: int, calls: Iterable[Call]) -> tuple[Call, ...]:
    """Each call with no room, with one word too little, and then with just enough."""
    page = model.Page(form)
    made: list[Call] = []
    for call in calls:
        page, _, words = model.fed(page, call.piece, call.ended, MOST_ROOM)
        needed = len(words)
        made += [call._replace(room=room) for room in sorted({0, max(0, needed - 1), needed})]
    return tuple(made)


def cut_vectors(form: int) -> Iterator[Vector]:
    chance = random.Random(SEED)
    for page in pages(form, chance):
        if len(page) <= 48:
            yield from (Vector(form, told(pieces)) for pieces in in_two(page))
        yield Vector(form, told_after(by(page, 1)))
        yield Vector(form, told(by(page, 3)))
        yield Vector(form, told(by_chance(page, chance)))
    for element in pairs(form):
        yield Vector(form, told_after(by(b"A" + element + b"B", 1)))
    for page in long_pages(form, chance):
        yield from (Vector(form, told_after(by(page, size))) for size in (1, 3, 15, 16, 17, 40))
        yield from (Vector(form, told([page[:at], page[at:]])) for at in (1, 15, 16, 17, 39, 40, 41, len(page) - 1))
    yield from (Vector(form, (*calls, *AFTER)) for calls in [(), told([b""]), told_after([b"A"]), told([b"AB", b"C"])])


def octet_vectors(form: int) -> Iterator[Vector]:
    """Every octet as a piece of its own, at the start and behind what an element begins with."""
    for opened in [b"", *openings(form)[:7]]:
        for octet in range(256):
            yield Vector(form, told_after([opened, bytes([octet])])[: 2 if opened else 3])


def fault_vectors(form: int) -> Iterator[Vector]:
    chance = random.Random(SEED + form)
    for page in faults(form, chance):
        cuts = list(in_two(page)) if len(page) <= 12 else [[page[:at], page[at:]] for at in (0, 1, len(page) - 1, len(page))]
        yield from (Vector(form, told(pieces)) for pieces in cuts)
        yield Vector(form, (*told_after(by(page, 1)), AFTER[1]))
        yield Vector(form, (*told(by(page, 3)), chance.choice(AFTER)))


def room_vectors(form: int) -> Iterator[Vector]:
    chance = random.Random(SEED + 10 * form)
    for page in [*pages(form, chance), *faults(form, chance)]:
        yield Vector(form, short_before_exact(form, told([page])))
        yield Vector(form, short_before_exact(form, told(by_chance(page, chance))))
    for page in long_pages(form, chance):
        yield Vector(form, short_before_exact(form, told_after(by(page, chance.choice([5, 20, 50])))))


def form_vectors() -> Iterator[Vector]:
    """No form, when made fresh and when fed all the same."""
    for form in (*texts.WRONG_FORMS, *model.FORMS):
        yield Vector(form, ())
        yield Vector(form, (Call(b"", 0, False), Call(b"A", 1, True), Call(b"A" * 40, 0, False)))


def upper_vectors() -> Iterator[Vector]:
    """Sequences in the upper half, cut at each octet, and with some of their octets there, octet by octet and cut by chance; refused ones
    too. Every octet as a piece of its own behind such octets, behind 39 of them too."""
    chance = random.Random(SEED)
    sequences = [tuple(element) for element in elements(3) if element[0] == model.SEQUENCE_START]
    sequences += [octets for octets in texts.refused_octets(3) if octets[0] == model.SEQUENCE_START]
    for octets in sequences:
        upper, mixed = (b"A" + bytes(other) + b"B" for other in (model.raised(octets), model.some_raised(octets, chance)))
        yield from (Vector(3, told(pieces)) for pieces in in_two(upper))
        yield from (Vector(3, told_after(by(page, 1))) for page in (upper, mixed))
        yield Vector(3, told(by_chance(mixed, chance)))
    for text in (bytes.fromhex(text) for form, text, _ in model.UPPER if form == 3):
        yield from (Vector(3, told_after(pieces)) for pieces in in_two(text))
    for opened in (b"\x9B\xB4", openings(3)[-1]):
        yield from (Vector(3, told_after([opened, bytes([octet])])[:2]) for octet in range(256))


# Carries that are given outright.


def going(form: int, elements: int, taken: int, words: int, opened: bytes = b"", past: int = 0, respelled: int = 0) -> model.Carry:
    held = (*opened, *[past] * (model.MOST_HELD - len(opened)))
    return model.Carry(model.Answer(0, elements, taken, words), respelled, len(opened), form, 0, held)


def stopped(form: int, *numbers: int) -> model.Carry:
    return model.Carry(model.Answer(*numbers), form=form, stopped=1)


def openings(form: int) -> list[bytes]:
    """Octets that an element begins with and that are none by themselves."""
    found = [b"\x19", b"\x19\x42"] if form == 2 else [b"\xC2"]
    if form == 3:
        found += map(bytes.fromhex, ["CC", "CCC2", "9B", "9B393939", "9B20", "9B" + "30" * 38, "9B3B", "9B" + "30" * 37 + "2F"])
        found += map(bytes.fromhex, ["9BB9B9B9", "9B" + "B0" * 37 + "AF"])
    return found


def going_carries(form: int) -> Iterator[model.Carry]:
    """Sums that are just kept, and each broken by one; and a field with what no call leaves there."""
    for opened in [b"", *openings(form)]:
        n = len(opened)
        kept = [(0, n, 0), (1, n + 1, 1), (0, n + 1, 1), (1, n + 1, 0), (5, n + 9, 9), (LIMIT - n, LIMIT, LIMIT - n)]
        broken = [(1, n, 0), (0, n, 1), (2, n + 1, 1), (1, n + 1, 2), (0, max(n, 1) - 1, 0)]
        broken += [(LIMIT - n + 1, LIMIT, 0), (0, LIMIT, LIMIT - n + 1)]
        near = [(0, taken, 0) for taken in (LIMIT - 2, LIMIT - 1, LIMIT, LIMIT + 1, 2**32 - 1)]
        yield from (going(form, *sums, opened) for sums in [*kept, *broken, *near])
        # what stands past the open element is not looked at, and gone after the next call
        yield going(form, 1, n + 1, 1, opened, 0x41)
        yield going(form, 1, n + 1, 1, opened, 0xFF)
    base = going(form, 3, 9, 3, openings(form)[0])
    yield from (base._replace(holds=holds) for holds in (0, len(openings(form)[0]) + 1, 9, 10))
    wide = going(form, 3, 90, 3, b"\x9B" + b"0" * 38)
    yield from (wide._replace(holds=holds) for holds in (0, 1, 2, 38, 39, 40, 41, 90, 91, 256, 2**32 - 1))
    yield from (base._replace(stopped=stopped) for stopped in (1, 2, 256, 2**32 - 1))
    yield from (base._replace(form=wrong) for wrong in texts.WRONG_FORMS)
    yield from (base._replace(answer=base.answer._replace(number=number)) for number in (*range(1, 17), 255, 2**32 - 1))


def no_openings(form: int) -> Iterator[model.Carry]:
    """Held octets that are no open element: a whole one, two, or a refused one, behind others or not."""
    opened = openings(form)[0]
    for octets in [*elements(form), *map(bytes, texts.refused_octets(form)), b"A" + opened, opened + b"eA"]:
        if len(octets) <= model.MOST_HELD:
            yield going(form, 3, 90, 3, octets)


def stopped_carries(form: int) -> Iterator[model.Carry]:
    """Each number, with sums that are just kept, and each broken by one."""
    for number in (*range(0, 17), 255, 2**32 - 1):
        yield stopped(form, number, 0, 0, 0)
        yield from (stopped(form, number, *sums) for sums in [(1, 2, 3), (2, 2, 2), (3, 2, 3), (1, 3, 2), (1, 0, 0), (0, 1, 0), (0, 0, 1)])
    for number in (0, 1, 4, 8):
        yield from (stopped(form, number, *sums) for sums in [(5, LIMIT, LIMIT), (5, LIMIT + 1, 5), (5, LIMIT - 1, LIMIT + 1)])
    for base in (stopped(form, 0, 2, 3, 3), stopped(form, 3, 1, 2, 3), stopped(form, 12, 0, 0, 0)):
        yield from (base._replace(**{field: value}) for field, value in [("holds", 1), ("holds", 40), ("stopped", 2)])
        yield from (base._replace(form=wrong) for wrong in texts.WRONG_FORMS)
        yield base._replace(held=(0xC2,) * model.MOST_HELD)


def respelled_carries(form: int) -> Iterator[model.Carry]:
    """As many elements that were not canonical as elements, and one more; beside a refusal none, and one."""
    opened = openings(form)[0]
    for elements in (0, 1, 3, 9):
        each = sorted({0, 1, max(1, elements) - 1, elements, elements + 1, 2**32 - 1})
        bases = [going(form, elements, elements + 8, 8), going(form, elements, elements + len(opened), 0, opened)]
        bases += [stopped(form, 0, elements, elements, elements), stopped(form, 0, elements, LIMIT, 0)]
        bases += [stopped(form, number, elements, elements + 2, elements + 3) for number in range(1, 9)]
        yield from (base._replace(respelled=respelled) for base in bases for respelled in each)
    yield from (stopped(form, number, 0, 0, 0)._replace(respelled=respelled) for number in (9, 10, 11, 12, 13) for respelled in (0, 1))


def respelled_vectors() -> Iterator[Vector]:
    """These carries; and a number that goes on from a carry's, is repeated after the end, and is 0 at a fault and with short room."""
    for form in model.FORMS:
        for carry in respelled_carries(form):
            yield Vector(carry, (Call(b"A", 1, False), Call(b"", 0, True), Call(b"", 0, False)))
        for element in map(bytes, texts.respellable(form)):
            opened = element[:1] if len(element) > 1 else b""
            for carry in (going(form, 5, 9, 5, respelled=3), going(form, 7, 8, 7, opened, respelled=7)):
                rest, fault = element[carry.holds :], element + b"\x1B"
                yield Vector(carry, (Call(rest, 0, False), Call(rest + element[:1], 9, False), Call(element[1:], 9, True), AFTER[1]))
                yield Vector(carry, (Call(rest + b"A", 9, False), Call(fault, 0, False), Call(fault, 9, False), AFTER[1]))


def carry_vectors() -> Iterator[Vector]:
    yield Vector(model.Carry(), AFTER)
    for form in model.FORMS:
        for carry in (*going_carries(form), *no_openings(form)):
            yield Vector(carry, (Call(b"", 0, False), Call(b"", 0, True), Call(b"A", 1, True)))
            yield Vector(carry, (Call(b"e", 0, False), Call(b"e", 9, False), Call(b"A\x1B", 1, False), Call(b"", 0, True)))
        for carry in stopped_carries(form):
            yield Vector(carry, (Call(b"A", 1, False), Call(b"", 0, True)))


# Lines.


def held_text(held: Sequence[int]) -> str:
    return bytes(held).rstrip(b"\0").hex().upper()


def numbers_text(numbers: Iterable[int]) -> str:
    return " ".join(texts.place_text(number) for number in numbers)


def carry_text(carry: model.Carry) -> str:
    fields = numbers_text([carry.respelled, carry.holds, carry.form, carry.stopped])
    return f"{number_text(carry.answer)} {fields} {held_text(carry.held)}"


def number_text(answer: Union[model.Answer, model.ReadAnswer]) -> str:
    """The four numbers, or five; `**` for a first one over two digits."""
    first = f"{answer.number:02}" if answer.number < 100 else "**"
    return f"{first} {numbers_text(answer[1:])}"


def outcome_text(fed: model.Fed) -> str:
    return f"{number_text(fed.answer)} {texts.place_text(len(fed.words))}/{texts.words_text(fed.words)}/{carry_text(fed.carry)};"


def start_text(start: Union[int, model.Carry]) -> str:
    if isinstance(start, int):
        return f"{start:X}"
    fields = [*start.answer, start.respelled, start.holds, start.form, start.stopped]
    return ",".join([held_text(start.held), *(f"{field:X}" for field in fields)])


def call_text(call: Call) -> str:
    assert len(call.piece) <= MOST_PIECE and call.room <= MOST_ROOM
    return f"{texts.octets_text(call.piece)} {call.room:X} {call.ended:X}"


def outcomes(vector: Vector) -> Iterator[model.Fed]:
    """What each call answers. Of a page that was made fresh, by all its octets since then; and a carry of it answers the same."""
    if isinstance(vector.start, int):
        made = model.fresh(vector.start)
        yield made
        carry = made.carry
        page = model.page_of(carry)
    else:
        carry, page = vector.start, None
    for call in vector.calls:
        answered = model.feed(carry, call.piece, call.ended, call.room)
        if page:
            page, answer, words = model.fed(page, call.piece, call.ended, call.room)
            assert answered == model.Fed(model.carry_of(page), answer, words)
        yield answered
        carry = answered.carry


def line(vector: Vector) -> str:
    answer = "".join(map(outcome_text, outcomes(vector)))
    assert len(answer) <= MOST_ANSWER, len(answer)
    return f"{start_text(vector.start)},{';'.join(map(call_text, vector.calls))},{answer}"


def files() -> dict[str, list[Vector]]:
    """The vectors of each file, by its name, each once."""
    found: dict[str, Iterable[Vector]] = {f"cut_{form}.csv": cut_vectors(form) for form in model.FORMS}
    found.update({f"octet_{form}.csv": octet_vectors(form) for form in model.FORMS})
    found.update({f"fault_{form}.csv": fault_vectors(form) for form in model.FORMS})
    found.update({f"room_{form}.csv": room_vectors(form) for form in model.FORMS})
    found["upper.csv"] = upper_vectors()
    found["form.csv"] = form_vectors()
    found["carry.csv"] = carry_vectors()
    found["respelled.csv"] = respelled_vectors()
    return {name: list(dict.fromkeys(vectors)) for name, vectors in found.items()}


CARRY_HEADING = "held,number,element,place,count,respelled,holds,form,stopped,calls,answer"


def heading(name: str) -> str:
    return CARRY_HEADING if name in ("carry.csv", "respelled.csv") else "form,calls,answer"


def written() -> dict[pathlib.Path, str]:
    """The text of each file that is written, by its path."""
    found = {}
    report = []
    calls = 0
    for name, vectors in files().items():
        text = "".join(each + "\n" for each in [heading(name), *map(line, vectors)])
        assert len(text) < MOST_FILE, (name, len(text))
        found[CRATE / "data" / name] = text
        report.append(f"{name}: {len(vectors)} vectors, 0 wrong\n")
        calls += sum(len(vector.calls) for vector in vectors)
    assert calls >= LEAST_CALLS, calls
    found[CRATE / "stdout"] = "".join(report)
    return found


def main(arguments: list[str]) -> int:
    if arguments not in ([], ["--check"]):
        print(__doc__, file=sys.stderr)
        return 2
    if arguments == ["--check"]:
        return 0 if all([texts.is_written(path, text) for path, text in written().items()]) else 1
    for path, text in written().items():
        texts.write(path, text)
    return 0


if __name__ == "__main__":
    sys.exit(main(sys.argv[1:]))
