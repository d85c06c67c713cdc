#!/usr/bin/env python3
"""Writes the vectors of the program crates/vectors_element, and what it must print.

    make_element_vectors.py            writes the files
    make_element_vectors.py --check    only compares them, with exit status 1 where one is not as it would be written

All of it comes from the model of the documents (model.py), never from our own code. A file has a heading and a line a vector: octets
or words, a place, and the answer there. An answer is `00E9 > 02`, an element's words and the place after it; `!03 00 01`, a
refusal's number in decimal, place and count; or `.`, none is left. Where octets are read, 00 follows the place if they are the element's
canonical spelling, and 01 if they are not. Where words are asked, the element's spelling in each form follows, `-` where the form does not
hold it. Everything else is in hex.
"""
from __future__ import annotations

import pathlib
import random
import sys
from typing import Callable, Iterable, Iterator, NamedTuple, Sequence, Tuple

sys.dont_write_bytecode = True
import model

ROOT = pathlib.Path(__file__).resolve().parent.parent
CRATE = ROOT / "crates" / "vectors_element"
SEED = 1

# What the program has room for.
MOST_FILE = 400_000
MOST_OCTETS = 64
MOST_WORDS = 16
MOST_ANSWER = 256

FAR = 0xFFFFFFFF  # a place past the end of any text
Octets = Tuple[int, ...]
Words = Tuple[int, ...]


class Reading(NamedTuple):
    """Octets, and the place to read at."""

    octets: Octets
    at: int = 0


class Wording(NamedTuple):
    """Words, and the place to take an element from."""

    words: Words
    at: int = 0


def octets_of(text: str) -> Octets:
    return tuple(bytes.fromhex(text))


# What is read. Each function gives octets that begin an element or are refused.


def singles() -> Iterator[Octets]:
    """Every octet alone."""
    for octet in range(256):
        yield (octet,)


BEGINNERS = [*model.MARKS, model.SS2, model.UNDERLINE, model.SEQUENCE_START]


def pairs() -> Iterator[Octets]:
    """Each mark, SS2, CC and 9B before every octet."""
    for first in BEGINNERS:
        for second in range(256):
            yield first, second


def triples(form: int) -> Iterator[Octets]:
    """SS2 and each mark, or CC and each mark, before every octet; and 9B, an intermediate and every octet."""
    if form == 2:
        begins = [(model.SS2, mark - model.TOP_BIT) for mark in model.MARKS]
    elif form == 3:
        begins = [*((model.UNDERLINE, mark) for mark in model.MARKS), (model.SEQUENCE_START, 0x20), (model.SEQUENCE_START, 0x39)]
    else:
        begins = []
    for begin in begins:
        for octet in range(256):
            yield *begin, octet


def spellings(form: int) -> Iterator[Octets]:
    """The canonical spelling of every element that is not a sequence."""
    characters = model.repertoire(form)
    underlined_too = [model.UNDERLINED_WORD + character for character in characters]
    for word in [*characters, *underlined_too, *(model.CONTROL_WORD + octet for octet in model.CONTROLS[form])]:
        spelling = model.spell_element(form, [word])
        if spelling is not None:
            yield tuple(spelling)


# Sequences, as text: 9B stands before each.


def sequence(parameters: str, rest: str = "m") -> Octets:
    return (model.SEQUENCE_START, *(parameters + rest).encode("ascii"))


def value_sequences() -> Iterator[Octets]:
    """Values at the limit of 999, one past it, and with zeros before them, as the first, a middle and the last value."""
    values = ["", "0", "00", "000", "1", "9", "10", "99", "100", "998", "999", "1000", "1001", "1999", "9990", "9999"]
    values += ["00" + value for value in values if value.strip("0")]
    for value in values:
        for parameters in (value, f"{value};", f";{value}", f"7;{value};8", f"{value};{value}"):
            yield sequence(parameters)


def counted_sequences() -> Iterator[Octets]:
    """One to ten values, all empty, all 0, all 7, and numbered; with an intermediate too."""
    for count in range(1, 11):
        numbered = ";".join(str(100 + k) for k in range(count))
        for parameters in (";" * (count - 1), ";".join("0" * count), ";".join("7" * count), numbered):
            for rest in ("m", " L", "/~"):
                yield sequence(parameters, rest)


# Ways to spell a value: the empty one, without zeros before it, explicit zeros, and zeros before it.
VALUE_SPELLINGS = ["", "5", "50", "500", "0", "00", "000", "05", "005", "050", "0500"]


def spelt_sequences() -> Iterator[Octets]:
    """Each number of values with each of them in turn spelt in each way, among canonical ones and among ones that are not."""
    for count in range(1, model.MOST_VALUES + 1):
        for at in range(count):
            for value in VALUE_SPELLINGS:
                for other in ("", "7", "0"):
                    values = ";".join([other] * at + [value] + [other] * (count - at - 1))
                    yield from (sequence(values, rest) for rest in ("m", " L"))


def filled_parameters(size: int) -> Iterator[str]:
    """Parameters of so many octets that stay within the values' limits: zeros before one value, and zeros spread over eight."""
    yield "0" * (size - 1) + "5"
    each = (size - 7) // 8
    if each >= 1:
        spread = ";".join(["0" * each] * 7) + ";"
        yield spread + "0" * (size - len(spread) - 1) + "3"


def long_sequences() -> Iterator[Octets]:
    """Sequences of 38 to 42 octets: the final at the 39th, 40th and 41st, and each other kind of octet at the 40th.

    The 40th is also one that 6 refuses, the digit that passes 999 or the 3B that opens a ninth value, so that two refusals, or
    three, meet at one octet.
    """
    for size in range(35, 42):
        for parameters in filled_parameters(size):
            for rest in ("m", " m", "", " ", "/", "0m", ";m", "  m", ":", "\x7f", "\x1b"):
                yield sequence(parameters, rest)
    for size in range(36, 41):
        for last in ("999", "99"):
            ends = "0" * (size - len(last)) + last
            nine = "0" * (size - 7) + ";" * 7
            for rest in ("9", "9m", "0m", ";", ":", "m", " ", "  ", "!m", " :", " 9", " ;"):
                yield sequence(ends, rest)
                yield sequence(nine, rest)


# Points of a sequence: behind 9B, digits, a 3B, eight values, a full value and an intermediate, and behind two of these, so that 6 goes
# before 7; and where only the 39th or the 40th octet is to come.
POINTS = ["", "1", "12;", ";;;;;;;", ";;;;;;;9", "999", "1;999", ";;;;;;;999", " ", "/", "12;3 ", ";;;;;;; ", "1;999/"]
POINTS += ["0" * 37, "0" * 38, "0" * 37 + "!", "0" * 35 + "999", "0" * 31 + ";" * 7]


def at_points(half: Callable[[Octets], Octets] = lambda octets: octets) -> Iterator[Octets]:
    """Every octet at each point of a sequence, what stands before it as the half has it; behind some of them a final."""
    for before in (half(sequence(parameters, "")) for parameters in POINTS):
        for octet in range(256):
            yield (*before, octet)
            if octet % 16 == 1:
                yield (*before, octet, 0x6D)


def mixed_points(chance: random.Random) -> Iterator[Octets]:
    return at_points(lambda octets: model.some_raised(octets, chance))


def finals() -> Iterator[Octets]:
    """Each final with each kind of intermediate, and each intermediate with the first and last final."""
    for final in model.FINALS:
        for middle in ("4", "4 ", "4/"):
            yield (*sequence(middle, ""), final)
    for intermediate in model.INTERMEDIATES:
        for final in (model.FINALS[0], model.FINALS[-1]):
            yield (*sequence("4;5", ""), intermediate, final)


def random_sequences(chance: random.Random) -> Iterator[Octets]:
    """Sequences of digits, 3B and now and then something else."""
    for _ in range(600):
        size = chance.randrange(1, 44)
        octets = [chance.choice([0x30, 0x30, 0x30, 0x30, 0x31, 0x39, 0x3B]) for _ in range(size)]
        if chance.randrange(3) == 0:
            octets[chance.randrange(size)] = chance.choice([0x20, 0x2F, 0x3A, 0x3C, 0x40, 0x7E, 0x7F, 0x9B])
        yield (model.SEQUENCE_START, *octets, chance.choice([0x40, 0x6D, 0x7E, 0x20, 0x30]))


# Sequences in the upper half. Document 02, No. 6: "after 9B they count as 21 to 7E for every rule of 01".


def upper_sequences() -> Iterator[Octets]:
    """Sequences with every octet raised but the SPACE."""
    yield from map(model.raised, [*value_sequences(), *counted_sequences(), *long_sequences(), *finals()])


def mixed_sequences(chance: random.Random) -> Iterator[Octets]:
    """Sequences with some octets raised; among them some spellings of values, canonical and not."""
    lower = [*value_sequences(), *counted_sequences(), *long_sequences(), *finals(), *random_sequences(chance)]
    yield from (model.some_raised(octets, chance) for octets in [*lower, *chance.sample([*spelt_sequences()], 600)])


def sequences(chance: random.Random) -> Iterator[Octets]:
    yield from value_sequences()
    yield from counted_sequences()
    yield from long_sequences()
    yield from finals()
    yield from random_sequences(chance)


def cut_off() -> Iterator[Octets]:
    """Every kind of element, cut off after each of its octets."""
    elements = ["C265", "C120", "194265", "195F", "1951", "CC41", "CCC265", "CCA1", "9B343B35206D", "9B6D", "9B20313B6D"]
    elements += ["9BB4BBB5A1ED", "9BB43B3520ED", "9BED"]
    for octets in (octets_of(text) for text in elements):
        for size in range(len(octets) + 1):
            yield octets[:size]
    for longest in (sequence("0" * 36 + "1", " m"), model.raised(sequence("0" * 36 + "1", "!m"))):
        for size in range(len(longest) + 1):
            yield longest[:size]


def random_octets(form: int, chance: random.Random) -> Iterator[Octets]:
    """Octets of which many begin or carry on an element of the form."""
    carrying = octets_of("20 30 39 3B 41 45 55 65 75 42 48 4F 6D 0A 8C 1B A4 E5")
    beginning = [model.SS2] * 8 + [mark - model.TOP_BIT for mark in model.MARKS] if form == 2 else BEGINNERS
    for _ in range(800):
        size = chance.randrange(1, 9)
        yield tuple(chance.choice([*beginning, *carrying]) if chance.randrange(3) else chance.randrange(256) for _ in range(size))


# Texts to read at a place in the middle, at the end and past it.
MIDDLES = "41 41C265 C2194265 C2C2 41194265CC41 0ACCC26541 419B343B6D0D 9B349B346D CCCC41 1919426541 E0A4".split()
MIDDLES += "C12060C320 19412060194420 CC2323A6CCA6CC24 9B306D9B6D9B3B30316D9B30206D".split()


def places(length: int) -> list[int]:
    """Each place of so many entries, the end, and past it."""
    return [*range(length + 3), 0x80, 0xFF, 0x100, 0x8000, 0x10000, FAR]


def placed(octets: Octets) -> Iterator[Reading]:
    """The octets asked at each place, at the end, and past it."""
    for at in places(len(octets)):
        yield Reading(octets, at)


def in_the_middle(octets: Octets) -> Iterator[Reading]:
    """The octets after others, and with others after them."""
    yield Reading((0x41, 0xC2, *octets), 2)
    yield Reading((*octets, 0x65, 0x6D))


def readings(form: int) -> Iterator[Reading]:
    for octets in [*singles(), *pairs(), *triples(form), *spellings(form), *cut_off(), *random_octets(form, random.Random(SEED))]:
        yield Reading(octets)
    for text in ["", *MIDDLES]:
        yield from placed(octets_of(text))
    for octets in [*singles(), *cut_off()]:
        yield from in_the_middle(octets)


def sequence_readings() -> Iterator[Reading]:
    for octets in sequences(random.Random(SEED)):
        yield Reading(octets)
    for octets in [*value_sequences(), *long_sequences()]:
        yield from in_the_middle(octets)


# Words.


def code_points() -> Iterator[Wording]:
    """Every word up to U+3000."""
    for word in range(0x3001):
        yield Wording((word,))


def near(number: int, reach: int = 2) -> range:
    return range(max(0, number - reach), min(number + reach, 0xFFFFFFFF) + 1)


def powers() -> Iterator[Wording]:
    """Words around each power of two, around the last code point and at the end; and with values after them."""
    for number in (*(2**k for k in range(33)), 0x110000, 0xD800, 0xE000, 2**24 + 2**25, 2**24 + 2**26, 2**25 + 2**26):
        for word in near(number):
            yield Wording((word,))
            yield Wording((word, 0, 1, 2))


def underlined() -> Iterator[Wording]:
    """Characters underlined: each that a form has, and each up to U+017F."""
    characters = {*range(0x180), *(c for form in model.FORMS for c in model.repertoire(form)), 0x0138, 0x03A9, 0x2015, 0x110000}
    for character in sorted(characters):
        yield Wording((model.UNDERLINED_WORD + character,))


def controls() -> Iterator[Wording]:
    """Controls: each octet, and past them."""
    for octet in [*range(0x102), 0x10A, 0x1000A, 2**24 + 0x0A]:
        yield Wording((model.CONTROL_WORD + octet,))


def head(intermediate: int, final: int, values: int) -> int:
    return (model.SEQUENCE_WORD + 65536 * intermediate + 256 * final + values) % 2**32


def heads() -> Iterator[Wording]:
    """Heads with each intermediate, final and number of values, the values all there."""
    for intermediate in range(256):
        yield Wording((head(intermediate, 0x6D, 2), 1, 2))
        yield Wording((head(intermediate, 0x3F, 2), 1, 2))
    for final in range(256):
        for intermediate in (0, 0x20, 0x2F, 0x30):
            yield Wording((head(intermediate, final, 1), 4))
    for values in range(256):
        for intermediate in (0, 0x2F):
            yield Wording((head(intermediate, 0x7E, values), *range(1, 13)))
    for intermediate in (0x100, 0x120, 0x12F, 0x400, 0x800, 0xFFFF - 0x400):
        yield Wording((head(intermediate, 0x6D, 1), 4))


def value_words() -> Iterator[Wording]:
    """Each number of values with each value in turn at its limit and past it, and cut off after each."""
    beyond = [0, 9, 10, 99, 100, 999, 1000, 1001, 0xFFFF, 0x10000, 2**24, 2**26, 0xFFFFFFFF]
    for count in range(1, 9):
        values = list(range(11, 11 + count))
        for k in range(count):
            for value in beyond:
                yield Wording((head(0, 0x6D, count), *values[:k], value, *values[k + 1 :]))
        for size in range(count + 1):
            for intermediate in (0, 0x20):
                yield Wording((head(intermediate, 0x40, count), *[999] * size))
                yield Wording((head(intermediate, 0x40, count), *[0] * size))
                yield Wording((head(intermediate, 0x40, count), *[1000] * size))
        # One value too many is the next element's word.
        yield Wording((head(0, 0x6D, count), *values, 1000))


def random_heads(chance: random.Random) -> Iterator[Wording]:
    """Heads of which many have a fault, and values of which some are past the limit."""
    for _ in range(500):
        intermediate = chance.choice([0, 0x20, 0x2F, 0x30, 0x1F, chance.randrange(256)])
        final = chance.choice([0x40, 0x7E, 0x3F, 0x7F, chance.randrange(256)])
        count = chance.randrange(10)
        size = chance.choice([count, count, 8])
        values = [chance.choice([0, 1, 9, 10, 99, 100, 999, chance.randrange(1010)]) for _ in range(size)]
        yield Wording((head(intermediate, final, count), *values))


PAIR = head(0, 0x6D, 2)  # the head of a sequence of two values

# Words to take an element from at a place in the middle, at the end and past it.
MIDDLE_WORDS: list[Words] = [
    (),
    (0x41,),
    (0x41, 0xE9),
    (0x41, PAIR, 1, 2, 0x41),
    (PAIR, PAIR, 1, 2),
    (0x41, PAIR, 1),
    (1000, PAIR, 0, 1000),
    (2**27, 0x41),
]


def placed_words(words: Words) -> Iterator[Wording]:
    """The words asked at each place, at the end, and past it."""
    for at in places(len(words)):
        yield Wording(words, at)


def wordings() -> Iterator[Wording]:
    yield from powers()
    yield from underlined()
    yield from controls()
    yield from heads()
    yield from value_words()
    yield from random_heads(random.Random(SEED))
    for words in MIDDLE_WORDS:
        yield from placed_words(words)


# Lines.


def octets_text(octets: Iterable[int]) -> str:
    return "".join(f"{octet:02X}" for octet in octets)


def words_text(words: Iterable[int]) -> str:
    """Each in four digits, or in eight where four do not hold it."""
    return " ".join(f"{word:04X}" if word < 0x10000 else f"{word:08X}" for word in words)


def place_text(place: int) -> str:
    """In two digits where two hold it. An answer's places all do."""
    return f"{place:02X}"


def element_text(words: Sequence[int], after: int) -> str:
    return f"{words_text(words)} > {place_text(after)}"


def step_text(step: model.Step) -> str:
    if step[0] == "element":
        _, words, after, canonical = step
        return f"{element_text(words, after)} {place_text(not canonical)}"
    if step[0] == "refused":
        return f"!{step[1]:02} {place_text(step[2])} {place_text(step[3])}"
    return "."


def reading_line(form: int, reading: Reading) -> str:
    assert len(reading.octets) <= MOST_OCTETS
    answer = step_text(model.read_element(form, reading.octets, reading.at))
    return f"{octets_text(reading.octets)},{place_text(reading.at)},{answer}"


def spelling_text(form: int, words: Sequence[int]) -> str:
    spelling = model.spell_element(form, words)
    return "-" if spelling is None else octets_text(spelling)


def wording_text(words: Sequence[int], at: int) -> str:
    """10: "words that are no element or are cut off", with the word as the place and 0 as the count."""
    step = model.element_of_words(words, at)
    if step[0] == "none":
        return step_text(model.refused_at(10, at, 0))
    if step[0] == "end":
        return step_text(model.END)
    _, element, after = step
    return " ".join([element_text(element, after), *(spelling_text(form, element) for form in model.FORMS)])


def wording_line(wording: Wording) -> str:
    assert len(wording.words) <= MOST_WORDS
    return f"{words_text(wording.words)},{place_text(wording.at)},{wording_text(*wording)}"


def unlike(lines: Iterable[str]) -> list[str]:
    """The lines in their order, each once."""
    return list(dict.fromkeys(lines))


def files() -> dict[str, list[str]]:
    """The lines of each file, by its name, without the heading."""
    found = {f"read_{form}.csv": unlike(reading_line(form, reading) for reading in readings(form)) for form in model.FORMS}
    found["sequences.csv"] = unlike(reading_line(3, reading) for reading in sequence_readings())
    found["spelt_sequences.csv"] = unlike(reading_line(3, Reading(octets)) for octets in spelt_sequences())
    found["points.csv"] = unlike(reading_line(3, Reading(octets)) for octets in at_points())
    found["upper_points.csv"] = unlike(reading_line(3, Reading(octets)) for octets in at_points(model.raised))
    found["mixed_points.csv"] = unlike(reading_line(3, Reading(octets)) for octets in mixed_points(random.Random(SEED)))
    found["upper_sequences.csv"] = unlike(reading_line(3, Reading(octets)) for octets in upper_sequences())
    found["mixed_sequences.csv"] = unlike(reading_line(3, Reading(octets)) for octets in mixed_sequences(random.Random(SEED)))
    found["characters.csv"] = unlike(wording_line(wording) for wording in code_points())
    found["words.csv"] = unlike(wording_line(wording) for wording in wordings())
    return found


def heading(name: str) -> str:
    asked = "words" if name in ("characters.csv", "words.csv") else "octets"
    return f"{asked},place,answer"


def texts() -> dict[pathlib.Path, str]:
    """The text of each file that is written, by its path."""
    found = {}
    report = []
    for name, lines in files().items():
        text = "".join(line + "\n" for line in [heading(name), *lines])
        assert len(text) < MOST_FILE, (name, len(text))
        assert max(len(line.split(",")[2]) for line in lines) <= MOST_ANSWER
        found[CRATE / "data" / name] = text
        report.append(f"{name}: {len(lines)} vectors, 0 wrong\n")
    found[CRATE / "stdout"] = "".join(report)
    return found


def write(path: pathlib.Path, text: str) -> None:
    path.parent.mkdir(parents=True, exist_ok=True)
    path.write_bytes(text.encode("ascii"))


def is_written(path: pathlib.Path, text: str) -> bool:
    """Whether the file has just that text; says so where not."""
    same = path.exists() and path.read_bytes() == text.encode("ascii")
    if not same:
        print(f"{path.relative_to(ROOT)} is not as tests/make_element_vectors.py writes it", file=sys.stderr)
    return same


def main(arguments: list[str]) -> int:
    if arguments not in ([], ["--check"]):
        print(__doc__, file=sys.stderr)
        return 2
    if arguments == ["--check"]:
        return 0 if all([is_written(path, text) for path, text in texts().items()]) else 1
    for path, text in texts().items():
        write(path, text)
    return 0


if __name__ == "__main__":
    sys.exit(main(sys.argv[1:]))
