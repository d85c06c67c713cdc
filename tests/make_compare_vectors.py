#!/usr/bin/env python3
"""Writes the vectors of the program crates/vectors_compare, and what it must print.

    make_compare_vectors.py            writes the files
    make_compare_vectors.py --check    only compares them, with exit status 1 where one is not as it would be written

All of it comes from the model of the documents (model.py), never from our own code. A file has a heading and a line a vector: the form,
the two texts, the eleven numbers of the answer (the first in decimal), and the octets of the part that is handed back. Everything else is
in hex. Each file is drawn from a seed of its own.
"""
from __future__ import annotations

import itertools
import pathlib
import random
import sys
from typing import Callable, Iterable, Iterator, NamedTuple, Sequence, Tuple

sys.dont_write_bytecode = True
import make_text_vectors as texts
import model

CRATE = texts.ROOT / "crates" / "vectors_compare"
SEED = 4

# What the program has room for.
MOST_FILE = texts.MOST_FILE
MOST_OCTETS = 256
MOST_ANSWER = 1024

LEAST_PAIRS = 10_000
Words = Tuple[int, ...]  # of one element
Texts = Tuple[bytes, bytes]


class Pair(NamedTuple):
    form: int
    first: bytes
    second: bytes


# Elements by their words, and every way to spell them.


def meaning(form: int, text: Sequence[int]) -> list[Words]:
    pieces, refusal = model.read_pieces(form, text)
    assert refusal is None, (form, text, refusal)
    return [piece.words for piece in pieces]


def by_words(form: int) -> dict[Words, list[bytes]]:
    """The spellings of each character, underlined or not."""
    found: dict[Words, list[bytes]] = {}
    for spelling in model.every_spelling(form):
        found.setdefault(meaning(form, spelling)[0], []).append(spelling)
    return found


SPELLINGS = {form: by_words(form) for form in model.FORMS}
TWOFOLD = {form: [words for words, spellings in SPELLINGS[form].items() if len(spellings) > 1] for form in model.FORMS}


def value_octets(value: int, chance: random.Random) -> str:
    """A value's digits, now and then with zeros before them; 0 may be none at all."""
    digits = str(value) if value else chance.choice(["", "", "0"])
    return chance.choice(["", "", "0", "00"]) + digits


def some_sequence_spelling(words: Words, chance: random.Random) -> bytes:
    head = model.head_of(words[0])
    values = ";".join(value_octets(value, chance) for value in words[1:])
    intermediate = [head.intermediate] if head.intermediate else []
    octets = bytes((model.SEQUENCE_START, *values.encode("ascii"), *intermediate, head.final))
    return bytes(texts.some_half(octets, chance)) if len(octets) <= model.MOST_OCTETS else canonical(3, [words])


def some_spelling(form: int, words: Words, chance: random.Random) -> bytes:
    if words[0] >= model.SEQUENCE_WORD:
        return some_sequence_spelling(words, chance)
    if words[0] >= model.CONTROL_WORD:
        return bytes(model.spell_control(form, words[0] - model.CONTROL_WORD))
    return chance.choice(SPELLINGS[form][words])


def spelt(form: int, elements: Iterable[Words], chance: random.Random) -> bytes:
    """A text of the elements, each in any of its spellings."""
    return b"".join(some_spelling(form, words, chance) for words in elements)


def canonical(form: int, elements: Iterable[Words]) -> bytes:
    return b"".join(bytes(model.spell_element(form, words)) for words in elements)


def some_element(form: int, chance: random.Random) -> Words:
    """One of any kind, or one that has several spellings."""
    kinds: list[Callable[[], Words]] = [
        lambda: meaning(form, texts.some_element(form, chance))[0],
        lambda: chance.choice(TWOFOLD[form]),
    ]
    if form == 3:
        kinds.append(lambda: meaning(form, texts.some_sequence(form, chance))[0])
    return chance.choice(kinds)()


def some_elements(form: int, count: int, chance: random.Random) -> list[Words]:
    return [some_element(form, chance) for _ in range(count)]


def other_than(form: int, words: Words, chance: random.Random) -> Words:
    while (other := some_element(form, chance)) == words:
        pass
    return other


def elements_of_octets(form: int, size: int, chance: random.Random) -> list[Words]:
    """Elements whose texts have at most so many octets, however they are spelt."""
    found: list[Words] = []
    most = 0
    while most < size:
        found.append(some_element(form, chance))
        most += model.MOST_OCTETS if found[-1][0] >= model.SEQUENCE_WORD else 3
    return found[:-1]


def both_ways(pairs: Iterable[Texts]) -> Iterator[Texts]:
    for first, second in pairs:
        yield first, second
        yield second, first


# Texts that mean the same.

# One sequence in several spellings, without its 9B.
SEQUENCE_SPELLINGS = [
    ["m", "0m", "000m", "0" * 38 + "m"],
    [";m", "0;m", ";0m", "00;000m"],
    ["4m", "04m", "0" * 37 + "4m"],
    [" L", "0 L", "00 L"],
    ["4m", "\xB4\xED", "4\xED", "\xB4m", "04\xED"],
    ["!L", "\xA1L", "!\xCC", "\xA1\xCC"],
    ["1;2m", "\xB1\xBB\xB2\xED", "1\xBB2m", "\xB1;\xB2m", "01\xBB\xB02\xED"],
    ["999;/~", "999;0/~", "0999;00/~"],
    [";;;;;;;@", "0;0;0;0;0;0;0;0@", ";;;;;;;0@", "0;;;;;;;@"],
    ["1;22;333;;5;66;777;8m", "01;022;0333;0;05;066;777;08m", "1;22;333;;5;66;0777;8m"],
]


def sequence(text: str) -> bytes:
    return bytes((model.SEQUENCE_START, *text.encode("latin-1")))


def alike_elements(form: int) -> Iterator[list[bytes]]:
    """The spellings of each element that has several."""
    yield from (SPELLINGS[form][words] for words in TWOFOLD[form])
    if form == 3:
        yield from (list(map(sequence, spellings)) for spellings in SEQUENCE_SPELLINGS)


def respelt(form: int, chance: random.Random) -> Iterator[Texts]:
    """Elements of several spellings, alone and between others; and texts beside themselves, their canonical spelling and another."""
    for spellings in alike_elements(form):
        assert all(meaning(form, spelling) == meaning(form, spellings[0]) for spelling in spellings)
        for one, other in itertools.product(spellings, repeat=2):
            yield one, other
            yield b"A" + one + one + b"B", b"A" + other + one + b"B"
    lists = [some_elements(form, chance.randrange(1, 12), chance) for _ in range(90)]
    lists += [elements_of_octets(form, size, chance) for size in (100, 200, MOST_OCTETS, MOST_OCTETS)]
    for elements in lists:
        spelling = spelt(form, elements, chance)
        yield spelling, spelling
        yield from both_ways([(spelling, canonical(form, elements))])
        yield spelling, spelt(form, elements, chance)


# Texts that do not.


def changes(form: int, elements: list[Words], at: int, chance: random.Random) -> Iterator[list[Words]]:
    """The element at the place changed, dropped, doubled, exchanged with the next, and another one before it."""
    before, words, after = elements[:at], elements[at], elements[at + 1 :]
    yield [*before, other_than(form, words, chance), *after]
    yield [*before, *after]
    yield [*before, words, words, *after]
    yield [*before, *after[:1], words, *after[1:]]
    yield [*before, some_element(form, chance), words, *after]


def changed(form: int, chance: random.Random) -> Iterator[Texts]:
    """At the first element, at the last and at another; the others are respelt."""
    lists = [some_elements(form, chance.randrange(2, 9), chance) for _ in range(36)]
    lists += [elements_of_octets(form, size, chance) for size in (100, 180)]
    for elements in lists:
        for at in sorted({0, chance.randrange(len(elements)), len(elements) - 1}):
            for others in changes(form, elements, at, chance):
                yield spelt(form, elements, chance), spelt(form, others, chance)


def ends(form: int, chance: random.Random) -> Iterator[Texts]:
    """Empty texts; and every beginning of a text beside the whole one, as it is spelt there or otherwise."""
    yield b"", b""
    for element in near_characters(form) + near_sequences(form):
        yield b"", element
        yield element, element + element
    for _ in range(20):
        elements = some_elements(form, chance.randrange(1, 14), chance)
        for count in range(len(elements)):
            yield spelt(form, elements[:count], chance), spelt(form, elements, chance)
        whole = spelt(form, elements, chance)
        yield whole, whole + spelt(form, some_elements(form, chance.randrange(1, 4), chance), chance)


# Elements that are near one another, in form 1's octets; in form 2 after SS2; and those that form 3 has besides.
NEAR = "20 21 23 24 41 45 65 67 6D 5F 0A 0D A1 A3 AB A8 E1 F1 C120 C220 C820 C145 C165 C245 C265 C365 C267 CB63"
NOT_FORM_3 = "5C 60 5E 7E A0 A9 AC"
ONLY_FORM_3 = "A4 A6 08 0C 1A 8B 8C CC20 CC41 CC65 CC23 CCA6 CC24 CCA8 CCA4 CCC120 CCC265 CCC220"
# Sequences that differ in a value, in how many there are, in the intermediate or in the final.
NEAR_SEQUENCES = "m,0m,n,;m,0;m,;;m, m,!m,4m,04m,5m,4n,4 m,4;m,;4m,40;m,999m,998m,;;;;;;m,;;;;;;;m"
EIGHT_VALUES = (1, 22, 333, 0, 5, 66, 777, 8)


def eight_values() -> Iterator[bytes]:
    """A sequence of eight values, and with each of them another."""
    head = model.SEQUENCE_WORD + 256 * 0x6D + len(EIGHT_VALUES)
    yield canonical(3, [(head, *EIGHT_VALUES)])
    for at, value in enumerate(EIGHT_VALUES):
        yield canonical(3, [(head, *EIGHT_VALUES[:at], value + 1, *EIGHT_VALUES[at + 1 :])])


def near_characters(form: int) -> list[bytes]:
    """Characters and controls, plain and underlined."""
    octets = [bytes.fromhex(text) for text in NEAR.split() + (ONLY_FORM_3 if form == 3 else NOT_FORM_3).split()]
    if form == 2:
        return [bytes((*texts.supplementary(2, each[0]), *each[1:])) if each[0] >= model.TOP_BIT else each for each in octets]
    return octets


def near_sequences(form: int) -> list[bytes]:
    return [*map(sequence, NEAR_SEQUENCES.split(",")), *eight_values()] if form == 3 else []


def near(form: int, chance: random.Random) -> Iterator[Texts]:
    """Each of them beside each, behind an element of two spellings and before another; of characters and sequences, a few."""
    characters, sequences = near_characters(form), near_sequences(form)
    one, other = SPELLINGS[form][TWOFOLD[form][0]]
    for group in (characters, sequences, characters[::9] + sequences[::9]):
        for element, beside in itertools.product(group, repeat=2):
            yield one + element + b"B", other + beside + b"B"


# Refusals.


def cut_off(form: int) -> list[bytes]:
    """Beginnings of an element, which the end of the text cuts off."""
    return [bytes.fromhex(text) for text in {1: "C2", 2: "19 1942", 3: "C2 CC CCC2 9B 9B34 9B3B 9B20 9BB4"}[form].split()]


def refused(form: int, chance: random.Random) -> Iterator[Texts]:
    """Each refusal of reading in the first text, in the second and in both, with another one there too; and far behind a difference. (12
    takes over a million octets, and is tried by library.py and examples.py.)"""
    refusals = [*map(bytes, texts.refused_octets(form)), *cut_off(form)]
    for octets in refusals * 2:
        before, after, text = (spelt(form, some_elements(form, chance.randrange(4), chance), chance) for _ in range(3))
        fault = before + octets
        yield from both_ways([(fault, text), (fault + b"A" + after, text)])
        yield fault, fault
        yield fault, text + chance.choice(refusals)
        yield text + chance.choice(refusals) + after, fault
        far = spelt(form, some_elements(form, 12, chance), chance)
        yield from both_ways([(b"A" + far + octets, b"B" + far), (b"A" + far + octets, b"")])
        yield b"A" + far + octets, chance.choice(refusals)


def damaged(form: int, chance: random.Random) -> Iterator[Texts]:
    """A text beside what became of it: some octet changed, put in, taken out, or the rest cut off."""
    for _ in range(40):
        elements = some_elements(form, chance.randrange(1, 12), chance)
        text = spelt(form, elements, chance)
        for hurt in texts.damaged_texts([tuple(text)], chance):
            yield canonical(form, elements), bytes(hurt)


# Both behind one accepted text.


def some_pairs(form: int, count: int, chance: random.Random) -> list[Texts]:
    """So many of each of the kinds above, of a few octets."""
    found: list[Texts] = []
    for kind in (respelt, changed, ends, near, refused, damaged):
        found += chance.sample([pair for pair in kind(form, chance) if len(pair[0]) + len(pair[1]) <= 40], count)
    return found


def joined(form: int, chance: random.Random) -> Iterator[Texts]:
    for first, second in some_pairs(form, 30, chance):
        front = spelt(form, some_elements(form, chance.randrange(1, 8), chance), chance)
        check_joined(form, front, first, second)
        yield front + first, front + second


KINDS: dict[str, Callable[[int, random.Random], Iterator[Texts]]] = {
    "respelt": respelt,
    "changed": lambda form, chance: both_ways(changed(form, chance)),
    "ends": lambda form, chance: both_ways(ends(form, chance)),
    "near": near,
    "refused": refused,
    "damaged": lambda form, chance: both_ways(damaged(form, chance)),
    "joined": lambda form, chance: both_ways(joined(form, chance)),
}


def of_kind(kind: str, form: int) -> Iterator[Pair]:
    for first, second in KINDS[kind](form, random.Random(f"{SEED} {kind} {form}")):
        yield Pair(form, first, second)


def in_half(elements: Iterable[Words], half: Callable[[bytes], Sequence[int]]) -> bytes:
    """The canonical text of form 3, its sequences as the half has them."""
    spellings = (canonical(3, [words]) for words in elements)
    return b"".join(bytes(half(spelling)) if spelling[0] == model.SEQUENCE_START else spelling for spelling in spellings)


def upper_pairs() -> Iterator[Pair]:
    """Texts and the same with their sequences in the other half, which mean the same; with one element another; and refused ones."""
    chance = random.Random(f"{SEED} upper")

    def some(octets: bytes) -> Sequence[int]:
        return model.some_raised(octets, chance)

    for _ in range(120):
        elements = some_elements(3, chance.randrange(1, 8), chance)
        elements.insert(chance.randrange(len(elements) + 1), meaning(3, texts.some_sequence(3, chance))[0])
        other = [*elements]
        at = chance.randrange(len(elements))
        other[at] = other_than(3, elements[at], chance)
        lower, upper, mixed = canonical(3, elements), in_half(elements, model.raised), in_half(elements, some)
        assert all(model.compared(3, one, two).same for one, two in itertools.product((lower, upper, mixed), repeat=2))
        yield from (Pair(3, *pair) for pair in [(lower, upper), (upper, lower), (mixed, upper), (lower, mixed)])
        yield from (Pair(3, *pair) for pair in both_ways([(upper, canonical(3, other)), (mixed, in_half(other, some))]))
    for octets in (bytes(octets) for octets in texts.refused_octets(3) if octets[0] == model.SEQUENCE_START):
        pairs = [(b"A" + bytes(model.raised(octets)), b"A"), (b"A" + bytes(some(octets)), octets)]
        yield from (Pair(3, *pair) for pair in both_ways(pairs))


def form_pairs() -> Iterator[Pair]:
    """No form, with texts that are the same, that differ, that end, and that are refused."""
    some = [b"", b"A", b"B", b"AB", b"`", b"\xC1 ", b"\x1B", b"\xC2", b"\xFF" * 40]
    for form in texts.WRONG_FORMS:
        yield from (Pair(form, *pair) for pair in itertools.product(some, repeat=2))


# What holds of the answers, whatever the texts.


def check_exchanged(pair: Pair) -> None:
    """Two accepted texts in the other order: the places are exchanged, and the tail is the other text's exactly where one ends first."""
    form, first, second = pair
    one, other = model.compared(form, first, second), model.compared(form, second, first)
    if one.answer.number:
        assert other.answer.number, pair
        return
    ends_first = (one.first_place == len(first)) != (one.second_place == len(second))
    assert (one.answer, one.same, one.otherwise) == (other.answer, other.same, other.otherwise), pair
    assert (one.first_place, one.second_place) == (other.second_place, other.first_place), pair
    assert (one.tail_text != other.tail_text) == ends_first, pair
    assert not ends_first or model.part_of(one, first, second) == model.part_of(other, second, first), pair


def check_joined(form: int, front: bytes, first: bytes, second: bytes) -> None:
    """Behind one accepted text: the verdict of the rest, or its refusal, with the element and every place moved up."""
    alone, behind = model.compared(form, first, second), model.compared(form, front + first, front + second)
    moved = ["tail_place"] if alone.answer.number else ["tail_place", "first_place", "second_place"]
    answer = alone.answer._replace(element=len(meaning(form, front)) + alone.answer.element)
    if answer.number:
        answer = answer._replace(place=len(front) + answer.place, count=len(front) + answer.count)
    places = {name: len(front) + getattr(alone, name) for name in moved}
    assert behind == alone._replace(answer=answer, **places), (form, front, first, second)


# The reading refusals that each form has.
REFUSALS = {1: (1, 2, 3, 4), 2: (1, 2, 3, 4, 5), 3: (1, 2, 3, 4, 6, 7, 8)}


def sort_of(pair: Pair) -> tuple:
    """What sort of answer the pair has; of a refusal its number, its text, and whether both texts are refused."""
    form, first, second = pair
    told = model.compared(form, first, second)
    if told.answer.number:
        both = all(model.read_text(form, text)[0].number for text in (first, second))
        return ("refused", told.answer.number, told.text, both)
    if told.same:
        return ("same", told.otherwise > 0)
    return ("differ", told.first_place == len(first), told.second_place == len(second))


def sorts_of(form: int) -> set[tuple]:
    """Every sort of answer that two texts of the form can have."""
    found = {("same", False), ("same", True), ("differ", False, False), ("differ", True, False), ("differ", False, True)}
    where = [(1, False), (1, True), (2, False)]
    return found | {("refused", number, text, both) for number in REFUSALS[form] for text, both in where}


def check_pairs(found: Iterable[Pair]) -> None:
    """The pairs are within the program's room and obey what holds of the answers, and every sort of answer is among them."""
    sorts: dict[int, set[tuple]] = {}
    count = 0
    for pair in found:
        assert max(len(pair.first), len(pair.second)) <= MOST_OCTETS, pair
        check_exchanged(pair)
        sorts.setdefault(pair.form, set()).add(sort_of(pair))
        count += 1
    assert all(sorts[form] == sorts_of(form) for form in model.FORMS), sorts
    assert count >= LEAST_PAIRS, count


# Lines.


def comparison_text(comparison: model.Comparison) -> str:
    return " ".join([texts.answer_text(comparison.answer), *map(texts.place_text, comparison[1:])])


def line(pair: Pair) -> str:
    form, first, second = pair
    told = model.compared(form, first, second)
    answer = f"{comparison_text(told)},{texts.octets_text(model.part_of(told, first, second))}"
    assert len(answer) <= MOST_ANSWER, len(answer)
    return f"{form:X},{texts.octets_text(first)},{texts.octets_text(second)},{answer}"


HEADING = "form,first,second,answer,part"


def files() -> dict[str, list[Pair]]:
    """The pairs of each file, by its name, each once."""
    found: dict[str, Iterable[Pair]] = {f"{kind}_{form}.csv": of_kind(kind, form) for kind in KINDS for form in model.FORMS}
    found["upper.csv"] = upper_pairs()
    found["form.csv"] = form_pairs()
    return {name: list(dict.fromkeys(pairs)) for name, pairs in found.items()}


def written() -> dict[pathlib.Path, str]:
    """The text of each file that is written, by its path."""
    found = {}
    report = []
    pairs_of = files()
    check_pairs(itertools.chain.from_iterable(pairs_of.values()))
    for name, pairs in pairs_of.items():
        text = "".join(each + "\n" for each in [HEADING, *map(line, pairs)])
        assert len(text) < MOST_FILE, (name, len(text))
        found[CRATE / "data" / name] = text
        report.append(f"{name}: {len(pairs)} vectors, 0 wrong\n")
    found[CRATE / "stdout"] = "".join(report)
    return found


def main(arguments: list[str]) -> int:
    if arguments not in ([], ["--check"]):
        print(__doc__, file=sys.stderr)
        return 2
    if arguments == ["--check"]:
        return 0 if all([texts.is_written(path, text) for path, text in written().items()]) else 1
    for path, text in written().items():
        texts.write(path, text)
    return 0


if __name__ == "__main__":
    sys.exit(main(sys.argv[1:]))
