#!/usr/bin/env python3
"""Writes the vectors of the program crates/vectors_text, and what it must print.

    make_text_vectors.py            writes the files
    make_text_vectors.py --check    only compares them, with exit status 1 where one is not as it would be written

All of it comes from the model of the documents (model.py), never from our own code. A file has a heading and a line a vector: the
form, the octets or words, the room that is lent, the numbers of the answer, and the entries that it puts. The numbers are four where words
are written, and five of a reading or a conversion (`00 02 05 06 01`, the first in decimal). A conversion has two forms, with a space
between. Where one element is read into words, its place goes before the room. Where one is read by itself, its place stands for the
room, and the answer is `00E9 > 02 00`, its words, the place after it, and 01 if it was not canonical; `!03 00 01`, a refusal's number in
decimal, place and count; or `.`, none is left. Everything else is in hex.

The program runs texts that the GNU C library decoded too, which make_peer_texts.py writes: run that first.
"""
from __future__ import annotations

import pathlib
import random
import sys
from typing import Callable, Iterable, Iterator, NamedTuple, Optional, Tuple, Union

sys.dont_write_bytecode = True
import make_peer_texts
import model

ROOT = pathlib.Path(__file__).resolve().parent.parent
CRATE = ROOT / "crates" / "vectors_text"
SEED = 1

# What the program has room for.
MOST_FILE = 400_000
MOST_ENTRIES = 512
MOST_WORDS_PUT = 512
MOST_OCTETS_PUT = 1024
MOST_ANSWER = 8192

FAR = 0xFFFFFFFF  # a place past the end of any text
WRONG_FORMS = (0, 4, 257, 2**32 - 1)
Octets = Tuple[int, ...]
Words = Tuple[int, ...]
Outcome = Tuple[Union[model.Answer, model.ReadAnswer], list]


def octets_of(text: str) -> Octets:
    return tuple(bytes.fromhex(text))


# Elements as octets, drawn by chance. They need not be canonical.


def supplementary(form: int, octet: int) -> Octets:
    """A supplementary octet as the form has it."""
    return (model.SS2, octet - model.TOP_BIT) if form == 2 else (octet,)


def some_primary(form: int, chance: random.Random) -> Octets:
    return (chance.choice(list(model.PRIMARY[form])),)


def some_letter(form: int, chance: random.Random) -> Octets:
    return (ord(chance.choice(model.LETTERS)),)


def some_spacing(form: int, chance: random.Random) -> Octets:
    return supplementary(form, chance.choice(list(model.SPACING[form])))


def some_pair(form: int, chance: random.Random) -> Octets:
    mark, follower = chance.choice(list(model.SQUARES))
    return (*supplementary(form, mark), follower)


def some_control(form: int, chance: random.Random) -> Octets:
    return (chance.choice(model.CONTROLS[form]),)


def some_underlined(form: int, chance: random.Random) -> Octets:
    return (model.UNDERLINE, *chance.choice([some_primary, some_spacing, some_pair])(form, chance))


def some_value(chance: random.Random) -> str:
    """A value's octets, now and then with zeros before it."""
    value = chance.choice(["", "", "0", str(chance.randrange(10)), str(chance.randrange(1000)), "999"])
    return chance.choice(["", "", "", "0", "00"]) + value


def some_half(octets: Octets, chance: random.Random) -> Octets:
    """A sequence as it is, in the upper half, or in both."""
    halves = [lambda: octets, lambda: octets, lambda: model.raised(octets), lambda: model.some_raised(octets, chance)]
    return chance.choice(halves)()


def some_sequence(form: int, chance: random.Random) -> Octets:
    """A sequence of at most 40 octets, in either half."""
    values = ";".join(some_value(chance) for _ in range(chance.choice([1, 1, 1, 2, 3, 5, 8])))
    intermediate = [chance.choice(model.INTERMEDIATES)] if chance.randrange(3) == 0 else []
    octets = (model.SEQUENCE_START, *values.encode("ascii"), *intermediate, chance.choice(model.FINALS))
    return some_half(octets, chance) if len(octets) <= model.MOST_OCTETS else some_sequence(form, chance)


ANY_FORM = [some_letter, some_primary, some_spacing, some_pair, some_pair, some_control]
KINDS = {1: ANY_FORM, 2: ANY_FORM, 3: [*ANY_FORM, some_underlined, some_underlined, some_sequence]}


def some_element(form: int, chance: random.Random) -> Octets:
    return chance.choice(KINDS[form])(form, chance)


def is_held(form: int, element: Octets, target: int) -> bool:
    """Whether the target form has the element, whose octets are in the form."""
    return model.convert_text(form, target, element)[0].number == 0


def some_text(form: int, size: int, chance: random.Random, target: Optional[int] = None) -> Octets:
    """A text of just so many octets; where there is a target form, it has every element of it."""
    text: Octets = ()
    while len(text) < size:
        element = some_element(form, chance)
        if len(text) + len(element) > size:
            element = some_letter(form, chance)
        if target is None or is_held(form, element, target):
            text += element
    return text


def some_size(chance: random.Random) -> int:
    """Mostly a few octets, now and then up to 60."""
    return chance.choice([chance.randrange(1, 8), chance.randrange(1, 24), chance.randrange(1, 60)])


# Octets that are refused wherever they stand in a text, or at its end.
REFUSED = {
    1: "A4 E5 80 9B CC 00 7F 8B 0E 0F 1B 1D 19 C262 C2C2 C10A C21B C2A4 C247 CB67 C769 C841A4",
    2: "00 7F 08 0E 1B 1D 1924 1940 190A 1919 191B 194262 194219 1942C2 19C2 C2 A1 80 FF 19 9B 194247 194B67",
    3: "60 5C 5E 7B 7D 7E A0 A9 D0 FF E5 80 00 0E 1B 1D 19 C262 C2CC CC0A CC9B346D CCCC41 CC60 CCC262 CC1B CCA9"
    " C247 CB67 CCC247 CCCB67 9B1B 9B3A 9B2020 9B2031 9B31303030 9B3B3B3B3B3B3B3B3B 9B303939393B313030306D 9BA0 9BFF"
    " 9B9B346D 9BBA 9BB4A0 9BB4FF 9BA1B1 9BB130B0B0 9BBBBBBBBBBBBBBBBB",
}
LONG_SEQUENCES = ("9B" + "30" * 38 + "6D", "9B" + "30" * 38 + "30", "9B" + "30" * 37 + "206D", "9B" + "30" * 38 + "20")
LONG_UPPER = ("9B" + "B0" * 38 + "ED", "9B" + "B0" * 38 + "B0", "9B" + "B0" * 37 + "A1ED", "9B" + "30" * 38 + "A1")


def refused_octets(form: int) -> list[Octets]:
    return [octets_of(text) for text in REFUSED[form].split() + ([*LONG_SEQUENCES, *LONG_UPPER] if form == 3 else [])]


# Damage.


def changed(entries: tuple, at: int, entry: int) -> tuple:
    return (*entries[:at], entry, *entries[at + 1 :])


def inserted(entries: tuple, at: int, entry: int) -> tuple:
    return (*entries[:at], entry, *entries[at:])


def removed(entries: tuple, at: int) -> tuple:
    return (*entries[:at], *entries[at + 1 :])


def damaged(entries: tuple, entry: Callable[[], int], chance: random.Random) -> Iterator[tuple]:
    """The entries with one changed, one put in, one taken out, cut somewhere, and with two changed."""
    size = len(entries)
    yield changed(entries, chance.randrange(size), entry())
    yield inserted(entries, chance.randrange(size + 1), entry())
    yield removed(entries, chance.randrange(size))
    yield entries[: chance.randrange(size)]
    yield changed(changed(entries, chance.randrange(size), entry()), chance.randrange(size), entry())


TELLING = octets_of("19 1B 0A 20 30 39 3B 2F 6D 7E 80 8B 9B A0 A1 A4 A6 B0 BB C2 C9 CB CC CF E5 ED FF 41 65")


def damaged_texts(texts: Iterable[Octets], chance: random.Random) -> Iterator[Octets]:
    def entry() -> int:
        return chance.choice([chance.choice(TELLING), chance.randrange(256)])

    for text in texts:
        yield from damaged(text, entry, chance)


def around_texts(form: int, parts: Iterable[Octets], chance: random.Random) -> Iterator[Octets]:
    """Each part after a text, and with one after it or none."""
    for part in parts:
        before = some_text(form, chance.randrange(0, 12), chance)
        yield before + part
        yield before + part + some_text(form, chance.randrange(1, 6), chance)


# Texts.


def octet_texts() -> Iterator[Octets]:
    """Every octet between two letters."""
    for octet in range(256):
        yield (0x41, octet, 0x65)


def whole_texts(form: int) -> Iterator[Octets]:
    """Every octet that is a character, every pair and every control, some to a text."""
    marks = [(*supplementary(form, mark), follower) for mark, follower in model.SQUARES]
    spacings = [supplementary(form, octet) for octet in model.SPACING[form]]
    elements = [*((octet,) for octet in model.PRIMARY[form]), *spacings, *marks, *((octet,) for octet in model.CONTROLS[form])]
    if form == 3:
        elements += [(model.UNDERLINE, *element) for element in elements[: len(elements) - len(model.CONTROLS[form])]]
    for start in range(0, len(elements), 24):
        yield sum(elements[start : start + 24], ())


def short_texts(form: int, count: int, chance: random.Random, target: Optional[int] = None) -> list[Octets]:
    return [some_text(form, some_size(chance), chance, target) for _ in range(count)]


def long_texts(form: int, chance: random.Random, target: Optional[int] = None) -> list[Octets]:
    """Texts of 100 and 200 octets, and on both sides of 256."""
    return [some_text(form, size, chance, target) for size in (100, 150, 200, 255, 256, 257)]


DAMAGED_LONG = 2  # so many of the long texts are damaged too


# Texts of which some elements are not canonical.

SPELLINGS = {form: [tuple(spelling) for spelling in model.every_spelling(form)] for form in model.FORMS}
SEQUENCES = "9B6D 9B306D 9B346D 9B30346D 9B3B6D 9B303B6D 9B3B306D 9B303B306D 9B3B3030356D 9B31303B30206D 9B3030302F7E"
SEQUENCES += " 9BED 9BB46D 9B34ED 9B34BBB56D 9B3B35A16D 9BB1B0BBB020ED 9BAFFE"
RUN = 36  # letters, or half as many pairs


def is_canonical(form: int, element: Octets) -> bool:
    return model.read_text(form, element)[0].respelled == 0


def respellable(form: int) -> list[Octets]:
    """Elements that are not canonical."""
    elements = [*SPELLINGS[form], *(map(octets_of, SEQUENCES.split()) if form == 3 else [])]
    return [element for element in elements if not is_canonical(form, element)]


def in_runs(form: int, element: Octets) -> Iterator[Octets]:
    """The element at each place of a run of letters, and at some of a run of pairs; a sequence at some of both."""
    pair = (*supplementary(form, 0xC2), 0x65)
    step = 6 if element[0] == model.SEQUENCE_START else 1
    yield from ((0x61,) * before + element + (0x62,) * (RUN - before) for before in range(0, RUN + 1, step))
    yield from (pair * before + element + pair * (RUN // 2 - before) for before in range(0, RUN // 2 + 1, 3 * step))


def respelled_texts(form: int, chance: random.Random) -> Iterator[Octets]:
    """What is counted by hand; every octet and every pair alone; what is not canonical in runs, many times over, and among others."""
    yield from (octets_of(text) for each, text, _ in model.RESPELLED if each == form)
    yield from ((octet,) for octet in range(256))
    yield from SPELLINGS[form]
    yield from map(octets_of, SEQUENCES.split())
    others = respellable(form)
    for element in others:
        yield from in_runs(form, element)
        yield element * (RUN // len(element))
    for size in range(2, 42):
        yield sum((chance.choice([chance.choice(others), some_element(form, chance)]) for _ in range(size)), ())[:MOST_ENTRIES]


# Words.

PAIR = model.SEQUENCE_WORD + 256 * 0x6D + 2  # the head of a sequence of two values
SINGLE = model.SEQUENCE_WORD + 256 * 0x6D + 1

# Words that are no element, wherever they stand, or at the end of the words.
NO_ELEMENTS: list[Words] = [
    (2**26,),
    (2**27,),
    (2**32 - 1,),
    (model.SEQUENCE_WORD + 256 * 0x6D, 0x41),  # no values
    (model.SEQUENCE_WORD + 256 * 0x6D + 9, *range(1, 10)),  # nine
    (model.SEQUENCE_WORD + 256 * 0x3F + 1, 4),  # no final
    (model.SEQUENCE_WORD + 256 * 0x7F + 1, 4),
    (SINGLE + 65536 * 0x1F, 4),  # no intermediate
    (SINGLE + 65536 * 0x30, 4),
    (SINGLE + 65536 * 0x120, 4),
    (SINGLE, 1000),  # a value over 999
    (PAIR, 7, 1000),
    (PAIR, 0x10000, 7),
    (SINGLE,),  # cut off at the end, and else with the next word as its value
    (PAIR,),
    (PAIR, 7),
    (SINGLE + 65536 * 0x20 + 7, *range(7)),
]

# Elements as words of which some forms have none, and some no form.
LACKED: list[Words] = [
    (0x03A9,),
    (0x00D0,),
    (0x0100,),
    (0x01F5,),
    (0x20AC,),
    (0x0300,),
    (0x2018,),
    (0x2126,),
    (0x007F,),
    (0x0000,),
    (0x000A,),
    (0x00FF,),
    (0x0138,),
    (0x005C,),
    (0x0060,),
    (0x00AD,),
    (0xFFFF,),
    (0x10FFFF,),
    (0x110000,),
    (model.UNDERLINED_WORD - 1,),
    (model.UNDERLINED_WORD,),
    (model.UNDERLINED_WORD + 0x41,),
    (model.UNDERLINED_WORD + 0xE9,),
    (model.UNDERLINED_WORD + 0x60,),
    (model.UNDERLINED_WORD + 0x5C,),
    (model.UNDERLINED_WORD + 0x2018,),
    (model.CONTROL_WORD - 1,),
    (model.CONTROL_WORD,),
    (model.CONTROL_WORD + 0x0A,),
    (model.CONTROL_WORD + 0x0D,),
    (model.CONTROL_WORD + 0x08,),
    (model.CONTROL_WORD + 0x8B,),
    (model.CONTROL_WORD + 0x9B,),
    (model.CONTROL_WORD + 0x10A,),
    (model.SEQUENCE_WORD - 1,),
    (SINGLE, 0),
    (SINGLE, 999),
    (PAIR, 0, 0),
    (PAIR + 65536 * 0x2F + 6, 1, 22, 333, 0, 999, 10, 100, 0),
]


def words_of(form: int, text: Octets) -> Words:
    answer, words = model.read_text(form, text)
    assert answer.number == 0
    return tuple(words)


def words_of_all(form: int, texts: Iterable[Octets]) -> list[Words]:
    return [words_of(form, text) for text in texts]


def damaged_words(lists: Iterable[Words], chance: random.Random) -> Iterator[Words]:
    def entry() -> int:
        drawn = chance.choice([*NO_ELEMENTS, *LACKED])[0]
        return chance.choice([drawn, chance.randrange(0x20, 0x180), chance.randrange(2**32)])

    for words in lists:
        yield from damaged(words, entry, chance)


def around_words(form: int, parts: Iterable[Words], chance: random.Random) -> Iterator[Words]:
    """Each part alone, after words of the form, and with one after it too."""
    for part in parts:
        before = words_of(form, some_text(form, chance.randrange(1, 12), chance))
        yield part
        yield before + part
        yield before + part + (0x41,)


def repertoire_words(form: int) -> Iterator[Words]:
    """Every character of every form, with every underlined one, some to a list; the form lacks some of them."""
    characters = sorted({character for each in model.FORMS for character in model.repertoire(each)})
    held = [character for character in characters if model.spell(form, character) is not None]
    words = [*held, *(model.CONTROL_WORD + octet for octet in model.CONTROLS[form])]
    if form == 3:
        words += [model.UNDERLINED_WORD + character for character in held]
    for start in range(0, len(words), 32):
        yield tuple(words[start : start + 32])
    for character in characters:
        if character not in held:
            yield (0x41, character)


# Questions, each with its room.


class Question(NamedTuple):
    """The form or forms, the entries, and the room."""

    forms: Tuple[int, ...]
    entries: tuple
    room: int


def needed(outcome: Outcome) -> Optional[int]:
    """How many entries an answer puts, or None for a refusal."""
    answer, entries = outcome
    return len(entries) if answer.number == 0 else None


Ask = Callable[[Tuple[int, ...], tuple, Optional[int]], Outcome]


def reading(forms: Tuple[int, ...], octets: tuple, room: Optional[int]) -> Outcome:
    return model.read_text(forms[0], octets, room)


def writing(forms: Tuple[int, ...], words: tuple, room: Optional[int]) -> Outcome:
    return model.write_text(forms[0], words, room)


def converting(forms: Tuple[int, ...], octets: tuple, room: Optional[int]) -> Outcome:
    return model.convert_text(forms[0], forms[1], octets, room)


def rooms(ask: Ask, forms: Tuple[int, ...], entries: tuple, most: int) -> Iterator[Question]:
    """At each edge of the room: just enough, one short, one over, none, and the most. A refusal has the last two, no room first."""
    size = needed(ask(forms, entries, None))
    edges = [] if size is None else [size, size - 1, size + 1]
    for room in [*edges, 0, most]:
        if room >= 0:
            yield Question(forms, entries, room)


def one_room(ask: Ask, forms: Tuple[int, ...], entries: tuple, most: int, chance: random.Random) -> Question:
    """With just enough room, or now and then another."""
    size = needed(ask(forms, entries, None))
    enough = chance.randrange(most + 1) if size is None else size
    return Question(forms, entries, chance.choice([enough, enough, enough, max(0, enough - 1), 0, most]))


def enough_room(ask: Ask, forms: Tuple[int, ...], entries: tuple, most: int) -> Question:
    """With just enough room; a refusal has the most."""
    size = needed(ask(forms, entries, None))
    return Question(forms, entries, most if size is None else size)


def wrong_forms(entries: Iterable[tuple], most: int) -> Iterator[Question]:
    """A form that is none, with entries that are empty, valid or refused, and with room or none."""
    for form in WRONG_FORMS:
        for each in entries:
            for room in (0, most):
                yield Question((form,), each, room)


def wrong_pairs(source: int, entries: Iterable[tuple], most: int) -> Iterator[Question]:
    """Pairs of which the target is no form, the source, or both."""
    pairs = [(source, form) for form in WRONG_FORMS]
    pairs += [(form, source) for form in WRONG_FORMS]
    pairs += [(first, second) for first in WRONG_FORMS for second in WRONG_FORMS]
    for pair in pairs:
        for each in entries:
            for room in (0, most):
                yield Question(pair, each, room)


DOCUMENTED = [(form, octets_of(text)) for form, text, _ in model.READINGS]


def readings(form: int) -> Iterator[Question]:
    chance = random.Random(SEED)
    short = short_texts(form, 150, chance)
    long = long_texts(form, chance)
    documented = [text for _, text in DOCUMENTED]
    most = MOST_WORDS_PUT
    for text in [*documented, *short, *long]:
        yield from rooms(reading, (form,), text, most)
    refused = around_texts(form, refused_octets(form), chance)
    hurt = damaged_texts([*short, *long[:DAMAGED_LONG]], chance)
    for text in [*octet_texts(), *whole_texts(form), *refused, *hurt]:
        yield one_room(reading, (form,), text, most, chance)
    yield from (enough_room(reading, (form,), text, most) for text in respelled_texts(form, chance))
    yield from wrong_forms([(), short[0], short[1], refused_octets(form)[0]], most)


def writings(form: int) -> Iterator[Question]:
    chance = random.Random(SEED)
    short = words_of_all(form, short_texts(form, 120, chance))
    long = words_of_all(form, long_texts(form, chance))
    others = [words_of(other, text) for other in model.FORMS if other != form for text in short_texts(other, 40, chance)]
    most = MOST_OCTETS_PUT
    for words in [(), *short, *long]:
        yield from rooms(writing, (form,), words, most)
    odd = around_words(form, [*NO_ELEMENTS, *LACKED], chance)
    hurt = damaged_words([*short, *long[:DAMAGED_LONG]], chance)
    for words in [*repertoire_words(form), *others, *odd, *hurt]:
        yield one_room(writing, (form,), words, most, chance)
    yield from wrong_forms([(), short[0], short[1], NO_ELEMENTS[0], LACKED[0]], most)


# Texts with what another form lacks, alone, between others, and before and after what is refused in reading: reading goes first.
ORDERED = {
    1: "5C A0 41A9 C2655C41 A0A4 41FFC262 5CD0C2 D51B 41D741 41AC5C AC41",
    2: "5C 1920 411929 1942655C41 19201924 41197F194262 5C19501942 19551B 41195741 41192C5C 192C41 5CC2",
    3: "CC4160 41CC4160 CC41C262 9B6D1B 41CC41 41CC4142 8B1B CC41CC CC419B34 C265CC4141 9B343B6D41 418B",
}


def conversions(source: int) -> Iterator[Question]:
    chance = random.Random(SEED)
    most = MOST_OCTETS_PUT
    refused = list(around_texts(source, refused_octets(source), chance))
    ordered = [octets_of(text) for text in ORDERED[source].split()]
    for target in model.FORMS:
        pair = (source, target)
        short = short_texts(source, 40, chance, target)
        long = long_texts(source, chance, target)
        free = short_texts(source, 40, chance)
        documented = [text for form, text in DOCUMENTED if form == source]
        for text in [*documented, *short, long[0], long[2], long[4], *ordered]:
            yield from rooms(converting, pair, text, most)
        hurt = damaged_texts([*short, *free[:20], long[0]], chance)
        for text in [*octet_texts(), *whole_texts(source), *free, *refused, *hurt]:
            yield one_room(converting, pair, text, most, chance)
    yield from wrong_pairs(source, [(), (0x41,), refused_octets(source)[0]], most)


def respellings(source: int) -> Iterator[Question]:
    """Conversions of texts of which some elements are not canonical; a fourth of those that the target lacks something of."""
    chance = random.Random(SEED)
    for target in model.FORMS:
        for number, text in enumerate(respelled_texts(source, chance)):
            answer, _ = model.convert_text(source, target, text)
            if answer.number != 10 or number % 4 == 0:
                yield enough_room(converting, (source, target), text, MOST_OCTETS_PUT)


class Lone(NamedTuple):
    """One element that is read: the form, the text, the place, and the room for its words."""

    form: int
    octets: Octets
    at: int
    room: int = 0


def places(length: int) -> list[int]:
    """Each place of so many octets, the end, and past it."""
    return [*range(length + 3), 0x100, 0x10000, FAR]


def lone_texts(form: int, chance: random.Random) -> Iterator[Octets]:
    yield ()
    yield from (text for _, text in DOCUMENTED)
    yield from (some_text(form, size, chance) for size in (3, 8, 16, 24))
    yield from around_texts(form, refused_octets(form)[:12], chance)
    yield from (octets_of(text) for each, text, _ in [*model.RESPELLED, *model.UPPER[:10]] if each == form)


def lone_readings() -> Iterator[Lone]:
    chance = random.Random(SEED)
    for form in model.FORMS:
        for text in lone_texts(form, chance):
            for at in places(len(text)):
                yield Lone(form, text, at)
        for text in refused_octets(form):
            yield Lone(form, text, 0)
    for form in WRONG_FORMS:
        for text in ((), (0x41,), octets_of("A4"), octets_of("41C265")):
            for at in places(len(text)):
                yield Lone(form, text, at)


def every_place() -> Iterator[Lone]:
    """The texts of these, each to be asked at all its places with a room of its own."""
    chance = random.Random(SEED)
    for form in model.FORMS:
        for text in [*lone_texts(form, chance), *refused_octets(form), *whole_texts(form)]:
            yield Lone(form, text, 0, chance.choice([0, 1, 2, 9]))
    yield from (Lone(form, octets_of("41C265"), 0, 1) for form in WRONG_FORMS)


def into_rooms() -> Iterator[Lone]:
    """Each of these with just enough room, one short, one over, or none; where no words are put, with none and with the most."""
    for lone in lone_readings():
        answer, words = model.read_one(*lone[:3])
        edges = [len(words), len(words) - 1, len(words) + 1] if words else [MOST_WORDS_PUT]
        yield from (lone._replace(room=room) for room in sorted({0, *edges}))


# Lines.


def octets_text(octets: Iterable[int]) -> str:
    return "".join(f"{octet:02X}" for octet in octets)


def words_text(words: Iterable[int]) -> str:
    """Each in four digits, or in eight where four do not hold it."""
    return " ".join(f"{word:04X}" if word < 0x10000 else f"{word:08X}" for word in words)


def place_text(place: int) -> str:
    """In two digits, or in four where two do not hold it, or in sixteen."""
    if place < 0x100:
        return f"{place:02X}"
    return f"{place:04X}" if place < 0x10000 else f"{place:016X}"


def answer_text(answer: Union[model.Answer, model.ReadAnswer, model.CaseAnswer]) -> str:
    """All its numbers, the first in decimal."""
    return f"{answer.number:02} {' '.join(place_text(number) for number in answer[1:])}"


def lone_step(form: int, octets: Octets, at: int) -> model.Step:
    """What a lone read answers: 11 and 12 go first, then that none is left."""
    refusal = model.refused_before([form], octets)
    return model.refused_at(refusal.number, 0, 0) if refusal else model.read_element(form, octets, at)


def step_text(step: model.Step) -> str:
    if step[0] == "element":
        _, words, after, canonical = step
        return f"{words_text(words)} > {place_text(after)} {place_text(not canonical)}"
    if step[0] == "refused":
        return f"!{step[1]:02} {place_text(step[2])} {place_text(step[3])}"
    return "."


def line(ask: Ask, question: Question, entries_text: Callable, put_text: Callable, most: int) -> str:
    """A vector. On a refusal nothing is put."""
    forms, entries, room = question
    assert len(entries) <= MOST_ENTRIES and room <= most
    answer, put = ask(forms, entries, room)
    assert len(put) == (answer.count if answer.number == 0 else 0)
    named = " ".join(f"{form:X}" for form in forms)
    return f"{named},{entries_text(entries)},{room:02X},{answer_text(answer)},{put_text(put)}"


def reading_line(question: Question) -> str:
    return line(reading, question, octets_text, words_text, MOST_WORDS_PUT)


def writing_line(question: Question) -> str:
    return line(writing, question, words_text, octets_text, MOST_OCTETS_PUT)


def converting_line(question: Question) -> str:
    return line(converting, question, octets_text, octets_text, MOST_OCTETS_PUT)


def lone_line(lone: Lone) -> str:
    form, octets, at, _ = lone
    assert len(octets) <= MOST_ENTRIES
    return f"{form:X},{octets_text(octets)},{at:02X},{step_text(lone_step(form, octets, at))}"


def into_line(lone: Lone) -> str:
    form, octets, at, room = lone
    assert len(octets) <= MOST_ENTRIES and room <= MOST_WORDS_PUT
    answer, put = model.read_one(*lone)
    assert len(put) == (answer.count if answer.number == 0 else 0)
    return f"{form:X},{octets_text(octets)},{at:02X},{room:02X},{answer_text(answer)},{words_text(put)}"


def unlike(lines: Iterable[str]) -> list[str]:
    """The lines in their order, each once."""
    return list(dict.fromkeys(lines))


def files() -> dict[str, list[str]]:
    """The lines of each file, by its name, without the heading."""
    found = {f"read_{form}.csv": unlike(map(reading_line, readings(form))) for form in model.FORMS}
    found.update({f"write_{form}.csv": unlike(map(writing_line, writings(form))) for form in model.FORMS})
    found.update({f"convert_{form}.csv": unlike(map(converting_line, conversions(form))) for form in model.FORMS})
    found.update({f"respelled_{form}.csv": unlike(map(converting_line, respellings(form))) for form in model.FORMS})
    found["element.csv"] = unlike(map(lone_line, lone_readings()))
    found["into.csv"] = unlike(map(into_line, into_rooms()))
    return found


HEADINGS = {
    "read": "form,octets,room,answer,words",
    "write": "form,words,room,answer,octets",
    "convert": "forms,octets,room,answer,octets",
    "respelled": "forms,octets,room,answer,octets",
    "element": "form,octets,place,answer",
    "into": "form,octets,place,room,answer,words",
}


def heading(name: str) -> str:
    return HEADINGS[name.removesuffix(".csv").split("_")[0]]


def check_limit() -> None:
    """12, "input over 1,048,576 entries", in the model alone: the program cannot hold so many.

    11 goes before it, and it before reading, 10 and 9. One entry fewer is read and written.
    """
    over = [0x1B] * (model.MOST_ENTRIES + 1)
    assert len(over) == 1_048_577
    for form in model.FORMS:
        assert model.read_text(form, over, 0) == (model.ReadAnswer(12), [])
        assert model.write_text(form, over, 0) == (model.Answer(12), [])
        assert lone_step(form, over, 0) == lone_step(form, over, FAR) == model.refused_at(12, 0, 0)
        assert model.read_one(form, over, 0, 0) == model.read_one(form, over, FAR, 0) == (model.ReadAnswer(12), [])
        assert all(model.convert_text(form, target, over, 0) == (model.ReadAnswer(12), []) for target in model.FORMS)
        assert model.read_text(form, over[1:]) == (model.ReadAnswer(2), [])
        assert model.write_text(form, over[1:]) == (model.Answer(10), [])
    for form in WRONG_FORMS:
        assert model.read_text(form, over) == model.read_one(form, over, 0) == (model.ReadAnswer(11), [])
        assert model.write_text(form, over) == (model.Answer(11), [])
        assert model.convert_text(form, 1, over) == model.convert_text(1, form, over) == (model.ReadAnswer(11), [])
        assert lone_step(form, over, 0) == model.refused_at(11, 0, 0)
    most = [0x41] * model.MOST_ENTRIES
    assert model.read_text(1, most, 0) == (model.ReadAnswer(9, 0, 0, 1_048_576), [])
    assert model.write_text(1, most) == (model.Answer(0, 1_048_576, 1_048_576, 1_048_576), most)


def texts() -> dict[pathlib.Path, str]:
    """The text of each file that is written, by its path."""
    found = {}
    report = []
    for name, lines in files().items():
        text = "".join(each + "\n" for each in [heading(name), *lines])
        assert len(text) < MOST_FILE, (name, len(text))
        asked = heading(name).split(",").index("answer")
        assert max(len(each.split(",", asked)[asked]) for each in lines) <= MOST_ANSWER
        found[CRATE / "data" / name] = text
        report.append(f"{name}: {len(lines)} vectors, 0 wrong\n")
    report += [make_peer_texts.report_line(decoder) + "\n" for decoder in make_peer_texts.DECODERS]
    found[CRATE / "stdout"] = "".join(report)
    return found


def write(path: pathlib.Path, text: str) -> None:
    path.parent.mkdir(parents=True, exist_ok=True)
    path.write_bytes(text.encode("ascii"))


def is_written(path: pathlib.Path, text: str) -> bool:
    """Whether the file has just that text; says so where not."""
    same = path.exists() and path.read_bytes() == text.encode("ascii")
    if not same:
        print(f"{path.relative_to(ROOT)} is not as tests/{pathlib.Path(sys.argv[0]).name} writes it", file=sys.stderr)
    return same


def main(arguments: list[str]) -> int:
    if arguments not in ([], ["--check"]):
        print(__doc__, file=sys.stderr)
        return 2
    check_limit()
    if arguments == ["--check"]:
        return 0 if all([is_written(path, text) for path, text in texts().items()]) else 1
    for path, text in texts().items():
        write(path, text)
    return 0


if __name__ == "__main__":
    sys.exit(main(sys.argv[1:]))
