#!/usr/bin/env python3
"""Writes the vectors of the program crates/vectors_tlx, and what it must print.

    make_tlx_vectors.py            writes the files
    make_tlx_vectors.py --check    only compares them, with exit status 1 where one is not as it would be written

All of it comes from the model of the documents (model.py), never from our own code. A file has a heading and a line a vector.

- Reading: the case, the room that is lent, the five numbers of the answer and the page beside them (`03 02 05 06 00 01`, the first in
  decimal), and the words that it puts.
- One page: the case, the page's number, and the five numbers of its answer, or `.`, no such page.
- The header: the case, and its form and how many pages, or `!13`, a refusal's number in decimal.
- Writing: the form, the lengths, the page octets, the room, the four numbers of the answer, and the case that it puts.

Everything else is in hex. In the files of long cases a list of octets or words is written as runs: how many times, and which entry.
`FFFF 0041 0001 001B` is 65,535 times 41, and then 1B.
"""
from __future__ import annotations

import itertools
import pathlib
import random
import sys
from typing import Callable, Iterable, Iterator, NamedTuple, Optional, Sequence, Tuple

sys.dont_write_bytecode = True
import model
from make_text_vectors import (
    FAR,
    TELLING,
    WRONG_FORMS,
    Octets,
    answer_text,
    changed,
    damaged_texts,
    octets_of,
    octets_text,
    place_text,
    refused_octets,
    respellable,
    some_element,
    some_size,
    some_text,
    unlike,
    words_text,
)

ROOT = pathlib.Path(__file__).resolve().parent.parent
CRATE = ROOT / "crates" / "vectors_tlx"
SEED = 1

# What the program has room for.
MOST_FILE = 400_000
MOST_CASE = 1024
MOST_WORDS_PUT = 1024
MOST_LENGTHS = 320
MOST_PUT = 2048
MOST_ANSWER = 8192
MOST_LONG = 70_000
MOST_RUNS = 32

Pages = Sequence[Octets]
Lengths = Tuple[int, ...]
Said = Callable[[Iterable[int]], str]
EXAMPLE = octets_of(model.EXAMPLE)
HEADER = model.CASE_HEADER


# Cases, put together by hand: a wrong one can be made too.


def two_octets(number: int) -> Octets:
    """Big-endian; what does not fit is lost."""
    return (number // 256 % 256, number % 256)


def laid_out(form: int, count: int, lengths: Iterable[int], body: Octets) -> Octets:
    table = tuple(octet for length in lengths for octet in two_octets(length))
    return (*model.CASE_MARK, *two_octets(1), form, *two_octets(count), *table, *body)


def joined(pages: Pages) -> Octets:
    return tuple(octet for page in pages for octet in page)


def case_of(form: int, pages: Pages) -> Octets:
    return laid_out(form, len(pages), map(len, pages), joined(pages))


def some_pages(form: int, count: int, chance: random.Random) -> list[Octets]:
    """Pages of a few octets each, now and then an empty one."""
    return [some_text(form, chance.choice([0, some_size(chance), some_size(chance)]), chance) for _ in range(count)]


def well_formed(form: int, chance: random.Random) -> list[Octets]:
    """Cases that are accepted, of none to some pages."""
    pages = [(), ((),), ((), ()), ((0x41,),), ((), (0x41,), ()), ((0x41,), (0x42,), (0x43,))]
    pages += [some_pages(form, count, chance) for count in [1, 2, 3] * 16 + [4, 5, 6, 7, 8] * 3]
    return [case_of(form, each) for each in pages]


def many_pages(form: int, chance: random.Random) -> list[Octets]:
    """256 pages and 257: empty, of one octet each, and with some text on the first, one in the middle or the last."""
    cases = []
    for count in (256, 257):
        empty = ((),) * count
        cases += [case_of(form, empty), case_of(form, ((0x41,),) * count)]
        cases += [case_of(form, changed(empty, page, some_text(form, 20, chance))) for page in (0, 128, count - 1)]
    return cases


def large_pages(form: int, chance: random.Random) -> list[Octets]:
    """Lengths of which both octets count, and whose octets differ."""
    sizes = [(0x102,), (0x201,), (0x100,), (0xFF,), (0x101, 1), (2, 0x102, 0), (0x100, 0x100)]
    return [case_of(form, [some_text(form, size, chance) for size in each]) for each in sizes]


# Damage to header and table.


def table_end(case: Octets) -> int:
    return HEADER + 2 * model.big_endian(case[6:8])


def fields(case: Octets) -> list[int]:
    """Where the numbers of two octets stand: the version, the page count and the lengths."""
    return [3, *range(6, table_end(case), 2)]


def other_octets(octet: int) -> list[int]:
    """What an octet is changed to: one more, one less, nothing, all bits, its top bit, and the number of each form."""
    return sorted({(octet + 1) % 256, (octet - 1) % 256, 0, 0xFF, octet ^ 0x80, *model.FORMS} - {octet})


def hurt_octets(case: Octets, places: Iterable[int]) -> Iterator[Octets]:
    """The case with the octet at each of the places changed to each of some others."""
    for at in places:
        yield from (changed(case, at, octet) for octet in other_octets(case[at]))


def swapped(case: Octets, at: int) -> Octets:
    """The low octet first."""
    return (*case[:at], case[at + 1], case[at], *case[at + 2 :])


def with_number(case: Octets, at: int, number: int) -> Octets:
    return (*case[:at], *two_octets(number), *case[at + 2 :])


def hurt_fields(case: Octets) -> Iterator[Octets]:
    """Each number of two octets swapped, one more and one less, carrying over; and a page longer by what the next is shorter."""
    for at in fields(case):
        number = model.big_endian(case[at : at + 2])
        yield swapped(case, at)
        yield with_number(case, at, number + 1)
        yield with_number(case, at, number - 1)
        yield with_number(case, at, number + 0x100)
    for at in range(HEADER, table_end(case) - 2, 2):
        first, second = model.big_endian(case[at : at + 2]), model.big_endian(case[at + 2 : at + 4])
        for moved in (1, 2, -1, -2):
            if first >= moved and second >= -moved:
                yield with_number(with_number(case, at, first - moved), at + 2, second + moved)


def hurt_sizes(case: Octets) -> Iterator[Octets]:
    """The case cut at each place, lengthened, and with an octet taken out or put in."""
    yield from (case[:size] for size in range(len(case)))
    for more in ("00", "41", "FF", "4142", "544C58", "00" * 8, "41" * 255, "41" * 256, "41" * 257):
        yield case + octets_of(more)
    for at in range(len(case)):
        yield case[:at] + case[at + 1 :]
        yield case[:at] + (0,) + case[at:]


def hurt_sums(form: int) -> Iterator[Octets]:
    """Lengths that come to the size only where a sum loses its upper octets, and counts of which only the low octet is right."""
    many = [(0xFFFF, 1), (0xFFFF, 3), (0x8000, 0x8002), (0xFF, 3), (0x100,), (0x102,), (0xFFFF,) * 3 + (5,), (1, 0xFFFF, 2)]
    for lengths in many:
        for size in (sum(lengths) % 0x100, sum(lengths) % 0x10000):
            if size <= 0x100:
                yield laid_out(form, len(lengths), lengths, (0x41,) * size)
    for count in (0x100, 0x101, 0x102, 0x201, 0x8001, 0xFF01, 0xFFFF):
        for lengths in ((), (1,), (1, 1)):
            yield laid_out(form, count, lengths, (0x41,) * sum(lengths))
    # A table that is cut off, and one with a length too many.
    for count in (1, 2, 3):
        yield laid_out(form, count, [0] * (count - 1), ())
        yield laid_out(form, count, [0] * (count - 1), (0,))
        yield laid_out(form, count, [0] * (count + 1), ())


def all_at_once(form: int) -> Iterator[Octets]:
    """Some of: a wrong mark, version, form and size, and a fault on the second page. The first in 01's order is answered."""
    faulted = case_of(form, [(0x41,), octets_of("1B"), (0x42,)])
    sound = case_of(form, [(0x41,), (0x43,), (0x42,)])
    for mark, version, kind, size, fault in itertools.product((False, True), repeat=5):
        case = faulted if fault else sound
        case = changed(case, 2, 0x59) if mark else case
        case = changed(case, 4, 2) if version else case
        case = changed(case, 5, 4) if kind else case
        yield case + (0x44,) if size else case


def each_mark(case: Octets) -> Iterator[Octets]:
    """Other marks, of other octets, cases and orders, and each form octet."""
    for mark in ("746C78", "544C00", "4C5458", "584C54", "544C59", "554C58", "544D58", "D44C58", "54CC58", "544CD8", "000000"):
        yield octets_of(mark) + case[3:]
    for form in range(256):
        yield changed(case, 5, form)
    for version in (0, 2, 0x100, 0x101, 0x0201, 0xFFFF):
        yield with_number(case, 3, version)


# Faults of pages.


def on_page(form: int, page: int, text: Octets, chance: random.Random, count: int = 3) -> list[Octets]:
    """So many pages, the text on one of them."""
    pages = [some_text(form, chance.randrange(0, 9), chance) for _ in range(count)]
    pages[page] = text
    return pages


# What begins an element and does not end it.
BEGUN = {1: "C2 CF", 2: "19 1942", 3: "C2 CC CCC2 9B 9B34 9B3B3B 9B20 9BB4"}


def faulty_texts(form: int, chance: random.Random) -> Iterator[Octets]:
    """Each refusal alone, after some text, and before some; and an element that the text ends inside."""
    for refused in refused_octets(form):
        before = some_text(form, chance.randrange(1, 9), chance)
        yield from (refused, before + refused, before + refused + some_text(form, chance.randrange(1, 6), chance))
    for begun in map(octets_of, BEGUN[form].split()):
        yield from (begun, some_text(form, chance.randrange(1, 9), chance) + begun)


def faulty(form: int, chance: random.Random) -> Iterator[Octets]:
    """Each fault on the first page, a middle one and the last."""
    for text in faulty_texts(form, chance):
        yield from (case_of(form, on_page(form, page, text, chance)) for page in range(3))


def some_faulty(form: int, chance: random.Random) -> Iterator[Octets]:
    """Each fault on one page, the first, a middle one and the last in turn; in forms 1 and 2, of which a file has room for more, every
    second of them all."""
    cases = list(faulty(form, chance))
    yield from [cases[at + at // 3 % 3] for at in range(0, len(cases), 3)] if form == 3 else cases[::2]


def faulty_twice(form: int, chance: random.Random) -> Iterator[Octets]:
    """Faults on two pages: the first page's is answered, wherever in its page it stands."""
    for _ in range(60):
        pages = some_pages(form, 4, chance)
        for page in chance.sample(range(4), 2):
            pages[page] += chance.choice(refused_octets(form))
        yield case_of(form, pages)


def faulty_late(form: int, chance: random.Random) -> Iterator[Octets]:
    """A fault on the last of 256 pages, and after many elements."""
    for page in (0, 100, 255):
        yield case_of(form, changed(((),) * 256, page, octets_of("411B")))
    yield case_of(form, [(0x41,)] * 255 + [octets_of("00")])
    yield case_of(form, [some_text(form, 0x180, chance), some_text(form, 0x102, chance) + octets_of("1B")])


# Elements of several octets.
LONG_ELEMENTS = {
    1: "C265 C120 CF7A",
    2: "1921 194265 197F 194120",
    3: "C265 CC41 CCC265 CCC120 CCA1 9B6D 9B346D 9B3B6D 9B31323B3939393B2F7E 9BB4ED",
}


def cut_apart(form: int, chance: random.Random) -> Iterator[Octets]:
    """An element that one page begins and the next page would go on with, at each place that it can be cut at."""
    for element in map(octets_of, LONG_ELEMENTS[form].split()):
        for at in range(1, len(element)):
            for before_size, after_size, empty, first in ((0, 0, 0, 0), (3, 2, 0, 1), (5, 0, 1, 0), (0, 4, 2, 2)):
                before = some_text(form, before_size, chance) + element[:at]
                after = element[at:] + some_text(form, after_size, chance)
                others = [some_text(form, 3, chance) for _ in range(first)]
                case = case_of(form, [*others, before, *[()] * empty, after])
                answer, _ = model.read_case(case)
                assert (answer.number, answer.count, answer.page) == (4, len(before), first)
                yield case
        # All of the element on one page, and the next page begins with one too.
        yield case_of(form, [element, element, (*some_element(form, chance), *element)])


# Pages with elements that are not canonical.


def respelled_cases(form: int, chance: random.Random) -> Iterator[Octets]:
    """Another number of them on each page, in both orders; on one page alone; what is counted by hand; among others; and before a fault."""
    others = respellable(form)
    for element in others:
        counted = [element * count for count in (3, 0, 1, 5)]
        yield from (case_of(form, counted), case_of(form, counted[::-1]), case_of(form, [element, (0x41,), *counted[:1]]))
        yield from (case_of(form, changed(((0x41,),) * 3, page, element)) for page in range(3))
        yield case_of(form, [element, element + octets_of("1B"), element])
    yield case_of(form, [octets_of(text) for each, text, _ in model.RESPELLED if each == form])
    for count in (1, 2, 3, 4, 5, 6) * 3:
        yield case_of(form, [page + chance.choice(others) + some_element(form, chance) for page in some_pages(form, count, chance)])
    # Each element at an end of its page: no page reads what stands on the next.
    for first, second in zip(others, others[1:]):
        yield case_of(form, [(0x41, *first), (*second, 0x42)])


# Reading.


class Reading(NamedTuple):
    case: Octets
    room: int


def needed(case: Octets) -> Optional[int]:
    """How many words the case puts, or None for a refusal."""
    answer, words = model.read_case(case)
    return len(words) if answer.number == 0 else None


def rooms(case: Octets, most: int = MOST_WORDS_PUT) -> Iterator[Reading]:
    """At each edge of the room: just enough, one short, one over, none, and the most. A refusal has the last two, no room first."""
    size = needed(case)
    edges = [] if size is None else [size, size - 1, size + 1]
    for room in [*edges, 0, most]:
        if room >= 0:
            yield Reading(case, room)


def one_room(case: Octets, chance: random.Random) -> Reading:
    """With just enough room, or now and then another."""
    size = needed(case)
    enough = chance.randrange(64) if size is None else size
    return Reading(case, chance.choice([enough, enough, enough, max(0, enough - 1), 0, MOST_WORDS_PUT]))


def hurt_cases(form: int) -> list[Octets]:
    """Small cases of which each octet of header and table is damaged."""
    own = {1: "41 C265", 2: "194265 41", 3: "CC41 9B346D"}
    pages = [[octets_of(page) for page in own[form].split()]]
    pages += [[], [()], [(0x41,), (0x42, 0x43)], [(), octets_of("41424344"), (0x45,)]]
    pages += [[(0x41, 0x42), (0x43,), (), (0x44, 0x45, 0x46)]]
    return [case_of(form, each) for each in pages]


def hurt_headers(form: int) -> Iterator[Octets]:
    """Header and table damaged at each octet; cut, lengthened; and what else is wrong before any page is read."""
    for case in hurt_cases(form):
        yield from hurt_octets(case, range(table_end(case)))
        yield from hurt_fields(case)
        yield from hurt_sizes(case)
    yield from hurt_sums(form)
    yield from all_at_once(form)
    yield from each_mark(hurt_cases(form)[0])


def hurt_many(form: int, chance: random.Random) -> Iterator[Octets]:
    """A table of 20 pages damaged at each octet, and one of 256 at its ends and at some places between."""
    case = case_of(form, [(0x41,)] * 20)
    yield from (changed(case, at, octet) for at in range(HEADER, table_end(case)) for octet in (2, 0xFF))
    case = case_of(form, [()] * 256)
    places = [6, 7, 8, 9, *sorted(chance.sample(range(10, table_end(case) - 2), 6)), table_end(case) - 2, table_end(case) - 1]
    yield from (changed(case, at, octet) for at in places for octet in (2, 0xFF))


def hurt_bodies(form: int, chance: random.Random) -> Iterator[Octets]:
    """Cases with their page octets damaged, and with any octets damaged."""
    for pages in (some_pages(form, 4, chance) for _ in range(25)):
        case = case_of(form, [*pages, some_text(form, 5, chance)])
        at = chance.randrange(table_end(case), len(case))
        yield changed(case, at, chance.choice(TELLING))
        yield from damaged_texts([case], chance)


def case_lists(form: int) -> Tuple[list[Octets], list[Octets]]:
    """The cases that are read with each room, and those that are read with one."""
    chance = random.Random(SEED)
    whole = [EXAMPLE, *hurt_cases(form), *well_formed(form, chance), *many_pages(form, chance)]
    large = large_pages(form, chance)
    faults = [*faulty(form, chance), *faulty_twice(form, chance), *faulty_late(form, chance), *cut_apart(form, chance)]
    hurt = [*hurt_headers(form), *hurt_many(form, chance), *hurt_bodies(form, chance)]
    hurt += [each for case in large[-2:] for each in hurt_fields(case)]
    return whole, [*large, *faults, *hurt]


def respelled_readings() -> Iterator[Reading]:
    for form in model.FORMS:
        for case in respelled_cases(form, random.Random(SEED)):
            yield from rooms(case)


def readings(form: int) -> Iterator[Reading]:
    chance = random.Random(SEED)
    whole, others = case_lists(form)
    for case in [*whole, *all_at_once(form), *cut_apart(form, chance)]:
        yield from rooms(case)
    for case in others:
        yield one_room(case, chance)


# Pages.


class Page(NamedTuple):
    case: Octets
    page: int


def page_numbers(case: Octets) -> list[int]:
    """Each page of the case, or some of many; just past the last, and far past. Of a refused case the first two and far past."""
    found = model.case_of(case)
    if isinstance(found, int):
        return [0, 1, FAR]
    count = len(found.pages)
    if count > 20:
        return [0, 128, count - 1, count, FAR]
    return [*range(count), count, count + 1, 0x100, 0x10000, FAR]


def pages_asked(form: int) -> Iterator[Page]:
    chance = random.Random(SEED)
    whole, others = case_lists(form)
    faults = [*some_faulty(form, chance), *faulty_late(form, chance), *cut_apart(form, chance)]
    for case in [*whole, *all_at_once(form), *faults, *chance.sample(others, 100)]:
        yield from (Page(case, page) for page in page_numbers(case))


def respelled_pages() -> Iterator[Page]:
    for form in model.FORMS:
        for case in respelled_cases(form, random.Random(SEED)):
            yield from (Page(case, page) for page in page_numbers(case)[:-3])


def headers_asked() -> Iterator[Octets]:
    for form in model.FORMS:
        whole, _ = case_lists(form)
        yield from [*whole, *hurt_headers(form)]


# Writing.


class Writing(NamedTuple):
    form: int
    lengths: Lengths
    octets: Octets
    room: int


def lengths_of(pages: Pages) -> Lengths:
    return tuple(map(len, pages))


def some_octets(size: int, chance: random.Random) -> Octets:
    """Any octets: writing does not read the pages."""
    return tuple(chance.randrange(256) for _ in range(size))


def good_parts(chance: random.Random) -> Iterator[Tuple[Lengths, Octets]]:
    """Lengths that add up, with their octets."""
    few = [(), (0,), (0, 0), (1,), (1, 2), (2, 1), (0, 3, 0)]
    for lengths in [*few, (255,), (256,), (257,), (0x102,), (0x201,), (1, 0x102, 0), (600, 400)]:
        yield lengths, some_octets(sum(lengths), chance)
    for count in (254, 255, 256):
        for size in (0, 1, 3):
            yield (size,) * count, some_octets(size * count, chance)
    for _ in range(60):
        lengths = tuple(chance.choice([0, 1, chance.randrange(12), chance.randrange(60)]) for _ in range(chance.randrange(1, 9)))
        yield lengths, some_octets(sum(lengths), chance)


# Lengths of which one does not fit, or whose sum is right only where it loses its upper octets. Each goes with as many octets as
# the sum leaves in two octets or in four.
TOO_LONG: list[Lengths] = [
    (0xFFFF,),
    (0xFFFF, 1),
    (0xFFFF, 4),
    (0x8000, 0x8003),
    (0x10000,),
    (0x10001,),
    (0x10002, 1),
    (1, 0x10000),
    (0x1FFFF,),
    (0x10000, 0x10000),
    (0xFFFFFFFF,),
    (0xFFFFFFFF, 1),
    (0xFFFFFFFF, 5),
    (5, 0xFFFFFFFF),
    (0xFFFFFFFF, 0xFFFF),
    (0x80000000, 0x80000000),
    (0x80000000, 0x80000003),
    (0xFFFF0001, 0xFFFF),
    (0xFFFF0001, 0xFFFF, 3),
    (0xFFFFFFFF,) * 2 + (7,),
    (0x01000000,) * 256,
    (0x01000000,) * 255 + (0x01000005,),
    (0x100,) * 256,
    (0xFFFF,) * 256 + (256,),
]


def bad_parts(chance: random.Random) -> Iterator[Tuple[Lengths, Octets]]:
    """Lengths and octets that are refused."""
    for lengths in TOO_LONG:
        for size in sorted({0, 1, 3, sum(lengths) % 2**16, sum(lengths) % 2**32}):
            if size <= MOST_CASE:
                yield lengths, some_octets(size, chance)
    for count in (257, 258, 300):
        for size in (0, 1):
            yield (size,) * count, some_octets(size * count, chance)
            yield (size,) * count, some_octets(size * (count - 256), chance)
    yield (0,) * 256, (0x41,)
    yield (1,) * 256, (0x41,) * 255
    for lengths in ((), (0,), (1,), (1, 2), (0, 3, 0), (0x102,), (5, 5, 5)):
        for size in (sum(lengths) - 1, sum(lengths) + 1, sum(lengths) + 2, sum(lengths) + 256, 2 * sum(lengths) + 1):
            if size >= 0:
                yield lengths, some_octets(size, chance)
    for lengths, octets in [each for each in good_parts(chance) if 0 < len(each[0]) < 10]:
        at = chance.randrange(len(lengths))
        yield changed(lengths, at, lengths[at] + chance.choice([1, 2, 0x100, 0x10000])), octets
        yield lengths + (chance.randrange(1, 9),), octets
        if octets:
            yield lengths, octets[: chance.randrange(len(octets))]


def write_rooms(form: int, lengths: Lengths, octets: Octets) -> Iterator[Writing]:
    """At each edge of the room: just enough, one short, one over, none, and the most. A refusal has the last two, no room first."""
    answer, case = model.write_case(form, lengths, octets)
    edges = [len(case), len(case) - 1, len(case) + 1, HEADER] if answer.number == 0 else []
    for room in [*edges, 0, MOST_PUT]:
        yield Writing(form, lengths, octets, room)


def writings(form: int) -> Iterator[Writing]:
    chance = random.Random(SEED)
    for lengths, octets in good_parts(chance):
        yield from write_rooms(form, lengths, octets)
    for pages in (some_pages(form, count, chance) for count in range(1, 9)):
        yield from write_rooms(form, lengths_of(pages), joined(pages))


def refused_writings() -> Iterator[Writing]:
    """Parts that are refused, in one form after another; and a form that is none, with parts that are right or wrong."""
    for form, (lengths, octets) in zip(itertools.cycle(model.FORMS), bad_parts(random.Random(SEED))):
        yield from write_rooms(form, lengths, octets)
    parts = [((), ()), ((1, 2), octets_of("41C265")), ((1,), ()), ((0x10000,), ()), ((0,) * 257, ()), ((2,), octets_of("411B"))]
    for form in (*WRONG_FORMS, 5, 256, 258, 259, 0x10001, 0x1000001):
        for lengths, octets in parts:
            yield from write_rooms(form, lengths, octets)


# Long cases: pages up to the longest, 65,535 octets, and of more octets together than a length can say.

LONGEST = model.MOST_LENGTH
LONG_SIZES: dict[int, list[Lengths]] = {
    1: [(LONGEST,), (LONGEST, 300), (0x8000, 0x8000), (0x7FFF, 0x8001), (LONGEST, 0, 1)],
    2: [(LONGEST, 300)],
    3: [(300, LONGEST)],
}


def of_letters(sizes: Iterable[int]) -> list[Octets]:
    """Pages of these sizes, each of one letter alone."""
    return [(0x41 + page,) * size for page, size in enumerate(sizes)]


def long_cases(form: int) -> Iterator[Octets]:
    """Accepted; too short, too long; with a fault on the second page, an element that the first page cuts off, and few canonical ones."""
    for sizes in LONG_SIZES[form]:
        case = case_of(form, of_letters(sizes))
        yield from (case, case[:-1], case + (0x41,))
    page = (0x41,) * LONGEST
    yield case_of(form, [page, (0x42,) * 299 + octets_of("1B")])
    begun = octets_of(BEGUN[form].split()[0])
    yield case_of(form, [page[len(begun) :] + begun, octets_of("65")])
    if form == 3:
        yield case_of(form, [(0x23,) * LONGEST, (0xA6,), (0x24,) * 300])
    yield laid_out(form, 2, (LONGEST, 4), (0x41,) * 3)
    yield laid_out(form, 2, (LONGEST, 0x8000), (0x41,) * 0x7FFF)


def long_readings() -> Iterator[Reading]:
    for form in model.FORMS:
        for case in long_cases(form):
            yield from rooms(case, MOST_LONG)


def long_pages() -> Iterator[Page]:
    for form in model.FORMS:
        for case in long_cases(form):
            yield from (Page(case, page) for page in page_numbers(case))


def long_writings() -> Iterator[Writing]:
    """Lengths that add up, and that are off by one; and pages of one octet too many."""
    for form, sizes in [(form, sizes) for form in model.FORMS for sizes in LONG_SIZES[form]]:
        octets = joined(of_letters(sizes))
        size = HEADER + 2 * len(sizes) + len(octets)
        yield from (Writing(form, sizes, octets, room) for room in (size, size - 1, size + 1, 0, MOST_LONG))
        yield Writing(form, sizes, octets[1:], MOST_LONG)
        yield Writing(form, sizes, octets + (0x41,), MOST_LONG)
    for sizes in ((LONGEST + 1,), (LONGEST + 1, 0), (1, LONGEST + 1), (LONGEST + 300,)):
        yield Writing(1, sizes, joined(of_letters(sizes)), MOST_LONG)


# Lines.


def runs_text(entries: Iterable[int]) -> str:
    """How many times, and which entry, for each run."""
    runs = [(len(list(run)), entry) for entry, run in itertools.groupby(entries)]
    assert len(runs) <= MOST_RUNS
    return words_text(number for run in runs for number in run)


def reading_text(reading: Reading, octets_said: Said, words_said: Said) -> str:
    case, room = reading
    answer, put = model.read_case(case, room)
    assert len(put) == (answer.count if answer.number == 0 else 0)
    return f"{octets_said(case)},{place_text(room)},{answer_text(answer)},{words_said(put)}"


def reading_line(reading: Reading) -> str:
    assert len(reading.case) <= MOST_CASE and reading.room <= MOST_WORDS_PUT
    return reading_text(reading, octets_text, words_text)


def long_reading_line(reading: Reading) -> str:
    assert max(len(reading.case), reading.room) <= MOST_LONG
    return reading_text(reading, runs_text, runs_text)


def page_text(asked: Page, octets_said: Said) -> str:
    case, page = asked
    answer = model.page_elements(case, page)
    return f"{octets_said(case)},{page:02X},{'.' if answer is None else answer_text(answer)}"


def page_line(asked: Page) -> str:
    assert len(asked.case) <= MOST_CASE
    return page_text(asked, octets_text)


def long_page_line(asked: Page) -> str:
    assert len(asked.case) <= MOST_LONG
    return page_text(asked, runs_text)


def header_line(case: Octets) -> str:
    assert len(case) <= MOST_CASE
    found = model.case_of(case)
    said = f"!{found:02}" if isinstance(found, int) else f"{found.form:02X} {place_text(len(found.pages))}"
    return f"{octets_text(case)},{said}"


def writing_text(writing: Writing, octets_said: Said) -> str:
    form, lengths, octets, room = writing
    assert len(lengths) <= MOST_LENGTHS
    answer, put = model.write_case(*writing)
    assert len(put) == (answer.count if answer.number == 0 else 0)
    asked = f"{form:X},{words_text(lengths)},{octets_said(octets)},{place_text(room)}"
    return f"{asked},{answer_text(answer)},{octets_said(put)}"


def writing_line(writing: Writing) -> str:
    assert len(writing.octets) <= MOST_CASE and writing.room <= MOST_PUT
    return writing_text(writing, octets_text)


def long_writing_line(writing: Writing) -> str:
    assert max(len(writing.octets), writing.room) <= MOST_LONG
    return writing_text(writing, runs_text)


def files() -> dict[str, list[str]]:
    """The lines of each file, by its name, without the heading."""
    found = {f"read_{form}.csv": unlike(map(reading_line, readings(form))) for form in model.FORMS}
    found.update({f"page_{form}.csv": unlike(map(page_line, pages_asked(form))) for form in model.FORMS})
    found["read_respelled.csv"] = unlike(map(reading_line, respelled_readings()))
    found["page_respelled.csv"] = unlike(map(page_line, respelled_pages()))
    found["header.csv"] = unlike(map(header_line, headers_asked()))
    found.update({f"write_{form}.csv": unlike(map(writing_line, writings(form))) for form in model.FORMS})
    found["write_refused.csv"] = unlike(map(writing_line, refused_writings()))
    found["long_read.csv"] = unlike(map(long_reading_line, long_readings()))
    found["long_page.csv"] = unlike(map(long_page_line, long_pages()))
    found["long_write.csv"] = unlike(map(long_writing_line, long_writings()))
    return found


HEADINGS = {
    "read": "case,room,answer,words",
    "page": "case,page,answer",
    "header": "case,answer",
    "write": "form,lengths,octets,room,answer,case",
}


def heading(name: str) -> str:
    return HEADINGS[name.removeprefix("long_").removesuffix(".csv").split("_")[0]]


def check_faults() -> None:
    """Each number that a form's reading has is answered on the first page, on a middle one and on the last."""
    numbers = {1: {1, 2, 3, 4}, 2: {1, 2, 3, 4, 5}, 3: {1, 2, 3, 4, 6, 7, 8}}
    for form in model.FORMS:
        answers = [model.read_case(case)[0] for case in faulty(form, random.Random(SEED))]
        found = {(answer.number, answer.page) for answer in answers}
        assert found >= set(itertools.product(numbers[form], range(3))), (form, found)


def check_respelled() -> None:
    """An accepted case has the sum of its pages' numbers, and a refused one 0, though some of its pages have more."""
    for form in model.FORMS:
        sums = 0
        for case in respelled_cases(form, random.Random(SEED)):
            answer, _ = model.read_case(case)
            pages = [model.page_elements(case, page) for page in range(len(model.case_of(case).pages))]
            assert answer.respelled == (0 if answer.number else sum(page.respelled for page in pages)), (form, case)
            sums += sum(page.respelled > 0 for page in pages) > 1
        assert sums > 20, (form, sums)


def texts() -> dict[pathlib.Path, str]:
    """The text of each file that is written, by its path."""
    found = {}
    report = []
    for name, lines in files().items():
        text = "".join(each + "\n" for each in [heading(name), *lines])
        asked = heading(name).split(",").index("answer")
        assert len(text) < MOST_FILE, (name, len(text))
        assert max(len(each.split(",", asked)[asked]) for each in lines) <= MOST_ANSWER
        found[CRATE / "data" / name] = text
        report.append(f"{name}: {len(lines)} vectors, 0 wrong\n")
    found[CRATE / "stdout"] = "".join(report)
    return found


def write(path: pathlib.Path, text: str) -> None:
    path.parent.mkdir(parents=True, exist_ok=True)
    path.write_bytes(text.encode("ascii"))


def is_written(path: pathlib.Path, text: str) -> bool:
    """Whether the file has just that text; says so where not."""
    same = path.exists() and path.read_bytes() == text.encode("ascii")
    if not same:
        print(f"{path.relative_to(ROOT)} is not as tests/make_tlx_vectors.py writes it", file=sys.stderr)
    return same


def main(arguments: list[str]) -> int:
    if arguments not in ([], ["--check"]):
        print(__doc__, file=sys.stderr)
        return 2
    check_faults()
    check_respelled()
    if arguments == ["--check"]:
        return 0 if all([is_written(path, text) for path, text in texts().items()]) else 1
    for path, text in texts().items():
        write(path, text)
    return 0


if __name__ == "__main__":
    sys.exit(main(sys.argv[1:]))
