"""The library for C, asked through its header by tests/driver.c, beside the model of the documents; and the examples that call it.

    library.py FOLDER [EMULATOR ..]     for tests/run: FOLDER has the built programs, which run under the emulator if one is named

`compare` asks every question with the buffers laid in three ways, and says how many answers are the model's: all numbers, and every
octet of each lent buffer after the call, the ones that are only read too. Questions are all texts of up to two octets, and of three that
begin with SS2, CC or 9B, read and converted, and their elements by themselves; sequences in every kind of spelling; the vectors of
make_text_vectors.py, make_serial_vectors.py, make_tlx_vectors.py and make_compare_vectors.py; random texts, words and cases, whole and
damaged; accepted texts joined; random pages up to the limit in random pieces, each beside its reading as a whole; carries that nobody
made; two texts compared, all of one octet, and random ones beside their respellings, changed and damaged; and the longest texts.
`points` asks of every code point up to 11FFFF, laid in the same three ways, how each form writes it, and how it reads and converts that.

A question is six 32-bit numbers (what is asked, form, target, entries of the first buffer, octets of the second, room) and the two
buffers; an answer is six 64-bit numbers and all three buffers. Elements of a text one by one have the number of places as the target;
the answer is five numbers and the words of each, of the one at the last place that there is too, and the text. A page in pieces has its
number of calls as the first buffer's entries, and then the fields of a carry if it is not made fresh. For each call follow three numbers
(octets of the piece, whether the page ends, room) and the piece; its answer is the carry, the five numbers, how many words were handed
out, and both buffers. Two texts that are compared are the two buffers, or the second is the end of the first; the answer is eleven
numbers and both texts. The question of code points has their number as the first buffer's entries, and no buffer; its answer is a record
of POINTS for each run of them that are answered alike. Standard library only.
"""
from __future__ import annotations

import functools
import itertools
import pathlib
import random
import resource
import signal
import struct
import subprocess
import sys
import tempfile
from typing import Iterable, Iterator, NamedTuple, Optional, Sequence, Union

sys.dont_write_bytecode = True
import examples
import make_compare_vectors as compares
import make_element_vectors as elements
import make_serial_vectors as serials
import make_text_vectors as texts
import make_tlx_vectors as cases
import model

READ, WRITE, CONVERT, CASE_READ, CASE_WRITE, LOOK_TOO_FAR, PUT_TOO_FAR, FRESH, CARRIED, EACH, COMPARE, OVERLAP, ELEMENTS = range(1, 14)
OCTET, WORD = 1, 4
SIDES = ("middle", "start", "end")
SEED = 61
RANDOM_TEXTS = 2_500  # of each form, before damage
JOINED = 1_000  # pairs of texts of each form
RANDOM_CASES = 400
RANDOM_PAGES = 100  # of each form, in pieces, before damage
LONG_PAGES = 2  # and so many of any length up to the limit
MOST_CALLS = 1_500
RANDOM_CARRIES = 10_000
TWO_OCTETS = 20_000  # texts of each form that are compared
RANDOM_PAIRS = 1_000  # texts of each form, before they are changed
LONG_PAIRS = 15  # and so many of up to some thousand octets
OVERLAPS = 1_000  # of each form, in one buffer
REFUSED_ROOM = 3
LAST_PLACE = 2**64 - 1

# What the driver fills a buffer with: it comes again after 256 octets.
FILL = bytes((37 * place + 11) % 256 for place in range(256))

# Past the last code point there is, 10FFFF, by a plane. What the driver says of those that are answered alike: the first and the last;
# the numbers of writing, of reading and of converting; and the buffers of writing, converting and reading.
CODE_POINTS = 0x120000
POINTS = struct.Struct("<2Q14Q8s8s8s")
UNSPELT = bytes(range(0x80, 0x88))  # what it fills these buffers with: octets that no character's spelling has


class Asked(NamedTuple):
    """A question as the driver reads it, and the answer as it should write it."""

    question: bytes
    answer: bytes


def words_octets(words: Sequence[int]) -> bytes:
    return struct.pack(f"<{len(words)}I", *words)


def left(put: bytes, size: int) -> bytes:
    """A buffer of that many octets after `put` was written to its start."""
    return put + (FILL * (size // 256 + 1))[len(put) : size]


def asked(ask: int, forms: Sequence[int], first: tuple[int, bytes], second: bytes, room: int, answer: Sequence[int], after: bytes) -> Asked:
    """`first` is its number of entries and its octets; `after` is what the written buffer holds."""
    form, target = (*forms, 0, 0)[:2]
    numbers = (*answer, 0, 0)[:6]
    question = struct.pack("<6I", ask, form, target, first[0], len(second), room) + first[1] + second
    return Asked(question, struct.pack("<6Q", *numbers) + first[1] + second + after)


def reading(form: int, text: bytes, room: int) -> Asked:
    answer, words = model.read_text(form, text, room)
    return asked(READ, [form], (len(text), text), b"", room, answer, left(words_octets(words), WORD * room))


def writing(form: int, words: Sequence[int], room: int) -> Asked:
    answer, octets = model.write_text(form, words, room)
    return asked(WRITE, [form], (len(words), words_octets(words)), b"", room, answer, left(bytes(octets), room))


def converting(source: int, target: int, text: bytes, room: int) -> Asked:
    answer, octets = model.convert_text(source, target, text, room)
    return asked(CONVERT, [source, target], (len(text), text), b"", room, answer, left(bytes(octets), room))


def case_reading(case: bytes, room: int) -> Asked:
    answer, words = model.read_case(case, room)
    return asked(CASE_READ, [], (len(case), case), b"", room, answer, left(words_octets(words), WORD * room))


def case_writing(form: int, lengths: Sequence[int], octets: bytes, room: int) -> Asked:
    answer, case = model.write_case(form, lengths, octets, room)
    return asked(CASE_WRITE, [form], (len(lengths), words_octets(lengths)), octets, room, answer, left(bytes(case), room))


def elements_read(form: int, text: bytes, room: int, places: Optional[int] = None) -> Asked:
    """One element at each of so many places, or at each of the text, at its end and past it; and at the last place that there is."""
    places = len(text) + 2 if places is None else places
    question = struct.pack("<6I", ELEMENTS, form, places, len(text), 0, room) + text
    answer = []
    for at in (*range(places), LAST_PLACE):
        numbers, words = model.read_one(form, text, at, room)
        answer += [struct.pack("<5Q", *numbers), left(words_octets(words), WORD * room)]
    return Asked(question, b"".join(answer) + text)


def short() -> Iterator[Asked]:
    """All texts of up to two octets, read and converted in each way, with room for whatever they give; and their elements one by one."""
    for size in range(3):
        for octets in itertools.product(range(256), repeat=size):
            text = bytes(octets)
            for form in model.FORMS:
                yield reading(form, text, size)
                yield elements_read(form, text, size)
                for target in model.FORMS:
                    yield converting(form, target, text, 2 * size)


def three_octets() -> Iterator[Asked]:
    """All texts of SS2 and two octets in form 2, and of CC or 9B and two octets in form 3: read, their first element by itself, with just
    the room that it may need, and converted within the form."""
    for form, first, most in ((2, model.SS2, 1), (3, model.UNDERLINE, 1), (3, model.SEQUENCE_START, 3)):
        for octets in itertools.product(range(256), repeat=2):
            text = bytes((first, *octets))
            yield reading(form, text, len(text))
            yield elements_read(form, text, most, places=1)
            yield converting(form, form, text, 2 * len(text))


def sequences() -> Iterator[Asked]:
    """Sequences in every kind of spelling and in either half, alone and between others, read, converted, and one by one."""
    chance = random.Random(SEED)
    points = (*elements.at_points(), *elements.at_points(model.raised), *elements.mixed_points(chance))
    halves = (*elements.upper_sequences(), *elements.mixed_sequences(chance))
    for octets in (*elements.spelt_sequences(), *elements.sequences(chance), *points, *halves):
        for text in (bytes(octets), b"a" * chance.randrange(20) + bytes(octets) + b"#"):
            yield reading(3, text, room_near(model.read_text(3, text), chance))
            yield converting(3, 3, text, room_near(model.convert_text(3, 3, text), chance))
            yield elements_read(3, text, chance.choice([0, 1, 2, 8, 9, 10]))


def carry_octets(carry: model.Carry) -> bytes:
    return struct.pack("<6Q2I", *carry.answer, carry.respelled, carry.holds, carry.form, carry.stopped) + bytes(carry.held)


def fed_octets(fed: model.Fed) -> bytes:
    return carry_octets(fed.carry) + struct.pack("<6Q", *fed.answer, len(fed.words))


def feeding(start: Union[int, model.Carry], calls: Sequence[serials.Call], outcomes: Iterable[model.Fed]) -> Asked:
    """A page in pieces: where it is made fresh, with the outcome of that first."""
    is_fresh = isinstance(start, int)
    question = [struct.pack("<6I", FRESH if is_fresh else CARRIED, start if is_fresh else 0, 0, len(calls), 0, 0)]
    question += [] if is_fresh else [carry_octets(start)]
    outcomes = iter(outcomes)
    answer = [fed_octets(next(outcomes))] if is_fresh else []
    for call, fed in zip(calls, outcomes):
        question += [struct.pack("<3I", len(call.piece), call.ended, call.room), call.piece]
        answer += [fed_octets(fed), call.piece, left(words_octets(fed.words), WORD * call.room)]
    return Asked(b"".join(question), b"".join(answer))


def two_texts(ask: int, form: int, first: bytes, second: bytes, said: model.Comparison) -> Asked:
    """Two texts that are compared; the second is lent by itself, or it is the end of the first."""
    lent = b"" if ask == OVERLAP else second
    question = struct.pack("<6I", ask, form, 0, len(first), len(second), 0) + first + lent
    return Asked(question, struct.pack("<11Q", *model.numbers_of(said)) + first + second)


def comparing(form: int, first: bytes, second: bytes) -> Asked:
    return two_texts(COMPARE, form, first, second, model.compared(form, first, second))


def overlapping(form: int, first: bytes, size: int) -> Asked:
    second = first[len(first) - size :]
    return two_texts(OVERLAP, form, first, second, model.compared(form, first, second))


def vectors() -> Iterator[Asked]:
    for found in serials.files().values():
        yield from (feeding(vector.start, vector.calls, serials.outcomes(vector)) for vector in found)
    for found in compares.files().values():
        yield from (comparing(*pair) for pair in found)
    for form in model.FORMS:
        yield from (reading(q.forms[0], bytes(q.entries), q.room) for q in texts.readings(form))
        yield from (elements_read(form, bytes(text), 2) for text in texts.respelled_texts(form, random.Random(SEED)))
        yield from (writing(q.forms[0], q.entries, q.room) for q in texts.writings(form))
        yield from (converting(*q.forms, bytes(q.entries), q.room) for q in (*texts.conversions(form), *texts.respellings(form)))
        yield from (case_reading(bytes(q.case), q.room) for q in cases.readings(form))
        yield from (case_writing(q.form, q.lengths, bytes(q.octets), q.room) for q in cases.writings(form))
    yield from (case_reading(bytes(q.case), q.room) for q in (*cases.respelled_readings(), *cases.long_readings()))
    yield from (elements_read(lone.form, bytes(lone.octets), lone.room) for lone in dict.fromkeys(texts.every_place()))
    parts = itertools.chain(cases.refused_writings(), cases.long_writings())
    yield from (case_writing(q.form, q.lengths, bytes(q.octets), q.room) for q in parts)


def room_near(outcome: tuple, chance: random.Random) -> int:
    """Just enough for the outcome, one short, or some over; for a refusal, some room."""
    answer, entries = outcome
    enough = len(entries) if answer.number == 0 else REFUSED_ROOM
    return max(0, enough + chance.choice([0, 0, 0, -1, 1, 5]))


def random_texts(form: int, chance: random.Random) -> Iterator[bytes]:
    for text in texts.short_texts(form, RANDOM_TEXTS, chance):
        yield bytes(text)
        yield from map(bytes, texts.damaged_texts([text], chance))
        yield chance.randbytes(chance.randrange(3, 12))


def random_words(form: int, chance: random.Random) -> Iterator[Sequence[int]]:
    for words in texts.words_of_all(form, texts.short_texts(form, RANDOM_TEXTS, chance)):
        yield words
        yield from texts.damaged_words([words], chance)


def random_cases(form: int, chance: random.Random) -> Iterator[bytes]:
    for _ in range(RANDOM_CASES):
        case = cases.case_of(form, cases.some_pages(form, chance.randrange(6), chance))
        yield bytes(case)
        yield from map(bytes, texts.damaged_texts([case], chance))


def random_parts(chance: random.Random) -> Iterator[tuple[Sequence[int], bytes]]:
    """Lengths of a few pages, mostly with as many octets."""
    for _ in range(RANDOM_CASES):
        lengths = [chance.randrange(20) for _ in range(chance.randrange(6))]
        yield lengths, chance.randbytes(max(0, sum(lengths) + chance.choice([0, 0, 0, 0, 1, -1])))


def drawn() -> Iterator[Asked]:
    chance = random.Random(SEED)
    for form in model.FORMS:
        for text in random_texts(form, chance):
            yield reading(form, text, room_near(model.read_text(form, text), chance))
            yield elements_read(form, text, chance.choice([0, 1, 2, 3, 9, 9]))
            target = chance.choice(model.FORMS)
            yield converting(form, target, text, room_near(model.convert_text(form, target, text), chance))
        for words in random_words(form, chance):
            yield writing(form, words, room_near(model.write_text(form, words), chance))
        for case in random_cases(form, chance):
            yield case_reading(case, room_near(model.read_case(case), chance))
        for lengths, octets in random_parts(chance):
            yield case_writing(form, lengths, octets, room_near(model.write_case(form, lengths, octets), chance))


def joined() -> Iterator[Asked]:
    """Accepted texts alone and one behind the other, read and converted: all numbers add up, and the entries go one behind the other."""
    chance = random.Random(SEED)
    for form in model.FORMS:
        for _ in range(JOINED):
            both = [compares.spelt(form, compares.some_elements(form, chance.randrange(1, 20), chance), chance) for _ in range(2)]
            for ask in (functools.partial(model.read_text, form), functools.partial(model.convert_text, form, form)):
                (one, entries), (other, more), behind = map(ask, [*both, b"".join(both)])
                assert behind == (model.ReadAnswer(*map(sum, zip(one, other))), [*entries, *more]), (form, both)
            yield from (reading(form, text, len(text)) for text in (*both, b"".join(both)))
            yield from (converting(form, form, text, 2 * len(text)) for text in (*both, b"".join(both)))


def some_page(form: int, size: int, chance: random.Random) -> bytes:
    """A page of so many octets, of a few hundred elements over and over; the last may be cut off."""
    some = [bytes(texts.some_element(form, chance)) for _ in range(300)]
    return b"".join(chance.choices(some, k=size))[:size]


def random_pages(form: int, chance: random.Random) -> Iterator[bytes]:
    """Pages of any size up to the limit, and each with a fault somewhere."""
    sizes = [chance.randrange(1, 2_000) for _ in range(RANDOM_PAGES)] + [chance.randrange(model.MOST_ENTRIES) for _ in range(LONG_PAGES)]
    for size in [*sizes, model.MOST_ENTRIES]:
        page = some_page(form, size, chance)
        at = chance.randrange(size)
        yield page
        yield (page[:at] + bytes(chance.choice(texts.refused_octets(form))) + page[at:])[:size]


def random_ends(size: int, chance: random.Random) -> list[int]:
    """Where a page is cut: pieces of about one size, empty ones too. The end is told with the last octets, or behind them."""
    about = max(chance.choice([1, 3, 15, 40, 300, 5_000, 70_000]), size // MOST_CALLS)
    ends = itertools.accumulate(chance.randrange(2 * about + 1) for _ in range(2 * size // about))
    return [*(end for end in ends if end < size), size, *chance.choice([[], [size]])]


def cut(form: int, page: bytes, outcomes: Sequence[model.Fed], ends: Sequence[int], chance: random.Random) -> Asked:
    """The page in pieces, each now and then offered with too little room first; and calls after its end."""
    told = [model.fresh(form)]
    calls = []
    for to_come, start, end, fed in zip(range(len(ends) - 1, -1, -1), [0, *ends], ends, outcomes):
        call = serials.Call(page[start:end], len(fed.words) + chance.choice([0, 0, 1, 7]), to_come == 0)
        if fed.words and chance.randrange(8) == 0:
            calls.append(call._replace(room=chance.randrange(len(fed.words))))
            told.append(model.Fed(told[-1].carry, model.ReadAnswer(9, 0, 0, len(fed.words)), []))
        calls.append(call)
        told.append(fed)
    after = [serials.Call(b"A", 1, False), serials.Call(b"", 0, True)]
    return feeding(form, [*calls, *after], [*told, *(told[-1]._replace(words=[]) for _ in after)])


def whole(form: int, page: bytes, outcomes: Sequence[model.Fed]) -> Asked:
    """The page read as a whole: its answer is the last one of its pieces, and its words are theirs."""
    answer = outcomes[-1].answer
    words = [word for fed in outcomes for word in fed.words] if answer.number == 0 else []
    return asked(READ, [form], (len(page), page), b"", len(page), answer, left(words_octets(words), WORD * len(page)))


def pages() -> Iterator[Asked]:
    chance = random.Random(SEED)
    for form in model.FORMS:
        for page in random_pages(form, chance):
            ends = random_ends(len(page), chance)
            outcomes = list(model.cut_page(form, page, ends))
            yield cut(form, page, outcomes, ends, chance)
            yield whole(form, page, outcomes)


def carries() -> Iterator[Asked]:
    """Carries that nobody made: one that could have been left, with one field or two set to what lies at an edge."""
    chance = random.Random(SEED)
    edges = [0, 1, 2, 3, 38, 39, 40, 41, 255, 256, *(model.MOST_ENTRIES + d for d in (-1, 0, 1)), 2**32 - 1]
    edges64 = [*edges, 2**32, 2**63, 2**64 - model.MOST_ENTRIES, 2**64 - 40, 2**64 - 1]
    fields = ["respelled", "holds", "form", "stopped", "held", "number", "element", "place", "count"]
    kinds = (serials.going_carries, serials.stopped_carries, serials.respelled_carries)
    good = list(filter(model.page_of, (carry for form in model.FORMS for kind in kinds for carry in kind(form))))
    for _ in range(RANDOM_CARRIES):
        carry = chance.choice(good)
        for field in chance.sample(fields, chance.choice([1, 1, 2])):
            if field == "held":
                carry = carry._replace(held=tuple(chance.choices(texts.TELLING, k=model.MOST_HELD)))
            elif field in fields[:4]:
                carry = carry._replace(**{field: chance.choice(edges if field in ("form", "stopped") else edges64)})
            else:
                carry = carry._replace(answer=carry.answer._replace(**{field: chance.choice(edges64)}))
        pieces = [bytes(chance.choices(texts.TELLING, k=size)) for size in (1, 2)]
        calls = [serials.Call(piece, chance.randrange(4), bool(chance.randrange(2))) for piece in pieces]
        yield feeding(carry, calls, serials.outcomes(serials.Vector(carry, tuple(calls))))


def short_pairs(chance: random.Random) -> Iterator[tuple[bytes, bytes]]:
    """All texts of one octet beside each other; and some of two beside a part of them, or with one octet another."""
    yield from itertools.product([bytes([octet]) for octet in range(256)], repeat=2)
    for _ in range(TWO_OCTETS):
        text = chance.randbytes(2)
        yield text, chance.choice([b"", text[:1], text[1:], text, text[:1] + chance.randbytes(1), chance.randbytes(1) + text[1:]])


def random_pairs(form: int, chance: random.Random) -> Iterator[tuple[bytes, bytes]]:
    """A text beside its respelling, beside one with an element changed, dropped or put in, and beside what damage makes of it."""
    sizes = [chance.randrange(1, 16) for _ in range(RANDOM_PAIRS)] + [chance.randrange(16, 1_000) for _ in range(LONG_PAIRS)]
    for size in sizes:
        elements = compares.some_elements(form, size, chance)
        text = compares.spelt(form, elements, chance)
        changes = compares.changes(form, elements, chance.randrange(size), chance)
        yield from ((text, compares.spelt(form, others, chance)) for others in [elements, *changes])
        yield from ((text, bytes(hurt)) for hurt in texts.damaged_texts([tuple(text)], chance))


def pairs() -> Iterator[Asked]:
    for form in model.FORMS:
        chance = random.Random(SEED)
        yield from (comparing(form, *pair) for pair in short_pairs(chance))
        yield from (comparing(form, *pair) for pair in compares.both_ways(random_pairs(form, chance)))
        for text in map(bytes, texts.short_texts(form, OVERLAPS, chance)):
            yield overlapping(form, text * 2, chance.choice([len(text), 2 * len(text), chance.randrange(2 * len(text))]))


def longest_pairs() -> Iterator[Asked]:
    """Texts of the most octets that mean the same, differ in the last element, end before the other or are refused there; and longer."""
    half = model.MOST_ENTRIES // 2
    text, changed, shorter = b"\xC2e" * half, b"\xC2e" * (half - 1) + b"\xC2a", b"\xC2e" * (half - 1)
    single, double = b"`" * half, b"\xC1 " * half
    pieces = {each: model.read_pieces(1, each)[0] for each in (text, changed, shorter, single, double)}
    for first, second in [(text, text), (text, changed), (text, shorter), (shorter, text), (single, double), (double, single)]:
        said = model.compared_pieces(first, pieces[first], second, pieces[second])
        yield two_texts(COMPARE, 1, first, second, said)
    yield comparing(1, b"B", shorter + b"\xC2\x1B")
    over = b"\x1B" * (model.MOST_ENTRIES + 1)
    for form, first, second in [(1, over, text), (2, text, over), (3, over, over), (3, b"\x1B", over), (1, over, b"\x1B"), (0, over, over)]:
        yield comparing(form, first, second)


def past_the_limit() -> Asked:
    """A page of the most octets, which an empty piece does not pass; then one octet more."""
    page = b"A" * model.MOST_ENTRIES
    ends = [*range(65_536, model.MOST_ENTRIES + 1, 65_536), model.MOST_ENTRIES]
    calls = [serials.Call(page[start:end], end - start, False) for start, end in zip([0, *ends], ends)]
    refused = model.Fed(model.Carry(model.Answer(12), form=1, stopped=1), model.ReadAnswer(12), [])
    calls += [serials.Call(b"A", 0, False), serials.Call(b"", 0, True)]
    return feeding(1, calls, [model.fresh(1), *model.cut_page(1, page, [*ends, len(page)])][: len(ends) + 1] + [refused, refused])


def longest() -> Iterator[Asked]:
    """The longest input, and one entry more."""
    for size in (model.MOST_ENTRIES, model.MOST_ENTRIES + 1):
        yield reading(1, b"A" * size, size)
        yield reading(3, b"#" * size, size)
        yield elements_read(3, b"#" * size, 1, places=2)
        yield converting(2, 3, b"\n" * size, size)
        yield converting(3, 1, b"$" * size, size)
        yield writing(3, [0x41] * size, size)
    yield past_the_limit()
    yield from longest_pairs()


def written(asked: Iterable[Asked], folder: pathlib.Path) -> tuple[list[int], list[int]]:
    """Writes the questions and their answers to two files, and says where each ends in them."""
    ends: tuple[list[int], list[int]] = ([0], [0])
    with open(folder / "questions", "wb") as questions, open(folder / "expected", "wb") as expected:
        for question, answer in asked:
            ends[0].append(ends[0][-1] + questions.write(question))
            ends[1].append(ends[1][-1] + expected.write(answer))
    return ends


def wrong(expected: bytes, answers: bytes, ends: list[int]) -> list[int]:
    """Which of the questions have another answer, or none."""
    if expected == answers:
        return []
    return [i for i, (start, end) in enumerate(zip(ends, ends[1:])) if expected[start:end] != answers[start:end]]


def tell(side: str, which: int, folder: pathlib.Path, ends: tuple[list[int], list[int]]) -> None:
    """Says of a wrong answer what was asked, and both answers."""
    for name, at in [("questions", ends[0]), ("expected", ends[1]), ("answers", ends[1])]:
        with open(folder / name, "rb") as file:
            file.seek(at[which])
            print(f"  {side} {name}: {file.read(min(at[which + 1] - at[which], 200)).hex(' ', -4)}")


def driven(command: Sequence[str], folder: pathlib.Path) -> int:
    """Runs the driver on the questions, and gives its exit status."""
    with open(folder / "questions", "rb") as questions, open(folder / "answers", "wb") as answers:
        return subprocess.run(command, stdin=questions, stdout=answers, check=False).returncode


def compare(driver: Sequence[str], folder: pathlib.Path) -> tuple[int, int]:
    """How many answers of the library are the model's, and how many are not."""
    kinds = (short(), three_octets(), sequences(), vectors(), drawn(), joined(), pages(), carries(), pairs(), longest())
    ends = written(itertools.chain.from_iterable(kinds), folder)
    expected = (folder / "expected").read_bytes()
    count = len(ends[0]) - 1
    passed = failed = 0
    for side in SIDES:
        status = driven([*driver, side], folder)
        others = wrong(expected, (folder / "answers").read_bytes(), ends[1])
        print(f"library beside the model, buffers at the {side} of memory: {count - len(others):,} of {count:,} alike, exit status {status}")
        for which in others[:3]:
            tell(side, which, folder, ends)
        passed += count - len(others)
        failed += len(others) + (status != 0)
    return passed, failed


Numbers = Union[model.Answer, model.ReadAnswer]


class Outcome(NamedTuple):
    """What a call answers, and all of its buffer after it."""

    answer: Numbers
    buffer: bytes


class Point(NamedTuple):
    """What is answered of one code point: written; and where that is accepted, its octets read, and converted within the form."""

    written: Outcome
    read: Optional[Outcome] = None
    converted: Optional[Outcome] = None


def outcome_of(answer: Numbers, put: bytes) -> Outcome:
    return Outcome(answer, put + UNSPELT[len(put) :])


def point_of(form: int, codepoint: int) -> Point:
    """Of the model; what it writes must read as this one word, and stay as it is where it is converted: it is canonical."""
    answer, octets = model.write_text(form, [codepoint], len(UNSPELT))
    written = outcome_of(answer, bytes(octets))
    if answer.number:
        return Point(written)
    read = outcome_of(model.ReadAnswer(0, 1, answer.count, 1), words_octets([codepoint]))
    return Point(written, read, outcome_of(model.ReadAnswer(0, 1, answer.count, answer.count), bytes(octets)))


def points_of(form: int) -> list[Point]:
    """Of the model, by code point; those that are alike are kept once."""
    kept: dict[Point, Point] = {}
    return [kept.setdefault(point, point) for point in (point_of(form, codepoint) for codepoint in range(CODE_POINTS))]


def points_told(records: bytes) -> list[Point]:
    """Of the library, by code point; up to where the driver's records end, or do not follow one another."""
    told: list[Point] = []
    for first, last, *rest in POINTS.iter_unpack(records[: len(records) // POINTS.size * POINTS.size]):
        if first != len(told):
            break
        written, read, converted = model.Answer(*rest[:4]), model.ReadAnswer(*rest[4:9]), model.ReadAnswer(*rest[9:14])
        spelling, same, words = rest[14:]
        others = [] if written.number else [Outcome(read, words), Outcome(converted, same)]
        told += [Point(Outcome(written, spelling), *others)] * (last - first + 1)
    return told


def in_words(outcome: Optional[Outcome], width: int) -> str:
    """The answer, the entries that it says are written, and whether the buffer was left alone behind them."""
    if not outcome:
        return "nothing"
    number, *places = outcome.answer
    put = 0 if number else min(width * outcome.answer.count, len(UNSPELT))
    entries = [f"{int.from_bytes(outcome.buffer[at : at + width], 'little'):0{2 * width}X}" for at in range(0, put, width)]
    behind = "" if outcome.buffer[put:] == UNSPELT[put:] else f", the rest of the buffer altered: {outcome.buffer[put:].hex(' ').upper()}"
    return " ".join([f"refused with {number}" if number else "accepted", str(tuple(places)), *entries]) + behind


def tell_point(where: str, answered: Optional[Point], expected: Optional[Point]) -> None:
    """Says of a code point that is not answered as it should be what was answered, and what was expected."""
    parts = zip(("written", "read back", "converted"), answered or (None,) * 3, expected or (None,) * 3, (OCTET, WORD, OCTET))
    for name, one, other, width in parts:
        if one != other:
            print(f"  {where}, {name}: {in_words(one, width)}; expected: {in_words(other, width)}")


def points(driver: Sequence[str]) -> tuple[int, int]:
    """How many code points are answered as the model has it, in each form and with the buffers laid in three ways, and how many are not."""
    passed = failed = 0
    for form in model.FORMS:
        expected = points_of(form)
        question = struct.pack("<6I", EACH, form, 0, CODE_POINTS, 0, 0)
        for side in SIDES:
            run = subprocess.run([*driver, side], input=question, stdout=subprocess.PIPE, check=False)
            told = points_told(run.stdout)
            both = enumerate(itertools.zip_longest(told, expected))
            others = [] if told == expected else [(codepoint, one, other) for codepoint, (one, other) in both if one != other]
            alike, accepted = CODE_POINTS - len(others), sum(point.written.answer.number == 0 for point in told)
            laid = f"form {form}, buffers at the {side} of memory"
            print(f"code points, {laid}: {alike:,} of {CODE_POINTS:,} alike, {accepted} accepted, exit status {run.returncode}")
            for codepoint, one, other in others[:3]:
                tell_point(f"code point {codepoint:04X}, {laid}", one, other)
            passed += alike
            failed += len(others) + (run.returncode != 0)
    return passed, failed


def guarded(driver: Sequence[str]) -> tuple[int, int]:
    """That one octet too far, read or written, on the side of the unreadable page, ends the run."""
    passed = failed = 0
    for side, ask, size in itertools.product(SIDES[1:], (LOOK_TOO_FAR, PUT_TOO_FAR), (0, 1, 4096)):
        question = struct.pack("<6I", ask, 0, 0, 0, 0, size)
        run = subprocess.run([*driver, side], input=question, capture_output=True, check=False)
        if run.returncode == -signal.SIGSEGV:
            passed += 1
        else:
            failed += 1
            print(f"one octet too far at the {side} did not end the run: exit status {run.returncode}")
    print(f"one octet too far ends the run: {passed} of {passed + failed}")
    return passed, failed


def main(folder: pathlib.Path, emulator: Sequence[str]) -> int:
    # The runs that must end at an unreadable page leave no memory images behind.
    resource.setrlimit(resource.RLIMIT_CORE, (0, 0))
    driver = [*emulator, str(folder / "driver")]
    results = [guarded(driver)]
    with tempfile.TemporaryDirectory(dir=folder) as large:
        results += [compare(driver, pathlib.Path(large))]
    results += [points(driver)]
    results += [examples.check("C", [*emulator, str(folder / "convert-c")], folder), examples.check_readme("Use it from C")]
    results += [examples.check_serial([*emulator, str(folder / "serial-c")], folder), examples.check_readme("Read a page as it comes")]
    results += [examples.check_readme("Read a Latvian card")]
    results += [examples.check_compare([*emulator, str(folder / "compare-c")], folder)]
    results += [examples.check_readme("What changed between two transfers")]
    results += [examples.check_respelled([*emulator, str(folder / "respelled-c")], folder), examples.check_readme("What was respelled")]
    results += [examples.check_readme("Read control sequences with the top bit set")]
    if (folder / "convert-rust").exists():
        results += [examples.check("Rust", [*emulator, str(folder / "convert-rust")], folder)]
        results += [examples.check_own([*emulator, str(folder / "document-rust")]), examples.check_readme("Use it from Rust")]
    passed, failed = map(sum, zip(*results))
    print(f"{passed} passed, {failed} failed")
    return 1 if failed else 0


if __name__ == "__main__":
    sys.exit(main(pathlib.Path(sys.argv[1]), sys.argv[2:]))
