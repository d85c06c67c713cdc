"""The alphabets, the elements, the texts and the TLX case of document 01, and the requests of document 02, from their text alone.

A form is 1, 2 or 3, an octet is 0 to 255, a character is its Unicode code point. The lists below are the documents' own
sentences, kept as text and taken apart here, so that they can be held against the page. Document 01 has no list of the characters of its
154 pairs: they are derived from Unicode's canonical decompositions, as it says. The 155th pair, document 02's, is the one exception. Where
a document leaves a matter open, docs/DECISIONS.md has how it was decided. Run by itself it holds its functions against what was
worked out by hand from the documents. Standard library only.
"""
from __future__ import annotations

import bisect
import itertools
import random
import unicodedata
from typing import Callable, Iterator, NamedTuple, Optional, Sequence, Tuple, Union

FORMS = (1, 2, 3)
SPACE = 0x20
SS2 = 0x19
UNDERLINE = 0xCC
SEQUENCE_START = 0x9B
TOP_BIT = 0x80

# "Supplementary, forms 1 and 2, spacing"
SUPPLEMENTARY_LIST = """
A0 00A0, A1 00A1, A2 00A2, A3 00A3, A5 00A5, A7 00A7, A8 00A4, A9 2018, AA 201C, AB 00AB, AC 2190, AD 2191, AE 2192, AF 2193,
B0 00B0, B1 00B1, B2 00B2, B3 00B3, B4 00D7, B5 00B5, B6 00B6, B7 00B7, B8 00F7, B9 2019, BA 201D, BB 00BB, BC 00BC, BD 00BD,
BE 00BE, BF 00BF, D0 2015, D1 00B9, D2 00AE, D3 00A9, D4 2122, D5 266A, D6 00AC, D7 00A6, DC 215B, DD 215C, DE 215D, DF 215E,
E0 2126, E1 00C6, E2 0110, E3 00AA, E4 0126, E6 0132, E7 013F, E8 0141, E9 00D8, EA 0152, EB 00BA, EC 00DE, ED 0166, EE 014A,
EF 0149, F0 0138, F1 00E6, F2 0111, F3 00F0, F4 0127, F5 0131, F6 0133, F7 0140, F8 0142, F9 00F8, FA 0153, FB 00DF, FC 00FE,
FD 0167, FE 014B, FF 00AD
"""

# "A4, A6, C0, C9, CC, D8 to DB and E5 are unallocated."
UNALLOCATED_LIST = "A4, A6, C0, C9, CC, D8 to DB, E5"

# "Form 3: the same without 5C, 5E, 60, 7B, 7D, 7E"
MISSING_FROM_FORM_3_LIST = "5C, 5E, 60, 7B, 7D, 7E"

# "Form 3 has A1 to A8, AB, B0 to B8, BB to BF, E0 to E4, E6 to FE as above"
FORM_3_SUPPLEMENTARY_LIST = "A1 to A8, AB, B0 to B8, BB to BF, E0 to E4, E6 to FE"

# "Marks, all forms, written before the letter, with the combining character in brackets"
MARK_LIST = """
C1 grave (0300) AEIOU aeiou; C2 acute (0301) ACEILNORSUYZ aceilnorsuyz; C3 circumflex (0302) ACEGHIJOSUWY aceghijosuwy;
C4 tilde (0303) AINOU ainou; C5 macron (0304) AEIOU aeiou; C6 breve (0306) AGU agu; C7 dot above (0307) CEGIZ cegz;
C8 diaeresis (0308) AEIOUY aeiouy; CA ring (030A) AU au; CB cedilla (0327) CGKLNRST cklnrst; CD double acute (030B) OU ou;
CE ogonek (0328) AEIU aeiu; CF caron (030C) CDELNRSTZ cdelnrstz
"""

# Document 02, No. 2: "Annex A of source document 001 lists it and 01 left it out. Take its code from the annex's row." That row:
LEFT_OUT_ROW = "LG11 | Latin small letter g with cedilla | S 4/2 | P 6/7"

# "If the annex names it cedilla, the character is U+0123; if it names it acute, U+01F5, whichever mark octet codes it."
LEFT_OUT_CHARACTERS = {"cedilla": 0x0123, "acute": 0x01F5}

# "A mark and SPACE is the free-standing accent, in the order above"
FREE_STANDING_LIST = "0060, 00B4, 005E, 007E, 00AF, 02D8, 02D9, 00A8, 02DA, 00B8, 02DD, 02DB, 02C7"

# "Controls: forms 1 and 2 have 0A and 0D. Form 3 has 08, 0A, 0C, 0D, 1A, 8B, 8C."
CONTROL_LISTS = {1: "0A, 0D", 2: "0A, 0D", 3: "08, 0A, 0C, 0D, 1A, 8B, 8C"}

# Number 2: "element begins with 0E, 0F, 1B, 1D, and 19 in forms 1 and 3"
ESCAPE_LISTS = {1: "0E, 0F, 1B, 1D, 19", 2: "0E, 0F, 1B, 1D", 3: "0E, 0F, 1B, 1D, 19"}


def listed(text: str) -> list[int]:
    """The numbers of a list such as `A1 to A8, AB`, where `to` counts both ends."""
    numbers: list[int] = []
    for part in text.split(","):
        ends = [int(end, 16) for end in part.split("to")]
        numbers.extend(range(ends[0], ends[-1] + 1))
    return numbers


class Mark(NamedTuple):
    """A mark: its name, its combining character, and the letters that may follow it."""

    name: str
    combining: int
    letters: str


def marks_of(text: str) -> dict[int, Mark]:
    """The marks of `MARK_LIST`, by octet: octet, name, combining character in brackets, capital and small letters."""
    marks = {}
    for entry in text.split(";"):
        before, _, after = entry.partition("(")
        octet, name = before.split(maxsplit=1)
        combining, capitals, smalls = after.replace(")", " ").split()
        marks[int(octet, 16)] = Mark(name.strip(), int(combining, 16), capitals + smalls)
    return marks


def coded(code: str) -> int:
    """The octet of a code such as `S 4/2` in form 1: "x/y is octet 16x+y", in the supplementary set S with the top bit on."""
    alphabet, _, place = code.partition(" ")
    column, row = place.split("/")
    return 16 * int(column) + int(row) + (TOP_BIT if alphabet == "S" else 0)


def left_out_of(row: str) -> tuple[tuple[int, int], int]:
    """The square of a row of the annex, by the codes of its mark and its letter, and its character, by its name."""
    _, name, mark, letter = row.split(" | ")
    return (coded(mark), coded(letter)), LEFT_OUT_CHARACTERS[name.partition(" with ")[2]]


SUPPLEMENTARY = {int(entry.split()[0], 16): int(entry.split()[1], 16) for entry in SUPPLEMENTARY_LIST.split(",")}
UNALLOCATED = listed(UNALLOCATED_LIST)
MISSING_FROM_FORM_3 = listed(MISSING_FROM_FORM_3_LIST)
FORM_3_SUPPLEMENTARY = listed(FORM_3_SUPPLEMENTARY_LIST)
MARKS = marks_of(MARK_LIST)
LEFT_OUT_SQUARE, LEFT_OUT_CHARACTER = left_out_of(LEFT_OUT_ROW)
FREE_STANDING = listed(FREE_STANDING_LIST)
CONTROLS = {form: listed(text) for form, text in CONTROL_LISTS.items()}
ESCAPES = {form: listed(text) for form, text in ESCAPE_LISTS.items()}

# "53 followers (52 letters and SPACE)"
LETTERS = "ABCDEFGHIJKLMNOPQRSTUVWXYZabcdefghijklmnopqrstuvwxyz"
FOLLOWERS = [SPACE] + [ord(letter) for letter in LETTERS]


def primary(form: int) -> dict[int, int]:
    """The primary characters, by octet.

    "Primary, forms 1 and 2: 20 to 7E as ASCII, 95 characters. Form 3: the same without 5C, 5E, 60, 7B, 7D, 7E; 23 reads as the
    number sign and 24 as the currency sign U+00A4."
    """
    characters = {octet: octet for octet in range(0x20, 0x7F)}
    if form == 3:
        for octet in MISSING_FROM_FORM_3:
            del characters[octet]
        characters[0x23] = 0x0023
        characters[0x24] = 0x00A4
    return characters


def supplementary(form: int) -> dict[int, int]:
    """The spacing supplementary characters, by octet with the top bit on.

    "Form 3 has A1 to A8, AB, B0 to B8, BB to BF, E0 to E4, E6 to FE as above, but A4 is the dollar sign and A6 the number sign"
    """
    if form != 3:
        return dict(SUPPLEMENTARY)
    exceptions = {0xA4: 0x0024, 0xA6: 0x0023}
    return {octet: exceptions[octet] if octet in exceptions else SUPPLEMENTARY[octet] for octet in FORM_3_SUPPLEMENTARY}


def by_decomposition() -> dict[str, list[int]]:
    """The characters of the Basic Multilingual Plane that have each canonical decomposition, taken one step.

    `unicodedata.decomposition` gives one step, and puts a tag in `<>` before one that is not canonical.
    """
    found: dict[str, list[int]] = {}
    for character in range(0x10000):
        decomposition = unicodedata.decomposition(chr(character))
        if decomposition and not decomposition.startswith("<"):
            found.setdefault(decomposition, []).append(character)
    return found


def filled_squares() -> dict[tuple[int, int], int]:
    """The filled squares, by mark and follower.

    "each means the one Unicode character whose canonical decomposition, taken one step, is that letter and combining character". The one
    exception is document 02's square: "the annex's name outweighs 01's rule on decomposition".
    """
    composed = by_decomposition()
    squares = {}
    for (octet, mark), accent in zip(MARKS.items(), FREE_STANDING):
        squares[octet, SPACE] = accent
        for letter in mark.letters:
            decomposition = f"{ord(letter):04X} {mark.combining:04X}"
            characters = composed[decomposition]
            assert len(characters) == 1, (octet, letter, characters)
            assert unicodedata.decomposition(chr(characters[0])) == decomposition
            squares[octet, ord(letter)] = characters[0]
    assert LEFT_OUT_SQUARE not in squares
    squares[LEFT_OUT_SQUARE] = LEFT_OUT_CHARACTER
    return squares


PRIMARY = {form: primary(form) for form in FORMS}
SPACING = {form: supplementary(form) for form in FORMS}
SQUARES = filled_squares()
PAIRS = [square for square in SQUARES if square[1] != SPACE]


def decomposes(square: tuple[int, int], mark: int) -> bool:
    """Whether the square's character decomposes, in one step, into its letter and the combining character of the mark."""
    return unicodedata.decomposition(chr(SQUARES[square])) == f"{square[1]:04X} {MARKS[mark].combining:04X}"


class Sort(NamedTuple):
    """What an octet begins: a kind, and with it the character of a graphic, the mark, or the number of a refusal."""

    kind: str
    value: int = 0


def graphic(character: int) -> Sort:
    return Sort("graphic", character)


def refused(number: int) -> Sort:
    return Sort("refused", number)


def sort(form: int, octet: int) -> Sort:
    """What the octet begins in the form, or its refusal.

    1: "the octet begins nothing in the form and isn't number 2's or 5's"; 2: "element begins with 0E, 0F, 1B, 1D, and 19 in forms 1
    and 3"; 5: "form 2, octet 80 or above".
    """
    if form == 2 and octet >= 0x80:
        return refused(5)
    if octet in ESCAPES[form]:
        return refused(2)
    if octet in CONTROLS[form]:
        return Sort("control", octet)
    if octet in PRIMARY[form]:
        return graphic(PRIMARY[form][octet])
    if form == 2:
        return Sort("shift") if octet == SS2 else refused(1)
    if octet in SPACING[form]:
        return graphic(SPACING[form][octet])
    if octet in MARKS:
        return Sort("mark", octet)
    if form == 3 and octet == UNDERLINE:
        return Sort("underline")
    if form == 3 and octet == SEQUENCE_START:
        return Sort("sequence")
    return refused(1)


def sort_shifted(form: int, octet: int) -> Sort:
    """What the octet after SS2 codes, a mark as its octet with the top bit on, or its refusal.

    "form 2 uses the low seven bits after SS2". 5: "form 2, octet 80 or above"; 1: "after SS2 it codes neither a spacing
    supplementary nor a mark". Forms 1 and 3 have no SS2, so nothing is coded after one there.
    """
    if form != 2:
        return refused(1)
    if octet >= 0x80:
        return refused(5)
    supplementary_octet = octet | TOP_BIT
    if supplementary_octet in SPACING[form]:
        return graphic(SPACING[form][supplementary_octet])
    if supplementary_octet in MARKS:
        return Sort("mark", supplementary_octet)
    return refused(1)


def pair(mark: int, follower: int) -> Optional[int]:
    """The character of the mark's square at the follower, or None where the square is not filled."""
    return SQUARES.get((mark, follower))


def one_octet(form: int) -> dict[int, int]:
    """The octet of each character that the form has one for, a supplementary octet with the top bit on.

    "Form 3 writes the number sign A6 and the currency sign A8."
    """
    octets = {character: octet for octet, character in SPACING[form].items()}
    for octet, character in PRIMARY[form].items():
        if character not in octets:
            octets[character] = octet
        else:
            assert (form, octet, octets[character]) in {(3, 0x23, 0xA6), (3, 0x24, 0xA8)}
    return octets


ONE_OCTET = {form: one_octet(form) for form in FORMS}
SQUARE_OF = {character: square for square, character in SQUARES.items()}


def spell(form: int, codepoint: int) -> Optional[list[int]]:
    """The canonical spelling of the character, not underlined, or None where the form lacks it.

    "One octet where the form has one, else the pair", and "Form 2 writes SS2 (19) before the supplementary octet only; the letter
    of a pair follows bare."
    """
    if codepoint in ONE_OCTET[form]:
        octets = [ONE_OCTET[form][codepoint]]
    elif codepoint in SQUARE_OF:
        octets = list(SQUARE_OF[codepoint])
    else:
        return None
    if form == 2 and octets[0] >= 0x80:
        return [SS2, octets[0] - TOP_BIT] + octets[1:]
    return octets


def repertoire(form: int) -> list[int]:
    """The characters that the form can spell, in the order of their code points."""
    return sorted({*ONE_OCTET[form], *SQUARE_OF})


def check() -> None:
    """The documents' own counts and rules, held against the lists above."""
    assert len(PRIMARY[1]) == len(PRIMARY[2]) == 95
    assert len(SUPPLEMENTARY) == 73
    assert len(SPACING[3]) == 53
    # A0 to FF is just the supplementary characters, the marks and the unallocated octets.
    assert sorted([*SUPPLEMENTARY, *MARKS, *UNALLOCATED]) == list(range(0xA0, 0x100))
    # "The squares of 13 marks by 53 followers .. make a table of 689 entries". 01 has 154 pairs and 167 filled squares; with document 02,
    # No. 2, "There are then 155 pairs and 168 filled squares."
    assert len(MARKS) == len(FREE_STANDING) == 13 and len(FOLLOWERS) == 53
    assert len(MARKS) * len(FOLLOWERS) == 689
    assert sum(len(mark.letters) for mark in MARKS.values()) == 154
    assert len(SQUARES) == 168 and len(PAIRS) == 155
    assert all(follower in FOLLOWERS for _, follower in SQUARES)
    # 01's rule on decomposition, and the one exception: C2 67 is U+0123, which decomposes into g and the mark that it is named by.
    assert [square for square in PAIRS if not decomposes(square, square[0])] == [LEFT_OUT_SQUARE]
    assert LEFT_OUT_SQUARE == (0xC2, ord("g")) and decomposes(LEFT_OUT_SQUARE, 0xCB) and MARKS[0xCB].name == "cedilla"
    assert [spell(form, 0x0123) for form in FORMS] == [[0xC2, 0x67], [0x19, 0x42, 0x67], [0xC2, 0x67]]
    assert pair(0xCB, ord("g")) is None and not any(spell(form, 0x01F5) for form in FORMS)
    # "Its rule: no character fills two squares, and none is also a supplementary character."
    assert len(SQUARE_OF) == 168
    assert not any(set(SQUARE_OF) & set(SPACING[form].values()) for form in FORMS)
    # "(A with ring is 00C5)"
    assert pair(0xCA, ord("A")) == 0x00C5
    # "U+0060, 005E and 007E are single octets in forms 1 and 2 and pairs in form 3."
    for character, mark in [(0x0060, 0xC1), (0x005E, 0xC3), (0x007E, 0xC4)]:
        assert spell(1, character) == spell(2, character) == [character]
        assert spell(3, character) == [mark, SPACE]
    # "Writing U+03A9 or U+00D0 as E0 or E2: they are in no form."
    assert not any(spell(form, character) for form in FORMS for character in (0x03A9, 0x00D0))


# Elements, read from octets and as words.

# "Graphic: its code point, plus 2^24 if underlined. Control: 2^25 + octet. Sequence: 2^26 + 65536 x intermediate (0 if none) +
# 256 x final + number of values, then one word a value."
UNDERLINED_WORD = 2**24
CONTROL_WORD = 2**25
SEQUENCE_WORD = 2**26

# "9B, parameter octets (30 to 39, 3B), at most one intermediate (20 to 2F), one final (40 to 7E)"
DIGITS = range(0x30, 0x3A)
SEPARATOR = 0x3B
INTERMEDIATES = range(0x20, 0x30)
FINALS = range(0x40, 0x7F)

# Document 02, No. 6: "ISO 6429 .. allows A1 to FE inside a sequence, meaning the octet 80 (hex) below. So after 9B they count as 21 to 7E
# for every rule of 01. A0 and FF stay refused as 6."
LOWER_HALF = range(0x21, 0x7F)
UPPER_HALF = range(0xA1, 0xFF)

# "At most 8 values, each at most 999, and 40 octets in all, 9B counted."
MOST_VALUES = 8
MOST_VALUE = 999
MOST_OCTETS = 40

Octets = Sequence[int]
Words = Sequence[int]
Place = int

# ("element", its words, the place after it, whether its octets are its canonical spelling), ("refused", number, place, count), or ("end",)
Step = Union[Tuple[str, Tuple[int, ...], Place, bool], Tuple[str, int, Place, int], Tuple[str]]

END: Step = ("end",)


def element(form: int, octets: Octets, first: Place, words: Words, after: Place) -> Step:
    """The element with these words, which was read from the octets between the two places.

    Document 02, No. 5: "Each element read must also say whether it stood in its form's canonical spelling".
    """
    return ("element", tuple(words), after, list(octets[first:after]) == spell_element(form, words))


def refused_at(number: int, first: Place, deciding: Place) -> Step:
    """A refusal: "element's first octet; deciding octet"."""
    return ("refused", number, first, deciding)


def cut_off(octets: Octets, first: Place) -> Step:
    """4: "input ends inside an element", with "first octet; input length"."""
    return refused_at(4, first, len(octets))


def read_follower(form: int, octets: Octets, first: Place, place: Place, mark: int, plus: int = 0) -> Step:
    """What the mark is with the octet at the place, `plus` more where it is underlined.

    3: "what follows a mark isn't its listed follower". 5: "form 2, octet 80 or above", and "at one octet 5 goes first". SS2 is not
    kept "in force for the letter": in form 2 too the follower is the bare letter.
    """
    if place >= len(octets):
        return cut_off(octets, first)
    if form == 2 and octets[place] >= 0x80:
        return refused_at(5, first, place)
    character = pair(mark, octets[place])
    if character is None:
        return refused_at(3, first, place)
    return element(form, octets, first, [character + plus], place + 1)


def read_shifted(form: int, octets: Octets, first: Place) -> Step:
    """What SS2 at the place and the octets after it are: "supplementary ones through SS2"."""
    place = first + 1
    if place >= len(octets):
        return cut_off(octets, first)
    found = sort_shifted(form, octets[place])
    if found.kind == "graphic":
        return element(form, octets, first, [found.value], place + 1)
    if found.kind == "mark":
        return read_follower(form, octets, first, place + 1, found.value)
    return refused_at(found.value, first, place)


def read_underlined(form: int, octets: Octets, first: Place) -> Step:
    """What CC at the place and the octets after it are.

    "CC stands before a spacing character, or before a mark with its follower." 3: "what follows CC may not".
    """
    place = first + 1
    if place >= len(octets):
        return cut_off(octets, first)
    found = sort(form, octets[place])
    if found.kind == "graphic":
        return element(form, octets, first, [found.value + UNDERLINED_WORD], place + 1)
    if found.kind == "mark":
        return read_follower(form, octets, first, place + 1, found.value, UNDERLINED_WORD)
    return refused_at(3, first, place)


def counted(octet: int) -> int:
    """What an octet of a sequence, behind its 9B, counts as."""
    return octet - 0x80 if octet in UPPER_HALF else octet


def raised(octets: Octets, which: Callable[[int], bool] = lambda place: True) -> tuple[int, ...]:
    """A sequence with those of its octets 21 to 7E, behind 9B, put into the upper half that stand at a place asked for."""
    return tuple(o + 0x80 if place and o in LOWER_HALF and which(place) else o for place, o in enumerate(octets))


def some_raised(octets: Octets, chance: random.Random) -> tuple[int, ...]:
    """A sequence with some of its octets in the upper half."""
    return raised(octets, lambda place: chance.randrange(2) == 0)


class Parameters(NamedTuple):
    """What the octets of a sequence up to some place give: its values, the last of them still open, and its intermediate, or 0."""

    values: tuple[int, ...] = (0,)
    intermediate: int = 0


def is_allowed(so_far: Parameters, octet: int) -> bool:
    """Whether 6, "octet not allowed at this point of a sequence", is not given: after an intermediate only the final may stand."""
    if so_far.intermediate:
        return octet in FINALS
    return octet in DIGITS or octet == SEPARATOR or octet in INTERMEDIATES or octet in FINALS


def with_octet(so_far: Parameters, octet: int) -> Parameters:
    """The parameters with one more octet, which is allowed and no final.

    "Sub-strings between 3B octets are decimal values; an empty or all-zero one is 0, so there is always one value at least."
    """
    values, intermediate = so_far
    if octet in DIGITS:
        return Parameters(values[:-1] + (10 * values[-1] + octet - DIGITS[0],), intermediate)
    if octet == SEPARATOR:
        return Parameters(values + (0,), intermediate)
    return Parameters(values, octet)


def passes(so_far: Parameters) -> bool:
    """Whether 7 is given: "the digit that passes 999, or the 3B that opens a ninth value"."""
    return so_far.values[-1] > MOST_VALUE or len(so_far.values) > MOST_VALUES


def sequence_words(parameters: Parameters, final: int) -> list[int]:
    values, intermediate = parameters
    return [SEQUENCE_WORD + 65536 * intermediate + 256 * final + len(values), *values]


def read_sequence(form: int, octets: Octets, first: Place) -> Step:
    """What 9B at the place and the octets after it are.

    8: "the 40th octet of a sequence isn't its final". "at one octet 5 goes first, then 6, 7, 8".
    """
    so_far = Parameters()
    for place in range(first + 1, len(octets)):
        octet = counted(octets[place])
        if not is_allowed(so_far, octet):
            return refused_at(6, first, place)
        if octet in FINALS:
            return element(form, octets, first, sequence_words(so_far, octet), place + 1)
        so_far = with_octet(so_far, octet)
        if passes(so_far):
            return refused_at(7, first, place)
        if place - first + 1 == MOST_OCTETS:
            return refused_at(8, first, place)
    return cut_off(octets, first)


def read_element(form: int, octets: Octets, at: Place) -> Step:
    """The element that begins at the place, or its refusal.

    "Each element read answers with the element and the place after it, or with its refusal", and "Asked at or past the end of the
    text, it answers that none is left."
    """
    if at >= len(octets):
        return END
    found = sort(form, octets[at])
    if found.kind == "graphic":
        return element(form, octets, at, [found.value], at + 1)
    if found.kind == "control":
        return element(form, octets, at, [CONTROL_WORD + octets[at]], at + 1)
    if found.kind == "mark":
        return read_follower(form, octets, at, at + 1, found.value)
    if found.kind == "shift":
        return read_shifted(form, octets, at)
    if found.kind == "underline":
        return read_underlined(form, octets, at)
    if found.kind == "sequence":
        return read_sequence(form, octets, at)
    return refused_at(found.value, at, at)


class Head(NamedTuple):
    """The parts of a sequence's first word."""

    intermediate: int
    final: int
    values: int


def head_of(word: int) -> Optional[Head]:
    """The parts of a word from 2^26 on, or None where it begins no sequence."""
    head = Head((word - SEQUENCE_WORD) // 65536, word // 256 % 256, word % 256)
    proper = (
        (head.intermediate == 0 or head.intermediate in INTERMEDIATES)
        and head.final in FINALS
        and 1 <= head.values <= MOST_VALUES
    )
    return head if proper else None


def element_of_words(words: Words, at: Place) -> Union[Tuple[str, Tuple[int, ...], Place], Tuple[str]]:
    """The element whose words begin at the place: ("element", its words, the place after it), ("none",) or ("end",).

    10: "words that are no element or are cut off". A word below 2^26 is one element's; whether a form has it is asked elsewhere.
    """
    if at >= len(words):
        return ("end",)
    if words[at] < SEQUENCE_WORD:
        return ("element", (words[at],), at + 1)
    head = head_of(words[at])
    if head is None:
        return ("none",)
    after = at + 1 + head.values
    if after > len(words) or any(value > MOST_VALUE for value in words[at + 1 : after]):
        return ("none",)
    return ("element", tuple(words[at:after]), after)


def spell_sequence(form: int, words: Words) -> Optional[list[int]]:
    """The canonical spelling of a sequence, which form 3 alone has.

    "Values have no leading zeros, 0 is the empty sub-string, and the number of values is kept."
    """
    head = head_of(words[0])
    if form != 3 or head is None:
        return None
    parameters = ";".join(str(value) if value else "" for value in words[1:])
    intermediate = [head.intermediate] if head.intermediate else []
    return [SEQUENCE_START, *parameters.encode("ascii"), *intermediate, head.final]


def spell_underlined(form: int, character: int) -> Optional[list[int]]:
    """The canonical spelling of an underlined character: "after CC if underlined", and "Underline, form 3 only"."""
    spelling = spell(form, character)
    return [UNDERLINE, *spelling] if form == 3 and spelling is not None else None


def spell_control(form: int, octet: int) -> Optional[list[int]]:
    return [octet] if octet in CONTROLS[form] else None


def spell_element(form: int, words: Words) -> Optional[list[int]]:
    """The canonical spelling of the element with these words, or None where the form lacks it."""
    word = words[0]
    if word < UNDERLINED_WORD:
        return spell(form, word)
    if word < CONTROL_WORD:
        return spell_underlined(form, word - UNDERLINED_WORD)
    if word < SEQUENCE_WORD:
        return spell_control(form, word - CONTROL_WORD)
    return spell_sequence(form, words)


# Texts. The lent room is a number of entries, or None for as many as are needed.

# 12: "input over 1,048,576 entries"
MOST_ENTRIES = 1_048_576


class Answer(NamedTuple):
    """What is answered: "Four numbers: number, element, place, count. Accepted: 0, elements, input length, entries written." """

    number: int
    element: int = 0
    place: int = 0
    count: int = 0


class ReadAnswer(NamedTuple):
    """What a reading or a conversion answers: document 02, No. 5, "a fifth number: elements not canonical in the source form"."""

    number: int
    element: int = 0
    place: int = 0
    count: int = 0
    respelled: int = 0


def with_respelled(answer: Answer, respelled: int = 0) -> ReadAnswer:
    """The answer with its fifth number, which "is 0 on a refusal"."""
    return ReadAnswer(*answer, 0 if answer.number else respelled)


class Piece(NamedTuple):
    """An element of a text: its words, the place of its first octet or word, and whether its octets are its canonical spelling."""

    words: tuple[int, ...]
    place: Place
    canonical: bool = True


def refused_before(forms: Sequence[int], entries: Sequence[int]) -> Optional[Answer]:
    """The refusal that is given before anything is read: "Order: 11 (source, then target), 12"."""
    if any(form not in FORMS for form in forms):
        return Answer(11)
    if len(entries) > MOST_ENTRIES:
        return Answer(12)
    return None


def read_pieces(form: int, octets: Octets) -> tuple[list[Piece], Optional[Answer]]:
    """The elements of the text, with None; or those before the first refused one, with its refusal.

    "Element is the count of elements before the refused one for 1 to 8 and 10". The leftmost deciding octet is the first refused
    element's, since reading goes no further.
    """
    pieces: list[Piece] = []
    at = 0
    while (step := read_element(form, octets, at))[0] == "element":
        _, words, after, canonical = step
        pieces.append(Piece(words, at, canonical))
        at = after
    if step[0] == "refused":
        _, number, place, count = step
        return pieces, Answer(number, len(pieces), place, count)
    return pieces, None


def words_of(pieces: Sequence[Piece]) -> list[int]:
    return [word for piece in pieces for word in piece.words]


def respelled_in(pieces: Sequence[Piece]) -> int:
    """How many of the elements do not stand in their canonical spelling."""
    return sum(not piece.canonical for piece in pieces)


def pieces_of_words(words: Words) -> tuple[list[Piece], Optional[Answer]]:
    """The elements of the words, with None; or those before the first words that are no element, with 10."""
    pieces: list[Piece] = []
    at = 0
    while (step := element_of_words(words, at))[0] == "element":
        _, element_words, after = step
        pieces.append(Piece(element_words, at))
        at = after
    return pieces, Answer(10, len(pieces), at, 0) if step[0] == "none" else None


def spell_pieces(form: int, pieces: Sequence[Piece]) -> tuple[list[int], Optional[Answer]]:
    """The canonical spellings one after another, with None; or those before the first element that the form lacks, with 10."""
    octets: list[int] = []
    for before, piece in enumerate(pieces):
        spelling = spell_element(form, piece.words)
        if spelling is None:
            return octets, Answer(10, before, piece.place, 0)
        octets.extend(spelling)
    return octets, None


def given(entries: list[int], elements: int, length: int, room: Optional[int]) -> tuple[Answer, list[int]]:
    """The accepted answer with its entries, or 9, "lent room is short", with "0; room needed". "A refusal writes nothing"."""
    if room is not None and len(entries) > room:
        return Answer(9, 0, 0, len(entries)), []
    return Answer(0, elements, length, len(entries)), entries


def read_given(entries: list[int], pieces: Sequence[Piece], length: int, room: Optional[int]) -> tuple[ReadAnswer, list[int]]:
    """The same of entries that were made from the elements of a text, with the fifth number."""
    answer, put = given(entries, len(pieces), length, room)
    return with_respelled(answer, respelled_in(pieces)), put


def read_text(form: int, octets: Octets, room: Optional[int] = None) -> tuple[ReadAnswer, list[int]]:
    """The answer, and the text's words: 11, 12, reading, 9."""
    refusal = refused_before([form], octets)
    if refusal:
        return with_respelled(refusal), []
    pieces, refusal = read_pieces(form, octets)
    if refusal:
        return with_respelled(refusal), []
    return read_given(words_of(pieces), pieces, len(octets), room)


def read_one(form: int, octets: Octets, at: Place, room: Optional[int] = None) -> tuple[ReadAnswer, list[int]]:
    """What one element read into words answers, and its words: 11, 12, that none is left or its refusal, 9.

    Its element is counted, its place is the one after it. "A lone read's refusal has element 0". Where none is left, all five are 0.
    """
    refusal = refused_before([form], octets)
    if refusal:
        return with_respelled(refusal), []
    step = read_element(form, octets, at)
    if step[0] == "element":
        _, words, after, canonical = step
        return read_given(list(words), [Piece(words, at, canonical)], after, room)
    if step[0] == "refused":
        _, number, place, count = step
        return ReadAnswer(number, 0, place, count), []
    return ReadAnswer(0), []


def write_text(form: int, words: Words, room: Optional[int] = None) -> tuple[Answer, list[int]]:
    """The answer, and the words' canonical spelling: 11, 12, 10, 9.

    10 is the leftmost element's that the form lacks, or the words' that are none, whichever stands first.
    """
    refusal = refused_before([form], words)
    if refusal:
        return refusal, []
    pieces, no_element = pieces_of_words(words)
    octets, lacking = spell_pieces(form, pieces)
    refusal = lacking or no_element
    if refusal:
        return refusal, []
    return given(octets, len(pieces), len(words), room)


def convert_text(source: int, target: int, octets: Octets, room: Optional[int] = None) -> tuple[ReadAnswer, list[int]]:
    """The answer, and the text's canonical spelling in the target form: 11, 12, reading, 10, 9. The fifth number is of the source form."""
    refusal = refused_before([source, target], octets)
    if refusal:
        return with_respelled(refusal), []
    pieces, refusal = read_pieces(source, octets)
    if refusal:
        return with_respelled(refusal), []
    spelling, refusal = spell_pieces(target, pieces)
    if refusal:
        return with_respelled(refusal), []
    return read_given(spelling, pieces, len(octets), room)


# The TLX case.

# "Octets 54 4C 58, a big-endian 16-bit version, one form octet, a big-endian 16-bit page count, one big-endian 16-bit length a page,
# then the pages."
CASE_MARK = bytes.fromhex("54 4C 58")
CASE_VERSION = 1
CASE_HEADER = 8
MOST_PAGES = 256
MOST_LENGTH = 65_535


class Case(NamedTuple):
    """What a case's header and table say, and the octets of its pages."""

    form: int
    pages: tuple[bytes, ...]


class CaseAnswer(NamedTuple):
    """The five numbers, and "the page named beside the answer (0 in any other answer)"."""

    number: int
    element: int = 0
    place: int = 0
    count: int = 0
    respelled: int = 0
    page: int = 0


def big_endian(octets: Octets) -> int:
    return int.from_bytes(bytes(octets), "big")


def case_of(octets: Octets) -> Union[Case, int]:
    """What the header and the table say; or the number of the refusal: "For a case: 13, 14, 11, 15".

    13: "case under 8 octets, or wrong mark"; 14: "case version not 1"; 11: "form not 1 to 3"; 15: "over 256 pages, or size wrong",
    which "is exactly 8 + 2 x pages + the lengths". A table that is cut off makes the size wrong too.
    """
    case = bytes(octets)
    if len(case) < CASE_HEADER or case[:3] != CASE_MARK:
        return 13
    if big_endian(case[3:5]) != CASE_VERSION:
        return 14
    form = case[5]
    if form not in FORMS:
        return 11
    pages = big_endian(case[6:8])
    if pages > MOST_PAGES:
        return 15
    start = CASE_HEADER + 2 * pages
    if len(case) < start:
        return 15
    lengths = [big_endian(case[at : at + 2]) for at in range(CASE_HEADER, start, 2)]
    if len(case) != start + sum(lengths):
        return 15
    ends = [start + sum(lengths[: page + 1]) for page in range(pages)]
    return Case(form, tuple(case[end - length : end] for end, length in zip(ends, lengths)))


def read_case(octets: Octets, room: Optional[int] = None) -> tuple[CaseAnswer, list[int]]:
    """The answer, and the words of its pages: 13, 14, 11, 15, the pages from the first, 9.

    "Every page is read by itself from where it starts in the case", and "An accepted case answers 0, all elements, its length, and the
    count of its pages' words, written one page after another."
    """
    case = case_of(octets)
    if isinstance(case, int):
        return CaseAnswer(case), []
    pieces: list[Piece] = []
    for page, text in enumerate(case.pages):
        on_page, refusal = read_pieces(case.form, text)
        if refusal:
            return CaseAnswer(*refusal, page=page), []
        pieces += on_page
    answer, put = read_given(words_of(pieces), pieces, len(octets), room)
    return CaseAnswer(*answer), put


def page_elements(octets: Octets, page: int) -> Optional[ReadAnswer]:
    """The page's own answer, as with room enough; or the case's own refusal; or None where the case has no page of the number."""
    case = case_of(octets)
    if isinstance(case, int):
        return ReadAnswer(case)
    if page >= len(case.pages):
        return None
    answer, _ = read_text(case.form, case.pages[page])
    return answer


def write_case(form: int, lengths: Sequence[int], octets: Octets, room: Optional[int] = None) -> tuple[Answer, list[int]]:
    """The answer, and the case: 11, 15, 9.

    15: "if there are over 256 pages, a length is over 65,535 or the lengths don't add up to the page octets". "pages aren't read, so an
    accepted writing has element 0, and its place is the number of page octets."
    """
    if form not in FORMS:
        return Answer(11), []
    if len(lengths) > MOST_PAGES or any(length > MOST_LENGTH for length in lengths) or sum(lengths) != len(octets):
        return Answer(15), []
    version, pages = CASE_VERSION.to_bytes(2, "big"), len(lengths).to_bytes(2, "big")
    table = b"".join(length.to_bytes(2, "big") for length in lengths)
    case = CASE_MARK + version + bytes([form]) + pages + table + bytes(octets)
    return given(list(case), 0, len(octets), room)


# Pages off the serial lead: document 02, No. 1.

# "carries an unfinished element of at most 39 octets"
MOST_HELD = 39


class Carry(NamedTuple):
    """What goes from one call to the next, field by field: the last answer's five numbers, then the octets of an unfinished element.

    `stopped` is 1 where the answer is repeated from now on. Of `held` the first `holds` entries count. FRESH is all of it at 0.
    """

    answer: Answer = Answer(0)
    respelled: int = 0
    holds: int = 0
    form: int = 0
    stopped: int = 0
    held: tuple[int, ...] = (0,) * MOST_HELD


class Fed(NamedTuple):
    """What a call answers: the carry that it leaves, the five numbers, and the words handed out."""

    carry: Carry
    answer: ReadAnswer
    words: list[int]


class Page(NamedTuple):
    """A page that comes in pieces, by all its octets since fresh. Nothing is kept of what was read of them: each call reads them anew.

    `final` is the answer that is repeated, if there is one. `before` is for a page whose first octets are not known, as its reader goes on
    from a carry that was given outright: the elements, octets and words that stand before `octets`, and how many of these elements are not
    canonical. Since fresh, none do.
    """

    form: int
    octets: bytes = b""
    final: Optional[ReadAnswer] = None
    before: tuple[int, int, int, int] = (0, 0, 0, 0)


def moved_up(answer: Answer, page: Page) -> ReadAnswer:
    """A reading refusal of the page's octets, counted from where the page was made fresh."""
    elements, octets, _, _ = page.before
    return ReadAnswer(answer.number, elements + answer.element, octets + answer.place, octets + answer.count)


def so_far(page: Page) -> tuple[ReadAnswer, bytes]:
    """Before the end: "0 with the elements, octets taken and words since fresh", and how many of these elements are not canonical; and the
    octets of the element that is not finished."""
    pieces, cut = read_pieces(page.form, page.octets)
    since = (len(pieces), len(page.octets), len(words_of(pieces)), respelled_in(pieces))
    opened = page.octets[cut.place :] if cut else b""
    return ReadAnswer(0, *(before + more for before, more in zip(page.before, since))), opened


def fed(page: Page, piece: bytes, ended: bool, room: int) -> tuple[Page, ReadAnswer, list[int]]:
    """The page after the call, its answer, and the words handed out.

    "Any other refusal, or the final answer, is repeated with nothing handed out until made fresh." "12 when a piece would pass the limit,
    before reading it; then 9 if the words to hand out don't fit, even where a fault follows; then the reading refusal."
    """
    if page.final:
        return page, page.final, []
    grown = page._replace(octets=page.octets + piece)
    if page.before[1] + len(grown.octets) > MOST_ENTRIES:
        return page._replace(final=ReadAnswer(12)), ReadAnswer(12), []
    # All words of the octets since fresh, less those that were handed out before.
    pieces, refusal = read_pieces(page.form, grown.octets)
    handed = words_of(pieces)[len(words_of(read_pieces(page.form, page.octets)[0])) :]
    if len(handed) > room:
        return page, ReadAnswer(9, 0, 0, len(handed)), []
    if refusal and (refusal.number != 4 or ended):
        answer = moved_up(refusal, grown)
        return grown._replace(final=answer), answer, handed
    answer, _ = so_far(grown)
    return grown._replace(final=answer if ended else None), answer, handed


def left_by(form: int, answer: ReadAnswer, stopped: bool, opened: bytes = b"") -> Carry:
    """The carry that a call leaves which answers so, with the octets of an open element."""
    assert len(opened) <= MOST_HELD
    held = (*opened, *[0] * (MOST_HELD - len(opened)))
    return Carry(Answer(*answer[:4]), answer.respelled, len(opened), form, int(stopped), held)


def carry_of(page: Page) -> Carry:
    """The carry of the page: its last answer, and the open element's octets, then zeros; once it has stopped, none."""
    if page.final:
        return left_by(page.form, page.final, True)
    answer, opened = so_far(page)
    return left_by(page.form, answer, False, opened)


def could_be_final(answer: ReadAnswer) -> bool:
    """Whether a page can end in the answer, by its sums alone: within the limit, no more elements or words than octets, and no more
    respelled elements than elements, on a refusal none."""
    number, elements, place, count, respelled = answer
    if number == 0:
        return respelled <= elements <= place <= MOST_ENTRIES and count <= place
    if 1 <= number <= 8:
        return elements <= place <= count <= MOST_ENTRIES and respelled == 0
    return answer == ReadAnswer(12)


def page_of(carry: Carry) -> Optional[Page]:
    """The page that the carry goes on with, or None where the form is none, or where the carry's fields contradict each other.

    No feeding leaves "more than 39 octets held, octets taken over the limit, elements or words over octets taken, held octets that are no
    open element", or more elements that are not canonical than elements; the open element's octets are no part of what was read.
    """
    answer, holds = ReadAnswer(*carry.answer, carry.respelled), carry.holds
    if carry.form not in FORMS:
        return None
    if carry.stopped == 1:
        return Page(carry.form, final=answer) if holds == 0 and could_be_final(answer) else None
    read = answer.place - holds
    sums = answer.place <= MOST_ENTRIES and 0 <= read and answer.respelled <= answer.element <= read and answer.count <= read
    if carry.stopped != 0 or answer.number != 0 or holds > MOST_HELD or not sums:
        return None
    opened = bytes(carry.held[:holds])
    if opened and read_element(carry.form, opened, 0)[:3] != ("refused", 4, 0):
        return None
    return Page(carry.form, opened, before=(answer.element, read, answer.count, answer.respelled))


def fresh(form: int) -> Fed:
    """ "A fresh carry holds no octets and has read no elements." "11 when made fresh". """
    return Fed(carry_of(Page(form)), ReadAnswer(0), []) if form in FORMS else Fed(Carry(), ReadAnswer(11), [])


def feed(carry: Carry, piece: bytes, ended: bool, room: int) -> Fed:
    """What any carry answers, made by a call or not. 11, 9 and an answer that is repeated leave it as it was."""
    page = page_of(carry)
    if page is None:
        return Fed(carry, ReadAnswer(11), [])
    after, answer, words = fed(page, piece, ended, room)
    as_it_was = page.final or answer.number == 9
    return Fed(carry if as_it_was else carry_of(after), answer, words)


def cut_page(form: int, octets: bytes, ends: Sequence[int]) -> Iterator[Fed]:
    """What each call answers, with room enough, of a page within the limit that is cut at these places; the last call is told that it ends.

    All of it is what reading the whole page gives, once: "However a page is cut, the words handed out up to the first refusal are those of
    the elements before it in the whole page, and for a page within the size limit the final answer is the whole page's".
    """
    pieces, refusal = read_pieces(form, octets)
    starts = [*(piece.place for piece in pieces), refusal.place if refusal else len(octets)]
    words = [0, *itertools.accumulate(len(piece.words) for piece in pieces)]
    respelled = [0, *itertools.accumulate(not piece.canonical for piece in pieces)]
    before = 0
    for call, end in enumerate(ends, 1):
        ended = call == len(ends)
        whole = bisect.bisect_right(starts, end) - 1
        met = refusal if refusal and (ended or refusal.number != 4 and refusal.count < end) else None
        answer = with_respelled(met or Answer(0, whole, end, words[whole]), respelled[whole])
        opened = b"" if met else octets[starts[whole] : end]
        yield Fed(left_by(form, answer, ended or met is not None, opened), answer, words_of(pieces[before:whole]))
        before = whole


# What changed between two texts: document 02, No. 4.


class Comparison(NamedTuple):
    """The four numbers; which text was refused, or 0; what is said of both; and from where on a part of which text is handed back."""

    answer: Answer
    text: int = 0
    same: int = 0
    first_place: Place = 0
    second_place: Place = 0
    otherwise: int = 0
    tail_text: int = 1
    tail_place: Place = 0


def numbers_of(comparison: Comparison) -> tuple[int, ...]:
    """All eleven, one after another."""
    return (*comparison.answer, *comparison[1:])


def part_of(comparison: Comparison, first: Octets, second: Octets) -> bytes:
    """What is handed back: the octets of one text, from a place to its end."""
    return bytes((first, second)[comparison.tail_text - 1][comparison.tail_place :])


def first_refused(refusals: Sequence[Optional[Answer]], end: Place) -> Optional[Comparison]:
    """The first text's refusal, or else the second's, "with which text it was"; "on a refusal, it is the first's empty end"."""
    return next((Comparison(refusal, text, tail_place=end) for text, refusal in enumerate(refusals, 1) if refusal), None)


def pieces_octets(pieces: Sequence[Piece], octets: Octets) -> list[bytes]:
    """The octets of each element of an accepted text."""
    places = [*(piece.place for piece in pieces), len(octets)]
    return [bytes(octets[start:end]) for start, end in zip(places, places[1:])]


def difference(first: Sequence[Piece], second: Sequence[Piece]) -> Optional[int]:
    """The element at which the meanings first differ, or None where they are the same. One of the two may have ended there."""
    meanings = itertools.zip_longest(*([piece.words for piece in pieces] for pieces in (first, second)))
    return next((element for element, (one, other) in enumerate(meanings) if one != other), None)


def compared_pieces(first: Octets, ours: Sequence[Piece], second: Octets, theirs: Sequence[Piece]) -> Comparison:
    """What two accepted texts answer, each with its elements.

    "say the element at which their meanings first differ, and the octet place in each; or say that they mean the same, with the number of
    elements spelled otherwise." These are those whose octets in the two texts differ. The place in a text that has ended is its length.
    "Where one text ends first, hand back the surplus tail of whichever text goes on. If both mean the same .. it is the first's empty end;
    if they differ before either ends, the first text's part from the differing element."
    """
    element = difference(ours, theirs)
    if element is None:
        spellings = zip(pieces_octets(ours, first), pieces_octets(theirs, second))
        otherwise = sum(one != other for one, other in spellings)
        return Comparison(Answer(0, len(ours)), 0, 1, len(first), len(second), otherwise, 1, len(first))
    place = ours[element].place if element < len(ours) else len(first)
    other_place = theirs[element].place if element < len(theirs) else len(second)
    tail = (1, place) if element < len(ours) else (2, other_place)
    return Comparison(Answer(0, element), 0, 0, place, other_place, 0, *tail)


def compared(form: int, first: Octets, second: Octets) -> Comparison:
    """The answer: "11 and 12 as before, then the first text's reading refusal, then the second's, with which text it was." """
    if form not in FORMS:
        return Comparison(Answer(11), tail_place=len(first))
    over = first_refused([refused_before([form], text) for text in (first, second)], len(first))
    if over:
        return over
    ours, refusal = read_pieces(form, first)
    theirs, other_refusal = read_pieces(form, second)
    return first_refused([refusal, other_refusal], len(first)) or compared_pieces(first, ours, second, theirs)


# "Sixteen readings to prove": form, octets, and the words or the refusal's number, element, place and count.
READINGS: list[tuple[int, str, Union[list[int], Answer]]] = [
    (1, "", []),
    (1, "C2 65", [233]),
    (1, "C1 20", [96]),
    (1, "C2", Answer(4, 0, 0, 1)),
    (1, "C2 62", Answer(3, 0, 0, 1)),
    (1, "41 A4", Answer(1, 1, 1, 1)),
    (2, "19 42 65", [233]),
    (2, "19 24", Answer(1, 0, 0, 1)),
    (2, "C2", Answer(5, 0, 0, 0)),
    (3, "23", [35]),
    (3, "60", Answer(1, 0, 0, 0)),
    (3, "CC 41", [16777281]),
    (3, "9B 34 6D", [67136769, 4]),
    (3, "9B 20 4C", [69225473, 0]),
    (3, "9B 30 3B 6D", [67136770, 0, 0]),
    (3, "1B", Answer(2, 0, 0, 0)),
]

# What the table's third column says besides: source, target, octets, and the octets or the refusal that the conversion gives. Those within
# one form are the ones that say "canonical": the other readings' octets are canonical themselves.
CONVERSIONS: list[tuple[int, int, str, Union[str, Answer]]] = [
    (1, 2, "C2 65", "19 42 65"),
    (1, 1, "C1 20", "60"),
    (3, 3, "23", "A6"),
    (3, 1, "CC 41", Answer(10, 0, 0, 0)),
    (3, 3, "9B 30 3B 6D", "9B 3B 6D"),
]


def check_readings() -> None:
    """Document 01's sixteen readings, held against the functions above."""
    assert len(READINGS) == 16
    respelt = [(source, text) for source, target, text, _ in CONVERSIONS if source == target]
    for form, text, expected in READINGS:
        answer, words = read_text(form, bytes.fromhex(text))
        assert (Answer(*answer[:4]) if answer.number else words) == expected, (form, text, answer, words)
        assert answer.respelled == ((form, text) in respelt), (form, text, answer)
    for source, target, text, converted in CONVERSIONS:
        answer, octets = convert_text(source, target, bytes.fromhex(text))
        told = Answer(*answer[:4]) if answer.number else bytes(octets).hex(" ").upper()
        assert told == converted, (source, target, text, answer, octets)
        assert answer.respelled == (source == target), (source, target, text, answer)


def check_serial() -> None:
    """A page cut at each octet, and octet by octet: its words and its final answer are the whole page's, by the page and by its carry."""
    more = [(3, "41 CC C2 65 9B 30 3B 6D 42", None), (2, "41 19 42 65 19 24 42", None)]
    more += [(form, text, None) for form, text, _ in RESPELLED]
    for form, text, _ in [*READINGS, *more, *UPPER]:
        octets = bytes.fromhex(text)
        whole = read_text(form, octets)[0]
        words = words_of(read_pieces(form, octets)[0])
        cuts = [[octets[:at], octets[at:]] for at in range(len(octets) + 1)] + [[octets[at : at + 1] for at in range(len(octets))]]
        for pieces in ([*cut, b""] for cut in cuts):
            page, carry, handed = Page(form), fresh(form).carry, []
            ends = list(itertools.accumulate(map(len, pieces)))
            for call, (piece, cut) in enumerate(zip(pieces, cut_page(form, octets, ends)), 1):
                ended = call == len(pieces)
                page, answer, some = fed(page, piece, ended, len(words))
                assert feed(carry, piece, ended, len(words)) == cut == Fed(carry_of(page), answer, some), (form, text, pieces)
                carry = cut.carry
                handed += some
            assert (answer, handed) == (whole, words), (form, text, pieces, answer, handed)
    # 12 goes before 9 and before the fault, 9 before the fault; FRESH has no form yet.
    near = Carry(Answer(0, 0, MOST_ENTRIES - 1, 0), form=1)
    assert feed(near, b"A\x1B", True, 0)[1:] == (ReadAnswer(12), [])
    assert feed(near, b"A", True, 0) == Fed(near, ReadAnswer(9, 0, 0, 1), [])
    seven = Carry(Answer(0, 7, 7, 7), respelled=2, form=1)
    assert feed(seven, b"A\x1B", False, 0) == Fed(seven, ReadAnswer(9, 0, 0, 1), [])
    assert feed(seven, b"A\x1B", False, 1)[1:] == (ReadAnswer(2, 8, 8, 8), [0x41])
    # Before the end it is the number so far, and the end's is repeated.
    assert feed(seven, b"A\xC1 \xC3", False, 2)[1:] == (ReadAnswer(0, 9, 11, 9, 3), [0x41, 0x60])
    ended = feed(seven, b"\xC1 ", True, 1)
    assert ended.answer == feed(ended.carry, b"\xC1 ", False, 9).answer == ReadAnswer(0, 8, 9, 8, 3)
    # More of them than elements, or any beside a refusal, no call leaves.
    assert feed(seven._replace(respelled=7), b"", False, 0).answer == ReadAnswer(0, 7, 7, 7, 7)
    stopped = seven._replace(answer=Answer(2, 1, 2, 2), stopped=1)
    for wrong in (seven._replace(respelled=8), seven._replace(respelled=8, stopped=1), stopped):
        assert feed(wrong, b"", False, 0) == Fed(wrong, ReadAnswer(11), [])
    assert feed(stopped._replace(respelled=0), b"", False, 0).answer == ReadAnswer(2, 1, 2, 2)
    assert feed(Carry(), b"", False, 0) == fresh(0) == fresh(4) == Fed(Carry(), ReadAnswer(11), [])


def check_texts() -> None:
    """Every character, control and some sequences there and back, and the order of refusals."""
    for form in FORMS:
        words = [*repertoire(form), *(CONTROL_WORD + octet for octet in CONTROLS[form])]
        if form == 3:
            words += [UNDERLINED_WORD + character for character in repertoire(form)]
            words += [*sequence_words(Parameters((0, 7, 999, 0), 0x2F), 0x7E), *sequence_words(Parameters((0,)), 0x40)]
        written, octets = write_text(form, words)
        assert written.number == 0 and written.place == len(words)
        assert read_text(form, octets) == (ReadAnswer(0, written.element, len(octets), len(words)), words)
        assert convert_text(form, form, octets) == (ReadAnswer(0, written.element, len(octets), len(octets)), octets)
        assert write_text(form, words, len(octets) - 1) == (Answer(9, 0, 0, len(octets)), [])
        assert write_text(form, [*words, SEQUENCE_WORD], 0) == (Answer(10, written.element, len(words), 0), [])
    too_many = [0] * (MOST_ENTRIES + 1)
    assert read_text(4, too_many) == convert_text(1, 0, too_many) == (ReadAnswer(11), [])
    assert read_text(1, too_many) == convert_text(3, 3, too_many) == (ReadAnswer(12), [])
    assert write_text(2, too_many) == (Answer(12), [])
    # Reading goes before 10, and 10 before 9.
    assert convert_text(3, 1, [0xCC, 0x41, 0x60], 0) == (ReadAnswer(1, 1, 2, 2), [])
    assert convert_text(3, 1, [0x41, 0xCC, 0x41], 0) == (ReadAnswer(10, 1, 1, 0), [])
    # One element: 11, 12, that none is left, its refusal, 9; and none that is refused before its place.
    assert read_one(0, too_many, 0, 0) == (ReadAnswer(11), []) and read_one(1, too_many, 2**64, 0) == (ReadAnswer(12), [])
    text = bytes.fromhex("1B 9B 30 3B 6D C1 62")
    assert read_one(3, text, 1, 3) == (ReadAnswer(0, 1, 5, 3, 1), [67136770, 0, 0])
    assert read_one(3, text, 1, 2) == (ReadAnswer(9, 0, 0, 3), [])
    assert read_one(3, text, 5, 0) == (ReadAnswer(3, 0, 5, 6), []) and read_one(3, text, 0, 0) == (ReadAnswer(2), [])
    assert read_one(3, text, 6, 1) == (ReadAnswer(0, 1, 7, 1), [0x62])
    assert read_one(3, text, 7, 0) == read_one(3, text, 2**64 - 1, 9) == (ReadAnswer(0), [])


# What request No. 5 says, by hand: form, text, and how many of its elements are not canonical.
RESPELLED: list[tuple[int, str, int]] = [
    (1, "", 0),
    # "U+0060, 005E and 007E are single octets in forms 1 and 2 and pairs in form 3."
    (1, "60 5E 7E", 0),
    (1, "C1 20 C3 20 C4 20", 3),
    (1, "60 C1 20 C2 20 C2 65 C3 20 5E 0A", 2),
    (2, "60 5E 7E 19 42 20", 0),
    (2, "19 41 20 19 43 20 19 44 20", 3),
    (2, "41 19 41 20 19 42 65 19 21 19 44 20 0D", 2),
    (3, "C1 20 C3 20 C4 20 CC C1 20", 0),
    # "Form 3 writes the number sign A6 and the currency sign A8."; "after CC if underlined"
    (3, "A6 A8 CC A6 CC A8 A4", 0),
    (3, "23 24", 2),
    (3, "CC 23 CC 24 CC A6 CC 41 CC C2 65", 2),
    # "Values have no leading zeros, 0 is the empty sub-string, and the number of values is kept."
    (3, "9B 6D 9B 3B 6D 9B 34 6D 9B 31 30 3B 3B 31 30 30 20 4C", 0),
    (3, "9B 30 6D 9B 30 3B 6D 9B 3B 30 6D 9B 30 34 6D 9B 34 3B 30 30 35 2F 7E", 5),
    (3, "9B 30 30 30 3B 30 30 31 3B 30 6D 41 24 A6 CC 23 8B 9B 30 6D", 4),
    # No. 6: "Canonical spelling uses the lower half."
    (3, "9B ED 9B B4 6D 9B 34 ED 9B B4 ED 9B 34 6D 9B 20 CC", 5),
    (3, "9B 34 BB 35 6D 9B 34 3B 35 A1 6D 9B B0 ED B4 ED 9B 3B 35 21 6D", 3),
]


# What request No. 6 says, by hand: form, text, and the words that it means or its refusal.
UPPER: list[tuple[int, str, Union[list[int], Answer]]] = [
    (3, "9B B4 ED", [67136769, 4]),
    (3, "9B 34 ED", [67136769, 4]),
    (3, "9B B4 6D", [67136769, 4]),
    (3, "9B B0 BB ED", [67136770, 0, 0]),
    (3, "9B B1 32 B3 BB B4 ED", [67136770, 123, 4]),
    (3, "9B 20 CC", [69225473, 0]),
    (3, "9B A1 CC", [69291009, 0]),
    (3, "9B AF FE", [70221313, 0]),
    (3, "9B C0", [67125249, 0]),
    (3, "9B C2 65", [67125761, 0, 0x65]),
    # "A0 and FF stay refused as 6", and so is what, 80 below, is no octet of a sequence.
    *((3, f"9B {octet:02X}", Answer(6, 0, 0, 1)) for octet in (*range(0x80, 0xA1), 0xBA, *range(0xBC, 0xC0), 0xFF)),
    (3, "9B B4 A0 ED", Answer(6, 0, 0, 2)),
    (3, "9B B4 FF", Answer(6, 0, 0, 2)),
    (3, "9B 20 A1 6D", Answer(6, 0, 0, 2)),
    (3, "9B A1 B4 6D", Answer(6, 0, 0, 2)),
    (3, "9B A1 BB 6D", Answer(6, 0, 0, 2)),
    (3, "9B B1 30 B0 B0 6D", Answer(7, 0, 0, 4)),
    (3, "9B" + " BB 3B" * 4 + " ED", Answer(7, 0, 0, 8)),
    (3, "9B" + " B0" * 39 + " ED", Answer(8, 0, 0, 39)),
    (3, "9B" + " B0" * 38 + " ED", [67136769, 0]),
    (3, "41 9B B9 BB", Answer(4, 1, 1, 4)),
    # 1B is not 9B, forms 1 and 2 have no sequences, and outside one the octets mean what they meant.
    (3, "1B B4 ED", Answer(2, 0, 0, 0)),
    (1, "9B B4 ED", Answer(1, 0, 0, 0)),
    (2, "9B B4 ED", Answer(5, 0, 0, 0)),
    (3, "B4 BB 9B B4 ED B4 BB", [0xD7, 0xBB, 67136769, 4, 0xD7, 0xBB]),
]


def check_upper() -> None:
    """The readings above; and each way of putting octets of a sequence into the upper half gives the same words or the same refusal, the
    same octets converted, and texts that mean the same."""
    for form, text, expected in UPPER:
        answer, words = read_text(form, bytes.fromhex(text))
        assert (Answer(*answer[:4]) if answer.number else words) == expected, (form, text, answer, words)
    lower = ["6D", "30 6D", "30 3B 6D", "31 32 3B 33 20 4C", "3B 39 2F 7E", "39 39 39 39", "20 20 6D", "21 31", "34 3B", "3A", "7F 6D"]
    for sequence in (bytes.fromhex("9B " + text) for text in lower):
        plain, words = read_text(3, sequence)
        for ways in range(2 ** len(sequence)):
            other = bytes(raised(sequence, lambda place: ways >> place & 1 == 1))
            answer, same = read_text(3, other)
            assert (answer[:4], same) == (plain[:4], words), (sequence, other)
            assert answer.respelled == (plain.number == 0 and (plain.respelled or other != sequence)), (sequence, other)
            assert convert_text(3, 3, other)[1] == convert_text(3, 3, sequence)[1], (sequence, other)
            assert compared(3, other, sequence).same == (plain.number == 0), (sequence, other)


def every_spelling(form: int) -> list[bytes]:
    """Every spelling of every character, one octet or a mark and its follower; then of every underlined one."""
    supplementary = [(octet,) for octet in SPACING[form]] + list(SQUARES)
    shifted = [(SS2, first - TOP_BIT, *rest) if form == 2 else (first, *rest) for first, *rest in supplementary]
    characters = [*((octet,) for octet in PRIMARY[form]), *shifted]
    underlined = [(UNDERLINE, *character) for character in characters] if form == 3 else []
    return list(map(bytes, [*characters, *underlined]))


def check_respelled() -> None:
    """The numbers above, and what holds of every number: it counts the elements whose octets converting within the form alters, it is what
    comparing with that finds, it adds up over joined texts and over pages, and there is none after it."""
    for form, text, respelled in RESPELLED:
        octets = bytes.fromhex(text)
        answer, _ = read_text(form, octets)
        pieces, _ = read_pieces(form, octets)
        converted, canonical = convert_text(form, form, octets)
        spellings = zip(pieces_octets(pieces, octets), pieces_octets(read_pieces(form, canonical)[0], canonical))
        assert answer.respelled == converted.respelled == respelled == sum(one != other for one, other in spellings), (form, text)
        assert compared(form, octets, bytes(canonical)).otherwise == respelled, (form, text)
        assert convert_text(form, form, canonical)[0].respelled == 0, (form, text)
        # On a refusal it is 0, whatever stood before it.
        for refused, _ in (read_text(form, [*octets, 0x1B]), read_text(form, [*octets, 0x41], answer.count), read_text(0, octets)):
            assert refused.number in (2, 9, 11) and refused.respelled == 0, (form, text)
    for form in FORMS:
        some = [(bytes.fromhex(text), respelled) for each, text, respelled in RESPELLED if each == form]
        for (first, one), (second, other) in itertools.product(some, repeat=2):
            assert read_text(form, first + second)[0].respelled == one + other, (form, first, second)
        case = write_case(form, [len(page) for page, _ in some], b"".join(page for page, _ in some))[1]
        assert read_case(case)[0].respelled == sum(respelled for _, respelled in some), form
        assert [page_elements(case, page).respelled for page in range(len(some))] == [respelled for _, respelled in some], form
    # All characters that are not canonical in some spelling of one octet, or of a mark and its follower.
    not_canonical = {1: "C120 C320 C420", 2: "194120 194320 194420", 3: "23 24 CC23 CC24"}
    for form in FORMS:
        found = [spelling for spelling in every_spelling(form) if read_text(form, spelling)[0].respelled]
        assert found == [bytes.fromhex(text) for text in not_canonical[form].split()], (form, found)
    # Counted in the source's form: "elements not canonical in the source form".
    assert convert_text(1, 3, bytes.fromhex("60 C1 20 23"))[0] == ReadAnswer(0, 3, 4, 5, 1)
    assert convert_text(3, 1, bytes.fromhex("C1 20 23"))[0] == ReadAnswer(0, 2, 3, 2, 1)


# What the request says, by hand: form, both texts, the eleven numbers, and the part.
COMPARISONS: list[tuple[int, str, str, tuple[int, ...], str]] = [
    (1, "", "", (0, 0, 0, 0, 0, 1, 0, 0, 0, 1, 0), ""),
    (1, "41 60 42", "41 C1 20 42", (0, 3, 0, 0, 0, 1, 3, 4, 1, 1, 3), ""),
    (3, "23 9B 30 3B 6D 41", "A6 9B 3B 6D 41", (0, 3, 0, 0, 0, 1, 6, 5, 2, 1, 6), ""),
    # differing midway, behind spellings that do
    (1, "60 C2 65 41", "C1 20 65 42", (0, 1, 0, 0, 0, 0, 1, 2, 0, 1, 1), "C2 65 41"),
    (3, "41 CC 20 42", "41 20 42", (0, 1, 0, 0, 0, 0, 1, 1, 0, 1, 1), "CC 20 42"),
    (3, "9B 34 6D", "9B 34 3B 6D", (0, 0, 0, 0, 0, 0, 0, 0, 0, 1, 0), "9B 34 6D"),
    # No. 6: in the other half the same, spelled otherwise; outside a sequence another
    (3, "9B 34 6D 41", "9B B4 ED 41", (0, 2, 0, 0, 0, 1, 4, 4, 1, 1, 4), ""),
    (3, "9B B4 ED 34", "9B 34 6D B4", (0, 1, 0, 0, 0, 0, 3, 3, 0, 1, 3), "34"),
    # one that ends first
    (2, "41 19 42 65", "41", (0, 1, 0, 0, 0, 0, 1, 1, 0, 1, 1), "19 42 65"),
    (2, "60", "19 41 20 19 42 65", (0, 1, 0, 0, 0, 0, 1, 3, 0, 2, 3), "19 42 65"),
    (3, "", "9B 6D", (0, 0, 0, 0, 0, 0, 0, 0, 0, 2, 0), "9B 6D"),
    # refused, though they differ before; the first text's refusal before the second's
    (1, "41 42 C2", "43 1B", (4, 2, 2, 3, 1, 0, 0, 0, 0, 1, 3), ""),
    (1, "41 42", "43 1B", (2, 1, 1, 1, 2, 0, 0, 0, 0, 1, 2), ""),
    (3, "41 9B 31 30 30 30 6D", "", (7, 1, 1, 5, 1, 0, 0, 0, 0, 1, 7), ""),
    (4, "1B", "C2", (11, 0, 0, 0, 0, 0, 0, 0, 0, 1, 1), ""),
]


def check_compared() -> None:
    """The readings above, and what goes before reading."""
    for form, first, second, numbers, part in COMPARISONS:
        texts = bytes.fromhex(first), bytes.fromhex(second)
        comparison = compared(form, *texts)
        assert numbers_of(comparison) == numbers, (form, first, second, comparison)
        assert part_of(comparison, *texts) == bytes.fromhex(part), (form, first, second, comparison)
    over = bytes(MOST_ENTRIES + 1)
    assert compared(0, over, over) == Comparison(Answer(11), tail_place=len(over))
    assert compared(1, over, over) == compared(1, over, b"\x1B") == Comparison(Answer(12), 1, tail_place=len(over))
    assert compared(1, b"\x1B", over) == Comparison(Answer(12), 2, tail_place=1)


# "Whole example: form 1, two pages".
EXAMPLE = "54 4C 58 00 01 01 00 02 00 01 00 02 41 C2 65"


def check_cases() -> None:
    """The document's whole example, and the order of refusals of a case."""
    example = bytes.fromhex(EXAMPLE)
    assert read_case(example) == (CaseAnswer(0, 2, 15, 2), [0x41, 0xE9])
    assert [page_elements(example, page) for page in range(3)] == [ReadAnswer(0, 1, 1, 1), ReadAnswer(0, 1, 2, 1), None]
    assert write_case(1, [1, 2], example[12:]) == (Answer(0, 0, 3, 15), list(example))
    assert read_case(example, 1) == (CaseAnswer(9, 0, 0, 2), [])
    assert write_case(1, [1, 2], example[12:], 14) == (Answer(9, 0, 0, 15), [])
    # "an element can't run over into the next page"
    cut = bytes(write_case(1, [2, 1], [0x41, 0xC2, 0x65])[1])
    assert read_case(cut, 0) == (CaseAnswer(4, 1, 1, 2), [])
    # Each header is wrong in all that the ones after it are wrong in.
    for number, header in [(13, "54 4C 59 00 02 04 FF FF"), (14, "54 4C 58 00 02 04 FF FF"), (11, "54 4C 58 00 01 04 FF FF")]:
        assert read_case(bytes.fromhex(header)) == (CaseAnswer(number), [])
        assert page_elements(bytes.fromhex(header), 0) == ReadAnswer(number)
    assert read_case(bytes.fromhex("54 4C 58 00 01 01 FF FF")) == (CaseAnswer(15), [])
    assert read_case(CASE_MARK) == (CaseAnswer(13), [])
    assert write_case(0, [2**16], [], 0) == (Answer(11), [])
    assert write_case(3, [2**16], [], 0) == (Answer(15), [])


check()
check_readings()
check_cases()

if __name__ == "__main__":
    check_texts()
    check_serial()
    check_compared()
    check_respelled()
    check_upper()
    print("the sixteen readings hold, and so do texts, the whole example of a case, pages in pieces, texts compared, what was respelled")
    print("and sequences in the upper half")
