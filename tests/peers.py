"""Other decoders' answers, code by code, beside those of documents 01 and 02, and the reason of each difference.

The answers are crates/vectors_alphabet/data/*.csv. Each difference between a decoder and the documents has a reason in `RULES` below: a
difference that no rule names, one that two rules name, and a code that a rule names though it does not differ are errors.
"""
from __future__ import annotations

import pathlib
import re
import sys
from typing import Iterable, Iterator, NamedTuple, Tuple

sys.dont_write_bytecode = True
import model

ROOT = pathlib.Path(__file__).resolve().parent.parent
DATA = ROOT / "crates" / "vectors_alphabet" / "data"

Code = Tuple[int, ...]  # one octet, or two


class Peer(NamedTuple):
    """A decoder: its file of answers, its name, and the form that it is compared with."""

    file: str
    decoder: str
    form: int


PEERS = [
    Peer("glibc_T61.csv", "GNU C library, `iconv -f T.61-8BIT`", 3),
    Peer("glibc_ISO6937.csv", "GNU C library, `iconv -f ISO_6937`", 1),
    Peer("glibc_ISO6937-2.csv", "GNU C library, `iconv -f ISO_6937-2` (the older standard)", 1),
    Peer("wireshark_T61.csv", "Wireshark, `get_t61_string`", 3),
    Peer("openldap_T61.csv", "OpenLDAP 2.5, `t61.c`", 3),
    Peer("zvbi_teletext_G2.csv", "libzvbi, the teletext G2 set", 1),
]


# The codes of a rule.


def octets(text: str) -> list[int]:
    """The octets of a list such as `00-07 09`."""
    found: list[int] = []
    for part in text.split():
        ends = [int(end, 16) for end in part.split("-")]
        found.extend(range(ends[0], ends[-1] + 1))
    return found


def singles(text: str) -> list[Code]:
    """Each octet of the list, alone."""
    return [(octet,) for octet in octets(text)]


def pairs(firsts: str, followers: Iterable[int]) -> list[Code]:
    """Each first octet before each follower."""
    return [(first, follower) for first in octets(firsts) for follower in followers]


def with_letters(first: str, letters: str) -> list[Code]:
    """The first octet before each of the letters."""
    return pairs(first, [ord(letter) for letter in letters])


# Where the annex codes small g with cedilla (document 02, No. 2), and where its mark would code it.
SMALL_G = with_letters("C2", "g")
SMALL_G_BY_MARK = with_letters("CB", "g")


def unlisted() -> list[Code]:
    """Each mark before each letter that is not listed for it, but for the cedilla and g, which has a reason of its own."""
    squares = [(mark, follower) for mark in model.MARKS for follower in model.FOLLOWERS]
    return [square for square in squares if model.pair(*square) is None and square not in SMALL_G_BY_MARK]


# The differences that are expected, each with its reason.


class Rule(NamedTuple):
    """Codes of one decoder that do not agree, and why."""

    file: str
    codes: list[Code]
    reason: str


PASSED = "passes C0 and C1 controls and DEL through; the form has few controls, and these are not among them"
SEQUENCE = "a C1 control passed through; to 01 the start of a control sequence, inside which the input ends"
NUMBER_CURRENCY = "has the number and currency signs at A6 and A8 alone; form 3 reads them here too"
NO_UNDERLINE = "does not know CC; 01 underlines"
COMBINING_UNDERLINE = "gives the combining low line after the character; 01 has one element, the character underlined"
ETH = "reads Eth; 01 has D with stroke, and Eth is in no form"
DASH = "reads the em dash; 01 has the horizontal bar"
NO_ACCENT = "has no such pair; 01 has the free-standing accent"
NO_SMALL_G = "has no such pair; 02 has small g with cedilla here, by its code in the annex"
ACUTE_G = "reads g with acute, by its code; 02 reads small g with cedilla, by its name in the annex"
CEDILLA_G = "has small g with cedilla here; 01 lists the capital alone, and 02 has the small one at C2 and g"
ANY_LETTER = "takes any letter after a mark; 01 does not list it"
NO_BREAK_SPACE = "passes A0 through; form 3 has nothing there"
MARK_ALONE = "gives a mark alone a character; to 01 the input ends inside the pair"
UNDERLINE_ALONE = "gives CC alone a character; to 01 the input ends inside the element"
OLDER_DOLLAR = "the older standard has the currency sign here"
OLDER_ALLOCATED = "the older standard has a character here; forms 1 and 2 have none"
OLDER_LACKS = "the older standard has no character here"
G2_ALLOCATED = "teletext's G2 set has a character here, SPACE where it has no other; form 1 has none"
G2_OTHER = "teletext's G2 set has another character here"
G2_NO_MARK = "takes C0 for no mark and gives the follower; form 1 has no C0"
G2_BREVE = "takes more letters with a breve; 01 lists A, G and U alone"

RULES = [
    Rule("glibc_T61.csv", singles("00-07 09 0B 0E-19 1B-1F 7F-8A 8D-9A 9C-9F"), PASSED),
    Rule("glibc_T61.csv", singles("9B"), SEQUENCE),
    Rule("glibc_T61.csv", singles("23 24"), NUMBER_CURRENCY),
    Rule("glibc_T61.csv", singles("E2"), ETH),
    Rule("glibc_T61.csv", pairs("C1 C3 C4", [model.SPACE]), NO_ACCENT),
    Rule("glibc_T61.csv", SMALL_G, NO_SMALL_G),
    Rule("glibc_T61.csv", SMALL_G_BY_MARK, CEDILLA_G),
    Rule("glibc_T61.csv", pairs("CC", model.FOLLOWERS), NO_UNDERLINE),
    Rule("glibc_ISO6937.csv", singles("00-09 0B 0C 0E-1F 7F-9F"), PASSED),
    Rule("glibc_ISO6937.csv", singles("D0"), DASH),
    Rule("glibc_ISO6937.csv", singles("E2"), ETH),
    Rule("glibc_ISO6937.csv", pairs("C1 C3 C4", [model.SPACE]), NO_ACCENT),
    Rule("glibc_ISO6937.csv", SMALL_G, NO_SMALL_G),
    Rule("glibc_ISO6937.csv", SMALL_G_BY_MARK, CEDILLA_G),
    Rule("glibc_ISO6937-2.csv", singles("00-09 0B 0C 0E-1F 7F-9F"), PASSED),
    Rule("glibc_ISO6937-2.csv", singles("24"), OLDER_DOLLAR),
    Rule("glibc_ISO6937-2.csv", singles("A4 A6"), OLDER_ALLOCATED),
    Rule("glibc_ISO6937-2.csv", singles("A0 D6 D7 FF"), OLDER_LACKS),
    Rule("glibc_ISO6937-2.csv", singles("D0"), DASH),
    Rule("glibc_ISO6937-2.csv", singles("E2"), ETH),
    Rule("glibc_ISO6937-2.csv", pairs("C1 C3", [model.SPACE]), NO_ACCENT),
    Rule("glibc_ISO6937-2.csv", SMALL_G, NO_SMALL_G),
    Rule("glibc_ISO6937-2.csv", SMALL_G_BY_MARK, CEDILLA_G),
    Rule("wireshark_T61.csv", singles("01-07 09 0B 0E-19 1B-1F 7F-8A 8D-9A 9C-9F"), PASSED),
    Rule("wireshark_T61.csv", singles("9B"), SEQUENCE),
    Rule("wireshark_T61.csv", singles("A0"), NO_BREAK_SPACE),
    Rule("wireshark_T61.csv", singles("23 24"), NUMBER_CURRENCY),
    Rule("wireshark_T61.csv", singles("C1-C8 CA CB CD-CF"), MARK_ALONE),
    Rule("wireshark_T61.csv", singles("CC"), UNDERLINE_ALONE),
    Rule("wireshark_T61.csv", singles("E2"), ETH),
    Rule("wireshark_T61.csv", pairs("CC", model.FOLLOWERS), COMBINING_UNDERLINE),
    Rule("wireshark_T61.csv", SMALL_G, ACUTE_G),
    Rule("wireshark_T61.csv", SMALL_G_BY_MARK, CEDILLA_G),
    Rule("wireshark_T61.csv", unlisted(), ANY_LETTER),
    Rule("openldap_T61.csv", singles("01-07 09 0B 0E-19 1B-1F 7F-8A 8D-9A 9C-9F"), PASSED),
    Rule("openldap_T61.csv", singles("9B"), SEQUENCE),
    Rule("openldap_T61.csv", singles("A0"), NO_BREAK_SPACE),
    Rule("openldap_T61.csv", singles("23 24"), NUMBER_CURRENCY),
    Rule("openldap_T61.csv", singles("C1-C8 CA CB CD-CF"), MARK_ALONE),
    Rule("openldap_T61.csv", singles("CC"), UNDERLINE_ALONE),
    Rule("openldap_T61.csv", singles("E2"), ETH),
    Rule("openldap_T61.csv", pairs("CC", model.FOLLOWERS), COMBINING_UNDERLINE),
    Rule("openldap_T61.csv", SMALL_G, ACUTE_G),
    Rule("openldap_T61.csv", SMALL_G_BY_MARK, CEDILLA_G),
    Rule("openldap_T61.csv", unlisted(), ANY_LETTER),
    Rule("zvbi_teletext_G2.csv", singles("A4 A6 C0 C9 CC D8-DB E5"), G2_ALLOCATED),
    Rule("zvbi_teletext_G2.csv", singles("C1-C8 CA CB CD-CF"), MARK_ALONE),
    Rule("zvbi_teletext_G2.csv", singles("D0"), DASH),
    Rule("zvbi_teletext_G2.csv", singles("D6 D7 FF"), G2_OTHER),
    Rule("zvbi_teletext_G2.csv", singles("E2"), ETH),
    Rule("zvbi_teletext_G2.csv", pairs("C0", model.FOLLOWERS), G2_NO_MARK),
    Rule("zvbi_teletext_G2.csv", pairs("C1-C8 CA CB CD-CF", [model.SPACE]), NO_ACCENT),
    Rule("zvbi_teletext_G2.csv", with_letters("C6", "EIOeio"), G2_BREVE),
    Rule("zvbi_teletext_G2.csv", SMALL_G, NO_SMALL_G),
    Rule("zvbi_teletext_G2.csv", SMALL_G_BY_MARK, CEDILLA_G),
]


# How numbers are written.


def hexed(numbers: Iterable[int]) -> str:
    """Octets as `C2 65`."""
    return " ".join(f"{number:02X}" for number in numbers)


def code_point(character: int) -> str:
    """In four digits, or in eight where four do not hold it."""
    return f"{character:04X}" if character < 0x10000 else f"{character:08X}"


# What the other decoders answer, and what the documents do.


def answers_of(peer: Peer) -> list[tuple[Code, str]]:
    """The file's lines: the octets, and what the decoder gave."""
    heading, *lines = (DATA / peer.file).read_text(encoding="ascii").splitlines()
    assert heading == "octets,codepoints", peer.file
    answers = []
    for line in lines:
        found = re.fullmatch(r"([0-9A-F]{2}(?: [0-9A-F]{2})?),([0-9A-F]{4}(?: [0-9A-F]{4})*|refused(?::[0-9A-F ]+)?)", line)
        assert found, (peer.file, line)
        answers.append((tuple(octets(found[1])), found[2]))
    assert len({code for code, _ in answers}) == len(answers), peer.file
    return answers


def one_answer(form: int, octet: int) -> str:
    """An octet alone: a graphic's character, a control's own number. The input ends inside anything else that an octet begins."""
    sort = model.sort(form, octet)
    return code_point(sort.value) if sort.kind in ("graphic", "control") else "refused"


def pair_answer(form: int, first: int, second: int) -> str:
    sort = model.sort(form, first)
    if sort.kind == "underline" and model.sort(form, second).kind == "graphic":
        return f"underlined {code_point(model.sort(form, second).value)}"
    character = model.pair(first, second) if sort.kind == "mark" else None
    return "refused" if character is None else code_point(character)


def our_answer(form: int, code: Code) -> str:
    return one_answer(form, code[0]) if len(code) == 1 else pair_answer(form, code[0], code[1])


class Difference(NamedTuple):
    code: Code
    theirs: str
    ours: str


def agrees(theirs: str, ours: str) -> bool:
    """`refused:` and what a decoder puts in the place of what it refuses is a refusal too."""
    return theirs.split(":")[0] == ours


def differences_of(peer: Peer) -> list[Difference]:
    answers = [Difference(code, theirs, our_answer(peer.form, code)) for code, theirs in answers_of(peer)]
    return [answer for answer in answers if not agrees(answer.theirs, answer.ours)]


# The rules, held against the differences.


def rule_errors() -> Iterator[str]:
    for rule in RULES:
        if rule.file not in [peer.file for peer in PEERS]:
            yield f"{rule.file}: no such file: {rule.reason}"
        if not rule.codes:
            yield f"{rule.file}: a rule that names no code: {rule.reason}"
    for peer in PEERS:
        differing = {difference.code for difference in differences_of(peer)}
        named = [code for rule in RULES if rule.file == peer.file for code in rule.codes]
        for code in sorted(differing - set(named)):
            yield f"{peer.file}: {hexed(code)} differs, and no rule says why"
        for code in sorted(set(named) - differing):
            yield f"{peer.file}: {hexed(code)} does not differ, and a rule says that it does"
        for code in sorted({code for code in named if named.count(code) > 1}):
            yield f"{peer.file}: {hexed(code)} is named twice by the rules"
