#!/usr/bin/env python3
"""Writes whole texts, and what the GNU C library decodes them to, for the program crates/vectors_text.

    make_peer_texts.py            asks the C library, and writes the files
    make_peer_texts.py --check    asks it and only compares, with exit status 1 where a file is not as it would be written

The texts are of codes that documents 01 and 02 allocate, drawn by chance from a fixed seed. A file has a heading and a line a text: the
octets, the code points that the C library gave, and how many octets it took, which are fewer than there are where it refuses the
code that comes next. All of it is in hex. Where the C library is another, or lacks the alphabets, it cannot be asked: then nothing is
written, and --check says so and compares the texts alone.

What it gives is held here against the documents (model.py): they may differ only in the codes of which docs/PEERS.md has it (peers.py).
"""
from __future__ import annotations

import ctypes
import errno
import functools
import itertools
import pathlib
import random
import sys
from typing import Iterable, Iterator, NamedTuple, Optional, Tuple

sys.dont_write_bytecode = True
import model
import peers
from peers import Code

ROOT = pathlib.Path(__file__).resolve().parent.parent
DATA = ROOT / "crates" / "vectors_text" / "data"
SEED = 1

# What the program has room for.
MOST_FILE = 400_000
MOST_OCTETS = 256

VERSION = "2.36"  # of the C library whose answers are stored


class Decoder(NamedTuple):
    """A decoder of the C library: the file of texts, its own name for the alphabet, and the file of its answers code by code."""

    file: str
    alphabet: str
    by_code: str


DECODERS = [
    Decoder("glibc_1.csv", "ISO_6937", "glibc_ISO6937.csv"),
    Decoder("glibc_3.csv", "T.61-8BIT", "glibc_T61.csv"),
]


@functools.cache
def peer_of(decoder: Decoder) -> peers.Peer:
    return next(peer for peer in peers.PEERS if peer.file == decoder.by_code)


# The texts, each a list of codes.

Text = Tuple[Code, ...]


def allocated(form: int) -> list[Code]:
    """The codes that documents 01 and 02 allocate in the form.

    The underlined and the control sequences of form 3 are left out: the C library reads neither as document 01 has them.
    """
    singles = [*model.PRIMARY[form], *model.SPACING[form], *model.CONTROLS[form]]
    return [*((octet,) for octet in singles), *model.SQUARES]


@functools.cache
def listed(decoder: Decoder) -> dict[Code, peers.Difference]:
    """The allocated codes in which the C library and the documents differ."""
    peer = peer_of(decoder)
    codes = allocated(peer.form)
    return {difference.code: difference for difference in peers.differences_of(peer) if difference.code in codes}


def refused(decoder: Decoder) -> list[Code]:
    """The allocated codes that the C library refuses."""
    return [code for code, difference in listed(decoder).items() if difference.theirs == "refused"]


def drawn(codes: list[Code], chance: random.Random) -> Iterator[Code]:
    """The codes without end, each of them once before any comes again."""
    while True:
        yield from chance.sample(codes, len(codes))


TEXTS = 600
MOST_ELEMENTS = 60
AROUND = [(before, after) for before in (0, 1, 7, 25) for after in (0, 1, 12)]


@functools.cache
def texts(decoder: Decoder) -> list[Text]:
    """Texts of each length that the C library decodes, then texts with each code that it refuses, alone and among others."""
    stopping = refused(decoder)
    codes = drawn([code for code in allocated(peer_of(decoder).form) if code not in stopping], random.Random(SEED))
    found = [tuple(itertools.islice(codes, 1 + number % MOST_ELEMENTS)) for number in range(TEXTS)]
    for code in stopping:
        for before, after in AROUND:
            found.append((*itertools.islice(codes, before), code, *itertools.islice(codes, after)))
    assert {code for text in found for code in text} == set(allocated(peer_of(decoder).form))
    assert len(set(found)) == len(found)
    return found


def octets_of(text: Iterable[Code]) -> bytes:
    return bytes(itertools.chain.from_iterable(text))


# What the C library gives.


class Given(NamedTuple):
    """The characters, and how many octets were taken."""

    characters: Tuple[int, ...]
    taken: int


class Converter:
    """The C library's `iconv`, from one of its alphabets to Unicode."""

    def __init__(self, library: ctypes.CDLL, handle: int) -> None:
        self.library = library
        self.handle = ctypes.c_void_p(handle)

    def decode(self, octets: bytes) -> Given:
        """What it gives for the octets, up to the first code that it refuses."""
        room = 4 * len(octets)
        source, out = ctypes.create_string_buffer(octets), ctypes.create_string_buffer(room)
        source_at, out_at = ctypes.c_void_p(ctypes.addressof(source)), ctypes.c_void_p(ctypes.addressof(out))
        left, free = ctypes.c_size_t(len(octets)), ctypes.c_size_t(room)
        self.library.iconv(self.handle, None, None, None, None)
        ctypes.set_errno(0)
        self.library.iconv(self.handle, *map(ctypes.byref, (source_at, left, out_at, free)))
        assert ctypes.get_errno() == (errno.EILSEQ if left.value else 0)
        written = out.raw[: room - free.value]
        return Given(tuple(map(ord, written.decode("utf-32-be"))), len(octets) - left.value)


def converter(alphabet: str) -> Optional[Converter]:
    """None where the C library is not the GNU one, or lacks the alphabet."""
    library = ctypes.CDLL(None, use_errno=True)
    if not hasattr(library, "gnu_get_libc_version"):
        return None
    library.iconv_open.restype = ctypes.c_void_p
    library.iconv.argtypes = [ctypes.c_void_p] * 5
    handle = library.iconv_open(b"UTF-32BE", alphabet.encode("ascii"))
    return None if handle == ctypes.c_void_p(-1).value else Converter(library, handle)


# Files.

HEADING = "octets,codepoints,taken"


def line(text: Text, given: Given) -> str:
    octets = octets_of(text)
    assert len(octets) <= MOST_OCTETS
    return f"{octets.hex().upper()},{' '.join(map(peers.code_point, given.characters))},{given.taken:02X}"


def stored(decoder: Decoder) -> dict[bytes, Given]:
    """The answers of the file, by the octets of the text."""
    heading, *lines = (DATA / decoder.file).read_text(encoding="ascii").splitlines()
    assert heading == HEADING, decoder.file
    found = {}
    for octets, characters, taken in (each.split(",") for each in lines):
        found[bytes.fromhex(octets)] = Given(tuple(int(each, 16) for each in characters.split()), int(taken, 16))
    return found


def file_text(decoder: Decoder, answers: dict[bytes, Given]) -> str:
    lines = [line(text, answers[octets_of(text)]) for text in texts(decoder) if octets_of(text) in answers]
    found = "".join(each + "\n" for each in [HEADING, *lines])
    assert len(found) < MOST_FILE
    return found


# What the documents say of it.

SAME, LISTED, STOPPED = "same", "listed", "stopped"


def verdict(decoder: Decoder, text: Text, given: Given) -> str:
    """Whether the C library and the documents agree on the text, but for listed characters, or up to a code that it is listed to refuse.

    The documents read all of it. Every code gives one character to both.
    """
    form, differences = peer_of(decoder).form, listed(decoder)
    answer, words = model.read_text(form, octets_of(text))
    assert (answer.number, answer.element, len(words)) == (0, len(text), len(text))
    read = text[: len(given.characters)]
    assert len(octets_of(read)) == given.taken
    found = SAME
    for code, theirs in zip(read, map(peers.code_point, given.characters)):
        ours = peers.our_answer(form, code)
        if theirs != ours:
            assert differences[code] == (code, theirs, ours)
            found = LISTED
    if read == text:
        return found
    assert differences[text[len(read)]].theirs == "refused"
    return STOPPED


class Totals(NamedTuple):
    texts: int
    same: int
    listed: int
    stopped: int


def totals(decoder: Decoder) -> Totals:
    """How the texts of the file compare with the documents."""
    answers = stored(decoder)
    verdicts = [verdict(decoder, text, answers[octets_of(text)]) for text in texts(decoder)]
    return Totals(len(verdicts), *(verdicts.count(each) for each in (SAME, LISTED, STOPPED)))


def report_line(decoder: Decoder) -> str:
    """What the program must print of the file."""
    count = totals(decoder)
    return (
        f"{decoder.file}: {count.texts} texts, {count.same} the same, {count.listed} but for listed characters, "
        f"{count.stopped} up to a code listed as refused, 0 otherwise"
    )


def asked(decoder: Decoder) -> Optional[dict[bytes, Given]]:
    """The C library's own answers, by the octets of the text; says so where it cannot be asked."""
    found = converter(decoder.alphabet)
    if found is None:
        print(f"{decoder.file}: there is no GNU C library with {decoder.alphabet} to ask", file=sys.stderr)
        return None
    return {octets: found.decode(octets) for octets in map(octets_of, texts(decoder))}


def is_stored(decoder: Decoder) -> bool:
    """Whether the file is as it would be written, which is the texts alone where the C library cannot be asked; says so where not."""
    same = (DATA / decoder.file).read_bytes() == file_text(decoder, asked(decoder) or stored(decoder)).encode("ascii")
    if not same:
        print(f"{decoder.file} is not as tests/make_peer_texts.py writes it", file=sys.stderr)
    return same


def store(decoder: Decoder) -> bool:
    """Writes the file, where the C library can be asked."""
    answers = asked(decoder)
    if answers is not None:
        (DATA / decoder.file).write_bytes(file_text(decoder, answers).encode("ascii"))
    return answers is not None


def main(arguments: list[str]) -> int:
    if arguments not in ([], ["--check"]):
        print(__doc__, file=sys.stderr)
        return 2
    act = is_stored if arguments == ["--check"] else store
    done = all([act(decoder) for decoder in DECODERS])
    assert all(min(totals(decoder)) > 0 for decoder in DECODERS)
    return 0 if done else 1


if __name__ == "__main__":
    sys.exit(main(sys.argv[1:]))
