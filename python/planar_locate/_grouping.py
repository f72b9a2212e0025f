"""Many lines by numpy: which of them are the same."""
from __future__ import annotations

from typing import TYPE_CHECKING, Dict, List, Tuple

if TYPE_CHECKING:
    import numpy

LINE_END = 10
# Lines of more bytes are looked up one by one.
LONGEST = 128
# The bytes of a word, as it is compared.
WORD = 8
# What a line's words are mixed with to find its slot; another number in each round.
FIRST_FACTOR = 0x9E3779B97F4A7C15
NEXT_FACTOR = 6364136223846793005
MODULUS = 1 << 64


def grouped(text: bytes) -> "Tuple[List[bytes], numpy.ndarray]":
    """The different lines of a text whose last byte is a line end, without their ends; and for each line the number of its own among these."""
    import numpy

    ends = numpy.flatnonzero(numpy.frombuffer(text, dtype=numpy.uint8) == LINE_END)
    starts = numpy.concatenate([[0], ends[:-1] + 1])
    lengths = ends - starts
    like = numpy.arange(len(ends))
    set_like_of_short(like, text, starts, lengths)
    set_like_of_long(like, text, starts, ends, lengths)
    firsts = numpy.flatnonzero(like == numpy.arange(len(ends)))
    numbers = numpy.empty(len(ends), dtype=numpy.intp)
    numbers[firsts] = numpy.arange(len(firsts))
    lines = [text[start:end] for start, end in zip(starts[firsts].tolist(), ends[firsts].tolist())]
    return lines, numbers[like]


def set_like_of_short(like: "numpy.ndarray", text: bytes, starts: "numpy.ndarray", lengths: "numpy.ndarray") -> None:
    """Sets for each short line the number of one line that is the same, of the same one for all that are.

    Each line has a slot, by its words; the line that is last in a slot stands for all there that have its words, and those that have others
    go on to another round."""
    import numpy

    left = numpy.flatnonzero(lengths <= LONGEST)
    words = words_of(text, starts[left], lengths[left])
    factor = FIRST_FACTOR
    while len(left):
        bits = len(left).bit_length() + 1
        slots = slots_of(words, factor, bits)
        last = numpy.zeros(1 << bits, dtype=numpy.int32)
        last[slots] = numpy.arange(len(left), dtype=numpy.int32)
        found = last[slots]
        is_same = numpy.ones(len(left), dtype=bool)
        for word in words:
            is_same &= word[found] == word
        like[left[is_same]] = left[found[is_same]]
        left, words = left[~is_same], [word[~is_same] for word in words]
        factor = (factor * NEXT_FACTOR + 2) % MODULUS | 1


def words_of(text: bytes, starts: "numpy.ndarray", lengths: "numpy.ndarray") -> "List[numpy.ndarray]":
    """The lines as words of eight bytes, with zeros behind the end; the last word is the length."""
    import numpy

    count = -(-int(lengths.max(initial=0)) // WORD)
    padded = text + bytes(WORD * count)
    # the eight bytes from each byte on
    eights: "numpy.ndarray" = numpy.ndarray(shape=(len(text) + 1,), dtype="<u8", buffer=padded, strides=(1,)) if count else numpy.empty(0, "<u8")
    masks = numpy.array([(1 << 8 * number) - 1 for number in range(WORD + 1)], dtype=numpy.uint64)
    words = []
    for word in range(count):
        # no eight bytes begin behind the end of the text
        at = numpy.minimum(starts + WORD * word, len(text))
        words.append(eights[at] & masks[numpy.clip(lengths - WORD * word, 0, WORD)])
    return words + [lengths.astype(numpy.uint64)]


def slots_of(words: "List[numpy.ndarray]", factor: int, bits: int) -> "numpy.ndarray":
    """A number of so many bits for each line, by its words."""
    import numpy

    mixed = numpy.zeros(len(words[0]), dtype=numpy.uint64)
    for word in words:
        mixed ^= word
        mixed *= numpy.uint64(factor)
        mixed ^= mixed >> numpy.uint64(29)
    mixed *= numpy.uint64(factor)
    return (mixed >> numpy.uint64(64 - bits)).astype(numpy.intp)


def set_like_of_long(like: "numpy.ndarray", text: bytes, starts: "numpy.ndarray", ends: "numpy.ndarray", lengths: "numpy.ndarray") -> None:
    """The same for the long lines, one by one."""
    import numpy

    first: Dict[bytes, int] = {}
    for at in numpy.flatnonzero(lengths > LONGEST).tolist():
        like[at] = first.setdefault(text[starts[at]:ends[at]], at)
