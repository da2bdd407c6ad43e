"""Whole numbers of 64 bits as decimal text and back, many at a time: NumPy does the work, and Python loops over no element."""
from __future__ import annotations

from functools import lru_cache
from typing import Any, BinaryIO, Iterator, Union

import numpy

BLOCK = 2**17
"""How many bytes of a text are read at a time: few enough that what is made of them stays near the processor."""
MOST_DIGITS = 19
PAD = 24
"""Bytes before a block, since digits are taken by eights, up to three of them, and some of these begin before the block."""
GROUP = 10_000
EMPTY = b"\0"
ZERO, NINE, SPACE, MINUS = b"09 -"
Bytes = Union[int, numpy.ndarray]


@lru_cache(maxsize=None)
def _digits_of_groups() -> tuple[numpy.ndarray, numpy.ndarray]:
    """Gives the four digits of the numbers below 10,000 as 32 bits, without the zeros in front of them and then with these.

    The second table is for the last group of a number, which has the digit 0 where the number is 0.
    """
    numbers = numpy.arange(GROUP)
    digits = numpy.stack([numbers // power % 10 for power in (1000, 100, 10, 1)], axis=1) + ZERO
    bare = numpy.where(numbers[:, None] >= (1000, 100, 10, 1), digits, 0)
    upper, last = (numpy.concatenate([bare, digits]).astype(numpy.uint8) for _ in range(2))
    last[0, 3] = ZERO
    return upper.view("<u4").ravel(), last.view("<u4").ravel()


def text_of(values: numpy.ndarray, ends: Bytes) -> bytes:
    """Gives some numbers of 64 bits in decimal digits, each with the byte of `ends` behind it."""
    least, most = int(values.min()), int(values.max())
    if 0 <= least and most < 1000:
        # Three digits and what stands behind them are 32 bits.
        words = _digits_of_groups()[1][values] >> 8 | numpy.left_shift(ends, 24, dtype="<u4")
        if most < 10:
            return (words >> 16).astype("<u2").tobytes()
        return words.tobytes() if least > 99 else words.tobytes().translate(None, EMPTY)
    signed, sizes = _sizes(values)
    groups = _groups_of(int(sizes.max()))
    columns = [("sign", "u1")] * signed + [(f"group{it}", "<u4") for it in range(groups)] + [("end", "u1")]
    rows = numpy.empty(len(values), columns)
    if signed:
        rows["sign"] = (values < 0) * numpy.uint8(MINUS)
    rows["end"] = ends
    upper, last = _digits_of_groups()
    for it in reversed(range(groups)):
        above, places = _cut(sizes) if it else (sizes, sizes)
        rows[f"group{it}"] = (last if it == groups - 1 else upper)[places.astype(numpy.intp)]
        sizes = above
    # Where a number has less digits than the row has places, these are empty.
    return rows.tobytes().translate(None, EMPTY)


def _cut(sizes: numpy.ndarray) -> tuple[numpy.ndarray, numpy.ndarray]:
    """Gives what stands above the last group of each number, and where the tables have this group."""
    above = sizes // GROUP
    return above, sizes - above * GROUP + (above != 0) * sizes.dtype.type(GROUP)


def _sizes(values: numpy.ndarray) -> tuple[bool, numpy.ndarray]:
    """Gives the numbers without their signs, and whether one has a sign; in 32 bits where these hold them all."""
    sizes = values.view(numpy.uint64)
    signed = bool(values.min() < 0)
    if signed:
        sizes = numpy.where(values < 0, numpy.negative(sizes), sizes)
    return signed, sizes.astype(numpy.uint32) if sizes.max() < 2**32 else sizes


def _groups_of(most: int) -> int:
    groups = 1
    while most >= GROUP**groups:
        groups += 1
    return groups


def read_numbers(file: BinaryIO, found: numpy.ndarray) -> None:
    """Reads numbers, each behind a space, and the newline behind the last, into a row of as many; or raises `ValueError`."""
    count = len(found)
    buffer = bytearray(PAD + BLOCK)
    done = kept = 0
    last = False
    while not last:
        got = file.readinto(memoryview(buffer)[PAD + kept :])  # type: ignore[attr-defined]
        stop = PAD + kept + got
        end = buffer.find(b"\n", PAD, stop)
        last = end >= 0
        if last:
            file.seek(end + 1 - stop, 1)
        else:
            end = buffer.rfind(b" ", PAD, stop)
        if not got or end < PAD:
            raise ValueError("this is no line of an array")
        values = values_of(buffer, end)
        if done + len(values) > count:
            raise ValueError(f"an array of {count} elements has more of them")
        found[done : done + len(values)] = values
        done += len(values)
        kept = stop - end
        buffer[PAD : PAD + kept] = buffer[end:stop]
    if done != count:
        raise ValueError(f"an array of {count} elements has {done} of them")


def values_of(buffer: Any, end: int) -> numpy.ndarray:
    """Gives the numbers that stand from `PAD` on up to a place, each behind a space, or raises `ValueError`."""
    text = numpy.frombuffer(buffer, numpy.uint8, end - PAD, PAD)
    if not len(text):
        return numpy.empty(0, numpy.int64)
    others = int(numpy.count_nonzero(text < ZERO))
    if text[0] != SPACE or text.max() > NINE:
        raise ValueError("an element is no number")
    width = _width_of_all(text, others)
    if width:
        return _signed(_joined(buffer, range(width, len(text) + 1, width), width - 1), None)
    spaces = numpy.flatnonzero(text == SPACE)
    ends = numpy.append(spaces[1:], len(text))
    lengths = ends - spaces - 1
    negative = None
    if others > len(spaces):
        negative = text[numpy.minimum(spaces + 1, len(text) - 1)] == MINUS
        lengths -= negative
    if others != len(spaces) + (0 if negative is None else numpy.count_nonzero(negative)) or lengths.min() < 1:
        raise ValueError("an element is no number")
    return _signed(_joined(buffer, ends, lengths), negative)


def _width_of_all(text: numpy.ndarray, others: int) -> int:
    """Gives the width of the numbers with their spaces, where all have the same one and no sign; else 0."""
    width = len(text) // others
    alike = 1 < width and width * others == len(text) and (text[::width] == SPACE).all()
    return width if alike else 0


def _joined(buffer: Any, ends: Union[range, numpy.ndarray], lengths: Any) -> numpy.ndarray:
    """Gives the numbers whose digits end at these places behind `PAD`, and are so many."""
    most = int(numpy.max(lengths))
    if most > MOST_DIGITS:
        raise ValueError("an element has too many digits")
    kind = numpy.dtype("<u4" if most <= 4 else "<u8")
    sizes = numpy.zeros(1, kind)
    for at, words in _words(buffer, ends, kind, range(0, most, 8)):
        eight = _eight(words & _masks(kind, at)[lengths])
        sizes = sizes + eight * kind.type(10**at) if at else eight
    return sizes.astype(numpy.uint64, copy=False)


def _words(buffer: Any, ends: Union[range, numpy.ndarray], kind: numpy.dtype, left_out: range) -> Iterator[tuple[int, numpy.ndarray]]:
    """Gives the four or eight bytes before these places as numbers, where so many last ones are left out."""
    first = PAD - kind.itemsize
    if isinstance(ends, range):
        for at in left_out:
            yield at, numpy.ndarray((len(ends),), kind, buffer, ends.start + first - at, (ends.step,))
        return
    # Such a number begins at each byte of the buffer.
    windows = numpy.ndarray((len(buffer) - kind.itemsize + 1,), kind, buffer, 0, (1,)).copy()
    for at in left_out:
        yield at, windows[ends + (first - at)]


@lru_cache(maxsize=None)
def _masks(kind: numpy.dtype, at: int) -> numpy.ndarray:
    """Gives for each number of digits those bits that have values where the last `at` digits are left out."""
    bits = 8 * kind.itemsize
    counts = (min(max(it - at, 0), kind.itemsize) for it in range(MOST_DIGITS + 1))
    ones = 0x0F0F0F0F0F0F0F0F & (2**bits - 1)
    return numpy.array([ones << bits - 8 * it & 2**bits - 1 for it in counts], kind)


def _eight(digits: numpy.ndarray) -> numpy.ndarray:
    """Joins neighbours to pairs, these to fours and these to an eight, for each number at once; four digits are half of that."""
    bits = 8 * digits.dtype.itemsize
    steps = ((2561, 8, 0x00FF00FF00FF00FF), (6553601, 16, 0x0000FFFF0000FFFF), (42949672960001, 32, 2**64 - 1))
    for times, moved, mask in steps[: 2 if bits == 32 else 3]:
        digits *= digits.dtype.type(times)
        digits >>= digits.dtype.type(moved)
        digits &= digits.dtype.type(mask & (2**bits - 1))
    return digits


def _signed(sizes: numpy.ndarray, negative: Any) -> numpy.ndarray:
    """Gives the numbers of these sizes and signs, or raises `ValueError` where one has more than 64 bits."""
    most = 2**63 - 1 if negative is None else numpy.where(negative, numpy.uint64(2**63), numpy.uint64(2**63 - 1))
    if (sizes > most).any():
        raise ValueError("an element has more than 64 bits")
    values = sizes.view(numpy.int64)
    if negative is not None:
        numpy.negative(values, out=values, where=negative)
    return values
