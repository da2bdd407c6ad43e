"""Sizes and arrays as they are given, as the JSON that the program reads, and as it prints them after a run.

NumPy is looked at only where the caller has it: a call with lists needs none.
"""
from __future__ import annotations

import json
import math
import operator
import re
import sys
from dataclasses import dataclass
from itertools import islice
from pathlib import Path
from typing import Any, BinaryIO, Iterator, Mapping

from .refusals import ArraysTooLong, DoesNotFit
from .sizes import Shape, ShapesAndSizes

HEAD = re.compile(rb"(\w+)\[(\d+(?:,\d+)*)\] =")
LEAST, MOST = -(2**63), 2**63 - 1
MOST_BYTES = 2**26
"""The greatest arrays file."""
BLOCK = 2**15
"""How many elements of a NumPy array become text at a time."""
MOST_BYTES_OF_A_BLOCK = 2**20
COMMA = ord(",")
ENDS = range(COMMA + 100, 256)
"""Stand for the ends of one list, of two lists and so on, until these are put in their places."""


def is_numpy(value: object) -> bool:
    """Tells whether this is a NumPy array."""
    numpy = sys.modules.get("numpy")
    return numpy is not None and isinstance(value, numpy.ndarray)


def is_size(value: object) -> bool:
    """Tells whether this is a whole number."""
    try:
        operator.index(value)  # type: ignore[arg-type]
    except TypeError:
        return False
    return True


def shape_of(value: Any) -> Shape:
    """Gives the shape of an array, by the first items where it is lists; a number has an empty one."""
    if is_numpy(value) or isinstance(value, Zeros):
        return tuple(value.shape)
    shape = []
    while isinstance(value, (list, tuple)):
        shape.append(len(value))
        value = value[0] if value else None
    return tuple(shape)


def shapes_and_sizes(entries: Mapping[str, Any]) -> ShapesAndSizes:
    """Gives the shapes of entries, and the numbers among them."""
    shapes = {name: shape_of(value) for name, value in entries.items()}
    return ShapesAndSizes(shapes, {name: operator.index(value) for name, value in entries.items() if is_size(value)})


def in_lists(value: Any, dimensions: int) -> Any:
    """Gives a number, or a NumPy array that is one, in lists of so many dimensions; anything else as it is."""
    numpy = sys.modules.get("numpy")
    if numpy is not None and isinstance(value, (numpy.ndarray, numpy.generic)):
        return value if numpy.ndim(value) else numpy.reshape(value, (1,) * dimensions)
    if not isinstance(value, (int, float)):
        return value
    for _ in range(dimensions):
        value = [value]
    return value


def write_entries(file: Path, entries: Mapping[str, Any]) -> None:
    """Writes the arrays file of these sizes and arrays, or raises `DoesNotFit` or `ArraysTooLong` and writes nothing."""
    text = _Text()
    for at, (name, value) in enumerate(entries.items()):
        text.begin(name, f"{',' if at else '{'}{json.dumps(name)}:".encode())
        for piece in _pieces(name, value):
            text.add(piece)
    text.pieces.append(b"}" if entries else b"{}")
    with file.open("wb") as out:
        out.writelines(text.pieces)


@dataclass(frozen=True)
class Zeros:
    """An array of zeros of some shape."""

    shape: Shape

    def text(self) -> bytes:
        text = b"0"
        for extent in reversed(self.shape):
            text = b"[" + b",".join([text] * extent) + b"]"
        return text


class _Text:
    """The text of an arrays file, which is kept until it is known that it is not too long."""

    def __init__(self) -> None:
        self.pieces: list[bytes] = []
        # A brace closes the text.
        self.room = MOST_BYTES - 1
        self.first = 0

    def begin(self, name: str, head: bytes) -> None:
        """Begins an entry."""
        self.name, self.first = name, len(self.pieces) + 1
        self.add(head)

    def add(self, piece: bytes) -> None:
        """Adds a piece of the entry; each comma in one stands behind an element."""
        self.room -= len(piece)
        if self.room < 0:
            whole = [*self.pieces[self.first :], piece[: self.room]] if len(self.pieces) >= self.first else []
            raise ArraysTooLong(self.name, sum(it.count(b",") for it in whole))
        self.pieces.append(piece)


def _pieces(name: str, value: Any) -> Iterator[bytes]:
    """Gives the JSON of a size or an array in pieces, or raises `DoesNotFit`."""
    if isinstance(value, Zeros):
        yield value.text()
    elif not is_numpy(value):
        yield _json_of(name, value)
    elif value.size == 0:
        yield json.dumps(value.tolist()).encode()
    else:
        yield b"[" * value.ndim
        yield from _elements(name, value)
        yield b"]" * value.ndim


def _json_of(name: str, value: Any) -> bytes:
    try:
        text = json.dumps(value, allow_nan=False, default=operator.index, separators=(",", ":"))
    except (TypeError, ValueError, RecursionError) as wrong:
        raise DoesNotFit(name, f"it is not made of numbers and lists: {wrong}") from None
    return text.replace("true", "1").replace("false", "0").encode()


def _elements(name: str, array: Any) -> Iterator[bytes]:
    """Gives the elements of a NumPy array that has some, with what stands between them."""
    import numpy

    from .digits import text_of

    if array.dtype.kind not in "biuf":
        raise DoesNotFit(name, f"its elements are {array.dtype}, and not whole numbers")
    if numpy.ma.is_masked(array):
        raise DoesNotFit(name, "some of its elements are masked")
    # The numbers of elements in lists of each depth, the innermost first.
    lengths = [math.prod(array.shape[-it:]) for it in range(1, array.ndim)]
    blocks = numpy.nditer(
        array, ["external_loop", "buffered"], [["readonly"]], [array.dtype.newbyteorder("=")], "C", "equiv", buffersize=BLOCK
    )
    begin = 0
    for block in blocks:
        end = begin + len(block)
        ends = _ends(begin, end, lengths)
        if end == array.size:
            ends[-1] = COMMA
        text = text_of(_whole(name, block, array, begin), ends)
        for depth, length in enumerate(lengths, 1):
            if end // length > begin // length:
                text = text.replace(bytes([ENDS[depth]]), b"]" * depth + b"," + b"[" * depth)
        yield text if end < array.size else text[:-1]
        begin = end


def _ends(begin: int, end: int, lengths: list[int]) -> Any:
    """Gives what stands behind each of the elements of these numbers, where lists of each depth have so many elements."""
    import numpy

    ends = numpy.full(end - begin, COMMA, numpy.uint8)
    for depth, length in enumerate(lengths, 1):
        ends[(-begin - 1) % length :: length] = ENDS[depth]
    return ends


def _whole(name: str, block: Any, array: Any, begin: int) -> Any:
    """Gives some elements of an array, from the number `begin` on, as numbers of 64 bits, or raises `DoesNotFit`."""
    import numpy

    if block.dtype.kind == "f":
        wide = block.astype(numpy.result_type(block.dtype, numpy.float64))
        with numpy.errstate(invalid="ignore"):
            bad = (wide != numpy.floor(wide)) | ~((wide >= float(LEAST)) & (wide < -float(LEAST)))
    elif block.dtype.kind == "u":
        bad = block > MOST
    else:
        return block.astype(numpy.int64, copy=False)
    if bad.any():
        place = tuple(int(it) for it in numpy.unravel_index(begin + int(bad.argmax()), array.shape))
        why = f"its element {list(place)}, {array[place]}, is no whole number from -2^63 to 2^63-1"
        raise DoesNotFit(name, why)
    return block.astype(numpy.int64)


def read_arrays(output: BinaryIO, given: Mapping[str, Any]) -> dict[str, Any]:
    """Reads the arrays that were printed: what was given tells whether each is a NumPy array, a number or lists.

    Raises `ValueError`.
    """
    return {name: _array_like(given.get(name), output, shape) for name, shape in _heads(output)}


def read_some(output: BinaryIO, given: Mapping[str, Any]) -> dict[str, Any]:
    """Reads those of the arrays that were printed that are among the given ones, and passes the others over."""
    found = {}
    for name, shape in _heads(output):
        if name in given:
            found[name] = _array_like(given[name], output, shape)
        else:
            _pass_line(output)
    return found


def read_into(output: BinaryIO, arrays: Mapping[str, Any]) -> None:
    """Reads the arrays that were printed into these, and passes over those that are not among them. Raises `ValueError`."""
    for name, shape in _heads(output):
        if name not in arrays:
            _pass_line(output)
        elif is_numpy(arrays[name]) and arrays[name].flags.c_contiguous and arrays[name].size == math.prod(shape):
            import numpy

            from .digits import read_numbers

            # A part of a matrix of NumPy is no row.
            read_numbers(output, numpy.asarray(arrays[name]).reshape(-1))
        else:
            put(arrays[name], _array_like(arrays[name], output, shape))


def put(array: Any, after: Any) -> None:
    """Puts the elements of an array into another one."""
    if is_numpy(array):
        array[...] = after
    elif after and isinstance(after[0], list):
        for row, values in zip(array, after):
            put(row, values)
    else:
        array[:] = after


def _heads(output: BinaryIO) -> Iterator[tuple[str, Shape]]:
    """Gives the name and the shape of each array, whose elements are then to be read; or raises `ValueError`."""
    while head := _head(output):
        told = HEAD.fullmatch(head)
        if told is None:
            raise ValueError(f"this begins no line of an array: {head[:80]!r}")
        yield told[1].decode(), tuple(int(it) for it in told[2].split(b","))


def _head(output: BinaryIO) -> bytes:
    """Reads a line up to its equals sign."""
    head = b""
    while (byte := output.read(1)) not in (b"", b"\n", b"="):
        head += byte
    return head + byte


def _pass_line(output: BinaryIO) -> None:
    """Reads to the end of a line, of which nothing is kept."""
    while block := output.read(MOST_BYTES_OF_A_BLOCK):
        end = block.find(b"\n") + 1
        if end:
            output.seek(end - len(block), 1)
            return


def _array_like(given: Any, output: BinaryIO, shape: Shape) -> Any:
    """Reads the elements of an array, as what was given for it."""
    if is_numpy(given):
        import numpy

        from .digits import read_numbers

        found = numpy.empty(math.prod(shape), numpy.int64)
        read_numbers(output, found)
        return found.reshape(shape if given.ndim else given.shape)
    line = output.readline()
    values = [int(it) for it in line.split()]
    if len(values) != math.prod(shape) or not line.endswith(b"\n"):
        raise ValueError(f"an array of shape {shape} has {len(values)} elements")
    if not isinstance(given, (list, tuple)) and len(values) == 1:
        return values[0]
    return _nested(iter(values), shape)


def _nested(values: Iterator[int], shape: Shape) -> list[Any]:
    if len(shape) == 1:
        return list(islice(values, shape[0]))
    return [_nested(values, shape[1:]) for _ in range(shape[0])]
