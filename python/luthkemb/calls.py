"""Calls of functions as DaCe has them: `inc(A, B)` runs the program and changes its arrays in place."""
from __future__ import annotations

from dataclasses import replace
from itertools import combinations
from typing import Any, BinaryIO, Iterator, Mapping

from .arrays import is_numpy, read_into, read_some
from .commands import COMMANDS, Entries
from .dace import Program
from .refusals import DoesNotFit
from .sizes import Signature
from .sources import source_of

def call(program: Program, arrays: tuple[Any, ...], keywords: Entries, given: Entries) -> None:
    """Runs a program on arrays, by their places or names, and changes them, or raises and changes none of them."""
    source = source_of(program)
    names = list(Signature.of(source.text()).arguments) or list(program.function.__code__.co_varnames[: len(arrays)])
    entries = _by_names(program.function.__name__, names, arrays, given)
    changed = {name: entries[name] for name in names if _is_changed(name, entries[name])}
    _no_two_share(changed)
    only_read = {name: entries[name] for name in names if name not in changed}
    command = replace(COMMANDS["run"], answer=lambda output, _: _change(output, changed, only_read))
    command.called(source, keywords, entries)


def _change(output: BinaryIO, changed: Entries, only_read: Entries) -> None:
    """Changes the arrays to what was printed, or raises `DoesNotFit` where what is only read is not as it was."""
    if only_read:
        for name, after in read_some(output, only_read).items():
            if not _is_same(only_read[name], after):
                raise DoesNotFit(name, "the program changes it, and a number or an array of bool cannot hold that: give an int64 array")
        output.seek(0)
    read_into(output, changed)


def _by_names(function: str, names: list[str], arrays: tuple[Any, ...], given: Entries) -> dict[str, Any]:
    """Gives all that is given by its name, or raises `TypeError` as Python does."""
    if len(arrays) > len(names):
        raise TypeError(f"{function}() takes {len(names)} positional arguments but {len(arrays)} were given")
    entries = dict(zip(names, arrays))
    twice = sorted(set(entries) & set(given))
    if twice:
        raise TypeError(f"{function}() got multiple values for argument {twice[0]!r}")
    missing = [name for name in names if name not in entries and name not in given]
    if missing:
        raise TypeError(f"{function}() is called without {', '.join(missing)}")
    return {**entries, **given}


def _is_changed(name: str, value: Any) -> bool:
    """Tells whether an argument is changed in place; a number and an array of bool are only read. Or raises `DoesNotFit`."""
    if isinstance(value, tuple):
        raise DoesNotFit(name, f"a tuple cannot be changed in place: {INSTEAD}")
    if not is_numpy(value):
        return isinstance(value, list)
    if value.dtype.kind == "b":
        return False
    if (value.dtype.kind, value.dtype.itemsize) != ("i", 8):
        raise DoesNotFit(name, f"its elements are {value.dtype}, and a call changes arrays of int64 in place: {INSTEAD}")
    if not value.flags.writeable:
        raise DoesNotFit(name, f"it is read-only, and a call changes arrays in place: {INSTEAD}")
    return True


INSTEAD = "luthkemb.run takes it, and gives the arrays after the run"


def _no_two_share(changed: Mapping[str, Any]) -> None:
    """Raises `DoesNotFit` where two arguments have an element in common, or one has it twice: each would be changed to its own."""
    for name, value in changed.items():
        if is_numpy(value) and value.size and any(step == 0 and extent > 1 for step, extent in zip(value.strides, value.shape)):
            raise DoesNotFit(name, "some of its elements are one and the same")
    for (one, first), (other, second) in combinations(changed.items(), 2):
        if _share(first, second):
            raise DoesNotFit(other, f"it shares elements with {one}: give a copy of one of them")


def _share(first: Any, second: Any) -> bool:
    if is_numpy(first) and is_numpy(second):
        import numpy

        # Whether they do may take long to tell, where only their bounds meet.
        return bool(numpy.may_share_memory(first, second)) and _surely_share(numpy, first, second)
    if is_numpy(first) or is_numpy(second):
        return False
    return not {id(it) for it in _lists(first)}.isdisjoint(id(it) for it in _lists(second))


def _surely_share(numpy: Any, first: Any, second: Any) -> bool:
    try:
        return bool(numpy.shares_memory(first, second, max_work=10**6))
    except RuntimeError:
        return True


def _lists(value: Any) -> Iterator[list[Any]]:
    """Gives a list and those in it."""
    if isinstance(value, list):
        yield value
        if value and isinstance(value[0], list):
            for it in value:
                yield from _lists(it)


def _is_same(given: Any, after: Any) -> bool:
    """Tells whether what is only read is after the run as it was given."""
    return bool((given == after).all()) if is_numpy(given) else given == after
