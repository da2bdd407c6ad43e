"""A stand-in for the module `dace`, under which programs may stand in a Python file that runs them.

    from luthkemb import dace

    N = dace.symbol('N')

    @dace.program
    def inc(A: dace.int64[N], B: dace.int64[N]):
        for i in dace.map[0:N]:
            B[i] = A[i] + 1

    inc(A, B)

Python reads such a function and never runs it: a call gives its source to the program `sdfg`, and changes the arrays in place.
"""
from __future__ import annotations

import functools
import inspect
import itertools
import linecache
from types import ModuleType
from typing import TYPE_CHECKING, Any, Callable, Mapping, Optional

from .refusals import NotInLanguage

if TYPE_CHECKING:
    from .graphs import SDFG
    from .rewrites import Chain

__all__ = ["int64", "program", "symbol"]

ONE_TYPE = "elements are whole numbers of 64 bits: dace.int64 is their one type"
IN_PROGRAMS = "it stands in functions under @dace.program, which Python never runs"
BY_SIZES = "a graph comes from a program and its sizes, as by inc.to_sdfg(N=5)"
INSTEAD = {
    **dict.fromkeys(("int8", "int16", "int32", "uint8", "uint16", "uint32", "uint64"), ONE_TYPE),
    **dict.fromkeys(("float16", "float32", "float64", "complex64", "complex128", "bool", "bool_"), ONE_TYPE),
    **dict.fromkeys(("map", "tasklet", "consume", "reduce", "define_local", "define_stream"), IN_PROGRAMS),
    "define_local_scalar": "a local array of one element is dace.define_local([1], dtype=dace.int64)",
    **dict.fromkeys(("SDFG", "SDFGState", "nodes", "Memlet", "sdfg"), BY_SIZES),
    **dict.fromkeys(("function", "method", "compiletime"), "programs are functions under @dace.program"),
    **dict.fromkeys(("ScheduleType", "StorageType", "DeviceType"), "the program sdfg alone decides how and where a graph runs"),
}
WHAT_THERE_IS = "there are dace.int64, dace.symbol and dace.program, and in programs dace.map, dace.tasklet, dace.consume, dace.reduce, \
dace.define_local and dace.define_stream"

_orders = itertools.count()


def __getattr__(name: str) -> Any:
    """Raises an error that names what there is in the place of a name that people know from DaCe."""
    if name.startswith("__"):
        raise AttributeError(f"module {__name__!r} has no attribute {name!r}")
    raise NotInLanguage(f"dace.{name}: {INSTEAD.get(name, f'not in this language; {WHAT_THERE_IS}')}")


class Extent:
    """An expression of size symbols. Python makes nothing of it; the program reads it in the source."""

    def _joined(self, other: object = 0) -> Extent:
        return Extent()

    __add__ = __radd__ = __sub__ = __rsub__ = __mul__ = __rmul__ = __neg__ = _joined
    # The program refuses these at their lines.
    __floordiv__ = __rfloordiv__ = __mod__ = __rmod__ = __truediv__ = __rtruediv__ = __pow__ = __rpow__ = _joined


class Symbol(Extent):
    """A size symbol. `order` counts the symbols that were made before it."""

    def __init__(self, name: str) -> None:
        self.name = name
        self.order = next(_orders)

    def __repr__(self) -> str:
        return self.name


class ArrayType:
    """The type of an argument, with extents where it is not one element."""

    def __getitem__(self, extents: object) -> ArrayType:
        return self

    def __repr__(self) -> str:
        return "dace.int64"


int64 = ArrayType()


def symbol(name: str, dtype: object = int64, **assumptions: bool) -> Symbol:
    """Declares a size symbol. What is assumed of it is of no use: each is a whole number from 0 to 2^24."""
    if not (isinstance(name, str) and name.isascii() and name.isidentifier()):
        raise ValueError(f"the name of a symbol is letters, digits and '_', and not {name!r}")
    if dtype not in (int64, int) and getattr(dtype, "__name__", None) != "int64":
        raise NotInLanguage(f"a symbol of type {dtype!r}: {ONE_TYPE}")
    for it in assumptions:
        if it not in ("integer", "nonnegative", "positive"):
            raise NotInLanguage(f"a symbol that is assumed {it}: each is a whole number from 0 to 2^24")
    return Symbol(name)


class Program:
    """A function under `@dace.program`, which may be called as it would be in DaCe, and which `luthkemb.run` takes.

    `around` has the symbols and constants of the function in which it stands, by their variables. `lines` are those of its file,
    as they were when it was defined; there are none where Python keeps none.
    """

    def __init__(self, function: Callable[..., Any], around: Mapping[str, object]) -> None:
        functools.update_wrapper(self, function)
        self.function = function
        self.around = around
        self.file = inspect.getsourcefile(function) or function.__code__.co_filename
        self.lines = self.lines_now()

    def lines_now(self) -> list[str]:
        """Gives the lines that the function's file has now."""
        linecache.checkcache(self.file)
        return linecache.getlines(self.file, self.function.__globals__)

    def __call__(
        self, *arrays: Any, chain: Optional[Chain] = None, workers: int = 1, turns: Optional[int] = None, **sizes_and_arrays: Any
    ) -> None:
        """Runs the program, and changes the arrays that it is given in place."""
        from .calls import call

        call(self, arrays, {"chain": chain, "workers": workers, "turns": turns}, sizes_and_arrays)

    def to_sdfg(self, **sizes: Any) -> SDFG:
        """Gives the graph of the program with these sizes; arrays that are not given are taken to be zeros."""
        from .graphs import graph_of

        return graph_of(self, sizes)

    def __repr__(self) -> str:
        return f"<program {self.function.__qualname__}>"


def program(function: Optional[Callable[..., Any]] = None, **options: Any) -> Any:
    """Makes a program of a function; its lines are looked up now, and what it names when it is run."""
    if options:
        raise NotInLanguage(f"@dace.program with {', '.join(options)}: it has no options; the program sdfg alone decides how a graph runs")
    frame = inspect.currentframe()
    names = frame.f_back.f_locals if frame and frame.f_back else {}
    if function is None:
        return lambda it: Program(it, _around(it, names))
    return Program(function, _around(function, names))


def _around(function: Callable[..., Any], names: Mapping[str, object]) -> dict[str, object]:
    """Gives what may be named beside the body, by the variables of the function in which one stands.

    Those of a module are looked up when they are wanted, and so are those that the body names.
    """
    if names is function.__globals__:
        return {}
    kinds = (Symbol, Program, ArrayType, ModuleType, type)
    return {name: it for name, it in names.items() if isinstance(it, kinds) or is_whole(it)}


def is_whole(value: object) -> bool:
    """Tells whether this is a whole number, of Python or of NumPy; an array is none."""
    return hasattr(value, "__index__") and not hasattr(value, "__len__") and not isinstance(value, type)
