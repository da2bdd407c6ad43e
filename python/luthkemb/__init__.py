"""Programs of `sdfg`, called on the arrays of a Python program.

A function under `@dace.program` of the stand-in `luthkemb.dace` is called as in DaCe: `inc(A, B)` changes its arrays in place, and
`inc.to_sdfg(N=5)` gives its graph. `run(program, turns=2**40, **sizes_and_arrays)` gives the arrays after the run instead, of such a
function, a path or a text: NumPy arrays where such were given, else lists. `graph(program, **sizes_and_arrays)` gives the graph
that is run, which a notebook draws, `check(program, **sizes_and_arrays)` makes its race check, `plan` tells how workers come to its
containers, and `matches` the rewrites that may be done on it. `step(program, picks=(), ..)` runs it in an order that is picked, to
the same end. With `chain=[MapExpansion('1.1')]` each of them rewrites the graph first, and `run(.., workers=4)` has several workers.
Sizes that follow from the shapes of arrays need not be given. What the program refuses is raised, by a class for each status.
"""
from . import dace
from .accesses import ScopeAccess
from .commands import CALLS
from .graphs import SDFG
from .moves import After, Move
from .picture import Picture
from .plans import Planned
from .refusals import (
    Access,
    ArraysRefused,
    ArraysTooLong,
    BadWords,
    ChainRefused,
    DoesNotFit,
    Fault,
    Frame,
    FunctionRefused,
    LuthkembError,
    NotBuilt,
    NotInLanguage,
    OutOfMemory,
    PicksRefused,
    ProgramFailed,
    ProgramNotFound,
    Race,
    ReadFault,
    Refused,
    SourceRefused,
    TooLong,
    TurnsSpent,
    WriteFault,
)
from .rewrites import MapCollapse, MapExpansion, MapInterchange, MapTiling, Rewrite

__version__ = "0.1.0"
__all__ = [
    "Access",
    "After",
    "ArraysRefused",
    "ArraysTooLong",
    "BadWords",
    "ChainRefused",
    "DoesNotFit",
    "Fault",
    "Frame",
    "FunctionRefused",
    "LuthkembError",
    "MapCollapse",
    "MapExpansion",
    "MapInterchange",
    "MapTiling",
    "Move",
    "NotBuilt",
    "NotInLanguage",
    "OutOfMemory",
    "PicksRefused",
    "Picture",
    "Planned",
    "ProgramFailed",
    "ProgramNotFound",
    "Race",
    "ReadFault",
    "Refused",
    "Rewrite",
    "SDFG",
    "ScopeAccess",
    "SourceRefused",
    "TooLong",
    "TurnsSpent",
    "WriteFault",
    "dace",
    *CALLS,
]


globals().update(CALLS)
