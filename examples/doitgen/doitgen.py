# Each row A[r, q] times the matrix C4, in its place: each point of the
# outer map has a row of its own for the sums.
import dace
NR = dace.symbol('NR')
NQ = dace.symbol('NQ')
NP = dace.symbol('NP')

@dace.program
def doitgen(A: dace.int64[NR, NQ, NP], C4: dace.int64[NP, NP]):
    for r, q in dace.map[0:NR, 0:NQ]:
        row = dace.define_local([NP], dtype=dace.int64)
        for p, s in dace.map[0:NP, 0:NP]:
            row[p] += A[r, q, s] * C4[s, p]
        for p in dace.map[0:NP]:
            A[r, q, p] = row[p]
