# A matrix times a vector, by a program that is called for each row. What is declared in the called program
# begins with zeros at each call; its arguments are parts of the arrays of the caller.
import dace
N = dace.symbol('N')
M = dace.symbol('M')

@dace.program
def dot(X: dace.int64[M], Y: dace.int64[M], r: dace.int64[1]):
    T = dace.define_local([M], dtype=dace.int64)
    for i in dace.map[0:M]:
        T[i] += X[i] * Y[i]
    dace.reduce(lambda a, b: a + b, T, r, identity=0)

@dace.program
def rows(A: dace.int64[N, M], V: dace.int64[M], W: dace.int64[N]):
    for row in dace.map[0:N]:
        dot(A[row, 0:M], V, W[row])
