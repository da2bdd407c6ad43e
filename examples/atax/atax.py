# A matrix times a vector, and then its transpose times the result.
import dace
M = dace.symbol('M')
N = dace.symbol('N')

@dace.program
def atax(A: dace.int64[M, N], x: dace.int64[N], y: dace.int64[N]):
    tmp = dace.define_local([M], dtype=dace.int64)
    for j in dace.map[0:N]:
        y[j] = 0
    for i, j in dace.map[0:M, 0:N]:
        tmp[i] += A[i, j] * x[j]
    for i, j in dace.map[0:M, 0:N]:
        y[j] += A[i, j] * tmp[i]
