# The two products of a step of the method of biconjugate gradients: the
# transpose times r, and the matrix times p.
import dace
N = dace.symbol('N')
M = dace.symbol('M')

@dace.program
def bicg(A: dace.int64[N, M], s: dace.int64[M], q: dace.int64[N], p: dace.int64[M], r: dace.int64[N]):
    for j in dace.map[0:M]:
        s[j] = 0
    for i in dace.map[0:N]:
        q[i] = 0
    for i, j in dace.map[0:N, 0:M]:
        s[j] += r[i] * A[i, j]
    for i, j in dace.map[0:N, 0:M]:
        q[i] += A[i, j] * p[j]
