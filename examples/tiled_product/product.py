# The product of two matrices, whose map a chain of rewrites cuts into tiles.
import dace
N = dace.symbol('N')
K = dace.symbol('K')
M = dace.symbol('M')

@dace.program
def product(A: dace.int64[N, K], B: dace.int64[K, M], C: dace.int64[N, M]):
    for i, j, k in dace.map[0:N, 0:M, 0:K]:
        C[i, j] += A[i, k] * B[k, j]
