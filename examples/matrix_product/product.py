# The product of two matrices: C is added to, so it is given as zeros for the plain product.
import dace
N = dace.symbol('N')
K = dace.symbol('K')
M = dace.symbol('M')

@dace.program
def product(A: dace.int64[N, K], B: dace.int64[K, M], C: dace.int64[N, M]):
    for i, j, k in dace.map[0:N, 0:M, 0:K]:
        C[i, j] += A[i, k] * B[k, j]
