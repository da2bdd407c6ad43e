# A matrix with its rows as columns.
import dace
N = dace.symbol('N')
M = dace.symbol('M')

@dace.program
def transposed(A: dace.int64[N, M], B: dace.int64[M, N]):
    for i, j in dace.map[0:N, 0:M]:
        B[j, i] = A[i, j]
