# A Jacobi stencil over a line: each inner point becomes the mean of itself
# and its two neighbours, from A to B and back.
import dace
N = dace.symbol('N')
T = dace.symbol('T')

@dace.program
def jacobi_1d(A: dace.int64[N], B: dace.int64[N]):
    for t in range(1, T):
        for i in dace.map[1:N-1]:
            B[i] = (A[i-1] + A[i] + A[i+1]) // 3
        for i in dace.map[1:N-1]:
            A[i] = (B[i-1] + B[i] + B[i+1]) // 3
