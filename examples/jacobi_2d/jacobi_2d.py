# A Jacobi stencil over a plane: each inner point becomes the mean of itself
# and its four neighbours, from A to B and back.
import dace
N = dace.symbol('N')
T = dace.symbol('T')

@dace.program
def jacobi_2d(A: dace.int64[N, N], B: dace.int64[N, N]):
    for t in range(1, T):
        for i, j in dace.map[1:N-1, 1:N-1]:
            B[i, j] = (A[i, j] + A[i, j-1] + A[i, j+1] + A[i-1, j] + A[i+1, j]) // 5
        for i, j in dace.map[1:N-1, 1:N-1]:
            A[i, j] = (B[i, j] + B[i, j-1] + B[i, j+1] + B[i-1, j] + B[i+1, j]) // 5
