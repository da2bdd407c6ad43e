# Heat in a block: each inner point gains an eighth of what its neighbours
# along each axis have more than it, from A to B and back.
import dace
N = dace.symbol('N')
T = dace.symbol('T')

@dace.program
def heat_3d(A: dace.int64[N, N, N], B: dace.int64[N, N, N]):
    for t in range(1, T):
        for i, j, k in dace.map[1:N-1, 1:N-1, 1:N-1]:
            B[i, j, k] = ((A[i+1, j, k] - 2 * A[i, j, k] + A[i-1, j, k]) // 8
                          + (A[i, j+1, k] - 2 * A[i, j, k] + A[i, j-1, k]) // 8
                          + (A[i, j, k+1] - 2 * A[i, j, k] + A[i, j, k-1]) // 8 + A[i, j, k])
        for i, j, k in dace.map[1:N-1, 1:N-1, 1:N-1]:
            A[i, j, k] = ((B[i+1, j, k] - 2 * B[i, j, k] + B[i-1, j, k]) // 8
                          + (B[i, j+1, k] - 2 * B[i, j, k] + B[i, j-1, k]) // 8
                          + (B[i, j, k+1] - 2 * B[i, j, k] + B[i, j, k-1]) // 8 + B[i, j, k])
