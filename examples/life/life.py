# The game of life on a torus. The board has a rim of one cell, which holds
# the cells of the other side; it is filled in first in each step, so that a
# subscript never wraps.
import dace
N = dace.symbol('N')
M = dace.symbol('M')
T = dace.symbol('T')

@dace.program
def life(A: dace.int64[N + 2, M + 2]):
    around = dace.define_local([N + 2, M + 2], dtype=dace.int64)
    for t in range(T):
        for i in dace.map[1:N+1]:
            A[i, 0] = A[i, M]
            A[i, M + 1] = A[i, 1]
        for j in dace.map[0:M+2]:
            A[0, j] = A[N, j]
            A[N + 1, j] = A[1, j]
        for i, j in dace.map[1:N+1, 1:M+1]:
            around[i, j] = (A[i-1, j-1] + A[i-1, j] + A[i-1, j+1] + A[i, j-1]
                            + A[i, j+1] + A[i+1, j-1] + A[i+1, j] + A[i+1, j+1])
        for i, j in dace.map[1:N+1, 1:M+1]:
            A[i, j] = 1 if around[i, j] == 3 or around[i, j] == 2 and A[i, j] else 0
