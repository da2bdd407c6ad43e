# Each element takes the one beside it, which another point writes: a map of two parameters with a race.
import dace
N = dace.symbol('N')

@dace.program
def left(A: dace.int64[N, N+1]):
    for i, j in dace.map[0:N, 0:N]:
        A[i, j] = A[i, j+1]
