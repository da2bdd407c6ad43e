# A matrix times one vector, and its transpose times another, each added to
# what is there.
import dace
N = dace.symbol('N')

@dace.program
def mvt(x1: dace.int64[N], x2: dace.int64[N], y1: dace.int64[N], y2: dace.int64[N], A: dace.int64[N, N]):
    for i, j in dace.map[0:N, 0:N]:
        x1[i] += A[i, j] * y1[j]
    for i, j in dace.map[0:N, 0:N]:
        x2[i] += A[j, i] * y2[j]
