# Heat in a rod: in each of T steps each inner point becomes the mean of itself and its two neighbours.
import dace
N = dace.symbol('N')
T = dace.symbol('T')

@dace.program
def heat(A: dace.int64[N]):
    B = dace.define_local([N], dtype=dace.int64)
    for t in range(T):
        for i in dace.map[1:N-1]:
            B[i] = (A[i-1] + A[i] + A[i+1]) // 3
        for i in dace.map[1:N-1]:
            A[i] = B[i]
