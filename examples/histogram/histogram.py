# How often each of the numbers below K stands among N numbers: each adds 1 to the element that it names.
import dace
N = dace.symbol('N')
K = dace.symbol('K')

@dace.program
def histogram(A: dace.int64[N], H: dace.int64[K]):
    for i in dace.map[0:N]:
        with dace.tasklet:
            a << A[i]
            h >> H(1, lambda x, y: x + y)[0:K]
            h[a] = 1
