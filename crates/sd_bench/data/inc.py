import dace
N = dace.symbol('N')

@dace.program
def inc(A: dace.int64[N], B: dace.int64[N]):
    for i in dace.map[0:N]:
        B[i] = A[i] + 1
