import dace
N = dace.symbol('N')

@dace.program
def neighbours(A: dace.int64[N]):
    B = dace.define_local([N], dtype=dace.int64)
    for i in dace.map[0:N-1]:
        B[i] = A[i] + A[i+1]
    for i in dace.map[0:N-1]:
        A[i] = B[i]
