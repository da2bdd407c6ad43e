import dace
N = dace.symbol('N')

@dace.program
def neighbours(A: dace.int64[N]):
    for i in dace.map[0:N-1]:
        A[i] = A[i] + A[i+1]
