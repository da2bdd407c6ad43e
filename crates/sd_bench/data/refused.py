@dace.program
def inc(A: dace.int64[3]):
    B[0] = A[0]
