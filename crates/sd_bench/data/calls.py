N = dace.symbol('N')

@dace.program
def double(A: dace.int64[N], B: dace.int64[N]):
    for i in dace.map[0:N]:
        B[i] = A[i] * 2

@dace.program
def twice(A: dace.int64[N], B: dace.int64[N]):
    X = dace.define_local([N], dace.int64)
    for k in range(3):
        double(A, X)
        for i in dace.map[0:N]:
            B[i] += X[i]
