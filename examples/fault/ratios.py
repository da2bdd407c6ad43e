# A division by zero in a called program: its place is told from the outermost line, with the variables there.
import dace
N = dace.symbol('N')
M = dace.symbol('M')

@dace.program
def ratios(X: dace.int64[M], Y: dace.int64[M]):
    for i in dace.map[0:M]:
        Y[i] = 1000 // X[i]

@dace.program
def tables(A: dace.int64[N, M], B: dace.int64[N, M]):
    for t in range(2):
        for row in dace.map[0:N]:
            ratios(A[row, 0:M], B[row, 0:M])
            A[row, 1] = A[row, 1] - 5
