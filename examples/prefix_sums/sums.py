# Prefix sums: S[i] is the sum of the elements of A up to i. A loop goes from left to right.
import dace
N = dace.symbol('N')

@dace.program
def sums(A: dace.int64[N], S: dace.int64[N]):
    S[0] = A[0]
    for i in range(1, N):
        S[i] = S[i-1] + A[i]
