# A general product of matrices: C becomes alpha times A times B, and beta
# times what it was.
import dace
NI = dace.symbol('NI')
NJ = dace.symbol('NJ')
NK = dace.symbol('NK')

@dace.program
def gemm(alpha: dace.int64, beta: dace.int64, C: dace.int64[NI, NJ],
         A: dace.int64[NI, NK], B: dace.int64[NK, NJ]):
    for i, j in dace.map[0:NI, 0:NJ]:
        C[i, j] = beta[0] * C[i, j]
    for i, j, k in dace.map[0:NI, 0:NJ, 0:NK]:
        C[i, j] += alpha[0] * A[i, k] * B[k, j]
