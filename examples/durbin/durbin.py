# Durbin's solution of a Toeplitz system, exactly modulo 2^64: the matrix
# with 1 and r[0], r[1], .. beside it, times y, is -r. All of r is even, so
# each beta is odd and has an inverse modulo 2^64: five steps of Newton's
# method give it.
import dace
N = dace.symbol('N')

@dace.program
def durbin(r: dace.int64[N], y: dace.int64[N]):
    z = dace.define_local([N], dtype=dace.int64)
    alpha = dace.define_local([1], dtype=dace.int64)
    beta = dace.define_local([1], dtype=dace.int64)
    inverse = dace.define_local([1], dtype=dace.int64)
    total = dace.define_local([1], dtype=dace.int64)
    y[0] = -r[0]
    alpha[0] = -r[0]
    beta[0] = 1
    for k in range(1, N):
        beta[0] = beta[0] * (1 - alpha[0] * alpha[0])
        inverse[0] = beta[0]
        for step in range(5):
            inverse[0] = inverse[0] * (2 - beta[0] * inverse[0])
        total[0] = r[k]
        for i in dace.map[0:k]:
            total[0] += r[k-i-1] * y[i]
        alpha[0] = -total[0] * inverse[0]
        for i in dace.map[0:k]:
            z[i] = y[i] + alpha[0] * y[k-i-1]
        for i in dace.map[0:k]:
            y[i] = z[i]
        y[k] = alpha[0]
