# The sum of each row of a table, the greatest of each column, and the sum of all.
# What is given in C takes part, since its reduction has no identity; R and total begin with 0.
import dace
N = dace.symbol('N')
M = dace.symbol('M')

@dace.program
def table(A: dace.int64[N, M], R: dace.int64[N], C: dace.int64[M], total: dace.int64[1]):
    dace.reduce(lambda a, b: a + b, A, R, axis=1, identity=0)
    dace.reduce(lambda a, b: max(a, b), A, C, axis=0)
    dace.reduce(lambda a, b: a + b, R, total, identity=0)
