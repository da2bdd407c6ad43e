# How many numbers are not below a limit, and their sum: those that are kept go through a stream.
import dace
N = dace.symbol('N')

@dace.program
def above(A: dace.int64[N], limit: dace.int64[1], count: dace.int64[1], total: dace.int64[1]):
    S = dace.define_stream(dace.int64, 1)
    for i in dace.map[0:N]:
        with dace.tasklet:
            a << A[i]
            least << limit
            kept >> S(-1)
            if a >= least:
                kept = a
    @dace.consume(S, 4)
    def add(x, p):
        one >> count(-1, lambda a, b: a + b)
        value >> total(-1, lambda a, b: a + b)
        one = 1
        value = x
