# Fibonacci numbers by a pool of work: each value above 1 becomes two smaller ones, and each 1 counts.
import dace

@dace.program
def fib(n: dace.int64[1], res: dace.int64[1]):
    S = dace.define_stream(dace.int64, 1)
    with dace.tasklet:
        first << n
        out >> S
        out = first
    @dace.consume(S, 4)
    def pool(elem, p):
        more >> S(-1)
        val >> res(-1, lambda x, y: x + y)[0]
        if elem == 1:
            val = 1
        elif elem > 1:
            more = elem - 1
            more = elem - 2
