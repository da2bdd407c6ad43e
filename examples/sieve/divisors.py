# The sum of the divisors of each number below N, as a sieve: each d adds itself to all its multiples.
import dace
N = dace.symbol('N')

@dace.program
def divisors(S: dace.int64[N]):
    for d in dace.map[1:N]:
        for k in dace.map[1:N]:
            with dace.tasklet:
                s >> S(-1, lambda a, b: a + b)[0:N]
                if k * d < N:
                    s[k * d] = d
