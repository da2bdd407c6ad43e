# How many bases of a sequence pair up (bases are 0 to 3, and two pair where
# their sum is 3): table[i, j] is for the bases i to j. The table is filled
# in by lengths. best[n, i] is for the n bases from i on, so that a row
# needs rows above it alone.
import dace
N = dace.symbol('N')

@dace.program
def nussinov(seq: dace.int64[N], table: dace.int64[N, N]):
    best = dace.define_local([N + 1, N + 1], dtype=dace.int64)
    for n in range(2, N + 1):
        for i in dace.map[0:N-n+1]:
            with dace.tasklet:
                first << seq[i]
                last << seq[i+n-1]
                inner << best[n-2, i+1]
                b >> best[n, i]
                b = inner + (1 if n > 2 and first + last == 3 else 0)
        for i, k in dace.map[0:N-n+1, 1:n]:
            with dace.tasklet:
                left << best[k, i]
                right << best[n-k, i+k]
                b >> best(1, lambda x, y: max(x, y))[n, i]
                b = left + right
        for i in dace.map[0:N-n+1]:
            table[i, i+n-1] = best[n, i]
