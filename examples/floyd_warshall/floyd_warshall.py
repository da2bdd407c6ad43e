# The lengths of the shortest paths between all vertices. Step k reads its
# row and its column from copies, since each point of the map writes where
# others would read.
import dace
N = dace.symbol('N')

@dace.program
def floyd_warshall(path: dace.int64[N, N]):
    row = dace.define_local([N], dtype=dace.int64)
    column = dace.define_local([N], dtype=dace.int64)
    for k in range(N):
        row[0:N] = path[k, 0:N]
        column[0:N] = path[0:N, k]
        for i, j in dace.map[0:N, 0:N]:
            path[i, j] = min(path[i, j], column[i] + row[j])
