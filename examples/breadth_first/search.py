# Breadth-first search by a work list: D[v] is the number of edges from `start` to v, -1 where no path leads there.
# G[u, v] is 1 where an edge leads from u to v. The stream S holds the vertices of one level; each marks its
# neighbours, and those that have no distance yet are the next level.
import dace
N = dace.symbol('N')

@dace.program
def search(G: dace.int64[N, N], start: dace.int64[1], D: dace.int64[N]):
    S = dace.define_stream(dace.int64, 1)
    M = dace.define_local([N], dtype=dace.int64)
    for v in dace.map[0:N]:
        D[v] = -1
    with dace.tasklet:
        s << start
        d >> D[0:N]
        work >> S(-1)
        d[s] = 0
        work = s
    for level in range(1, N):
        for v in dace.map[0:N]:
            M[v] = 0
        @dace.consume(S, 4)
        def visit(u, p):
            for v in dace.map[0:N]:
                with dace.tasklet:
                    x << u
                    edges << G[0:N, v]
                    mark >> M(1, lambda a, b: a | b)[v]
                    mark = edges[x]
        for v in dace.map[0:N]:
            with dace.tasklet:
                mark << M[v]
                was << D[v]
                d >> D[v]
                work >> S(-1)
                if mark != 0 and was < 0:
                    d = level
                    work = v
