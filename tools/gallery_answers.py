"""What the programs of the gallery come to, worked out without sdfg: by plain loops over lists, and by NumPy.

`PLAIN` and `BY_NUMPY` have a function for each program, by the name of its source. It is given the sizes and arrays of the
arrays file, and changes the arrays in place. Those of `PLAIN` go over whole numbers of Python, and `wrapped` takes what they
come to modulo 2^64. Sums, differences and products may be taken so at the end; programs with a quotient or a comparison have
numbers that do not wrap. NumPy wraps by itself.
"""
from __future__ import annotations

try:
    import numpy
except ImportError:
    numpy = None

# The point of the fixed-point numbers of `mandelbrot`.
ONE = 2**24


def wrapped(array):
    """Returns numbers, or lists of them in one another, modulo 2^64 as signed numbers."""
    if isinstance(array, list):
        return [wrapped(it) for it in array]
    return (array + 2**63) % 2**64 - 2**63


def total(rows, columns, value):
    """Returns a list with the sum of the values of each row over all columns."""
    return [sum(value(row, column) for column in range(columns)) for row in range(rows)]


def gemm(NI, NJ, NK, alpha, beta, C, A, B):
    for i in range(NI):
        added = total(NJ, NK, lambda j, k: A[i][k] * B[k][j])
        C[i][:] = [beta[0] * old + alpha[0] * new for old, new in zip(C[i], added)]


def gemm_by_numpy(NI, NJ, NK, alpha, beta, C, A, B):
    C[:] = alpha * (A @ B) + beta * C


def jacobi_1d(N, T, A, B):
    for _ in range(1, T):
        for old, new in ((A, B), (B, A)):
            for i in range(1, N - 1):
                new[i] = (old[i - 1] + old[i] + old[i + 1]) // 3


def jacobi_1d_by_numpy(N, T, A, B):
    for _ in range(1, T):
        for old, new in ((A, B), (B, A)):
            new[1:-1] = (old[:-2] + old[1:-1] + old[2:]) // 3


def jacobi_2d(N, T, A, B):
    inner = range(1, N - 1)
    for _ in range(1, T):
        for old, new in ((A, B), (B, A)):
            for i in inner:
                for j in inner:
                    new[i][j] = (old[i][j] + old[i][j - 1] + old[i][j + 1] + old[i - 1][j] + old[i + 1][j]) // 5


def jacobi_2d_by_numpy(N, T, A, B):
    for _ in range(1, T):
        for old, new in ((A, B), (B, A)):
            new[1:-1, 1:-1] = (old[1:-1, 1:-1] + old[1:-1, :-2] + old[1:-1, 2:] + old[2:, 1:-1] + old[:-2, 1:-1]) // 5


def heat_3d(N, T, A, B):
    inner = range(1, N - 1)
    for _ in range(1, T):
        for old, new in ((A, B), (B, A)):
            for i, j, k in ((i, j, k) for i in inner for j in inner for k in inner):
                here = old[i][j][k]
                gained = (old[i + 1][j][k] - 2 * here + old[i - 1][j][k]) // 8
                gained += (old[i][j + 1][k] - 2 * here + old[i][j - 1][k]) // 8
                gained += (old[i][j][k + 1] - 2 * here + old[i][j][k - 1]) // 8
                new[i][j][k] = here + gained


def heat_3d_by_numpy(N, T, A, B):
    for _ in range(1, T):
        for old, new in ((A, B), (B, A)):
            gained = numpy.diff(old, 2, 0)[:, 1:-1, 1:-1] // 8 + numpy.diff(old, 2, 1)[1:-1, :, 1:-1] // 8
            gained += numpy.diff(old, 2, 2)[1:-1, 1:-1] // 8
            new[1:-1, 1:-1, 1:-1] = old[1:-1, 1:-1, 1:-1] + gained


def atax(M, N, A, x, y):
    products = total(M, N, lambda i, j: A[i][j] * x[j])
    y[:] = total(N, M, lambda j, i: A[i][j] * products[i])


def atax_by_numpy(M, N, A, x, y):
    y[:] = (A @ x) @ A


def bicg(N, M, A, s, q, p, r):
    s[:] = total(M, N, lambda j, i: r[i] * A[i][j])
    q[:] = total(N, M, lambda i, j: A[i][j] * p[j])


def bicg_by_numpy(N, M, A, s, q, p, r):
    s[:] = r @ A
    q[:] = A @ p


def mvt(N, x1, x2, y1, y2, A):
    x1[:] = map(sum, zip(x1, total(N, N, lambda i, j: A[i][j] * y1[j])))
    x2[:] = map(sum, zip(x2, total(N, N, lambda i, j: A[j][i] * y2[j])))


def mvt_by_numpy(N, x1, x2, y1, y2, A):
    x1 += A @ y1
    x2 += y2 @ A


def doitgen(NR, NQ, NP, A, C4):
    for plane in A:
        for row in plane:
            row[:] = total(NP, NP, lambda p, s: row[s] * C4[s][p])


def doitgen_by_numpy(NR, NQ, NP, A, C4):
    A[:] = A @ C4


def histogram(N, K, A, H):
    for it in A:
        H[it] += 1


def histogram_by_numpy(N, K, A, H):
    H += numpy.bincount(A, minlength=K)


def fib(n, res):
    last, this = 0, 1
    for _ in range(n[0]):
        last, this = this, last + this
    res[0] += last


def fib_by_numpy(n, res):
    res += numpy.linalg.matrix_power(numpy.array([[1, 1], [1, 0]]), n[0])[0, 1]


def steps_of(c, limit):
    """Returns how many steps `mandelbrot` makes from 0 for a point."""
    x, y = 0, 0
    for steps in range(limit):
        if x * x + y * y > 4 * ONE * ONE:
            return steps
        x, y = (x * x - y * y) // ONE + c[0], 2 * x * y // ONE + c[1]
    return limit


def mandelbrot(H, W, X, Y, limit, steps):
    for i in range(H):
        steps[i][:] = [steps_of((x, Y[i]), limit[0]) for x in X]


def mandelbrot_by_numpy(H, W, X, Y, limit, steps):
    x, y = numpy.zeros_like(steps), numpy.zeros_like(steps)
    steps[:] = 0
    for _ in range(limit[0]):
        near = x * x + y * y <= 4 * ONE * ONE
        steps += near
        next_x, next_y = (x * x - y * y) // ONE + X, 2 * x * y // ONE + Y[:, None]
        x, y = numpy.where(near, next_x, x), numpy.where(near, next_y, y)


def life(N, M, T, A):
    for _ in range(T):
        board = [[A[(i - 1) % N + 1][(j - 1) % M + 1] for j in range(M + 2)] for i in range(N + 2)]
        for i, row in enumerate(board):
            A[i][:] = row
        for i in range(1, N + 1):
            for j in range(1, M + 1):
                around = sum(board[i + di][j + dj] for di in (-1, 0, 1) for dj in (-1, 0, 1)) - board[i][j]
                A[i][j] = int(around == 3 or around == 2 and board[i][j] != 0)


def life_by_numpy(N, M, T, A):
    for _ in range(T):
        board = A[1:-1, 1:-1].copy()
        around = sum(numpy.roll(board, (i, j), (0, 1)) for i in (-1, 0, 1) for j in (-1, 0, 1)) - board
        A[:] = numpy.pad(board, 1, "wrap")
        A[1:-1, 1:-1] = (around == 3) | (around == 2) & (board != 0)


def nussinov(N, seq, table):
    for i in reversed(range(N)):
        for j in range(i + 1, N):
            inner = table[i + 1][j - 1] + (i < j - 1 and seq[i] + seq[j] == 3)
            table[i][j] = max(inner, *(table[i][k] + table[k + 1][j] for k in range(i, j)))


def nussinov_by_numpy(N, seq, table):
    for i in reversed(range(N)):
        for j in range(i + 1, N):
            inner = table[i + 1, j - 1] + (i < j - 1 and seq[i] + seq[j] == 3)
            table[i, j] = max(inner, (table[i, i:j] + table[i + 1 : j + 1, j]).max())


def floyd_warshall(N, path):
    for k in range(N):
        for i in range(N):
            for j in range(N):
                path[i][j] = min(path[i][j], path[i][k] + path[k][j])


def floyd_warshall_by_numpy(N, path):
    for k in range(N):
        path[:] = numpy.minimum(path, numpy.add.outer(path[:, k], path[k]))


def durbin(N, r, y):
    """Solves the system by elimination: the matrix is that of 1 modulo 2, so each pivot is odd."""
    rows = [[1 if i == j else r[abs(i - j) - 1] for j in range(N)] + [-r[i]] for i in range(N)]
    for pivot in range(N):
        inverse = pow(rows[pivot][pivot], -1, 2**64)
        rows[pivot] = [it * inverse % 2**64 for it in rows[pivot]]
        for other in range(N):
            if other != pivot:
                factor = rows[other][pivot]
                rows[other] = [(a - factor * b) % 2**64 for a, b in zip(rows[other], rows[pivot])]
    y[:] = [row[N] for row in rows]


def durbin_by_numpy(N, r, y):
    y[0] = alpha = -r[0]
    beta = numpy.ones(1, dtype=numpy.int64)
    for k in range(1, N):
        beta *= 1 - alpha * alpha
        inverse = numpy.array([pow(int(beta[0]), -1, 2**64)], dtype=numpy.uint64).view(numpy.int64)
        alpha = -(r[k : k + 1] + r[:k][::-1] @ y[:k]) * inverse
        y[:k] += alpha * y[:k][::-1]
        y[k : k + 1] = alpha


NAMES = """gemm jacobi_1d jacobi_2d heat_3d atax bicg mvt doitgen histogram fib mandelbrot life nussinov floyd_warshall
durbin""".split()
PLAIN = {name: globals()[name] for name in NAMES}
BY_NUMPY = {name: globals()[f"{name}_by_numpy"] for name in NAMES}
