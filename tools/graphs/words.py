import dace
N = dace.symbol('N')
@dace.program
def half(X: dace.int64[N]):
    for i in dace.map[0:N]:
        with dace.tasklet:
            a << X[i]
            x >> X[i]
            if a > 9:
                x = a // 2
            else:
                x = 9
@dace.program
def f(A: dace.int64[N]):
    for t in range(1, 5):
        if A[0] > t and 1:
            half(A)
        while A[1] < 0:
            A[1] = A[1] + 1
    A[0] = 1
