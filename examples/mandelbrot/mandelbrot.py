# The Mandelbrot set in fixed point, with 24 bits behind the point: 16777216
# is 1. For each point of a picture it counts the steps of z = z * z + c
# until z is further than 2 from 0, up to a limit. The called program has
# the loop.
import dace
H = dace.symbol('H')
W = dace.symbol('W')

@dace.program
def escape(re: dace.int64, im: dace.int64, limit: dace.int64, steps: dace.int64):
    x = dace.define_local([1], dtype=dace.int64)
    y = dace.define_local([1], dtype=dace.int64)
    steps[0] = 0
    while steps[0] < limit[0] and x[0] * x[0] + y[0] * y[0] <= 4 * 16777216 * 16777216:
        with dace.tasklet:
            a << x
            b << y
            c << re
            d << im
            next_a >> x
            next_b >> y
            next_a = (a * a - b * b) // 16777216 + c
            next_b = 2 * a * b // 16777216 + d
        steps[0] += 1

@dace.program
def mandelbrot(X: dace.int64[W], Y: dace.int64[H], limit: dace.int64, steps: dace.int64[H, W]):
    for i, j in dace.map[0:H, 0:W]:
        escape(X[j], Y[i], limit, steps[i, j])
