# The greatest common divisor of two numbers, by remainders.
import dace

@dace.program
def euclid(a: dace.int64, b: dace.int64, divisor: dace.int64):
    rest = dace.define_local([1], dtype=dace.int64)
    divisor[0] = a[0]
    rest[0] = b[0]
    while rest[0] != 0:
        with dace.tasklet:
            x << divisor
            y << rest
            next_x >> divisor
            next_y >> rest
            next_x = y
            next_y = x % y
