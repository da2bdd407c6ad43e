# How many steps a number takes to 1: half of it where it is even, else three times and one more. Nobody knows
# whether each number comes to 1, and 0 never does: a run ends because it has a number of turns.
import dace

@dace.program
def collatz(n: dace.int64[1], steps: dace.int64[1]):
    while n[0] != 1:
        if n[0] % 2 == 0:
            n[0] = n[0] // 2
        else:
            n[0] = 3 * n[0] + 1
        steps[0] += 1
