# %% [markdown]
# # A Jacobi stencil, called from Python
#
# In each of T steps each inner point of a rod becomes the mean of itself and its two neighbours, rounded down. Run the
# cells one after another, or the whole file: `python3 examples/jacobi.py`. NumPy and matplotlib are used where they are
# there.

# %%
import luthkemb
from luthkemb import dace

try:
    import numpy
except ImportError:
    numpy = None
try:
    from matplotlib import pyplot
except ImportError:
    pyplot = None

# %% [markdown]
# The program. Python only reads it; `sdfg` compiles its source to a graph and runs that.

# %%
N = dace.symbol('N')
T = dace.symbol('T')


@dace.program
def jacobi(A: dace.int64[N]):
    B = dace.define_local([N], dtype=dace.int64)
    for t in range(T):
        for i in dace.map[1:N-1]:
            B[i] = (A[i-1] + A[i] + A[i+1]) // 3
        for i in dace.map[1:N-1]:
            A[i] = B[i]


# %% [markdown]
# One rod, hot in the middle, after some numbers of steps. N follows from the shape of the array, and T is given.

# %%
rod = [0] * 10 + [900] * 11 + [0] * 10
if numpy is not None:
    rod = numpy.array(rod)
after = {steps: luthkemb.run(jacobi, T=steps, A=rod)['A'] for steps in (0, 5, 50)}
for steps, heat in after.items():
    print(f'{steps:2} steps: {max(heat)} in the middle, {sum(heat)} in all')

# %% [markdown]
# The picture: by matplotlib, in a window or else as `jacobi.png` in the working folder, or by characters.

# %%
if pyplot is not None:
    for steps, heat in after.items():
        pyplot.plot(heat, label=f'{steps} steps')
    pyplot.legend()
    if pyplot.get_backend().lower() == 'agg':
        # There is no window to show it in.
        pyplot.savefig('jacobi.png')
        print('the rods are in jacobi.png')
    else:
        pyplot.show()
else:
    for steps, heat in after.items():
        print(f'{steps:2} steps: ' + ''.join(' .:-=+*#%@'[min(it // 90, 9)] for it in heat))

# %% [markdown]
# What is refused is raised, with what there is to know in fields.

# %%
try:
    luthkemb.run(jacobi, A=rod)
except luthkemb.ArraysRefused as refused:
    print(f'error {refused.number} of {refused.name}: {refused.meaning}')
try:
    luthkemb.run(jacobi, turns=100, T=50, A=rod)
except luthkemb.TurnsSpent as refused:
    print(f'{refused.turns} turns are too few')
