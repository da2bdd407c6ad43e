#!/usr/bin/env python3
"""The programs that bench.py and run_fast_ways.py time, as plain loops over lists: each is a function, and each statement of its source stands in
the same loops there.

The words are a program's name and its arrays file. It prints the arrays after the run as sdfg does. Nothing wraps here:
no number that bench.py's arrays lead to needs more than 64 bits.
"""
import json
import sys
from collections import deque


def product(N, K, M, A, B, C):
    for i in range(N):
        for j in range(M):
            for k in range(K):
                C[i][j] += A[i][k] * B[k][j]


def heat(N, T, A):
    B = [0] * N
    for _ in range(T):
        for i in range(1, N - 1):
            B[i] = (A[i - 1] + A[i] + A[i + 1]) // 3
        for i in range(1, N - 1):
            A[i] = B[i]


def histogram(N, K, A, H):
    for i in range(N):
        H[A[i]] += 1


def fib(n, res):
    pool = deque(n)
    while pool:
        elem = pool.popleft()
        if elem == 1:
            res[0] += 1
        elif elem > 1:
            pool.append(elem - 1)
            pool.append(elem - 2)


def inc(N, A, B):
    for i in range(N):
        B[i] = A[i] + 1


def two(N, A, B, C):
    for i in range(N):
        B[i] = A[i] + 1
        C[i] = A[i] * 2


def columns(N, T, A, B):
    for _ in range(T):
        for i in range(N):
            B[i] = ((A[i] * 3 + i) ^ (A[i] - 7)) + ((A[i] & 1023) | (i * 5)) - ((A[i] + i) & (A[i] - i)) + (A[i] - i) * (A[i] + 1)


def bands(N, T, A, B):
    for _ in range(T):
        for i in range(N):
            for j in range(4):
                B[i][j] = A[i][j] + j


def strides(N, T, A, B):
    for _ in range(T):
        for i in range(N):
            B[i] = (A[4 * i] + A[4 * i + 3]) ^ (A[4 * i + 1] - A[4 * i + 2])


def sums(N, T, A, S):
    for _ in range(T):
        for i in range(N):
            S[0] += (A[i] ^ i) & 255


def scatter(N, T, A, H):
    for _ in range(T):
        for i in range(N):
            H[A[i]] += 1


def tasklets(N, T, A, B):
    for _ in range(T):
        for i in range(N):
            B[i] = A[i] + i
            B[i] = B[i] ^ 7


def gather(N, K, H, A, B):
    for i in range(N):
        B[i] = H[A[i]]


PROGRAMS = {
    it.__name__: it for it in (product, heat, histogram, fib, inc, two, gather, columns, bands, strides, sums, scatter, tasklets)
}


def line(name, array):
    """Returns the text of an array of one or two dimensions."""
    extents = [len(array)]
    if isinstance(array[0], list):
        extents.append(len(array[0]))
        array = [it for row in array for it in row]
    return f"{name}[{','.join(map(str, extents))}] = {' '.join(map(str, array))}\n"


def main():
    name, file = sys.argv[1:]
    with open(file, "rb") as arrays:
        given = json.load(arrays)
    PROGRAMS[name](**given)
    for argument, value in given.items():
        if isinstance(value, list):
            sys.stdout.write(line(argument, value))


if __name__ == "__main__":
    main()
