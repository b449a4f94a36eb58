#!/usr/bin/env python3
"""Prints a job that multiplies a vector by a sparse matrix: examples/sparse.py > sparse.job"""
SIZE, TILE = 8, 2
# row, column and value of each element that isn't zero: a diagonal, one below it, and a corner
elements = [(n, n, 2) for n in range(SIZE)] + [(n + 1, n, -1) for n in range(SIZE - 1)] + [(0, SIZE - 1, 5)]

tiles = {}
for row, column, value in elements:
    tile = tiles.setdefault((row // TILE, column // TILE), [0] * TILE**2)
    tile[row % TILE * TILE + column % TILE] = value

print("starjob 1")
for (i, j), values in sorted(tiles.items()):
    print(f"matrix A_{i}_{j} {TILE} {TILE} values", *values)
for name, step in ("x", 1), ("y", 0):
    print(f"vector {name} {SIZE} by 1 {SIZE // TILE} fill {step} {step}")
for i, j in sorted(tiles):
    print(f"task gemm x[0,{i}]:R A_{i}_{j}:R y[0,{j}]:RW")
print("print y")
