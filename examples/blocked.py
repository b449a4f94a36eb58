#!/usr/bin/env python3
"""Prints the product of two matrices of 1024 rows, block by block, for docs/SLOW.md: examples/blocked.py > blocked.job

In tiles of 128 rows a block is 2 by 2 tiles of C, and each step of it takes 2 tiles of A and 2 of B.
"""
TILES, BLOCK = 8, 2
starts = range(0, TILES, BLOCK)

print("starjob 1")
for name, step in ("A", 1), ("B", -2), ("C", 0):
    print(f"matrix {name} 1024 1024 by {TILES} {TILES} fill {step} {step}")
for i0, j0 in ((i, j) for i in starts for j in starts):
    for k in range(TILES):
        for i, j in ((i, j) for i in range(i0, i0 + BLOCK) for j in range(j0, j0 + BLOCK)):
            print(f"task gemm A[{i},{k}]:R B[{k},{j}]:R C[{i},{j}]:RW")
