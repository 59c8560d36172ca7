#!/usr/bin/env python3
"""A script modulo 1,000,003 with simple roots 0, 1, .. and each variable with a number at each power of Y.

usage: many_roots.py ROOTS VARIABLES REQUEST
"""
import sys

roots, variables, request = int(sys.argv[1]), int(sys.argv[2]), sys.argv[3]
names = ["x", "y", "z", "t", "u", "v", "w", "s"][:variables]
poly = "*".join(f"(Y-{root})" for root in range(roots))
number = 0
for power in range(roots):
    for name in names:
        number = (number * 419 + 6173) % 29282
        poly += f" + {number}*{name}*Y^{power}"
print(f"mod 1000003\nvars {' '.join(names)}\npoly {poly}")
print("roots", *(f"{root}:1" for root in range(roots)))
print(request)
