#!/usr/bin/env python3
"""The script of the job that `hensel_tool demo NUMBER` makes, with a request of one's own.

usage: demo_job.py NUMBER DEGREE
"""
import sys

state, degree = int(sys.argv[1]), int(sys.argv[2])


def draw(bound):
    """The next number of the generator below `bound` ('The summary of `demo`' in docs/FORMATS.md)."""
    global state
    state = (state * 6364136223846793005 + 1442695040888963407) % 2**64
    return (state >> 33) % bound


times = [1 + draw(2) for _ in range(4)]
poly = "*".join(f"(Y-{root})^{k}" for root, k in enumerate(times))
for power in range(sum(times)):
    a, b = draw(1000003), draw(1000003)
    poly += f" + ({a}*x + {b}*y)*Y^{power}"
roots = " ".join(f"{root}:{k}" for root, k in enumerate(times))
print(f"mod 1000003\nvars x y\npoly {poly}\nroots {roots}\nshow {degree}")
