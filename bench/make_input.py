#!/usr/bin/env python3
"""Prints an input of `once degree` by a fixed recurrence: make_input.py NODES RELATIONSHIPS."""
import sys

MULTIPLIER, INCREMENT, MASK = 6364136223846793005, 1442695040888963407, (1 << 64) - 1


def main():
    nodes, rels = int(sys.argv[1]), int(sys.argv[2])
    out = sys.stdout
    out.write(f"nodes {nodes}\n")
    x = 1
    lines = []
    for _ in range(rels):
        x = (MULTIPLIER * x + INCREMENT) & MASK
        source = (x >> 33) % nodes
        x = (MULTIPLIER * x + INCREMENT) & MASK
        lines.append(f"rel {source} {(x >> 33) % nodes}\n")
        if len(lines) == 100_000:
            out.write("".join(lines))
            lines.clear()
    out.write("".join(lines))


main()
