#!/usr/bin/env python3
"""Times rows of arcs, built, reversed, viewed and merged by `gds_bench rows`, beside the same work in plain Rust. `mirror` is
the reverse of rows that are their own: shared by `gds_bench`, computed by the plain Rust.

usage: rows.py [--nodes N] [--arcs M] [--runs K]

Both programs make the same graph by a recurrence and take the time of each call alone; of K runs the least counts. Run
`rt lib gds_bench` or `rt ci` before, which leaves the proved program in the crate's out/.
"""
import argparse
import os
import subprocess
import sys
import tempfile

HERE = os.path.dirname(os.path.abspath(__file__))
PROGRAM = os.path.join(HERE, "..", "crates", "gds_bench", "out", "gds_bench")


def run(words):
    """The results that a program prints, and the microseconds of each call."""
    done = subprocess.run(words, capture_output=True, text=True, check=True)
    return done.stdout, {line.split()[0]: int(line.split()[1]) for line in done.stderr.splitlines()}


def least(rows, more):
    return {work: min(micros, rows.get(work, micros)) for work, micros in more.items()}


def main():
    parser = argparse.ArgumentParser()
    parser.add_argument("--nodes", type=int, default=1_000_000)
    parser.add_argument("--arcs", type=int, default=8_000_000)
    parser.add_argument("--runs", type=int, default=5)
    options = parser.parse_args()
    size = [str(options.nodes), str(options.arcs)]
    with tempfile.TemporaryDirectory() as work:
        twin = os.path.join(work, "rows")
        subprocess.run(["rustc", "-O", "-o", twin, os.path.join(HERE, "rows.rs")], check=True)
        ours, theirs = {}, {}
        for _ in range(options.runs):
            our_text, our_times = run([PROGRAM, "rows", *size, "times"])
            their_text, their_times = run([twin, *size])
            if our_text != their_text:
                sys.exit("rows: another output")
            ours, theirs = least(ours, our_times), least(theirs, their_times)
    print(f"{options.nodes} nodes, {options.arcs} arcs; the least of {options.runs} runs")
    for call, micros in ours.items():
        print(f"{call:8} {micros / 1000:9.2f} ms, plain Rust {theirs[call] / 1000:9.2f} ms: {micros / max(theirs[call], 1):5.2f}")


main()
