#!/usr/bin/env python3
"""Times rounds by `gds_bench rounds` beside the same work in plain Rust with scoped threads, and a round over a frontier of one
node by `gds_bench frontiers`.

usage: rounds.py [--nodes N] [--arcs M] [--rounds R] [--runs K]

`full` is a round of all nodes in which most values fall, so that the next frontier is made too; `again` is one in which none
falls. Both programs make the same graph by a recurrence, keep the same frontier, and take the time of each call alone; of K
runs the least counts. The outputs must be equal. Run `rt run gds_bench` or `rt ci` before, which leaves the proved program in
the crate's out/. It needs rustc, and four free processors.
"""
import argparse
import os
import subprocess
import sys
import tempfile

HERE = os.path.dirname(os.path.abspath(__file__))
PROGRAM = os.path.join(HERE, "..", "crates", "gds_bench", "out", "gds_bench")


def run(words):
    """The results that a program prints, and the microseconds of each call."""
    done = subprocess.run(words, capture_output=True, text=True, check=True)
    return done.stdout, {line.split()[0]: int(line.split()[1]) for line in done.stderr.splitlines()}


def least(rows, more):
    return {work: min(micros, rows.get(work, micros)) for work, micros in more.items()}


def of_rounds(text):
    """The lines without the one that tells the graph."""
    return [line for line in text.splitlines() if not line.startswith("arcs ")]


def frontier(nodes, rounds):
    """The microseconds of a round over a frontier of one node."""
    text, times = run([PROGRAM, "frontiers", str(nodes), str(rounds), "times"])
    if text != f"frontiers {nodes} {rounds} 0\n":
        sys.exit("frontiers: another output")
    return times["frontiers"] / rounds


def main():
    parser = argparse.ArgumentParser()
    parser.add_argument("--nodes", type=int, default=1_000_000)
    parser.add_argument("--arcs", type=int, default=8_000_000)
    parser.add_argument("--rounds", type=int, default=10_000)
    parser.add_argument("--runs", type=int, default=5)
    options = parser.parse_args()
    size = [str(options.nodes), str(options.arcs)]
    ours, theirs, rounds = {}, {}, []
    with tempfile.TemporaryDirectory() as work:
        twin = os.path.join(work, "rounds")
        subprocess.run(["rustc", "-O", "-o", twin, os.path.join(HERE, "rounds.rs")], check=True)
        for _ in range(options.runs):
            our_text, our_times = run([PROGRAM, "rounds", *size, "times"])
            their_text, their_times = run([twin, *size])
            if of_rounds(our_text) != their_text.splitlines():
                sys.exit("rounds: another output")
            ours, theirs = least(ours, our_times), least(theirs, their_times)
            rounds.append(frontier(options.nodes, options.rounds))
    print(f"{options.nodes} nodes, {options.arcs} arcs; the least of {options.runs} runs; behind each name the workers")
    for call, micros in theirs.items():
        print(f"{call:8} {ours[call] / 1000:9.2f} ms, plain Rust {micros / 1000:9.2f} ms: {ours[call] / max(micros, 1):5.2f}")
    print(f"frontier {min(rounds):9.2f} µs a round over one node")


main()
