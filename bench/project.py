#!/usr/bin/env python3
"""Times a projection of a store by `gds_bench project` beside the same work over plain lists in plain Rust, and prints the
ratio.

usage: project.py [--nodes N] [--relationships M] [--runs K]

Both programs make the same graph by a recurrence, project every node and the relationships both ways with their values, and
take the time of this alone; of K runs the least counts. Run `rt run gds_bench` or `rt ci` before, which leaves the proved
program in the crate's out/.
"""
import argparse
import os
import subprocess
import sys
import tempfile

HERE = os.path.dirname(os.path.abspath(__file__))
PROGRAM = os.path.join(HERE, "..", "crates", "gds_bench", "out", "gds_bench")


def run(words):
    """The results that a program prints, and the microseconds of the call."""
    done = subprocess.run(words, capture_output=True, text=True, check=True)
    return done.stdout, int(done.stderr.split()[1])


def main():
    parser = argparse.ArgumentParser()
    parser.add_argument("--nodes", type=int, default=1_000_000)
    parser.add_argument("--relationships", type=int, default=4_000_000)
    parser.add_argument("--runs", type=int, default=5)
    options = parser.parse_args()
    size = [str(options.nodes), str(options.relationships)]
    ours, theirs = [], []
    with tempfile.TemporaryDirectory() as work:
        twin = os.path.join(work, "project")
        subprocess.run(["rustc", "-O", "-o", twin, os.path.join(HERE, "project.rs")], check=True)
        for _ in range(options.runs):
            our_text, our_micros = run([PROGRAM, "project", *size, "times"])
            their_text, their_micros = run([twin, *size])
            if our_text != their_text:
                sys.exit("project: another output")
            ours.append(our_micros)
            theirs.append(their_micros)
    print(f"{options.nodes} nodes, {options.relationships} relationships; the least of {options.runs} runs")
    our, their = min(ours), min(theirs)
    print(f"project {our / 1000:9.2f} ms, plain Rust {their / 1000:9.2f} ms: {our / max(their, 1):5.2f}")


main()
