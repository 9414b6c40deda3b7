#!/usr/bin/env python3
"""Times `gds once degree` beside a plain Rust program and awk, in one run, and prints the ratios.

usage: once_degree.py [--nodes N] [--relationships M] [--runs K] [--limits]

Each program reads the same input from a file and prints to a file; of K runs the least counts. --limits times the
largest input that is taken, 4,194,304 nodes and 16,777,216 relationships, with the proved program alone.
"""
import argparse
import filecmp
import os
import shutil
import subprocess
import sys
import tempfile
import time

HERE = os.path.dirname(os.path.abspath(__file__))
PROGRAM = os.path.join(HERE, "..", "crates", "gds_program", "out", "gds_program")
AWK = "NR == 1 { n = $2; next } { d[$2]++ } END { for (i = 0; i < n; i++) print i, d[i] + 0 }"


def run(words, source, target):
    """Seconds on the wall, and the peak of memory in MB."""
    with open(source, "rb") as stdin, open(target, "wb") as stdout:
        start = time.perf_counter()
        child = subprocess.Popen(words, stdin=stdin, stdout=stdout)
        _, status, usage = os.wait4(child.pid, 0)
        seconds = time.perf_counter() - start
    if status != 0:
        sys.exit(f"{words[0]}: status {status}")
    return seconds, usage.ru_maxrss / 1024


def least(words, source, target, runs):
    results = [run(words, source, target) for _ in range(runs)]
    return min(r[0] for r in results), max(r[1] for r in results)


def main():
    parser = argparse.ArgumentParser()
    parser.add_argument("--nodes", type=int, default=1_000_000)
    parser.add_argument("--relationships", type=int, default=4_000_000)
    parser.add_argument("--runs", type=int, default=5)
    parser.add_argument("--limits", action="store_true")
    options = parser.parse_args()
    if options.limits:
        options.nodes, options.relationships = 4_194_304, 16_777_216
    work = tempfile.mkdtemp()
    try:
        source = os.path.join(work, "input.txt")
        with open(source, "wb") as out:
            maker = [sys.executable, os.path.join(HERE, "make_input.py"), str(options.nodes), str(options.relationships)]
            subprocess.run(maker, stdout=out, check=True)
        ours = os.path.join(work, "gds.txt")
        rows = [("gds once degree", least([PROGRAM, "once", "degree"], source, ours, options.runs))]
        if not options.limits:
            rows += peers(work, source, ours, options.runs)
        print(f"{options.nodes} nodes, {options.relationships} relationships; the least of {options.runs} runs")
        for name, (seconds, memory) in rows:
            print(f"{name:18} {seconds:8.3f} s {memory:7.0f} MB   gds is {seconds / rows[0][1][0]:6.2f} times as fast")
    finally:
        shutil.rmtree(work)


def peers(work, source, ours, runs):
    rows = []
    if shutil.which("rustc"):
        plain = os.path.join(work, "once_degree")
        subprocess.run(["rustc", "-O", "-o", plain, os.path.join(HERE, "once_degree.rs")], check=True)
        rows.append(("plain Rust", checked([plain], work, source, ours, runs)))
    if shutil.which("awk"):
        rows.append(("awk", checked(["awk", AWK], work, source, ours, 1)))
    return rows


def checked(words, work, source, ours, runs):
    theirs = os.path.join(work, "peer.txt")
    result = least(words, source, theirs, runs)
    if not filecmp.cmp(ours, theirs, shallow=False):
        sys.exit(f"{words[0]}: another output")
    return result


main()
