#!/usr/bin/env python3
"""What the gate costs: runs `rt ci` on a clean clone of HEAD and tells the minutes of each crate.

  bench/gate.py             runs the gate; what earlier runs on this machine proved isn't proved again, and costs nothing
  bench/gate.py --anew      proves and tries everything
  bench/gate.py --keep FILE also keeps the stamped log in FILE
  bench/gate.py --log FILE  reads such a log in place of running

Each line of the log begins with the minutes and seconds since the start. Processor time is sampled once a second from
/proc (Linux): of a crate's own proof, of its tests, of the check that its must-fail edits begin with, of the edits, and of
the building of its library or program.
A log without samples gives for each crate only the minute at which it had passed and how long that was behind the last
crate below it. The longest chain is that of crates.txt whose crates took longest by the clock, one after another.
"""

import argparse
import collections
import os
import re
import subprocess
import sys
import tempfile
import threading
import time

KINDS = ("proof", "tests", "before edits", "edits", "build")
TICKS = os.sysconf("SC_CLK_TCK")


def stamp(seconds):
    return f"{int(seconds) // 60:3d}:{int(seconds) % 60:02d}"


def seconds_of(text):
    minutes, seconds = text.strip().split(":")
    return int(minutes) * 60 + int(seconds)


def kind_of(words):
    """Which part of the gate a check or a build of the prover belongs to."""
    if words[1] == "build":
        return "build"
    if "--test" in words:
        return "tests"
    kept = next((after for word, after in zip(words, words[1:]) if word == "--incremental"), "")
    if re.search(r"/rt-edits-[^/]*/seed\Z", kept):
        return "before edits"
    return "edits" if re.search(r"/rt-edits-[^/]*/\d+\Z", kept) else "proof"


def processes(session):
    """The prover's processes of a session: what tells each apart, its words and its processor seconds."""
    for pid in filter(str.isdigit, os.listdir("/proc")):
        try:
            with open(f"/proc/{pid}/stat") as it:
                fields = it.read().rpartition(")")[2].split()
            if int(fields[3]) != session:
                continue
            with open(f"/proc/{pid}/cmdline", "rb") as it:
                words = it.read().decode(errors="replace").split("\0")
        except (OSError, ValueError, IndexError):
            continue
        if "--crate-name" in words[:-1] and words[1] in ("check", "build"):
            yield (pid, fields[19]), words, (int(fields[11]) + int(fields[12])) / TICKS


class Samples:
    """Processor seconds by crate and kind, and when each was first and last at work."""

    def __init__(self):
        self.used, self.whose, self.spans = {}, {}, {}

    def take(self, session, now):
        for key, words, used in processes(session):
            name = words[words.index("--crate-name") + 1]
            part = name, kind_of(words)
            self.used[key], self.whose[key] = used, part
            first, _ = self.spans.get(part, (now, now))
            self.spans[part] = first, now

    def lines(self):
        sums = collections.Counter()
        for key, part in self.whose.items():
            sums[part] += self.used[key]
        for (name, kind), used in sorted(sums.items()):
            first, last = self.spans[name, kind]
            yield f"gate: {name}: {kind}: {used:.0f} processor seconds from {first:.0f} to {last:.0f}"


def run_gate(anew, log):
    """Runs the gate on a clean clone, and returns its stamped lines and its status."""
    top = subprocess.run(["git", "rev-parse", "--show-toplevel"], check=True, stdout=subprocess.PIPE, text=True).stdout.strip()
    with tempfile.TemporaryDirectory(prefix="gate-") as room:
        subprocess.run(["git", "clone", "-q", top, f"{room}/clone"], check=True)
        words = ["rt", "ci"] + ["--anew"] * anew
        how = {"cwd": f"{room}/clone", "stdout": subprocess.PIPE, "stderr": subprocess.STDOUT, "start_new_session": True}
        started, samples, lines = time.monotonic(), Samples(), []
        gate = subprocess.Popen(words, text=True, errors="replace", **how)

        def note(line):
            lines.append(f"{stamp(time.monotonic() - started)} {line}")
            print(lines[-1], file=log or sys.stdout, flush=True)

        def read():
            for line in gate.stdout:
                note(line.rstrip("\n"))

        reader = threading.Thread(target=read)
        reader.start()
        while gate.poll() is None:
            samples.take(gate.pid, time.monotonic() - started)
            time.sleep(1)
        reader.join()
        for line in samples.lines():
            note(line)
        return lines, gate.returncode


def crates_of(text):
    """Each crate of crates.txt, and those of the repository that it uses."""
    found = {}
    for line in text.splitlines():
        name, colon, used = line.split("#")[0].partition(":")
        if colon and name.split():
            found[name.split()[0]] = used.split()
    return {name: [it for it in used if it in found] for name, used in found.items()}


def tell(lines, crates):
    """Prints the minutes of each crate, their sums, and the longest chain."""
    passed, parts, clock = {}, collections.defaultdict(collections.Counter), {}
    for line in lines:
        at, text = line[:6], line[7:]
        done = re.match(r"rt: (\w+)(?: proved\Z| is kept\b)", text)
        if done:
            passed.setdefault(done[1], seconds_of(at))
        used = re.match(r"gate: (\w+): ([a-z ]+): (\d+) processor seconds from (\d+) to (\d+)", text)
        if used:
            parts[used[1]][used[2]] = int(used[3])
            if used[2] == "proof":
                clock[used[1]] = int(used[5]) - int(used[4])
    sampled = bool(parts)
    for name in crates:
        if name in passed and not sampled:
            clock[name] = passed[name] - max([passed.get(it, 0) for it in crates[name]], default=0)
    head = " ".join(f"{kind:>12}" for kind in KINDS) if sampled else f"{'behind':>12}"
    print(f"\n{'crate':20} {'passed at':>10} {head}   (minutes)")
    for name in sorted(crates, key=lambda it: passed.get(it, 0)):
        at = stamp(passed[name]) if name in passed else "-"
        shown = [parts[name][kind] for kind in KINDS] if sampled else [clock.get(name, 0)]
        print(f"{name:20} {at:>10} " + " ".join(f"{it / 60:12.1f}" for it in shown))
    if sampled:
        sums = [sum(parts[name][kind] for name in crates) for kind in KINDS]
        print(f"{'all':20} {'':>10} " + " ".join(f"{it / 60:12.1f}" for it in sums))
        print(f"{sum(sums) / 60:.0f} processor minutes")
    longest = {}
    for _ in crates:
        for name, used in crates.items():
            below = max((longest[it] for it in used if it in longest), default=(0, []))
            longest[name] = below[0] + clock.get(name, 0), below[1] + [name]
    most = max(longest.values(), default=(0, []))
    print(f"longest chain: {most[0] / 60:.1f} minutes by the clock, {len(most[1])} crates: {' '.join(most[1])}")
    print("\n".join(line for line in lines if re.search(r"\d+ passed, \d+ failed", line)))


def main():
    words = argparse.ArgumentParser(description=__doc__, formatter_class=argparse.RawDescriptionHelpFormatter)
    words.add_argument("--anew", action="store_true")
    words.add_argument("--keep")
    words.add_argument("--log")
    asked = words.parse_args()
    here = os.path.dirname(os.path.dirname(os.path.realpath(__file__)))
    os.chdir(here)
    status = 0
    if asked.log:
        with open(asked.log, errors="replace") as it:
            lines = it.read().splitlines()
    elif asked.keep:
        with open(asked.keep, "w") as log:
            lines, status = run_gate(asked.anew, log)
    else:
        lines, status = run_gate(asked.anew, None)
    with open("crates.txt") as it:
        tell(lines, crates_of(it.read()))
    return status


if __name__ == "__main__":
    sys.exit(main())
