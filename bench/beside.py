#!/usr/bin/env python3
"""Two archives beside each other, on the same inputs: bench/beside.py OLD NEW [NAME [MILLISECONDS [TURNS]]]

OLD and NEW are folders that hold libsuontarvi.a. `bench` is built once with each, and the two run in turns, TURNS times
(3): NAME is a word of `bench` (all), MILLISECONDS the time of a row in a turn (60). For each row: each archive's time
beside the Rust's of the same turn, as the median of the turns, and new/old, which is the ratio of these two: a machine
that is slower in one turn than in another is so for both sides of a row. Then the median and the largest new/old of
each call. RSLAB is needed, as by `bench`. Status 1 if a run fails or the archives' rows differ.
"""
import os
import re
import statistics
import subprocess
import sys
from pathlib import Path

BENCH = Path(__file__).resolve().parent
ROW = re.compile(r"^\| (.+) \| (.+) \| ([\d.]+) \| ([\d.]+) \| [\d.]+ \| [\d.]+ [\d.]+ \|$")


def built(folder, name):
    """the driver with the archive of that folder"""
    target = BENCH / "target" / name
    environment = {**os.environ, "SUONTARVI_LIB": str(Path(folder).resolve()), "CARGO_TARGET_DIR": str(target)}
    command = ["cargo", "build", "--release", "--quiet", "--manifest-path", str(BENCH / "Cargo.toml")]
    subprocess.run(command, env=environment, check=True)
    return target / "release" / "bench"


def turn(driver, words):
    """{(call, input): (ours, Rust)} in microseconds, of one run"""
    said = subprocess.run([driver, *words], check=True, stdout=subprocess.PIPE, stderr=subprocess.DEVNULL, text=True)
    found = [match.groups() for line in said.stdout.splitlines() if (match := ROW.match(line))]
    return {(call, given): (float(ours), float(rust)) for call, given, ours, rust in found}


def beside_rust(turns, row):
    """our time over the Rust's, the median of the turns"""
    return statistics.median(ours / rust for ours, rust in (times[row] for times in turns))


def table(old, new):
    """the rows, and for each call its ratios new/old"""
    calls = {}
    print("| call | input | old/Rust | new/Rust | new/old |\n|---|---|---:|---:|---:|")
    for row in new[0]:
        before, after = beside_rust(old, row), beside_rust(new, row)
        print(f"| {row[0]} | {row[1]} | {before:.2f} | {after:.2f} | {after / before:.2f} |")
        calls.setdefault(row[0], []).append(after / before)
    return calls


def main():
    if not 3 <= len(sys.argv) <= 6:
        sys.exit(__doc__)
    name, milliseconds, turns = (sys.argv[3:] + ["all", "60", "3"][len(sys.argv) - 3:])[:3]
    drivers = [built(sys.argv[1], "old"), built(sys.argv[2], "new")]
    old, new = [], []
    for _ in range(int(turns)):
        for driver, runs in zip(drivers, [old, new]):
            runs.append(turn(driver, [name, milliseconds]))
    if not new[0] or any(run.keys() != new[0].keys() for run in old + new):
        sys.exit("the two archives have other rows, or none")
    calls = table(old, new)
    print("\n| call | rows | median new/old | largest |\n|---|---:|---:|---:|")
    for call, ratios in calls.items():
        print(f"| {call} | {len(ratios)} | {statistics.median(ratios):.2f} | {max(ratios):.2f} |")


main()
