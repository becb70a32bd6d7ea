#!/usr/bin/env python3
"""Times what a process of the program costs, beside those of `true` and `sha256sum`.

    make build                builds crates/outlook_cli/out/outlook_cli
    bench/start.py            200 runs of each on the shipped 63-byte sample

A line has the median and the greatest of the times on the clock, in milliseconds, the median over that of `true`, and
the peak of memory in MiB.
"""

import argparse
import statistics
import subprocess
import tempfile
import time

import runs


def clocked(words):
    """Seconds on the clock of one run."""
    with open(runs.SAMPLE, "rb") as given:
        begun = time.perf_counter()
        subprocess.run(words, stdin=given, stdout=subprocess.DEVNULL, stderr=subprocess.DEVNULL)
        return time.perf_counter() - begun


def main():
    parser = argparse.ArgumentParser(description=__doc__.splitlines()[0])
    parser.add_argument("--runs", type=int, default=200)
    runs.add_program(parser)
    chosen = parser.parse_args()
    commands = [["true"], ["sha256sum"], *([chosen.program, word] for word in ("check", "to-tnef", "to-msg"))]
    times = {tuple(words): [] for words in commands}
    for _ in range(chosen.runs):
        for words in commands:
            times[tuple(words)].append(clocked(words))
    least = statistics.median(times["true",])
    print("| Command | ms, median | ms, greatest | over `true` | MiB |\n|---|---|---|---|---|")
    with tempfile.TemporaryDirectory() as folder:
        measure = runs.Measure(folder)
        for words, found in times.items():
            middle, peak = statistics.median(found), measure.run(words, runs.SAMPLE).peak
            name = " ".join(words).replace(str(chosen.program), "outlook_cli")
            print(f"| {name} | {1000 * middle:.2f} | {1000 * max(found):.2f} | {middle / least:.2f} | {peak / runs.MIB:.1f} |")


if __name__ == "__main__":
    main()
