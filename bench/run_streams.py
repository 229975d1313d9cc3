#!/usr/bin/env python3
"""Measures a stream through an inlet, its buckets and an output with two readers: processor seconds, and the most memory held.

The program is `trial_streams` (`rt run -- 1000 300` in `crates/trial_streams` proves and builds it). The tuples come in batches
of 100; one reader acknowledges at once, the other one LATE tuples late.
"""
import os
import sys

sys.path.insert(0, os.path.dirname(os.path.abspath(__file__)))
import run_operators

RUNS = [(1_000_000, 1_000), (500_000, 1_000), (1_000_000, 100_000), (1_000_000, 1_000_000), (500_000, 500_000)]


def main():
    run_operators.PROGRAM = os.path.join(run_operators.TOP, "crates", "trial_streams", "out", "trial_streams")
    print("| tuples | late | seconds | MiB |")
    print("|---|---|---|---|")
    for tuples, late in RUNS:
        seconds, memory = min(run_operators.once([str(tuples), str(late)]) for _ in range(5))
        print(f"| {tuples:,} | {late:,} | {seconds:.2f} | {memory:.1f} |")


if __name__ == "__main__":
    main()
