#!/usr/bin/env python3
"""Measures the operators over generated streams, bucket by bucket: processor seconds, and the most memory held.

The program is `trial_operators` (`rt run` in `crates/trial_operators` proves and builds it).
"""
import os
import resource
import subprocess
import sys

TOP = os.path.dirname(os.path.dirname(os.path.abspath(__file__)))
PROGRAM = os.path.join(TOP, "crates", "trial_operators", "out", "trial_operators")
DIAGRAMS = ["filter", "map", "union", "join", "aggregate", "chain"]
SIZES = [(200_000, 10_000), (100_000, 10_000), (200_000, 5_000), (100_000, 5_000)]


def once(words):
    """Seconds of processor time and MiB of one run, in a process of its own."""
    reading, writing = os.pipe()
    pid = os.fork()
    if pid == 0:
        os.close(reading)
        done = subprocess.run([PROGRAM] + words, stdout=subprocess.DEVNULL)
        used = resource.getrusage(resource.RUSAGE_CHILDREN)
        answer = f"{done.returncode} {used.ru_utime + used.ru_stime} {used.ru_maxrss / 1024}"
        os.write(writing, answer.encode())
        os._exit(0)
    os.close(writing)
    with os.fdopen(reading) as pipe:
        status, seconds, memory = pipe.read().split()
    os.waitpid(pid, 0)
    if status != "0":
        sys.exit(f"{' '.join(words)}: status {status}")
    return float(seconds), float(memory)


def main():
    print("| diagram | tuples | buckets | seconds | MiB |")
    print("|---|---|---|---|---|")
    for diagram in DIAGRAMS:
        for tuples, buckets in SIZES:
            seconds, memory = min(once([diagram, str(tuples), str(buckets)]) for _ in range(5))
            print(f"| {diagram} | {tuples:,} | {buckets:,} | {seconds:.2f} | {memory:.0f} |")


if __name__ == "__main__":
    main()
