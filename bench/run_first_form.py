#!/usr/bin/env python3
"""Measures `borealis run` on large scripts of the first form: seconds, and the most memory held.

The program is the one that `./build` or the gate left.
"""
import os
import resource
import subprocess
import sys
import tempfile

TOP = os.path.dirname(os.path.dirname(os.path.abspath(__file__)))
PROGRAM = os.path.join(TOP, "crates", "borealis", "out", "borealis")


def script(entries, buckets, phases):
    """A script whose log is spread over all buckets, and whose phases release it step by step."""
    width = 100
    end = width * buckets
    lines = ["borealis 1", f"width {width}", "delay 5", f"end {end}", "source s 2"]
    lines += [f"log s {i * end // entries} {i % 1000} {-i}" for i in range(entries)]
    lines += ["fragment f 1 s", "filter k s lt c0 900", "client c f", "begin"]
    for phase in range(1, phases + 1):
        lines.append(f"release s {max(1, buckets * phase // phases) * width}")
        lines.append(f"tick {phase}")
    for phase in range(phases + 1, phases + 4):
        lines.append(f"tick {phase}")
    return "\n".join(lines) + "\n"


def measure(text):
    """Seconds of processor time and MiB of the best of three runs."""
    best = None
    for _ in range(3):
        with tempfile.TemporaryFile() as source:
            source.write(text.encode())
            source.seek(0)
            pid = os.fork()
            if pid == 0:
                with open(os.devnull, "w") as sink:
                    code = subprocess.run([PROGRAM, "run"], stdin=source, stdout=sink).returncode
                used = resource.getrusage(resource.RUSAGE_CHILDREN)
                os.write(2, b"")
                with open(f"/tmp/borealis-bench-{os.getpid()}", "w") as result:
                    result.write(f"{code} {used.ru_utime + used.ru_stime} {used.ru_maxrss / 1024}")
                os._exit(0)
            os.waitpid(pid, 0)
            path = f"/tmp/borealis-bench-{pid}"
            code, seconds, memory = open(path).read().split()
            os.remove(path)
            if code != "0":
                sys.exit(f"status {code}")
            run = (float(seconds), float(memory))
            best = run if best is None else min(best, run)
    return best


def main():
    print("| log entries | buckets | phases | seconds | MiB |")
    print("|---|---|---|---|---|")
    for entries, buckets, phases in [
        (50_000, 1_000, 400),
        (100_000, 1_000, 400),
        (200_000, 1_000, 400),
        (100_000, 10_000, 400),
        (100_000, 1_000, 1_600),
    ]:
        seconds, memory = measure(script(entries, buckets, phases))
        print(f"| {entries:,} | {buckets:,} | {phases:,} | {seconds:.2f} | {memory:.0f} |")


if __name__ == "__main__":
    main()
