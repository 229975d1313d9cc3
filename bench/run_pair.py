#!/usr/bin/env python3
"""run_pair [PROGRAM]: measures `pair` beside `run short`.

A line for each: processor seconds and the most memory in MiB; the best of five runs. The script is the generated one 7 with a
second client `xx` of the stream of its client x.
"""
import subprocess
import sys
import tempfile
from pathlib import Path

from run_engine import BUILT
from run_threads import measure


def two_clients(program):
    """The generated script 7 with a second client of the stream of client x."""
    lines = []
    for line in subprocess.run([program, "gen", "7"], stdout=subprocess.PIPE, check=True).stdout.split(b"\n"):
        lines.append(line)
        words = line.split()
        if words[:2] == [b"client", b"x"]:
            lines.append(b"client xx " + words[2])
    return b"\n".join(lines)


def main(program=BUILT):
    program = str(Path(program).resolve())
    print("| command | seconds | MiB |")
    print("|---|---|---|")
    with tempfile.TemporaryDirectory() as room:
        path = f"{room}/input"
        Path(path).write_bytes(two_clients(program))
        for words in (["run", "short"], ["run"], ["pair", "x", "xx"]):
            _, seconds, memory, _ = measure(program, words, path)
            print(f"| `{' '.join(words)}` | {seconds:.3f} | {memory:.0f} |", flush=True)


if __name__ == "__main__":
    main(*sys.argv[1:])
