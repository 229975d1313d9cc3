#!/usr/bin/env python3
"""run_ideal [PROGRAM]: times `ideal` of the diagrams of `run_operators.py` as scripts, beside `check` of the same.

200,000 log lines in 10,000 buckets; processor seconds and MiB, the best of three runs.
"""
import random
import sys
import tempfile
from pathlib import Path

from read_scripts import BUILT, timed

OPERATORS = {
    "filter": ["filter f a lt c1 900"],
    "map": ["map m a 2 c0 add c1 1"],
    "union": ["union u a b"],
    "join": ["join j a b 100 0 0"],
    "aggregate": ["aggregate g a 400 100 c0 count sum c1 min c1 max c1"],
}
OPERATORS["chain"] = [
    OPERATORS["filter"][0],
    "map m f 2 c0 add c1 1",
    "union u m b",
    "join j u b 100 0 0",
    "aggregate g j 400 100 c0 count sum c1 min c1 max c1",
]
ENTRIES = 200_000


def write_script(file, operators):
    """Two sources of a key and a value, spread evenly over the buckets, one fragment, one client."""
    draw = random.Random(1)
    sources = ["a", "b"] if any(" b" in line for line in operators) else ["a"]
    file.write("borealis 1\nwidth 100\ndelay 5\nend 1000000\n")
    each = ENTRIES // len(sources)
    for source in sources:
        file.write(f"source {source} 2\n")
        for i in range(each):
            file.write(f"log {source} {i * 1_000_000 // each} {draw.randrange(100)} {draw.randrange(1000)}\n")
    file.write(f"fragment all 1 {' '.join(sources)}\n" + "\n".join(operators) + "\nclient c all\nbegin\n")


def main():
    """Prints the table."""
    program = sys.argv[1] if len(sys.argv) > 1 else str(BUILT)
    print("| diagram | check | ideal | MiB |\n|---|---|---|---|")
    with tempfile.TemporaryDirectory() as room:
        for name, operators in OPERATORS.items():
            script = Path(room, name)
            with open(script, "w", encoding="ascii") as file:
                write_script(file, operators)
            runs = {command: [timed(program, command, str(script)) for _ in range(3)] for command in ("check", "ideal")}
            seconds = {command: min(run[0] for run in runs[command]) for command in runs}
            print(f"| {name} | {seconds['check']:.2f} | {seconds['ideal']:.2f} | {max(run[1] for run in runs['ideal']):.0f} |")


if __name__ == "__main__":
    main()
