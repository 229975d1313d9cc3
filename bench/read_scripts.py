#!/usr/bin/env python3
"""read_scripts [PROGRAM]: times `check` and `print` of long scripts; a line for each, the best of three runs.

The scripts are written to files line by line, so that this program stays small: its own memory would
count for the children that it starts.
"""
import os
import random
import sys
import tempfile
from pathlib import Path

BUILT = Path(__file__).resolve().parent.parent / "crates" / "borealis" / "out" / "borealis"
HEADER = "borealis 1\nwidth 100\ndelay 5\nend 1000000\n"
REST = "fragment f 3 abcdefgh\nfilter k abcdefgh 1\nclient c f\nbegin\n"
MOST = 64 * 1024 * 1024


def write_log(file, entries):
    """A script whose source logs so many entries of five values."""
    draw = random.Random(1)
    file.write(f"{HEADER}source abcdefgh 5\n")
    for i in range(entries):
        values = f"{draw.randint(-10**6, 10**6)} {draw.randint(0, 10**9)} {draw.randint(0, 99999)} {i} {draw.randint(-9, 9)}"
        file.write(f"log abcdefgh {i * 5} {values}\n")
    file.write(REST)


def write_comments(file):
    """A script of almost 64 MiB, all but the last lines comments."""
    script = f"{HEADER}source abcdefgh 1\n{REST}"
    line = "# " + "x" * 90 + "\n"
    for _ in range((MOST - len(script)) // len(line)):
        file.write(line)
    file.write(script)


def timed(program, command, script):
    """Seconds of the processor and the most memory in MiB of a run."""
    files = [(os.POSIX_SPAWN_OPEN, 0, script, os.O_RDONLY, 0), (os.POSIX_SPAWN_OPEN, 1, os.devnull, os.O_WRONLY, 0)]
    child = os.posix_spawn(program, [program, command], os.environ, file_actions=files)
    _, status, used = os.wait4(child, 0)
    if status != 0:
        sys.exit(f"{command} ended with {status}")
    return used.ru_utime + used.ru_stime, used.ru_maxrss / 1024


def main():
    """Prints the table."""
    program = sys.argv[1] if len(sys.argv) > 1 else str(BUILT)
    with tempfile.TemporaryDirectory() as room:
        scripts = {"200,000 log lines": Path(room, "log"), "64 MiB of comments": Path(room, "comments")}
        with open(scripts["200,000 log lines"], "w", encoding="ascii") as file:
            write_log(file, 200_000)
        with open(scripts["64 MiB of comments"], "w", encoding="ascii") as file:
            write_comments(file)
        for name, script in scripts.items():
            for command in ("check", "print"):
                runs = [timed(program, command, str(script)) for _ in range(3)]
                print(f"{name}  {command}  {min(r[0] for r in runs):.2f} s  {max(r[1] for r in runs):.0f} MiB")


if __name__ == "__main__":
    main()
