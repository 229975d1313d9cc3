#!/usr/bin/env python3
"""run_threads [PROGRAM]: measures `borealis live N` beside `borealis run`.

A line for each script and each crew of workers, and of millers at a pool: seconds by the clock, seconds of the
processor, the most memory in MiB, how many entries the journal has, and the share of the clock of `run` and of
`live 1`. The best of three runs by the clock. What is written is thrown away, but for the count of entries.
"""
import os
import subprocess
import sys
import tempfile
import time

from run_engine import BUILT, chain, deep, wide
from run_journals import mesh

ROUNDS = 3
CREWS = ("1", "2", "4", "1 pool 3")


def measure(program, words, script):
    """Seconds by the clock and of the processor, MiB, and the status of the best of some runs."""
    best = None
    for _ in range(ROUNDS):
        files = [(os.POSIX_SPAWN_OPEN, 0, script, os.O_RDONLY, 0)]
        files += [(os.POSIX_SPAWN_OPEN, number, os.devnull, os.O_WRONLY, 0) for number in (1, 2)]
        begun = time.perf_counter()
        child = os.posix_spawn(program, [program, *words], os.environ, file_actions=files)
        _, status, used = os.wait4(child, 0)
        run = (time.perf_counter() - begun, used.ru_utime + used.ru_stime, used.ru_maxrss / 1024, os.waitstatus_to_exitcode(status))
        best = run if best is None else min(best, run)
    return best


def entries(program, script):
    """How many entries the journal of `live 1` has."""
    with open(script, "rb") as given:
        text = subprocess.run([program, "live", "1"], stdin=given, stdout=subprocess.PIPE, check=False).stdout
    return text.partition(b"\njournal end\n")[0].count(b"\n")


def main():
    """Prints the table."""
    program = sys.argv[1] if len(sys.argv) > 1 else str(BUILT)
    scripts = {"`gen 7`": None, "a chain of 5 fragments": chain, "joins and windows in 5 fragments, crashes": deep, "wide": wide, "a full mesh": lambda: mesh(350).splitlines()}
    print("| script | entries | command | clock | processor | MiB | status | of `run` | of `live 1` |")
    print("|---|---|---|---|---|---|---|---|---|")
    with tempfile.TemporaryDirectory() as room:
        path = os.path.join(room, "script")
        for name, make in scripts.items():
            with open(path, "wb") as file:
                if make is None:
                    subprocess.run([program, "gen", "7"], stdout=file, check=True)
                else:
                    file.write(("\n".join(make()) + "\n").encode())
            count = entries(program, path)
            run = measure(program, ["run"], path)
            rows = [("run", run)] + [(f"live {it}", measure(program, ["live", *it.split()], path)) for it in CREWS]
            alone = rows[1][1][0]
            for words, (clock, processor, memory, status) in rows:
                shares = f"{clock / run[0]:.2f} | {clock / alone:.2f}"
                print(f"| {name} | {count} | {words} | {clock:.3f} | {processor:.3f} | {memory:.0f} | {status} | {shares} |", flush=True)


if __name__ == "__main__":
    main()
