#!/usr/bin/env python3
"""run_engine [PROGRAM]: measures `borealis run short` on scripts with replicas and failures.

A line for each script: processor seconds, the most memory in MiB, and the status; the best of five runs. The last two
runs end with status 7: they pass a limit of runs.
"""
import os
import random
import subprocess
import sys
import tempfile
from pathlib import Path

TOP = Path(__file__).resolve().parent.parent
BUILT = TOP / "crates" / "borealis" / "out" / "borealis"
WIDTH = 100


def logs(name, entries, end, first):
    """So many log lines, spread over the whole run."""
    return [f"log {name} {i * end // entries} {(first + i) % 1000} {i}" for i in range(entries)]


def header(version, delay, end):
    return [f"borealis {version}", f"width {WIDTH}", f"delay {delay}", f"end {end}"]


def chain():
    """Five fragments of two replicas, one behind another; links are cut and heal."""
    end = WIDTH * 1000
    lines = header(1, 5, end)
    for number, name in enumerate("ab"):
        lines += [f"source {name} 2"] + logs(name, 100_000, end, number)
    lines += ["fragment f0 2 a b", "union u a b"]
    for i in range(1, 5):
        lines += [f"fragment f{i} 2 f{i - 1}", f"filter k{i} f{i - 1} 1"]
    lines += ["client c f4", "begin"]
    for phase in range(1, 401):
        time = end * phase // 400 // WIDTH * WIDTH
        lines += [f"release {name} {max(time, WIDTH)}" for name in "ab"]
        if phase % 40 == 10:
            lines.append("cut b f0.0")
        if phase % 40 == 30:
            lines.append("heal b f0.0")
        lines.append(f"tick {phase}")
    return lines + ["settle"]


def joined():
    """Four replicas of a join over the whole streams, and of windows over what it gives."""
    end = WIDTH * 1000
    lines = header(1, 50, end)
    for name in "lr":
        lines += [f"source {name} 2"] + [f"log {name} {i * end // 100_000} {i} {i % 7}" for i in range(100_000)]
    lines += ["fragment f 4 l r", f"join j l r {end} 0 0", f"aggregate w j {WIDTH * 10} {WIDTH} - count sum c1", "client c f", "begin"]
    for phase in range(1, 201):
        lines += [f"release {name} {end * phase // 200}" for name in "lr"]
        lines.append(f"tick {phase}")
    return lines + ["settle"]


def corrected(steps):
    """One node with a union and windows; 50 buckets with 1,000 tuples at each step, all of them closed and then redone."""
    end = WIDTH * 50 * steps
    lines = header(1, 5, end)
    for number, name in enumerate("ab"):
        lines += [f"source {name} 2"] + logs(name, 500 * steps, end, number)
    lines += ["fragment f 1 a b", "union u a b", f"aggregate w u {WIDTH} {WIDTH} - count sum c1", "client c f", "begin"]
    for step in range(1, steps + 1):
        clock = 20 * step
        lines += ["cut b f.0"] + [f"release {name} {WIDTH * 50 * step}" for name in "ab"]
        lines += [f"tick {clock}", f"tick {clock + 1}", f"tick {clock + 7}", "heal b f.0"]
        lines += [f"tick {clock + after}" for after in range(8, 14)]
    return lines + ["settle"]


def meshed():
    """All actors of a full mesh speak in each phase, until a run has as many envelopes as it may."""
    return (TOP / "tests" / "cases" / "run" / "too_many_envelopes" / "stdin").read_text().splitlines()


def resent():
    """A log of 200,000 entries goes again each time that its batch is lost, until a run has as many items as it may."""
    lines = header(1, 50, 10) + ["source a 1"] + ["log a 0 0"] * 200_000
    lines[1] = "width 10"
    lines += ["fragment f 1 a", "filter k a 1", "client c f", "begin", "release a 10", "tick 1", "lose a f.0", "tick 2", "tick 3", "tick 4"]
    for clock in range(5, 61):
        lines += ["lose a f.0", f"tick {clock}"]
    return lines


def deep():
    """Unions, joins, maps and aggregates in five fragments of two replicas, 200,000 entries, with cuts, crashes and restarts."""
    dice = random.Random(5)
    lines = header(1, 4, 1_000_000)
    for name in "ab":
        lines.append(f"source {name} 2")
        lines += [f"log {name} {10 * i + dice.randrange(10)} {dice.randrange(500)} {dice.randrange(-1000, 1000)}" for i in range(100_000)]
    lines += ["fragment f1 2 a b", "union u1 a b", "aggregate g1 u1 200 100 c0 count sum c1 min c1 max c1"]
    lines += ["fragment f2 2 a b", "join j2 a b 500 0 0", "fragment f3 2 f2", "map m3 f2 2 c0 add c1 c3"]
    lines += ["aggregate g3 m3 6400 100 - count sum c1", "filter h3 m3 ne c1 0"]
    lines += ["fragment f4 2 f3 a", "join j4 f3 a 100 0 0", "map m4 j4 2 c0 if lt c1 0 neg c1 c1"]
    lines += ["fragment f5 2 f4", "aggregate g5 f4 1000 500 c0 count sum c1", "client x f4", "client y f5", "client z f1", "begin"]
    faults = {7: "crash f4.1", 9: "restart f4.1"}
    for phase in range(1, 401):
        for wanted, what in ((5, "cut"), (12, "heal")):
            lines += [f"{what} b f2.{phase // 20 % 2}"] * (phase % 20 == wanted)
        lines += [faults[phase % 50]] if phase % 50 in faults else []
        lines += [f"release a {2500 * phase}", f"release b {2500 * phase}", f"tick {phase}"]
    return lines + ["settle"]


def wide():
    """Four replicas of a whole-stream join and of windows by 40,000 keys and of 64 steps, 200,000 entries, with cuts."""
    dice = random.Random(6)
    lines = header(1, 2, 10_000_000)
    lines[1] = "width 1000"
    for name in "ab":
        lines.append(f"source {name} 1")
        lines += [f"log {name} {100 * i + dice.randrange(100)} {dice.randrange(40_000)}" for i in range(100_000)]
    lines += ["fragment f 4 a b", "join j a b 10000000 0 0", "map k j 1 sub c0 c1", "union u a b k"]
    lines += ["aggregate w u 10000000 1000000 c0 count sum c0 min c0 max c0", "aggregate v u 64000 1000 - count sum c0"]
    lines += ["client c f", "begin"]
    for phase in range(1, 1001):
        for wanted, what in ((3, "cut"), (8, "heal")):
            lines += [f"{what} a f.{phase // 10 % 4}"] * (phase % 10 == wanted)
        lines += [f"release a {10_000 * phase}", f"release b {10_000 * phase}", f"tick {phase}"]
    return lines + ["settle"]


def measure(program, script):
    """Seconds of the processor, MiB, and the status of the best of five runs."""
    best = None
    for _ in range(5):
        files = [(os.POSIX_SPAWN_OPEN, 0, script, os.O_RDONLY, 0)]
        files += [(os.POSIX_SPAWN_OPEN, number, os.devnull, os.O_WRONLY, 0) for number in (1, 2)]
        child = os.posix_spawn(program, [program, "run", "short"], os.environ, file_actions=files)
        _, status, used = os.wait4(child, 0)
        run = (used.ru_utime + used.ru_stime, used.ru_maxrss / 1024, os.waitstatus_to_exitcode(status))
        best = run if best is None else min(best, run)
    return best


def main():
    """Prints the table."""
    program = sys.argv[1] if len(sys.argv) > 1 else str(BUILT)
    scripts = {
        "`gen 7`": None,
        "a chain of 5 fragments, 2 replicas, 200,000 entries, cuts and heals": chain,
        "4 replicas, a join over whole streams and windows, 200,000 entries": joined,
        "joins and windows in 5 fragments, 2 replicas, 200,000 entries, cuts and crashes": deep,
        "4 replicas, a join over whole streams, windows by key, 200,000 entries, cuts": wide,
        "a union and windows, 200,000 entries in 10,000 buckets, each closed and redone": lambda: corrected(200),
        "half of it": lambda: corrected(100),
        "80 nodes and sources in a full mesh, 7,998,480 envelopes": meshed,
        "a log of 200,000 entries that is sent again, 4,000,000 items": resent,
    }
    print("| script | seconds | MiB | status |")
    print("|---|---|---|---|")
    with tempfile.TemporaryDirectory() as room:
        path = os.path.join(room, "script")
        for name, make in scripts.items():
            with open(path, "wb") as file:
                if make is None:
                    subprocess.run([program, "gen", "7"], stdout=file, check=True)
                else:
                    file.write(("\n".join(make()) + "\n").encode())
            seconds, memory, status = measure(program, path)
            print(f"| {name} | {seconds:.2f} | {memory:.0f} | {status} |", flush=True)


if __name__ == "__main__":
    main()
