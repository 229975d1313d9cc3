#!/usr/bin/env python3
"""run_scale [PROGRAM]: measures how time and memory grow with entries, replicas, fragments and workers.

A load is a chain of fragments, each of a filter and a map, behind two sources, with a client at the last one; in each
ten phases a link of its first replica is cut and healed. A wide load is that of `run_engine`, with fewer entries. A line
for each load: entries of the logs, actors, entries of the journal of `live 1`, seconds by the clock of `run short` and of
`live N`, and the most memory of `run short` and `live 4` in MiB. The best of three.
"""
import os
import subprocess
import sys
import tempfile

from run_engine import BUILT, wide
from run_threads import entries, measure

WORKERS = (1, 2, 4)


def load(count, phases, replicas, fragments):
    """A chain of so many fragments of so many replicas, so many log entries, and so many phases."""
    end = 10 * count
    step = end // phases // 100 * 100
    lines = ["borealis 1", "width 100", "delay 2", f"end {end}"]
    for name in "ab":
        lines.append(f"source {name} 1")
        lines += [f"log {name} {20 * i} {i % 97}" for i in range(count // 2)]
    for number in range(fragments):
        reads = "a b" if number == 0 else f"f{number - 1}"
        lines.append(f"fragment f{number} {replicas} {reads}")
        if number == 0:
            lines += ["union u0 a b", "filter k0 u0 lt c0 90"]
        else:
            lines.append(f"filter k{number} f{number - 1} lt c0 {90 - number}")
        lines.append(f"map m{number} k{number} 1 add c0 1")
    lines += [f"client c f{fragments - 1}", "begin"]
    for phase in range(1, phases + 1):
        for wanted, what in ((3, "cut"), (8, "heal")):
            lines += [f"{what} a f0.0"] * (phase % 10 == wanted)
        time = end if phase == phases else step * phase
        lines += [f"release a {time}", f"release b {time}", f"tick {phase}"]
    return lines + ["settle"]


def narrower(share):
    """The wide load with a share of its entries and phases."""
    whole = wide()
    begin = whole.index("begin")
    logs = [it for it in whole[:begin] if it.startswith("log ")]
    kept = len(logs) // 2 // share
    head = [it for it in whole[:begin] if not it.startswith("log ")]
    places = [head.index("source a 1"), head.index("source b 1")]
    half = len(logs) // 2
    end = 10_000_000 // share
    head = [f"end {end}" if it.startswith("end ") else it for it in head]
    lines = head[: places[0] + 1] + logs[:kept] + head[places[0] + 1 : places[1] + 1] + logs[half : half + kept] + head[places[1] + 1 :]
    ticks, tail = 0, []
    for it in whole[begin:]:
        tail.append(it)
        ticks += it.startswith("tick ")
        if ticks == 1000 // share:
            break
    return lines + tail + ["settle"]


def loads():
    """Each load with its name."""
    for times in (1, 2, 4):
        yield f"{times} times 25,000 entries", load(25_000 * times, 200 * times, 2, 3)
    for replicas in (1, 2, 4):
        yield f"{replicas} replicas", load(50_000, 200, replicas, 3)
    for fragments in (2, 4, 8):
        yield f"{fragments} fragments", load(50_000, 200, 2, fragments)
    for share in (4, 2, 1):
        yield f"wide, 1/{share}" if share > 1 else "wide", narrower(share)


def main():
    """Prints the table."""
    program = sys.argv[1] if len(sys.argv) > 1 else str(BUILT)
    heads = " | ".join(f"`live {it}`" for it in WORKERS)
    print(f"| load | entries | journal | `run short` | {heads} | MiB | MiB of `live 4` |")
    print("|" + "---|" * (6 + len(WORKERS)))
    with tempfile.TemporaryDirectory() as room:
        path = os.path.join(room, "script")
        for name, lines in loads():
            with open(path, "wb") as file:
                file.write(("\n".join(lines) + "\n").encode())
            logs = sum(it.startswith("log ") for it in lines)
            ran = measure(program, ["run", "short"], path)
            lives = [measure(program, ["live", str(it)], path) for it in WORKERS]
            if any(it[3] not in (0, 4) for it in [ran, *lives]):
                print(f"{name}: a run failed: {subprocess.run([program, 'check'], stdin=open(path, 'rb'), capture_output=True, check=False)}", file=sys.stderr)
                continue
            shown = " | ".join(f"{it[0]:.2f}" for it in lives)
            print(f"| {name} | {logs} | {entries(program, path)} | {ran[0]:.2f} | {shown} | {ran[2]:.0f} | {lives[-1][2]:.0f} |", flush=True)


if __name__ == "__main__":
    main()
