#!/usr/bin/env python3
"""run_journals [PROGRAM [JOURNALS]]: measures `borealis replay` of one-thread journals beside the runs that they are of.

PROGRAM is borealis, and JOURNALS is trial_journals, which writes a script with the journal of its run; both as the gate leaves them.
A line for each script: its entries, processor seconds and the most memory in MiB of `run short`, `run` and `replay`, and the share of
the last in the first; the best of five runs. Then journals of so many lines that are refused at their first entry, which is the reading.
"""
import os
import subprocess
import sys
import tempfile
from pathlib import Path

TOP = Path(__file__).resolve().parent.parent
CRATES = TOP / "crates"


def measure(program, words, script):
    """Seconds of the processor, and MiB, of the best of five runs."""
    best = None
    for _ in range(5):
        files = [(os.POSIX_SPAWN_OPEN, 0, script, os.O_RDONLY, 0)]
        files += [(os.POSIX_SPAWN_OPEN, number, os.devnull, os.O_WRONLY, 0) for number in (1, 2)]
        child = os.posix_spawn(program, [program, *words], os.environ, file_actions=files)
        _, _, used = os.wait4(child, 0)
        run = (used.ru_utime + used.ru_stime, used.ru_maxrss / 1024)
        best = run if best is None else min(best, run)
    return best


def mesh(phases):
    """The full mesh of 80 nodes and sources, whose run passes the limits of runs, up to a phase that it reaches."""
    lines = (CRATES.parent / "tests" / "cases" / "run" / "too_many_envelopes" / "stdin").read_text().splitlines()
    ticks = [place for place, line in enumerate(lines) if line.startswith("tick ")]
    return "\n".join(line for line in lines[: ticks[phases - 1] + 1]) + "\n"


def refused(lines):
    """A journal whose first entry may not come."""
    script = "borealis 1\nwidth 10\ndelay 5\nend 10\nsource a 1\nfragment f 1 a\nfilter k a 1\nclient c f\nbegin\nrelease a 10\ntick 1\n"
    return script + "journal\n" + "deliver 1234567\n" * lines + "journal end\n"


def main():
    program = sys.argv[1] if len(sys.argv) > 1 else CRATES / "borealis" / "out" / "borealis"
    journals = sys.argv[2] if len(sys.argv) > 2 else CRATES / "trial_journals" / "out" / "trial_journals"
    generated = subprocess.run([program, "gen", "7"], capture_output=True, check=True, text=True).stdout
    scripts = [("gen 7", generated)] + [(f"the mesh, {n} phases", mesh(n)) for n in (62, 125, 250)]
    print("script                     entries  run short      run   replay    share     MiB  of replay")
    with tempfile.TemporaryDirectory() as room:
        script, both = Path(room) / "script", Path(room) / "both"
        for name, text in scripts:
            script.write_text(text)
            with open(script, "rb") as given, open(both, "wb") as out:
                subprocess.run([journals], stdin=given, stdout=out, check=True)
            entries = both.read_bytes().split(b"\njournal", 1)[1].count(b"\n") - 2
            short, whole, again = (measure(program, words, file) for words, file in ((["run", "short"], script), (["run"], script), (["replay"], both)))
            share = again[0] / max(short[0], 0.001)
            print(f"{name:24} {entries:9}  {short[0]:9.3f}{whole[0]:9.3f}{again[0]:9.3f}{share:9.2f}{short[1]:8.1f}  {again[1]:9.1f}", flush=True)
        for lines in (500_000, 1_000_000):
            both.write_text(refused(lines))
            seconds, memory = measure(program, ["replay"], both)
            beside = memory - both.stat().st_size / 2**20
            print(f"{lines} lines, refused at once: {seconds:.3f} s, {beside:.1f} MiB beside the text")


if __name__ == "__main__":
    main()
