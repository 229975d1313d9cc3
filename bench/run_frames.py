#!/usr/bin/env python3
"""run_frames [PROGRAM]: measures `audit` beside `ideal`, and the reading of frames.

A line for each input: processor seconds and the most memory in MiB; the best of five runs. The stream that is judged is the
failure-free one of client x of the generated script 7, whole: in lines, and in frames. The 1,000,000 frames are undo frames of
a client of a small script, and tuples of one column.
"""
import struct
import subprocess
import sys
import tempfile
from pathlib import Path

from run_engine import BUILT
from run_threads import measure


def framed(kind, body):
    """A frame."""
    return struct.pack(">BI", kind, len(body)) + body


def whole_stream(program, script, client):
    """The failure-free stream of a client as items: lines, and frames."""
    lines, frames, mine = [], [], False
    for line in subprocess.run([program, "ideal"], input=script, stdout=subprocess.PIPE, check=True).stdout.split(b"\n"):
        words = line.split()
        if words[:1] == [b"client"]:
            mine = words[1] == client
        elif mine and words[:1] == [b"stable"]:
            numbers = [int(it) for it in words[1:]]
            lines.append(line)
            frames.append(framed(1, struct.pack(f">QQB{len(numbers) - 2}q", *numbers[:2], len(numbers) - 2, *numbers[2:])))
    return lines, frames


def inputs(program):
    """Each input with its name and words."""
    script = subprocess.run([program, "gen", "7"], stdout=subprocess.PIPE, check=True).stdout
    end = next(line.split()[1] for line in script.split(b"\n") if line.startswith(b"end "))
    lines, frames = whole_stream(program, script, b"x")
    bound = f"boundary {int(end)} {len(lines)}".encode()
    yield "`ideal` of gen 7", ["ideal"], script
    yield f"`audit` of the {len(lines):,} stable lines of its client x", ["audit"], script + b"\n".join([b"stream x", *lines, bound, b"stream end", b""])
    yield "`audit frames` of the same", ["audit", "frames"], script + b"frames x\n" + b"".join(frames) + framed(3, struct.pack(">QQ", int(end), len(lines)))
    small = b"borealis 1\nwidth 10\ndelay 5\nend 10\nsource a 1\nfragment f 1 a\nfilter k a 1\nclient c f\nbegin\nframes c\n"
    yield "`audit frames` of 1,000,000 undo frames", ["audit", "frames"], small + framed(4, struct.pack(">Q", 0)) * 1_000_000
    tuples = b"".join(framed(2, struct.pack(">QBq", 3, 1, i)) for i in range(1_000_000))
    yield "`audit frames` of 1,000,000 tentative tuples", ["audit", "frames"], small + tuples


def main(program=BUILT):
    program = str(Path(program).resolve())
    print("| input | seconds | MiB |")
    print("|---|---|---|")
    with tempfile.TemporaryDirectory() as room:
        path = f"{room}/input"
        for name, words, data in inputs(program):
            Path(path).write_bytes(data)
            _, seconds, memory, _ = measure(program, words, path)
            print(f"| {name} | {seconds:.3f} | {memory:.0f} |", flush=True)


if __name__ == "__main__":
    main(*sys.argv[1:])
