"""Tests what updates take of memory and give back: `memory.py PROGRAM`, the proved program, over an allocator that counts (counted.c).

A layer is filled, then its oldest item dropped and a new one added until its third rebuild has ended, and at last all items dropped but ten. That is
done for each kind of index alone, and for two together, each a line, `test of memory: INDEXES ... ok` or `FAILED`. The status is 1 where one
failed."""

import os
import pathlib
import subprocess
import sys
import tempfile
from array import array
from concurrent.futures import ThreadPoolExecutor

FULL = 65_536
LEFT = 10
# After so many drops, one added after each, the second rebuild of a full layer has ended, and the third has.
SECOND, THIRD = 74_000, 107_000
# How many blocks of 4 KiB or more a great part of each kind has, and the tables of a construction into it.
BLOCKS = {"range": 10, "near": 10, "top": 5, "stab": 11}
TABLES = 3
# What an index of ten items may keep, in bytes. A full one has 30 to 50 MB.
KEPT = 128 << 10


def add(word, number):
    x, y = number * 40_503 % 1_048_576, number * 611_953 % 1_048_576
    return f"add a {number} {x} {y} 1" if word == "points" else f"seg a {number} {x} {x + 2_000} 1"


def script(word):
    """All lines but the first."""
    yield from (add(word, number) for number in range(FULL))
    for number in range(THIRD):
        yield f"drop a {number}"
        yield add(word, FULL + number)
    yield from (f"drop a {number}" for number in range(THIRD, THIRD + FULL - LEFT))


def counted(program, allocator, lines):
    """Of each answer to a script, how many blocks were taken and given back for it, and how many bytes were held then."""
    with tempfile.NamedTemporaryFile() as counts:
        env = dict(os.environ, LD_PRELOAD=allocator, COUNTED=counts.name)
        answers = subprocess.run([program], input=lines, env=env, capture_output=True, check=True).stdout
        assert answers == b"ok\n" * lines.count(b"\n")
        rows = array("I", counts.read())
    return rows[0::3], rows[1::3], rows[2::3]


def faults(program, allocator, words, lines):
    word, *indexes = words.split()
    taken, given_back, held = counted(program, allocator, f"layer a {words}\n".encode() + lines)
    most = sum(BLOCKS[index] + TABLES for index in indexes)
    second, third = 1 + FULL + 2 * SECOND, 1 + FULL + 2 * THIRD
    # The first add takes all places of the directory, which keeps them.
    kept = held[-1] - held[1]
    if max(taken[2:]) > most:
        yield f"an update takes {max(taken[2:])} blocks"
    if max(given_back[2:]) > most:
        yield f"an update gives {max(given_back[2:])} blocks back"
    if any(taken[second:third]):
        yield f"the third rebuild takes {sum(taken[second:third])} blocks"
    if kept > KEPT * len(indexes):
        yield f"ten items keep {kept} bytes, of {max(held)}"


def main(program):
    layers = ["points range", "points near", "points top", "segments stab", "points range near"]
    lines = {word: "".join(f"{line}\n" for line in script(word)).encode() for word in ("points", "segments")}
    with tempfile.TemporaryDirectory() as folder, ThreadPoolExecutor(len(os.sched_getaffinity(0))) as jobs:
        allocator = f"{folder}/counted.so"
        source = pathlib.Path(__file__).with_name("counted.c")
        subprocess.run([os.environ.get("CC", "cc"), "-shared", "-fPIC", "-O1", "-o", allocator, source, "-ldl"], check=True)
        ran = list(jobs.map(lambda words: list(faults(program, allocator, words, lines[words.split()[0]])), layers))
    for words, wrong in zip(layers, ran):
        print(f"test of memory: {words} ...", "FAILED" if wrong else "ok")
        print(*(f"  {it}" for it in wrong), sep="\n", end="\n" if wrong else "")
    return int(any(ran))


if __name__ == "__main__":
    sys.exit(main(sys.argv[1]))
