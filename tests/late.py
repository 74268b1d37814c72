#!/usr/bin/env python3
"""Tests an index that is made late, with costs: `late.py SIZE [PROGRAM]`, SIZE from 1 to 65,536, PROGRAM being ./livemap where none is named.

A layer `points range` is filled with SIZE points, and gets `near`. Then, SIZE times, its oldest point is dropped and a new one added. A question
for `near` follows each update until the index is ready, and then some do. A second run does the same to a layer with both from the start.

It fails where an update costs more than the bound beside it, where `no building N` has another number than docs/LANGUAGE.md's rule, where the index
isn't ready after between SIZE / 4 and SIZE / 3 + 1 updates, or where `near` isn't the answer of a scan.

It prints after how many updates the index was ready, and a table: for the updates until then and for all of them, in each of the two runs, the mean
and the largest number of turns an update."""

import pathlib
import re
import subprocess
import sys

FULL = 65_536
# How many questions there are after the index is ready.
QUESTIONS = 64
HANDED = 4
UPDATED = re.compile(r"ok turns (\d+)/(\d+) marks (\d+)/(\d+)")


def points():
    """A point for each identifier from 0 on: x, y and weight, below 2^20."""
    state = 1
    while True:
        numbers = []
        for _ in range(3):
            state = (state * 6364136223846793005 + 1442695040888963407) % 2**64
            numbers.append(state >> 44)
        yield tuple(numbers)


def nearest(live, x, y):
    """The answer to `near`, by a scan."""
    found = min((((at[0] - x) ** 2 + (at[1] - y) ** 2, id) for id, at in live.items()), default=None)
    return f"near {found[1]} {found[0]}" if found else "near none"


def lines_of(size, is_late):
    """Each line beside its answer without costs, and beside True where it is an update after the index was made."""
    come, live = points(), {}

    def add(id):
        live[id] = next(come)
        return "add a {} {} {} {}".format(id, *live[id])

    yield "layer a points range" + ("" if is_late else " near"), "ok", False
    yield from ((add(id), "ok", False) for id in range(size))
    waits = size if is_late else 0
    if is_late:
        yield "index a near", "ok", False
    for done in range(1, 2 * size + 1):
        oldest, comes = (done - 1) // 2, done % 2 == 0
        if not comes:
            del live[oldest]
        yield add(size + oldest) if comes else f"drop a {oldest}", "ok", True
        # The oldest is never among those that the index waits for after it is handed the next ones.
        waited, waits = waits, waits - HANDED
        waits = waits + comes if waits > 0 else 0
        if waits:
            yield "near a 0 0", f"no building {waits}", False
        elif waited or done % max(1, 2 * size // QUESTIONS) == 0:
            x, y = done * 40_503 % 2**20, done * 60_493 % 2**20
            yield f"near a {x} {y}", nearest(live, x, y), False


def ran(program, size, is_late):
    """The turns of each update after the index was made, and how many of them came before it was ready."""
    lines, wanted, are_updates = zip(*lines_of(size, is_late))
    given = "".join(f"{line}\n" for line in lines)
    run = subprocess.run([program, "--ledger"], input=given, stdout=subprocess.PIPE, text=True)
    answers = run.stdout.splitlines()
    assert len(answers) == len(lines), f"{len(answers)} answers to {len(lines)} lines, status {run.returncode}"
    assert run.returncode == any(answer.startswith("no ") for answer in answers), f"status {run.returncode}"
    turns, ready = [], 0
    for line, want, is_update, answer in zip(lines, wanted, are_updates, answers):
        assert re.sub(r" (turns|parts) .*", "", answer) == want, f"{line}: {answer}, and not {want}"
        if line.startswith(("add", "drop")):
            costs = UPDATED.fullmatch(answer)
            assert costs, f"{line}: {answer}"
            taken, most, marks, most_marks = map(int, costs.groups())
            assert taken <= most and marks <= most_marks, f"{line}: {answer}"
            if is_update:
                turns.append(taken)
        if answer.startswith("no building"):
            ready = len(turns) + 1
    return turns, max(ready, 1)


def told(turns):
    return f"{sum(turns) / len(turns):.1f} | {max(turns)}"


def main(size, program=pathlib.Path(__file__).resolve().parent.parent / "livemap"):
    assert 1 <= size <= FULL, f"SIZE is from 1 to {FULL}"
    late, ready = ran(program, size, True)
    assert size / 4 <= ready <= size / 3 + 1, f"ready after {ready} updates"
    whole, _ = ran(program, size, False)
    print(f"ready after {ready} updates, of {size} items")
    print("| updates | made late: mean | largest | from the start: mean | largest |", "|---|---|---|---|---|", sep="\n")
    print(f"| the first {ready} | {told(late[:ready])} | {told(whole[:ready])} |")
    print(f"| all {2 * size} | {told(late)} | {told(whole)} |")


if __name__ == "__main__":
    main(int(sys.argv[1]), *sys.argv[2:])
