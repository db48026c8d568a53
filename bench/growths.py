#!/usr/bin/env python3
"""Refuses the program memory: bench/growths.py [--step N] [--jobs N]

Three runs are made of the built program: a script of one server, one of two servers, and a storm. In each the first call of malloc, calloc
or realloc is refused, in the next run the second, and so on, until a run has no such call. Each has to end with status 6 and nothing
written, or with the report that it has when nothing is refused. With a step only each so many-th is refused. bench/refuse.c counts.
"""
import argparse
import sys
import time

from runs import TOP, Preloaded, folder_in_memory, processors, side_by_side

DATA = TOP / "crates" / "alp_plays" / "data"
RUNS = {
    "a script of one server": (["play"], "reads_what_another_transaction_wrote.alp"),
    "a script of two servers": (["play"], "a_lost_and_a_repeated_message_change_nothing.alp"),
    "a storm": (["storm", "--servers=1", "--clients=2", "--size=1", "--seed=1", "--patience=50"], None),
}
NO_MEMORY = (6, b"alpine: out of memory\n", b"")


def begin(below, library, words, script):
    begin.room, begin.words = Preloaded(below, library, "REFUSE"), words
    begin.script = (DATA / script).read_bytes() if script else b""


def run(number):
    return begin.room.count(begin.words, begin.script, number)


def try_all(title, given, step, jobs):
    """Says which numbers end otherwise, and counts them."""
    begin(*given)
    right, calls = run(0)
    if right[:2] != (0, b"") or not calls:
        sys.exit(f"{title}: {right}, {calls} calls, with nothing refused")
    numbers, ended, wrong = [*range(1, calls + 1, step), calls + 1], {right: 0, NO_MEMORY: 0}, 0
    for number, (found, _) in zip(numbers, side_by_side(jobs, run, numbers, begin, given)):
        if found in ended and (number <= calls or found == right):
            ended[found] += 1
        else:
            wrong += 1
            print(f"{title}, call {number}: status {found[0]} {found[1]!r}", flush=True)
    print(f"{title}: {calls} calls, {len(numbers)} runs: {ended[NO_MEMORY]} out of memory, {ended[right]} with the report, {wrong} that ended otherwise", flush=True)
    return wrong


def main(step, jobs):
    start, wrong = time.time(), 0
    with folder_in_memory() as below:
        library = Preloaded.compiled(TOP / "bench" / "refuse.c", below)
        for title, (words, script) in RUNS.items():
            wrong += try_all(title, (below, library, words, script), step, jobs)
    print(f"{time.time() - start:.0f} s")
    return 1 if wrong else 0


if __name__ == "__main__":
    words = argparse.ArgumentParser(description=__doc__, formatter_class=argparse.RawDescriptionHelpFormatter)
    words.add_argument("--step", type=int, default=1)
    words.add_argument("--jobs", type=int, default=processors())
    sys.exit(main(**vars(words.parse_args())))
