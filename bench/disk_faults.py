#!/usr/bin/env python3
"""Makes the calls of a disk fail, one at a time: bench/disk_faults.py [--step N] [--jobs N]

The script of crates/alpine, which names no sizes, is played over a new folder, and over a folder with a volume. In the first run the first
read, write or sync of the volume's file fails, in the next run the second, and so on until a run has no such call. Each has to end with
status 5 and the server and nothing written, and the last with the report. bench/fail.c counts. With a step only each so many-th fails.
"""
import argparse
import sys
import time

from runs import TOP, Preloaded, folder_in_memory, processors, side_by_side

SCRIPT = (TOP / "crates" / "alpine" / "stdin").read_bytes()
REPORT = (TOP / "crates" / "alpine" / "stdout").read_bytes()
FAULT = (5, b"alpine: disk fault server 1\n", b"")
VOLUME = "server1.vol"


def begin(below, library, volume):
    begin.room, begin.volume = Preloaded(below, library, "FAIL"), volume


def run(number):
    """How a run on the volume, or on a new one, ends whose call with this number fails, and how many calls it made."""
    at = begin.room.path / VOLUME
    if begin.volume is None:
        at.unlink(missing_ok=True)
    else:
        at.write_bytes(begin.volume)
    return begin.room.count(["play", f"--folder={begin.room.path}"], SCRIPT, number)


def made_volume(below, library):
    """The bytes of a volume without files."""
    room = Preloaded(below, library, "FAIL")
    status, said, _ = room.run(["play", f"--folder={room.path}"], b"servers 1\n")
    if status:
        sys.exit(f"the volume was not made: {said!r}")
    return (room.path / VOLUME).read_bytes()


def try_all(title, given, report, step, jobs):
    """Says which numbers end otherwise, and counts them."""
    begin(*given)
    ended, calls = run(0)
    if ended[:2] != (0, b"") or report not in (None, ended[2]):
        sys.exit(f"{title}: {ended}, with nothing that fails")
    numbers, wrong = range(1, calls + 1, step), 0
    for number, (found, _) in zip([*numbers, calls + 1], side_by_side(jobs, run, [*numbers, calls + 1], begin, given)):
        if found != (FAULT if number <= calls else ended):
            wrong += 1
            print(f"{title}, call {number}: {found}", flush=True)
    print(f"{title}: {calls} calls, {len(numbers)} of them failed, one in a run; {wrong} runs that ended otherwise", flush=True)
    return wrong


def main(step, jobs):
    start = time.time()
    with folder_in_memory() as below:
        library = Preloaded.compiled(TOP / "bench" / "fail.c", below)
        wrong = try_all("a new disk", (below, library, None), REPORT, step, jobs)
        wrong += try_all("a volume", (below, library, made_volume(below, library)), None, step, jobs)
    print(f"{time.time() - start:.0f} s")
    return 1 if wrong else 0


if __name__ == "__main__":
    words = argparse.ArgumentParser(description=__doc__, formatter_class=argparse.RawDescriptionHelpFormatter)
    words.add_argument("--step", type=int, default=1)
    words.add_argument("--jobs", type=int, default=processors())
    sys.exit(main(**vars(words.parse_args())))
