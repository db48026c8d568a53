#!/usr/bin/env python3
"""Flips bits of a volume, one at a time: bench/flips.py CHECKER [--step N] [--jobs N]

CHECKER is the folder of another reader of volumes, volcheck.py (docs/TESTING.md, "Hostile use, by hand"). The built program makes a small
volume in a folder. Then each bit of each page that is not all zeros is flipped, and one bit of each other page, and a run is begun on the
volume. It has to end with the status and the place that the checker names, or with the report of the volume as the checker reads it.
With a step only each so many-th bit is tried.
"""
import argparse
import sys
import time

from runs import Room, folder_in_memory, processors, side_by_side

PAGE = 512
AREA = 64
MADE = b"""servers 1
volume 1 512 64
client 1 Admin
client 2 ann
1 begin 1
1 mkowner 1 ann 300 World
1 mkowner 1 bob 5 ann,Owner
1 commit
2 begin 1
2 create 1 A ann 4 World Owner,bob
2 write A 0 3 hello
2 commit
2 begin 1
2 create 1 B ann 130
2 write B 129 1 end
2 commit
2 begin 1
2 create 1 C bob 2
2 commit
"""
# So many that the log goes on in its other area, and pages stand at home too.
CHANGES = b"servers 1\nclient 1 Admin\nclient 2 ann\n1 begin 1\n1 quota 1 ann 310\n1 commit\n" + b"2 begin 1\n2 open 1.1.1 change w\n2 write 1.1.1 0 4 more\n2 commit\n" * 5
BEGUN = b"servers 1\nvolume 1 512 64\n"


def make(below):
    """The name and the bytes of a small volume, in which the area of the log that is not in use is cleared, as it is in a new one."""
    import volcheck

    room = Room(below)
    for script in (MADE, CHANGES):
        status, said, _ = room.run(["play", f"--folder={room.path}"], script)
        if status:
            sys.exit(f"the volume was not made: {said!r}")
    volume = next(room.path.glob("*.vol"))
    data = bytearray(volume.read_bytes())
    unused = 2 + AREA * (1 - volcheck.check(bytes(data)).anchor.area_in_use)
    data[PAGE * unused : PAGE * (unused + AREA)] = bytes(PAGE * AREA)
    return volume.name, bytes(data)


def summary_of(report):
    files, owners = report.cells.files, report.cells.owners
    pages = sum(props.size for props, _ in files.values())
    lines = [f"server 1 epoch {report.notes.epoch + 1} clock {report.notes.clock} files {len(files)} pages {pages}"]
    lines += [f"owner 1 {name} charge {it.charge} quota {it.quota}" for name, it in sorted(owners.items())]
    return "\n".join([*lines, "committed 0 aborted 0", ""]).encode()


def wanted(data):
    """The status, what is said and what is written, as the other reader has it."""
    import volcheck

    report = volcheck.check(data, server=1, servers=1, new_sizes=(512, 64), allow_2=False)
    if report.verdict.startswith("damaged at "):
        place = report.verdict.removeprefix("damaged at ").split(":")[0]
        return 9, f"alpine: damaged server 1 place {place}\n".encode(), b""
    if report.verdict.startswith("not a volume"):
        return 8, b"alpine: not a volume server 1\n", b""
    return 0, b"", summary_of(report)


def begin(below, checker, name, data):
    sys.path.insert(0, checker)
    begin.room, begin.data = Room(below), data
    begin.volume = begin.room.path / name


def flip(bit):
    """Whether the run on the volume with this bit flipped ends as the other reader has it, and both ends."""
    data = bytearray(begin.data)
    data[bit // 8] ^= 1 << bit % 8
    begin.volume.write_bytes(data)
    found, right = begin.room.run(["play", f"--folder={begin.room.path}"], BEGUN), wanted(bytes(data))
    return bit, found, right


def bits_of(data, step):
    for page in range(0, len(data), PAGE):
        is_zero = not any(data[page : page + PAGE])
        bits = range(8 * page, 8 * (page + PAGE))
        yield from [bits[page // PAGE * 37 % len(bits)]] if is_zero else bits[page // PAGE % step :: step]


def try_all(below, checker, step, jobs):
    """Says which flips end otherwise, and gives how many, and what is told of all."""
    sys.path.insert(0, checker)
    name, data = make(below)
    bits = list(bits_of(data, step))
    ended, wrong = {}, 0
    for bit, found, right in side_by_side(jobs, flip, bits, begin, (below, checker, name, data)):
        ended[right[0]] = ended.get(right[0], 0) + 1
        if found != right:
            wrong += 1
            print(f"page {bit // 8 // PAGE} byte {bit // 8 % PAGE} bit {bit % 8}: {found}, wanted {right}", flush=True)
    pages = sum(any(data[at : at + PAGE]) for at in range(0, len(data), PAGE))
    of = ", ".join(f"{count} status {status}" for status, count in sorted(ended.items()))
    return wrong, f"{len(bits)} bits of {len(data) // PAGE} pages, {pages} of them not zeros: {of}; {wrong} that ended otherwise"


def main(checker, step, jobs):
    start = time.time()
    with folder_in_memory() as below:
        wrong, told = try_all(below, checker, step, jobs)
    print(f"{told}; {time.time() - start:.0f} s")
    return 1 if wrong else 0


if __name__ == "__main__":
    words = argparse.ArgumentParser(description=__doc__, formatter_class=argparse.RawDescriptionHelpFormatter)
    words.add_argument("checker")
    words.add_argument("--step", type=int, default=1)
    words.add_argument("--jobs", type=int, default=processors())
    sys.exit(main(**vars(words.parse_args())))
