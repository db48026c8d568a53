#!/usr/bin/env python3
"""Plays scripts of random bytes and of changed lines: bench/fuzz.py COUNT [--first N] [--jobs N]

Each is made from its number and played by the built program. It has to end with status 0, or with 2 and the line that bench/reader.py
names, a reader of the language that was written apart from the program. A script that ends otherwise is named, and kept in a folder.
"""
import argparse
import pathlib
import random
import re
import sys
import tempfile
import time

from reader import first_outside
from runs import TOP, Room, folder_in_memory, processors, side_by_side

SMALL = [b"volume %d 512 64" % server for server in range(1, 9)]
SEEDS = [it.read_bytes() for it in sorted((TOP / "crates" / "alp_plays" / "data").glob("*.alp")) if it.stat().st_size < 3000]
LINES = sorted({line for script in SEEDS for line in script.split(b"\n") if line})
WORDS = sorted({word for line in LINES for word in line.split(b" ")} | {b"0", b"-", b"wait", b"fail", b"00", b"+1", b"4294967295", b"4294967296"})


def of_bytes(rolls):
    """Random bytes, mostly letters, digits, spaces and ends of lines, after a first line or none."""
    alphabet = bytes(range(256)) if rolls.random() < 0.2 else b"servabcd0123456789 \n\n\r#-,.wait"
    first = rolls.choice([b"", b"servers 1\n", b"servers 8\nclient 1 Admin\n"])
    return first + bytes(rolls.choice(alphabet) for _ in range(rolls.randrange(200)))


def changed_word(rolls, line):
    words = line.split(b" ")
    at = rolls.randrange(len(words))
    kind = rolls.randrange(4)
    if kind == 0:
        words[at] = rolls.choice(WORDS)
    elif kind == 1:
        words.insert(at, rolls.choice(WORDS))
    elif kind == 2:
        del words[at]
    elif words[at]:
        spot = rolls.randrange(len(words[at]))
        words[at] = words[at][:spot] + bytes([rolls.randrange(256)]) + words[at][spot + 1 :]
    return b" ".join(words)


def with_small_volumes(lines):
    """The lines with a small volume at each server that has no line for its own, since a large one costs time."""
    first = next((at for at, line in enumerate(lines) if line.startswith(b"servers ")), None)
    if first is None:
        return lines
    own = {line.split(b" ")[1] for line in lines if line.startswith(b"volume ")}
    count = int(lines[first].split(b" ")[1])
    return [*lines[: first + 1], *(it for it in SMALL[:count] if it.split(b" ")[1] not in own), *lines[first + 1 :]]


def of_changed_lines(rolls):
    """A script of the repository with one to three changes: a word, a byte, a line that goes, comes twice or comes from elsewhere."""
    lines = rolls.choice(SEEDS).split(b"\n")
    if rolls.random() < 0.9:
        lines = with_small_volumes(lines)
    for _ in range(rolls.randrange(1, 4)):
        if not lines:
            break
        at, kind = rolls.randrange(len(lines)), rolls.randrange(5)
        if kind < 2:
            lines[at] = changed_word(rolls, lines[at])
        elif kind == 2:
            del lines[at]
        elif kind == 3:
            lines.insert(at, rolls.choice(LINES))
        else:
            lines.insert(at, lines[at])
    return b"\n".join(lines)


def expected(script):
    outside = first_outside(script)
    return (0, b"") if outside is None else (2, b"alpine: bad script line %d\n" % outside)


def begin(below):
    begin.room = Room(below)


def try_one(number):
    """The script of that number, how it has to end, and how it does where that is otherwise."""
    rolls = random.Random(number)
    script = of_bytes(rolls) if rolls.random() < 0.3 else of_changed_lines(rolls)
    status, said, report = begin.room.run(["play"], script)
    wanted = expected(script)
    is_whole = bool(re.search(rb"^committed \d+ aborted \d+\n\Z", report, re.M)) if status == 0 else report == b""
    return number, wanted, None if (status, said) == wanted and is_whole else (status, said, script)


def try_all(below, numbers, jobs):
    """Says which scripts end otherwise, and counts all by their status."""
    ended, wrong = {0: 0, 2: 0}, 0
    for number, wanted, otherwise in side_by_side(jobs, try_one, numbers, begin, (below,)):
        ended[wanted[0]] += 1
        if otherwise:
            wrong += 1
            status, said, script = otherwise
            kept = pathlib.Path(tempfile.mkdtemp(prefix="alpine-fuzz-")) / f"{number}.alp"
            kept.write_bytes(script)
            print(f"{number}: status {status} {said!r}, wanted {wanted}: {kept}", flush=True)
    return ended, wrong


def main(count, first, jobs):
    start = time.time()
    with folder_in_memory() as below:
        ended, wrong = try_all(below, range(first, first + count), jobs)
    print(f"{count} scripts: {ended[0]} in the language, {ended[2]} outside it, {wrong} that ended otherwise; {time.time() - start:.0f} s")
    return 1 if wrong else 0


if __name__ == "__main__":
    words = argparse.ArgumentParser(description=__doc__, formatter_class=argparse.RawDescriptionHelpFormatter)
    words.add_argument("count", type=int)
    words.add_argument("--first", type=int, default=1)
    words.add_argument("--jobs", type=int, default=processors())
    sys.exit(main(**vars(words.parse_args())))
