#!/usr/bin/env python3
"""Kills storms over a folder: bench/storm_kills.py CHECKER ROUNDS [--seed N] [--jobs N]

CHECKER is the folder of another reader of volumes, volcheck.py (docs/TESTING.md, "Hostile use, by hand"). In each round a storm of three
servers and six clients is killed at a random moment. Then a script of `servers 3` and `settle` is played over the folder. It has to
end with status 0, each volume has to be one of its server with charges that equal sizes, and neither a vote nor a decision may wait
on it any more. A folder serves ten rounds. A storm tells nothing before its end, so what was told is bench/kill.sh's to show.
"""
import argparse
import os
import random
import shutil
import signal
import sys
import tempfile
import time

from runs import Room, folder_in_memory, processors, side_by_side

SERVERS = 3
ROUNDS_OF_A_FOLDER = 10
SETTLES = f"servers {SERVERS}\nsettle\n".encode()


def storm(folder, seed):
    return ["storm", f"--servers={SERVERS}", "--clients=6", "--size=40", f"--seed={seed}", "--patience=20", f"--folder={folder}"]


def seconds_of_a_storm(room, folder, seed):
    """How long a storm takes that nobody kills."""
    start = time.time()
    status, said, _ = room.run(storm(folder, seed))
    if status:
        sys.exit(f"a storm that nobody kills ended with {status}: {said!r}")
    return time.time() - start


def is_killed(room, folder, seed, seconds):
    """Whether the storm still ran when it was killed."""
    process = room.start(storm(folder, seed))
    time.sleep(seconds)
    os.kill(process, signal.SIGKILL)
    _, status = os.waitpid(process, 0)
    return os.WIFSIGNALED(status)


def faults_of(room, folder):
    """What is wrong with the folder after a settling."""
    import volcheck

    status, said, _ = room.run(["play", f"--folder={folder}"], SETTLES)
    if status:
        return [f"status {status}: {said!r}"]
    found = []
    for server in range(1, SERVERS + 1):
        report = volcheck.check((folder / f"server{server}.vol").read_bytes(), server=server, servers=SERVERS, allow_2=False)
        if report.verdict != "in the grammar":
            found.append(f"server {server}: {report.verdict}")
        elif report.notes.ready or report.notes.decisions:
            found.append(f"server {server}: votes {len(report.notes.ready)}, decisions {len(report.notes.decisions)}")
    return found


def begin(below, checker):
    sys.path.insert(0, checker)
    begin.room = Room(below)
    folder = begin.room.path / "first"
    folder.mkdir()
    begin.seconds = min(seconds_of_a_storm(begin.room, folder, seed) for seed in range(3))
    shutil.rmtree(folder)


def try_folder(asked):
    """Kills storms over one folder, until a round finds a fault: how many rounds, how many storms still ran, and the fault."""
    seed, rounds = asked
    rolls, killed = random.Random(seed), 0
    folder = begin.room.path / f"folder-{seed}"
    folder.mkdir()
    for number in range(rounds):
        killed += is_killed(begin.room, folder, seed + number, rolls.random() * begin.seconds)
        found = faults_of(begin.room, folder)
        if found:
            kept = shutil.move(folder, tempfile.mkdtemp(prefix="alpine-storm-"))
            return number + 1, killed, f"a storm of seed {seed + number}, {kept}: {'; '.join(found)}"
    shutil.rmtree(folder)
    return rounds, killed, None


def main(checker, rounds, seed, jobs):
    start, tried, killed, wrong = time.time(), 0, 0, 0
    folders = [(at, min(ROUNDS_OF_A_FOLDER, seed + rounds - at)) for at in range(seed, seed + rounds, ROUNDS_OF_A_FOLDER)]
    with folder_in_memory() as below:
        for made, running, fault in side_by_side(jobs, try_folder, folders, begin, (below, checker), 1):
            tried, killed = tried + made, killed + running
            if fault:
                wrong += 1
                print(fault, flush=True)
    print(f"{tried} storms, {killed} of them killed while they ran; {wrong} folders with a fault; {time.time() - start:.0f} s")
    return 1 if wrong else 0


if __name__ == "__main__":
    words = argparse.ArgumentParser(description=__doc__, formatter_class=argparse.RawDescriptionHelpFormatter)
    words.add_argument("checker")
    words.add_argument("rounds", type=int)
    words.add_argument("--seed", type=int, default=1)
    words.add_argument("--jobs", type=int, default=processors())
    sys.exit(main(**vars(words.parse_args())))
