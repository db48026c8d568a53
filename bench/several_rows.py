#!/usr/bin/env python3
"""Plays two scripts of two servers, in which the disk of a server stops at each of its calls, with the built program.

    bench/several_rows.py [PROGRAM]        PROGRAM is crates/alpine/out/alpine where none is given

In both a transaction makes an owner at each of the servers and commits. In the first one its coordinator stops within the
commit and starts again with each of four picks; then another client asks both servers for the owner: both have it, or
neither has, and both have it where the commit was told. In the second one messages are carried by hand, lost and carried
twice, a server stops on the way, starts again before the end, and all is settled: the run ends with status 0, and both
servers have the owner in the report, or neither has.

Prints for each script what was seen, and exits 1 where two servers differ. tests of alp_top_tests do the same.
"""
import pathlib
import subprocess
import sys

PICKS = range(4)

HEAD = ["servers 2", "client 1 Admin"]

BEGUN = ["1 begin 1", "1 mkowner 1 ann 9 World", "1 mkowner 2 ann 9 World"]

LOOKED_UP = ["settle", "2 begin 2", "2 owner 1 ann", "2 owner 2 ann", "2 commit"]

BY_HAND = """auto off
1 commit
1 owner 1 ann
carry 1 2
again 1 2
carry 2 1
1 collect
lose 1 2
tick 1
carry 1 2
carry 2 1
carry 2 1
again 2 1""".splitlines()

ASKED = ["auto on", "1 begin 2", "1 owner 1 ann", "1 commit"]


def played(program, lines):
    """The report of a script, as its lines."""
    script = "\n".join(lines) + "\n"
    done = subprocess.run([program, "play"], input=script, capture_output=True, text=True, timeout=60, check=False)
    if done.returncode != 0:
        sys.exit(f"status {done.returncode} ({done.stderr.strip()}) of the script:\n{script}")
    return done.stdout.splitlines()


def answer(report, line):
    """What is told of a line of the script, without its number."""
    told = [it for it in report if it.startswith(f"{line} ")]
    return told[0].partition(" ")[2] if told else "(nothing)"


def coordinator_stops(program):
    """Its commit is stopped at each call of its disk, and it starts again with each pick."""
    both = neither = calls = 0
    while True:
        told = 0
        for pick in PICKS:
            stopped = [f"stop 1 {calls}", "1 commit", f"restart 1 {pick}"]
            report = played(program, [*HEAD, "client 2 Admin", *BEGUN, *stopped, *LOOKED_UP])
            first, second = answer(report, 12), answer(report, 13)
            is_told = answer(report, 8).startswith("ok ")
            if first != second or (is_told and not first.startswith("ok ")):
                sys.exit(f"stop 1 {calls}, pick {pick}: server 1 says '{first}', server 2 says '{second}'")
            told += is_told
            both += first.startswith("ok ")
            neither += not first.startswith("ok ")
        if told == len(PICKS):
            print(f"coordinator stops after 0 to {calls} calls of its disk, with 4 picks: both {both}, neither {neither}")
            return
        calls += 1


def server_stops(program, server):
    """It stops at each call of its disk, while messages are carried by hand, and starts again before the end."""
    both = neither = calls = 0
    while True:
        script = [*HEAD, f"stop {server} {calls}", *BEGUN, *BY_HAND]
        report = played(program, [*script, f"restart {server} 0", "settle", *ASKED])
        owners = [it for it in (1, 2) if f"owner {it} ann charge 0 quota 9" in report]
        if len(owners) == 1:
            sys.exit(f"stop {server} {calls}: only server {owners[0]} has the owner")
        both += len(owners) == 2
        neither += not owners
        # Nothing stopped where a client is answered at the end, and no restart stands before it.
        report = played(program, [*script, f"1 begin {server}", *ASKED])
        if answer(report, 20) != "refused 20":
            print(f"server {server} stops after 0 to {calls} calls of its disk: both {both}, neither {neither}")
            return
        calls += 1


def main():
    top = pathlib.Path(__file__).resolve().parent.parent
    program = sys.argv[1] if len(sys.argv) > 1 else str(top / "crates/alpine/out/alpine")
    coordinator_stops(program)
    for server in (1, 2):
        server_stops(program, server)


if __name__ == "__main__":
    main()
