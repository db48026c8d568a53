#!/usr/bin/env bash
# Turns a second of so many threads at one monitor, and at a Mutex round the same state: bench/monitor.sh THREADS, from 1 to 16. All of
# them together make 200,000 turns. Each rate is that of the best of five rounds, less the time of a run whose threads make no turn.
# ALP_BENCH_MONITOR names another program than the one that the gate left.
set -eu
[ $# -eq 1 ] && [[ $1 =~ ^[1-9][0-9]?$ ]] && [ "$1" -le 16 ] || { echo "usage: bench/monitor.sh THREADS, from 1 to 16" >&2; exit 1; }
threads=$1
cd "$(dirname "$(realpath "$0")")/.."
program=${ALP_BENCH_MONITOR:-crates/alp_bench_monitor/out/alp_bench_monitor}
[ -x "$program" ] || { echo "build the program first: rt run in crates/alp_bench_monitor, or the gate" >&2; exit 1; }
each=$((200000 / threads))

# The best time of five runs, in nanoseconds.
best() { # TURNS LOCKS
    local least=
    for _ in {1..5}; do
        local start=$(date +%s%N)
        "$program" "$threads" "$1" "$2" > /dev/null
        local took=$(($(date +%s%N) - start))
        [ -n "$least" ] && [ "$least" -le "$took" ] || least=$took
    done
    echo "$least"
}

idle=$(best 0 0)
monitor=$(($(best "$each" 0) - idle))
mutex=$(($(best 0 "$each") - idle))
[ "$monitor" -gt 0 ] && [ "$mutex" -gt 0 ] || { echo "the times are too short to tell: measure again" >&2; exit 1; }
all=$((each * threads))
echo "monitor, $threads threads: $((all * 1000000000 / monitor)) turns a second"
echo "mutex, $threads threads: $((all * 1000000000 / mutex)) turns a second"
echo "monitor to mutex: $((mutex * 100 / monitor)) hundredths"
