#!/usr/bin/env bash
# Durable transactions a second of a server on a file in FOLDER, beside SQLite (write-ahead log, synchronous FULL), LMDB and
# Berkeley DB (a log that is synced at each commit), each of which rewrites 1 page, then 16 pages, of 512 bytes out of 4,096,
# chosen at random: bench/durable.sh FOLDER [COUNT]. Five rounds of all of them in turn; the medians count. Each rate stands
# beside what it is of one append of as many bytes with one fdatasync, in the same round. What is not installed is skipped, and
# said so.
#
# The transactions of Alpine are lines of a script, which `alpine play --folder` plays on a new volume, and their time is that of the play
# less the time of one without lines, which starts the program and mounts the volume.
#
# It shows what a commit costs on this device beside the device's own limit. It cannot show that the device keeps what it was
# told to sync, and where the device answers a sync from a cache the rates say little. COUNT is 300 if it is left out, and 3,000 at most.
# ALPINE names another program than the one that the gate left.
set -eu
[ $# -ge 1 ] && [ $# -le 2 ] && [ -d "$1" ] || { echo "usage: bench/durable.sh FOLDER [COUNT]" >&2; exit 1; }
folder=$(realpath "$1")
count=${2:-300}
[[ $count =~ ^[1-9][0-9]*$ ]] && [ "$count" -le 3000 ] || { echo "bench/durable.sh: COUNT is from 1 to 3000" >&2; exit 1; }
cd "$(dirname "$(realpath "$0")")/.."
alpine=$(realpath "${ALPINE:-crates/alpine/out/alpine}")
[ -x "$alpine" ] || { echo "build the program first: ./play --prove" >&2; exit 1; }
. bench/folder.sh
work=$(mktemp -d "$folder/durable-XXXXXX")
trap 'rm -rf "$work"' EXIT

# Builds the peers that are installed: each whose header and library a small program can be linked with.
flags=()
peer() { # NAME DEFINE HEADER LIBRARY
    if printf '#include <%s>\nint main(void) { return 0; }\n' "$3" | cc -x c - -o "$work/tried" "-l$4" 2> /dev/null; then
        flags+=("-D$2" "-l$4")
    else
        echo "$1 is skipped: $3 or lib$4 is not installed"
    fi
}
peer SQLite WITH_SQLITE sqlite3.h sqlite3
peer LMDB WITH_LMDB lmdb.h lmdb
peer "Berkeley DB" WITH_BERKELEY db.h db
cc -O2 -Wall -Wno-unused-function bench/peers.c -o "$work/peers" ${flags[@]+"${flags[@]}"}

# The middle one of the numbers on standard input.
median() { sort -n | awk '{ x[NR] = $1 } END { print x[int((NR + 1) / 2)] }'; }

# The line of Alpine, in the form of those of its peers.
alpine_rate() { # PAGES APPENDS
    local at=$work/volume idle took
    rm -rf "$at"
    mkdir "$at"
    filling 4096 16384 2048 > "$at/script"
    play_in "$at" "$at/script" "$(grep -c '^1 commit$' "$at/script")" > /dev/null
    idle=$(mounting "$at")
    changing "$count" "$1" 4096 12345 > "$at/script"
    took=$(play_in "$at" "$at/script" "$count")
    local rate=$((count * 1000000000 / (took - idle)))
    echo "alpine: $rate a second, $((rate * 100 / $2)) hundredths of an append"
}

# Five rounds of all programs in turn, each of which prints lines 'NAME: RATE a second, PART hundredths of an append'.
measure() { # PAGES
    local round name appends
    : > "$work/said"
    for round in 1 2 3 4 5; do
        mkdir "$work/round"
        "$work/peers" "$work/round" "$count" "$1" > "$work/peers-said"
        rm -rf "$work/round"
        appends=$(sed -n 's/^append: \([0-9]*\) a second.*/\1/p' "$work/peers-said")
        alpine_rate "$1" "$appends" >> "$work/peers-said"
        cat "$work/peers-said" >> "$work/said"
    done
    echo "$1 pages a transaction, $count transactions a round:"
    for name in append sqlite lmdb berkeley alpine; do
        grep -q "^$name: " "$work/said" || continue
        local rates=$(sed -n "s/^$name: \([0-9]*\) a second.*/\1/p" "$work/said")
        local parts=$(sed -n "s/^$name: .*, \([0-9]*\) hundredths of an append/\1/p" "$work/said")
        printf '  %-9s %6d a second (%d to %d), %3d hundredths of an append (%d to %d)\n' "$name" \
            "$(median <<< "$rates")" "$(sort -n <<< "$rates" | head -n 1)" "$(sort -n <<< "$rates" | tail -n 1)" \
            "$(median <<< "$parts")" "$(sort -n <<< "$parts" | head -n 1)" "$(sort -n <<< "$parts" | tail -n 1)"
    done
}

measure 1
measure 16
