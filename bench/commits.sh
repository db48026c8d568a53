#!/usr/bin/env bash
# Commits a second to a volume on a file in FOLDER, by the size of its log: bench/commits.sh FOLDER [COUNT [HOME]]. A client commits COUNT
# transactions of 1 page, then of 16, out of a file of 256 pages, to new volumes of HOME home pages whose logs have areas of 4,096, 2,048,
# 512 and 64 pages. An area of 4,096 needs few checkpoints or none, one of 64 one for every few commits, and no transaction of 16 pages has
# room there. Beside each rate stand that of the first quarter of the commits, that of the last, and appends of as many bytes to another
# file, each with an fdatasync, in the same run. Behind it come the nanoseconds of a page that is read where it is in memory, in calls of
# one page and of 16.
#
# COUNT is 400 if it is left out, from 4 to 3,000, and HOME 16,384, from 512 to 65,536. ALPINE names another program than the one that the
# gate left.
set -eu
usage() {
    echo "usage: bench/commits.sh FOLDER [COUNT [HOME]], COUNT from 4 to 3000, HOME from 512 to 65536" >&2
    exit 1
}
[ $# -ge 1 ] && [ $# -le 3 ] && [ -d "$1" ] || usage
folder=$(realpath "$1")
count=${2:-400}
home=${3:-16384}
[[ $count =~ ^[1-9][0-9]*$ ]] && [ "$count" -ge 4 ] && [ "$count" -le 3000 ] || usage
[[ $home =~ ^[1-9][0-9]*$ ]] && [ "$home" -ge 512 ] && [ "$home" -le 65536 ] || usage
cd "$(dirname "$(realpath "$0")")/.."
alpine=$(realpath "${ALPINE:-crates/alpine/out/alpine}")
[ -x "$alpine" ] || { echo "build the program first: ./play --prove" >&2; exit 1; }
. bench/folder.sh
work=$(mktemp -d "$folder/commits-XXXXXX")
trap 'rm -rf "$work"' EXIT
cc -O2 -Wall -Wno-unused-function bench/peers.c -o "$work/peers"

file_pages=256
quarter=$((count / 4))

# Four scripts of a quarter of the commits each, one after the other on one new volume.
rates() { # PAGES AREA
    local at=$work/volume took=() idle now n
    rm -rf "$at"
    mkdir "$at"
    filling "$file_pages" "$home" "$2" > "$at/script"
    play_in "$at" "$at/script" "$(grep -c '^1 commit$' "$at/script")" > /dev/null
    idle=$(mounting "$at")
    for n in 1 2 3 4; do
        changing "$quarter" "$1" "$file_pages" "$n" > "$at/script"
        now=$(play_in "$at" "$at/script" "$quarter")
        took+=($((now - idle)))
    done
    local all=$((took[0] + took[1] + took[2] + took[3])) second=1000000000
    local rate=$((4 * quarter * second / all))
    local appends=$("$work/peers" "$work" "$count" "$1" | sed -n 's/^append: \([0-9]*\) a second.*/\1/p')
    echo "an area of $2 pages, $1 pages a transaction: $rate commits a second"
    echo "  the first quarter: $((quarter * second / took[0])), the last quarter: $((quarter * second / took[3]))"
    echo "  appends of as many bytes with a sync: $appends a second; commit to append: $((rate * 100 / appends)) hundredths"
}

# The nanoseconds of a page that is read, in so many calls of so many pages of a file that is in memory, at best of five.
reading() { # CALLS PAGES
    local least= took
    {
        filling "$file_pages" 16384 2048
        printf '1 begin 1\n1 open A read r\n'
        awk -v calls="$1" -v pages="$2" 'BEGIN { for (n = 0; n < calls; n++) print "1 read A " n * pages % 240 " " pages }'
    } > "$work/script"
    for _ in {1..5}; do
        local start=$(date +%s%N)
        "$alpine" play < "$work/script" > /dev/null
        took=$(($(date +%s%N) - start))
        [ -n "$least" ] && [ "$least" -le "$took" ] || least=$took
    done
    echo "$least"
}

for pages in 1 16; do
    for area in 4096 2048 512 64; do
        [ "$pages" -eq 1 ] || [ "$area" -ne 64 ] || continue
        rates "$pages" "$area"
    done
done
still=$(reading 0 1)
echo "pages that are read: $((($(reading 40000 1) - still) / 40000)) ns a page in calls of one, $((($(reading 10000 16) - still) / 160000)) in calls of 16"
