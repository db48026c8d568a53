#!/usr/bin/env bash
# Measures a restart with the built program: microseconds of one, the best of five rounds, in three series. Each plays a script
# with 1,010 restarts and one with ten, and divides the difference by a thousand. First behind 100, 1,000 and 10,000 commits to one
# page (a restart is to cost the same behind each), then with 10, 100 and 1,000 files of one page that stand, then with logs
# whose areas have 64, 512 and 4,096 pages and are half full of page images.
set -eu
cd "$(dirname "$0")/.."
program=${ALPINE:-crates/alpine/out/alpine}
[ -x "$program" ] || { echo "build the program first: ./play --prove" >&2; exit 1; }
folder=$(mktemp -d)
trap 'rm -rf "$folder"' EXIT

# An administrator makes an owner and a file, then so many files more, then commits so often to the first one's page.
script() { # FILES COMMITS AREA RESTARTS
    awk -v files="$1" -v commits="$2" -v area="$3" -v restarts="$4" 'BEGIN {
        print "servers 1\nvolume 1 16384 " area "\nclient 1 Admin"
        print "1 begin 1\n1 mkowner 1 ann 60000 World\n1 create 1 A ann 1000 World World\n1 commit"
        for (n = 0; n < files; n++) {
            if (n % 20 == 0) print "1 begin 1"
            print "1 create 1 F ann 1 World World\n1 write F 0 1 x"
            if (n % 20 == 19 || n == files - 1) print "1 commit"
        }
        for (n = 0; n < commits; n++)
            print "1 begin 1\n1 open A change w\n1 write A " n % 1000 " 1 text" n "\n1 commit"
        for (n = 0; n < restarts; n++) print "restart 1 1"
    }'
}

# The best time of five plays of a script, in nanoseconds.
best() { # SCRIPT
    local least=
    for _ in {1..5}; do
        local start=$(date +%s%N)
        "$program" play < "$folder/$1" > /dev/null
        local took=$(($(date +%s%N) - start))
        if [ -z "$least" ] || ((took < least)); then least=$took; fi
    done
    echo "$least"
}

# The microseconds of a restart behind such a script.
restart() { # FILES COMMITS AREA
    script "$1" "$2" "$3" 10 > "$folder/few"
    script "$1" "$2" "$3" 1010 > "$folder/many"
    echo "$((($(best many) - $(best few)) / 1000000))"
}

for commits in 100 1000 10000; do
    echo "$commits commits: $(restart 10 "$commits" 512) us a restart"
done
for files in 10 100 1000; do
    echo "$files files: $(restart "$files" 100 512) us a restart"
done
for area in 64 512 4096; do
    echo "an area of $area pages, half full: $(restart 10 $((area / 6)) "$area") us a restart"
done
