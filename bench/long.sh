#!/usr/bin/env bash
# Plays long scripts of sixteen clients with the built program: 1,000, 10,000 and 60,000 lines of clients, and the 60,000 with
# comments among them that make 200,000 lines. Prints the nanoseconds a client line of each, the best of five rounds less the
# time of a script of one line; then the bytes of memory that a client line keeps where it brings no pages: the peak resident
# size at 60,000 lines less that at 1,000, over 59,000, which needs python3 and is skipped without it.
set -eu
cd "$(dirname "$0")/.."
program=${ALPINE:-crates/alpine/out/alpine}
[ -x "$program" ] || { echo "build the program first: ./play --prove" >&2; exit 1; }
folder=$(mktemp -d)
trap 'rm -rf "$folder"' EXIT

# Sixteen clients in turn: each begins, opens one of two files for change (which one client has and the others are refused),
# makes two calls on it, and ends. The two calls write and read pages, or with `bare` read and change properties. Comments make
# up the whole number of lines.
crowd() { # LINES CALLS TOTAL
    awk -v lines="$1" -v calls="$2" -v total="$3" 'BEGIN {
        print "servers 1"
        for (c = 1; c <= 16; c++) print "client " c " Admin"
        print "1 begin 1\n1 mkowner 1 ann 4000 World\n1 create 1 A ann 10 World World\n1 create 1 B ann 10 World World\n1 commit"
        left = total - lines - 17
        for (n = 0; n < lines - 5; n++) {
            for (due = int(left / (lines - 5 - n)); due > 0; due--) { print "# a comment"; left-- }
            c = n % 16 + 1
            file = n % 2 ? "A" : "B"
            turn = int(n / 16) % 5
            if (turn == 0) print c " begin 1"
            else if (turn == 1) print c " open " file " change w"
            else if (turn == 4) print c (c % 4 ? " commit" : " abort")
            else if (calls == "bare") print c (turn == 2 ? " props " file : " change " file " type " n % 1000)
            else print c (turn == 2 ? " write " file " " n % 10 " 1 text" n : " read " file " 0 4")
        }
    }'
}

# The best time of five plays of a script, in nanoseconds.
best() { # SCRIPT
    local least=
    for _ in {1..5}; do
        local start=$(date +%s%N)
        "$program" play < "$folder/$1" > /dev/null
        local took=$(($(date +%s%N) - start))
        if [ -z "$least" ] || ((took < least)); then least=$took; fi
    done
    echo "$least"
}

# The peak resident size of a play of a script, in bytes.
peak() { # SCRIPT
    python3 -c 'import resource, subprocess, sys
subprocess.run([sys.argv[1], "play"], stdin=open(sys.argv[2]), stdout=subprocess.DEVNULL, check=True)
print(resource.getrusage(resource.RUSAGE_CHILDREN).ru_maxrss * 1024)' "$program" "$folder/$1"
}

echo "servers 1" > "$folder/one"
for lines in 1000 10000 60000; do
    crowd "$lines" pages "$lines" > "$folder/pages-$lines"
    crowd "$lines" bare "$lines" > "$folder/bare-$lines"
done
crowd 60000 pages 200000 > "$folder/comments"
one=$(best one)
for lines in 1000 10000 60000; do
    echo "$lines client lines: $((($(best "pages-$lines") - one) / lines)) ns a client line"
done
echo "60000 client lines of $(wc -l < "$folder/comments"): $((($(best comments) - one) / 60000)) ns a client line"
if command -v python3 > /dev/null; then
    echo "memory: $((($(peak bare-60000) - $(peak bare-1000)) / 59000)) bytes a client line without pages"
else
    echo "memory is skipped: python3 is not installed"
fi
