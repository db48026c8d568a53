# For the scripts beside it, which read it: commits to the volume of a folder, played by the program `alpine`, whose name is $alpine.

# A script that makes a volume with the file 1.1.1, each of whose pages is written once.
filling() { # PAGES HOME AREA
    awk -v pages="$1" -v home="$2" -v area="$3" 'BEGIN {
        print "servers 1\nvolume 1 " home " " area "\nclient 1 Admin"
        print "1 begin 1\n1 mkowner 1 ann " pages " World\n1 create 1 A ann " pages " World World\n1 commit"
        calls = area < 512 ? 1 : 16
        for (at = 0; at < pages; at++) {
            if (at % (4 * calls) == 0) print "1 begin 1\n1 open A change w"
            if (at % 4 == 0) print "1 write A " at " 4 text"
            if ((at + 1) % (4 * calls) == 0 || at + 1 == pages) print "1 commit"
        }
    }'
}

# A script of so many transactions, each of which writes so many random pages of that file, a call each. The pages are those that a
# linear congruence gives from the seed on, as in peers.c.
changing() { # COUNT PAGES FILE_PAGES SEED
    awk -v count="$1" -v pages="$2" -v file="$3" -v seed="$4" 'BEGIN {
        print "servers 1\nclient 1 Admin"
        for (n = 0; n < count; n++) {
            print "1 begin 1\n1 open 1.1.1 change w"
            for (page = 0; page < pages; page++) {
                seed = (seed * 1664525 + 1013904223) % 4294967296
                print "1 write 1.1.1 " int(seed / 256) % file " 1 text" n
            }
            print "1 commit"
        }
    }'
}

# Plays the script on the volume of the folder, and prints the nanoseconds. Each of so many transactions is to be committed.
play_in() { # FOLDER SCRIPT COMMITS
    local start=$(date +%s%N)
    "$alpine" play --folder "$1" < "$2" > "$1/report" || { echo "alpine does not play on $1" >&2; exit 1; }
    local took=$(($(date +%s%N) - start))
    [ "$(tail -n 1 "$1/report")" = "committed $3 aborted 0" ] || { echo "not committed: $(tail -n 1 "$1/report"), of $3" >&2; exit 1; }
    echo "$took"
}

# The nanoseconds that it takes to start the program and to mount the volume, at best of five.
mounting() { # FOLDER
    local least= took
    echo "servers 1" > "$1/empty"
    for _ in {1..5}; do
        took=$(play_in "$1" "$1/empty" 0)
        [ -n "$least" ] && [ "$least" -le "$took" ] || least=$took
    done
    echo "$least"
}
