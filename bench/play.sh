#!/usr/bin/env bash
# Plays scripts of one client of 100, 300 and 1,000 lines, and of sixteen clients that get into each other's way of 250,
# 500 and 1,000 lines, with the built program, and prints the nanoseconds a line of each: the best of fifteen rounds, less
# the time of a script of one line, which is the start of the program.
cd "$(dirname "$0")/.." || exit 1
program=${ALPINE:-crates/alpine/out/alpine}
[ -x "$program" ] || { echo "build the program first: ./play --prove" >&2; exit 1; }
folder=$(mktemp -d)
trap 'rm -rf "$folder"' EXIT

# A script of so many lines: writes and reads of a file, with a commit at every twentieth line and a new file behind it.
script() {
    echo "servers 1"
    [ "$1" -gt 1 ] || return
    printf 'client 1 Admin\n1 begin 1\n1 mkowner 1 ann 4000 World\n1 create 1 A ann 10 World World\n'
    local file=A n
    for ((n = 6; n <= $1; n++)); do
        case $((n % 20)) in
            0) echo "1 commit" ;;
            1) echo "1 begin 1" ;;
            2) file=B$n && echo "1 create 1 $file ann 10 World World" ;;
            3 | 4) echo "1 write $file $((n % 10)) 1 text$n" ;;
            *) if ((n % 2)); then echo "1 write $file $((n % 10)) 1 text$n"; else echo "1 read $file 0 4"; fi ;;
        esac
    done
}

# A script of so many lines of sixteen clients: in turn each begins, opens one of two files for change (which one client has
# and the others are refused), writes, reads, and ends.
crowd() {
    echo "servers 1"
    for c in {1..16}; do echo "client $c Admin"; done
    printf '1 begin 1\n1 mkowner 1 ann 4000 World\n1 create 1 A ann 10 World World\n1 create 1 B ann 10 World World\n1 commit\n'
    local files=(A B) n
    for ((n = 23; n <= $1; n++)); do
        local c=$((n % 16 + 1)) file=${files[n % 2]}
        case $((n / 16 % 5)) in
            0) echo "$c begin 1" ;;
            1) echo "$c open $file change w" ;;
            2) echo "$c write $file $((n % 10)) 1 text$n" ;;
            3) echo "$c read $file 0 4" ;;
            4) if ((c % 4)); then echo "$c commit"; else echo "$c abort"; fi ;;
        esac
    done
}

# Nanoseconds of 20 plays of a script.
plays() {
    local start=$(date +%s%N)
    for _ in {1..20}; do "$program" play < "$folder/$1.alp" > /dev/null || exit 1; done
    echo $(($(date +%s%N) - start))
}

for lines in 1 100 300 1000; do script "$lines" > "$folder/one-$lines.alp"; done
for lines in 250 500 1000; do crowd "$lines" > "$folder/sixteen-$lines.alp"; done
names="one-1 one-100 one-300 one-1000 sixteen-250 sixteen-500 sixteen-1000"
declare -A least
for _ in {1..15}; do
    for name in $names; do
        took=$(plays "$name")
        if [ -z "${least[$name]}" ] || ((took < ${least[$name]})); then least[$name]=$took; fi
    done
done
for name in ${names#one-1 }; do
    lines=${name#*-}
    echo "${name%-*}: $lines lines: $(((${least[$name]} - ${least[one-1]}) / 20 / lines)) ns a line"
done
