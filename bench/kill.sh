#!/usr/bin/env bash
# Kills a server for real: bench/kill.sh FOLDER ROUNDS. In each round the program `alp_stamps` commits to the volume in
# FOLDER, and is killed by SIGKILL at a random moment after its first acknowledged commit. Then `alpine play --folder FOLDER`
# mounts the volume and reads what the commits wrote: the last 32 of the commits whose lines came out are to be there, whole, and
# at most the one behind them besides; of none there is a half. Their stamps are to rise, and the clock not to be behind the last.
# In the end the files of all rounds are read once more. ROUNDS is from 1 to 200, the first of them on the volume that stands in
# FOLDER, or on a new one.
#
# A round has two files of 32 pages. Commit N fills page N modulo 32 of both with `commit-` and the eight digits of N, so the two
# files are alike, and hold the last 32 commits. What the commits before them wrote, 2,000 or so in a round, is seen by nobody.
#
# It shows that none of these is lost, and nothing half done is left, where the process dies at any moment of a commit or a
# checkpoint. It cannot show what a power cut leaves: the host's cache outlives a killed process, so a sync that is missing is
# not seen here. ALP_STAMPS and ALPINE name other programs than those that the gate left.
set -eu
[ $# -eq 2 ] && [ -d "$1" ] && [[ $2 =~ ^[1-9][0-9]{0,2}$ ]] && [ "$2" -le 200 ] || { echo "usage: bench/kill.sh FOLDER ROUNDS, a folder that is there, and 1 to 200 rounds" >&2; exit 1; }
folder=$(realpath "$1")
rounds=$2
cd "$(dirname "$(realpath "$0")")/.."
stamps=${ALP_STAMPS:-crates/alp_stamps/out/alp_stamps}
alpine=${ALPINE:-crates/alpine/out/alpine}
[ -x "$stamps" ] && [ -x "$alpine" ] || { echo "build the programs first: rt run in crates/alp_stamps and ./play --prove, or the gate" >&2; exit 1; }
slots=32
work=$(mktemp -d)
running=
trap '[ -z "$running" ] || kill -9 "$running" 2> /dev/null || true' EXIT

lost() { # WHAT
    echo "round $round: $1" >&2
    echo "look at $work: told-$round is what was acknowledged, script and report are how the volume was read; the volume is $folder/server1.vol as it was then" >&2
    exit 1
}

# Runs the program until it is killed. What it acknowledged stands in told-ROUND, whole lines alone.
run_killed() {
    local file=$work/told-$round waited=0
    : > "$file.all"
    "$stamps" "$folder" 10000 >> "$file.all" 2> "$work/said" &
    running=$!
    until grep -q '^commit ' "$file.all"; do
        kill -0 "$running" 2> /dev/null || lost "the program ended by itself: $(cat "$work/said")"
        waited=$((waited + 1))
        [ "$waited" -lt 6000 ] || lost "no commit within a minute"
        sleep 0.01
    done
    sleep "0.$(printf '%04d' $((RANDOM % 10000)))"
    kill -9 "$running" 2> /dev/null || lost "the program ended by itself: $(cat "$work/said")"
    wait "$running" 2> /dev/null || true
    running=
    # A line that the kill cut off has no end, and does not count.
    cp "$file.all" "$file"
    [ -z "$(tail -c 1 "$file")" ] || sed -i '$d' "$file"
}

# The lines of a script that read both files of a round.
reading() { # LEFT RIGHT
    echo "1 begin 1"
    echo "1 open $1 read r"
    echo "1 open $2 read r"
    printf '1 read %s 0 16\n1 read %s 16 16\n' "$1" "$1" "$2" "$2"
    echo "1 commit"
}

# Plays the script that stands in $work/script on the volume.
mount() {
    "$alpine" play --folder "$folder" < "$work/script" > "$work/report" 2> "$work/said" || lost "the volume does not mount: $(cat "$work/said")"
}

# The 64 pages of both files, as the report shows them from the line with that number on: one a line.
pages_of() { # LINE
    awk -v first="$1" '$1 >= first && $1 < first + 4 && $2 == "ok" { for (i = 3; i <= NF; i++) print $i }' "$work/report"
}

# What both files hold behind that commit: one page a line.
wanted() { # LAST
    awk -v last="$1" -v slots="$slots" 'BEGIN {
        for (file = 0; file < 2; file++) for (slot = 0; slot < slots; slot++) {
            n = last - (last - slot + slots) % slots
            if (n < 1) { print "-"; continue }
            word = sprintf("commit-%08d.", n); page = ""
            for (i = 0; i < 32; i++) page = page word
            print page
        }
    }'
}

# Judges the files of a round: the last 32 commits that were told are there, and at most the one behind them.
judge() { # LINE LAST
    pages_of "$1" > "$work/found"
    wanted "$2" > "$work/wanted"
    cmp -s "$work/found" "$work/wanted" && return
    wanted $(($2 + 1)) > "$work/wanted-more"
    cmp -s "$work/found" "$work/wanted-more" || lost "the files do not hold the commits up to $2 (wanted), nor up to $(($2 + 1)) (wanted-more), but what found has"
    more=1
}

told=0
ahead=0
checked=()
started=$(date +%s)
for ((round = 1; round <= rounds; round++)); do
    run_killed
    read -r _ left right _ _ < "$work/told-$round"
    read -r _ last _ ts _ < <(tail -n 1 "$work/told-$round")
    [ "$(grep -c '^commit ' "$work/told-$round")" -eq "$last" ] || lost "the commits that were told are not those from 1 to $last"
    awk '$1 == "commit" { if ($4 + 0 <= before) exit 1; before = $4 + 0 }' "$work/told-$round" || lost "the stamps that were told do not rise"
    { printf 'servers 1\nclient 1 Admin\n'; reading "$left" "$right"; } > "$work/script"
    mount
    more=0
    judge 6 "$last"
    clock=$(sed -n 's/^server 1 epoch [0-9]* clock \([0-9]*\) .*/\1/p' "$work/report")
    [ "$clock" -ge "$ts" ] || lost "the clock $clock is behind the stamp $ts that was told"
    checked+=("$left $right $((last + more))")
    told=$((told + last))
    ahead=$((ahead + more))
done

# The files of all rounds once more, a hundred rounds a script.
for ((first = 0; first < rounds; first += 100)); do
    printf 'servers 1\nclient 1 Admin\n' > "$work/script"
    for ((at = first; at < rounds && at < first + 100; at++)); do
        read -r left right last <<< "${checked[at]}"
        reading "$left" "$right" >> "$work/script"
    done
    mount
    for ((at = first; at < rounds && at < first + 100; at++)); do
        round=$((at + 1))
        read -r left right last <<< "${checked[at]}"
        pages_of $((6 + 8 * (at - first))) > "$work/found"
        wanted "$last" > "$work/wanted"
        cmp -s "$work/found" "$work/wanted" || lost "what it left is not there any more: wanted is not what found has"
    done
done

took=$(($(date +%s) - started))
echo "$rounds kills, $told acknowledged commits: the last 32 of each round are there, whole, and no half of one; $ahead times the commit behind them was made before the kill; $took seconds"
rm -rf "$work"
