#!/usr/bin/env bash
# Measures what the static library alp_bench does, beside plain copies: bench/measure.sh COMMAND, with the commands that
# bench/measure.c names. It builds that program with the library, which `rt lib` in crates/alp_bench makes: the gate proves it, and leaves
# no library. ALP_BENCH names another library than that.
set -eu
cd "$(dirname "$(realpath "$0")")/.."
library=${ALP_BENCH:-crates/alp_bench/out/libalp_bench.a}
[ -r "$library" ] || { echo "build the library first: rt lib in crates/alp_bench" >&2; exit 1; }
kit=$(dirname "$(rt doc)")
work=$(mktemp -d)
trap 'rm -rf "$work"' EXIT
cc -O2 -Wall -Wl,--wrap=malloc bench/measure.c "$library" "$kit/c/libos_c.a" "$kit/c/liblibc_c.a" -o "$work/measure"
"$work/measure" "$@"
