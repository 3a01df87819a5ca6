#!/usr/bin/env bash
# bench/resolve/run.sh: the time of `resolve` by itself, on a generated program of almost 60,000 tokens and on one of half as many, and on programs that
# ask much of scopes (bench/build/make_names.py): the best of twenty runs of each, taken in turn, each of which resolves its program five times. All of it
# three times: as the C library requests memory from the system, with memory that was used before, and with such memory in pages of 2 MB.
set -eu
cd "$(dirname "$0")"
. ../workspace.sh
make_workspace resolve_bench resolve.rt.in anyhow bc_lex bc_library bc_parse bc_scope bc_parse_tree
python3 ../build/make_program.py 59950 >"$work/program-whole"
python3 ../build/make_program.py 29950 >"$work/program-half"
for kind in constants routines blocks nested one scopes lets let tiny; do
    python3 ../build/make_names.py "$kind" 59000 >"$work/$kind-whole"
    python3 ../build/make_names.py "$kind" 29500 >"$work/$kind-half"
done
build_program <"$work/program-half"

measure() {
    local kind
    for kind in program constants routines blocks nested one scopes lets let tiny; do
        for _ in $(seq 20); do
            echo "$("$program" <"$work/$kind-whole") $("$program" <"$work/$kind-half")"
        done | awk -v kind="$kind" '
            NR == 1 || $1 < whole { whole = $1 }
            NR == 1 || $4 < half { half = $4 }
            { tokens = $2; resolved = $3 " " $6 }
            END { printf "%s: %d tokens in %.1f ms, %.0f ns a token, twice the program takes %.2f times as long (resolved: %s)\n", kind, tokens, whole / 1000000, whole / tokens, whole / half, resolved }'
    done
}

echo "As the C library requests memory from the system:"
measure
echo "With memory that the C library keeps from call to call:"
kept=glibc.malloc.mmap_max=0:glibc.malloc.trim_threshold=17179869184
GLIBC_TUNABLES=$kept measure
echo "The same, in pages of 2 MB:"
GLIBC_TUNABLES=$kept:glibc.malloc.hugetlb=1 measure
