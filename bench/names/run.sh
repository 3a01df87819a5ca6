#!/usr/bin/env bash
# bench/names/run.sh: the time of scopes of many names: the best of ten runs for each number of names, in milliseconds.
set -eu
cd "$(dirname "$0")"
. ../workspace.sh
make_workspace names_bench names.rt.in anyhow bc_scope_names bc_word
counts="3687 7375 14750 15000 30000"
for count in $counts; do
    python3 -c "print(''.join(f'N{k * 7919 % 100003:06d}A' for k in range($count)), end='')" >"$work/$count"
done
build_program <"$work/3687"
for count in $counts; do
    for _ in $(seq 10); do "$program" <"$work/$count"; done | awk -v count="$count" '
        { for (k = 1; k <= 4; k++) { if (NR == 1 || $k < best[k]) { best[k] = $k } } }
        END { printf "%d names: declare %.2f, look up %.2f, below in small scopes %.2f, one within another %.2f\n", count, best[1] / 1e6, best[2] / 1e6, best[3] / 1e6, best[4] / 1e6 }'
done
