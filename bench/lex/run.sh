#!/usr/bin/env bash
# The time of `lex` over a generated source of a million bytes, beside that of a C loop that only classifies the
# bytes, and over one of half the length: the best of forty runs of each, taken in turn. Prints the rates and ratios.
set -eu
cd "$(dirname "$0")"
. ../workspace.sh
make_workspace lex_bench lex.rt.in anyhow bc_lex
cc -O2 -o "$work/classify" classify.c
python3 make_source.py 1000000 >"$work/whole"
python3 make_source.py 500000 >"$work/half"
build_program <"$work/half"

tokens=$("$program" <"$work/whole" | cut -d' ' -f2)
whole=0 half=0 loop=0
for _ in $(seq 40); do
    w=$("$program" <"$work/whole" | cut -d' ' -f1)
    h=$("$program" <"$work/half" | cut -d' ' -f1)
    c=$("$work/classify" <"$work/whole" | cut -d' ' -f1)
    if [ "$whole" = 0 ] || [ "$w" -lt "$whole" ]; then whole=$w; fi
    if [ "$half" = 0 ] || [ "$h" -lt "$half" ]; then half=$h; fi
    if [ "$loop" = 0 ] || [ "$c" -lt "$loop" ]; then loop=$c; fi
done
bytes=$(wc -c <"$work/whole")
awk -v b="$bytes" -v t="$tokens" -v w="$whole" -v h="$half" -v c="$loop" 'BEGIN {
    printf "%d bytes, %d tokens: lex %.1f million tokens/s, %.0f MB/s; C loop %.0f MB/s, ratio %.1f; twice the text takes %.2f times as long\n", b, t, t * 1000 / w, b * 1000 / w, b * 1000 / c, w / c, w / h }'
