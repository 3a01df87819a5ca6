#!/usr/bin/env bash
# The time of `Reader::feed` over ten million bytes in pieces of 64 KB, beside that of a C loop that only
# classifies the bytes: the best of five runs of each, taken in turn. Prints both and their ratio.
set -eu
cd "$(dirname "$0")"
. ../workspace.sh
make_workspace text_bench feed.rt.in anyhow bc_text
cc -O2 -o "$work/classify" classify.c
python3 make_text.py >"$work/text"
build_program </dev/null

feed=0 loop=0
for _ in 1 2 3 4 5; do
    f=$("$program" <"$work/text" | cut -d' ' -f1)
    c=$("$work/classify" <"$work/text" | cut -d' ' -f1)
    if [ "$feed" = 0 ] || [ "$f" -lt "$feed" ]; then feed=$f; fi
    if [ "$loop" = 0 ] || [ "$c" -lt "$loop" ]; then loop=$c; fi
done
bytes=$(wc -c <"$work/text")
awk -v b="$bytes" -v f="$feed" -v c="$loop" 'BEGIN {
    printf "%d bytes: feed %.0f MB/s, C loop %.0f MB/s, ratio %.1f\n", b, b * 1000 / f, b * 1000 / c, f / c }'
