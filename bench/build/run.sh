#!/usr/bin/env bash
# bench/build/run.sh [PROGRAM]: the time and memory of `bcpl build` with a certificate, on a generated program of almost 60,000 tokens and on one
# of half as many, and on programs that ask much of scopes: the best processor time of ten runs of each, taken in turn. Then, where tcc is at
# hand, how many times as long the first takes as tcc on the same routines in C; and where valgrind is at hand, where the processor's
# instructions go. PROGRAM is the built program (BCPL, or that of ./bcpl, if left out).
set -eu
if [ $# -gt 0 ]; then set -- "$(realpath "$1")"; fi
cd "$(dirname "$0")"
if [ $# -gt 0 ]; then
    program=$1
else
    program=${BCPL:-$(../../bcpl --which)}
fi
work=$(mktemp -d)
trap 'rm -rf "$work"' EXIT
python3 make_program.py 59950 >"$work/whole"
python3 make_program.py 29950 >"$work/half"
python3 make_c.py 59950 >"$work/whole.c"
for kind in constants routines blocks nested; do
    python3 make_names.py "$kind" 59000 >"$work/$kind-whole"
    python3 make_names.py "$kind" 29500 >"$work/$kind-half"
done
python3 times.py "$program" "$work"
if command -v tcc >/dev/null; then
    python3 against_tcc.py "$program" "$work"
else
    echo "tcc is not there: no comparison with it"
fi
if command -v valgrind >/dev/null; then
    for size in whole half; do
        valgrind --tool=callgrind --callgrind-out-file="$work/$size.calls" "$program" build --out "$work/out" --cert "$work/cert" "$work/$size" >/dev/null 2>&1
    done
    echo "instructions in millions: whole, half, share, ratio"
    python3 where.py "$work/whole.calls" "$work/half.calls"
fi
