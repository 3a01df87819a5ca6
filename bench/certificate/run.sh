#!/usr/bin/env bash
# bench/certificate/run.sh [PROGRAM]: the time of `write_cert` over a certificate of 48 MB, and of `bcpl check` over one of 50 MB, the entries of a
# generated program over and over; and over one of half as many entries each: the best of ten runs, taken in turn. Prints the rates and the
# ratios. PROGRAM is the built program (that of ./bcpl, if left out).
set -eu
if [ $# -gt 0 ]; then set -- "$(realpath "$1")"; fi
cd "$(dirname "$0")"
if [ $# -gt 0 ]; then
    bcpl=$1
else
    bcpl=$(../../bcpl --which)
fi
. ../workspace.sh
make_workspace write_bench write.rt.in anyhow bc_cert_write bc_rules_defs bc_core bc_word
echo 10 | build_program

best="0 0 0"
for _ in $(seq 10); do
    best=$(echo "$best $(echo 10000 | "$program") $(echo 5000 | "$program")" | awk '{
        printf "%d %d %d", ($1 == 0 || $5 < $1) ? $5 : $1, ($2 == 0 || $7 < $2) ? $7 : $2, $4 }')
done
echo "$best" | awk '{
    printf "%d bytes: %.1f MB/s, twice the entries take %.2f times as long\n", $3, $3 * 1000 / $1, $1 / $2 }'

python3 ../build/make_program.py 29950 >"$work/source"
"$bcpl" build --out "$work/text" --cert "$work/built" "$work/source" >/dev/null
python3 make_certificate.py "$work/built" 50000000 >"$work/whole"
python3 make_certificate.py "$work/built" 25000000 >"$work/half"
python3 check_times.py "$bcpl" "$work/whole" "$work/half"
