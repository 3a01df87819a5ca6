#!/usr/bin/env bash
# The time of `parse` and of `spell` over a generated program of almost 60,000 tokens and over one of half as many: the
# best of forty runs of each, taken in turn. Prints the rates and the ratios, then how much stack the deepest
# accepted programs take, and then for how many random programs parser and grammar differ (against_grammar.py).
set -eu
cd "$(dirname "$0")"
. ../workspace.sh
make_workspace parse_bench parse.rt.in anyhow bc_lex bc_parse bc_parse_tree
python3 make_program.py 59900 >"$work/whole"
python3 make_program.py 29950 >"$work/half"
build_program <"$work/half"

best="0 0 0 0"
for _ in $(seq 40); do
    best=$(echo "$best $("$program" <"$work/whole") $("$program" <"$work/half")" | awk '{
        split("5 9 7 11", at); for (k = 1; k <= 4; k++) { new = $(at[k]); old = $k; printf "%d ", (old == 0 || new < old) ? new : old } }')
done
tokens=$("$program" <"$work/whole" | cut -d' ' -f2)
echo "$best $tokens" | awk '{
    printf "%d tokens: parse %.1f million tokens/s, twice the tokens take %.2f times as long; spell %.1f million tokens/s, %.2f times\n", $5, $5 * 1000 / $1, $1 / $2, $5 * 1000 / $3, $3 / $4 }'
fits() {
    (ulimit -s "$1" && exec "$program" <"$work/deep") >/dev/null
}

# The least stack of a few that the deepest programs of some kinds are parsed and spelled in.
for deep in "nested 197" "brackets 400" "blocks 197" "constants 196" "loops 197"; do
    # The words are split on purpose.
    # shellcheck disable=SC2086
    python3 make_program.py $deep >"$work/deep"
    for stack in $(seq 128 64 1280) 8192; do
        if fits "$stack" 2>/dev/null; then
            echo "$deep: $stack KB of stack"
            break
        fi
    done
done

python3 against_grammar.py "$program" 1 2000
