#!/bin/sh
# run.sh DIR COMMAND..: runs the cases that `porting/check --extract DIR` wrote, and judges them as porting/conformance/FORMAT.md says.
# The status is 0 if all is as it should be.
dir=$1 count=0 wrong=0
shift

same() {    # whether a file of the case is as it should be; if the expected one isn't there, any will do
  [ ! -f "$case/$1" ] || cmp -s "$case/$1" "$case/$2"
}

for case in "$dir"/[0-9]*; do
  [ ! -f "$case/NEEDS" ] || [ -e "$(cat "$case/NEEDS")" ] || continue
  out=W0
  [ ! -f "$case/STDOUT" ] || out=$(cat "$case/STDOUT")
  for n in '' 2; do
    [ -f "$case/ARGS$n" ] || continue
    count=$((count + 1)) right=yes
    # The arguments are the lines of a file.
    (cd "$case" && IFS='
' && set -f && "$@" $(cat "ARGS$n") < I0 > "$out" 2> WE; echo $? > WS)
    head -n 1 "$case/WE" > "$case/WL"
    for pair in "STATUS$n WS" "SAID$n WL" "O0$n W0" "O1$n W1" "O2$n W2" "O3$n W3"; do
      same ${pair% *} ${pair#* } || right=no
    done
    [ $right = yes ] || { wrong=$((wrong + 1)); echo "wrong: ${case##*/}$n"; }
  done
done
echo "$count trials, $wrong wrong"
[ $wrong = 0 ]
