#!/usr/bin/env bash
# bench/interpret/run.sh [REPEAT]: how long `bcpl interpret` takes beside `bcpl run` on the image of the same source, for the five programs
# of programs/, which are those of bench/machine in BCPL with fewer turns. Runs of the two take turns, and the best processor time of REPEAT
# (5) counts; what both write is compared.
set -eu
here=$(cd "$(dirname "${BASH_SOURCE[0]}")" && pwd)
program=${BCPL:-$("$here/../../bcpl" --which)}
exec python3 "$here/times.py" "${1:-5}" "$program"
