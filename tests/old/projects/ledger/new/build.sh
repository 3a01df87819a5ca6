#!/bin/sh
# Builds what `bcpl convert --project` wrote here. The variable BCPL names the compiler, by a path from the root; the default is bcpl.
cd "$(dirname "$0")" || exit
unbuilt=
failed() { unbuilt="$unbuilt $1"; }
"${BCPL:-bcpl}" build --library ext --out 'main.int' --get 'ledger.h=ledger.h' 'input.b' 'main.b' 'report.b' || failed 'main.int'
test -z "$unbuilt" || { printf 'build.sh: not built:%s\n' "$unbuilt" >&2; exit 1; }
