#!/bin/sh
# Builds what `bcpl convert --project` wrote here. The variable BCPL names the compiler, by a path from the root; the default is bcpl.
cd "$(dirname "$0")" || exit
unbuilt=
failed() { unbuilt="$unbuilt $1"; }
"${BCPL:-bcpl}" build --library ext --out 'table.int' --get 'clihdr.h=clihdr.h' --get 'CLIHDR=clihdr.h' --get 'BCPL.CLIHDR=clihdr.h' 'errors.b' 'table.b' || failed 'table.int'
"${BCPL:-bcpl}" build --library ext --out 'type.int' --get 'clihdr.h=clihdr.h' --get 'CLIHDR=clihdr.h' --get 'BCPL.CLIHDR=clihdr.h' 'errors.b' 'type.bcpl' || failed 'type.int'
test -z "$unbuilt" || { printf 'build.sh: not built:%s\n' "$unbuilt" >&2; exit 1; }
