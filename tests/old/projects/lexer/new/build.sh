#!/bin/sh
# Builds what `bcpl convert --project` wrote here. The variable BCPL names the compiler, by a path from the root; the default is bcpl.
cd "$(dirname "$0")" || exit
unbuilt=
failed() { unbuilt="$unbuilt $1"; }
"${BCPL:-bcpl}" build --lean --out 'lex-3.int' --get 'lex-1.b=lex-1.b' 'lex-2.b' 'lex-3.b' || failed 'lex-3.int'
test -z "$unbuilt" || { printf 'build.sh: not built:%s\n' "$unbuilt" >&2; exit 1; }
