#!/bin/sh
# Builds what `bcpl convert --project` wrote here. The variable BCPL names the compiler, by a path from the root; the default is bcpl.
cd "$(dirname "$0")" || exit
unbuilt=
failed() { unbuilt="$unbuilt $1"; }
"${BCPL:-bcpl}" build --library ext --out 'main.int' --get 'rfhdr=rfhdr' --get 'RFHDR.H=rfhdr' --get 'RFHDR=rfhdr' 'OUTPUT.B' 'blanks.b' 'centre.b' 'commands.b' 'input.b' 'main.b' 'numbers.b' 'symbols-1.b' 'symbols-2.b' 'symbols-3.b' 'words.b' || failed 'main.int'
test -z "$unbuilt" || { printf 'build.sh: not built:%s\n' "$unbuilt" >&2; exit 1; }
