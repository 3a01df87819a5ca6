# For the scripts of the folders beside, which source it in their own folder: a bench's program is built in a workspace of
# its own outside the repository, with copies of the crates, since it is no crate of the repository.
# shellcheck shell=bash

# make_workspace NAME SOURCE LIBRARY..: the workspace of the program NAME, whose text is the file SOURCE, over these
# libraries: in $BENCH_WORK, or else in a folder of the system's for temporary files. Sets `work`, its folder, and `program`.
# What is proved of the crates in the repository is not proved again.
make_workspace() {
    local name=$1 source=$2 top crate part
    shift 2
    top=$(cd ../.. && pwd)
    work=${BENCH_WORK:-${TMPDIR:-/tmp}/${name//_/-}}
    program="$work/crates/$name/out/$name"
    mkdir -p "$work/crates/$name/src" "$work/crates/$name/specs"
    cp "$source" "$work/crates/$name/src/main.rt"
    touch "$work/crates/$name/specs/Lib.antt"
    cp "$top/HANDLES" "$work/"
    crates_below "$top/crates.txt" "$@" >"$work/crates.txt"
    for crate in $(cut -d: -f1 "$work/crates.txt"); do
        mkdir -p "$work/crates/$crate/out"
        for part in src specs proofs; do
            rm -rf "$work/crates/$crate/$part"
            if [ -d "$top/crates/$crate/$part" ]; then cp -r "$top/crates/$crate/$part" "$work/crates/$crate/"; fi
        done
        copy_proved "$top/crates/$crate/out/rlib" "$work/crates/$crate/out/rlib"
    done
    echo "$name: $*" >>"$work/crates.txt"
}

# crates_below FILE LIBRARY..: the lines of that crates.txt of these libraries and of all below them.
crates_below() {
    local file=$1
    shift
    awk -F: -v wanted="$*" '
        { line[$1] = $0; parts[$1] = $2; order[NR] = $1 }
        END {
            left = split(wanted, stack, " ")
            while (left > 0) {
                name = stack[left--]
                if (!(name in line) || name in seen) { continue }
                seen[name] = 1
                count = split(parts[name], below, " ")
                for (k = 1; k <= count; k++) { stack[++left] = below[k] }
            }
            for (k = 1; k <= NR; k++) { if (order[k] in seen) { print line[order[k]] } }
        }' "$file"
}

# copy_proved FROM TO: what the repository's own checks built of a crate, where it is there and another.
copy_proved() {
    if [ -f "$1/stamp" ] && ! cmp -s "$1/stamp" "$2/stamp"; then
        rm -rf "$2"
        # Links do where both are on one disk: what is built is replaced, and never written to.
        cp -rl "$1" "$2" 2>/dev/null || { rm -rf "$2" && cp -r "$1" "$2"; }
    fi
}

# build_program: proves and builds the program, and runs it once on standard input.
build_program() {
    (cd "$(dirname "$(dirname "$program")")" && rt run >"$work/log" 2>&1) || { cat "$work/log"; exit 1; }
}
