#!/usr/bin/env bash
# The time of the first `select` of a process, and of `select`, `rows`, `is_derivation` and `code_of`, on roots of a thousand to a million
# nodes: sums to the left, quotients to the right, balanced products, and calls in calls. Prints millions of nodes a second for each, and how
# many times as long twice the nodes take: the largest, over the sizes, of what it mostly is. All of it three times: as the C library asks for
# memory, of which a first call gets all new from the system, zeroed, and a further one what is over 32 MB in one piece; with memory that was
# used before; and with such memory in pages of 2 MB, so that it does not count how many pages the processor knows the addresses of.
set -eu
cd "$(dirname "$0")"
. ../workspace.sh
make_workspace select_bench select.rt.in anyhow bc_core bc_rules bc_select bc_word bc_select_defs
echo '0 10' | build_program

# The trees are walked by recursion, to their depth.
ulimit -s unlimited
echo "As the C library requests memory: in a first call all of it comes new from the system, zeroed; in a further one what is large."
python3 against_sizes.py "$program"
echo "With memory that the C library keeps from call to call:"
kept=glibc.malloc.mmap_max=0:glibc.malloc.trim_threshold=17179869184
GLIBC_TUNABLES=$kept python3 against_sizes.py "$program"
echo "The same, in pages of 2 MB:"
GLIBC_TUNABLES=$kept:glibc.malloc.hugetlb=1 python3 against_sizes.py "$program"
