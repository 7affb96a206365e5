#!/usr/bin/env bash
# Expansion at full size, over the built program acl_expand_bench: for each line the uses of macros or the parts of one run, its
# seconds of processor time without the making and reading of the form, and nanoseconds for each use or part.
#   tools/expansion_bench.sh [PROGRAM]
set -eu
here=$(cd "$(dirname "$0")/.." && pwd)
program=${1:-$here/crates/acl_expand_bench/out/acl_expand_bench}
[ -x "$program" ] || { echo "build it first: rt run in crates/acl_expand_bench" >&2; exit 1; }
TIMEFORMAT='%U %S'

# processor milliseconds of a run with these words
took() {
    { time "$program" "$@" >/dev/null; } 2>&1 | awk '{ printf "%d", ($1 + $2) * 1000 }'
}

# WHAT UNITS TIMES GROUPS PARTS HEAD PART
row() {
    local what=$1 units=$2 times=$3
    shift 3
    local all none
    all=$(took "$times" "$@")
    none=$(took 0 "$@")
    awk -v w="$what" -v u="$units" -v ms=$((all - none)) \
        'BEGIN { printf "%-44s %9d %7.3f s %8.0f ns\n", w, u, ms / 1000, ms * 1000000 / u }'
}

row "uses of (AND X X)" 1000000 500000 2 2 AND X
for head in AND OR LIST +; do
    row "parts of $head, 200 groups of 1,000" 200000 1 200 1000 "$head" X
    row "the same, 10 times" 2000000 10 200 1000 "$head" X
done
row "parts of COND, 200 groups of 1,000" 200000 1 200 1000 COND "(X)"
row "the same, 10 times" 2000000 10 200 1000 COND "(X)"
for head in AND LIST; do
    row "$head of 200,000 parts, too deep" 200000 1 1 200000 "$head" X
done
row "COND of 200,000 parts, too deep" 200000 1 1 200000 COND "(X)"
