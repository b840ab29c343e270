#!/bin/sh
# Builds the proved program of crates/cb_bench and runs it: the outputs of adders in the order of their ports, eight
# and nine queens, and multipliers. Where BuDDy is installed (libbdd-dev) it builds the same diagrams in the same run,
# and the ratio of the times is printed. Each time is the best of three. Behind them come the circuits of circuits.sh.
set -e
here=$(cd "$(dirname "$0")" && pwd)
(cd "$here/../crates/cb_bench" && rt run >/dev/null)
ours="$here/../crates/cb_bench/out/cb_bench"
scratch=$(mktemp -d)
trap 'rm -rf "$scratch"' EXIT
theirs=
if cc -O2 -o "$scratch/buddy" "$here/buddy.c" -lbdd 2>/dev/null; then
    theirs="$scratch/buddy"
else
    echo "BuDDy isn't installed: no comparison"
fi

# The line of the fastest of three runs of the program $1 with the words after it.
best() {
    for _ in 1 2 3; do "$@"; done | sort -t, -k2,2 -n | head -1
}

# The microseconds of a line.
micros() {
    echo "$1" | sed 's/.* nodes, \([0-9]*\) us.*/\1/'
}

while read -r what size; do
    mine=$(best "$ours" "$what" "$size")
    echo "$mine"
    if [ -n "$theirs" ]; then
        other=$(best "$theirs" "$what" "$size")
        echo "  BuDDy: $other"
        echo "  time here / time of BuDDy: $(echo "$(micros "$mine") $(micros "$other")" | awk '{ printf "%.2f", $1 / $2 }')"
    fi
done <<'CASES'
adder 16
adder 32
adder 64
queens 8
queens 9
multiplier 10
multiplier 11
CASES

# Everyday circuits, by the whole program.
"$here/circuits.sh"
