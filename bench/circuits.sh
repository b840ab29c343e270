#!/bin/bash
# Compares everyday circuits whose ports stand bus after bus, as bench/circuits.py writes them: with the proved program of
# crates/chipbool, or with the one whose path is the first word; with BuDDy over the same nets in the same order of levels
# and with a level for each port, where it is installed (libbdd-dev); and with `cec` of ABC, where that is installed
# (berkeley-abc). A time is the processor seconds of a whole run, the best of three; `-` stands where a run took more than
# the limit, `?` where it didn't answer. The last column is the time of the program where a gate of the circuit is wrong.
here=$(cd "$(dirname "$0")" && pwd)
limit=${LIMIT:-30}
ours=${1:+$(realpath "$1")}
if [ -z "$ours" ]; then
    (cd "$here/../crates/chipbool" && rt run -- check >/dev/null 2>&1)
    ours="$here/../crates/chipbool/out/chipbool"
fi
scratch=$(mktemp -d)
trap 'rm -rf "$scratch"' EXIT
cd "$scratch" || exit 1
cc -O2 -o nets_by_buddy "$here/nets.c" -lbdd 2>/dev/null || echo "BuDDy isn't installed"
abc=$(command -v berkeley-abc || command -v abc) || echo "ABC isn't installed"

# The processor seconds of the best of three runs of the words behind the first, whose output must have the first word.
seconds() {
    wanted=$1
    shift
    best=
    for _ in 1 2 3; do
        TIMEFORMAT='%U %S'
        used=$({ time timeout "$limit" "$@" >printed 2>&1; } 2>&1)
        if [ $? -eq 124 ]; then
            echo -
            return
        elif ! grep -qi "$wanted" printed; then
            echo '?'
            return
        fi
        best=$(echo "$used $best" | awk '{ t = $1 + $2; if (NF > 2 && $3 < t) t = $3; printf "%.3f", t }')
        awk "BEGIN { exit !($best > 3) }" && break
    done
    echo "$best"
}

buddy() {
    if [ -x nets_by_buddy ]; then seconds "$1" ./nets_by_buddy "${@:2}"; else echo ' '; fi
}

printf '%-16s %6s %7s %8s %9s %9s %9s %9s %9s\n' circuit size inputs gates chipbool BuDDy by_ports ABC wrong
python3 "$here/circuits.py" list | while read -r name size; do
    counts=$(python3 "$here/circuits.py" "$name" "$size" right)
    python3 "$here/circuits.py" "$name" "$size" wrong wrong >/dev/null
    inputs=$(echo "$counts" | sed 's/ inputs.*//')
    gates=$(echo "$counts" | sed 's/.* \([0-9]*\) gates/\1/')
    # shellcheck disable=SC2046
    chipbool=$(seconds '^verified\|^same' "$ours" $(sed 's|FILE|right/c.cb|' right/words) </dev/null)
    theirs=$(buddy '^same' right/nets </dev/null)
    by_ports=$(buddy '^same' right/nets ports </dev/null)
    cec=' '
    [ -n "$abc" ] && cec=$(seconds 'are equivalent' "$abc" -q "cec right/one.blif right/two.blif" </dev/null)
    # shellcheck disable=SC2046
    wrong=$(seconds '^differs' "$ours" $(sed 's|FILE|wrong/c.cb|' wrong/words) </dev/null)
    printf '%-16s %6s %7s %8s %9s %9s %9s %9s %9s\n' "$name" "$size" "$inputs" "$gates" "$chipbool" "$theirs" "$by_ports" "$cec" "$wrong"
done
