#!/bin/sh
# Prints what a line of a script and a packet of a connection cost, in instructions as valgrind's callgrind counts them:
# of a run of 10000, or of as many as it is told, less those of a run of none, which reads the same policy. Run as
#
#   bench/count-instructions.sh [COUNT [GATE]]
#
# GATE: the built program; where none is named, crates/gate/out/gate of this repository.
set -e
here=$(cd "$(dirname "$0")" && pwd)
count=${1:-10000}
gate=${2:-$here/../crates/gate/out/gate}
command -v valgrind > /dev/null || { echo "count-instructions needs valgrind" >&2; exit 1; }
work=$(mktemp -d)
trap 'rm -r "$work"' EXIT

# How many instructions the gate takes for what it reads.
instructions() {
    valgrind --tool=callgrind --callgrind-out-file=/dev/null "$gate" "$@" 2>&1 > /dev/null | sed -n 's/.*Collected : //p'
}
# Prints what one of them costs: its name, the gate's command, and the files of the policy and of the input.
each() {
    all=$(instructions "$2" --policy "$3" < "$4")
    none=$(instructions "$2" --policy "$3" < /dev/null)
    echo "$1: $(((all - none) / count))"
}
"$here/make-figures.sh" policy plain > "$work/plain.toml"
"$here/make-figures.sh" policy 8 1000 > "$work/wide.toml"
"$here/make-figures.sh" "$count" > "$work/script.txt"
"$here/make-packets.sh" policy > "$work/packets.toml"
"$here/make-packets.sh" "$count" > "$work/packets.bin"
each "a line under two rules" script "$work/plain.toml" "$work/script.txt"
each "a line under 128 rules, 16 for each account" script "$work/wide.toml" "$work/script.txt"
each "a packet of a connection under 12 rules" pipe "$work/packets.toml" "$work/packets.bin"
