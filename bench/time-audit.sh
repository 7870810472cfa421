#!/bin/sh
# Tells what the check of an audit takes beside the run that wrote it: `bench/time-audit.sh GATE ORDERS..`, GATE being the built
# program. For each number of orders it runs a script of make-sweep.sh with --audit, and checks the audit; it prints how
# many records there are, and the processor time of the run and of the check for each, in nanoseconds.
gate=$1
shift
here=$(cd "$(dirname "$0")" && pwd)
policy=$here/day-policy.toml
place=$(mktemp -d)
trap 'rm -r "$place"' EXIT

# The processor time of a command, in milliseconds.
spent() {
    ("$@" < "$place/script" > "$place/out"; times) | awk 'NR == 2 {
        for (i = 1; i <= 2; i++) { split($i, part, /[ms]/); all += part[1] * 60 + part[2] }
        printf "%d\n", all * 1000
    }'
}

for orders in "$@"; do
    "$here/make-sweep.sh" "$orders" > "$place/script"
    run=$(spent "$gate" script --policy "$policy" --audit "$place/audit")
    check=$(spent "$gate" check "$place/audit" --policy "$policy")
    records=$(($(wc -c < "$place/audit") / 128 - 1))  # the header is none
    echo "$records records: run $((run * 1000000 / records)) ns, check $((check * 1000000 / records)) ns a record; $(cat "$place/out")"
done
