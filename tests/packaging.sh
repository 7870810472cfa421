#!/usr/bin/env bash
# Whether the unit of packaging/ is one that systemd takes, and whether its command does what its comments say, by its parts: with the
# unit's arguments and its umask, in a folder of its own, the server is ended by SIGTERM and started anew, and goes on with
# the same day; what it has written nobody else can read. Run as
#
#   tests/packaging.sh [GATE]
#
# GATE: the built program; where none is named, crates/gate/out/gate of this repository.
set -uo pipefail
top=$(cd "$(dirname "$0")/.." && pwd)
gate=$(realpath "${1:-$top/crates/gate/out/gate}") || exit 2
unit=$top/packaging/gate.service
folder=$(mktemp -d)
trap 'kill $(jobs -p) 2> /dev/null; rm -rf "$folder"' EXIT
bad=0
say() { if [ "$2" = "$3" ]; then echo "$1: as wanted"; else echo "$1: $2, NOT $3"; bad=1; fi; }

mkdir "$folder/etc" "$folder/var"
cp "$top/examples/policies/sample.toml" "$folder/etc/policy.toml"
port=$(python3 -c 'import socket; s = socket.create_server(("127.0.0.1", 0)); print(s.getsockname()[1])')
command=$(sed -n 's/^ExecStart=\/usr\/local\/bin\/gate //p' "$unit")
command=${command//9001/$port}
command=${command//\/etc\/gate/$folder/etc}
command=${command//\/var\/lib\/gate/$folder/var}
read -ra words <<< "$command"

# Starts the server with the unit's umask, and gives an order; then ends it by the unit's signal.
day() {
    (umask "$(sed -n 's/^UMask=//p' "$unit")" && exec "$gate" "${words[@]}" > "$folder/said") &
    for _ in $(seq 100); do grep -q listening "$folder/said" 2> /dev/null && break; sleep 0.05; done
    GATE_PASSWORD=apple timeout 20 "$top/examples/client.py" --port "$port" ALICE "enter $1 B 10 TEST 10.00" 'wait 0.3' logout
    echo "status $?"
    kill -"$(sed -n 's/^KillSignal=SIG//p' "$unit")" %%
    wait %% 2> /dev/null
    : > "$folder/said"
}

day T1 > "$folder/first"
day T2 > "$folder/second"
say 'the first run' "$(tail -n 1 "$folder/first")" 'status 0'
say 'the second run has the reports of the first' "$(grep -c Accepted.T "$folder/second")" 2
say 'the day' "$("$gate" check --policy "$folder/etc/policy.toml" "$folder/var/day.audit")" 'legal 8'
say 'who can read the journal' "$(stat -c %a "$folder/var/day.audit")" 600
if command -v systemd-analyze > /dev/null; then
    # the program and the user need not be there for the unit to be right
    sed "s|^ExecStart=[^ ]*|ExecStart=$gate|; s/^\(User\|Group\)=.*/\1=root/" "$unit" > "$folder/gate.service"
    say 'what systemd says of the unit' "$(systemd-analyze verify "$folder/gate.service" 2>&1 | grep gate.service)" ''
else
    echo 'no systemd-analyze here: the unit itself was not looked at'
fi
exit "$bad"
