#!/bin/sh
# Prints a script of so many fills (10000 where none is given) between traders of 64 accounts, under the policy that
# `make-readers.sh policy READERS` prints: so many readers, at most 64 (64 where none is given), each with all 64 accounts.
# Traders sell and buy a share in turn, so that every second order is a fill with the one before it. With a second
# number the script ends with the streams of so many readers. Run as make-readers.sh [FILLS [READERS]].
if [ "$1" = policy ]; then
    exec awk -v readers="${2:-64}" 'BEGIN {
        print "version = 1\nsession = \"GATE01\""
        for (a = 0; a < 64; a++) printf "\n[[account]]\nname = \"A%02d\"\nfirm = \"F%02d\"\n", a, a
        print "\n[[stock]]\nname = \"TEST\"\nreference = 100000"
        for (a = 0; a < 64; a++)
            printf "\n[[user]]\nname = \"T%02d\"\npassword = \"P%02d\"\nrole = \"trader\"\naccount = \"A%02d\"\n", a, a, a
        for (r = 0; r < readers; r++) {
            printf "\n[[user]]\nname = \"R%02d\"\npassword = \"P%02d\"\nrole = \"reader\"\naccounts = [", r, r
            for (a = 0; a < 64; a++) printf "%s\"A%02d\"", a ? ", " : "", a
            print "]"
        }
    }'
fi
awk -v fills="${1:-10000}" -v streams="${2:-0}" 'BEGIN {
    for (user = 0; user < 64; user++) printf "1 T%02d login P%02d 1\n", user, user
    for (i = 1; i <= fills; i++) {
        printf "%d T%02d enter S%d S 1 TEST 10000 99999\n", i, i % 64, i
        print i, "match"
        printf "%d T%02d enter B%d B 1 TEST 10000 99999\n", i, (i + 1) % 64, i
        print i, "match"
    }
    for (reader = 0; reader < streams; reader++) printf "stream R%02d\n", reader
}'
