#!/bin/sh
# Prints a script of about so many lines (10000 where none is given) in which ALICE enters orders of a stock that no list
# has. `make-lists.sh policy RULES STOCKS` prints its policy: so many rules, at most 128, each second one a list of so many
# stocks, at most 1023. Run as make-lists.sh [LINES].
if [ "$1" = policy ]; then
    exec awk -v rules="${2:-128}" -v stocks="${3:-1023}" 'BEGIN {
        print "version = 1\nsession = \"GATE01\""
        print "\n[[account]]\nname = \"ALFA\"\nfirm = \"ALF\""
        print "\n[[stock]]\nname = \"FREE\"\nreference = 100000"
        for (s = 0; s < stocks; s++) printf "\n[[stock]]\nname = \"S%d\"\nreference = 100000\n", s
        print "\n[[user]]\nname = \"ALICE\"\npassword = \"APPLE\"\nrole = \"trader\"\naccount = \"ALFA\""
        for (r = 0; r < rules; r++) {
            printf "\n[[rule]]\nname = \"R%d\"\n", r
            if (r % 2) { print "kind = \"order_shares\"\nlimit = 999999"; continue }
            printf "kind = \"restricted\"\nstocks = ["
            for (s = 0; s < stocks; s++) printf "%s\"S%d\"", s ? ", " : "", s
            print "]"
        }
    }'
fi
awk -v lines="${1:-10000}" 'BEGIN {
    print "1 ALICE login APPLE 1"
    for (i = 2; i <= lines; i++) print i, "ALICE enter A" i, "B 1 FREE 10000 99999"
}'
