#!/bin/sh
# Prints a script of so many lines (10000 where none is given): three logins, and then orders of two traders, with a
# kill and a lift of one trader's account in every hundred lines. It runs under the sample policy. Run as
# make-script.sh [LINES].
awk -v lines="${1:-10000}" 'BEGIN {
    print "1 ALICE login apple 1"
    print "1 BOB login banana 1"
    print "1 OLGA login orange 1"
    for (i = 4; i <= lines; i++) {
        if (i % 100 == 50) print i, "OLGA kill K" i, "ALFA"
        else if (i % 100 == 60) print i, "OLGA lift L" i, "ALFA"
        else if (i % 2) print i, "ALICE enter T" i, "B 100 TEST 100000 99999"
        else print i, "BOB enter T" i, "S 100 TEST 100000 99999"
    }
}'
