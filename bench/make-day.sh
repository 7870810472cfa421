#!/bin/sh
# Prints a script of a long day: 200 traders and an officer log in, and then the traders enter so many orders in turn
# (10000 where none is given), each under a new token, at prices that never meet. With a second number there is a kill
# of an account, and its lift right after, behind every so many orders. It runs under day-policy.toml.
# Run as make-day.sh [ORDERS [BETWEEN]].
awk -v orders="${1:-10000}" -v between="${2:-0}" 'BEGIN {
    print "1 OLGA login orange 1"
    for (user = 1; user <= 200; user++) printf "1 T%03d login P%03d 1\n", user, user
    for (i = 1; i <= orders; i++) {
        side = i % 2 ? "B" : "S"
        price = i % 2 ? 99000 : 101000
        printf "%d T%03d enter N%d %s 100 TEST%d %d 99999\n", i, (i - 1) % 200 + 1, i, side, (i - 1) % 4 + 1, price
        if (between > 0 && i % between == 0) {
            account = sprintf("A%02d", (i / between - 1) % 50 + 1)
            print i, "OLGA kill K" i, account
            print i, "OLGA lift L" i, account
        }
    }
}'
