#!/bin/sh
# Prints a script of so many orders (10000 where none is given) that rest and are swept: 200 traders log in and enter
# them in turn, in rounds of up to 44000. Ten in eleven orders of a round sell one share each, at 1000 prices of each
# of four stocks, and come to rest; the others then buy ten shares each, immediate-or-cancel, at the highest of these
# prices, and take them. A settle stands behind every 100 orders, and behind either part of a round. It runs under
# day-policy.toml. Run as make-sweep.sh [ORDERS].
awk -v orders="${1:-10000}" 'BEGIN {
    for (user = 1; user <= 200; user++) printf "1 T%03d login P%03d 1\n", user, user
    for (i = 0; i < orders; i += size) {
        size = orders - i < 44000 ? orders - i : 44000
        sells = int(size * 10 / 11)
        for (k = 0; k < size; k++) {
            number = i + k + 1
            user = (number - 1) % 200 + 1
            if (k < sells) terms = sprintf("S 1 TEST%d %d 99999", k % 4 + 1, 100000 + 100 * (int(k / 4) * 919 % 1000))
            else terms = sprintf("B 10 TEST%d 199900 0", k % 4 + 1)
            printf "%d T%03d enter N%d %s\n", number, user, number, terms
            if ((k + 1) % 100 == 0 || k + 1 == sells || k + 1 == size) print number, "settle"
        }
    }
}'
