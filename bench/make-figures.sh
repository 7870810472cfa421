#!/bin/sh
# Prints a script of about so many lines (10000 where none is given) under rules of each kind: 64 traders log in, and
# then, in rounds of 16 lines, sell, buy, replace, sweep and cancel; nearly all is granted. `make-figures.sh policy` prints
# its policy: 64 accounts and 128 rules of all twelve kinds, of which 16 count shares, 16 value, 16 a rate and 16 repeats,
# half of them each account by itself and half all together; four rates and three repeats are over 4096 orders, the others
# over 64. `make-figures.sh
# policy 8 1000` prints one whose rules each concern every eighth account alone, so that an account is under 16 of them,
# and whose rates and repeats are all of 1000 orders; `make-figures.sh policy plain` one of two rules, each for all: a
# greatest size, and an account's gross value. Run as make-figures.sh [LINES], or make-figures.sh policy [EVERY ORDERS].
if [ "$1" = policy ]; then
    exec awk -v every="${2:-1}" -v orders="${3:-0}" 'BEGIN {
        print "version = 1\nsession = \"GATE01\""
        for (a = 1; a <= 64; a++) printf "\n[[account]]\nname = \"A%02d\"\nfirm = \"F%02d\"\n", a, a
        for (s = 1; s <= 4; s++) printf "\n[[stock]]\nname = \"TEST%d\"\nreference = 100000\n", s
        print "\n[[stock]]\nname = \"NONE\"\nreference = 100000"
        for (a = 1; a <= 64; a++)
            printf "\n[[user]]\nname = \"T%02d\"\npassword = \"P%02d\"\nrole = \"trader\"\naccount = \"A%02d\"\n", a, a, a
        if (every == "plain") {
            limit = "limit = 9000000000000000000"
            print "\n[[rule]]\nname = \"SIZE\"\nkind = \"order_shares\"\n" limit
            print "\n[[rule]]\nname = \"GROSS\"\nkind = \"gross_value\"\n" limit "\ncount = \"each\""
            exit
        }
        kinds = split("halt restricted no_short no_iso odd_lot order_shares order_value collar", kind, " ")
        figures = split("gross_shares gross_value rate repeat", figure, " ")
        for (i = 0; i < 128; i++) {
            of = i % 2 ? figure[int(i / 2) % figures + 1] : kind[int(i / 2) % kinds + 1]
            size = orders ? orders : i % 5 ? 64 : 4096
            printf "\n[[rule]]\nname = \"R%03d\"\nkind = \"%s\"\n", i, of
            if (of == "halt" || of == "restricted") print "stocks = [\"NONE\"]"
            if (of ~ /^order/ || of ~ /^gross/) print "limit = 9000000000000000000"
            if (of == "collar") print "limit = 2000"
            if (of == "rate") printf "limit = %d\nwindow = %d\n", size, int(i / 8) % 2 ? 8 * size : int(size / 4)
            if (of == "repeat") printf "limit = %d\nspan = %d\n", size / 2, size
            if (i % 2) printf "count = \"%s\"\n", int(i / 8) % 2 ? "each" : "together"
            if (every == 1) continue
            printf "accounts = ["
            for (a = 1 + (i + int(i / 8)) % every; a <= 64; a += every) printf "%s\"A%02d\"", (a > every ? ", " : ""), a
            print "]"
        }
    }'
fi
awk -v lines="${1:-10000}" 'BEGIN {
    for (user = 1; user <= 64; user++) printf "1 T%02d login P%02d 1\n", user, user
    for (i = 65; i + 15 <= lines; i += 16) {
        round = int(i / 16)
        stock = "TEST" round % 4 + 1
        a = sprintf("T%02d", round % 64 + 1); b = sprintf("T%02d", (round + 1) % 64 + 1)
        c = sprintf("T%02d", (round + 2) % 64 + 1); d = sprintf("T%02d", (round + 3) % 64 + 1)
        high = 100000 + 100 * (round * 37 % 90); low = 99900 - 100 * (round * 61 % 90)
        print i, a, "enter S" i, "S", 100 + round % 7 * 100, stock, high, 99999
        print i + 1, b, "enter S" i, "S 200", stock, high + 100, 99999
        print i + 2, c, "enter B" i, "B", 300 + round % 5 * 100, stock, low, 99999
        print i + 3, d, "enter B" i, "B 200", stock, low - 100, 99999
        print i + 4, "settle"
        print i + 5, a, "replace S" i, "R" i, 200 + round % 7 * 100, high + 200, 99999
        print i + 6, c, "replace B" i, "C" i, 400 + round % 5 * 100, low + 100, 99999
        print i + 7, "settle"
        print i + 8, d, "enter X" i, "B", 400 + round % 7 * 100, stock, 110000, 0
        print i + 9, "settle"
        print i + 10, c, "cancel C" i, 100
        print i + 11, d, "cancel B" i, 0
        print i + 12, b, "enter Y" i, "S 100", stock, high + 300, 99999
        print i + 13, a, "enter Y" i, "B 100", stock, 110000, 0
        print i + 14, c, "enter Z" i, "B", round % 8 ? 100 : 150, stock, low, 99999
        print i + 15, "settle"
    }
}'
