#!/bin/sh
# Prints so many packets (10000 where none is given) that a trader sends on one connection: a login, and then, in rounds
# of four, he buys, sells, replaces the sell and cancels the buy, at prices that never meet. `make-packets.sh policy`
# prints its policy, with a rule of each of the twelve kinds, of which none forbids him anything. Run as
# make-packets.sh [PACKETS].
if [ "$1" = policy ]; then
    exec awk 'BEGIN {
        print "version = 1\nsession = \"GATE01\""
        print "\n[[account]]\nname = \"ALFA\"\nfirm = \"ALF\""
        print "\n[[stock]]\nname = \"TEST\"\nreference = 100000"
        print "\n[[stock]]\nname = \"NONE\"\nreference = 100000"
        print "\n[[user]]\nname = \"ALICE\"\npassword = \"apple\"\nrole = \"trader\"\naccount = \"ALFA\""
        kinds = split("halt restricted no_short no_iso odd_lot order_shares order_value collar gross_shares gross_value rate repeat", kind, " ")
        for (i = 1; i <= kinds; i++) {
            of = kind[i]
            printf "\n[[rule]]\nname = \"R%d\"\nkind = \"%s\"\n", i, of
            if (of == "halt" || of == "restricted") print "stocks = [\"NONE\"]"
            if (of ~ /^order/ || of ~ /^gross/) print "limit = 9000000000000000000"
            if (of == "collar") print "limit = 2000"
            if (of == "rate") print "limit = 4096\nwindow = 1000000"
            if (of == "repeat") print "limit = 64\nspan = 64"
            if (of ~ /^gross/ || of == "rate" || of == "repeat") print "count = \"each\""
        }
    }'
fi
awk -v packets="${1:-10000}" 'BEGIN {
    for (byte = 32; byte < 127; byte++) code[sprintf("%c", byte)] = byte
    packet("L" field("ALICE", 6) field("apple", 10) field("", 10) sprintf("%20d", 1), "")
    for (i = 2; i <= packets; i++) {
        round = int((i - 2) / 4)
        price = 90000 - 100 * (round * 61 % 90)
        if (i % 4 == 2) enter("B" round, "B", price)
        else if (i % 4 == 3) enter("S" round, "S", price + 20000)
        else if (i % 4 == 0) replace("S" round, "R" round, price + 20100)
        else packet("UX" field("B" round, 14), number(0))
    }
}
function enter(token, side, price) {
    packet("UO" field(token, 14) side,
        number(100 + round % 7 * 100) text(field("TEST", 8)) number(price) number(99999) text("    YAN") number(0) text("NN"))
}
function replace(token, by, price) {
    packet("UU" field(token, 14) field(by, 14), number(200) number(price) number(99999) text("YN") number(0))
}
# A text, and then the bytes in hexadecimal.
function packet(words, bytes) { printf "%04x%s%s\n", length(words) + length(bytes) / 2, text(words), bytes }
function field(name, width) { return sprintf("%-" width "s", name) }
function number(value) { return sprintf("%08x", value) }
function text(words,    at, hex) {
    hex = ""
    for (at = 1; at <= length(words); at++) hex = hex sprintf("%02x", code[substr(words, at, 1)])
    return hex
}' | xxd -r -p
