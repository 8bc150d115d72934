#!/usr/bin/env bash
# Prints which hart came first: the rows of all harts that ask something of the machine (they access
# memory, call the system or fault), in the order of their turns, each after its turn's number.
#
# examples/turns.sh LOG ELF BOOK
#
# BOOK has a byte for each turn, the number of the hart that took it. A hart's turn ends with one such
# row; or with none, where its interval was full or it came to its limit: then with the reason. What
# the log has of a hart is of its last turns, so the earlier ones are left out.
set -eu
zelkuma=$(dirname "$0")/../zelkuma
[ -x "$zelkuma" ] || zelkuma=zelkuma # installed, the examples lie elsewhere
{
    "$zelkuma" list "$1" | while read -r hart interval _; do
        "$zelkuma" replay "$1" "$2" "$hart" "$interval"
    done
    echo turns
    od -An -v -tu1 -w1 "$3"
} | awk '
    /^interval / { hart = $2; asks = 0; next }
    /^end / {
        if (!asks && ($5 == "length" || $5 == "limit")) rows[hart, known[hart]++] = hart " " $4 " " $5
        next
    }
    /^turns$/ { in_turns = 1; next }
    in_turns { order[turns++] = $1; taken[$1]++; next }
    {
        asks = $5 ~ /^(l[bhw]u?|s[bhw]|ecall)$|^(lr|sc)\.|^amo/ || / \| fault /
        if (asks) rows[hart, known[hart]++] = $0
    }
    END {
        for (turn = 0; turn < turns; turn++) {
            hart = order[turn]
            at = known[hart] - taken[hart]--
            if (at >= 0) print turn, rows[hart, at]
        }
    }'
