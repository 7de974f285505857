# A field has at most 1,048,576 rules. Each of these intervals is split into 222 blocks, so 4,723 of them
# are taken (1,048,506 rules), and the next one is refused.
. "$(dirname "$0")/../preamble.sh"
needs_program
# a script of so many intervals, one a line
script() {
    awk -v n="$1" 'BEGIN {
        print "add set ip6 t q { type ipv6_addr ; flags interval ; }"
        for (k = 1; k <= n; k++)
            printf "add element ip6 t q { %x::1-%x:ffff:ffff:ffff:ffff:ffff:ffff:fffe }\n", k, k
    }'
}
cd "$room" || exit 1
expect() { # ELEMENTS STATUS LINES
    script "$1" >rules.nft
    : >packets.keys
    written=$("$program" run rules.nft packets.keys 2>/dev/null; echo "status $?")
    if [ "$written" != "$(printf '%s\nstatus %s' "$3" "$2")" ]; then
        complain "$1 intervals: wrote"
        echo "$written"
    fi
}
expect 4723 0 'commit generation 1 purged 0'
expect 4724 1 'line 4725 refused rules ip6 t q field 0
fail generation 0'
finish
