# A program that starts with a standard descriptor closed: no file that it opens takes the descriptor's place.
. "$(dirname "$0")/../preamble.sh"
needs_program
cat >"$room/s" <<'END'
add set ip t s { type inet_service ; }
add element ip t s { 80 }
END
echo "ip t s 80" >"$room/keys"

# Runs the program with what the words close, and compares its standard output and its status.
expect() { # OUTPUT STATUS WORDS ..
    wanted=$1 status=$2
    shift 2
    got=$(sh -c "$*" 2>/dev/null; echo "status $?")
    [ "$got" = "$wanted${wanted:+
}status $status" ] || complain "$*: $got"
}

cd "$room" || exit 1
expect "pipapo: read fault: -" 5 "'$program' list - <&-"
expect "pipapo: read fault: -" 5 "'$program' run s - <&-"
expect "pipapo: read fault: -" 5 "'$program' run - keys <&-"
expect "" 6 "'$program' run s keys >&-"
expect "commit generation 1 purged 0
packet 0 thread 0 generation 1 element 0" 0 "'$program' run s keys 2>&-"
expect "commit generation 1 purged 0
packet 0 thread 0 generation 1 element 0" 0 "'$program' run s keys <&- 2>&-"
expect "" 6 "'$program' run s keys <&- >&- 2>&-"
finish
