# The program's help and its manual page: the same help by each of its words, a command for each form of the usage line, and the
# page's syntax, its parts and its example. checks/cases/commands.sh compares what they name.
. "$(dirname "$0")/../preamble.sh"
needs_program
page=docs/pipapo.1

# Keeps what the program writes in a file of the room. It has to come with status 0 and nothing on the standard error.
writes() { # FILE WORDS ..
    file=$room/$1
    shift
    "$program" "$@" >"$file" 2>"$room/error"
    status=$?
    [ "$status" -eq 0 ] || complain "pipapo $* has the status $status"
    [ -s "$file" ] || complain "pipapo $* writes nothing"
    [ ! -s "$room/error" ] || complain "pipapo $* writes to the standard error"
}
writes help --help
for word in help -h; do
    writes same "$word"
    cmp -s "$room/help" "$room/same" || complain "$word writes something else than --help"
done
writes version --version
grep -qx 'pipapo [0-9.]*' "$room/version" || complain "--version writes no version"

"$program" >"$room/usage"
[ $? -eq 2 ] || complain "no words aren't answered with status 2"
sed 's/^pipapo: usage: //; s/ | /\n/g' "$room/usage" >"$room/forms"
while read -r form; do
    command=${form%% *}
    writes page help "$command"
    for option in --help -h; do
        writes same "$command" "$option"
        cmp -s "$room/page" "$room/same" || complain "$command $option writes something else than help $command"
    done
    # its words are a command, with each of its options: a file that isn't there has the status 5
    words=$(echo "$form" | tr -d '[]' | sed 's/ N / 2 /; s/ N$/ 2/; s/SEED/1/; s/[A-Z][A-Z]*/1/g')
    # shellcheck disable=SC2086
    (cd "$room" && "$program" $words >/dev/null 2>&1 </dev/null)
    [ $? -ne 2 ] || complain "$words are no command"
done <"$room/forms"
# (in Markdown a bar in a table is escaped)
sed 's/^/`/; s/ | / \\| /g; s/$/`/' "$room/usage" | grep -qFf - docs/formats.md || complain "docs/formats.md hasn't the usage line"

# the page: its syntax, its parts, and its example on the program
checked=
if has man; then
    said=$(LC_ALL=C.UTF-8 man --warnings -E UTF-8 -Tutf8 -Z -l "$page" 2>&1 >/dev/null)
    [ -z "$said" ] || complain "$page: $said"
    checked=yes
fi
if has mandoc; then
    said=$(mandoc -T lint -W warning "$page")
    [ -z "$said" ] || complain "$page: $said"
    checked=yes
fi
[ -n "$checked" ] || skip_part "the page's syntax, since neither man nor mandoc is installed"
for part in SYNOPSIS COMMANDS OPTIONS FORMATS "EXIT STATUS" EXAMPLES "DIFFERENCES FROM NFT"; do
    grep -qx "\.SH $part" "$page" || complain "$page has no part $part"
done
sed -n '/^\.SH SYNOPSIS$/,/^\.SH DESCRIPTION$/p' "$page" | sed 's/\\-/-/g' >"$room/synopsis"
for word in help --help -h --version; do
    grep -q -e "$word" "$room/synopsis" || complain "the synopsis of $page doesn't name $word"
done
# the lines of the example between its commands
shown() {
    sed -n '/^\.nf$/,/^\.fi$/p' "$page" | sed '/^\./d; s/\\-/-/g' | awk -v command="\$ $1" '/^\$/ { on = $0 == command; next } on'
}
shown "cat allow.nft" >"$room/allow.nft"
shown "cat packets.keys" >"$room/packets.keys"
shown "pipapo run allow.nft packets.keys" >"$room/wanted"
(cd "$room" && "$program" run allow.nft packets.keys) >"$room/written"
if [ ! -s "$room/wanted" ] || ! cmp -s "$room/wanted" "$room/written"; then
    complain "the example of $page writes"
    cat "$room/written"
fi
finish
