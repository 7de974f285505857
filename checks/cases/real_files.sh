# The program on real files and the real standard output and input: what comes of files and writes that fail.
. "$(dirname "$0")/../preamble.sh"
needs_program
cp examples/allow/allow.nft examples/allow/packets.keys "$room"
mkdir "$room/a-folder"
cd "$room" || exit 1
expect() { # STATUS LINE WORDS..
    status=$1
    line=$2
    shift 2
    written=$("$program" "$@" 2>/dev/null; echo "status $?")
    if [ "$written" != "$(printf '%s\nstatus %s' "$line" "$status")" ]; then
        echo "pipapo $*: wrote"
        echo "$written"
        bad=1
    fi
}
usage='pipapo: usage: run SCRIPT KEYS [--threads N] [--keep-going] [--sets] [--elements] | list SCRIPT [--keep-going] [--sets] [--json] | dump SCRIPT [--keep-going] [--sets] | drill SEED COUNT [--threads N] | judge SCRIPT RULES KEYS [--threads N] [--keep-going] [--sets] | judge SCRIPT RULES PLAN PCAP [--threads N] [--keep-going] [--sets] | capture SCRIPT PLAN PCAP [--threads N] [--keep-going] [--sets] [--elements] | desk SCRIPT [--keep-going] [--sets] | get [--at MOMENT] [--keep-going] [--sets] SCRIPT [FAMILY] TABLE SET VALUE . VALUE .. | explain SCRIPT KEYS [--keep-going] [--sets] | compare SCRIPT1 SCRIPT2 [--keep-going] [--sets] | stat SCRIPT [--keep-going] [--sets] | sets RULESET'
expect 5 'pipapo: read fault: missing.nft' run missing.nft packets.keys
expect 5 'pipapo: read fault: missing.keys' run allow.nft missing.keys
expect 5 'pipapo: read fault: a-folder' run a-folder packets.keys
# its first page isn't mapped, so a read fails
expect 5 'pipapo: read fault: /proc/self/mem' run /proc/self/mem packets.keys
expect 2 "$usage"
expect 2 "$usage" run allow.nft "$(printf '\377')"
# the standard input by the name -, as either file, even if a file has that name
echo 'no script' >-
"$program" run allow.nft packets.keys >wanted
"$program" run - packets.keys <allow.nft | cmp - wanted || bad=1
"$program" run allow.nft - <packets.keys | cmp - wanted || bad=1
for names in 'run - -' 'judge - allow.nft -' 'judge allow.nft - -' 'capture - - allow.nft'; do
    expect 2 "$usage" $names
done
expect 5 'pipapo: read fault: -' list - <a-folder
echo 'add nothing' >bad.nft
expect 3 'pipapo: script line 1: statement' list - <bad.nft
# the files are read in the order of their names, each only if those before it are accepted
echo 'chain main { in ip filter allowed accept } ; policy drop' >good.rules
echo 'chain main { jump main } ; policy drop' >bad.rules
echo 'ip filter allowed ip_saddr . dport' >source.plan
echo 'ip filter allowed dport . ip_saddr' >bad.plan
echo 'no capture' >bad.pcap
expect 3 'pipapo: script line 1: statement' judge bad.nft missing.rules missing.keys
expect 5 'pipapo: read fault: missing.rules' judge allow.nft missing.rules missing.keys
expect 9 'pipapo: rules line 1: statement' judge allow.nft bad.rules missing.keys
expect 9 'pipapo: rules line 1: statement' judge allow.nft - missing.keys <bad.rules
expect 5 'pipapo: read fault: missing.keys' judge allow.nft good.rules missing.keys
expect 5 'pipapo: read fault: missing.plan' capture allow.nft missing.plan missing.pcap
expect 11 'pipapo: plan line 1: type' capture allow.nft bad.plan missing.pcap
expect 5 'pipapo: read fault: missing.pcap' capture allow.nft source.plan missing.pcap
expect 10 'pipapo: capture byte 0: magic' capture allow.nft source.plan bad.pcap
# more sections than there may be control threads
{ cat allow.nft; for n in 1 2 3 4 5 6 7 8 9 10 11 12 13 14 15 16 17; do echo round; done; } >many.nft
expect 12 'pipapo: too many clerks: many.nft' desk many.nft
# a named pipe, and a pipe of single bytes
mkfifo pipe
cat allow.nft >pipe &
"$program" run pipe packets.keys | cmp - wanted || { echo "a named pipe isn't read whole"; bad=1; }
dd if=allow.nft bs=1 2>/dev/null | "$program" run - packets.keys | cmp - wanted || { echo "single bytes aren't read whole"; bad=1; }
# the greatest size, one byte more, and a file without an end
{ printf '#'; head -c 67108863 /dev/zero | tr '\0' '#'; } >greatest.nft
{ cat greatest.nft; printf '#'; } >greater.nft
[ -z "$("$program" list greatest.nft || echo "status $?")" ] || { echo "a file of the greatest size isn't read"; bad=1; }
expect 8 'pipapo: too large: greater.nft' list greater.nft
expect 8 'pipapo: too large: /dev/zero' list /dev/zero
rm greatest.nft greater.nft
# a file that grows meanwhile is read as far as it is, or is too large
echo '# more' >growing.nft
(while echo '# more'; do :; done) >>growing.nft 2>/dev/null &
grows=$!
"$program" list growing.nft >written
status=$?
# (a trap of this shell may still catch a TERM there)
kill -KILL $grows
wait $grows 2>/dev/null
case $status in
0) [ -s written ] && { echo "a growing file: wrote"; cat written; bad=1; } ;;
8) [ "$(cat written)" = 'pipapo: too large: growing.nft' ] || { echo "a growing file: wrote"; cat written; bad=1; } ;;
*) echo "a growing file: status $status"; bad=1 ;;
esac
rm growing.nft
# a file that may not be read
if [ "$(id -u)" -eq 0 ]; then
    skip_part "a file without the permission, since root may read all"
else
    cp allow.nft secret.nft
    chmod 000 secret.nft
    expect 5 'pipapo: read fault: secret.nft' list secret.nft
fi
# a reader that leaves, an output that may not grow, and no number left for a file
{ echo 'add set ip t p { type inet_service ; }'; n=0; while [ $n -lt 20000 ]; do echo "add element ip t p { $n }"; n=$((n + 1)); done; } >long.nft
{ "$program" list long.nft; echo $? >status; } | head -c 10 >/dev/null
[ "$(cat status)" -eq 6 ] || { echo "a reader that leaves: status $(cat status)"; bad=1; }
(trap '' XFSZ; ulimit -f 16; "$program" list long.nft >written 2>/dev/null)
limited=$?
[ $limited -eq 6 ] || { echo "an output that may not grow: status $limited"; bad=1; }
# a number for one file and no more: the files stay open, so the second one can't be opened
(ulimit -n 4; exec "$program" run allow.nft packets.keys) >written 2>told
numbered=$?
[ $numbered -eq 5 ] && [ "$(cat written)" = 'pipapo: read fault: packets.keys' ] && [ "$(cat told)" = "packets.keys: it can't be read" ] || { echo "no number left for a file: status $numbered"; cat written told; bad=1; }
(ulimit -n 5; exec "$program" run allow.nft packets.keys) | cmp - wanted || { echo "numbers for two files don't do"; bad=1; }
# a line feed in a name: the line has it as it is, and the name is all after the first words; the note is one line
name=$(printf 'x\ncommit generation 1 purged 0')
expect 5 "pipapo: read fault: $name" list "$name"
expect 5 "pipapo: read fault: $name" run allow.nft "$name"
cp many.nft "$name"
expect 12 "pipapo: too many clerks: $name" desk "$name"
told=$("$program" list "$name.nft" 2>&1 >/dev/null)
[ "$told" = 'x\x0acommit generation 1 purged 0.nft: No such file or directory' ] || { echo "a line feed in a name: told"; echo "$told"; bad=1; }
# interrupted while it reads, it has written nothing
mkfifo held
sleep 5 >held &
sleeps=$!
timeout --preserve-status -s INT 1 "$program" list held >written
interrupted=$?
kill $sleeps 2>/dev/null
[ $interrupted -eq 130 ] && [ ! -s written ] || { echo "interrupted: status $interrupted, $(wc -c <written) bytes"; bad=1; }
# a standard output that fails, and what the standard error then says
"$program" run allow.nft packets.keys 2>told >&-
[ "$? $(cat told)" = "6 pipapo: the standard output failed: it can't be written" ] || { echo "a closed standard output: $(cat told)"; bad=1; }
"$program" run allow.nft packets.keys 2>told >/dev/full
[ "$? $(cat told)" = "6 pipapo: the standard output failed: No space left on device" ] || { echo "a full standard output: $(cat told)"; bad=1; }
finish
