# The command ./pipapo before the program is built: its first answer by a stand-in for the toolchain's command rt
# (checks/scripts/fake_rt), when it builds in place of that, and its statuses. If PIPAPO_FIRST_ANSWER is set, the toolchain's own
# rt gives one first answer, too, which takes minutes.
. "$(dirname "$0")/../preamble.sh"
tree=$room/tree
mkdir -p "$room/bin" "$room/none" "$room/files/sub folder" "$tree/crates/pipapo_cli/src"
cp -R pipapo tools HANDLES "$tree"
echo 'pipapo_cli: itoa' >"$tree/crates.txt"
echo '// a source' >"$tree/crates/pipapo_cli/src/main.rt"
ln -s "$top/checks/scripts/fake_rt" "$room/bin/rt"
FAKE_RT=$room/record
export FAKE_RT FAKE_TRY FAKE_CI
cd "$room/files" || exit 1
echo 'first text' >a.nft
echo 'second text' >'sub folder/b.keys'
echo 'outside' >"$room/outside.nft"

unbuilt() {
    rm -rf "$tree/crates/pipapo_cli/out" "$FAKE_RT"
    FAKE_CI=works
}

# What ./pipapo writes and its status; the standard error goes to the room's file `told`.
expect() { # STATUS LINES WORDS ..
    status=$1
    lines=$2
    shift 2
    written=$(PATH=$room/bin:$PATH "$tree/pipapo" "$@" 2>"$room/told"; echo "status $?")
    if [ "$written" != "$(printf '%sstatus %s' "$lines" "$status")" ]; then
        complain "pipapo $*: wrote"
        echo "$written"
        cat "$room/told"
    fi
}

told() { # TEXT
    grep -qF -- "$1" "$room/told" || complain "the standard error doesn't say: $1"
}

recorded() { # LINES
    [ "$(cat "$FAKE_RT" 2>/dev/null)" = "$1" ] || complain "rt got other words: $(cat "$FAKE_RT")"
}

# without the toolchain
unbuilt
for tool in dirname sh; do
    ln -s "$(command -v "$tool")" "$room/none/$tool"
done
written=$(PATH=$room/none "$tree/pipapo" run a b 2>"$room/told"; echo "status $?")
[ "$written" = 'status 127' ] || complain "without the toolchain: $written"
told toolchain

# names of files in any folder stay as they are, and the program's output, status and notes come unchanged
FAKE_TRY='ended 0'
expect 0 'word run
file a.nft: first text
file ./sub folder/b.keys: second text
word --threads
word 2
' run a.nft './sub folder/b.keys' --threads 2
told 'not proved'
told '--build proves and builds the program'
[ "$(sed 1d "$room/told")" = "$(printf 'a note of the program\nhelp: with two lines')" ] || complain "the notes of the program are others"
expect 0 "word list
file $room/outside.nft: outside
" list "$room/outside.nft"
expect 0 'word list
word missing.nft
' list missing.nft
for status in 1 2 4 5 6 12; do
    FAKE_TRY="ended $status"
    expect "$status" 'word list
file a.nft: first text
' list a.nft
done
FAKE_TRY='ended 0'
expect 0 'word --
word 
' -- ''

# a standard input that pauses is given whole
{ printf 'one '; sleep 3; echo two; } | { expect 0 'word list
input: one two
' list -; exit "$bad"; } || bad=1
recorded_ci=$(grep -c '^ci$' "$FAKE_RT")
[ "$recorded_ci" = 0 ] || complain "a first answer built the program"
[ ! -e "$tree/crates/pipapo_cli/out" ] || complain "a first answer leaves files in the repository"

# names that a checked run can't have: the program is built, and runs
mkfifo pipe
for name in ../outside.nft "sub folder/../a.nft" 'sub folder' pipe stdin ./program/x a.nft/x; do
    unbuilt
    expect 3 "proved: list $name
" list "$name"
    told "'$name'"
    told 'proved and built'
    recorded ci
done
echo text >a=b.nft
unbuilt
expect 3 'proved: list a=b.nft
' list a=b.nft

# no answer: the program is built, and gets the standard input that the first try got
unbuilt
FAKE_TRY=no-answer
echo text | { expect 3 'proved: list -
text
' list -; exit "$bad"; } || bad=1
told 'the program wrote too much'
recorded 'try: no answer
ci'
# built: it runs at once
FAKE_TRY=fault
rm "$FAKE_RT"
expect 3 'proved: list a.nft
' list a.nft
[ ! -s "$room/told" ] || complain "a built program is told of"
expect 0 '' --build
recorded ''
# a source is newer, and --build builds
sleep 1
touch "$tree/crates/pipapo_cli/src/main.rt"
expect 0 '' --build
recorded ci
told '1 of 1 crates'

# what ends with 126
unbuilt
expect 126 '' list a.nft
told 'index is out of range'
FAKE_TRY=refused
expect 126 '' list a.nft
told 'error: no crate'
FAKE_CI=fails
expect 126 '' --build
told 'NOT PROVED'
recorded ci

if [ -z "${PIPAPO_FIRST_ANSWER:-}" ]; then
    skip_part "the toolchain's own first answer, since PIPAPO_FIRST_ANSWER isn't set"
    finish
fi
cd "$top" || exit 1
mkdir "$room/clone"
cp -R pipapo tools HANDLES crates.txt "$room/clone"
for crate in $(tools/needed_crates); do
    mkdir -p "$room/clone/crates/$crate"
    cp -R "crates/$crate/src" "$room/clone/crates/$crate"
done
"$room/clone/pipapo" run examples/allow/allow.nft examples/allow/packets.keys >"$room/written" 2>"$room/told" || complain "the first answer has the status $?"
cmp -s examples/allow/transcript "$room/written" || complain "the first answer is another"
told 'not proved'
finish
