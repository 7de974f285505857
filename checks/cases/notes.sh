# What the program prints on the standard error: what docs/formats.md promises of faulty files and refused changes, and nothing
# else. Status and output are the same if the standard error is closed or full.
. "$(dirname "$0")/../preamble.sh"
needs python3
needs_program
python3 checks/scripts/notes.py "$program" docs/formats.md || exit 1

# The note on words that are no command comes after the usage line, which is long.
"$program" run a >"$room/both" 2>&1
[ "$(sed -n '1s/: run .*//p; 2p' "$room/both")" = "$(printf 'pipapo: usage\npipapo: KEYS is missing')" ] || complain "the note on the words isn't last"

# On a terminal it shows its progress and erases it. The output is the same.
on_terminal() { # PATTERN WORDS ..
    python3 checks/scripts/terminal.py "$program" "$room" "$@" || exit 1
}
# a set of 2,000 elements that hold each key, all of them expired
python3 checks/scripts/large_scripts.py expired 2000 >"$room/sets"
{ echo 'at 5000'; yes 'ip t p 30000' | head -n 100000; } >"$room/keys"
on_terminal '[12] of 2(?:, packet ([0-9]+) of 100000)?' run "$room/sets" "$room/keys"
# two sections, with many transactions in the second
python3 checks/scripts/large_scripts.py transactions 15000 | sed '0,/^commit$/s//round/' >"$room/rounds"
for word in list dump desk; do
    on_terminal '([12]) of 2' "$word" "$room/rounds"
done
on_terminal '([12]) of 2(?:, packet [0-9]+ of 20000)?' drill 1 20000
finish
