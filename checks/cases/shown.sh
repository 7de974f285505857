# The examples that README.md and examples/README.md show are the files of examples/, whole. examples/README.md has a part
# for each folder that has `words`, with its command. A part without a file's text is only a pointer.
. "$(dirname "$0")/../preamble.sh"

# Whether the text of a file is in a page, indented by four blanks, with blanks for its tabs.
is_shown() { # FILE PAGE
    expand "$1" | sed 's/^\(.\)/    \1/' >"$room/block"
    awk 'NR == FNR { block = block $0 "\n"; next } { text = text $0 "\n" } END { exit index("\n" text, "\n" block) == 0 }' "$room/block" "$2"
}

for file in list.nft packets.keys transcript; do
    is_shown "examples/ranges/$file" README.md || complain "README.md doesn't show examples/ranges/$file"
done
grep -qx '    ./pipapo run examples/ranges/list.nft examples/ranges/packets.keys' README.md || complain "README.md hasn't the command"

for words in examples/*/words; do
    folder=$(dirname "$words")/
    name=$(basename "$folder")
    awk -v name="$name" '/^## / { on = $2 == name; next } on' examples/README.md >"$room/part"
    words=$(tr '\n' ' ' <"$words")
    grep -qF "\`../../pipapo ${words% }\`" "$room/part" || complain "examples/README.md has no part on $name, or another command"
    grep -q '^    ' "$room/part" || continue
    for file in "$folder"*; do
        case $file in
        */words | */status | *.pcap | *.pcapng) ;;
        *) is_shown "$file" "$room/part" || complain "examples/README.md doesn't show $file" ;;
        esac
    done
done
finish
