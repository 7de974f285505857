# The running kernel beside the program, by nft(8) in a network namespace of its own: the same changes and lookups, and
# a listing that nft reads and prints again.
. "$(dirname "$0")/../preamble.sh"
needs python3
needs_kernel_sets
needs_program
unshare -rn python3 checks/scripts/kernel.py "$program" || bad=1
"$program" list checks/listings/kinds.nft >"$room/listing.nft"
unshare -rn sh -c "nft -f '$room/listing.nft' && nft list sets" >"$room/printed.nft" || bad=1
if [ "$("$program" list "$room/printed.nft")" != "$(cat "$room/listing.nft")" ]; then
    complain "nft reads a listing as"
    cat "$room/printed.nft"
fi
# what each of both takes of the other's words
unshare -rn python3 checks/scripts/nft_words.py "$program" || bad=1
# what nft says of each mistake on which notes.sh tries the program
unshare -rn python3 checks/scripts/nft_mistakes.py || bad=1
finish
