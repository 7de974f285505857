# Listings that nft(8) itself printed are read, and the sets that `pipapo list` shows are those of the listing. Items
# without effect, handles, and the lengths of lives beside their ends aren't shown again; blocks of marks are shown by
# their ends; and blanks don't count.
. "$(dirname "$0")/../preamble.sh"
needs_program
plain() {
    sed -e '/^#/d' -e 's/ # handle [0-9]*$//' -e '/^\t\tpolicy /d' -e '/^\t\tgc-interval /d' -e '/^\t\tcomment /d' \
        -e '/^\t\tflags timeout$/d' -e 's|0x00000100/24|0x00000100-0x000001ff|' -e 's/ timeout [0-9a-z]* expires / expires /g' | tr -s ' \t\n' '   '
}
for listing in checks/listings/*.nft; do
    if [ "$("$program" list "$listing" | plain)" != "$(plain <"$listing")" ]; then
        complain "$listing: listed as"
        "$program" list "$listing"
    fi
done
finish
