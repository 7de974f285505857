# What `list --json` writes of random scripts is loaded by nft(8) into the running kernel, in a network namespace of its
# own. The kernel then has the sets of the listing, and the same sets as from the listing's text.
. "$(dirname "$0")/../preamble.sh"
needs python3
needs_kernel_sets
needs_program
unshare -rn python3 checks/scripts/nft_json.py "$program" || bad=1
finish
