# Rulesets as firewalld, fail2ban, kube-proxy, a server's owner and a script that blocks countries write them: nft(8) loads
# and lists each, `sets` reads the listing, and nft loads what it wrote. Then the kernel has the same sets, and the notes
# name all else.
. "$(dirname "$0")/../preamble.sh"
needs python3
needs_kernel_sets
needs_program
(cd "$room" && python3 "$top/checks/scripts/rulesets.py" "$program" "$top"/checks/rulesets/*.nft) || bad=1
finish
