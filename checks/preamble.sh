# What each case of checks/cases begins with: . "$(dirname "$0")/../preamble.sh"
#
# It goes to the top of the repository and sets
#   top      the top of the repository
#   program  the built program
#   room     a temporary folder, removed when the case ends
#   case     the case's name
# A case ends with `finish`, or earlier with `skip REASON`. Its exit status is 0 if it passed, 77 if it was skipped,
# and else it failed.
set -u
top=$(cd "$(dirname "$0")/../.." && pwd) || exit 1
cd "$top" || exit 1
case=$(basename "$0" .sh)
program=$top/crates/pipapo_cli/out/pipapo_cli
room=$(mktemp -d) || exit 1
bad=0
# the modules of checks/models, with no compiled copies beside them
PYTHONPATH=$top/checks/models
PYTHONDONTWRITEBYTECODE=1
export PYTHONPATH PYTHONDONTWRITEBYTECODE

end() {
    status=$?
    trap - EXIT
    rm -rf "$room"
    case $status in
    0) echo "$case: passed" ;;
    77) ;;
    *) echo "$case: FAILED" ;;
    esac
    exit "$status"
}
trap end EXIT
trap 'exit 130' INT
trap 'exit 143' TERM HUP

# Ends the case: it can't be tried here.
skip() { # REASON
    echo "$case: skipped: $1"
    exit 77
}

# A part of the case can't be tried here. The case goes on.
skip_part() { # REASON
    echo "$case: a part is skipped: $1"
}

complain() { # MESSAGE
    echo "$case: $*"
    bad=1
}

finish() {
    exit "$bad"
}

has() { # COMMAND
    command -v "$1" >/dev/null 2>&1
}

# Skips the case if one of these commands isn't installed.
needs() { # COMMAND ..
    for command; do
        has "$command" || skip "$command isn't installed"
    done
}

# Builds the program if it isn't built.
needs_program() {
    "$top/pipapo" --build || exit 1
}

# Skips the case if nft(8) can't reach the sets of the kernel in a network namespace of its own.
needs_kernel_sets() {
    needs nft unshare
    unshare -rn nft list ruleset >/dev/null 2>&1 || skip "nft reaches no kernel in a network namespace of its own"
}
