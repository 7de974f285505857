# The completions: their syntax, and what bash and fish offer of each command of docs/commands.tsv.
# checks/cases/commands.sh compares the texts of all three.
. "$(dirname "$0")/../preamble.sh"
for shell in bash:pipapo.bash zsh:_pipapo fish:pipapo.fish; do
    if has "${shell%%:*}"; then
        "${shell%%:*}" -n "docs/completions/${shell#*:}" || complain "${shell#*:} has an error"
    else
        skip_part "the syntax of ${shell#*:}, since ${shell%%:*} isn't installed"
    fi
done
has bash || has fish || finish

# what bash and fish offer for the last word, which is begun
in_bash() { # WORDS ..
    bash -c '. docs/completions/pipapo.bash; COMP_WORDS=("$@"); COMP_CWORD=$(($# - 1)); _pipapo; printf "%s\n" "${COMPREPLY[@]}"' \
        complete pipapo "$@" </dev/null | sort
}
in_fish() { # WORDS ..
    fish -c "source docs/completions/pipapo.fish; complete -C '$*'" </dev/null | cut -f 1 | grep -v '^-h$' | sort
}
offers() { # SHELL FILE WORDS ..
    how=$1
    wanted=$2
    shift 2
    "in_$how" "$@" | cmp -s "$wanted" - || complain "after '$*' $how offers $("in_$how" "$@" | tr '\n' ' ')"
}

sed '/^#/d' docs/commands.tsv | tail -n +2 >"$room/table"
cut -f 1 "$room/table" | sort -u >"$room/commands"
{ cat "$room/commands"; printf '%s\n' help --help --version -V; } | sort >"$room/first_of_bash"
{ cat "$room/commands"; echo help; } | sort >"$room/first_of_fish"
if has bash; then
    offers bash "$room/first_of_bash" ''
    offers bash "$room/commands" help ''
fi
if has fish; then
    offers fish "$room/first_of_fish" pipapo ''
    offers fish "$room/commands" pipapo help ''
fi
while read -r row; do
    command=$(echo "$row" | cut -f 1)
    { echo "$row" | cut -f 3 | grep -oE -e '--[a-z-]+'; echo --help; } | sort >"$room/options"
    if has bash; then offers bash "$room/options" "$command" --; fi
    if has fish; then offers fish "$room/options" pipapo "$command" --; fi
done <"$room/table"
finish
