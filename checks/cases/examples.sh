# Each folder of examples/ that has `words` is a run of the program: `words` has its words, one a line, and `transcript` what it
# must write. `status` has the wanted status if that isn't 0. What `run` writes with `--threads`, and what `desk` writes, depends
# on how the threads are scheduled: any legal transcript will do, and `transcript` has one.
. "$(dirname "$0")/../preamble.sh"
needs_program
for words in examples/*/words; do
    folder=$(dirname "$words")
    words=$(tr '\n' ' ' <"$folder/words")
    wanted=0
    [ -f "$folder/status" ] && wanted=$(cat "$folder/status")
    # The words of the examples have no blanks.
    # shellcheck disable=SC2086
    written=$(cd "$folder" && "$program" $words 2>/dev/null; echo "status $?")
    case $words in
    run*--threads* | desk*)
        judge=threads
        case $words in desk*) judge=desk ;; esac
        if has python3; then
            echo "$written" | python3 "checks/scripts/$judge.py" example "$folder" || complain "$folder: no legal output"
        else
            skip_part "$folder, since python3 isn't installed"
        fi
        ;;
    *)
        if [ "$written" != "$(cat "$folder/transcript"; echo "status $wanted")" ]; then
            complain "$folder: wrote"
            echo "$written"
        fi
        ;;
    esac
done
finish
