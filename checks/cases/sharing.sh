# Sets that a transaction leaves as they are: its memory doesn't depend on how many elements they have.
. "$(dirname "$0")/../preamble.sh"
needs python3 "${CC:-cc}"
needs_program
"${CC:-cc}" -O1 -fno-builtin -shared -fPIC -o "$room/failing.so" checks/scripts/failing.c || exit 1
python3 checks/scripts/sharing.py "$program" "$room/failing.so" || bad=1
finish
