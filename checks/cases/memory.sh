# Out of memory: each allocation of some runs is refused in turn, once and from then on.
. "$(dirname "$0")/../preamble.sh"
needs python3 "${CC:-cc}"
needs_program
"${CC:-cc}" -O1 -fno-builtin -shared -fPIC -o "$room/failing.so" checks/scripts/failing.c || exit 1
python3 checks/scripts/memory.py "$program" "$room/failing.so" examples || bad=1
finish
