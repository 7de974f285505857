# Sets about as large as the number of rules at which a field of a kind is cut into other groups, up and down by
# deletion, purge and flush: their tables beside those that checks/models/tables.py makes by the definition, and lookups.
. "$(dirname "$0")/../preamble.sh"
needs python3
needs_program
python3 checks/scripts/crossings.py "$program" || bad=1
finish
