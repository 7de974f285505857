# Work that has to grow as the changes do: each kind with n and with 4n elements and changes, in processor time, of which the
# second is at most eight times the first.
. "$(dirname "$0")/../preamble.sh"
needs python3
needs_program
python3 checks/scripts/growth.py "$program" || bad=1
finish
