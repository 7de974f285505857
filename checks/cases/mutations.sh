# All listings, rulesets and examples, cut and with bits flipped: each is read, or refused with its one line. What `sets` keeps is a
# model's.
. "$(dirname "$0")/../preamble.sh"
needs python3
needs_program
python3 checks/scripts/mutations.py "$program" || bad=1
finish
