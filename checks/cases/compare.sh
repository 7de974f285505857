# `compare` agrees with a model that asks both sets for every key: thousands of pairs of small sets. In a large set it finds
# one element that is missing.
. "$(dirname "$0")/../preamble.sh"
needs python3
needs_program
python3 checks/scripts/compare.py "$program" 10000 || bad=1
finish
