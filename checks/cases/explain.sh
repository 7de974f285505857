# `explain` agrees with a model that asks each element of a set: random scripts of all kinds, and sets in which many elements
# hold one key.
. "$(dirname "$0")/../preamble.sh"
needs python3
needs_program
python3 checks/scripts/explain.py "$program" 500 || bad=1
finish
