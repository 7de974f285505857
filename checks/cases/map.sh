# The map of the crates in docs/architecture.md is the one that docs/map.py makes from crates.txt and the crates' first pages.
. "$(dirname "$0")/../preamble.sh"
needs python3
python3 docs/map.py --check || complain "the map is out of date"
finish
