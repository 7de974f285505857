# Sets that elements leave by deletion, purge and flush, one by one and many at once: transcripts, packets between the commits
# and tables, beside those of a plain list.
. "$(dirname "$0")/../preamble.sh"
needs python3
needs_program
python3 checks/scripts/leaving.py "$program" || bad=1
finish
