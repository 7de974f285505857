# All that names the program's commands agrees with docs/commands.tsv: the usage line and the help of the program, the manual
# page, the completions, and the tables of README.md and docs/formats.md.
. "$(dirname "$0")/../preamble.sh"
needs python3
needs_program
python3 checks/scripts/commands.py "$program" || bad=1
finish
