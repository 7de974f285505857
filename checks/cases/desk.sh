# Scripts of 2 to 16 control threads, some hundred times. A model that shares no code with the program replays each output
# of `pipapo desk`, transaction by transaction in the order that it prints. The check prints how many orders it saw.
. "$(dirname "$0")/../preamble.sh"
needs python3
needs_program
python3 checks/scripts/desk.py self-test || bad=1
python3 checks/scripts/desk.py run "$program" || bad=1
finish
