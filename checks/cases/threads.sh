# Generated scripts and key files on 1 to 16 threads: a checker that shares no code with the program judges each transcript
# (checks/models/transcripts.py), and some run must have packets of two generations in one section.
. "$(dirname "$0")/../preamble.sh"
needs python3
needs_program
python3 checks/scripts/threads.py self-test || bad=1
python3 checks/scripts/threads.py run "$program" || bad=1
finish
