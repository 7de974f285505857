# Random rules files over the listed generation: what `pipapo judge` says of each packet, with 1 and with 4 threads, is what
# a walk that shares no code with the program says, and a rules file with a fault is refused at its line for its reason.
. "$(dirname "$0")/../preamble.sh"
needs python3
needs_program
python3 checks/scripts/judge.py self-test || bad=1
python3 checks/scripts/judge.py run "$program" || bad=1
# A test that no packet can meet is named on the standard error, as examples/README.md shows it.
shown=$(sed -n '/^## judge-unmet$/,/^## /s/^    \(web.rules:2:2: .*\)$/\1/p' examples/README.md)
[ -n "$shown" ] || complain "examples/README.md shows no test that no packet can meet"
noted=$(cd examples/judge-unmet && "$program" judge web.nft web.rules packets.keys 2>&1 >/dev/null)
[ "$(echo "$noted" | head -n 1)" = "$shown" ] || complain "examples/judge-unmet: the standard error has $noted"
finish
