# Captures of every form against a reader in Python that shares no code with the program (checks/models/captures.py): both
# orders of bytes, all units of time and link types, tags, fragments, headers with options, IPv6 and its extension headers, and
# files cut at each byte. For pcapng also several sections and interfaces, each snapshot length, and files with one byte changed.
# Some are also judged by rules. If Wireshark's tools are installed, the facts of their captures are those that tshark prints,
# frame by frame.
. "$(dirname "$0")/../preamble.sh"
needs python3
needs_program
python3 checks/scripts/capture.py self-test || bad=1
python3 checks/scripts/capture.py run "$program" || bad=1
if has tshark && has dumpcap && has editcap && has mergecap; then
    python3 checks/scripts/capture.py tshark "$program" || bad=1
else
    skip_part "tshark, dumpcap, editcap and mergecap aren't all installed, so no capture is compared with what tshark prints"
fi
finish
