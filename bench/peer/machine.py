"""What a picture says of the run beside its figures: the day, the processor, and the versions of what is measured."""
import datetime
import os
import re
import subprocess

PACKAGES = ("linux-source-6.1", "libdpdk-dev", "gcc-12")


def said(*words):
    """The first line that a command writes, or nothing."""
    try:
        run = subprocess.run(words, stdin=subprocess.DEVNULL, capture_output=True, text=True)
    except OSError:
        return ""
    return run.stdout.partition("\n")[0].strip()


def processor():
    with open("/proc/cpuinfo", encoding="utf-8", errors="replace") as file:
        found = re.search(r"^model name\s*:\s*(.+)$", file.read(), re.MULTILINE)
    return found[1] if found else "a processor without a name"


def versions():
    """The versions of the peers' packages, of the compiler for C and of the toolchain, as far as they are installed."""
    found = {}
    for package in PACKAGES:
        version = said("dpkg-query", "--show", "--showformat", "${Version}", package)
        if version:
            found[package] = version
    kit = said("rt", "version").split()
    if kit:
        found["toolchain"] = kit[0]
    return found


def about_run():
    return {"date": datetime.date.today().isoformat(), "processor": processor(), "processors": os.cpu_count(), "packages": versions()}
