"""Judges an output of `pipapo desk`: it names an order of all transactions, and has to tell what they come to in this order.

It follows docs/formats.md alone and shares nothing with the program.
"""

import re

from transcripts import Abort, Commit, History, Illegal, Script

CLERK = re.compile(r"# clerk ([1-9]\d*) (.*)")


def transactions(steps):
    """The transactions of a section, each with its end."""
    found, open_steps = [], []
    for step in steps:
        open_steps.append(step)
        if isinstance(step, (Commit, Abort)):
            found.append(open_steps)
            open_steps = []
    return found


class Beginning:
    """The first section of a script alone."""

    def __init__(self, script):
        self.sets = script.sets
        self.sections = script.sections[:1]


def listed_lives(text):
    """Of each set that a listing has its elements, in their order: their intervals, and what is left of their lives."""
    script = Script(text)
    lives = {place: [] for place in script.sets}
    for step in script.sections[0]:
        if hasattr(step, "parts"):
            lives[step.set].append((step.parts, step.expiry))
    return lives


def lives(generation, now):
    return {place: [(element.parts, None if element.expiry is None else max(element.expiry - now, 0)) for element in state.elements]
            for place, state in generation.items()}


def told_of(history, steps):
    """What a transaction tells."""
    history.told = []
    for step in steps:
        history.step(step)
    return history.told


def order_of(script, keep_going, text, status):
    """Refuses a wrong output, and gives the control threads in the order of their transactions."""
    if not text.endswith("\n"):
        raise Illegal("end", "the last line has no end")
    lines = text.split("\n")[:-1]
    history = History(Beginning(script), keep_going)
    refused = history.refuses()
    wanted = [f"# {line}" for line in history.lines[0]]
    if lines[:len(wanted)] != wanted:
        raise Illegal("beginning", f"{lines[:len(wanted)]} in place of {wanted}")
    at, order = len(wanted), []
    left = {clerk: transactions(section) for clerk, section in enumerate(script.sections) if clerk > 0}
    while at < len(lines) and lines[at].startswith("# "):
        match = CLERK.fullmatch(lines[at])
        if match is None:
            raise Illegal("beginning", f"one more line: {lines[at]}")
        clerk = int(match.group(1))
        if not left.get(clerk):
            raise Illegal("clerk", f"control thread {clerk} has no transaction left")
        told = told_of(history, left[clerk].pop(0))
        refused = refused or any(" refused " in line for line in told)
        wanted = [f"# clerk {clerk} {line}" for line in told]
        if lines[at:at + len(wanted)] != wanted:
            raise Illegal("told", f"{lines[at:at + len(wanted)]} in place of {wanted}")
        at += len(wanted)
        order.append(clerk)
    if any(left.values()):
        raise Illegal("left out", f"{sum(map(len, left.values()))} transactions")
    listing = "\n".join(lines[at:]) + "\n"
    if listed_lives(listing) != lives(history.generations[-1], script.now):
        raise Illegal("listing", listing)
    if status != (1 if refused else 0):
        raise Illegal("status", f"status {status}")
    return tuple(order)
