"""Chains of rules over listed sets: the rule that decides on a packet, by a walk that shares nothing with the program."""

import collections

from transcripts import Element, Script, State, first

Test = collections.namedtuple("Test", "set inside")
Rule = collections.namedtuple("Rule", "tests act target")
Rules = collections.namedtuple("Rules", "chains accept")
Chain = collections.namedtuple("Chain", "name rules")


def meets(sets, packet, test):
    """The test's set has the kinds of the packet's, and an element that holds the key, or none, as it asks."""
    if sets[test.set].kinds != sets[packet.set].kinds:
        return False
    return (first(sets[test.set].state, packet.key, packet.now) is not None) == test.inside


def walk(rules, numbers, sets, packet, place):
    """The number of the rule that decides in a chain, or none."""
    for number, rule in zip(numbers[place], rules.chains[place].rules):
        if not all(meets(sets, packet, test) for test in rule.tests):
            continue
        if rule.act in ("accept", "drop"):
            return number, rule.act
        if rule.act == "return":
            return None
        found = walk(rules, numbers, sets, packet, rule.target)
        if found:
            return found
    return None


def judgement(rules, sets, packet):
    """What stands behind the generation in a packet's line."""
    numbers, begin = [], 0
    for chain in rules.chains:
        numbers.append(range(begin, begin + len(chain.rules)))
        begin += len(chain.rules)
    found = walk(rules, numbers, sets, packet, len(rules.chains) - 1)
    if found:
        return f"rule {found[0]} {found[1]}"
    return "policy " + ("accept" if rules.accept else "drop")


Listed = collections.namedtuple("Listed", "kinds state")


def listed(text):
    """The sets of a listing, whose moments are those from 0 on."""
    script = Script(text)
    sets = {place: [] for place in script.sets}
    for step in script.sections[0]:
        if hasattr(step, "parts"):
            sets[step.set].append(Element(len(sets[step.set]), step.parts, step.expiry))
    return {place: Listed(script.sets[place].kinds, State(None, False, tuple(elements), len(elements)))
            for place, elements in sets.items()}
