"""What is kept of a ruleset, by docs/formats.md, "Rulesets": a model for any bytes, well-formed or not.

kept_of(whole) is the text that is kept, the notes on the rest without the ruleset's name, and whether a set is left out.
"""
import re

# A faulty byte and a quote that begins no string are tokens of their own.
TOKEN = re.compile(
    rb'(?P<gap>[ \t\r]+|\\\n|#[^\n]*)|(?P<break>\n)|(?P<mark>[{},;=*])|(?P<text>"[^"\x00-\x1f]{0,128}")|(?P<word>[A-Za-z0-9_./:-]+)|(?P<bad>.)', re.S
)
NAME = re.compile(rb"[A-Za-z_][A-Za-z0-9_./:-]{0,126}")
KINDS = {b"ipv4_addr", b"ipv6_addr", b"ether_addr", b"inet_proto", b"inet_service", b"mark"}
DIRECTIONS = [f"ct {way} {field}" for way in ("original", "reply") for field in ("ip saddr", "ip daddr", "ip6 saddr", "ip6 daddr", "protocol")]
EXPRESSIONS = [
    "ip saddr", "ip daddr", "ip protocol", "ip6 saddr", "ip6 daddr", "ip6 nexthdr", "meta l4proto", "meta mark", "mark", "ct mark",
    "ether saddr", "ether daddr", "arp saddr ip", "arp daddr ip", "arp saddr ether", "arp daddr ether", *DIRECTIONS,
    *(f"{protocol} {port}" for protocol in ("tcp", "udp", "sctp", "dccp", "udplite", "th") for port in ("sport", "dport")),
]
# how expressions begin, and the expressions themselves
BEGUN = {tuple(e.encode().split()[:n]) for e in EXPRESSIONS for n in range(1, 5)}
LEFT_OUT = {
    b"auto-merge": "is left out: 'auto-merge' isn't read here",
    b"*": "is left out: it has the catch-all element '*'",
    b"quota": "is left out: it has 'quota', on which verdicts depend",
    b"limit": "is left out: it has 'limit', on which verdicts depend",
    b"ct": "is left out: it has 'ct', on which verdicts depend",
}
UNKNOWN = "is left out: it has {} '{}', which isn't known here"
UNCLOSED, SKIPPED = "is skipped: its braces don't close", "is skipped: it isn't a set"
HOLDS = "is skipped: another item is in its braces"
DROPPED = "is dropped: no verdict depends on it"
IDLE, TALLIES, COUNTS = {b"constant", b"dynamic"}, {b"counter", b"last"}, {b"packets", b"bytes", b"used"}
ON_SETS = {b"add": {b"table", b"set", b"element"}, b"flush": {b"set", b"ruleset"}} | {w: {b"set", b"element"} for w in (b"create", b"delete", b"destroy")}
HEADS = {b"set", b"map", b"chain", b"flowtable"}
TURNS = {b"at", b"commit", b"abort", b"round"}
SORTS = [b"constant", b"dynamic", b"counter", b"last"]


class Token:
    def __init__(self, kind, at, text):
        self.kind, self.at, self.text = kind, at, text
        is_name = kind == "word" and NAME.fullmatch(text)
        # what the rules compare: the text of names and marks, and of no other token
        self.says = text if kind == "mark" or is_name else b""

    def ends(self, depth):
        return depth == 0 and (self.kind == "break" or self.says in (b";", b"}"))

    def stays(self):
        return self.kind == "break" or self.kind == "bad" and (self.text == b'"' or self.text < b" ")

    def is_plain(self):
        """A word that means nothing to a ruleset."""
        return self.kind == "word" and self.text != b"." and self.says not in KNOWN


KNOWN = (
    KINDS | LEFT_OUT.keys() | IDLE | TALLIES | COUNTS | ON_SETS.keys() | TURNS | HEADS | {b"type", b"typeof", b"flags", b"table", b"element", b"ruleset"}
)


def tokens_of(whole):
    found = [Token(m.lastgroup, m.start(), m[0]) for m in TOKEN.finditer(whole)]
    return [t for t in found if t.kind != "gap"]


def item_from(tokens, at):
    """The end of the item that begins at a place."""
    depth, end = 0, at
    while end < len(tokens) and (end == at or not tokens[end].ends(depth)):
        depth += (tokens[end].says == b"{") - (tokens[end].says == b"}" and depth > 0)
        end += 1
    return end


def items_of(tokens):
    """The items, each with whether it may be kept; a token outside an item isn't in one."""
    at, inside = 0, False
    while at < len(tokens):
        first = tokens[at]
        if first.kind != "word":
            inside = inside and first.says != b"}"
            at += 1
            continue
        end = item_from(tokens, at)
        second = tokens[at + 1].says if at + 1 < len(tokens) else b""
        if not inside and first.says == b"table":
            head = at + 1
            while head < end and tokens[head].says != b"{":
                head += 1
            if head < end:
                inside, at = True, head + 1
                continue
        on_sets = first.says in TURNS or second in ON_SETS.get(first.says, ())
        yield tokens[at:end], on_sets or inside and first.says == b"set"
        at = end


def second_word_within(item):
    """The place of the second word of an item in the braces of this one; the item's length if it holds none."""
    for n, (first, second) in enumerate(zip(item[1:], item[2:]), 1):
        if item[n - 1].kind == "break" or item[n - 1].says in (b";", b"{", b"}"):
            third = item[n + 2].says if n + 2 < len(item) else b""
            if second.says in ON_SETS.get(first.says, ()) or first.says in HEADS and second.kind == "word" and third == b"{":
                return n + 1
    return len(item)


def parts_of(body):
    """The tokens that a kept item loses, or why it is left out."""
    dropped, spot, kept_flag, after_dropped, expression = [], None, False, False, ()
    for n, t in enumerate(body):
        if spot != "expressions" and t.says in LEFT_OUT:
            return LEFT_OUT[t.says]
        following = body[n + 1] if n + 1 < len(body) else None
        fresh = t.kind == "break" or t.says in (b";", b"{", b"}") or t.says in (b"type", b"typeof", b"flags") or t.says in TALLIES
        if spot == "types" and t.kind == "word" and t.says not in KINDS and t.text != b".":
            return UNKNOWN.format("the type", shown(t.text))
        if spot == "expressions":
            is_dot = t.kind == "word" and t.text == b"."
            expression = () if is_dot else (*expression, t.text if t.kind == "word" else b"")
            ends = t.kind == "break" or t.says in (b";", b"{", b"}") or t.stays()
            if not is_dot and not ends and expression not in BEGUN:
                return UNKNOWN.format("an expression with", shown(t.text))
        elif spot == "flags":
            whole = t.says in IDLE and following is not None and (following.kind == "break" or following.says in (b";", b",", b"}"))
            comma = False
            if t.says == b",":
                idle = following is not None and following.says in IDLE
                plain = following is not None and following.is_plain()
                comma = kept_flag and idle or not kept_flag and after_dropped and (idle or plain)
            if whole or comma:
                dropped.append(t)
        elif spot == "count" and t.says in COUNTS or spot == "value" and t.is_plain():
            dropped.append(t)
        elif t.says in TALLIES or t.says == b"flags" and not keeps_flag(body[n + 1:]):
            dropped.append(t)
        if fresh:
            kept_flag = after_dropped = False
            spot = {b"type": "types", b"typeof": "expressions", b"flags": "flags"}.get(t.says, "count" if t.says in TALLIES else None)
            expression = ()
        elif spot == "types":
            spot = "types" if t.says in KINDS or t.text == b"." and t.kind == "word" else None
        elif spot == "expressions":
            spot = "expressions" if t.kind == "word" else None
        elif spot == "flags":
            if not kept_flag:
                kept_flag, after_dropped = t.is_plain(), t.says in IDLE
        elif spot == "count":
            spot = "value" if t.says in COUNTS else None
        elif spot == "value":
            spot = "count" if t.is_plain() else None
    return dropped


def keeps_flag(rest):
    for t in rest:
        if t.is_plain():
            return True
        if t.says not in IDLE and t.says != b",":
            return False
    return False


def kept_of(whole):
    kept, notes, lost = bytearray(whole), [], False

    def take(t):
        kept[t.at:t.at + len(t.text)] = b" " * len(t.text)

    def note(t, name, words):
        line = whole.count(b"\n", 0, t.at) + 1
        column = t.at - whole.rfind(b"\n", 0, t.at)
        said = t.text + (b" " + name.text if name else b"")
        notes.append(f"{line}:{column}: '{shown(said)}' {words}")

    for item, may_stay in items_of(tokens_of(whole)):
        opened, closed = sum(t.says == b"{" for t in item), sum(t.says == b"}" for t in item)
        head = next((n for n, t in enumerate(item) if t.says == b"{"), len(item))
        parts = UNCLOSED if opened != closed else parts_of(item[head:]) if may_stay else SKIPPED
        if isinstance(parts, str):
            held = second_word_within(item)
            if parts != UNCLOSED and held < len(item):
                parts = HOLDS
            lost = lost or parts != SKIPPED
            for n, t in enumerate(item):
                keeps_braces = parts == UNCLOSED or parts == HOLDS and n > held
                if not t.stays() and not (keeps_braces and t.says == b"{") and not (parts == HOLDS and n == held):
                    take(t)
            note(item[0], item[1] if len(item) > 1 and item[1].says != b"{" else None, parts)
            continue
        for t in parts:
            take(t)
        for sort in SORTS:
            first = next((t for t in parts if t.says == sort), None)
            if first:
                note(first, None, DROPPED)
    return bytes(kept), notes, lost


def shown(said):
    return "".join(chr(b) if 32 <= b < 127 else f"\\x{b:02x}" for b in said)
