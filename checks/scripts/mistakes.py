"""Mistakes in scripts and in words, and the whole note that each must have. The notes are written by hand.

A mistake is a script, the line and the column of its bad token, what is wrong, what to do, and nft's words for it. The shown line and
its carets follow from these. Line 1 of most scripts declares the sets of SETS. Of these p, a, v and l have intervals, and l has timeouts.
"""

SETS = (
    "table ip t { set p { type inet_service; flags interval; }; set a { type ipv4_addr . inet_service; flags interval; }; "
    "set n { type inet_service; }; set v { type ipv6_addr; flags interval; }; set l { type inet_proto . mark; flags interval, timeout; }; "
    "set e { type ether_addr; }; }\n"
)


def add(set_name, elements):
    return SETS + f"add element ip t {set_name} {{ {elements} }}\n"


def declare(items):
    return f"add table ip t\nadd set ip t s {{ {items}; }}\n"


PORT = "write a number from 0 to 65535"
IPV4 = "write four numbers from 0 to 255 with '.' between them, as 192.0.2.1"
IPV6 = "write an IPv6 address, as 2001:db8::1"
ETHER = "write six pairs of hexadecimal digits, as 02:00:5e:10:00:01"
PROTO = "write a number from 0 to 255, or a protocol's name in lower case, as tcp"
MARK = "write a number from 0 to 4294967295, or 0x and 1 to 8 hexadecimal digits"
TYPES = "the types are ipv4_addr, ipv6_addr, ether_addr, inet_proto, inet_service and mark"
EXPRESSIONS = "the expressions are of addresses, ports, protocols and marks, as: typeof ip saddr . tcp dport"
PORT_WORD = "write sport or dport after 'tcp'"
LONG_KEY = "a key has 16 fields and 64 bytes at most: ipv6_addr takes 16 of them, ether_addr 8, each other type 4"
PAIR = "the set's type is ipv4_addr . inet_service"
COMMA = "',' or '}' is expected after an element"
STATEMENTS = "a statement begins with add, create, delete, destroy, flush, table, at, commit, abort or round"
END_STATEMENT = "end the statement before it, with ';' or a new line"
END_ITEM = "end the item before it, with ';' or a new line"
TABLE_NAME = "a table is named by [FAMILY] TABLE; a name begins with a letter or '_'"
SET_NAME = "a set is named by [FAMILY] TABLE SET; a name begins with a letter or '_'"
ALONE_LINE = "and write ';' without '\\', as: add set ip t p { type mark; }"
NO_QUOTES = "leave out the quotes: only comments have them"
TIME = "write seconds, as 90, or parts from days to milliseconds, as 1d2h3m4s500ms"

ONE_BY_ONE = "write an element for each mark that is meant"
MARKS = ONE_BY_ONE + ", or a range of them, as 0x10-0x1f"
IPTABLES = "can't begin a statement: this looks like a file of iptables-save, which only names sets"
FROM_RULES = "the sets are in ipset; to list them, run: ipset save | ipset-translate restore > sets.nft; pipapo list sets.nft"
FAMILIES = "the families are ip, ip6, inet, arp, bridge and netdev"
EXTRA = "leave it out, or begin a new line with it"

# script, line, column, what is wrong, what to do, and how nft 1.0.6 begins what it says of the script
MISTAKES = [
    # values
    (add("p", "443-70000"), 2, 22, "'443-70000' doesn't fit field 1 (inet_service): 70000 is greater than 65535, the last port", PORT, "Service out of range"),
    (add("p", "80, 65536"), 2, 26, "'65536' doesn't fit field 1 (inet_service): 65536 is greater than 65535, the last port", PORT, "Service out of range"),
    (add("l", "256 . 1"), 2, 22, "'256' doesn't fit field 1 (inet_proto): 256 is greater than 255, the last protocol", PROTO, "Protocol out of range"),
    (add("l", "6 . 4294967296"), 2, 26, "'4294967296' doesn't fit field 2 (mark): 4294967296 is greater than 4294967295, the last mark", MARK, "Value 4294967296 exceeds valid range 0-4294967295"),
    (add("a", "10.0.0.0/33 . 80"), 2, 22, "'10.0.0.0/33' doesn't fit field 1 (ipv4_addr): /33 is longer than an IPv4 address, which has 32 bits", "write a prefix from /0 to /32", "Prefix length 33 is invalid for type of 32 bits width"),
    (add("a", "10.0.0.0/0.0.0.255 . 80"), 2, 22, "'10.0.0.0/0.0.0.255' doesn't fit field 1 (ipv4_addr): '0.0.0.255' isn't a prefix length", "write a number from 0 to 32 after the '/'", "syntax error, unexpected string, expecting number"),
    (add("v", "2001:db8::/129"), 2, 22, "'2001:db8::/129' doesn't fit field 1 (ipv6_addr): /129 is longer than an IPv6 address, which has 128 bits", "write a prefix from /0 to /128", "Prefix length 129 is invalid for type of 128 bits width"),
    (add("a", "10.0.0.0/255.0.0.0 . 80"), 2, 22, "'10.0.0.0/255.0.0.0' doesn't fit field 1 (ipv4_addr): 255.0.0.0 is a netmask", "write the prefix length: 10.0.0.0/8", "syntax error, unexpected string, expecting number"),
    (add("p", "80-22"), 2, 22, "'80-22' doesn't fit field 1 (inet_service): 80 is greater than 22, and a range begins with the smaller value", "write 22-80", "Range has zero or negative size"),
    (add("a", "10.0.0.9-10.0.0.1 . 80"), 2, 22, "'10.0.0.9-10.0.0.1' doesn't fit field 1 (ipv4_addr): 10.0.0.9 is greater than 10.0.0.1, and a range begins with the smaller value", "write 10.0.0.1-10.0.0.9", "Range has zero or negative size"),
    (add("n", "80-443"), 2, 22, "'80-443' is a range, and the set has single values", "declare the set with 'flags interval'", "You must add 'flags interval' to your set declaration if you want to add range elements"),
    (declare("type ipv4_addr; elements = { 10.0.0.0/8 }"), 2, 47, "'10.0.0.0/8' is a prefix, and the set has single values", "declare the set with 'flags interval'", "You must add 'flags interval' to your set declaration if you want to add prefix elements"),
    (add("v", "10.0.0.1"), 2, 22, "'10.0.0.1' doesn't fit field 1 (ipv6_addr): it is an IPv4 address", IPV6, "Could not resolve"),
    (add("a", "::1 . 80"), 2, 22, "'::1' doesn't fit field 1 (ipv4_addr): it is an IPv6 address", IPV4, "Could not resolve"),
    (add("v", "10.0.0.0/8"), 2, 22, "'10.0.0.0/8' doesn't fit field 1 (ipv6_addr): it is an IPv4 address", IPV6, "Could not resolve"),
    (add("p", "0x50"), 2, 22, "'0x50' doesn't fit field 1 (inet_service): a port is a decimal number", "use 80", "taken"),
    (add("p", "https"), 2, 22, "'https' doesn't fit field 1 (inet_service): a port is a number and not a name", "use 443", "taken"),
    (add("a", "10.0.0.1 . ssh"), 2, 33, "'ssh' doesn't fit field 2 (inet_service): a port is a number and not a name", "use 22", "taken"),
    (add("a", '10.0.0.1 . "https"'), 2, 33, "'\"https\"' doesn't fit field 2 (inet_service): a port is a number and not a name", "use 443", "taken"),
    (add("p", "web"), 2, 22, "'web' doesn't fit field 1 (inet_service): it isn't a port", PORT, "Could not resolve"),
    (add("a", "80 . 10.0.0.1"), 2, 22, "'80' doesn't fit field 1 (ipv4_addr): it fits field 2 (inet_service)", PAIR, "Could not resolve"),
    (add("a", "10.0.0.1"), 2, 31, "'}' ends the element after 1 field", PAIR, "invalid data type, expected concatenation of (IPv4 address, internet network service)"),
    (add("a", "10.0.0.1, 10.0.0.2 . 80"), 2, 30, "',' ends the element after 1 field", PAIR, "invalid data type, expected concatenation of (IPv4 address, internet network service)"),
    (add("a", "10.0.0.1 . }"), 2, 33, "'}' ends the element after 1 field", PAIR, "syntax error, unexpected '}'"),
    (add("a", "10.0.0.1 . 80 . 90"), 2, 36, "'.' begins one more field, and the set has 2 fields", PAIR, "too many concatenation components"),
    (add("p", "80 . tcp"), 2, 25, "'.' begins one more field, and the set has 1 field", "the set's type is inet_service", "Can't parse symbolic invalid expressions"),
    (add("a", "10.0.0.1:80"), 2, 22, "'10.0.0.1:80' doesn't fit field 1 (ipv4_addr): it is two fields in one word", "write a '.' with blanks around it between fields, as 192.0.2.1 . 80", "set is not a map"),
    (add("a", "10.0.0.1.80"), 2, 22, "'10.0.0.1.80' doesn't fit field 1 (ipv4_addr): it is two fields in one word", "write a '.' with blanks around it between fields, as 192.0.2.1 . 80", "syntax error, unexpected string, expecting comma or '}'"),
    (add("p", "080"), 2, 22, "'080' doesn't fit field 1 (inet_service): a number has no leading zero", PORT, "taken"),
    (add("a", "10.0.0.256 . 80"), 2, 22, "'10.0.0.256' doesn't fit field 1 (ipv4_addr): it isn't an IPv4 address", IPV4, "Could not resolve"),
    (add("a", "10.0.0 . 80"), 2, 22, "'10.0.0' doesn't fit field 1 (ipv4_addr): it isn't an IPv4 address", IPV4, "syntax error, unexpected string, expecting comma or '}'"),
    (add("l", "TCP . 1"), 2, 22, "'TCP' doesn't fit field 1 (inet_proto): it isn't a protocol", PROTO, "taken"),
    (add("e", "02:00:5e:10:00"), 2, 22, "'02:00:5e:10:00' doesn't fit field 1 (ether_addr): it isn't an Ethernet address", ETHER, "syntax error, unexpected colon, expecting comma or '}'"),
    (add("p", "10-"), 2, 22, "'10-' doesn't fit field 1 (inet_service): an end of the range is missing", "write both ends without blanks, as 10-20", "syntax error, unexpected '}'"),
    (add("p", "80:90"), 2, 22, "'80:90' doesn't fit field 1 (inet_service): a range has '-' between its ends", "write 80-90", "Could not resolve"),
    (add("p", ":1024"), 2, 22, "':1024' doesn't fit field 1 (inet_service): a range has '-' between its ends", "write 0-1024", "syntax error, unexpected colon"),
    (add("p", "1024:"), 2, 22, "'1024:' doesn't fit field 1 (inet_service): a range has '-' between its ends", "write 1024-65535", "syntax error, unexpected '}'"),
    (add("p", "53/udp"), 2, 22, "'53/udp' doesn't fit field 1 (inet_service): a port is a number alone", "write 53; a protocol is a field of its own, of the type inet_proto", "syntax error, unexpected udp, expecting number"),
    (add("l", "6 . 0x10/0xff"), 2, 26, "'0x10/0xff' doesn't fit field 2 (mark): a mark in a set has no mask", MARKS, "Prefix length 255 is invalid for type of 32 bits width"),
    (add("l", "6 . 0x10/255"), 2, 26, "'0x10/255' doesn't fit field 2 (mark): a mark in a set has no mask", MARKS, "Prefix length 255 is invalid for type of 32 bits width"),
    (declare("type mark; elements = { 0x10/8 }"), 2, 42, "'0x10/8' is a prefix, and the set has single values", ONE_BY_ONE, "You must add 'flags interval' to your set declaration if you want to add prefix elements"),
    (add("a", "0/0 . 80"), 2, 22, "'0/0' isn't a value", "to match all addresses, write 0.0.0.0/0", "taken"),
    (declare("type ipv4_addr; elements = { any }"), 2, 47, "'any' isn't a value", "to match all addresses, write 0.0.0.0/0, and declare the set with 'flags interval'", "Could not resolve"),
    (declare("type ipv4_addr; flags timeout; elements = { 10.0.0.0/8 }"), 2, 62, "'10.0.0.0/8' is a prefix, and the set has single values", "declare the set with 'flags timeout, interval'", "You must add 'flags interval' to your set declaration if you want to add prefix elements"),
    (add("v", "fe80::1%eth0"), 2, 29, "'%' is an unexpected character", "leave it out, and the interface after it: an address has none", "syntax error, unexpected junk, expecting comma or '}'"),
    (add("p", "10-web"), 2, 22, "'10-web' doesn't fit field 1 (inet_service): 'web' isn't a port", PORT, "Could not resolve"),
    # elements
    (add("p", "80 443"), 2, 25, "'443' can't follow an element", COMMA, "syntax error, unexpected number, expecting comma or '}'"),
    (add("p", "80; 443"), 2, 24, "';' can't come in a list", COMMA, "syntax error, unexpected semicolon, expecting comma or '}'"),
    (add("p", "80,,443"), 2, 25, "',' has no element before it", "write one ',' between elements", "taken"),
    (add("p", "10 - 20"), 2, 25, "'-' can't have blanks around it", "write a range without blanks, as 10-20", "taken"),
    (add("p", "10 -20"), 2, 25, "'-20' can't have blanks around it", "write a range without blanks, as 10-20", "taken"),
    (add("a", "10.0.0.0 /8 . 80"), 2, 31, "'/8' can't have blanks around it", "write a prefix without blanks, as 10.0.0.0/8", "taken"),
    (add("a", "10.0.0.1 : 80"), 2, 31, "':' can't come between fields", "write ' . ' between fields", "set is not a map"),
    (add("a", "10.0.0.1 . 80 : accept"), 2, 36, "':' makes a map of the set", "remove it and the value after it: there are no maps", "set is not a map"),
    (add("a", "10.0.0.1 80"), 2, 31, "'80' can't follow a value", "write ' . ' between fields", "syntax error, unexpected number, expecting comma or '}'"),
    (add("p", "80 comment web"), 2, 33, "'web' isn't in quotes", 'quote the comment: comment "web"', "taken"),
    (add("n", "80 timeout 5s"), 2, 25, "'timeout' needs a set with the flag timeout", "declare the set with 'flags timeout'", "Could not process rule: Invalid argument"),
    (add("p", "80 timeout 5s"), 2, 25, "'timeout' needs a set with the flag timeout", "declare the set with 'flags interval, timeout'", "Could not process rule: Invalid argument"),
    (add("l", "6 . 1 timeout 5s timeout 6s"), 2, 39, "'timeout' is given twice", "leave one of the two out", "taken"),
    (add("l", "6 . 1 timeuot 5s"), 2, 28, "'timeuot' can't follow an element", "did you mean 'timeout'?", "syntax error, unexpected string, expecting comma or '}'"),
    (add("l", "6 . 1 timeout 1w"), 2, 36, "'1w' isn't a time", TIME, "syntax error, unexpected number, expecting string"),
    (add("l", "6 . 1 timeout"), 2, 36, "'}' isn't a time", TIME, "syntax error, unexpected '}', expecting string"),
    (add("p", "80 comment, 443"), 2, 32, "',' can't follow 'comment'", 'write the comment in quotes, as: comment "web"', "syntax error, unexpected comma, expecting string or quoted string or string with a trailing asterisk"),
    (add("p", "ssh-443"), 2, 22, "'ssh-443' doesn't fit field 1 (inet_service): a port is a number and not a name", "use 22 for 'ssh'", "Could not resolve"),
    (add("p", "80..90"), 2, 22, "'80..90' doesn't fit field 1 (inet_service): a range has '-' between its ends", "write 80-90", "syntax error, unexpected string, expecting comma or '}'"),
    (add("a", "any . 80"), 2, 22, "'any' isn't a value", "to match all addresses, write 0.0.0.0/0", "Could not resolve"),
    (add("p", "all"), 2, 22, "'all' isn't a value", "to match all ports, write 0-65535", "syntax error, unexpected all"),
    (add("a", "10.0.0.* . 80"), 2, 22, "'10.0.0.' doesn't fit field 1 (ipv4_addr): it isn't an IPv4 address", "write a network as a prefix, as 192.0.2.0/24", "syntax error, unexpected string with a trailing asterisk, expecting comma or '}'"),
    (add("p", "$ports"), 2, 22, "'$' is an unexpected character", "write the values themselves: there are no variables", "unknown identifier 'ports'"),
    (add("p", "@n"), 2, 22, "'@' is an unexpected character", "write the values themselves: there are no references to sets", "syntax error, unexpected @"),
    (SETS + "add element ip t @p { 80 }\n", 2, 18, "'@' is an unexpected character", "write the set's name without '@'", "syntax error, unexpected @, expecting string"),
    (add("p", "[80-90]"), 2, 22, "'[' is an unexpected character", "leave the brackets out: a range is written as 80-90, and a list as { 80, 90 }", "syntax error, unexpected '['"),
    (add("p", "(80)"), 2, 22, "'(' is an unexpected character", "leave the brackets out: a range is written as 80-90, and a list as { 80, 90 }", "taken"),
    (add("p", "!80"), 2, 22, "'!' is an unexpected character", "write the values that the set holds: there is no negation and no comparison", "syntax error, unexpected !"),
    (add("p", "80 | 90"), 2, 25, "'|' is an unexpected character", "write the value itself: there are no operators", "taken"),
    (SETS + "add element ip t p { 80, \\ 90 }\n", 2, 26, "'\\' is an unexpected character", "end the line right after it, or leave it out", "syntax error, unexpected junk, expecting comma or '}'"),
    (add("p", "*"), 2, 22, "'*' isn't supported", "to match all ports, write 0-65535", ""),
    (add("a", "* . 80"), 2, 22, "'*' isn't supported", "to match all addresses, write 0.0.0.0/0", "syntax error, unexpected ., expecting comma or '}'"),
    (add("v", "*"), 2, 22, "'*' isn't supported", "to match all addresses, write ::/0", ""),
    (add("p", "80 // web"), 2, 25, "'//' doesn't begin a comment", "write it as: 80 comment \"web\"; or close the braces before a comment with '#'", "syntax error, unexpected /, expecting number"),
    (SETS + "// web\nadd element ip t p { 80 }\n", 2, 1, "'//' doesn't begin a comment", "begin a comment with '#'", "syntax error, unexpected /"),
    (add("a", "10.0.0.1 . { 80, 90 }"), 2, 33, "'{' begins a list in an element", "write an element for each value, as: 192.0.2.1 . 80, 192.0.2.1 . 443", "syntax error, unexpected '{'"),
    (add("p", "{ 80 }"), 2, 22, "'{' begins a list in a list", "write one pair of braces around all elements, as: { 80, 443 }", "taken"),
    (add("p", "80 comment a b"), 2, 33, "'a' isn't in quotes", 'quote the comment: comment "a b"', "syntax error, unexpected string, expecting comma or '}'"),
    (add("l", "6 . 1 timeout 1 hour"), 2, 38, "'hour' can't follow the number of a time", "write 1h", "syntax error, unexpected number, expecting string"),
    (add("l", "6 . 1 timeout 5min"), 2, 36, "'5min' isn't a time", "write 5m", "syntax error, unexpected string, expecting comma or '}'"),
    (declare("type mark; flags timeout; timeout 30 seconds"), 2, 55, "'seconds' can't follow the number of a time", "write 30s", "syntax error, unexpected number, expecting string"),
    (declare("type mark; flags timeout 1h"), 2, 43, "'1h' can't follow a flag", "write the time as an item of its own: flags timeout; timeout 1h", "syntax error, unexpected string, expecting newline or semicolon or comma"),
    (declare("type mark; flags interval, timeout 1h"), 2, 53, "'1h' can't follow a flag", "write the time as an item of its own: flags interval, timeout; timeout 1h", "syntax error, unexpected string, expecting newline or semicolon or comma"),
    (SETS + "add element ip t p 80\n", 2, 20, "'80' can't follow the set's name", "write the elements in braces after it, as: { 80, 443 }", "syntax error, unexpected number, expecting '{' or '$'"),
    (SETS + "delete element ip t p\n", 2, 22, "the end of the line can't follow the set's name", "write the elements in braces after it, as: { 80, 443 }", "syntax error, unexpected newline, expecting '{' or '$'"),
    (SETS + "add element ip t p { 80\nadd element ip t p { 90 }\n", 3, 1, "'add' can't come in a list", "close the '{' of line 2 with '}' first", "syntax error, unexpected add, expecting comma or '}'"),
    (SETS + "add element ip t p { 80,\n 443\n", 4, 1, "the end of the text leaves the '{' of line 2 open", "write '}' after the last element", "syntax error, unexpected end of file, expecting comma or '}'"),
    # sets
    (SETS + "add element ip t q { 80 }\n", 2, 18, "'q' isn't a set that is declared before this place", "the sets declared before are ip t p, ip t a, ip t n, ip t v, ip t l, ip t e", "No such file or directory"),
    (SETS + "add element inet t p { 80 }\n", 2, 20, "'p' isn't a set that is declared before this place", "did you mean 'ip t p'?", "No such file or directory"),
    ("add set ip t ports { type inet_service; }\nadd element ip t prots { 80 }\n", 2, 18, "'prots' isn't a set that is declared before this place", "did you mean 'ip t ports'?", "No such file or directory"),
    ("add element ip t p { 80 }\n", 1, 18, "'p' isn't a set that is declared before this place", "declare the set first: add set [FAMILY] TABLE SET { type .. }", "No such file or directory"),
    (SETS + "add set ip t p { type inet_service; }\n", 2, 14, "'p' is declared twice, first in line 1", "declare a set once; 'add element' adds elements to it", "Could not process rule: File exists"),
    (SETS + "commit\nadd set ip t q { type inet_service; }\n", 3, 14, "'q' is declared too late", "declare all sets before the first commit, abort or round", "syntax error, unexpected newline, expecting string"),
    ("add set ip t 1 { type mark; }\n", 1, 14, "'1' isn't the name of a set", "a name begins with a letter or '_' and has at most 127 bytes", "syntax error, unexpected number, expecting string"),
    # items of a set
    (declare("flags interval; type mark"), 2, 18, "'flags' can't come before the set's type", "write the type first, as: type ipv4_addr . inet_service", "taken"),
    (declare("tpye mark"), 2, 18, "'tpye' can't come before the set's type", "did you mean 'type'?", "syntax error, unexpected string"),
    (declare("type ipv4"), 2, 23, "'ipv4' isn't a supported type", "did you mean 'ipv4_addr'?", "unknown datatype ipv4"),
    (declare("type inet_port"), 2, 23, "'inet_port' isn't a supported type", "did you mean 'inet_service'?", "unknown datatype inet_port"),
    (declare("type mac"), 2, 23, "'mac' isn't a supported type", "did you mean 'ether_addr'?", "unknown datatype mac"),
    (declare("type ipv4_addr.inet_service"), 2, 23, "'ipv4_addr.inet_service' isn't a type", "write '.' with blanks around it between types, as: ipv4_addr . inet_service", "unknown datatype ipv4_addr.inet_service"),
    (declare("type ifname"), 2, 23, "'ifname' isn't a supported type", TYPES, "taken"),
    (declare("type ipv4_addr inet_service"), 2, 33, "'inet_service' can't follow a type", "write ' . ' between types", "syntax error, unexpected string, expecting newline or semicolon or ."),
    (declare("type ipv4_addr, inet_service"), 2, 32, "',' can't follow a type", "write ' . ' between types", "syntax error, unexpected comma, expecting newline or semicolon or ."),
    (declare("type ipv4_addr : inet_service"), 2, 33, "':' makes a map of the set", "write one '.' between types; there are no maps", "syntax error, unexpected colon, expecting newline or semicolon or ."),
    (declare("type mark flags interval"), 2, 28, "'flags' comes after the end of the item", END_ITEM, "syntax error, unexpected flags, expecting newline or semicolon or ."),
    (declare("type mark; flags intervall"), 2, 35, "'intervall' isn't a flag", "did you mean 'interval'?", "syntax error, unexpected string, expecting constant or interval or dynamic or timeout"),
    (declare("type mark; flags interval timeout"), 2, 44, "'timeout' can't follow a flag without ','", "write ',' between flags", "syntax error, unexpected timeout, expecting newline or semicolon or comma"),
    (declare("type mark; flags interval, interval"), 2, 45, "'interval' is given twice", "leave one of the two out", "taken"),
    (declare("type mark; flags interval; flags timeout"), 2, 45, "'flags' is given twice", "write one item with ',' between its flags, as: flags interval, timeout", "taken"),
    (declare("type mark; size 5; size 6"), 2, 37, "'size' is given twice", "leave one of the two out", "taken"),
    (declare("type mark; size 0"), 2, 34, "'0' isn't a size", "write a number from 1 to 4294967295", "taken"),
    (declare("type mark; size"), 2, 33, "';' isn't a size", "write a number from 1 to 4294967295", "syntax error, unexpected semicolon, expecting number"),
    (declare("type mark; timeout"), 2, 36, "';' isn't a time", TIME, "syntax error, unexpected semicolon, expecting string"),
    (declare("type mark; element = { 1 }"), 2, 29, "'element' isn't an item of a set", "did you mean 'elements'?", "syntax error, unexpected element"),
    (declare("type mark; elements { 1 }"), 2, 38, "'{' can't follow 'elements'", "write '=' after 'elements'", "syntax error, unexpected '{', expecting '='"),
    (declare("type mark; elements = 1"), 2, 40, "'1' can't follow '='", "write the elements in braces, as: elements = { 10.0.0.1, 10.0.0.2 }", "syntax error, unexpected number, expecting '{' or '$'"),
    (declare("type mark; elements = { 1 }; size 5"), 2, 47, "'size' can't come after the elements", "write 'elements' last", "taken"),
    (declare("type mark; comment web"), 2, 37, "'web' isn't in quotes", 'quote the comment: comment "web"', "taken"),
    (declare("type mark; policy memroy"), 2, 36, "'memroy' isn't a policy", "did you mean 'memory'?", "syntax error, unexpected string, expecting memory or performance"),
    (declare("type mark; auto-merge"), 2, 29, "'auto-merge' isn't supported", "remove it: intervals aren't merged, and one that overlaps is refused", "auto-merge only works with interval sets"),
    (declare("typeof iifname"), 2, 25, "'iifname' isn't part of an expression that is known here", EXPRESSIONS, "taken"),
    (declare("typeof ip sadr"), 2, 28, "'sadr' isn't part of an expression that is known here", "did you mean 'saddr'?", "syntax error, unexpected string"),
    (declare("typeof ipv4_addr . inet_service"), 2, 25, "'ipv4_addr' isn't part of an expression that is known here", EXPRESSIONS, "primary expression type 'symbol' lacks typeof serialization"),
    (declare("typeof tcp . ip saddr"), 2, 29, "'.' comes before the end of an expression", PORT_WORD, "syntax error, unexpected ."),
    ("add table ip t\nadd set ip t s { typeof tcp", 2, 28, "the end of the text comes before the end of an expression", PORT_WORD, "syntax error, unexpected end of file"),
    (declare("typeof tcp"), 2, 28, "';' comes before the end of an expression", PORT_WORD, "syntax error, unexpected semicolon"),
    (declare("typeof ip saddr tcp dport"), 2, 34, "'tcp' can't follow a whole expression", "write ' . ' between expressions", "syntax error, unexpected tcp, expecting newline or semicolon or ."),
    (declare("typeof ip saddr, tcp dport"), 2, 33, "',' can't follow a whole expression", "write ' . ' between expressions", "syntax error, unexpected comma, expecting newline or semicolon or ."),
    (declare("typeof ip6 saddr . ip6 saddr . ip6 saddr . ip6 saddr . ip6 saddr"), 2, 77, "'saddr' makes the key too long", LONG_KEY, "Could not process rule: Invalid argument"),
    (declare("typeof ip saddr . tcp dport; elements = { 10.0.0.1 }"), 2, 69, "'}' ends the element after 1 field", "the set's type is ip saddr . tcp dport", "invalid data type, expected concatenation of (IPv4 address, internet network service)"),
    (declare("typeof ip saddr . tcp dport; elements = { 10.0.0.1 . 70000 }"), 2, 71, "'70000' doesn't fit field 2 (inet_service): 70000 is greater than 65535, the last port", PORT, "Service out of range"),
    ("table ip t {\n\tset s {\n\t\ttype mark\n\t}\n", 5, 1, "the end of the text leaves the '{' of line 1 open", "write '}' after the last set of the table", "syntax error, unexpected end of file"),
    ("table ip t {\n\tchain c {\n\t}\n}\n", 2, 2, "'chain' isn't supported", "remove chains and rules, or read a whole ruleset with --sets: a script has only sets", "taken"),
    ("table ip t {\n\tste s {\n\t}\n}\n", 2, 2, "'ste' can't come in a table", "did you mean 'set'?", "syntax error, unexpected string"),
    ("table ip t {\n\tset a {\n\t\ttype mark\n\tset b {\n\t\ttype mark\n\t}\n}\n", 4, 2, "'set' can't come in a set", "close the '{' of line 2 with '}' first", "syntax error, unexpected set"),
    ("table ip t {\n\tset a {\n\t\ttype mark\n\t\telements = { 1, 2\n\t}\n\tset b {\n\t\ttype mark\n\t}\n}\n", 6, 2, "'set' can't come in a set", "close the '{' of line 2 with '}' first", "syntax error, unexpected set"),
    ("table ip t {\n\tset a {\n\t\ttype mark\n\tchain c {\n\t}\n}\n", 4, 2, "'chain' can't come in a set", "close the '{' of line 2 with '}' first", "syntax error, unexpected chain"),
    ("table ip t {\n\ta {\n\t\ttype mark\n\t}\n}\n", 2, 2, "'a' can't come in a table", "write 'set' before it; if 'set' is there, close the '{' of the chain, map or set before it", "syntax error, unexpected string"),
    ("table ip t {\n\t{\n\t}\n}\n", 2, 2, "'{' can't come in a table", "write 'set' and a name before it; if it is a chain's or a map's, close it with '}'", "syntax error, unexpected '{'"),
    ("table ip t {\n\tset a {\n\t\ttype mark\n\t}\ntable ip u {\n\tset b {\n\t\ttype mark\n\t}\n}\n", 5, 1, "'table' can't come in a table", "close the '{' of line 1 with '}' first", "syntax error, unexpected table"),
    ("table ip t {\n\tadd set s {\n\t\ttype mark\n\t}\n}\n", 2, 2, "'add' can't come in a table", "write 'set' alone, or close the '{' of line 1 with '}' first", "syntax error, unexpected add"),
    ("table ip t {\n\tset s type mark\n}\n", 2, 8, "'type' can't follow the set's name", "write '{' after the set's name", "syntax error, unexpected type, expecting '{'"),
    # statements
    ("drop everything\n", 1, 1, "'drop' can't begin a statement", STATEMENTS, "syntax error, unexpected drop"),
    (SETS + "remove element ip t p { 80 }\n", 2, 1, "'remove' can't begin a statement", "did you mean 'delete'?", "syntax error, unexpected element, expecting string"),
    (SETS + "insert element ip t p { 80 }\n", 2, 1, "'insert' can't begin a statement", "did you mean 'add'?", "syntax error, unexpected element, expecting rule"),
    (SETS + "ADD element ip t p { 80 }\n", 2, 1, "'ADD' can't begin a statement", "did you mean 'add'?", "syntax error, unexpected element, expecting string"),
    (SETS + "begin\nadd element ip t p { 80 }\n", 2, 1, "'begin' can't begin a statement", "leave the statement out: a transaction begins by itself, and ends with 'commit' or 'abort'", "syntax error, unexpected newline, expecting string"),
    ("comit\n", 1, 1, "'comit' can't begin a statement", "did you mean 'commit'?", "syntax error, unexpected newline, expecting string"),
    (SETS + "element ip t p { 80 }\n", 2, 1, "'element' can't begin a statement", "write 'add', 'create', 'delete' or 'destroy' before it", "taken"),
    ("set s { type mark; }\n", 1, 1, "'set' can't begin a statement", "write it into the braces of a table, or as: add set [FAMILY] TABLE SET { .. }", "syntax error, unexpected '{', expecting string"),
    (SETS + "add element ip t p { 80 } }\n", 2, 27, "'}' closes no '{'", "remove it, or add the '{' that is missing before it", "syntax error, unexpected '}', expecting end of file or newline or semicolon"),
    ("table ip\n", 1, 9, "the end of the line isn't the name of a table", TABLE_NAME, "syntax error, unexpected newline, expecting string"),
    ("add", 1, 4, "the end of the text can't follow 'add'", "'add' is followed by table, set or element", "syntax error, unexpected end of file"),
    ("add element\n", 1, 12, "the end of the line isn't the name of a table", SET_NAME, "syntax error, unexpected newline, expecting string"),
    ("}\n", 1, 1, "'}' closes no '{'", "remove it, or add the '{' that is missing before it", "syntax error, unexpected '}'"),
    (SETS + "add elements ip t p { 80 }\n", 2, 5, "'elements' can't follow 'add'", "did you mean 'element'?", "syntax error, unexpected elements, expecting string"),
    (SETS + "add ip t p { 80 }\n", 2, 5, "'ip' can't follow 'add'", "'add' is followed by table, set or element", "syntax error, unexpected newline"),
    ("delete set ip t p\n", 1, 8, "'set' can't be deleted", "leave the statement out, or write 'flush set' to remove the elements of a set that is declared", "Could not process rule: No such file or directory"),
    ("delete table ip t\n", 1, 8, "'table' can't be deleted", "leave the statement out: a script begins without sets; later 'flush set' removes a set's elements", "Could not process rule: No such file or directory"),
    ("create set ip t s { type mark; }\n", 1, 8, "'set' can't follow 'create'", "write 'add set' to declare a set", "No such file or directory"),
    ("create table ip t\n", 1, 8, "'table' can't follow 'create'", "write 'add table' to declare a table", "taken"),
    (SETS + "delete elements ip t p { 80 }\n", 2, 8, "'elements' can't follow 'delete'", "did you mean 'element'?", "syntax error, unexpected elements"),
    (SETS + "destroy everything\n", 2, 9, "'everything' can't follow 'destroy'", "write 'destroy element' to remove some elements, or 'flush set' to remove all elements of a set", "syntax error, unexpected newline"),
    (SETS + "add p 80\n", 2, 5, "'p' can't follow 'add'", "write 'element', the set, and the elements in braces, as: add element ip t p { 80, 443 }", "syntax error, unexpected number, expecting string"),
    # files of other programs
    ("create s hash:net family inet hashsize 1024 maxelem 65536\n", 1, 8, "'s' can't follow 'create': this looks like a file of ipset", "to list its sets, run: ipset-translate restore < FILE > sets.nft; pipapo list sets.nft", "syntax error, unexpected string"),
    ("*filter\n", 1, 1, "'*' " + IPTABLES, FROM_RULES, "syntax error, unexpected *"),
    (":INPUT ACCEPT [0:0]\n", 1, 1, "':INPUT' " + IPTABLES, FROM_RULES, "syntax error, unexpected colon"),
    ("-A INPUT -s 10.0.0.0/8 -j ACCEPT\n", 1, 1, "'-A' " + IPTABLES, FROM_RULES, "syntax error, unexpected -"),
    ("table ip t\n", 1, 11, "the end of the line can't follow the table's name", "write '{' after it, or 'add table' before it", "taken"),
    ("add table ip t { }\n", 1, 16, "'{' can't follow 'add table'", "write 'table' in place of 'add table'", "taken"),
    ("add set ip t {\n", 1, 14, "'{' isn't the name of a set", SET_NAME, "syntax error, unexpected '{', expecting string"),
    (SETS + "flush set ip t p p\n", 2, 18, "'p' comes after the end of the statement", "leave it out: 'flush set' ends with the set's name", "syntax error, unexpected string, expecting end of file or newline or semicolon"),
    (SETS + "flush set ip t p { 80 }\n", 2, 18, "'{' can't follow the set's name", "'flush set' removes all elements: write 'delete element' to remove some", "syntax error, unexpected '{', expecting end of file or newline or semicolon"),
    ("add table ip t t\n", 1, 16, "'t' comes after the end of the statement", "leave it out: 'add table' ends with the table's name", "syntax error, unexpected string, expecting end of file or newline or semicolon"),
    (SETS + "ip t p { 80 }\n", 2, 1, "'ip' can't begin a statement", "write 'add element' before it", "syntax error, unexpected newline"),
    (SETS + "ip t p 80\n", 2, 1, "'ip' can't begin a statement", "to add it, write: add element ip t p { 80 }; to look it up, write the line into a key file, which 'run' takes after the script", "syntax error, unexpected newline"),
    # lines of a shell
    (SETS + "nft add element ip t p { 80 }\n", 2, 1, "'nft' can't begin a statement", "leave out 'nft', " + ALONE_LINE, "syntax error, unexpected add, expecting string"),
    (SETS + "sudo nft add element ip t p { 80 }\n", 2, 1, "'sudo' can't begin a statement", "leave out all up to 'nft', " + ALONE_LINE, "syntax error, unexpected element, expecting @ or '$'"),
    (SETS + "/usr/sbin/nft add element ip t p { 80 }\n", 2, 1, "'/usr/sbin/nft' can't begin a statement", "leave it out, " + ALONE_LINE, "syntax error, unexpected /"),
    ("#!/bin/sh\necho web\n", 2, 1, "'echo' can't begin a statement", "leave out the lines of the shell: a script has only statements, without 'nft'", "syntax error, unexpected newline"),
    ("add table ip t\nadd set ip t s { type mark\\; }\n", 2, 27, "'\\' is an unexpected character", "leave it out: only a shell needs it", "syntax error, unexpected junk, expecting newline or semicolon or ."),
    (SETS + "add element ip t p \\{ 80 \\}\n", 2, 20, "'\\' is an unexpected character", "leave it out: only a shell needs it", "syntax error, unexpected junk, expecting '{' or '$'"),
    (SETS + "add element ip t p { 80 } \\", 2, 27, "'\\' is an unexpected character", "leave it out: the text ends here", "syntax error, unexpected junk, expecting end of file or newline or semicolon"),
    (SETS + "add element ip t p { 80 } \\\nadd element ip t p { 90 }\n", 3, 1, "'add' comes after the end of the statement", "leave out the '\\' at the end of the line before, which joins the two lines", "syntax error, unexpected add, expecting end of file or newline or semicolon"),
    (SETS + "'add element ip t p { 80 }'\n", 2, 1, "''' is an unexpected character", 'leave it out: only comments are in quotes, as: comment "web"', "syntax error, unexpected junk"),
    # quotes
    (SETS + 'add element ip t p "{ 80 }"\n', 2, 20, "'\"{ 80 }\"' is a string, and can't come here", NO_QUOTES, "syntax error, unexpected quoted string, expecting '{' or '$'"),
    (SETS + '"add element ip t p { 80 }"\n', 2, 1, "'\"add element ip t p { 80 }\"' is a string, and can't come here", NO_QUOTES, "syntax error, unexpected quoted string"),
    (declare('type mark; elements = "{ 1 }"'), 2, 40, "'\"{ 1 }\"' is a string, and can't come here", NO_QUOTES, "syntax error, unexpected quoted string, expecting '{' or '$'"),
    (add("a", '"192.0.2.1 . 80"'), 2, 22, "'\"192.0.2.1 . 80\"' is a string, and values are expected", "leave out the quotes, as: 192.0.2.1 . 80", "invalid data type, expected concatenation of (IPv4 address, internet network service)"),
    (add("p", '"80"'), 2, 22, "'\"80\"' is a string, and a value is expected", "write the value without quotes", "taken"),
    (add("p", '80 "web"'), 2, 25, "'\"web\"' can't follow an element", "write 'comment' before it, or leave it out", "syntax error, unexpected quoted string, expecting comma or '}'"),
    (SETS + "add element ip t p { 80 } commit\n", 2, 27, "'commit' comes after the end of the statement", END_STATEMENT, "syntax error, unexpected string, expecting end of file or newline or semicolon"),
    (SETS + "flush ruleset\n", 2, 7, "'ruleset' can't be flushed here", "'flush ruleset' can only be the first statement", "taken"),
    ("at 10\nat 9\n", 2, 4, "'9' is before the last moment, 10", "write a later moment: in a script moments never fall", "syntax error, unexpected number, expecting string"),
    ("at noon\n", 1, 4, "'noon' isn't a moment", "write a number of milliseconds, at most 1000000000000000", "syntax error, unexpected newline"),
    ("define x = 1\n", 1, 1, "'define' isn't supported", "write the values themselves: there are no variables", "taken"),
    ("include \"x\"\n", 1, 1, "'include' isn't supported", "copy the included file to this place", "File not found: x"),
    # families
    ("table ipv4 t {\n\tset s { type mark; }\n}\n", 1, 12, "'t' can't come here: 'ipv4' isn't a family", "write 'ip' in place of 'ipv4'", "syntax error, unexpected string, expecting end of file or newline or semicolon"),
    ("table IP t {\n}\n", 1, 10, "'t' can't come here: 'IP' isn't a family", "write 'ip' in place of 'IP'", "syntax error, unexpected string, expecting end of file or newline or semicolon"),
    ("table filter ip {\n}\n", 1, 14, "'ip' can't come here: 'filter' isn't a family", FAMILIES, "syntax error, unexpected ip, expecting end of file or newline or semicolon"),
    ("add set ipv6 t s { type mark; }\n", 1, 16, "'s' can't come here: 'ipv6' isn't a family", "write 'ip6' in place of 'ipv6'", "syntax error, unexpected string, expecting '{'"),
    ("add table inet4 t\n", 1, 17, "'t' can't come here: 'inet4' isn't a family", "write 'ip' in place of 'inet4'", "syntax error, unexpected string, expecting end of file or newline or semicolon"),
    (SETS + "add element ipv4 t p { 80 }\n", 2, 18, "'t' can't come here: 'ipv4' isn't a family", "write 'ip' in place of 'ipv4'", "syntax error, unexpected string, expecting '{' or '$'"),
    (SETS + "flush set ipv4 t p\n", 2, 16, "'t' can't come here: 'ipv4' isn't a family", "write 'ip' in place of 'ipv4'", "syntax error, unexpected string, expecting end of file or newline or semicolon"),
    # names of sets that are cut short
    (SETS + "add element p { 80 }\n", 2, 15, "'{' isn't the name of a set", "did you mean 'ip t p'?", "syntax error, unexpected '{', expecting string"),
    (SETS + "add element ip t { 80 }\n", 2, 18, "'{' isn't the name of a set", "the sets declared before are ip t p, ip t a, ip t n, ip t v, ip t l, ip t e", "syntax error, unexpected '{', expecting string"),
    # words of nft's rules, and marks, in a set's items
    (declare("type tcp dport"), 2, 23, "'tcp' isn't a type", "write inet_service in place of 'tcp dport'", "syntax error, unexpected tcp"),
    (declare("type ip saddr . tcp dport"), 2, 23, "'ip' isn't a type", "write ipv4_addr in place of 'ip saddr', and inet_service in place of 'tcp dport'", "syntax error, unexpected ip"),
    (declare("type ipv4_addr . meta mark"), 2, 35, "'meta' isn't a type", "write mark in place of 'meta mark'", "syntax error, unexpected meta"),
    (declare("type ip.src . tcp.dstport"), 2, 23, "'ip.src' isn't a type", "write ipv4_addr in place of 'ip.src', and inet_service in place of 'tcp.dstport'", "unknown datatype ip.src"),
    (declare("type mark; interval"), 2, 29, "'interval' isn't an item of a set", "write 'flags' before it, as: flags interval", "syntax error, unexpected interval"),
    (declare("type mark; timeout = 1h"), 2, 37, "'=' can't come in this item", "leave it out: only 'elements' has a '=' after it", "syntax error, unexpected '=', expecting string"),
    (declare("type mark; size 65,536"), 2, 36, "',' can't come in a number", "write the digits alone, as 65536", "syntax error, unexpected comma, expecting newline or semicolon"),
    (declare("type ipv4_addr / inet_service"), 2, 33, "'/' can't follow a type", "write ' . ' between types", "syntax error, unexpected /, expecting newline or semicolon or ."),
    # statements of other languages
    (SETS + "list ruleset\n", 2, 1, "'list' can't begin a statement", "leave the statement out: 'pipapo list FILE' prints the sets of a script", "taken"),
    (SETS + "get element ip t p { 80 }\n", 2, 1, "'get' can't begin a statement", "leave the statement out: 'pipapo get FILE ip t p 80' looks a key up", "Could not process rule: No such file or directory"),
    (SETS + "update element ip t p { 80 }\n", 2, 1, "'update' can't begin a statement", "write 'add' in place of it; to change an element, write 'delete element' and then 'add element'", "syntax error, unexpected update"),
    (SETS + "rollback\n", 2, 1, "'rollback' can't begin a statement", "did you mean 'abort'?", "syntax error, unexpected newline, expecting string"),
    (SETS + "sleep 5\n", 2, 1, "'sleep' can't begin a statement", "write 'at' and the moment of what follows in milliseconds, as: at 5000", "syntax error, unexpected number, expecting string"),
    (SETS + "flush ip t p\n", 2, 7, "'ip' can't follow 'flush'", "write 'set' before it", "syntax error, unexpected ip"),
    (SETS + "flush table ip t\n", 2, 7, "'table' can't follow 'flush'", "leave the statement out: it removes rules, and a script has none", "taken"),
    (SETS + "flush element ip t p { 80 }\n", 2, 7, "'element' can't follow 'flush'", "write 'delete element' to remove some elements, or 'flush set' to remove all", "syntax error, unexpected element"),
    (SETS + "commit all\n", 2, 8, "'all' comes after the end of the statement", EXTRA, "syntax error, unexpected all, expecting string"),
    (SETS + "delete element ip t p { 80 } if exists\n", 2, 30, "'if' comes after the end of the statement", "leave it out, and write 'destroy element' in place of 'delete element'", "syntax error, unexpected string, expecting end of file or newline or semicolon"),
    (SETS + "add element ip t p { 80 }, { 443 }\n", 2, 26, "',' comes after the end of the statement", "write one list, with one pair of braces around all elements, as: { 80, 443 }", "syntax error, unexpected comma, expecting end of file or newline or semicolon"),
    # words and marks in an element
    (add("l", "6 . 1 ttl 30s"), 2, 28, "'ttl' can't follow an element", "did you mean 'timeout'?", "syntax error, unexpected string, expecting comma or '}'"),
    (add("l", "6 . 1 timeout=30s"), 2, 35, "'=' can't come in an element", "leave it out, as: timeout 30s", "syntax error, unexpected '=', expecting string"),
    (add("p", "80 comment 'web'"), 2, 33, "''' is an unexpected character", 'write the comment in double quotes, as: comment "web"', "syntax error, unexpected junk, expecting string or quoted string or string with a trailing asterisk"),
]


DECLARE = "declare the set first: add set [FAMILY] TABLE SET { type .. }"
TOO_GREAT = "doesn't fit field 1 (inet_service): 70000 is greater than 65535, the last port"

# scripts with several mistakes. Each has its line, its column, what is wrong, what to do, and whether an earlier one may be the cause
SEVERAL = [
    (
        SETS + "add element ip t p { 80-22 }\nadd element ip t a { 10.0.0.1 }\nadd element ip t p { 443 }\nadd element ip t p { web }\n",
        [
            (2, 22, "'80-22' doesn't fit field 1 (inet_service): 80 is greater than 22, and a range begins with the smaller value", "write 22-80", False),
            (3, 31, "'}' ends the element after 1 field", PAIR, False),
            (5, 22, "'web' doesn't fit field 1 (inet_service): it isn't a port", PORT, False),
        ],
    ),
    (
        "add set ip t q { type port; }\nadd element ip t q { 80 }\ncommit\n",
        [(1, 23, "'port' isn't a supported type", "did you mean 'inet_service'?", False), (2, 18, "'q' isn't a set that is declared before this place", DECLARE, True)],
    ),
    (
        SETS + "add element ip t p { 70000 }; add element ip t p { 70000 }\n",
        [(2, 22, "'70000' " + TOO_GREAT, PORT, False), (2, 52, "'70000' " + TOO_GREAT, PORT, False)],
    ),
    (
        "table ip t {\n\tset s {\n\t\ttype port\n\t}\n}\nadd element ip t s { 1 }\nbogus\nadd element ip t r { 1 }\n",
        [
            (3, 8, "'port' isn't a supported type", "did you mean 'inet_service'?", False),
            (6, 18, "'s' isn't a set that is declared before this place", DECLARE, True),
            (7, 1, "'bogus' can't begin a statement", STATEMENTS, False),
            (8, 18, "'r' isn't a set that is declared before this place", DECLARE, False),
        ],
    ),
    (
        "table ip t\nset s { type mark; }\n}\n",
        [
            (1, 11, "the end of the line can't follow the table's name", "write '{' after it, or 'add table' before it", False),
            (2, 1, "'set' can't begin a statement", "write it into the braces of a table, or as: add set [FAMILY] TABLE SET { .. }", True),
            (3, 1, "'}' closes no '{'", "remove it, or add the '{' that is missing before it", True),
        ],
    ),
    # a refused item of a set doesn't hide those after it
    (
        "add table ip t\nadd set ip t s { type inet_service; flags intervall; size 0; elements = { 80-90, web }; policy fast; }\nadd element ip t s { 70000 }\n",
        [
            (2, 43, "'intervall' isn't a flag", "did you mean 'interval'?", False),
            (2, 59, "'0' isn't a size", "write a number from 1 to 4294967295", False),
            (2, 75, "'80-90' is a range, and the set has single values", "declare the set with 'flags interval'", True),
            (2, 96, "'fast' isn't a policy", "the policies are performance and memory", False),
            (3, 22, "'70000' " + TOO_GREAT, PORT, False),
        ],
    ),
    (
        "table ip t {\n\tset s {\n\t\ttype mark\n\t\tauto-merge\n\t\telements = { 1 timeout 5s }\n\t}\n\tset r {\n\t\ttype mark\n\t\tflags timeoutt\n\t\telements = { 1 timeout 5s }\n\t}\n}\n",
        [
            (4, 3, "'auto-merge' isn't supported", "remove it: intervals aren't merged, and one that overlaps is refused", False),
            (5, 18, "'timeout' needs a set with the flag timeout", "declare the set with 'flags timeout'", False),
            (9, 9, "'timeoutt' isn't a flag", "did you mean 'timeout'?", False),
            (10, 18, "'timeout' needs a set with the flag timeout", "declare the set with 'flags timeout'", True),
        ],
    ),
    # without the type no other item can be read
    ("add set ip t s { type port; size 0; }\n", [(1, 23, "'port' isn't a supported type", "did you mean 'inet_service'?", False)]),
    # ten at most, and whether there are more
    (SETS + "add element ip t p { 70000 }\n" * 10, [(line, 22, "'70000' " + TOO_GREAT, PORT, False) for line in range(2, 12)]),
    (SETS + "add element ip t p { 70000 }\n" * 12, [(line, 22, "'70000' " + TOO_GREAT, PORT, False) for line in range(2, 14)]),
    # the rest of a script with an open brace is no statement of its own, and its end names the brace
    (
        SETS + "add element ip t p { 70000\nadd element ip t p { 70000 }\n",
        [(2, 22, "'70000' " + TOO_GREAT, PORT, False), (4, 1, "the end of the text leaves the '{' of line 2 open", "write '}' after the last element", False)],
    ),
    (
        SETS + "add element ip t p { 80, 70000\n",
        [(2, 26, "'70000' " + TOO_GREAT, PORT, False), (3, 1, "the end of the text leaves the '{' of line 2 open", "write '}' after the last element", False)],
    ),
    (
        "table ip t {\n\tset s {\n\t\ttype port\n\t\telements = { 80 }\n\t}\n",
        [(3, 8, "'port' isn't a supported type", "did you mean 'inet_service'?", False), (6, 1, "the end of the text leaves the '{' of line 1 open", "write '}' after the last set of the table", False)],
    ),
    (
        "table ip t {\n\tset s {\n\t\ttype inet_service\n\t\telements = { 80, 70000\n",
        [(4, 20, "'70000' " + TOO_GREAT, PORT, False), (5, 1, "the end of the text leaves the '{' of line 4 open", "write '}' after the last element", False)],
    ),
    # a word that begins a statement shows by itself that a brace is open
    (
        SETS + "add element ip t p { 80\nadd element ip t p { 443 }\n",
        [(3, 1, "'add' can't come in a list", "close the '{' of line 2 with '}' first", False)],
    ),
    # a table whose '{' is on the next line
    (
        "table ip t\n{\n\tset s { type mark; }\n}\n",
        [
            (1, 11, "the end of the line can't follow the table's name", "write the '{' of the next line in this one, right after the name", False),
            (2, 1, "'{' can't begin a statement", "write it in the line of what it opens, as: table ip t {", True),
        ],
    ),
]

KEY_FORM = "write the set and the values alone, as: ip filter allowed 192.0.2.1 . 80"
NO_SET_NAME = "isn't the name of a set: a key has no words of a statement"
ONE_VALUE = "write a single value: a key describes one packet"
IN_A_LINE = "write each key in a line of its own; the set's type is inet_service"
OWN_LINES = "write each key in a line of its own, as: ip filter allowed 192.0.2.1 . 80"
ONE_KEY = "'get' answers one key: write the keys into a file, one in each line, and then: pipapo run SCRIPT FILE"
AT_FIRST = "write the moment before the script, in milliseconds from the script's start, as: pipapo get --at 500 SCRIPT .."
NO_WORDS = "leave it out, and all after it: a key is only the set and its values"
NAMES_P = "write the set's family, table and name, as: ip t p"
NO_FIELDS = "isn't the name of a set: a key doesn't name fields of a packet"
TCPDUMP = "isn't the name of a set: this looks like a line of tcpdump"
FROM_CAPTURE = KEY_FORM + "; 'pipapo capture' takes packets from a capture"
NO_VERDICT = "leave it out, and all after it: a key is only the set and its values, and 'pipapo judge' prints the verdict"
BLANKS = "write a '.' with blanks around it between fields, as 192.0.2.1 . 80"
KEY_LINE = "write a line [FAMILY] TABLE SET VALUE . VALUE .., with one value for each field, or 'at' MOMENT, or 'round'"
MILLISECONDS = "write a number of milliseconds, at most 1000000000000000"

# lines of a key file for SETS, the column of the bad token, what is wrong, and what to do
KEY_MISTAKES = [
    ("ip t p 70000", 8, "'70000' " + TOO_GREAT, PORT),
    ("ip t p 80-90", 8, "'80-90' is a range", ONE_VALUE),
    ("ip t a 10.0.0.0/8 . 80", 8, "'10.0.0.0/8' is a prefix", ONE_VALUE),
    ("ip t a 10.0.0.1 . http", 19, "'http' doesn't fit field 2 (inet_service): a port is a number and not a name", "use 80"),
    ("ip t a 80 . 10.0.0.1", 8, "'80' doesn't fit field 1 (ipv4_addr): it fits field 2 (inet_service)", PAIR),
    ("ip t a 10.0.0.1", 16, "the end of the line ends the key after 1 field", PAIR),
    ("ip t a 10.0.0.1 . 80 . 90", 22, "'.' begins one more field, and the set has 2 fields", PAIR),
    ("ip t v 10.0.0.1", 8, "'10.0.0.1' doesn't fit field 1 (ipv6_addr): it is an IPv4 address", IPV6),
    ("t l TCP . 1", 5, "'TCP' doesn't fit field 1 (inet_proto): it isn't a protocol", PROTO),
    ("ip t q 80", 6, "'q' isn't a set of the script", "the script's sets are ip t p, ip t a, ip t n, ip t v, ip t l, ip t e"),
    ("p 80", 3, "'80' isn't the name of a set: 'p' is at the place of a table", NAMES_P),
    ("ip p 80", 6, "'80' isn't the name of a set: 'p' is at the place of a table", NAMES_P),
    ("ip saddr 10.0.0.1 tcp dport 80", 10, "'10.0.0.1' " + NO_FIELDS, KEY_FORM),
    ("tcp dport 80", 5, "'dport' " + NO_FIELDS, KEY_FORM),
    ("> ip t p 80", 1, "'>' is an unexpected character", KEY_FORM),
    ("ip t p > 1024", 8, "'>' is an unexpected character", ONE_VALUE),
    ("ip t p 80 > out.txt", 11, "'>' is an unexpected character", NO_WORDS),
    ("IP 10.0.0.1.1234 > 10.0.0.2.80: Flags [S]", 4, "'10.0.0.1.1234' " + TCPDUMP, FROM_CAPTURE),
    ("12:00:00.000000 IP 10.0.0.1.1234 > 10.0.0.2.80: Flags [S]", 1, "'12:00:00.000000' " + TCPDUMP, FROM_CAPTURE),
    ("sleep 1000", 7, "'1000' isn't a set of the script", "write 'at' and the moment of the keys after it in milliseconds, as: at 500"),
    ("ip t p :1024", 8, "':1024' doesn't fit field 1 (inet_service): it is a range", ONE_VALUE),
    ("ip t l 6 . 0x10/0xff", 12, "'0x10/0xff' doesn't fit field 2 (mark): a key has no mask", ONE_VALUE),
    ("inet t p 80", 8, "'p' isn't a set of the script", "did you mean 'ip t p'?"),
    ("ipv4 t p 80", 6, "'t' can't come here: 'ipv4' isn't a family", "write 'ip' in place of 'ipv4'"),
    ("ip t @p 80", 6, "'@' is an unexpected character", "write the set's name without '@'"),
    ("ip t p @n", 8, "'@' is an unexpected character", ONE_VALUE),
    ("ip t p *", 8, "'*' isn't a value", ONE_VALUE),
    ("ip t a 10.0.0.1 80", 17, "'80' can't follow a value", "write ' . ' between fields"),
    ("ip t a 10.0.0.1, 80", 16, "',' can't follow a value", "write ' . ' between fields"),
    ("ip t p 80 443", 11, "'443' can't follow the last field", IN_A_LINE),
    ("ip t a", 7, "the end of the line ends the key after 0 fields", PAIR),
    ("ip t p { 80 }", 8, "'{' can't come here: a key has no braces", KEY_FORM),
    ("ip t p 80 }", 11, "'}' can't come here: a key has no braces", KEY_FORM),
    ("add element ip t p { 80 }", 5, "'element' " + NO_SET_NAME, KEY_FORM),
    ("create element ip t p { 80 }", 8, "'element' " + NO_SET_NAME, KEY_FORM),
    ("get element ip t p { 80 }", 5, "'element' " + NO_SET_NAME, KEY_FORM),
    ("element ip t p 80", 9, "'ip' " + NO_SET_NAME, KEY_FORM),
    ("add ip t p 80", 5, "'ip' " + NO_SET_NAME, KEY_FORM),
    ("set ip t p 80", 5, "'ip' " + NO_SET_NAME, KEY_FORM),
    ('ip t a "10.0.0.1 . 80"', 8, "'\"10.0.0.1 . 80\"' is a string, and values are expected", "leave out the quotes, as: 192.0.2.1 . 80"),
    ('ip t p "80"', 8, "'\"80\"' is a string, and a value is expected", "write the value without quotes"),
    ("ip t p 80 // web", 11, "'//' doesn't begin a comment", "begin a comment with '#'"),
    ("ip t a 10.0.0.0/255.0.0.0 . 80", 8, "'10.0.0.0/255.0.0.0' is a network with a netmask", ONE_VALUE),
    ("ip t e 02:00:5e:10:00", 8, "'02:00:5e:10:00' doesn't fit field 1 (ether_addr): it isn't an Ethernet address", ETHER),
    # several values in the place of one
    ("ip t p 80..90", 8, "'80..90' is a range", ONE_VALUE),
    ("ip t p 80:90", 8, "'80:90' is a range", ONE_VALUE),
    ("ip t p 90-80", 8, "'90-80' is a range", ONE_VALUE),
    ("ip t p 80-", 8, "'80-' is a range", ONE_VALUE),
    ("ip t p 70000-80000", 8, "'70000-80000' is a range", ONE_VALUE),
    ("ip t p ssh-443", 8, "'ssh-443' is a range", "write a single port, as a number: a key describes one packet"),
    ("ip t a 10.0.0.9-10.0.0.1 . 80", 8, "'10.0.0.9-10.0.0.1' is a range", ONE_VALUE),
    ("ip t a 10.0.0.1..10.0.0.9 . 80", 8, "'10.0.0.1..10.0.0.9' is a range", ONE_VALUE),
    ("ip t a 10.0.0.1-20 . 80", 8, "'10.0.0.1-20' is a range", ONE_VALUE),
    ("ip t v 2001:db8::1-2001:db8::5", 8, "'2001:db8::1-2001:db8::5' is a range", ONE_VALUE),
    ("ip t p 80 - 90", 11, "'-' makes a range of the value before it", ONE_VALUE),
    ("ip t p 80 to 90", 11, "'to' makes a range of the value before it", ONE_VALUE),
    ("ip t a 10.0.0.1 -10.0.0.9 . 80", 17, "'-10.0.0.9' makes a range of the value before it", ONE_VALUE),
    ("ip t a 10.0.0.0/33 . 80", 8, "'10.0.0.0/33' is a prefix", ONE_VALUE),
    ("ip t a 10.0.0/24 . 80", 8, "'10.0.0/24' is a prefix", ONE_VALUE),
    ("ip t a 10.0.0.0 /8 . 80", 17, "'/8' makes a prefix of the value before it", ONE_VALUE),
    ("ip t v 2001:db8/32", 8, "'2001:db8/32' is a prefix", ONE_VALUE),
    ("ip t e 02:00:5e:10:00:00/24", 8, "'02:00:5e:10:00:00/24' is a prefix", ONE_VALUE),
    ("ip t a 10.0.0.0/0.0.0.255 . 80", 8, "'10.0.0.0/0.0.0.255' is a network with a netmask", ONE_VALUE),
    ("ip t a 10.0.0.* . 80", 8, "'10.0.0.' with '*' isn't one value", ONE_VALUE),
    ("ip t a any . 80", 8, "'any' isn't a value", ONE_VALUE),
    ("ip t p != 80", 8, "'!' is an unexpected character", ONE_VALUE),
    ("ip t p 80|443", 10, "'|' is an unexpected character", ONE_VALUE),
    ("ip t a 80-90 . 10.0.0.1", 8, "'80-90' doesn't fit field 1 (ipv4_addr): it fits field 2 (inet_service)", "write one value in each field; " + PAIR),
    # one value in the form of several
    ("ip t a 10.0.0.1/32 . 80", 8, "'10.0.0.1/32' is a prefix", "write the value alone: 10.0.0.1"),
    ("ip t v 2001:db8::1/128", 8, "'2001:db8::1/128' is a prefix", "write the value alone: 2001:db8::1"),
    ("ip t a 10.0.0.1/255.255.255.255 . 80", 8, "'10.0.0.1/255.255.255.255' is a network with a netmask", "write the value alone: 10.0.0.1"),
    ("ip t p 80-80", 8, "'80-80' is a range", "write the value alone: 80"),
    # several keys in the place of one
    ("ip t p { 80, 443 }", 8, "'{' can't come here: a key has no braces", OWN_LINES),
    ("ip t a 10.0.0.1 . { 80, 443 }", 19, "'{' can't come here: a key has no braces", OWN_LINES),
    ("ip t p 80, 443", 10, "',' can't follow the last field", IN_A_LINE),
    ("ip t p 80 ip t p 443", 11, "'ip' can't follow the last field", IN_A_LINE),
    ("ip t p 80; ip t p 443", 10, "';' can't follow the last field", IN_A_LINE),
    ("ip t a 10.0.0.1, 10.0.0.2 . 80", 16, "',' can't follow a value", OWN_LINES),
    # words that a key doesn't have
    ("ip t p 80 at 5", 11, "'at' can't follow the last field", "write the moment in milliseconds in a line of its own before the key, as: at 500"),
    ("ip t p 80 --at 5", 11, "'--at' can't follow the last field", "write the moment in milliseconds in a line of its own before the key, as: at 500"),
    ("ip t p 80 accept", 11, "'accept' can't follow the last field", NO_VERDICT),
    ("ip t p 80 drop", 11, "'drop' can't follow the last field", NO_VERDICT),
    ("ip t p 80 : accept", 11, "':' can't follow the last field", NO_WORDS),
    ("ip t l 6 . 1 timeout 5s", 14, "'timeout' can't follow the last field", NO_WORDS),
    ("ip t p 80 policy drop", 11, "'policy' can't follow the last field", NO_VERDICT),
    ("ip t p 80 => accept", 11, "'=' can't follow the last field", NO_WORDS),
    ("ip t p 80 element 0", 11, "'element' can't follow the last field", NO_WORDS),
    ("ip t p 80 counter", 11, "'counter' can't follow the last field", NO_WORDS),
    ('ip t p 80 comment "web"', 11, "'comment' can't follow the last field", "begin a comment with '#'"),
    ("ip t p 80 -- web", 11, "'--' doesn't begin a comment", "begin a comment with '#'"),
    ("lookup ip t p 80", 8, "'ip' " + NO_SET_NAME, KEY_FORM),
    # signs
    ("ip t p (80)", 8, "'(' is an unexpected character", "leave the brackets out, as: ip filter allowed 192.0.2.1 . 80"),
    ("ip t v [2001:db8::1]", 8, "'[' is an unexpected character", "leave the brackets out, as: ip filter allowed 192.0.2.1 . 80"),
    ("ip t v fe80::1%eth0", 15, "'%' is an unexpected character", "leave it out, and the interface after it: an address has none"),
    ("ip t p 'http'", 8, "''' is an unexpected character", "leave out the quotes: a value has none"),
    ('ip t p "80', 8, "'\"' is an unexpected character", "leave out the quotes: a value has none"),
    ('ip t a 10.0.0.1 . "http"', 19, "'\"http\"' doesn't fit field 2 (inet_service): a port is a number and not a name", "use 80"),
    ("ip t p 80;", 10, "';' can't follow the last field", "leave it out: a key ends with its last value"),
    ("ip t p 80, # web", 10, "',' can't follow the last field", "leave it out: a key ends with its last value"),
    ("ip t p , 80", 8, "',' can't follow the set's name", "leave it out; the set's type is inet_service"),
    ("ip t p = 80", 8, "'=' can't follow the set's name", "leave it out; the set's type is inet_service"),
    ("ip t p . 80", 8, "'.' can't follow the set's name", "leave it out; the set's type is inet_service"),
    # between fields
    ("ip t a 10.0.0.1 . . 80", 19, "'.' has no value before it", "write one '.' between fields; " + PAIR),
    ("ip t a 10.0.0.1 - 80", 17, "'-' can't follow a value", "write ' . ' between fields"),
    ("ip t a 10.0.0.1 : 80", 17, "':' can't follow a value", "write ' . ' between fields"),
    ("ip t a 10.0.0.1 at 5", 17, "'at' ends the key after 1 field", PAIR),
    ("ip t a 10.0.0.1. 80", 8, "'10.0.0.1.' doesn't fit field 1 (ipv4_addr): it is two fields in one word", BLANKS),
    ("ip t a 10.0.0.1/443", 8, "'10.0.0.1/443' doesn't fit field 1 (ipv4_addr): it is two fields in one word", BLANKS),
    ("ip t p 80/tcp", 8, "'80/tcp' doesn't fit field 1 (inet_service): a port is a number alone", "write 80; a protocol is a field of its own, of the type inet_proto"),
    ("ip t p -80", 8, "'-80' doesn't fit field 1 (inet_service): it isn't a port", PORT),
    ("ip t p 80.", 8, "'80.' doesn't fit field 1 (inet_service): it isn't a port", PORT),
    # moments and sections
    ("at 5 ip t p 80", 6, "'ip' can't follow a moment", "end the line after the moment, and write the key in the next one"),
    ("at", 3, "the end of the line isn't a moment", MILLISECONDS),
    ("at=5", 3, "'=' isn't a moment", MILLISECONDS),
    ("at 5s", 4, "'5s' isn't a moment", MILLISECONDS),
    ("AT 5", 4, "'5' isn't a set of the script", "write 'at' in lower case, and then the moment in milliseconds, as: at 500"),
    ("round 2", 7, "'2' can't follow 'round'", "write 'round' alone in its line"),
    ("10.0.0.1 . 80", 1, "'10.0.0.1' can't come here", KEY_LINE),
    ("ip t", 5, "the end of the line comes too early", "complete the line: [FAMILY] TABLE SET VALUE . VALUE .."),
]

NO_SET_Q = "the script's sets are ip t p, ip t a, ip t n, ip t v, ip t l, ip t e"

# key files for SETS with several mistakes. Each has its line, its column, what is wrong and what to do. No earlier one is the cause
SEVERAL_KEYS = [
    (
        "ip t p 70000\nip t p 80\nip t q 80\n\nip t a 10.0.0.1 # no port\nip t p 80-90\nround\nip t p $x\n",
        [
            (1, 8, "'70000' " + TOO_GREAT, PORT, False),
            (3, 6, "'q' isn't a set of the script", NO_SET_Q, False),
            (5, 26, "the end of the line ends the key after 1 field", PAIR, False),
            (6, 8, "'80-90' is a range", ONE_VALUE, False),
            (8, 8, "'$' is an unexpected character", "write the values themselves: there are no variables", False),
        ],
    ),
    # a line that goes on in the next one
    (
        "ip t p 70000 \\\n443\nip t p 70000\n",
        [
            (1, 8, "'70000' " + TOO_GREAT, PORT, False),
            (3, 8, "'70000' " + TOO_GREAT, PORT, False),
        ],
    ),
    # the last line has no line feed
    ("ip t p 70000\nip t a 10.0.0.1", [(1, 8, "'70000' " + TOO_GREAT, PORT, False), (2, 16, "the end of the text ends the key after 1 field", PAIR, False)]),
    # ten at most, and whether there are more
    ("ip t p 70000\n" * 10, [(line, 8, "'70000' " + TOO_GREAT, PORT, False) for line in range(1, 11)]),
    ("ip t p 70000\n" * 12, [(line, 8, "'70000' " + TOO_GREAT, PORT, False) for line in range(1, 13)]),
    # a later line of another kind is shown
    ("ip t p 70000\nadd table ip t\n", [(1, 8, "'70000' " + TOO_GREAT, PORT, False), (2, 5, "'table' " + NO_SET_NAME, KEY_FORM, False)]),
]

# the words of the key of a `get` on SETS, the column of the bad token, what is wrong, and what to do
GET_MISTAKES = [
    ("ip t p 70000", 8, "'70000' " + TOO_GREAT, PORT),
    ("ip t p http", 8, "'http' doesn't fit field 1 (inet_service): a port is a number and not a name", "use 80"),
    ("ip t a 10.0.0.1 80", 17, "'80' can't follow a value", "write ' . ' between fields"),
    ("ip t a 10.0.0.1:80", 8, "'10.0.0.1:80' doesn't fit field 1 (ipv4_addr): it is two fields in one word", BLANKS),
    ("ip t a 80 . 10.0.0.1", 8, "'80' doesn't fit field 1 (ipv4_addr): it fits field 2 (inet_service)", PAIR),
    ("ip t p 80-90", 8, "'80-90' is a range", ONE_VALUE),
    ("ip t q 80", 6, "'q' isn't a set of the script", "the script's sets are ip t p, ip t a, ip t n, ip t v, ip t l, ip t e"),
    ("p 80", 3, "'80' isn't the name of a set: 'p' is at the place of a table", NAMES_P),
    ("ip saddr 10.0.0.1 tcp dport 80", 10, "'10.0.0.1' " + NO_FIELDS, KEY_FORM),
    ("sleep 1000 ip t p 80", 7, "'1000' isn't a set of the script", AT_FIRST),
    ("ip t", 6, "the end of the text comes before the key is complete", "write [FAMILY] TABLE SET VALUE . VALUE .., with one value for each field"),
    ("ip t @p 80", 6, "'@' is an unexpected character", "write the set's name without '@'"),
    ("ip t p { 80 }", 8, "'{' can't come here: a key has no braces", KEY_FORM),
    ("add element ip t p { 80 }", 5, "'element' " + NO_SET_NAME, KEY_FORM),
    ("element ip t p 80", 9, "'ip' " + NO_SET_NAME, KEY_FORM),
    ("ip t a 10.0.0.1", 17, "the end of the text ends the key after 1 field", PAIR),
    ("ip t a 10.0.0.1 . 80 . 90", 22, "'.' begins one more field, and the set has 2 fields", PAIR),
    ("ip t p 80 443", 11, "'443' can't follow the last field", ONE_KEY),
    ("ip t p 80 ip t p 443", 11, "'ip' can't follow the last field", ONE_KEY),
    ("ip t p 80, 443", 10, "',' can't follow the last field", ONE_KEY),
    ("ip t p { 80, 443 }", 8, "'{' can't come here: a key has no braces", ONE_KEY),
    ("ip t a 10.0.0.1/32 . 80", 8, "'10.0.0.1/32' is a prefix", "write the value alone: 10.0.0.1"),
    ("ip t p 80 at 5", 11, "'at' can't follow the last field", AT_FIRST),
    ("at 5 ip t p 80", 6, "'ip' can't follow a moment", AT_FIRST),
    ("at now ip t p 80", 4, "'now' can't come after 'at'", AT_FIRST),
    ("ip t p 80 accept", 11, "'accept' can't follow the last field", NO_VERDICT),
    ("ip t p 80 comment web", 11, "'comment' can't follow the last field", NO_WORDS),
    ("ip t p dport", 8, "'dport' doesn't fit field 1 (inet_service): it isn't a port", PORT),
    ("flush set ip t p", 7, "'set' " + NO_SET_NAME, KEY_FORM),
    ("10.0.0.1 . 80", 1, "'10.0.0.1' can't come here", "write [FAMILY] TABLE SET VALUE . VALUE .., with one value for each field"),
]

RULES_FILE = "write 'chain NAME { RULES }', with rules such as 'in ip t s accept', and at the end 'policy accept' or 'policy drop'"
FOR_RULESET = "write chains such as 'chain main { in ip t s accept }' and then 'policy drop'; --sets reads a ruleset as SCRIPT"
RULE = "a rule is 0 to 4 tests such as 'in ip t s' or 'out ip t s', and then accept, drop, return or jump CHAIN"
CHAIN_NAME = "a chain is chain NAME { RULES }; a name begins with a letter or '_'"
NOT = "write 'out' in place of 'in' to test that the set has no element for the packet, as: out ip t s"
NO_ACT = "write accept, drop, return or jump CHAIN after the tests, in the same line"
MAIN = "chain main { in ip t p accept }\n"

# rules files for SETS, the line and the column of the bad token, what is wrong, and what to do
RULES_MISTAKES = [
    ("table inet filter {\n\tchain input {\n\t}\n}\n", 1, 1, "'table' can't come here: this looks like a ruleset or a script", FOR_RULESET),
    ("flush ruleset\n", 1, 1, "'flush' can't come here: this looks like a ruleset or a script", FOR_RULESET),
    ("chain input { type filter hook input priority 0; policy drop; }\n", 1, 15, "'type' can't come here: this looks like a chain of a ruleset", FOR_RULESET),
    ("policy drop\n", 1, 1, "'policy' can't come before the first chain", "write at least one chain before it, as: chain main { in ip t s accept }"),
    (MAIN + "policy drop\npolicy accept\n", 3, 1, "'policy' can't come after the policy", "write one policy, and write it last"),
    ("chain main { policy drop; }\n", 1, 14, "'policy' can't come in a chain", "write the policy after the last chain, in a line of its own"),
    (MAIN[:-1] + " policy drop\n", 1, 33, "'policy' can't follow the '}' of a chain", "write it in a line of its own"),
    (MAIN + "policy reject\n", 2, 8, "'reject' isn't a policy", "write 'policy accept' or 'policy drop'"),
    (MAIN + "policy\n", 2, 7, "the end of the line isn't a policy", "write 'policy accept' or 'policy drop'"),
    (MAIN + "polizy drop\n", 2, 1, "'polizy' can't come here", "did you mean 'policy'?"),
    (MAIN + "default drop\n", 2, 1, "'default' can't come here", RULES_FILE),
    ("in ip t p accept\npolicy drop\n", 1, 1, "'in' can't come outside of a chain", "write rules in a chain, as: chain main { in ip t s accept }"),
    ("chain main { in ip t p reject }\n", 1, 24, "'reject' can't come here", "did you mean 'drop'?"),
    ("chain main { in ip t p then accept }\n", 1, 24, "'then' can't come here", RULE),
    ("chain main { in ip t p acept }\n", 1, 24, "'acept' can't come here", "did you mean 'accept'?"),
    ("chain a { }\nchain b { }\nchain c { }\nchain d { }\nchain e { }\n", 5, 1, "'chain' is one chain too many", "a rules file has 4 chains at most"),
    # jumps, and the names of chains
    ("chain main { jump web }\nchain web { in ip t p accept }\npolicy drop\n", 1, 19, "'web' isn't a chain that is declared before this place", "move 'chain web' of line 2 before this chain"),
    ("chain main { jump web }\npolicy drop\n", 1, 19, "'web' isn't a chain that is declared before this place", "declare it before this chain, as: chain web { in ip t s accept }"),
    ("chain web { }\nchain main { jump wbe }\npolicy drop\n", 2, 19, "'wbe' isn't a chain that is declared before this place", "did you mean 'web'?"),
    ("chain web { }\nchain ssh { }\nchain main { jump other }\npolicy drop\n", 3, 19, "'other' isn't a chain that is declared before this place", "the chains before this one are web, ssh"),
    ("chain main { jump main }\npolicy drop\n", 1, 19, "'main' is the name of this chain itself", "jump to a chain that is declared before this one"),
    ("chain web { }\nchain main { jump }\npolicy drop\n", 2, 19, "'}' isn't the name of a chain", "write the name of an earlier chain after 'jump'"),
    ("chain web { }\nchain main { goto web }\npolicy drop\n", 2, 14, "'goto' can't come here", "write two rules with the same tests: one with 'jump CHAIN', and after it one with 'return'"),
    ("chain main { in ip t p continue }\npolicy drop\n", 1, 24, "'continue' can't come here", "leave the whole rule out: a packet goes on with the next rule by itself"),
    ("chain web { }\nchain main { jump web in ip t p accept }\npolicy drop\n", 2, 23, "'in' can't follow 'jump web'", "end the rule before it, with ';' or a new line"),
    ("chain web { }\n\nchain web { }\npolicy drop\n", 3, 7, "'web' is declared twice, first in line 1", "give this chain another name, or write its rules into the first one"),
    ("chain { in ip t p accept }\npolicy drop\n", 1, 7, "'{' isn't the name of a chain", CHAIN_NAME),
    ("chain 1st { in ip t p accept }\npolicy drop\n", 1, 7, "'1st' isn't the name of a chain", CHAIN_NAME),
    ("chain ip t input { in ip t p accept }\npolicy drop\n", 1, 10, "'t' can't follow the name of a chain", "write the name alone: a chain has no family and no table"),
    ("chain main\n{ in ip t p accept }\npolicy drop\n", 1, 11, "the end of the line can't follow the name of a chain", "write '{' after the name, in the same line"),
    # tests
    ("chain main { not ip t p accept }\npolicy drop\n", 1, 14, "'not' can't come here", NOT),
    ("chain main { not in ip t p accept }\npolicy drop\n", 1, 14, "'not' can't come here", NOT),
    ("chain main { in not ip t p accept }\npolicy drop\n", 1, 21, "'ip' isn't the name of a set", NOT),
    ("chain main { ! in ip t p accept }\npolicy drop\n", 1, 14, "'!' is an unexpected character", NOT),
    ("chain main { in != ip t p accept }\npolicy drop\n", 1, 17, "'!' is an unexpected character", NOT),
    ("chain main { in @p accept }\npolicy drop\n", 1, 17, "'@' is an unexpected character", "write the set's family, table and name without '@', as: in ip t p"),
    ("chain main { in ip t @p accept }\npolicy drop\n", 1, 22, "'@' is an unexpected character", "write the set's family, table and name without '@', as: in ip t p"),
    ("chain main { in @q accept }\npolicy drop\n", 1, 17, "'@' is an unexpected character", "write the set's family, table and name without '@', as: ip t s"),
    ("chain main { in p accept }\npolicy drop\n", 1, 19, "'accept' isn't the name of a set", "write the set's family, table and name, as: in ip t p"),
    ("chain main { in ip p accept }\npolicy drop\n", 1, 22, "'accept' isn't the name of a set", "write the set's family, table and name, as: in ip t p"),
    ("chain main { in ip t }\npolicy drop\n", 1, 22, "'}' isn't the name of a set", "a test names a set by its family, table and name, as: in ip t s"),
    ("chain main { in ipv4 t p accept }\npolicy drop\n", 1, 22, "'t' can't come here: 'ipv4' isn't a family", "write 'ip' in place of 'ipv4'"),
    ("chain main { in ip t p, in ip t n accept }\npolicy drop\n", 1, 23, "',' can't come between tests", "write the tests one after another if a packet has to meet all, or a rule for each if one is enough"),
    ("chain main { in ip t p and in ip t n accept }\npolicy drop\n", 1, 24, "'and' can't come between tests", "write the tests one after another if a packet has to meet all, or a rule for each if one is enough"),
    ("chain main { in ip t p && in ip t n accept }\npolicy drop\n", 1, 24, "'&' is an unexpected character", "write the tests one after another if a packet has to meet all, or a rule for each if one is enough"),
    ("chain main { in { ip t p, ip t n } accept }\npolicy drop\n", 1, 17, "'{' can't come here: a test names one set", "write a rule for each set, as: in ip t first accept; in ip t second accept"),
    ("chain main { out { ip t p, ip t n } drop }\npolicy drop\n", 1, 18, "'{' can't come here: a test names one set", "write a test for each set, one after another, as: out ip t first out ip t second drop"),
    ("chain main { in (ip t p) accept }\npolicy drop\n", 1, 17, "'(' is an unexpected character", "leave the brackets out: a test is in or out, and the set's family, table and name, as: in ip t s"),
    ("chain main { in set ip t p accept }\npolicy drop\n", 1, 21, "'ip' isn't the name of a set", "leave out 'set': a test is in or out, and the set's family, table and name, as: in ip t s"),
    ("chain main { tcp dport @p accept }\npolicy drop\n", 1, 14, "'tcp' can't come here: a rule names no fields of a packet", "test a set, by its family, table and name, as: in ip t s accept"),
    ("chain main { ip saddr . tcp dport @a accept }\npolicy drop\n", 1, 14, "'ip' can't come here: a rule names no fields of a packet", "test a set, by its family, table and name, as: in ip t s accept"),
    ("chain main { " + "in ip t p " * 5 + "accept }\npolicy drop\n", 1, 54, "'in' is one test too many", "a rule has 4 tests at most"),
    # acts, and the ends of rules
    ("chain main { in ip t p }\npolicy drop\n", 1, 24, "'}' ends a rule that decides nothing", NO_ACT),
    ("chain main { in ip t p\naccept }\npolicy drop\n", 1, 23, "the end of the line ends a rule that decides nothing", NO_ACT),
    ("chain main { in ip t p accept in ip t n drop }\npolicy drop\n", 1, 31, "'in' can't follow 'accept'", "end the rule before it, with ';' or a new line"),
    ("chain main { in ip t p accept comment }\npolicy drop\n", 1, 31, "'comment' can't follow 'accept'", "leave it out: a rule ends with accept, drop, return or jump CHAIN"),
    ("chain main { in ip t p counter accept }\npolicy drop\n", 1, 24, "'counter' can't come here", "leave it out: a rule has only tests of sets, and then accept, drop, return or jump CHAIN"),
    ("chain main { in ip t p DROP }\npolicy drop\n", 1, 24, "'DROP' can't come here", "did you mean 'drop'?"),
    ("chain main { in ip t p allow }\npolicy drop\n", 1, 24, "'allow' can't come here", "did you mean 'accept'?"),
    ("chain main {\n" + "in ip t p accept\n" * 65 + "}\npolicy drop\n", 66, 1, "'in' begins one rule too many", "a rules file has 64 rules at most"),
    # braces and the end
    ("chain a {\n\tin ip t p accept\nchain main { jump a }\npolicy drop\n", 3, 1, "'chain' can't come in a chain", "close the '{' of line 1 with '}' first"),
    ("chain a {\n\tin ip t p accept\npolicy drop\n", 3, 1, "'policy' can't come in a chain", "close the '{' of line 1 with '}' first"),
    ("chain a {\n\tin ip t p accept\n", 3, 1, "the end of the text leaves the '{' of line 1 open", "write '}' after the last rule of the chain"),
    (MAIN + "}\npolicy drop\n", 2, 1, "'}' closes no '{'", "remove it, or add the '{' that is missing before it"),
    (MAIN, 2, 1, "the end of the text comes too early", "close each '{', and write 'policy accept' or 'policy drop' at the end"),
]

SET_FIRST = "write the set first, and then a selector for each field"
PAIR_SELECTOR = "for this field: the set's type is ipv4_addr . inet_service"

# plans for SETS, the line and the column of the bad token, what is wrong, and what to do
PLAN_MISTAKES = [
    # nft's form of a rule
    ("ip saddr . dport @a\n", 1, 10, "'.' isn't the name of a set", SET_FIRST + ", as: ip t a ip_saddr . dport"),
    ("ip saddr . tcp dport @a\n", 1, 10, "'.' isn't the name of a set", SET_FIRST + ", as: ip t a ip_saddr . dport"),
    ("ip saddr @v\n", 1, 10, "'@' is an unexpected character", SET_FIRST + ", as: ip t v ip6_saddr"),
    ("tcp dport @p\n", 1, 5, "'dport' isn't the name of a set", SET_FIRST + ", as: ip t p dport"),
    ("p dport\n", 1, 3, "'dport' isn't the name of a set", SET_FIRST + ", as: ip t p dport"),
    ("ip t @p dport\n", 1, 6, "'@' is an unexpected character", SET_FIRST + ", as: ip t p dport"),
    ("ipv4 t p dport\n", 1, 6, "'t' can't come here: 'ipv4' isn't a family", "write 'ip' in place of 'ipv4'"),
    ("ip t q dport\n", 1, 6, "'q' isn't a set of the script", "the script's sets are ip t p, ip t a, ip t n, ip t v, ip t l, ip t e"),
    # selectors
    ("ip t a ip saddr . tcp dport\n", 1, 8, "'ip' isn't a selector", "write ip_saddr in place of 'ip saddr', and dport in place of 'tcp dport'"),
    ("ip t a ip_saddr . tcp dport\n", 1, 19, "'tcp' isn't a selector", "write dport in place of 'tcp dport'"),
    ("ip t e ether daddr\n", 1, 8, "'ether' isn't a selector", "write ether_daddr in place of 'ether daddr'"),
    ("ip t a dport . ip_saddr\n", 1, 8, "'dport' doesn't fit the type of this field", "write ip_saddr or ip_daddr " + PAIR_SELECTOR),
    ("ip t a ip_saddr . proto\n", 1, 19, "'proto' doesn't fit the type of this field", "write sport or dport " + PAIR_SELECTOR),
    ("ip t a saddr . dport\n", 1, 8, "'saddr' isn't a selector", "write ip_saddr or ip_daddr " + PAIR_SELECTOR),
    ("ip t a ip_saddr.dport\n", 1, 8, "'ip_saddr.dport' isn't a selector", "write '.' with blanks around it between selectors, as: ip_saddr . dport"),
    ("ip t a ip.src . tcp.dstport\n", 1, 8, "'ip.src' isn't a selector", "write ip_saddr in place of 'ip.src', and dport in place of 'tcp.dstport'"),
    ("ip t a ip_saddr . tcp.dstport\n", 1, 19, "'tcp.dstport' isn't a selector", "write dport in place of 'tcp.dstport'"),
    ("ip t e eth.src\n", 1, 8, "'eth.src' isn't a selector", "write ether_saddr in place of 'eth.src'"),
    ("ip t a ip.addr . dport\n", 1, 8, "'ip.addr' isn't a selector", "write ip_saddr or ip_daddr " + PAIR_SELECTOR),
    ("ip.src . tcp.dstport\n", 1, 8, "'.' isn't the name of a set", SET_FIRST + "; write ip_saddr in place of 'ip.src', and dport in place of 'tcp.dstport'"),
    ("ip t p dprt\n", 1, 8, "'dprt' isn't a selector", "did you mean 'dport'?"),
    ("ip t p DPORT\n", 1, 8, "'DPORT' isn't a selector", "did you mean 'dport'?"),
    ("ip t l proto . mark\n", 1, 16, "'mark' can't come here: no packet of a capture has a mark", "name a set without marks: this set's type is inet_proto . mark"),
    ("t p 80\n", 1, 5, "'80' is a value, and a selector is expected", "write sport or dport for this field: the set's type is inet_service"),
    # what is between selectors, and after them
    ("ip t a ip_saddr, dport\n", 1, 16, "',' can't come between selectors", "write ' . ' between selectors"),
    ("ip t a ip_saddr dport\n", 1, 17, "'dport' can't follow a selector", "write ' . ' between selectors"),
    ("ip t a ip_saddr\n", 1, 16, "the end of the line comes after 1 field", PAIR),
    ("ip t p dport . sport\n", 1, 14, "'.' begins one more field, and the set has 1 field", "the set's type is inet_service"),
    ("ip t p dport accept\n", 1, 14, "'accept' can't follow the last selector", "leave it out, or write it in a line of its own; the set's type is inet_service"),
    ("ip t p dport;\n", 1, 13, "';' can't follow the last selector", "leave it out, or write it in a line of its own; the set's type is inet_service"),
    ('ip t p "dport"\n', 1, 8, "'\"dport\"' is a string, and can't come here", "leave out the quotes"),
    ("ip t p { dport }\n", 1, 8, "'{' can't come here: a plan has no braces", "write the set and its selectors alone, as: ip t s ip_saddr . dport"),
    ("ip t p dport\n" * 5, 5, 1, "'ip' begins one line too many", "a plan has 4 lines at most"),
]

NO_PACKET = "key:1:1: the words name no packet\nhelp: write [FAMILY] TABLE SET VALUE . VALUE ..; a moment in milliseconds comes before the script, as: --at 500\n"

RUN = "usage: pipapo run SCRIPT KEYS [--threads N] [--keep-going] [--sets] [--elements]"
LIST = "usage: pipapo list SCRIPT [--keep-going] [--sets] [--json]"
JUDGE = "usage: pipapo judge SCRIPT RULES KEYS [--threads N] [--keep-going] [--sets]"
CAPTURE = "usage: pipapo capture SCRIPT PLAN PCAP [--threads N] [--keep-going] [--sets] [--elements]"
DRILL = "usage: pipapo drill SEED COUNT [--threads N]"
COMPARE = "usage: pipapo compare SCRIPT1 SCRIPT2 [--keep-going] [--sets]"
STAT = "usage: pipapo stat SCRIPT [--keep-going] [--sets]"
GET = "usage: pipapo get [--at MOMENT] [--keep-going] [--sets] SCRIPT [FAMILY] TABLE SET VALUE . VALUE .."
COMMANDS = "the commands are get, explain, compare, stat, run, judge, capture, desk, drill, list, dump, sets and help"
ALONE = "write it alone, or --help alone after a command"
FROM_NFT = "write the kernel's sets into a file, and list that: nft list ruleset > rules.nft; pipapo list --sets rules.nft"
FROM_IPSET = "to list the sets of ipset, run: ipset save | ipset-translate restore > sets.nft; pipapo list sets.nft"
FROM_ELEMENT = "a file's name comes before the set: nft list ruleset > rules.nft; pipapo get --sets rules.nft [FAMILY] TABLE SET VALUE"
HELP_PAGE = "write 'pipapo help' alone, or a command after it, as: pipapo help run"
NO_OPTION = "isn't an option: a file's name comes after a command"
STATEMENT = "write the statement into the script's file, and then: pipapo list FILE"
THREADS = "write a number from 1 to 16"
MOMENTS = "write a number from 0 to 1000000000000000"
TWICE = "leave one of the two out"

# words that are no command, what is wrong, and what to do
WORD_MISTAKES = [
    ("", "a command is missing", COMMANDS),
    ("lits a.nft", "'lits' isn't a command", "did you mean 'list'?"),
    ("rn a.nft b.keys", "'rn' isn't a command", "did you mean 'run'?"),
    ("version", "'version' isn't a command", "did you mean '--version'?"),
    ("a.nft b.keys", "'a.nft' isn't a command", COMMANDS),
    # words that nft 1.0.6 takes in its own way
    ("list set ip filter allowed", "'list set' is a command of nft: here a script's file comes after 'list'", FROM_NFT),
    ("list table ip filter", "'list table' is a command of nft: here a script's file comes after 'list'", FROM_NFT),
    ("sets table ip t", "'table' is a word of nft: here a file's name comes after 'sets'", "pipe the kernel's sets into it: nft list ruleset | pipapo sets -"),
    ("stat set ip t p", "'set' is a word of nft: here a file's name comes after 'stat'", "pipe the kernel's sets into it: nft list ruleset | pipapo stat --sets -"),
    ("nft list ruleset", "'nft' isn't a command: pipapo reads files, and not the kernel's sets", FROM_NFT),
    ("nft -f a.nft", "'-f' isn't an option: a file's name comes after a command", "to run a script and print its sets, write: pipapo list a.nft"),
    ("-f a.nft", "'-f' isn't an option: a file's name comes after a command", "to run a script and print its sets, write: pipapo list a.nft"),
    ("-c -f a.nft", "'-f' isn't an option: a file's name comes after a command", "to run a script and print its sets, write: pipapo list a.nft"),
    ("--file", "'--file' isn't an option: a file's name comes after a command", "to run a script and print its sets, write: pipapo list FILE"),
    ("--file=a.nft", f"'--file' {NO_OPTION}", "to run a script and print its sets, write: pipapo list a.nft"),
    ("--file=a.nft run", f"'--file' {NO_OPTION}", "write files after the command, in their order: pipapo run a.nft .."),
    ("-f a.nft run b.keys", f"'-f' {NO_OPTION}", "write files after the command, in their order: pipapo run a.nft .."),
    # other programs
    ("ipset list", "'ipset' isn't a command: pipapo reads files, and not the kernel's sets", FROM_IPSET),
    ("iptables -L INPUT", "'iptables' isn't a command: pipapo reads files, and not the kernel's sets", FROM_NFT),
    ("diff a.nft b.nft", "'diff' isn't a command", COMPARE),
    ("test a.nft t p 80", "'test' isn't a command", GET),
    ("show a.nft", "'show' isn't a command", LIST),
    ("check a.nft", "'check' isn't a command", LIST),
    ("status a.nft", "'status' isn't a command", STAT),
    ("--list a.nft", "'--list' isn't a command", "did you mean 'list'?"),
    ("pipapo list a.nft", "'pipapo' is given twice", "write the command after the first one, as: pipapo help"),
    # a key without its command, and after another one
    ("ip t p 80", "a command and a script are missing before the set", "to look one key up, write: pipapo get SCRIPT ip t p 80"),
    ("run a.nft ip t p 80", "'t' is an extra word", "to look one key up, write: pipapo get a.nft ip t p 80"),
    ("list a.nft inet t p 80 . 443", "'inet' is an extra word", "to look one key up, write: pipapo get a.nft inet t p 80 . 443"),
    ("add element ip t p { 80 }", "'add' begins a statement of a script, and isn't a command", STATEMENT),
    ("flush ruleset", "'flush' begins a statement of a script, and isn't a command", STATEMENT),
    ("help rnu", "'rnu' isn't a command", "did you mean 'run'?"),
    ("help help", "'help' has no page of its own", HELP_PAGE),
    ("help --version", "'--version' has no page of its own", HELP_PAGE),
    ("help run list", "'list' is an extra word", "write one command after 'help'"),
    ("--version run", "'--version' can't come with these words", ALONE),
    ("--version --sets", "'--version' can't come with these words", ALONE),
    ("run a b --help", "'--help' can't come with these words", ALONE),
    ("--help run", "'--help' can't come with these words", "for the page of this command, write: pipapo help run"),
    ("-h list", "'-h' can't come with these words", "for the page of this command, write: pipapo help list"),
    ("-t 4 run a b", "'-t' comes before the command", "write options after the command: pipapo run .. --threads 4"),
    ("-t=4 run a b", "'-t=4' comes before the command", "write options after the command: pipapo run .. --threads 4"),
    ("-k list a", "'-k' comes before the command", "write options after the command: pipapo list .. --keep-going"),
    ("-a 5 get a t s 1", "'-a' comes before the command", "write options after the command: pipapo get --at 5 .."),
    ("--threads 4 run a b", "'--threads' comes before the command", "write options after the command: pipapo run .. --threads 4"),
    ("--sets run a b", "'--sets' comes before the command", "write options after the command: pipapo run .. --sets"),
    ("--elements run a b", "'--elements' comes before the command", "write options after the command: pipapo run .. --elements"),
    ("--threads=4 drill 1 2", "'--threads=4' comes before the command", "write options after the command: pipapo drill .. --threads=4"),
    ("--at 5 get a t s 1", "'--at' comes before the command", "write options after the command: pipapo get --at 5 .."),
    ("--keep-going", "'--keep-going' comes before the command", "write options after the command: pipapo COMMAND .. --keep-going"),
    ("--threads 4 list a", "'--threads' isn't an option of this command", LIST),
    ("--hlep", "'--hlep' isn't a command", "did you mean '--help'?"),
    ("run", "SCRIPT and KEYS are missing", RUN),
    ("run a", "KEYS is missing", RUN),
    ("judge", "SCRIPT, RULES and KEYS are missing", JUDGE),
    ("capture a b", "PCAP is missing", CAPTURE),
    ("drill 7", "COUNT is missing", DRILL),
    ("list --keep-going", "SCRIPT is missing", LIST),
    ("get", "SCRIPT, TABLE, SET and VALUE are missing", GET),
    ("get --at 5 a", "TABLE, SET and VALUE are missing", GET),
    ("run a b c", "'c' is an extra word", RUN),
    ("run a b --threads 17", "'17' isn't a number of packet threads", THREADS),
    ("run a b --threads=0", "'0' isn't a number of packet threads", THREADS),
    ("run a b --threads 04", "'04' isn't a number of packet threads", THREADS),
    ("run a --threads b", "'b' isn't a number of packet threads", THREADS),
    ("run a b --threads", "the number after '--threads' is missing", THREADS),
    ("drill 7 20001", "'20001' isn't a COUNT of elements", "write a number from 1 to 20000"),
    ("drill x 5", "'x' isn't a SEED", "write a number from 0 to 18446744073709551615"),
    ("get --at soon a t", "'soon' isn't a moment in milliseconds", MOMENTS),
    ("get --at", "the moment after '--at' is missing", MOMENTS),
    ("get a t p 1 --at 5", "'--at' comes after the script", "write the options of get before the script: all words after it are the key"),
    ("run - -", "'-' is given twice", "only one file can be the standard input"),
    ("judge - a -", "'-' is given twice", "only one file can be the standard input"),
    ("run a b --keep-going --keep-going", "'--keep-going' is given twice", TWICE),
    ("run a b --threads 2 --threads=3", "'--threads' is given twice", TWICE),
    ("run a b --elements --elements", "'--elements' is given twice", TWICE),
    ("run a b --elements=yes", "'--elements' takes no value", "leave out the '=' and what follows it"),
    ("run a b --keep-going=yes", "'--keep-going' takes no value", "leave out the '=' and what follows it"),
    ("run a b --thread 4", "'--thread' isn't an option", "did you mean '--threads'?"),
    ("list a --keepgoing", "'--keepgoing' isn't an option", "did you mean '--keep-going'?"),
    ("run a b -t 4", "'-t' isn't an option", "did you mean '--threads'?"),
    ("list a -k", "'-k' isn't an option", "did you mean '--keep-going'?"),
    ("compare a b -s", "'-s' isn't an option", "did you mean '--sets'?"),
    ("run a b -e", "'-e' isn't an option", "did you mean '--elements'?"),
    ("run a b --element", "'--element' isn't an option", "did you mean '--elements'?"),
    ("get -a 5 a t s 1", "'-a' isn't an option", "did you mean '--at'?"),
    ("run a b -n 4", "'-n' isn't an option", RUN),
    ("list a -t 4", "'-t' isn't an option", LIST),
    ("run --sets a --keys b", "'--keys' isn't an option: files come without options, in their order", RUN),
    ("list -f a", "'-f' isn't an option: files come without options, in their order", LIST),
    ("capture a --plan=b --pcap=c", "'--plan' isn't an option: files come without options, in their order", CAPTURE),
    ("get --script a t s 1", "'--script' isn't an option: the script and the key come without options", GET),
    ("drill --seed 7 --count 5", "'--seed' isn't an option: both numbers come without options", DRILL),
    ("list a --threads 4", "'--threads' isn't an option of this command", LIST),
    ("get --threads 4 a t", "'--threads' isn't an option of this command", GET),
    ("list a --elements", "'--elements' isn't an option of this command", LIST),
    ("run a b --json", "'--json' isn't an option of this command", RUN),
    ("list a --json --json", "'--json' is given twice", TWICE),
]


def several_notes(name, script, mistakes):
    """The whole text on a script with several mistakes, of which the first ten are shown."""
    cause = {False: "", True: "an earlier error may have caused this one\n"}
    shown = "".join(note(name, (script, *mistake[:4], None)) + cause[mistake[4]] for mistake in mistakes[:10])
    return shown + (f"{name}: further errors aren't shown\n" if len(mistakes) > 10 else "")


def key_note(name, mistake):
    """The whole note on a line of a key file, which is its first one."""
    line, column, wrong, help_line = mistake
    return note(name, (line + "\n", 1, column, wrong, help_line, None))


def rules_note(name, mistake):
    """The whole note on a rules file."""
    return note(name, (*mistake, None))


def get_note(mistake):
    """The whole note on the words of a `get`, which are shown with a blank after each."""
    words, column, wrong, help_line = mistake
    return note("key", (words + " ", 1, column, wrong, help_line, None))


def word_note(mistake):
    """The whole note on words that are no command."""
    _, wrong, help_line = mistake
    return f"pipapo: {wrong}\nhelp: {help_line}\n"


def note(name, mistake):
    """The whole note on a mistake, in a file of this name."""
    script, line, column, wrong, help_line, _ = mistake
    lines = script.split("\n")
    shown = lines[line - 1]
    before = shown[: column - 1]
    # a token ends with its quote; the end of a line and of the text has one caret
    token = wrong.split("' ")[0][1:] if wrong.startswith("'") else ""
    behind = shown[column - 1 + len(token) :]
    cut = ".." if len(before) > 100 else ""
    margin = "  " if cut else ""
    front = before[-100:]
    tail = behind[:40] + (".." if len(behind) > 40 else "")
    blanks = "".join("\t" if byte == "\t" else " " for byte in front)
    return f"{name}:{line}:{column}: {wrong}\n{cut}{front}{token}{tail}\n{margin}{blanks}{'^' * max(len(token), 1)}\nhelp: {help_line}\n"
