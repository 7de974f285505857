"""Prints a C file that compiles only if pipapo.h declares what crates/pipapo_c exports.

    layout.py TOP

The file declares each export once more. It asserts the size of each struct and the offset of each field, and the number of
each enumerator, all as they stand in the Rattle sources. The sizes there are those that the compiler of the archive proves.
The script exits with 1 if the header or the sources have a call, a struct or an enumerator that the other lacks.
"""

import re
import sys
from pathlib import Path

# the C names of the structs that cross
STRUCTS = {
    "SetShape": ["pipapo_set"],
    "DeclaredSet": ["pipapo_declared"],
    "Answer": ["pipapo_answer"],
    "ScriptFault": ["pipapo_script_fault"],
    "ElementShape": ["pipapo_element"],
    "Handle": ["pipapo_control", "pipapo_reader", "pipapo_elements"],
}
# what a handle points to, of which C sees nothing
HIDDEN = {"Opaque"}
NUMBERS = {"u8": ("uint8_t", 1), "u32": ("uint32_t", 4), "u64": ("uint64_t", 8)}
# calls that c/texts.c adds to the exports
IN_C = {"pipapo_free_text", "pipapo_list", "pipapo_strerror", "pipapo_strreason", "pipapo_version"}


def handle_type(name: str) -> str:
    singular = name.removesuffix("s") if name == "readers" else name
    return "void" if name == "handle" else f"pipapo_{singular}"


def bytes_type(name: str) -> str:
    return "char" if name in ("comment", "text", "buffer") else "void"


def c_parameters(name: str, kind: str) -> list[str]:
    """The C parameters of one Rattle parameter."""
    if kind == "Global":
        return []
    if kind in NUMBERS:
        return [NUMBERS[kind][0]]
    match = re.fullmatch(r"&(mut )?(\[)?(\w+)\]?", kind)
    if not match:
        raise SystemExit(f"layout.py: no C type for {name}: {kind}")
    mutable, is_slice, inner = match.groups()
    if inner == "Handle":
        c_type = handle_type(name)
    elif inner in STRUCTS:
        (c_type,) = STRUCTS[inner]
    elif inner == "u8" and is_slice:
        c_type = bytes_type(name)
    else:
        c_type = NUMBERS[inner][0]
    pointer = f"{'' if mutable else 'const '}{c_type} *"
    return [pointer, "size_t"] if is_slice else [pointer]


def exports(text: str) -> dict[str, str]:
    """The C declaration of each export."""
    found = {}
    pattern = r'pub extern "C" fn (\w+)\((.*?)\)(?: -> (\w+))?\s*(?:ensures|\{)'
    for name, parameters, result in re.findall(pattern, text, re.S):
        parts = [part.strip() for part in parameters.split(",") if part.strip()]
        kinds = [c for part in parts for c in c_parameters(*[half.strip() for half in part.split(":", 1)])]
        found[name] = f"{NUMBERS[result][0] if result else 'void'} {name}({', '.join(kinds)});"
    return found


def structs(text: str) -> dict[str, str]:
    """The fields' text of each struct that crosses."""
    pattern = r"#\[repr\(C\)\]\s*(?:#\[derive\([^)]*\)\]\s*)?pub struct (\w+) \{(.*?)\n\}"
    found = {name: body for name, body in re.findall(pattern, text, re.S) if name not in HIDDEN}
    compare("structs", set(found), set(STRUCTS))
    return found


def fields(body: str) -> list[tuple[str, int, int]]:
    """Name, size of an item and number of items of each field. A `Global` and what is ghost take no bytes."""
    rows = []
    for name, kind in re.findall(r"^    (?:pub )?(\w+): (.*),$", body, re.M):
        array = re.fullmatch(r"\[(\w+); (\d+)\]", kind)
        if kind.startswith("*"):
            rows.append((name, 8, 1))
        elif kind != "Global":
            rows.append((name, NUMBERS[array[1] if array else kind][1], int(array[2]) if array else 1))
    return rows


def layout(body: str, c_type: str, proved_size: int) -> list[str]:
    """The assertions of one struct, each field at the next place that its size divides."""
    lines, at = [], 0
    for name, size, count in fields(body):
        at += -at % size
        lines.append(f'_Static_assert(offsetof({c_type}, {name}) == {at}, "{c_type}.{name}");')
        lines.append(f'_Static_assert(sizeof((({c_type} *)0)->{name}) == {size * count}, "{c_type}.{name}");')
        at += size * count
    lines.append(f'_Static_assert(sizeof({c_type}) == {proved_size}, "{c_type}");')
    return lines


# the enumerators whose names differ in the Rattle sources
RENAMED = {"EMPTY": "NOTHING", "NONE": "ABSENT", "REASON_TYPE_WORD": "REASON_TYPE"}


def enumerator(name: str) -> str:
    """PIPAPO_RULES_FULL of RulesFull."""
    upper = re.sub(r"(?<=[a-z])(?=[A-Z])", "_", name).upper()
    return "PIPAPO_" + RENAMED.get(upper, upper)


def numbers(codes: str, sources: str) -> dict[str, int]:
    """The number of each enumerator in the Rattle sources."""
    found = {"PIPAPO_OK": 0}
    for name, number in re.findall(r"^code_of (?:\(Refused \(?)?(\w+).*? = (\d+)$", codes, re.M):
        found[enumerator(name)] = int(number)
    outcome = r"^(?:added_as \((\w+) id\)|destroyed_as (None)|(removed)_as id|(refused)_as other) = .*outcome = (\d+) \}$"
    for *names, number in re.findall(outcome, codes, re.M):
        found[enumerator("".join(names))] = int(number)
    for number, of, name in re.findall(r"(\d+) => (?:Some\()?(Kind|Family)::(\w+)", sources):
        found[enumerator(("Family" if of == "Family" else "") + name)] = int(number)
    for name, number in re.findall(r"Reason::(\w+) => (\d+)", sources):
        found[enumerator("Reason" + name)] = int(number)
    return found


def compare(what: str, ones: set[str], others: set[str]) -> None:
    if ones != others or not ones:
        raise SystemExit(f"layout.py: {what} on one side alone: {' '.join(sorted(ones ^ others))}")


def main() -> None:
    top = Path(sys.argv[1])
    handles = top / "crates/c_handles"
    header = (top / "include/pipapo.h").read_text()
    found = exports((top / "crates/pipapo_c/src/lib.rt").read_text())
    declared = set(re.findall(r"^(?:uint32_t|void|const char \*) ?(pipapo_\w+)\(", header, re.M))
    compare("calls", declared, set(found) | IN_C)
    sources = "".join(path.read_text() for path in sorted((handles / "src").glob("*.rt")))
    crossing = structs(sources)
    compare("structs", set(re.findall(r"^(?:typedef struct \{.*)?\} (pipapo_\w+);", header, re.M)), set(sum(STRUCTS.values(), [])))
    sizes = {name: int(size) for name, size in re.findall(r"prove!\(size_of::<(\w+)>\(\) == (\d+)\)", sources)}
    compare("proved sizes", set(sizes), set(crossing))
    numbered = numbers((handles / "specs/Codes.antt").read_text(), sources)
    enumerators = set(re.findall(r"^    (PIPAPO_\w+) = ", header, re.M))
    compare("enumerators", enumerators, enumerators & set(numbered))
    print('#include "pipapo.h"')
    print("\n".join(found.values()))
    for name, body in crossing.items():
        for c_type in STRUCTS[name]:
            print("\n".join(layout(body, c_type, sizes[name])))
    for name in sorted(enumerators):
        print(f'_Static_assert({name} == {numbered[name]}, "{name}");')


main()
