"""Proved packet filter sets, over the shared library libpipapo.

A set has fields, for example an IPv4 address and a port. An element has one interval per field. A lookup takes one value
per field and returns the id of the earliest inserted element that is live and whose every interval holds its value.

    >>> with Control([Set([Kind.IPV4, Kind.SERVICE])]) as control:
    ...     with control.transaction() as change:
    ...         added = change.insert(0, ["192.0.2.0", 80], ["192.0.2.255", 443])
    ...     with control.readers[0] as held:
    ...         held.lookup(0, ["192.0.2.7", 443]), held.lookup(0, ["192.0.2.7", 444])
    (0, None)

Values are numbers, texts of addresses ("192.0.2.7", "2001:db8::1", "02:00:00:00:00:05"), or bytes in network byte order.
Moments are milliseconds. Each handle is for one thread at a time. A control or a reader that isn't closed is freed with its
object. A number that no call of C can take, such as a negative moment, is a ValueError.

The library is found by the environment variable PIPAPO_LIBRARY, or else as libpipapo.so.0.
"""

from __future__ import annotations

import ctypes
import enum
import ipaddress
import os
from collections.abc import Iterable, Iterator, Sequence
from dataclasses import dataclass
from types import TracebackType
from typing import List, Union

__all__ = [
    "Answer", "Control", "Element", "Elements", "Error", "Family", "Kind", "Outcome", "PipapoError", "Reader", "Reason", "Receipt",
    "ScriptError", "Set", "Transaction", "Value",
]

Value = Union[int, str, bytes]

_LARGEST = 2**64 - 1


class Kind(enum.IntEnum):
    """What a field is, as nft(8) names it."""

    IPV4 = 0
    IPV6 = 1
    ETHER = 2
    PROTO = 3
    SERVICE = 4
    MARK = 5

    @property
    def width(self) -> int:
        """How many bytes a value of this kind has."""
        return (4, 16, 6, 1, 2, 4)[self]

    def pack(self, value: Value) -> bytes:
        """The bytes of a value in network byte order. Raises ValueError if it is no value of this kind."""
        if isinstance(value, str):
            value = self._read(value)
        if isinstance(value, bytes):
            if len(value) != self.width:
                raise ValueError(f"{self.name} has {self.width} bytes, not {len(value)}")
            return value
        if not 0 <= value < 256**self.width:
            raise ValueError(f"{value} is no {self.name}")
        return value.to_bytes(self.width, "big")

    def _read(self, text: str) -> int | bytes:
        if self is Kind.IPV4:
            return ipaddress.IPv4Address(text).packed
        if self is Kind.IPV6:
            return ipaddress.IPv6Address(text).packed
        if self is Kind.ETHER:
            return bytes.fromhex(text.replace(":", ""))
        return int(text, 0)


class Family(enum.IntEnum):
    """The family of a table, as nft(8) names it."""

    IP = 0
    IP6 = 1
    INET = 2
    ARP = 3
    BRIDGE = 4
    NETDEV = 5


class Outcome(enum.IntEnum):
    """What a change did."""

    REFUSED = 0
    NEW = 1
    ALREADY = 2
    RENEWED = 3
    REMOVED = 4
    ABSENT = 5


class Error(enum.IntEnum):
    """Why a call did nothing."""

    MEMORY = 1
    NOTHING = 2
    HANDLE = 3
    SCHEMA = 4
    READERS = 5
    SET = 6
    LENGTH = 7
    INTERVAL = 8
    TURN = 9
    NUMBERS = 10
    SCRIPT = 11
    CHANGE = 12
    ROOM = 13
    PLACE = 14
    NOTE = 15
    OVERLAP = 16
    EXISTS = 17
    FULL = 18
    RULES_FULL = 19
    MISSING = 20


class Reason(enum.IntEnum):
    """Why a token of a script doesn't fit at its place."""

    CHARACTER = 1
    END = 2
    LEFT_OUT = 3
    TYPE = 4
    VALUE = 5
    TIME = 6
    MOMENT = 7
    SET = 8
    NUMBER = 9
    STATEMENT = 10


@dataclass(frozen=True)
class Answer:
    """What a change answers: the element's id, and what was done."""

    id: int
    outcome: Outcome


@dataclass(frozen=True)
class Receipt:
    """A commit's generation, and how many elements were expired."""

    generation: int
    purged: int


class PipapoError(Exception):
    """A call was refused, and changed nothing. `id` is the element in the way, `field` the field that is full."""

    def __init__(self, error: Error, id: int = 0, field: int = 0) -> None:
        super().__init__(_library.pipapo_strerror(error).decode())
        self.error = error
        self.id = id
        self.field = field


class ScriptError(PipapoError):
    """A script started nothing. Lines and columns count from 1, and columns count bytes.

    If the text isn't a script (Error.SCRIPT), `line`, `column` and `reason` are those of its bad token. If a change is refused
    (Error.CHANGE), `line` and `set` are those of the first one, `cause` says why, and `id` and `field` are as in any refusal.
    """

    def __init__(self, error: Error, fault: _ScriptFault) -> None:
        super().__init__(error, fault.id, fault.field)
        self.line, self.column, self.set = fault.line, fault.column, fault.set
        self.reason = Reason(fault.reason) if fault.reason else None
        self.cause = Error(fault.cause) if fault.cause else None

    def __str__(self) -> str:
        if self.reason is not None:
            return f"{self.line}:{self.column}: {_library.pipapo_strreason(self.reason).decode()}"
        return f"{self.line}: {_library.pipapo_strerror(self.cause or self.error).decode()}"


@dataclass(frozen=True)
class Set:
    """A set: the kind of each field, at most how many elements (0: any number), and whether an element that shares a key with a
    live one is refused. The family and the names of the table and the set are for listings alone."""

    kinds: Sequence[Kind]
    size: int = 0
    disjoint: bool = False
    family: Family = Family.IP
    table: str = ""
    name: str = ""


@dataclass(frozen=True)
class Element:
    """An element of a generation: its id, its bounds, the moment from which on it is expired (None: never), and its comment.
    The values of `low` and `high` are bytes in network byte order."""

    id: int
    low: tuple[bytes, ...]
    high: tuple[bytes, ...]
    expiry: int | None
    comment: bytes


class _Handle(ctypes.Structure):
    _fields_ = [("at", ctypes.c_void_p)]


class _Set(ctypes.Structure):
    _fields_ = [
        ("kinds", ctypes.c_uint32 * 16),
        ("fields", ctypes.c_uint32),
        ("family", ctypes.c_uint32),
        ("disjoint", ctypes.c_uint32),
        ("size", ctypes.c_uint32),
        ("table", ctypes.c_uint8 * 64),
        ("name", ctypes.c_uint8 * 64),
    ]


class _Declared(ctypes.Structure):
    _fields_ = [
        ("kinds", ctypes.c_uint32 * 16),
        *((name, ctypes.c_uint32) for name in ("fields", "family", "interval", "timed", "disjoint", "size")),
        ("timeout", ctypes.c_uint64),
        ("table", ctypes.c_uint8 * 128),
        ("name", ctypes.c_uint8 * 128),
    ]


class _Element(ctypes.Structure):
    _fields_ = [(name, ctypes.c_uint64) for name in ("id", "expiry", "bounds_length", "comment_length")]


class _Answer(ctypes.Structure):
    _fields_ = [("id", ctypes.c_uint64), ("field", ctypes.c_uint32), ("outcome", ctypes.c_uint32)]


class _ScriptFault(ctypes.Structure):
    _fields_ = [(name, ctypes.c_uint64) for name in ("line", "column", "id")] + [
        (name, ctypes.c_uint32) for name in ("reason", "cause", "set", "field")
    ]


def _load() -> ctypes.CDLL:
    library = ctypes.CDLL(os.environ.get("PIPAPO_LIBRARY", "libpipapo.so.0"))
    handle, number, size = ctypes.POINTER(_Handle), ctypes.c_uint64, ctypes.c_size_t
    out, text, index = ctypes.POINTER(ctypes.c_uint64), ctypes.c_char_p, ctypes.c_uint32
    answer = ctypes.POINTER(_Answer)
    calls = {
        "start": [ctypes.POINTER(_Set), size, handle, handle, size],
        "start_script": [text, size, handle, handle, size, ctypes.POINTER(_ScriptFault)],
        "insert": [handle, index, text, size, number, text, size, number, answer],
        "create": [handle, index, text, size, number, text, size, number, answer],
        "delete": [handle, index, text, size, number, answer],
        "destroy": [handle, index, text, size, number, answer],
        "flush": [handle, index, out],
        "commit": [handle, number, out, out],
        "abort": [handle],
        "number": [handle, out],
        "describe": [handle, index, ctypes.POINTER(_Declared)],
        "elements_of": [handle, index, handle, out],
        "element_at": [handle, number, ctypes.c_char_p, size, ctypes.c_char_p, size, ctypes.POINTER(_Element)],
        "note": [handle, out],
        "meet": [handle, number],
        "hear": [handle, number],
        "list": [handle, number, ctypes.POINTER(ctypes.c_void_p), ctypes.POINTER(size)],
        "enter": [handle, out],
        "leave": [handle],
        "generation": [handle, out],
        "lookup": [handle, index, text, size, number, out],
        "lookup_many": [handle, index, text, size, number, out, size, out],
    }
    for name, parameters in calls.items():
        call = getattr(library, f"pipapo_{name}")
        call.argtypes, call.restype = parameters, ctypes.c_uint32
    library.pipapo_free.argtypes, library.pipapo_free.restype = [handle], None
    library.pipapo_free_text.argtypes, library.pipapo_free_text.restype = [ctypes.c_void_p], None
    library.pipapo_strerror.argtypes, library.pipapo_strerror.restype = [ctypes.c_uint32], ctypes.c_char_p
    library.pipapo_strreason.argtypes, library.pipapo_strreason.restype = [ctypes.c_uint32], ctypes.c_char_p
    library.pipapo_version.argtypes, library.pipapo_version.restype = [], ctypes.c_uint32
    return library


_library = _load()


class _Owned(_Handle):
    """A handle that is freed with its object."""

    _free = _library.pipapo_free

    def __del__(self) -> None:
        self._free(self)


def _fitting(number: int, bits: int, what: str) -> int:
    """The number, if it has so many bits. The calls of C would take others modulo 2 to the power `bits`."""
    if not 0 <= number < 2**bits:
        raise ValueError(f"{number} is no {what}")
    return number


def _moment(now: int) -> int:
    return _fitting(now, 64, "moment")


def version() -> tuple[int, int, int]:
    """The version of the library that runs."""
    number = _library.pipapo_version()
    return number >> 16, number >> 8 & 255, number & 255


def _must(error: int, answer: _Answer | None = None) -> None:
    if error:
        raise PipapoError(Error(error), answer.id if answer else 0, answer.field if answer else 0)


def _note(handle: _Handle) -> int:
    number = ctypes.c_uint64()
    _must(_library.pipapo_note(handle, number))
    return number.value


class _Shape:
    """The kinds of all sets."""

    def __init__(self, kinds: Iterable[Sequence[Kind]]) -> None:
        self._kinds = [tuple(one) for one in kinds]

    def of(self, set: int) -> tuple[Kind, ...]:
        if not 0 <= set < len(self._kinds):
            raise PipapoError(Error.SET)
        return self._kinds[set]

    def unpack(self, set: int, key: bytes) -> tuple[bytes, ...]:
        """The values of a key."""
        values, at = [], 0
        for kind in self.of(set):
            values.append(key[at : at + kind.width])
            at += kind.width
        return tuple(values)

    def pack(self, set: int, values: Iterable[Value]) -> bytes:
        values = list(values)
        kinds = self.of(set)
        if len(values) != len(kinds):
            raise PipapoError(Error.LENGTH)
        return b"".join(kind.pack(value) for kind, value in zip(kinds, values))


class Elements(Iterator[Element]):
    """The elements of a set of one generation, in the order of insertion. Later changes and commits don't change them. The reader
    that holds this generation may leave."""

    def __init__(self, shape: _Shape, handle: _Handle, set: int) -> None:
        shape.of(set)
        self._shape, self._set, self._held, self._next = shape, set, _Owned(), 0
        count = ctypes.c_uint64()
        _must(_library.pipapo_elements_of(handle, set, self._held, count))
        self._count = count.value

    def __next__(self) -> Element:
        if self._next == self._count:
            raise StopIteration
        element = self._at(self._next)
        self._next += 1
        return element

    def _at(self, place: int) -> Element:
        bounds, comment, element = ctypes.create_string_buffer(512), ctypes.create_string_buffer(128), _Element()
        error = _library.pipapo_element_at(self._held, place, bounds, 512, comment, 128, element)
        if error == Error.ROOM:
            comment = ctypes.create_string_buffer(element.comment_length)
            error = _library.pipapo_element_at(self._held, place, bounds, 512, comment, len(comment), element)
        _must(error)
        half = element.bounds_length // 2
        low, high = (self._shape.unpack(self._set, bounds.raw[at : at + half]) for at in (0, half))
        expiry = None if element.expiry == _LARGEST else element.expiry
        return Element(element.id, low, high, expiry, comment.raw[: element.comment_length])


class Reader:
    """Looks keys up. As a context manager it holds one generation: `with reader as held: held.lookup(..)`."""

    def __init__(self, shape: _Shape, handle: _Owned) -> None:
        self._shape, self._handle = shape, handle

    def enter(self) -> int:
        """Holds the last published generation, and returns its number."""
        number = ctypes.c_uint64()
        _must(_library.pipapo_enter(self._handle, number))
        return number.value

    def leave(self) -> None:
        """Lets the generation go."""
        _must(_library.pipapo_leave(self._handle))

    @property
    def generation(self) -> int:
        """The number of the generation that it holds."""
        number = ctypes.c_uint64()
        _must(_library.pipapo_generation(self._handle, number))
        return number.value

    def lookup(self, set: int, key: Iterable[Value], now: int = 0) -> int | None:
        """The id of the earliest inserted element that is live at `now` and holds the key."""
        packed, found = self._shape.pack(set, key), ctypes.c_uint64()
        _must(_library.pipapo_lookup(self._handle, set, packed, len(packed), _moment(now), found))
        return None if found.value == _LARGEST else found.value

    def lookup_many(self, set: int, keys: Iterable[Iterable[Value]], now: int = 0) -> tuple[list[int | None], int]:
        """The ids of the elements of many keys, all in one generation, and that generation's number."""
        packed = [self._shape.pack(set, key) for key in keys]
        found, number = (ctypes.c_uint64 * max(1, len(packed)))(), ctypes.c_uint64()
        row = b"".join(packed)
        self._shape.of(set)
        _must(_library.pipapo_lookup_many(self._handle, set, row, len(row), _moment(now), found, len(packed), number))
        return [None if one == _LARGEST else one for one in found[: len(packed)]], number.value

    def elements(self, set: int) -> Elements:
        """The elements of a set of the generation that the reader holds, in the order of insertion."""
        return Elements(self._shape, self._handle, set)

    def note(self) -> int:
        """A note of what this reader has seen: the number of a generation. If it holds none, it looks at the published one."""
        return _note(self._handle)

    def meet(self, note: int) -> None:
        """From now on this reader enters no generation before the note's. Raises PipapoError (Error.NOTE) if the generation that
        it holds, or else the published one, comes before it."""
        _must(_library.pipapo_meet(self._handle, _fitting(note, 64, "note")))

    def close(self) -> None:
        """Frees the reader. A closed reader stays closed."""
        _library.pipapo_free(self._handle)

    def __enter__(self) -> Reader:
        self.enter()
        return self

    def __exit__(self, kind: type[BaseException] | None, error: BaseException | None, trace: TracebackType | None) -> None:
        self.leave()


class Transaction:
    """The open changes of a control. As a context manager it commits at its end, or takes all changes back if an exception
    ends it. `receipt` is then the commit's. If the commit itself is refused, the changes stay open."""

    def __init__(self, control: Control, now: int) -> None:
        self._control, self._now = control, now
        self.receipt: Receipt | None = None

    def insert(self, set: int, low: Iterable[Value], high: Iterable[Value] | None = None, *, expiry: int | None = None, comment: str = "") -> Answer:
        """Inserts an element between two keys; without `high`, of the values of `low`."""
        return self._control.insert(set, low, high, expiry=expiry, comment=comment, now=self._now)

    def create(self, set: int, low: Iterable[Value], high: Iterable[Value] | None = None, *, expiry: int | None = None, comment: str = "") -> Answer:
        """As insert, but refused if an element has the same intervals."""
        return self._control.create(set, low, high, expiry=expiry, comment=comment, now=self._now)

    def delete(self, set: int, low: Iterable[Value], high: Iterable[Value] | None = None) -> Answer:
        """Removes the element of exactly these intervals."""
        return self._control.delete(set, low, high, now=self._now)

    def destroy(self, set: int, low: Iterable[Value], high: Iterable[Value] | None = None) -> Answer:
        """As delete, but no error if there is none."""
        return self._control.destroy(set, low, high, now=self._now)

    def flush(self, set: int) -> int:
        """Removes all elements of a set, and returns how many there were."""
        return self._control.flush(set)

    def __enter__(self) -> Transaction:
        return self

    def __exit__(self, kind: type[BaseException] | None, error: BaseException | None, trace: TracebackType | None) -> None:
        if kind is None:
            self.receipt = self._control.commit(self._now)
        else:
            self._control.abort()


def _name(name: str) -> bytes:
    encoded = name.encode()
    if b"\0" in encoded:
        raise ValueError("a name has no zero byte")
    if len(encoded) > 64:
        raise PipapoError(Error.ROOM)
    return encoded.ljust(64, b"\0")


def _empty_handles(readers: int) -> ctypes.Array[_Handle]:
    if not 1 <= readers <= 16:
        raise PipapoError(Error.READERS)
    return (_Handle * readers)()


class Control:
    """Changes sets, and commits generations of them. `readers` are 1 to 16. As a context manager it closes itself and its
    readers."""

    def __init__(self, sets: Sequence[Set], readers: int = 1) -> None:
        handles = _empty_handles(readers)
        shapes = (_Set * max(1, len(sets)))()
        for shape, one in zip(shapes, sets):
            if len(one.kinds) > 16:
                raise PipapoError(Error.SCHEMA)
            shape.kinds[: len(one.kinds)] = [int(Kind(kind)) for kind in one.kinds]
            shape.fields, shape.size = len(one.kinds), _fitting(one.size, 32, "size")
            shape.disjoint, shape.family = int(bool(one.disjoint)), int(Family(one.family))
            shape.table[:], shape.name[:] = _name(one.table), _name(one.name)
        self._shape, self._handle = _Shape(one.kinds for one in sets), _Owned()
        _must(_library.pipapo_start(shapes, len(sets), self._handle, handles, readers))
        self._seat(handles)

    @classmethod
    def from_script(cls, text: str | bytes, readers: int = 1) -> Control:
        """A control of the sets that a script of nft(8) declares, in the order of the script. It has done all sections of the
        script.

        >>> rules = "add set ip t ports { type inet_service ; flags interval ; }\\nadd element ip t ports { 80-443 }\\n"
        >>> with Control.from_script(rules) as control:
        ...     control.number, control.readers[0].lookup(0, [443]), control.sets[0].name
        (1, 0, 'ports')

        Raises ScriptError if the text isn't a script, or if one of its changes is refused."""
        control, script, fault = cls.__new__(cls), text.encode() if isinstance(text, str) else text, _ScriptFault()
        control._handle = _Owned()
        handles = _empty_handles(readers)
        error = _library.pipapo_start_script(script, len(script), control._handle, handles, readers, fault)
        if error in (Error.SCRIPT, Error.CHANGE):
            raise ScriptError(Error(error), fault)
        _must(error)
        control._shape = _Shape(one.kinds for one in control.sets)
        control._seat(handles)
        return control

    @property
    def sets(self) -> List[Set]:
        """The declared sets. Set i of this list is number i in every call."""
        found: list[Set] = []
        one = _Declared()
        while (error := _library.pipapo_describe(self._handle, len(found), one)) != Error.SET:
            _must(error)
            kinds = [Kind(kind) for kind in one.kinds[: one.fields]]
            table, name = (bytes(row).partition(b"\0")[0].decode() for row in (one.table, one.name))
            found.append(Set(kinds, one.size, one.disjoint != 0, Family(one.family), table, name))
        return found

    def elements(self, set: int) -> Elements:
        """The elements of a set of the last generation, in the order of insertion.

        >>> with Control([Set([Kind.SERVICE])]) as control:
        ...     with control.transaction() as change:
        ...         added = change.insert(0, [80], [443], comment="web")
        ...     [(one.id, one.low, one.high, one.comment) for one in control.elements(0)]
        [(0, (b'\\x00P',), (b'\\x01\\xbb',), b'web')]
        """
        return Elements(self._shape, self._handle, set)

    def note(self) -> int:
        """A note of what this control committed: the number of its last generation."""
        return _note(self._handle)

    def hear(self, note: int) -> None:
        """Raises PipapoError (Error.NOTE) if this control hasn't committed the generation of a reader's note."""
        _must(_library.pipapo_hear(self._handle, _fitting(note, 64, "note")))

    def _seat(self, handles: ctypes.Array[_Handle]) -> None:
        # what the array holds moves into the readers
        self.readers = [Reader(self._shape, _Owned(handle.at)) for handle in handles]

    def _bounds(self, set: int, low: Iterable[Value], high: Iterable[Value] | None) -> bytes:
        packed = self._shape.pack(set, low)
        return packed + (packed if high is None else self._shape.pack(set, high))

    def _add(self, call: str, set: int, bounds: bytes, expiry: int | None, comment: str, now: int) -> Answer:
        text, answer = comment.encode(), _Answer()
        end = _LARGEST if expiry is None else _moment(expiry)
        export = getattr(_library, call)
        _must(export(self._handle, set, bounds, len(bounds), end, text, len(text), _moment(now), answer), answer)
        return Answer(answer.id, Outcome(answer.outcome))

    def _remove(self, call: str, set: int, bounds: bytes, now: int) -> Answer:
        answer = _Answer()
        _must(getattr(_library, call)(self._handle, set, bounds, len(bounds), _moment(now), answer), answer)
        return Answer(answer.id, Outcome(answer.outcome))

    def insert(self, set: int, low: Iterable[Value], high: Iterable[Value] | None = None, *, expiry: int | None = None, comment: str = "", now: int = 0) -> Answer:
        """Inserts an element between two keys; without `high`, of the values of `low`."""
        return self._add("pipapo_insert", set, self._bounds(set, low, high), expiry, comment, now)

    def create(self, set: int, low: Iterable[Value], high: Iterable[Value] | None = None, *, expiry: int | None = None, comment: str = "", now: int = 0) -> Answer:
        """As insert, but refused if an element has the same intervals."""
        return self._add("pipapo_create", set, self._bounds(set, low, high), expiry, comment, now)

    def delete(self, set: int, low: Iterable[Value], high: Iterable[Value] | None = None, *, now: int = 0) -> Answer:
        """Removes the first live element of exactly these intervals."""
        return self._remove("pipapo_delete", set, self._bounds(set, low, high), now)

    def destroy(self, set: int, low: Iterable[Value], high: Iterable[Value] | None = None, *, now: int = 0) -> Answer:
        """As delete, but no error if there is none."""
        return self._remove("pipapo_destroy", set, self._bounds(set, low, high), now)

    def flush(self, set: int) -> int:
        """Removes all elements of a set, and returns how many there were."""
        self._shape.of(set)
        count = ctypes.c_uint64()
        _must(_library.pipapo_flush(self._handle, set, count))
        return count.value

    def commit(self, now: int = 0) -> Receipt:
        """Publishes the open sets as the next generation, without the elements that are expired at `now`."""
        number, purged = ctypes.c_uint64(), ctypes.c_uint64()
        _must(_library.pipapo_commit(self._handle, _moment(now), number, purged))
        return Receipt(number.value, purged.value)

    def abort(self) -> None:
        """Takes all changes since the last commit back."""
        _must(_library.pipapo_abort(self._handle))

    @property
    def number(self) -> int:
        """The number of the last generation."""
        number = ctypes.c_uint64()
        _must(_library.pipapo_number(self._handle, number))
        return number.value

    def list(self, now: int = 0) -> bytes:
        """The last generation as a script of nft(8). An element that expires has the time from `now` to its expiry."""
        text, length = ctypes.c_void_p(), ctypes.c_size_t()
        _must(_library.pipapo_list(self._handle, _moment(now), text, length))
        try:
            return ctypes.string_at(text.value or 0, length.value)
        finally:
            _library.pipapo_free_text(text)

    def transaction(self, now: int = 0) -> Transaction:
        """Changes that are committed together at the end of a `with`."""
        return Transaction(self, now)

    def close(self) -> None:
        """Frees the control and its readers."""
        for reader in self.readers:
            reader.close()
        _library.pipapo_free(self._handle)

    def __enter__(self) -> Control:
        return self

    def __exit__(self, kind: type[BaseException] | None, error: BaseException | None, trace: TracebackType | None) -> None:
        self.close()
