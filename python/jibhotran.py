"""Jibhotran from Python: ancillary data over RTP (RFC 8331 and its drafts of 2015), over the proved library and nothing else.

The calls are those of `include/jibhotran.h`, under the same names without `jibhotran_`; `open` and `arrive` are `Depacketizer`, the
outlet's three `Outlet`. A refusal raises `Refused`, which has the
refusal's `number`, one of `Refusal` or of ROW and LAYOUT, and `index` (docs/FORMATS.md, "Refusal numbers"). Lists of records go in and come out as
`Record`s. A number that C's type does not hold raises OverflowError: none is cut to fit.

The shared library is the one that JIBHOTRAN_LIBRARY names, or else `libjibhotran.so` as the system finds it.
"""

import ctypes
import enum
import os
from array import array
from ctypes import POINTER, c_size_t, c_uint8, c_uint16, c_uint32, c_uint64
from typing import Iterator, List, NamedTuple, Optional, Sequence, Tuple, Union

RFC8331, DRAFTS = 0, 1
SKIPPED, HELD, MIXED, OVERFULL, WHOLE = range(5)

ANSWER, STATE = 9, 15
OUTLET_STATE, OUTLET_MEMORY, OUTLET_PACKET = 145, 65_536, 1_024
PACKET_CELLS, FIELD_CELLS, LINE_CELLS = 53_026, 36_864, 5_266
PACKET_OCTETS, FIELD_OCTETS, FILE_HEAD_OCTETS = 65_535, 49_159, 5
PAIR_OCTETS, TEXT_OCTETS = 128, 1_357
RECORD_HEAD, COUNT_CELL, INDEX_CELL = 9, 7, 8
NO_VPID = 256
CHANNELS = 8
ROW, LAYOUT = 255, 254


class Refusal(enum.IntEnum):
    """The numbers of refusal by their names; docs/FORMATS.md says when each is given, and with which index."""

    TOO_LONG = 1
    HEADER_CUT = 2
    VERSION_NOT_2 = 3
    PADDING_WRONG = 4
    PAYLOAD_CUT = 5
    F_INVALID = 6
    LENGTH_WRONG = 7
    LENGTH_WITHOUT_PACKETS = 8
    ANC_CUT = 9
    HEADER_WORD_MALFORMED = 10
    CHECKSUM_WRONG = 11
    ALIGNMENT_BIT_SET = 12
    OCTETS_LEFT = 13
    LIST_TOO_SHORT = 14
    R_BIT_SET = 15
    PROTECTED_WORD = 16
    LIST_MALFORMED = 20
    OVER_LIMIT = 21
    ROOM_TOO_SMALL = 23
    HEAD_INVALID = 24
    NOT_IN_LAYOUT = 25
    SOURCE_OTHER = 30
    TYPE_OTHER = 31
    LATE = 32
    STATE_UNSOUND = 35
    FAR = 36
    TEXT_TOO_LONG = 40
    ITEM_MALFORMED = 41
    SECOND_VPID_CODE = 42
    TOO_MANY_PAIRS = 43
    TEXT_ROOM_TOO_SMALL = 44
    NOT_ANF = 50
    FILE_VERSION_WRONG = 51
    FIELD_HEADER_CUT = 52
    FILE_F_INVALID = 53
    END_OF_FILE = 54
    OFFSET_INVALID = 55
    CHANNEL_INVALID = 60
    OFFER_SIZE_INVALID = 61
    CHANNEL_FULL = 62
    NOTHING_WAITS = 63
    OUTLET_UNSOUND = 64
    LINE_TOO_LONG = 70
    START_PAST_END = 71
    LINE_FULL = 72
    LINE_WORD_TOO_LARGE = 73


class _Pair(ctypes.Structure):
    _fields_ = [("did", c_uint8), ("sdid", c_uint8)]


_octets, _cells, _row = POINTER(c_uint8), POINTER(c_uint16), POINTER(c_uint64)
_CALLS = {
    "read": [c_uint8, _octets, c_size_t, _cells, c_size_t, _row, c_size_t],
    "read_strict": [c_uint8, _octets, c_size_t, _cells, c_size_t, _row, c_size_t],
    "write": [c_uint8, c_uint32, c_uint8, c_uint8, c_uint32, c_uint32, c_uint8, _cells, c_size_t, _octets, c_size_t, _row, c_size_t],
    "open": [c_uint32, c_uint8, _row, c_size_t, _row, c_size_t],
    "arrive": [c_uint8, _row, c_size_t, _octets, c_size_t, _cells, c_size_t, _row, c_size_t],
    "sdp_read": [_octets, c_size_t, _octets, c_size_t, _row, c_size_t],
    "sdp_write": [_octets, c_size_t, c_uint16, _octets, c_size_t, _row, c_size_t],
    "file_begin": [_octets, c_size_t, _row, c_size_t],
    "file_write": [c_uint32, c_uint8, _cells, c_size_t, _octets, c_size_t, _row, c_size_t],
    "file_read": [_octets, c_size_t, c_size_t, _cells, c_size_t, _row, c_size_t],
    "line_write": [_cells, c_size_t, c_size_t, _cells, c_size_t, _row, c_size_t],
    "line_read": [_cells, c_size_t, c_size_t, c_uint16, c_uint16, c_uint16, c_uint16, c_uint16, _cells, c_size_t, _row, c_size_t],
    "wanted": [c_uint8, c_uint8, _octets, c_size_t],
    "wanted_of": [c_uint8, c_uint8, POINTER(_Pair), c_size_t],
    "outlet_open": [_row, c_size_t],
    "outlet_offer": [_row, c_size_t, c_uint8, _octets, c_size_t, _octets, c_size_t, _row, c_size_t],
    "outlet_take": [_row, c_size_t, _octets, c_size_t, _octets, c_size_t, _row, c_size_t],
}
_library = ctypes.CDLL(os.environ.get("JIBHOTRAN_LIBRARY", "libjibhotran.so"))
for _name, _types in _CALLS.items():
    _function = getattr(_library, "jibhotran_" + _name)
    _function.argtypes, _function.restype = _types, c_uint8


class Refused(Exception):
    """A call was refused: its number, and the index of the ANC packet, record or item, 0 where none is named."""

    def __init__(self, number: int, index: int):
        super().__init__(f"refused {number} {index}")
        self.number, self.index = number, index


class Record(NamedTuple):
    """One ANC data packet; `index` is that of its packet within its field."""

    c: int
    line: int
    offset: int
    s: int
    stream: int
    did: int
    sdid: int
    words: Tuple[int, ...] = ()
    index: int = 0


class Head(NamedTuple):
    """What a packet says beside its records."""

    source: int
    payload_type: int
    marker: int
    number: int
    timestamp: int
    f: int


class Packet(NamedTuple):
    head: Head
    records: List[Record]
    left_out: int


class Field(NamedTuple):
    """A whole field; `packets` is how many it came in, `after` the offset behind it in a file, each where it applies."""

    timestamp: int
    f: int
    records: List[Record]
    packets: Optional[int] = None
    after: Optional[int] = None


_CODES = {c_uint8: "B", c_uint16: "H"}


def _lent(kind, values):
    """Memory with these values. C's pointer must not be null, also where the length is 0."""
    held = array(_CODES[kind])
    held.extend(values)
    length = len(held)
    held.append(0)
    return (kind * len(held)).from_buffer(held), length


def _number(name, *parts):
    """The number that a call returns, what is lent taken apart into pointer and length."""
    flat = []
    for part in parts:
        flat.extend(part if isinstance(part, tuple) else (part,))
    for kind, value in zip(_CALLS[name], flat):
        if isinstance(value, int) and not 0 <= value < 256 ** ctypes.sizeof(kind):
            raise OverflowError(f"{name}: {value} does not fit its type")
    return getattr(_library, "jibhotran_" + name)(*flat)


def _call(name, *parts):
    """The row of a call's answer, or its refusal."""
    row = (c_uint64 * ANSWER)()
    number = _number(name, *parts, (row, ANSWER))
    if number:
        raise Refused(number, row[0])
    return row


def cells_of(records: Sequence[Record]) -> List[int]:
    """A list of cells with these records, one behind the other."""
    cells: List[int] = []
    for r in records:
        cells += [r.c, r.line, r.offset, r.s, r.stream, r.did, r.sdid, len(r.words), r.index, *r.words]
    return cells


def records_of(cells: Sequence[int]) -> List[Record]:
    """The records of a list of cells that the library gave."""
    records, at = [], 0
    while at < len(cells):
        words = at + RECORD_HEAD
        end = words + cells[at + COUNT_CELL]
        records.append(Record(*cells[at : at + COUNT_CELL], tuple(cells[words:end]), cells[at + INDEX_CELL]))
        at = end
    return records


def _read(name: str, layout: int, octets: bytes) -> Packet:
    cells = (c_uint16 * PACKET_CELLS)()
    row = _call(name, layout, _lent(c_uint8, octets), (cells, PACKET_CELLS))
    return Packet(Head(*row[:6]), records_of(cells[: row[7]]), row[8])


def read(layout: int, octets: bytes) -> Packet:
    """A packet in the tolerant way: records that fail only their checksum are left out and counted."""
    return _read("read", layout, octets)


def read_strict(layout: int, octets: bytes) -> Packet:
    """A packet in the strict way: a wrong checksum is refused by 11."""
    return _read("read_strict", layout, octets)


def write(layout: int, head: Head, records: Sequence[Record]) -> bytes:
    """The octets of a packet with these records."""
    out = (c_uint8 * PACKET_OCTETS)()
    row = _call("write", layout, *head, _lent(c_uint16, cells_of(records)), (out, PACKET_OCTETS))
    return bytes(out[: row[0]])


class Depacketizer:
    """Gathers the packets of one source and type into whole fields."""

    def __init__(self, source: int, payload_type: int):
        self.state = (c_uint64 * STATE)()
        self.store = (c_uint16 * FIELD_CELLS)()
        _call("open", source, payload_type, (self.state, STATE))

    def arrive(self, layout: int, octets: bytes) -> Tuple[int, Optional[Field]]:
        """SKIPPED, HELD, MIXED, OVERFULL or WHOLE, and with the last the field."""
        row = _call("arrive", layout, (self.state, STATE), _lent(c_uint8, octets), (self.store, FIELD_CELLS))
        if row[0] != WHOLE:
            return row[0], None
        return WHOLE, Field(row[1], row[2], records_of(self.store[: row[4]]), packets=row[5])

    @property
    def counts(self) -> Tuple[int, int, int]:
        """Fresh, late and missing packets."""
        return tuple(self.state[9:12])


def _joined(pairs: Sequence[Tuple[int, int]]) -> List[int]:
    return [n for did, sdid in pairs for n in (did, sdid)]


def sdp_read(text: Union[str, bytes]) -> Tuple[List[Tuple[int, int]], Optional[int]]:
    """The DID and SDID pairs of format parameters, and the VPID code or none."""
    text = text.encode() if isinstance(text, str) else text
    pairs = (c_uint8 * PAIR_OCTETS)()
    row = _call("sdp_read", _lent(c_uint8, text), (pairs, PAIR_OCTETS))
    found = pairs[: 2 * row[0]]
    return list(zip(found[::2], found[1::2])), row[2] if row[1] else None


def sdp_write(pairs: Sequence[Tuple[int, int]], vpid: Optional[int] = None) -> str:
    """The text of such parameters. A code is at most 255."""
    if vpid is not None and vpid >= NO_VPID:
        raise OverflowError(f"sdp_write: {vpid} is no VPID code")
    out = (c_uint8 * TEXT_OCTETS)()
    row = _call("sdp_write", _lent(c_uint8, _joined(pairs)), NO_VPID if vpid is None else vpid, (out, TEXT_OCTETS))
    return bytes(out[: row[0]]).decode()


def file_begin() -> bytes:
    """The first octets of a field file."""
    out = (c_uint8 * FILE_HEAD_OCTETS)()
    return bytes(out[: _call("file_begin", (out, FILE_HEAD_OCTETS))[0]])


def file_write(timestamp: int, f: int, records: Sequence[Record]) -> bytes:
    """One field of a field file."""
    out = (c_uint8 * FIELD_OCTETS)()
    row = _call("file_write", timestamp, f, _lent(c_uint16, cells_of(records)), (out, FIELD_OCTETS))
    return bytes(out[: row[0]])


def _field_at(file, at: int) -> Field:
    cells = (c_uint16 * FIELD_CELLS)()
    row = _call("file_read", file, at, (cells, FIELD_CELLS))
    return Field(row[0], row[1], records_of(cells[: row[3]]), after=row[4])


def file_read(file: bytes, at: int = FILE_HEAD_OCTETS) -> Field:
    """The field at an offset of a file; refusal END_OF_FILE is its end."""
    return _field_at(_lent(c_uint8, file), at)


def fields(file: bytes) -> Iterator[Field]:
    """All fields of a file. What is refused raises; the end ends."""
    lent, at = _lent(c_uint8, file), FILE_HEAD_OCTETS
    while True:
        try:
            field = _field_at(lent, at)
        except Refused as refused:
            if refused.number == Refusal.END_OF_FILE:
                return
            raise
        yield field
        at = field.after


def line_write(line: Sequence[int], start: int, records: Sequence[Record]) -> Tuple[List[int], int]:
    """The line with the records from the word `start` on, and the word behind them."""
    words, n = _lent(c_uint16, line)
    row = _call("line_write", (words, n), start, _lent(c_uint16, cells_of(records)))
    return list(words[:n]), row[0]


def line_read(line: Sequence[int], start: int, c: int, line_number: int, offset: int, s: int = 0, stream: int = 0) -> Tuple[List[Record], int]:
    """The records found in a line from the word `start` on, and the word behind the last."""
    cells = (c_uint16 * LINE_CELLS)()
    row = _call("line_read", _lent(c_uint16, line), start, c, line_number, offset, s, stream, (cells, LINE_CELLS))
    return records_of(cells[: row[1]]), row[2]


def wanted(did: int, sdid: int, pairs: Sequence[Tuple[int, int]]) -> bool:
    """Whether a record is wanted; of a DID of 0x80 or above by the DID alone. No pairs want everything."""
    return bool(_number("wanted", did, sdid, _lent(c_uint8, _joined(pairs))))


def wanted_of(did: int, sdid: int, pairs: Sequence[Tuple[int, int]]) -> bool:
    """The same over a row of pairs."""
    memory, _ = _lent(c_uint8, _joined(pairs))
    return bool(_number("wanted_of", did, sdid, (ctypes.cast(memory, POINTER(_Pair)), len(pairs))))


class Outlet:
    """Eight channels share an outlet, served in turn."""

    def __init__(self):
        self.state = (c_uint64 * OUTLET_STATE)()
        self.memory = (c_uint8 * OUTLET_MEMORY)()
        _number("outlet_open", (self.state, OUTLET_STATE))

    def offer(self, channel: int, packet: bytes) -> None:
        """Copies a packet in: 60, 61 or 62 where it is not taken."""
        _call("outlet_offer", (self.state, OUTLET_STATE), channel, _lent(c_uint8, packet), (self.memory, OUTLET_MEMORY))

    def take(self) -> Tuple[int, bytes]:
        """The next packet in turn, and its channel: 63 where nothing waits."""
        out = (c_uint8 * OUTLET_PACKET)()
        row = _call("outlet_take", (self.state, OUTLET_STATE), (self.memory, OUTLET_MEMORY), (out, OUTLET_PACKET))
        return row[0], bytes(out[: row[1]])


def frames(data: bytes) -> Iterator[bytes]:
    """The packets of RFC 4571 frames; a last frame that is cut is left out."""
    at = 0
    while at + 2 <= len(data):
        size = int.from_bytes(data[at : at + 2], "big")
        if at + 2 + size > len(data):
            return
        yield data[at + 2 : at + 2 + size]
        at += 2 + size
