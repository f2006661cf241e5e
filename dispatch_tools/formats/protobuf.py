"""Reads and writes messages of GTFS-Realtime in the wire format of protocol buffers, as far as its schema needs that format.

A message is a dict from names of fields to values. A field that may be repeated is a list. The tables below have the numbers of
the published schema (https://gtfs.org/documentation/realtime/proto/). Fields that are not in them are skipped.
"""
from __future__ import annotations

from dataclasses import dataclass
from typing import Any, NamedTuple, Optional

Message = dict[str, Any]

# The largest file that is read, the most of its parts that may stand many times (entities, calls, texts), and its most fields. A
# source is in other hands, and few bytes may be a long work.
LONGEST_FILE = 1 << 26
MOST_PARTS = 200_000
MOST_FIELDS = 3_000_000

# Fields by number: the name, and the kind, which is a scalar or another table; `*` where it may stand many times, which
# messages alone may.
SCHEMA: dict[str, dict[int, tuple[str, str]]] = {
    'FeedMessage': {1: ('header', 'FeedHeader'), 2: ('entity', '*FeedEntity')},
    'FeedHeader': {1: ('gtfs_realtime_version', 'text'), 2: ('incrementality', 'number'), 3: ('timestamp', 'number')},
    'FeedEntity': {
        1: ('id', 'text'), 2: ('is_deleted', 'number'), 3: ('trip_update', 'TripUpdate'), 4: ('vehicle', 'VehiclePosition'),
        5: ('alert', 'Alert'),
    },
    'TripUpdate': {
        1: ('trip', 'TripDescriptor'), 2: ('stop_time_update', '*StopTimeUpdate'), 4: ('timestamp', 'number'), 5: ('delay', 'signed'),
    },
    'StopTimeUpdate': {
        1: ('stop_sequence', 'number'), 2: ('arrival', 'StopTimeEvent'), 3: ('departure', 'StopTimeEvent'), 4: ('stop_id', 'text'),
        5: ('schedule_relationship', 'number'),
    },
    'StopTimeEvent': {1: ('delay', 'signed'), 2: ('time', 'signed')},
    'VehiclePosition': {
        1: ('trip', 'TripDescriptor'), 3: ('current_stop_sequence', 'number'), 4: ('current_status', 'number'),
        5: ('timestamp', 'number'), 7: ('stop_id', 'text'),
    },
    'Alert': {
        1: ('active_period', '*TimeRange'), 5: ('informed_entity', '*EntitySelector'), 6: ('cause', 'number'), 7: ('effect', 'number'),
        10: ('header_text', 'TranslatedString'), 11: ('description_text', 'TranslatedString'),
    },
    'TimeRange': {1: ('start', 'number'), 2: ('end', 'number')},
    'EntitySelector': {4: ('trip', 'TripDescriptor'), 5: ('stop_id', 'text')},
    'TranslatedString': {1: ('translation', '*Translation')},
    'Translation': {1: ('text', 'text'), 2: ('language', 'text')},
    'TripDescriptor': {
        1: ('trip_id', 'text'), 2: ('start_time', 'text'), 3: ('start_date', 'text'), 4: ('schedule_relationship', 'number'),
        5: ('route_id', 'text'),
    },
}

VARINT, FIXED64, BYTES, FIXED32 = 0, 1, 2, 5
WIDTHS = {FIXED64: 8, FIXED32: 4}
SCALARS = ('number', 'signed')


class BadMessage(Exception):
    """Bytes are no message."""


# ---- Writing

SMALL = [bytes((number,)) for number in range(128)]


def varint(number: int) -> bytes:
    """A number below 2^64, seven bits a byte, the lowest first; a negative one as the one that is larger by 2^64."""
    if 0 <= number < 128:
        return SMALL[number]
    number &= (1 << 64) - 1
    out = bytearray()
    while number > 127:
        out.append(number & 127 | 128)
        number >>= 7
    out.append(number)
    return bytes(out)


class Field(NamedTuple):
    """How a field is written: the bytes before each value, whether it may stand many times, and what it is."""
    tag: bytes
    is_many: bool
    what: str


BY_NAME = {
    kind: {
        name: Field(varint(number << 3 | (VARINT if what in SCALARS else BYTES)), what[0] == '*', what.lstrip('*'))
        for number, (name, what) in fields.items()
    }
    for kind, fields in SCHEMA.items()
}


def encode(message: Message, kind: str = 'FeedMessage') -> bytes:
    """The bytes of a message; KeyError where it has a field that the schema has not. A part that is in bytes already stays so."""
    fields = BY_NAME[kind]
    parts: list[bytes] = []
    for name, value in message.items():
        tag, is_many, what = fields[name]
        for one in value if is_many else (value,):
            if what in SCALARS:
                parts += (tag, varint(one))
            else:
                part = one.encode() if what == 'text' else one if isinstance(one, bytes) else encode(one, what)
                parts += (tag, varint(len(part)), part)
    return b''.join(parts)


# ---- Reading


def read_varint(data: bytes, place: int, end: int) -> tuple[int, int]:
    """The number that begins at a place, and the place behind it."""
    if place < end and data[place] < 128:
        return data[place], place + 1
    number = 0
    for shift in range(0, 70, 7):
        if place >= end:
            raise BadMessage('it ends within a number')
        byte = data[place]
        place += 1
        number |= (byte & 127) << shift
        if byte < 128:
            return number & (1 << 64) - 1, place
    raise BadMessage(f'a number of more than ten bytes ends at byte {place}')


def end_of_field(data: bytes, wire: int, place: int, end: int) -> tuple[int, int]:
    """The begin and the end of what stands in a field that is no number."""
    if wire == BYTES:
        length, place = read_varint(data, place, end)
    elif wire in WIDTHS:
        length = WIDTHS[wire]
    else:
        raise BadMessage(f'wire type {wire} before byte {place}')
    if length > end - place:
        raise BadMessage(f'a field at byte {place} is longer than its message')
    return place, place + length


# The fields of each kind of message by the number with which they begin, which also says how they are written.
BY_TAG = {
    kind: {
        number << 3 | (VARINT if what in SCALARS else BYTES): (name, what.lstrip('*'), what[0] == '*')
        for number, (name, what) in fields.items()
    }
    for kind, fields in SCHEMA.items()
}


class Recent:
    """The messages of one kind that were read last, by their bytes: most of what a source says it has said before."""

    def __init__(self, kind: str) -> None:
        self.kind = kind
        self.before: dict[bytes, Message] = {}
        self.now: dict[bytes, Message] = {}

    def begin(self) -> None:
        """Begins a file: what was not read in the one before is forgotten."""
        self.before, self.now = self.now, {}

    def read(self, data: bytes, reading: Reading) -> Message:
        message = self.before.get(data)
        if message is None:
            message = read_message(data, self.kind, 0, len(data), reading)
        self.now[data] = message
        return message


@dataclass
class Reading:
    """How much of a message may still come, and the parts that were read lately."""
    parts: int = MOST_PARTS
    fields: int = MOST_FIELDS
    recent: Optional[Recent] = None

    def count_part(self) -> None:
        self.parts -= 1
        if self.parts < 0:
            raise BadMessage(f'it has more than {MOST_PARTS} entities and calls')

    def count_field(self) -> None:
        self.fields -= 1
        if self.fields < 0:
            raise BadMessage(f'it has more than {MOST_FIELDS} fields')


def decode(data: bytes, kind: str = 'FeedMessage', recent: Optional[Recent] = None) -> Message:
    """The message that bytes are; BadMessage where they are none, or are too much. Those parts that were read lately are not read
    again."""
    return read_message(data, kind, 0, len(data), Reading(recent=recent))


def read_message(data: bytes, kind: str, place: int, end: int, reading: Reading) -> Message:
    """The message between two places."""
    fields, recent = BY_TAG[kind], reading.recent
    message: Message = {}
    while place < end:
        reading.count_field()
        # Most numbers are of one byte.
        tag = data[place]
        place += 1
        if tag > 127:
            tag, place = read_varint(data, place - 1, end)
        field = fields.get(tag)
        if field is None:
            place = behind_other(data, kind, tag, place, end)
            continue
        name, what, is_many = field
        size = data[place] if place < end else 128
        place += 1
        if size > 127:
            size, place = read_varint(data, place - 1, end)
        if what in SCALARS:
            message[name] = size - (1 << 64) if what == 'signed' and size >> 63 else size
            continue
        begin, place = place, place + size
        if place > end:
            raise BadMessage(f'a field at byte {begin} is longer than its message')
        if what == 'text':
            message[name] = text_of(data[begin:place], name)
        elif is_many:
            reading.count_part()
            if recent and recent.kind == what:
                part = recent.read(data[begin:place], reading)
            else:
                part = read_message(data, what, begin, place, reading)
            message.setdefault(name, []).append(part)
        else:
            message[name] = read_message(data, what, begin, place, reading)
    return message


def behind_other(data: bytes, kind: str, tag: int, place: int, end: int) -> int:
    """The place behind a field that the schema has not; BadMessage where it has it, but is written in another way."""
    if tag >> 3 in SCHEMA[kind]:
        raise BadMessage(f'field {SCHEMA[kind][tag >> 3][0]} of {kind} has wire type {tag & 7}')
    if tag & 7 == VARINT:
        return read_varint(data, place, end)[1]
    return end_of_field(data, tag & 7, place, end)[1]


def text_of(data: bytes, name: str) -> str:
    try:
        return data.decode()
    except UnicodeDecodeError as error:
        raise BadMessage(f'field {name} is not in UTF-8') from error
