"""RULES, Settings: what a store's lists say, what the calls make of them, and the settings file."""

import struct
from dataclasses import dataclass, field

from ..formats import CLEAR, COUNT, GET, READ, REMOVE, SET, UNTOUCHED_U32, UNTOUCHED_U64
from ..formats import Case, Fields, StoreCall, marked_bytes, store_at_entry, store_calls
from .ieee import NAN_BITS

PLACES = 256
EACH = 3
MAX_VOICE = 65_535
FREE = 4_294_967_295
INFINITY = 0x7FF0000000000000
SIZE_BITS = 0x7FFFFFFFFFFFFFFF  # all but the sign

MARK = b"VST"
VERSION_END = 5
HEAD = 7
WRITTEN_VERSION = 2
# By version: the bytes of a record, and the settings that are not in it.
RECORD = {1: 18, 2: 26}
MISSING = {1: [0x3FE0000000000000], 2: []}  # a threshold of 0.5

OUT_OF_RANGE, TOO_SHORT, UNKNOWN_VERSION, FULL, MALFORMED, NOT_HELD = 3, 6, 16, 17, 18, 19


def with_one_nan(bits: int) -> int:
    return NAN_BITS if bits & SIZE_BITS > INFINITY else bits


def damage(data: bytes) -> int:
    """18 or 16, 0 where a file is well formed."""
    if data[: len(MARK)] != MARK:
        return MALFORMED
    if len(data) < VERSION_END:
        return MALFORMED
    version = version_of(data)
    if version not in RECORD:
        return UNKNOWN_VERSION
    if len(data) < HEAD or len(data) != HEAD + RECORD[version] * count_of(data):
        return MALFORMED
    return 0


def version_of(data: bytes) -> int:
    return int.from_bytes(data[3:5], "little")


def count_of(data: bytes) -> int:
    return int.from_bytes(data[5:7], "little")


def records(data: bytes) -> list[tuple[int, list[int]]]:
    """Each record's voice and settings, of a well-formed file."""
    version = version_of(data)
    size, missing = RECORD[version], MISSING[version]
    form = f"<H{EACH - len(missing)}Q"
    read = [struct.unpack_from(form, data, HEAD + size * number) for number in range(count_of(data))]
    return [(voice, [*settings, *missing]) for voice, *settings in read]


@dataclass
class Store:
    voices: list[int]
    settings: list[int]

    def is_short(self) -> bool:
        return len(self.voices) < PLACES or len(self.settings) < EACH * PLACES

    def is_free(self, place: int) -> bool:
        number = self.voices[place]
        return number > MAX_VOICE or self.voices.index(number) < place

    def held(self) -> list[int]:
        """The places that hold a voice."""
        return [place for place in range(PLACES) if not self.is_free(place)]

    def holds(self, voice: int) -> bool:
        return voice in self.voices[:PLACES]

    def place_of(self, voice: int) -> int:
        """Of a voice that is held: the first place with its number."""
        return self.voices.index(voice)

    def place_for(self, voice: int) -> int | None:
        """Where a voice is set; None where it is not held and no place is free."""
        if self.holds(voice):
            return self.place_of(voice)
        return next(filter(self.is_free, range(PLACES)), None)

    def settings_of(self, place: int) -> list[int]:
        return self.settings[EACH * place : EACH * (place + 1)]

    def put(self, place: int, number: int, settings: list[int]) -> None:
        self.voices[place] = number
        self.settings[EACH * place : EACH * (place + 1)] = settings

    def refusal(self, voice: int) -> int:
        """Of a call with a voice, 0 for none."""
        if voice > MAX_VOICE:
            return OUT_OF_RANGE
        return TOO_SHORT if self.is_short() else 0

    def refusal_unless_held(self, voice: int) -> int:
        """Of a get or a remove."""
        return self.refusal(voice) or (0 if self.holds(voice) else NOT_HELD)

    def clear(self) -> int:
        if self.is_short():
            return TOO_SHORT
        self.voices[:PLACES] = [FREE] * PLACES
        self.settings[: EACH * PLACES] = [0] * (EACH * PLACES)
        return 0

    def keep(self, voice: int, settings: list[int]) -> int:
        """A set of patterns, as they are."""
        place = self.place_for(voice)
        if place is None:
            return FULL
        self.put(place, voice, settings)
        return 0

    def set(self, voice: int, floats: tuple[int, ...]) -> int:
        return self.refusal(voice) or self.keep(voice, [with_one_nan(bits) for bits in floats])

    def get(self, voice: int) -> tuple[int, list[int]]:
        number = self.refusal_unless_held(voice)
        if number:
            return number, []
        return 0, [with_one_nan(bits) for bits in self.settings_of(self.place_of(voice))]

    def remove(self, voice: int) -> int:
        number = self.refusal_unless_held(voice)
        if number == 0:
            self.put(self.place_of(voice), FREE, [0] * EACH)
            self.voices[:PLACES] = [FREE if other == voice else other for other in self.voices[:PLACES]]
        return number

    def count(self) -> tuple[int, int]:
        """It is lent the numbers alone."""
        return (TOO_SHORT, 0) if len(self.voices) < PLACES else (0, len(self.held()))

    def read(self, data: bytes) -> int:
        number = TOO_SHORT if self.is_short() else damage(data)
        if number:
            return number
        new = Store(list(self.voices), list(self.settings))
        new.clear()
        if any(new.keep(voice, settings) for voice, settings in records(data)):
            return FULL
        self.voices, self.settings = new.voices, new.settings
        return 0

    def file(self) -> bytes:
        held = self.held()
        kept = [struct.pack(f"<H{EACH}Q", self.voices[place], *self.settings_of(place)) for place in held]
        return MARK + struct.pack("<HH", WRITTEN_VERSION, len(held)) + b"".join(kept)

    def write(self, room: int) -> tuple[int, bytes]:
        if self.is_short():
            return TOO_SHORT, b""
        data = self.file()
        return (TOO_SHORT, b"") if room < len(data) else (0, data)


@dataclass
class Left:
    """What the calls hand out, refused ones too."""

    refusals: list[int] = field(default_factory=list)
    got: list[int] = field(default_factory=list)
    held: list[int] = field(default_factory=list)
    written: list[int] = field(default_factory=list)
    out: bytes = b""


def follow(store: Store, one: StoreCall, left: Left) -> int:
    """Makes a call and gives its refusal number."""
    if one.call == CLEAR:
        return store.clear()
    if one.call == SET:
        return store.set(one.voice, one.given)
    if one.call == REMOVE:
        return store.remove(one.voice)
    if one.call == READ:
        return store.read(one.file)
    if one.call == GET:
        number, got = store.get(one.voice)
        left.got += got or [UNTOUCHED_U64] * EACH
        return number
    if one.call == COUNT:
        number, held = store.count()
        left.held.append(UNTOUCHED_U32 if number else held)
        return number
    number, data = store.write(one.room)
    left.written.append(UNTOUCHED_U64 if number else len(data))
    left.out += data + marked_bytes(len(data), one.room)
    return number


def store_values(case: Case) -> Fields:
    """What the case's calls leave, one after the other."""
    store, left = Store(*store_at_entry(case)), Left()
    for one in store_calls(case):
        left.refusals.append(follow(store, one, left))
    return {**vars(left), "voices": store.voices, "settings": store.settings}
