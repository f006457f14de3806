"""The kinds of cases and the bytes of cases and answers; tools/README.md says the same in words."""

import struct
from dataclasses import dataclass
from itertools import islice
from typing import Any

Fields = dict[str, Any]
Schema = list[tuple[str, str]]

# A lent list comes with its length alone: its numbers at entry are those of `marked`.
ROOM = "room"
SCALARS = {"u8": "B", "u32": "I", "u64": "Q", "f64": "d", ROOM: "I"}
LISTS = {"u32s": ("I", 4), "u64s": ("Q", 8), "f64s": ("d", 8)}

UNTOUCHED_U32 = 0xA5A5A5A5
UNTOUCHED_U64 = 0xA5A5A5A5A5A5A5A5


def marked_u32(first: int, end: int) -> list[int]:
    """What the driver puts into places first.. of a lent list of whole numbers."""
    return list(range(0xA5000000 + first, 0xA5000000 + end))


def marked_f64(first: int, end: int) -> list[float]:
    """What the driver puts into places first.. of a lent list of floats."""
    return [-1e6 - place for place in range(first, end)]


def marked_bits(end: int) -> list[int]:
    """Those floats as 64-bit patterns."""
    return list(struct.unpack(f"<{end}Q", struct.pack(f"<{end}d", *marked_f64(0, end))))


def marked_bytes(first: int, end: int) -> bytes:
    """What the driver puts into places first.. of a lent list of bytes."""
    return bytes(place % 256 for place in range(first, end))


@dataclass(frozen=True)
class Kind:
    """One kind of case: what goes in, what it computes, and all that a C call leaves at exit."""

    number: int
    inputs: Schema
    values: Schema
    exit: Schema | None = None


WINDOWS = [("widths", "u32s"), ("coefficients", "f64s")]
# Each state's pair, and the fewest frames that it may have.
STATES = [("means", "f64s"), ("varis", "f64s"), ("shortest", "u32s")]
FIT_ROOM = [("out", ROOM), ("work", ROOM)]
ALIGNED = [*STATES, ("nstate", "u32"), ("ends", "f64s"), *FIT_ROOM]
ALIGNED_VALUES = [("written", "u32"), ("changes", "u32"), ("durations", "u32s")]
FIT_EXIT = [("out", "u32s"), ("work", "u32s")]
REFUSAL = ("refusal", "u32")
ALIGNED_EXIT = [REFUSAL, ("written", "u32"), ("changes", "u32"), *FIT_EXIT]
# How many pairs were clamped, each once a voiced frame.
CLAMPED = [("high", "u32"), ("low", "u32")]
STORE = [("voices", "u32s"), ("settings", "u64s")]
# A refusal a call; of every get three patterns, count and write the values through pointers; the writes' lists joined.
STORE_EXIT = [("refusals", "u32s"), ("got", "u64s"), ("held", "u32s"), ("written", "u64s"), ("out", "u8s"), *STORE]
# A refusal a call; the spans' and milliseconds' lists; of every frame and word that is asked for the values through
# pointers; of the write its value and list.
WORDS_EXIT = [("refusals", "u32s"), ("spans", "u32s"), ("milliseconds", "u32s"), ("sounding", "u32s")]
WORDS_EXIT += [("firsts", "u64s"), ("counts", "u64s"), ("written", "u64"), ("out", "u8s")]
# What a trajectory is worked out from, and one of its runs too.
STREAM = [("v", "u32"), ("masked", "u32"), ("threshold", "f64"), ("fill", "f64"), ("gv_on", "u32"), ("gv_weight", "f64")]
STREAM += [*WINDOWS, ("records", "f64s"), ("durations", "u32s"), ("gv", "f64s"), ("switches", "u8s")]
STREAM_ROOM = [("out", ROOM), ("work", ROOM), ("marks", ROOM)]
STREAM_EXIT = [("out", "f64s"), ("work", "f64s"), ("marks", "u32s")]
TIMING_EXIT = [REFUSAL, ("spans", "u32s"), ("words", "u32")]
TABLE = [("widths_table", "u32s"), ("coefficients_table", "u64s")]
# A refusal a call; of every use and free the values through pointers, and the uses' lists joined; both houses' free counts at
# entry and after each call; how many numbers each call changed, and of each of these its place and what it became.
TABLE_EXIT = [("refusals", "u32s"), ("firsts", "u64s"), ("used", "u32s"), ("counts", "u64s"), ("free", "u32s")]
TABLE_EXIT += [("free_counts", "u32s"), ("changed", "u32s"), ("places", "u32s"), ("numbers", "u64s"), *TABLE]

KINDS = {
    "float": Kind(0, [("operation", "u8"), ("a", "f64"), ("b", "f64")], [("answer", "f64")]),
    "pair": Kind(
        1,
        [("operation", "u8")] + [(name, "f64") for name in ("mean", "vari", "mean2", "vari2", "weight")],
        [("mean", "f64"), ("vari", "f64"), ("clamp", "u32")],
    ),
    "record": Kind(
        2,
        [("operation", "u8"), ("record", "f64s"), ("other", "f64s"), ("weight", "f64")],
        [("record", "f64s")],
    ),
    "fit": Kind(
        3,
        [*STATES, ("length", "f64"), *FIT_ROOM],
        [("changes", "u32"), ("durations", "u32s")],
        [REFUSAL, ("changes", "u32"), *FIT_EXIT],
    ),
    "speed": Kind(
        4,
        [*STATES, ("speed", "f64"), *FIT_ROOM],
        [("changes", "u32"), ("durations", "u32s")],
        [REFUSAL, ("changes", "u32"), *FIT_EXIT],
    ),
    "align": Kind(5, ALIGNED, ALIGNED_VALUES, ALIGNED_EXIT),
    "mask": Kind(
        6,
        [("weights", "f64s"), ("threshold", "f64"), ("durations", "u32s")]
        + [("voiced", ROOM), ("left", ROOM), ("right", ROOM)],
        [("voiced", "u32s"), ("left", "u32s"), ("right", "u32s")],
        [REFUSAL, ("frames", "u32"), ("voiced", "u32s"), ("left", "u32s"), ("right", "u32s")],
    ),
    "band": Kind(
        7,
        [*WINDOWS, ("means", "f64s"), ("ivars", "f64s"), ("rows", ROOM), ("right", ROOM)],
        [("rows", "f64s"), ("right", "f64s")],
        [REFUSAL, ("rows", "f64s"), ("right", "f64s")],
    ),
    "trajectory": Kind(
        8,
        [*STREAM, *STREAM_ROOM],
        [("out", "f64s"), *CLAMPED],
        [REFUSAL, *STREAM_EXIT, *CLAMPED],
    ),
    "place": Kind(
        9,
        [("frame", "u32"), ("component", "u32"), ("v", "u32")],
        [("place", "u64")],
        [REFUSAL, ("place", "u64")],
    ),
    "excerpt": Kind(
        10,
        [("trajectory", ROOM), ("durations", "u32s"), ("v", "u32"), ("state", "u32")],
        [("first", "u64"), ("count", "u64")],
        [REFUSAL, ("first", "u64"), ("count", "u64")],
    ),
    "job": Kind(
        11,
        [("bytes", "u8s"), *FIT_ROOM],
        [("states", "u32"), ("frames", "u32"), ("changes", "u32"), ("durations", "u32s")],
        [REFUSAL, ("states", "u32"), ("frames", "u32"), ("changes", "u32"), ("place", "u64"), *FIT_EXIT],
    ),
    "link": Kind(
        12,
        # One call a byte of `calls`; the parts' lengths and joined bytes; each end's rooms.
        [("memory", "u8s"), ("calls", "u8s"), ("lengths", "u32s"), ("bytes", "u8s"), *FIT_EXIT],
        # Of the accepted ends.
        [("states", "u32s"), ("frames", "u32s"), ("changes", "u32s"), ("durations", "u32s")],
        # A refusal a call; of every end the values through pointers, and its lists joined.
        [("refusals", "u32s"), ("states", "u32s"), ("frames", "u32s"), ("changes", "u32s")]
        + [("places", "u64s"), *FIT_EXIT, ("memory", "u8s")],
    ),
    "old_number": Kind(13, [("number", "u32")], [("old", "u32")], [("old", "u32")]),
    "store": Kind(
        14,
        # One call a byte of `calls`; the voice of each that has one; three patterns a set; the files' lengths and
        # joined bytes; each write's room.
        [*STORE, ("calls", "u8s"), ("numbers", "u32s"), ("given", "u64s")]
        + [("lengths", "u32s"), ("bytes", "u8s"), ("out", "u32s")],
        STORE_EXIT,
        STORE_EXIT,
    ),
    "settings_file": Kind(
        15,
        [("bytes", "u8s"), ("voices", ROOM), ("settings", ROOM), ("out", ROOM)],
        STORE_EXIT,
        STORE_EXIT,
    ),
    "words": Kind(
        16,
        # The frames are asked for one after the other, then the excerpts of the words `asked`.
        [("words", "u32s"), ("nstate", "u32"), ("durations", "u32s"), ("frames", "u32s")]
        + [("trajectory", ROOM), ("v", "u32"), ("asked", "u32s")]
        + [("spans", ROOM), ("milliseconds", ROOM), ("out", ROOM)],
        WORDS_EXIT,
        WORDS_EXIT,
    ),
    "timing_file": Kind(17, [("bytes", "u8s"), ("spans", ROOM)], TIMING_EXIT, TIMING_EXIT),
    # An alignment whose totals are held to the claim that they don't drift, too.
    "chapter": Kind(18, ALIGNED, ALIGNED_VALUES, ALIGNED_EXIT),
    # Two numbers a voiced run: its first frame and its frames.
    "runs": Kind(
        19,
        [("v", "u32"), ("masked", "u32"), ("threshold", "f64"), ("windows", "u64")]
        + [("records", "f64s"), ("durations", "u32s"), ("runs", ROOM)],
        [("runs", "u32s"), ("count", "u32")],
        [REFUSAL, ("runs", "u32s"), ("count", "u32")],
    ),
    # One of them alone; every run of the stream is held to the full trajectory, too.
    "run": Kind(
        20,
        [*STREAM, ("run", "u32"), *STREAM_ROOM],
        [("out", "f64s"), ("frames", "u32")],
        [REFUSAL, *STREAM_EXIT, ("frames", "u32")],
    ),
    # A table of window sets; each house's calls are made alone, too.
    "houses": Kind(
        21,
        # One call a byte of `calls`; the house of each but the starts, the slot of each that has one; how many sets each start
        # has; the lengths and joined numbers of the window sets; each use's room.
        [*TABLE, ("calls", "u8s"), ("houses", "u32s"), ("slots", "u32s"), ("common", "u32s")]
        + [("n_widths", "u32s"), ("widths", "u32s"), ("n_coefficients", "u32s"), ("coefficients", "u64s"), ("rooms", "u32s")],
        TABLE_EXIT,
        TABLE_EXIT,
    ),
}

ALIGNMENTS = ("align", "chapter")


@dataclass
class Case:
    kind: str
    fields: Fields

    def __getitem__(self, name: str) -> Any:
        return self.fields[name]

    def with_fields(self, **fields: Any) -> "Case":
        return Case(self.kind, {**self.fields, **fields})


# The calls on a link's memory, as a case names them.
BEGIN, PART, END = range(3)


@dataclass(frozen=True)
class LinkCall:
    call: int
    part: bytes = b""  # of a part
    out: int = 0  # of an end
    work: int = 0


def link_case(memory: bytes, calls: list[LinkCall]) -> Case:
    parts = [one.part for one in calls if one.call == PART]
    ends = [one for one in calls if one.call == END]
    return Case("link", {
        "memory": memory,
        "calls": bytes(one.call for one in calls),
        "lengths": [len(part) for part in parts],
        "bytes": b"".join(parts),
        "out": [end.out for end in ends],
        "work": [end.work for end in ends],
    })


def link_calls(case: Case) -> list[LinkCall]:
    calls, first, part, end = [], 0, 0, 0
    for call in case["calls"]:
        if call == PART:
            last = first + case["lengths"][part]
            calls.append(LinkCall(PART, part=case["bytes"][first:last]))
            first, part = last, part + 1
        elif call == END:
            calls.append(LinkCall(END, out=case["out"][end], work=case["work"][end]))
            end += 1
        else:
            calls.append(LinkCall(BEGIN))
    return calls


# The calls on a store, as a case names them.
CLEAR, SET, GET, REMOVE, COUNT, READ, WRITE = range(7)
OF_A_VOICE = (SET, GET, REMOVE)


@dataclass(frozen=True)
class StoreCall:
    call: int
    voice: int = 0  # of a set, get or remove
    given: tuple[int, ...] = (0, 0, 0)  # of a set
    file: bytes = b""  # of a read
    room: int = 0  # of a write


def store_case(voices: list[int], settings: list[int], calls: list[StoreCall]) -> Case:
    files = [one.file for one in calls if one.call == READ]
    return Case("store", {
        "voices": voices,
        "settings": settings,
        "calls": bytes(one.call for one in calls),
        "numbers": [one.voice for one in calls if one.call in OF_A_VOICE],
        "given": [bits for one in calls if one.call == SET for bits in one.given],
        "lengths": [len(file) for file in files],
        "bytes": b"".join(files),
        "out": [one.room for one in calls if one.call == WRITE],
    })


def store_calls(case: Case) -> list[StoreCall]:
    """A settings file is read, the voices are counted, and the store is written."""
    if case.kind == "settings_file":
        return [StoreCall(READ, file=case["bytes"]), StoreCall(COUNT), StoreCall(WRITE, room=case["out"])]
    numbers, given, lengths, rooms = (iter(case[name]) for name in ("numbers", "given", "lengths", "out"))
    calls, first = [], 0
    for call in case["calls"]:
        voice = next(numbers) if call in OF_A_VOICE else 0
        if call == SET:
            calls.append(StoreCall(SET, voice, given=(next(given), next(given), next(given))))
        elif call == READ:
            last = first + next(lengths)
            calls.append(StoreCall(READ, file=case["bytes"][first:last]))
            first = last
        else:
            calls.append(StoreCall(call, voice, room=next(rooms) if call == WRITE else 0))
    return calls


def store_at_entry(case: Case) -> tuple[list[int], list[int]]:
    """The numbers of the voices and the settings; a settings file's store is marked."""
    if case.kind == "settings_file":
        return marked_u32(0, case["voices"]), marked_bits(case["settings"])
    return list(case["voices"]), list(case["settings"])


# The calls on a table, as a case names them.
TABLE_START, TABLE_SET, TABLE_CLEAR, TABLE_USE, TABLE_FREE = range(5)
OF_A_SLOT = (TABLE_SET, TABLE_CLEAR, TABLE_USE)
WITH_WINDOWS = (TABLE_START, TABLE_SET)


@dataclass(frozen=True)
class TableCall:
    call: int
    house: int = 0  # of all but a start
    slot: int = 0  # of a set, clear or use
    common: int = 0  # of a start
    widths: tuple[int, ...] = ()  # of a start or set
    coefficients: tuple[int, ...] = ()
    room: int = 0  # of a use


def table_case(widths: list[int], coefficients: list[int], calls: list[TableCall]) -> Case:
    given = [one for one in calls if one.call in WITH_WINDOWS]
    return Case("houses", {
        "widths_table": widths,
        "coefficients_table": coefficients,
        "calls": bytes(one.call for one in calls),
        "houses": [one.house for one in calls if one.call != TABLE_START],
        "slots": [one.slot for one in calls if one.call in OF_A_SLOT],
        "common": [one.common for one in calls if one.call == TABLE_START],
        "n_widths": [len(one.widths) for one in given],
        "widths": [width for one in given for width in one.widths],
        "n_coefficients": [len(one.coefficients) for one in given],
        "coefficients": [bits for one in given for bits in one.coefficients],
        "rooms": [one.room for one in calls if one.call == TABLE_USE],
    })


def table_calls(case: Case) -> list[TableCall]:
    names = ("houses", "slots", "common", "n_widths", "widths", "n_coefficients", "coefficients", "rooms")
    houses, slots, common, n_widths, widths, n_coefficients, coefficients, rooms = (iter(case[name]) for name in names)
    calls = []
    for call in case["calls"]:
        house = 0 if call == TABLE_START else next(houses)
        slot = next(slots) if call in OF_A_SLOT else 0
        sets = next(common) if call == TABLE_START else 0
        given = call in WITH_WINDOWS
        own_widths = tuple(islice(widths, next(n_widths) if given else 0))
        own = tuple(islice(coefficients, next(n_coefficients) if given else 0))
        calls.append(TableCall(call, house, slot, sets, own_widths, own, next(rooms) if call == TABLE_USE else 0))
    return calls


def encode(schema: Schema, fields: Fields) -> bytes:
    parts = []
    for name, form in schema:
        value = fields[name]
        if form in SCALARS:
            parts.append(struct.pack("<" + SCALARS[form], value))
        elif form == "u8s":
            parts.append(struct.pack("<I", len(value)) + bytes(value))
        else:
            letter, _ = LISTS[form]
            parts.append(struct.pack(f"<I{len(value)}{letter}", len(value), *value))
    return b"".join(parts)


def decode(schema: Schema, data: bytes) -> Fields:
    fields: Fields = {}
    place = 0
    for name, form in schema:
        if form in SCALARS:
            (fields[name],) = struct.unpack_from("<" + SCALARS[form], data, place)
            place += struct.calcsize("<" + SCALARS[form])
            continue
        (count,) = struct.unpack_from("<I", data, place)
        place += 4
        if form == "u8s":
            fields[name] = data[place : place + count]
            place += count
        else:
            letter, size = LISTS[form]
            fields[name] = list(struct.unpack_from(f"<{count}{letter}", data, place))
            place += size * count
    if place != len(data):
        raise ValueError(f"{len(data) - place} bytes beyond the fields {schema}")
    return fields


REFUSED_FLAG = 1


def encode_case(case: Case, refused: bool) -> bytes:
    kind = KINDS[case.kind]
    flags = REFUSED_FLAG if refused else 0
    body = bytes([kind.number, flags]) + encode(kind.inputs, case.fields)
    return struct.pack("<I", len(body)) + body


def split_answers(data: bytes) -> list[bytes]:
    """The answers of a program, each without its size; one cut short is left out."""
    answers = []
    place = 0
    while place + 4 <= len(data):
        (size,) = struct.unpack_from("<I", data, place)
        if place + 4 + size > len(data):
            break
        answers.append(data[place + 4 : place + 4 + size])
        place += 4 + size
    return answers
