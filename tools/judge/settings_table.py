"""RULES, Settings, by hand: for `tools/table`, stores and files with all that the calls leave."""

import struct
from collections.abc import Iterator

from .formats import CLEAR, COUNT, GET, READ, REMOVE, SET, UNTOUCHED_U32, UNTOUCHED_U64, WRITE
from .formats import Case, Fields, StoreCall, marked_bytes, store_case

# A line of the table: its name, the case, and what the calls leave.
Told = tuple[str, Case, Fields]
# What a store holds: the number and settings of some places, all others being as clear leaves them.
Places = dict[int, tuple[int, list[int]]]

FREE = 4_294_967_295
NOT_GOT = [UNTOUCHED_U64] * 3

# The rules' two voices, 7 with 1.25, 1 and 0.5 and 300 with 0.8, 0.7 and 0.45, and their files.
SEVEN = [0x3FF4000000000000, 0x3FF0000000000000, 0x3FE0000000000000]
THREE_HUNDRED = [0x3FE999999999999A, 0x3FE6666666666666, 0x3FDCCCCCCCCCCCCD]
OLD_THREE_HUNDRED = [0x3FE999999999999A, 0x3FE6666666666666, 0x3FE0000000000000]
VERSION_2 = bytes.fromhex(
    "565354 0200 0200"
    "0700 000000000000f43f 000000000000f03f 000000000000e03f"
    "2c01 9a9999999999e93f 666666666666e63f cdccccccccccdc3f"
)
VERSION_1 = bytes.fromhex(
    "565354 0100 0200"
    "0700 000000000000f43f 000000000000f03f"
    "2c01 9a9999999999e93f 666666666666e63f"
)
VERSION_1_WRITTEN = bytes.fromhex(
    "565354 0200 0200"
    "0700 000000000000f43f 000000000000f03f 000000000000e03f"
    "2c01 9a9999999999e93f 666666666666e63f 000000000000e03f"
)
NO_VOICES = bytes.fromhex("565354 0200 0000")

# What a store holds before a file is read, and what is then written of it.
ONE: Places = {3: (5, [1, 2, 3])}
ONE_WRITTEN = bytes.fromhex("565354 0200 0100 0500 0100000000000000 0200000000000000 0300000000000000")

# NaNs of other bits than the one that set stores and get hands out.
NANS = [0x7FF8000000000001, 0xFFF8000000000000, 0x7FF0000000000001]
ONE_NAN = 0x7FF8000000000000
NANS_FILE = bytes.fromhex("565354 0200 0100 0000 010000000000f87f 000000000000f8ff 010000000000f07f")


def numbers(places: Places) -> list[int]:
    return [places[place][0] if place in places else FREE for place in range(256)]


def settings(places: Places) -> list[int]:
    return [bits for place in range(256) for bits in (places[place][1] if place in places else [0, 0, 0])]


def told(
    name: str,
    entry: Places,
    calls: list[tuple[StoreCall, int]],
    left: Places,
    *,
    got: list[int] = [],
    held: list[int] = [],
    written: list[bytes | None] = [],
    behind: tuple[list[int], list[int]] = ([], []),
) -> Told:
    """Each call with its refusal; of each write the file, None where it is refused; numbers and settings behind a store."""
    case = store_case(numbers(entry) + behind[0], settings(entry) + behind[1], [call for call, _ in calls])
    rooms = [call.room for call, _ in calls if call.call == WRITE]
    outs = [(file or b"") + marked_bytes(len(file or b""), room) for file, room in zip(written, rooms, strict=True)]
    return name, case, {
        "refusals": [refusal for _, refusal in calls],
        "got": got,
        "held": held,
        "written": [UNTOUCHED_U64 if file is None else len(file) for file in written],
        "out": b"".join(outs),
        "voices": numbers(left) + behind[0],
        "settings": settings(left) + behind[1],
    }


def set_to(voice: int, given: list[int]) -> StoreCall:
    return StoreCall(SET, voice, given=tuple(given))


def get(voice: int) -> StoreCall:
    return StoreCall(GET, voice)


def remove(voice: int) -> StoreCall:
    return StoreCall(REMOVE, voice)


def write(room: int) -> StoreCall:
    return StoreCall(WRITE, room=room)


def accepted(name: str, data: bytes, left: Places, written: bytes) -> Told:
    """A file that is read into a store that holds another voice, counted, and written."""
    calls = [(StoreCall(READ, file=data), 0), (StoreCall(COUNT), 0), (write(len(written) + 3), 0)]
    return told(name, ONE, calls, left, held=[len(left)], written=[written])


def refused(name: str, data: bytes, number: int) -> Told:
    """The store is then as it was."""
    calls = [(StoreCall(READ, file=data), number), (StoreCall(COUNT), 0), (write(33), 0)]
    return told(name, ONE, calls, ONE, held=[1], written=[ONE_WRITTEN])


def short(name: str, data: bytes, voices: int, patterns: int) -> Told:
    """Before all damages stands the 6 of a short store, for every call but a count of enough numbers."""
    case = store_case([9] * voices, [1] * patterns, [
        StoreCall(READ, file=data), StoreCall(CLEAR), set_to(9, [0, 0, 0]), set_to(65_536, [0, 0, 0]),
        get(9), get(10), get(65_536), remove(9), remove(10), remove(65_536), StoreCall(COUNT), write(100),
    ])
    counted = voices >= 256
    return f"{name}, in a store of {voices} and {patterns}", case, {
        "refusals": [6, 6, 6, 3, 6, 6, 3, 6, 6, 3, 0 if counted else 6, 6],
        "got": NOT_GOT * 3,
        "held": [1 if counted else UNTOUCHED_U32],
        "written": [UNTOUCHED_U64],
        "out": marked_bytes(0, 100),
        "voices": [9] * voices,
        "settings": [1] * patterns,
    }


def in_version_2(voices: list[int]) -> bytes:
    """Each with its own number as the three patterns."""
    records = b"".join(struct.pack("<HQQQ", voice, voice, voice, voice) for voice in voices)
    return b"VST\2\0" + struct.pack("<H", len(voices)) + records


def plain(voices: list[int]) -> Places:
    """The store of such a file."""
    return {place: (voice, [voice] * 3) for place, voice in enumerate(voices)}


MANY = [3 * voice for voice in range(256)]
FULL = plain(MANY)
TOO_MANY = in_version_2([*MANY, 1])

FILES: list[Told] = [
    accepted("version 2", VERSION_2, {0: (7, SEVEN), 1: (300, THREE_HUNDRED)}, VERSION_2),
    accepted("version 1", VERSION_1, {0: (7, SEVEN), 1: (300, OLD_THREE_HUNDRED)}, VERSION_1_WRITTEN),
    accepted("version 2 without records", NO_VOICES, {}, NO_VOICES),
    accepted("version 1 without records", b"VST\1\0\0\0", {}, NO_VOICES),
    accepted("NaNs of other bits", NANS_FILE, {0: (0, NANS)}, NANS_FILE),
    accepted("256 voices", in_version_2(MANY), FULL, in_version_2(MANY)),
    accepted("256 voices, and each once more", in_version_2(MANY + MANY[::-1]), FULL, in_version_2(MANY)),
    accepted(
        "a later record replaces the earlier in its place",
        in_version_2([8, 65_535])[:5] + b"\3\0" + in_version_2([8, 65_535])[7:] + struct.pack("<HQQQ", 8, 1, 2, 3),
        {0: (8, [1, 2, 3]), 1: (65_535, [65_535] * 3)},
        b"VST\2\0\2\0" + struct.pack("<HQQQHQQQ", 8, 1, 2, 3, 65_535, 65_535, 65_535, 65_535),
    ),
    refused("no bytes", b"", 18),
    refused("V", b"V", 18),
    refused("VS", b"VS", 18),
    refused("VST", b"VST", 18),
    refused("X", b"X", 18),
    refused("VSX", b"VSX", 18),
    refused("vst and the version 2", b"vst\2\0\0\0", 18),
    refused("SPJ and the version 1", b"SPJ\1\0\0\0", 18),
    *[refused(f"VST and the byte {byte}", b"VST" + bytes([byte]), 18) for byte in range(256)],
    *[refused(f"VST and the version {number}", b"VST" + struct.pack("<H", number), 16)
      for number in (0, 3, 4, 255, 256, 257, 258, 512, 513, 65_535)],
    refused("VST and the version 1", b"VST\1\0", 18),
    refused("VST and the version 2", b"VST\2\0", 18),
    *[refused(f"VST, the version 2 and the byte {byte}", b"VST\2\0" + bytes([byte]), 18) for byte in range(256)],
    refused("VST, the version 3 and a byte", b"VST\3\0\0", 16),
    refused("version 3 without records", b"VST\3\0\0\0", 16),
    refused("version 3 with a byte too many", b"VST\3\0\0\0\0", 16),
    refused("no records and a byte", NO_VOICES + b"\0", 18),
    refused("one record and no more", b"VST\2\0\1\0", 18),
    refused("65,535 records and no more", b"VST\2\0\xff\xff", 18),
    refused("mark, version and length wrong", b"VSX\3\0\1\0\0", 18),
    refused("mark and version wrong", b"VXT\3\0\0\0", 18),
    refused("version and length wrong", b"VST\3\0\1\0\0", 16),
    refused("version 1 with records of version 2", VERSION_2[:3] + b"\1\0" + VERSION_2[5:], 18),
    refused("version 2 with records of version 1", VERSION_1[:3] + b"\2\0" + VERSION_1[5:], 18),
    refused("a byte too many", VERSION_2 + b"\0", 18),
    refused("a record too many", VERSION_2 + bytes(26), 18),
    refused("a record too few", VERSION_2[:33], 18),
    refused("257 voices", TOO_MANY, 17),
    refused("257 voices, the first once more", in_version_2([*MANY, 1, 0]), 17),
    refused("257 voices and a byte", TOO_MANY + b"\0", 18),
    refused("257 voices without the last byte", TOO_MANY[:-1], 18),
    refused("257 voices of version 3", TOO_MANY[:3] + b"\3\0" + TOO_MANY[5:], 16),
    refused("257 voices with a wrong mark", b"VSX" + TOO_MANY[3:], 18),
]

SHORT: list[Told] = [
    short(name, data, *lengths)
    for name, data in [
        ("version 2", VERSION_2), ("a wrong mark", b"VSX"), ("VST and the version 3", b"VST\3\0"),
        ("a byte too many", VERSION_2 + b"\0"), ("257 voices", TOO_MANY),
    ]
    for lengths in [(255, 768), (256, 767), (0, 0), (0, 768), (256, 0), (255, 767), (300, 767)]
]


def changed(name: str, data: bytes, place: int, byte: int) -> Told:
    """A worked file with a byte of its head changed; its length fits its own version and count alone."""
    other = data[:place] + bytes([byte]) + data[place + 1 :]
    version = place == 3 and byte not in (1, 2) or place == 4
    return refused(f"{name} with the byte {byte} at {place}", other, 16 if version else 18)


WORKED = [("version 2", VERSION_2), ("version 1", VERSION_1)]
CUT = [refused(f"{name} cut at byte {size}", data[:size], 18) for name, data in WORKED for size in range(len(data))]
CHANGED = [
    changed(name, data, place, byte)
    for name, data in WORKED for place in range(7) for byte in range(256) if byte != data[place]
]

# All zeros: the voice 0 at the first place, and 255 free places that repeat it.
ZEROS: Places = {place: (0, [0, 0, 0]) for place in range(256)}


def but(places: Places, **changes: tuple[int, list[int]]) -> Places:
    """With some places changed, `p3` for place 3."""
    return {**places, **{int(name[1:]): change for name, change in changes.items()}}


def without(places: Places, *gone: int) -> Places:
    return {place: held for place, held in places.items() if place not in gone}


A, B, C = [11, 12, 13], [21, 22, 23], [31, 32, 33]
TWICE: Places = {2: (7, A), 4: (9, B), 6: (7, C), 250: (7, B)}
REPEATS = but(FULL, p200=(MANY[3], A))


def filled() -> Iterator[Told]:
    """Voice after voice into a cleared store, in each state of which the next is taken but at 256."""
    sets = [(set_to(voice, [voice] * 3), 0) for voice in MANY]
    calls = [(StoreCall(CLEAR), 0), *sets, (StoreCall(COUNT), 0), (set_to(1, A), 17), (StoreCall(COUNT), 0)]
    yield told("256 voices set, and the 257th", ZEROS, calls, FULL, held=[256, 256])
    after = [(set_to(0, A), 0), (remove(MANY[100]), 0), (set_to(1, B), 0), (set_to(MANY[100], C), 17)]
    left = but(FULL, p0=(0, A), p100=(1, B))
    yield told("a full store takes what it holds, and a new voice where one was removed", FULL, after, left)
    back = [(remove(MANY[9]), 0), (remove(MANY[4]), 0), (set_to(MANY[9], A), 0), (StoreCall(COUNT), 0)]
    left = but(without(FULL, 9), p4=(MANY[9], A))
    yield told("removed and set again in the first free place", FULL, back, left, held=[255])
    rooms = [(write(6_662), 6), (write(6_663), 0), (write(6_664), 0)]
    files = [None, in_version_2(MANY), in_version_2(MANY)]
    yield told("a full store is 6,663 bytes", FULL, rooms, FULL, written=files)


STORES: list[Told] = [
    told("clear", TWICE, [(StoreCall(CLEAR), 0)], {}),
    told("a store of zeros holds the voice 0", ZEROS, [(StoreCall(COUNT), 0), (get(0), 0), (get(1), 19)], ZEROS,
         held=[1], got=[0, 0, 0, *NOT_GOT]),
    told("a store of zeros takes a voice at its second place", ZEROS, [(set_to(1, A), 0), (StoreCall(COUNT), 0)],
         but(ZEROS, p1=(1, A)), held=[2]),
    told("a store of zeros without the voice 0", ZEROS, [(remove(0), 0), (StoreCall(COUNT), 0), (write(7), 0)], {},
         held=[0], written=[NO_VOICES]),
    told("a voice is replaced in its place", {}, [(set_to(7, A), 0), (set_to(9, B), 0), (set_to(7, C), 0)],
         {0: (7, C), 1: (9, B)}),
    told("a removed voice leaves the first free place", {0: (7, A), 1: (9, B)},
         [(remove(7), 0), (set_to(8, C), 0), (set_to(7, A), 0), (remove(7), 0), (remove(7), 19)],
         {0: (8, C), 1: (9, B)}),
    told("the first place of a number counts", TWICE,
         [(StoreCall(COUNT), 0), (get(7), 0), (set_to(7, B), 0), (get(7), 0)], but(TWICE, p2=(7, B)),
         held=[2], got=[*A, *B]),
    told("a repeated number is not written", TWICE, [(write(59), 0), (write(58), 6)], TWICE,
         written=[b"VST\2\0\2\0" + struct.pack("<HQQQHQQQ", 7, *A, 9, *B), None]),
    told("every place of a removed voice becomes free", TWICE, [(remove(7), 0), (get(7), 19), (StoreCall(COUNT), 0)],
         {4: (9, B), 6: (FREE, C), 250: (FREE, B)}, held=[1], got=NOT_GOT),
    told("a full store of which a place repeats takes a voice there", REPEATS,
         [(StoreCall(COUNT), 0), (set_to(1, B), 0), (StoreCall(COUNT), 0), (set_to(2, B), 17)],
         but(FULL, p200=(1, B)), held=[255, 256]),
    told("numbers above 65,535 are free places", {0: (65_536, A), 1: (65_535, B), 2: (FREE - 1, C)},
         [(StoreCall(COUNT), 0), (get(65_535), 0), (get(65_536), 3), (get(FREE), 3), (set_to(5, C), 0)],
         {0: (5, C), 1: (65_535, B), 2: (FREE - 1, C)}, held=[1], got=[*B, *NOT_GOT, *NOT_GOT]),
    told("numbers of no voice", ONE, [(set_to(65_536, A), 3), (remove(65_536), 3), (remove(FREE), 3), (set_to(FREE, A), 3)],
         ONE),
    told("the largest voice", {}, [(set_to(65_535, A), 0), (get(65_535), 0), (remove(65_535), 0)], {}, got=A),
    told("NaNs that are set are one", {}, [(set_to(0, NANS), 0)], {0: (0, [ONE_NAN] * 3)}),
    told("NaNs that are got are one, and are written as they are", {0: (0, NANS)}, [(get(0), 0), (write(33), 0)],
         {0: (0, NANS)}, got=[ONE_NAN] * 3, written=[NANS_FILE]),
    told("infinities and zeros are no NaNs", {}, [(set_to(0, [0x7FF0000000000000, 0xFFF0000000000000, 2**63]), 0), (get(0), 0)],
         {0: (0, [0x7FF0000000000000, 0xFFF0000000000000, 2**63])}, got=[0x7FF0000000000000, 0xFFF0000000000000, 2**63]),
    told("what is behind a store is not looked at and not touched", ONE,
         [(StoreCall(COUNT), 0), (get(77), 19), (set_to(77, A), 0), (remove(77), 0), (StoreCall(READ, file=VERSION_2), 0),
          (StoreCall(CLEAR), 0), (write(7), 0)],
         {}, held=[1], got=NOT_GOT, written=[NO_VOICES], behind=([77, 5, 78], [1, 2, 3, 4, 5])),
    *filled(),
]
