"""RULES, Read-along, by hand: for `tools/table`, words and timing files with all that the calls leave."""

import struct

from .formats import UNTOUCHED_U32, UNTOUCHED_U64, Case, Fields, marked_bytes, marked_u32

# A line of the table: its name, the case, and what the calls leave.
Told = tuple[str, Case, Fields]

LARGEST = 4_294_967_295

# The rules' words: of 1, 0 and 2 labels with two states a label, and their file.
WORKED: Fields = {"words": [1, 0, 2], "nstate": 2, "durations": [2, 3, 4, 0, 1, 5]}
WORKED_SPANS = [0, 5, 5, 5, 5, 15]
WORKED_TIMES = [0, 25, 25, 25, 25, 75]
WORKED_FILE = bytes.fromhex(
    "52414c 0100 03000000"
    "00000000 05000000"
    "05000000 05000000"
    "05000000 0f000000"
)
NO_WORDS = bytes.fromhex("52414c 0100 00000000")


def asked_of(words: Fields, frames: list[int], v: int, numbers: int, asked: list[int], rooms: tuple[int, int, int]) -> Case:
    spans, milliseconds, out = rooms
    return Case("words", {
        **words,
        "frames": frames,
        "trajectory": numbers,
        "v": v,
        "asked": asked,
        "spans": spans,
        "milliseconds": milliseconds,
        "out": out,
    })


def answered(
    name: str,
    words: list[int],
    nstate: int,
    durations: list[int],
    *,
    spans: list[int],
    times: list[int],
    heard: list[tuple[int, int]],
    frames: int,
    v: int,
    parts: list[tuple[int, int]],
    file: bytes,
    longer: int = 3,
) -> Told:
    """Frames with the word that is heard, then three that aren't there; of each word its part, then of two that aren't there."""
    given = {"words": words, "nstate": nstate, "durations": durations}
    asked_frames = [*[frame for frame, _ in heard], frames, frames + 1, LARGEST]
    asked = [*range(len(words)), len(words), LARGEST]
    rooms = (len(spans) + longer, len(times) + 2 * longer, len(file) + longer)
    case = asked_of(given, asked_frames, v, frames * v, asked, rooms)
    return name, case, {
        "refusals": [0, 0, *[0] * len(heard), 2, 2, 2, *[0] * len(words), 2, 2, 0],
        "spans": spans + marked_u32(len(spans), rooms[0]),
        "milliseconds": times + marked_u32(len(times), rooms[1]),
        "sounding": [*[word for _, word in heard], *[UNTOUCHED_U32] * 3],
        "firsts": [*[first for first, _ in parts], *[UNTOUCHED_U64] * 2],
        "counts": [*[count for _, count in parts], *[UNTOUCHED_U64] * 2],
        "written": len(file),
        "out": file + marked_bytes(len(file), rooms[2]),
    }


def packed(spans: list[int]) -> bytes:
    return b"RAL\1\0" + struct.pack(f"<I{len(spans)}I", len(spans) // 2, *spans)


WORDS: list[Told] = [
    *[answered(
        f"the rules' words, outputs {longer} longer", [1, 0, 2], 2, [2, 3, 4, 0, 1, 5],
        spans=WORKED_SPANS, times=WORKED_TIMES,
        heard=[(0, 0), (1, 0), (2, 0), (3, 0), (4, 0), (5, 2), (6, 2), (7, 2), (8, 2), (9, 2), (10, 2), (14, 2)],
        frames=15, v=v, parts=[(0, 5 * v), (5 * v, 0), (5 * v, 10 * v)], file=WORKED_FILE, longer=longer,
    ) for longer, v in [(0, 1), (0, 2), (3, 40), (5, 64)]],
    answered(
        "no words", [], 1, [],
        spans=[], times=[], heard=[], frames=0, v=1, parts=[], file=NO_WORDS,
    ),
    answered(
        "no words, outputs just so long", [], 16, [],
        spans=[], times=[], heard=[], frames=0, v=64, parts=[], file=NO_WORDS, longer=0,
    ),
    answered(
        "three words of no labels", [0, 0, 0], 16, [],
        spans=[0] * 6, times=[0] * 6, heard=[], frames=0, v=3, parts=[(0, 0)] * 3, file=packed([0] * 6),
    ),
    answered(
        "two words of no frames", [1, 2], 1, [0, 0, 0],
        spans=[0, 0, 0, 0], times=[0, 0, 0, 0], heard=[], frames=0, v=2, parts=[(0, 0), (0, 0)],
        file=packed([0, 0, 0, 0]),
    ),
    answered(
        "one word", [3], 1, [1, 2, 3],
        spans=[0, 6], times=[0, 30], heard=[(0, 0), (1, 0), (2, 0), (3, 0), (5, 0)], frames=6, v=1, parts=[(0, 6)],
        file=bytes.fromhex("52414c 0100 01000000 00000000 06000000"),
    ),
    answered(
        "a word of no labels on both sides", [0, 1, 0], 3, [1, 0, 2],
        spans=[0, 0, 0, 3, 3, 3], times=[0, 0, 0, 15, 15, 15], heard=[(0, 1), (1, 1), (2, 1)], frames=3, v=2,
        parts=[(0, 0), (0, 6), (6, 0)], file=packed([0, 0, 0, 3, 3, 3]),
    ),
    answered(
        "a word of no frames on both sides", [1, 1, 1], 2, [0, 0, 4, 1, 0, 0],
        spans=[0, 0, 0, 5, 5, 5], times=[0, 0, 0, 25, 25, 25], heard=[(0, 1), (3, 1), (4, 1)], frames=5, v=1,
        parts=[(0, 0), (0, 5), (5, 0)], file=packed([0, 0, 0, 5, 5, 5]),
    ),
    answered(
        "words of one frame", [1, 1, 1], 1, [1, 1, 1],
        spans=[0, 1, 1, 2, 2, 3], times=[0, 5, 5, 10, 10, 15], heard=[(0, 0), (1, 1), (2, 2)], frames=3, v=5,
        parts=[(0, 5), (5, 5), (10, 5)], file=packed([0, 1, 1, 2, 2, 3]),
    ),
    answered(
        "16 states a label", [1, 1], 16, [1] * 16 + [2] * 16,
        spans=[0, 16, 16, 48], times=[0, 80, 80, 240], heard=[(0, 0), (15, 0), (16, 1), (17, 1), (47, 1)], frames=48,
        v=10, parts=[(0, 160), (160, 320)], file=packed([0, 16, 16, 48]),
    ),
    answered(
        "65,536 frames", [1, 1], 1, [65_535, 1],
        spans=[0, 65_535, 65_535, 65_536], times=[0, 327_675, 327_675, 327_680],
        heard=[(0, 0), (65_534, 0), (65_535, 1)], frames=65_536, v=1, parts=[(0, 65_535), (65_535, 1)],
        file=bytes.fromhex("52414c 0100 02000000 00000000 ffff0000 ffff0000 00000100"),
    ),
    answered(
        "65,536 frames of 64 components", [0, 1, 0], 1, [65_536],
        spans=[0, 0, 0, 65_536, 65_536, 65_536], times=[0, 0, 0, 327_680, 327_680, 327_680],
        heard=[(0, 1), (65_535, 1)], frames=65_536, v=64, parts=[(0, 0), (0, 4_194_304), (4_194_304, 0)],
        file=packed([0, 0, 0, 65_536, 65_536, 65_536]),
    ),
    answered(
        "4,096 states of a word", [4_096], 1, [1] * 4_096,
        spans=[0, 4_096], times=[0, 20_480], heard=[(0, 0), (4_095, 0)], frames=4_096, v=1, parts=[(0, 4_096)],
        file=packed([0, 4_096]),
    ),
    answered(
        "4,096 states, 16 a label", [255, 1], 16, [1] * 4_080 + [2] * 16,
        spans=[0, 4_080, 4_080, 4_112], times=[0, 20_400, 20_400, 20_560], heard=[(4_079, 0), (4_080, 1), (4_111, 1)],
        frames=4_112, v=1, parts=[(0, 4_080), (4_080, 32)], file=packed([0, 4_080, 4_080, 4_112]),
    ),
]


def refused(
    name: str,
    words: Fields,
    number: int,
    *,
    v: int = 1,
    numbers: int | None = None,
    excerpt: int | None = None,
    rooms: tuple[int, int, int] = (20, 20, 100),
) -> Told:
    """The same number of all calls, but for the excerpts' own; a frame and a word that may be there, and others that aren't."""
    of_excerpts = number if excerpt is None else excerpt
    numbers = sum(words["durations"]) * v if numbers is None else numbers
    case = asked_of(words, [0, LARGEST], v, numbers, [0, LARGEST], rooms)
    return f"{name}, outputs {rooms}", case, {
        "refusals": [number] * 4 + [of_excerpts] * 2 + [number],
        "spans": marked_u32(0, rooms[0]),
        "milliseconds": marked_u32(0, rooms[1]),
        "sounding": [UNTOUCHED_U32] * 2,
        "firsts": [UNTOUCHED_U64] * 2,
        "counts": [UNTOUCHED_U64] * 2,
        "written": UNTOUCHED_U64,
        "out": marked_bytes(0, rooms[2]),
    }


def given(words: list[int], nstate: int, durations: list[int]) -> Fields:
    return {"words": words, "nstate": nstate, "durations": durations}


# 5 goes before 1, 2 and 4, and 1 before 2 and 4: with room and without.
REFUSED: list[Told] = [
    refused(name, words, number, rooms=rooms, **others)
    for rooms in [(20, 20, 100), (0, 0, 0)]
    for name, words, number, others in [
        ("no states a label", {**WORKED, "nstate": 0}, 5, {}),
        ("no states a label, no words", given([], 0, []), 5, {}),
        ("no states a label, words of some labels", given([3, 4], 0, []), 5, {}),
        ("17 states a label", given([1], 17, [1] * 17), 5, {}),
        ("17 states a label, labels that disagree", {**WORKED, "nstate": 17}, 5, {}),
        ("4,294,967,295 states a label", {**WORKED, "nstate": LARGEST}, 5, {}),
        ("4,294,967,295 states a label, no words", given([], LARGEST, []), 5, {}),
        ("4,097 states", given([4_097], 1, [1] * 4_097), 5, {}),
        ("4,097 states, labels that disagree", given([4_096], 1, [1] * 4_097), 5, {}),
        ("4,112 states", given([257], 16, [1] * 4_112), 5, {}),
        ("65,537 frames", given([1, 1], 1, [65_536, 1]), 5, {}),
        ("65,537 frames, labels that disagree", given([1], 1, [65_536, 1]), 5, {}),
        ("2**32 frames", given([1, 1], 1, [LARGEST, 1]), 5, {"numbers": 0}),
        ("2**32 and 5 frames", given([3], 1, [2**31, 2**31, 5]), 5, {"numbers": 5}),
        ("a duration too few", given([1, 0, 2], 2, [2, 3, 4, 0, 1]), 1, {}),
        ("a duration too many", given([1, 0, 2], 2, [2, 3, 4, 0, 1, 5, 1]), 1, {}),
        ("a label's durations too few", given([1, 0, 2], 2, [2, 3, 4, 0]), 1, {}),
        ("a label's durations too many", given([1, 0, 2], 2, [2, 3, 4, 0, 1, 5, 1, 1]), 1, {}),
        ("a label too few", {**WORKED, "words": [1, 0, 1]}, 1, {}),
        ("a label too many", {**WORKED, "words": [1, 1, 2]}, 1, {}),
        ("as many labels as states", {**WORKED, "words": [1, 0, 5]}, 1, {}),
        ("no words for some durations", {**WORKED, "words": []}, 1, {}),
        ("a word of no labels for some durations", {**WORKED, "words": [0]}, 1, {}),
        ("no durations for some words", {**WORKED, "durations": []}, 1, {}),
        ("4,096 durations for 4,095 labels", given([4_095], 1, [1] * 4_096), 1, {}),
        ("2**32 labels and 1", given([2**31, 2**31, 1], 1, [7]), 1, {}),
        ("2**32 labels", given([LARGEST, 1], 1, []), 1, {}),
        ("2**32 labels of two states", given([LARGEST, 1], 2, []), 1, {}),
        ("2**31 labels of two states", given([2**31], 2, []), 1, {}),
        ("2**31 labels of two states and 3 more", given([2**31, 3], 2, [2, 3, 4, 0, 1, 5]), 1, {}),
        ("2**28 labels of 16 states", given([2**28], 16, []), 1, {}),
        ("2**28 labels of 16 states and 1 more", given([2**28, 1], 16, [1] * 16), 1, {}),
        ("labels of 3 states, 2**33 and 1", given([0xAAAAAAAB], 3, [1]), 1, {}),
        ("2**33 - 2 labels", given([LARGEST, LARGEST], 1, [1]), 1, {}),
        ("labels that disagree, and a trajectory a number short", {**WORKED, "words": [1, 0, 1]}, 1,
         {"numbers": 14, "excerpt": 5}),
        ("labels that disagree, and a v of 0", {**WORKED, "words": [1, 0, 1]}, 1, {"v": 0, "excerpt": 5}),
    ]
]


def of_trajectory(v: int, numbers: int, word: int, number: int) -> Told:
    """The rules' words with an excerpt that is refused; the other calls are answered."""
    case = asked_of(WORKED, [5], v, numbers, [word], (6, 6, 33))
    return f"{numbers} numbers with a v of {v}, word {word}", case, {
        "refusals": [0, 0, 0, number, 0],
        "spans": WORKED_SPANS,
        "milliseconds": WORKED_TIMES,
        "sounding": [2],
        "firsts": [UNTOUCHED_U64],
        "counts": [UNTOUCHED_U64],
        "written": 33,
        "out": WORKED_FILE,
    }


# 15 frames: 5 goes before 2.
TRAJECTORIES: list[Told] = [
    *[of_trajectory(*shape, word, 5) for word in (0, 1, 2, 3, LARGEST) for shape in [
        (2, 29), (2, 31), (2, 15), (2, 0), (2, 28), (2, 32), (1, 14), (1, 16), (1, 0), (64, 959), (64, 961),
        (0, 0), (0, 15), (65, 975), (65, 960), (LARGEST, 0), (LARGEST, 15),
    ]],
    *[of_trajectory(v, 15 * v, word, 2) for v in (1, 2, 64) for word in (3, 4, 2**16, LARGEST)],
]


def in_rooms(spans: int, milliseconds: int, out: int) -> Told:
    """The rules' words with outputs that may be too short: 6, 6 and 33 are needed."""
    case = asked_of(WORKED, [], 1, 15, [], (spans, milliseconds, out))
    short = [spans < 6, milliseconds < 6, out < 33]
    return f"outputs of {spans}, {milliseconds} and {out}", case, {
        "refusals": [4 if one else 0 for one in short],
        "spans": marked_u32(0, spans) if short[0] else WORKED_SPANS + marked_u32(6, spans),
        "milliseconds": marked_u32(0, milliseconds) if short[1] else WORKED_TIMES + marked_u32(6, milliseconds),
        "sounding": [],
        "firsts": [],
        "counts": [],
        "written": UNTOUCHED_U64 if short[2] else 33,
        "out": marked_bytes(0, out) if short[2] else WORKED_FILE + marked_bytes(33, out),
    }


ROOMS: list[Told] = [in_rooms(*rooms) for rooms in [
    (5, 5, 32), (5, 6, 33), (6, 5, 33), (6, 6, 32), (0, 0, 0), (3, 3, 9), (1, 7, 24), (7, 1, 34), (6, 6, 33), (4, 4, 8),
]]


def read(name: str, data: bytes, spans: list[int], room: int | None = None) -> Told:
    room = len(spans) + 2 if room is None else room
    case = Case("timing_file", {"bytes": data, "spans": room})
    return name, case, {"refusal": 0, "spans": spans + marked_u32(len(spans), room), "words": len(spans) // 2}


def not_read(name: str, data: bytes, number: int, room: int) -> Told:
    case = Case("timing_file", {"bytes": data, "spans": room})
    return f"{name}, in {room} numbers", case, {"refusal": number, "spans": marked_u32(0, room), "words": UNTOUCHED_U32}


def malformed(name: str, data: bytes) -> list[Told]:
    """With room and without: 3 goes before 4."""
    return [not_read(name, data, 3, room) for room in (20, 0)]


def with_count(count: int) -> bytes:
    return WORKED_FILE[:5] + struct.pack("<I", count) + WORKED_FILE[9:]


# Words that are well formed but for their frames.
NOT_TOUCHING = {
    "a gap": [0, 5, 6, 15],
    "a gap up to the second's end": [0, 5, 15, 15],
    "a gap before the last of three": [0, 5, 5, 7, 8, 15],
    "an overlap": [0, 5, 4, 15],
    "a second word from 0": [0, 5, 0, 15],
    "a second word that begins as the first does, at 0": [0, 1, 0, 1],
    "an overlap before the last of three": [0, 5, 5, 7, 6, 15],
    "not from 0": [1, 5, 5, 15],
    "one word not from 0": [1, 1],
    "one word of no frames, not from 0": [LARGEST, LARGEST],
    "a word that ends before it begins": [0, 5, 5, 4],
    "a word that ends before it begins, and the next where it ended": [0, 5, 5, 3, 3, 15],
    "back to 0": [0, 5, 5, 0],
    "back from the largest frame": [0, LARGEST, LARGEST, 0],
    "back from the largest frame by one": [0, LARGEST, LARGEST, LARGEST - 1],
    "back below half of the frames": [0, 2**31, 2**31, 2**31 - 1],
    "both numbers of a word in each other's place": [5, 0, 0, 15],
    "words in each other's place": [5, 15, 0, 5],
}

FILES: list[Told] = [
    read("the rules' words", WORKED_FILE, WORKED_SPANS),
    read("the rules' words, just so much room", WORKED_FILE, WORKED_SPANS, 6),
    read("no words", NO_WORDS, []),
    read("no words and no room", NO_WORDS, [], 0),
    read("one word of no frames", packed([0, 0]), [0, 0]),
    read("one word of all frames", b"RAL\1\0\1\0\0\0\0\0\0\0\xff\xff\xff\xff", [0, LARGEST]),
    read("words at the largest frame", packed([0, LARGEST, LARGEST, LARGEST]), [0, LARGEST, LARGEST, LARGEST]),
    read("words at half of the frames", packed([0, 2**31 - 1, 2**31 - 1, 2**31]), [0, 2**31 - 1, 2**31 - 1, 2**31]),
    read("more frames than an utterance has", packed([0, 65_537, 65_537, 70_000]), [0, 65_537, 65_537, 70_000]),
    read("65,536 words of no frames", packed([0] * 131_072), [0] * 131_072, 131_072),
    read("65,537 words of no frames", packed([0] * 131_074), [0] * 131_074),
    not_read("the rules' words", WORKED_FILE, 4, 5),
    not_read("the rules' words", WORKED_FILE, 4, 3),
    not_read("the rules' words", WORKED_FILE, 4, 0),
    not_read("one word of no frames", packed([0, 0]), 4, 1),
    not_read("one word of no frames", packed([0, 0]), 4, 0),
    not_read("65,536 words of no frames", packed([0] * 131_072), 4, 131_071),
    not_read("65,536 words of no frames", packed([0] * 131_072), 4, 0),
    *malformed("no bytes", b""),
    *malformed("X", b"X"),
    *malformed("RAX", b"RAX"),
    *malformed("ral and the rest of no words", b"ral" + NO_WORDS[3:]),
    *malformed("VST and the rest of no words", b"VST" + NO_WORDS[3:]),
    *malformed("SPJ and the version 1", b"SPJ\1\0\0\0"),
    *[line for byte in range(256) for line in malformed(f"RAL and the byte {byte}", b"RAL" + bytes([byte]))],
    *[line for number in (0, 2, 3, 255, 256, 257, 258, 512, 513, 65_281, 65_535)
      for line in malformed(f"version {number} without words", b"RAL" + struct.pack("<HI", number, 0))],
    *malformed("no words and a byte", NO_WORDS + b"\0"),
    *malformed("no words and a word", NO_WORDS + bytes(8)),
    *malformed("one word and no more", b"RAL\1\0\1\0\0\0"),
    *malformed("4,294,967,295 words and no more", b"RAL\1\0\xff\xff\xff\xff"),
    *malformed("2**29 words and no more, whose bytes are 9 in 32 bits", b"RAL\1\0\0\0\0\x20"),
    *malformed("2**31 words and no more", b"RAL\1\0\0\0\0\x80"),
    *[line for more in (2**8, 2**16, 2**24, 2**28, 2**29, 2**30, 2**31, 7 * 2**29, 2**32 - 2**16)
      for line in malformed(f"{more} words more than there are", with_count(3 + more))],
    *[line for count in (0, 1, 2, 4, 5, 6, LARGEST) for line in malformed(f"{count} words for three", with_count(count))],
    *malformed("a byte too many", WORKED_FILE + b"\0"),
    *malformed("a number too many", WORKED_FILE + b"\x0f\0\0\0"),
    *malformed("a word too many", WORKED_FILE + b"\x0f\0\0\0\x0f\0\0\0"),
    *malformed("a number too few", WORKED_FILE[:29]),
    *malformed("a word too few", WORKED_FILE[:25]),
    *[line for name, spans in NOT_TOUCHING.items() for line in malformed(name, packed(spans))],
]

CUT: list[Told] = [
    line for size in range(len(WORKED_FILE)) for line in malformed(f"the rules' file cut at byte {size}", WORKED_FILE[:size])
]


def changed(place: int, byte: int) -> list[Told]:
    """The rules' file with one byte changed: of the spans the last end alone can be another number, from 5 on."""
    name = f"the rules' file with the byte {byte} at {place}"
    data = WORKED_FILE[:place] + bytes([byte]) + WORKED_FILE[place + 1 :]
    if place < 29 or place == 29 and byte < 5:
        return malformed(name, data)
    last = byte if place == 29 else 15 + (byte << 8 * (place - 29))
    return [read(name, data, [0, 5, 5, 5, 5, last])]


CHANGED: list[Told] = [
    line for place in range(len(WORKED_FILE)) for byte in range(256) if byte != WORKED_FILE[place]
    for line in changed(place, byte)
]
