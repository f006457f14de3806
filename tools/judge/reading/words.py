"""RULES, Read-along: which word each frame belongs to, what the calls say of it, and the timing file."""

import struct
from bisect import bisect_left, bisect_right
from collections.abc import Callable

from ..formats import UNTOUCHED_U32, UNTOUCHED_U64, Case, Fields, marked_bytes, marked_u32
from .ieee import MAX_FRAMES
from .refusals import MAX_NSTATE, MAX_STATES, MAX_V

MAX_WORDS = 4_294_967_295
FRAME_MILLISECONDS = 5

MARK = b"RAL"
VERSION = 1
HEAD = 9
SPAN = 8

DISAGREE, NOT_THERE, MALFORMED, TOO_SHORT, REFUSED_BELOW = 1, 2, 3, 4, 5
ORDER = (REFUSED_BELOW, DISAGREE, NOT_THERE, MALFORMED, TOO_SHORT)

Checks = dict[int, Callable[[], bool]]


def refusal(checks: Checks) -> int:
    """The first number that applies, 0 for none."""
    return next((number for number in ORDER if number in checks and checks[number]()), 0)


def bad_durations(case: Case) -> bool:
    if not 1 <= case["nstate"] <= MAX_NSTATE:
        return True
    return len(case["durations"]) > MAX_STATES or sum(case["durations"]) > MAX_FRAMES


def bad_trajectory(case: Case) -> bool:
    if not 1 <= case["v"] <= MAX_V:
        return True
    return case["trajectory"] != sum(case["durations"]) * case["v"]


def disagree(case: Case) -> bool:
    states = sum(case["words"]) * case["nstate"]
    return states != len(case["durations"]) or len(case["words"]) > MAX_WORDS


def checks_of(case: Case) -> Checks:
    """Those of every call on words."""
    return {REFUSED_BELOW: lambda: bad_durations(case), DISAGREE: lambda: disagree(case)}


def owners(case: Case) -> list[int]:
    """The word that each frame belongs to, frame by frame, where words and durations agree."""
    states = (word for word, labels in enumerate(case["words"]) for _ in range(labels * case["nstate"]))
    return [word for word, duration in zip(states, case["durations"]) for _ in range(duration)]


def first_frame(owned: list[int], word: int) -> int:
    """How many frames belong to the words before it."""
    return bisect_left(owned, word)


def frame_after_last(owned: list[int], word: int) -> int:
    """How many belong to it and the words before it."""
    return bisect_right(owned, word)


def spans_of(case: Case) -> list[int]:
    owned = owners(case)
    return [bound(owned, word) for word in range(len(case["words"])) for bound in (first_frame, frame_after_last)]


def in_milliseconds(spans: list[int]) -> list[int]:
    return [FRAME_MILLISECONDS * frame for frame in spans]


def listed(case: Case, room: str, answer: Callable[[], list[int]]) -> tuple[int, list[int]]:
    """The refusal and the list at exit, of the spans and of the milliseconds."""
    needed = 2 * len(case["words"])
    number = refusal(checks_of(case) | {TOO_SHORT: lambda: case[room] < needed})
    return number, (marked_u32(0, case[room]) if number else answer() + marked_u32(needed, case[room]))


def sounding(case: Case, frame: int) -> tuple[int, int]:
    """The refusal, and the word that sounds."""
    number = refusal(checks_of(case) | {NOT_THERE: lambda: frame >= sum(case["durations"])})
    return (number, UNTOUCHED_U32) if number else (0, owners(case)[frame])


def excerpt(case: Case, word: int) -> tuple[int, int, int]:
    """The refusal, and the first number of the word's part and how many it has."""
    below = lambda: bad_durations(case) or bad_trajectory(case)
    number = refusal(checks_of(case) | {REFUSED_BELOW: below, NOT_THERE: lambda: word >= len(case["words"])})
    if number:
        return number, UNTOUCHED_U64, UNTOUCHED_U64
    owned, v = owners(case), case["v"]
    return 0, first_frame(owned, word) * v, owned.count(word) * v


def file_of(spans: list[int]) -> bytes:
    head = MARK + struct.pack("<HI", VERSION, len(spans) // 2)
    return head + struct.pack(f"<{len(spans)}I", *spans)


def write(case: Case) -> tuple[int, int, bytes]:
    """The refusal, the bytes that were written, and the output at exit."""
    needed, room = HEAD + SPAN * len(case["words"]), case["out"]
    number = refusal(checks_of(case) | {TOO_SHORT: lambda: room < needed})
    if number:
        return number, UNTOUCHED_U64, marked_bytes(0, room)
    return 0, needed, file_of(spans_of(case)) + marked_bytes(needed, room)


def words_values(case: Case) -> Fields:
    """What the calls on the case's words leave, one after the other."""
    spans_refusal, spans = listed(case, "spans", lambda: spans_of(case))
    times_refusal, times = listed(case, "milliseconds", lambda: in_milliseconds(spans_of(case)))
    at = [sounding(case, frame) for frame in case["frames"]]
    excerpts = [excerpt(case, word) for word in case["asked"]]
    write_refusal, written, out = write(case)
    of_asked = [number for number, *_ in [*at, *excerpts]]
    return {
        "refusals": [spans_refusal, times_refusal, *of_asked, write_refusal],
        "spans": spans,
        "milliseconds": times,
        "sounding": [word for _, word in at],
        "firsts": [first for _, first, _ in excerpts],
        "counts": [count for _, _, count in excerpts],
        "written": written,
        "out": out,
    }


def version_of(data: bytes) -> int:
    return int.from_bytes(data[3:5], "little")


def count_of(data: bytes) -> int:
    """How many words a file says that it has."""
    return int.from_bytes(data[5:9], "little")


def spans_in(data: bytes) -> list[int]:
    """Of a file of the right length."""
    return list(struct.unpack_from(f"<{2 * count_of(data)}I", data, HEAD))


def is_malformed(data: bytes) -> bool:
    if data[: len(MARK)] != MARK:
        return True
    if version_of(data) != VERSION:
        return True
    if len(data) < HEAD or len(data) != HEAD + SPAN * count_of(data):
        return True
    spans = spans_in(data)
    firsts, afters = spans[0::2], spans[1::2]
    if firsts != [0, *afters][: len(firsts)]:
        return True
    return any(after < first for first, after in zip(firsts, afters))


def timing_values(case: Case) -> Fields:
    data, room = case["bytes"], case["spans"]
    count = count_of(data)
    number = refusal({MALFORMED: lambda: is_malformed(data), TOO_SHORT: lambda: room < 2 * count})
    if number:
        return {"refusal": number, "spans": marked_u32(0, room), "words": UNTOUCHED_U32}
    return {"refusal": 0, "spans": spans_in(data) + marked_u32(2 * count, room), "words": count}
