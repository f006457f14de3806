"""RULES, Durations and Job file, by hand: for `tools/table`, fits, speeds, alignments, jobs and links with shortest durations.

A pair is (mean, variance). Of states (2, 1) and (3, 1) the estimates are 2 + rho and 3 + rho, and rho is (T - 5) / 2. Their costs
are the sizes of rho - (d - 2) and rho - (d - 3).
"""

import math
import struct

from .formats import BEGIN, END, PART, UNTOUCHED_U32, UNTOUCHED_U64, Case, Fields, LinkCall, link_case, marked_u32
from .reading.ieee import NAN

# A line of the table: its name, the case, its values or its refusal, and what a call leaves.
Told = tuple[str, Case, Fields, int, Fields]

OPEN = -1.0
MOST = 2**32 - 1
TWO = [(2.0, 1.0), (3.0, 1.0)]
Pairs = list[tuple[float, float]]


def states(pairs: Pairs, shortest: list[int], **rooms: int) -> Fields:
    count = len(pairs)
    lists = {"means": [mean for mean, _ in pairs], "varis": [vari for _, vari in pairs], "shortest": shortest}
    return {**lists, "out": count + 1, "work": count + 2, **rooms}


def fit(name: str, length: float, shortest: list[int], durations: list[int], changes: int, pairs: Pairs = TWO) -> Told:
    case = Case("fit", {**states(pairs, shortest), "length": length})
    return f"fit, {name}", case, {"durations": durations, "changes": changes}, 0, {}


def speed(name: str, factor: float, shortest: list[int], durations: list[int], changes: int, pairs: Pairs = TWO) -> Told:
    case = Case("speed", {**states(pairs, shortest), "speed": factor})
    return f"speed, {name}", case, {"durations": durations, "changes": changes}, 0, {}


def align(
    name: str, ends: list[float], shortest: list[int], durations: list[int], changes: int, pairs: Pairs = TWO, nstate: int = 1
) -> Told:
    case = Case("align", {**states(pairs, shortest), "nstate": nstate, "ends": ends})
    values = {"written": len(durations), "durations": durations, "changes": changes}
    return f"alignment, {name}", case, values, 0, {}


FITS = [
    # The sum of the shortest is 4: not above it there is nothing to fit, above it there is.
    fit("a target below the sum", 3.4, [2, 2], [2, 2], 0),
    fit("a target at the sum", 4.0, [2, 2], [2, 2], 0),
    fit("a target that rounds to the sum", 4.4, [2, 2], [2, 2], 0),
    fit("a target just above the sum", 4.5, [2, 2], [2, 3], 0),  # T is 5, rho 0
    fit("a target at another sum of 4", 4.0, [3, 1], [3, 1], 0),
    # rho is -0.5: 1.5 and 2.5 round to 2 and 3, one frame too many, which costs both 0.5.
    fit("the same target with ones", 4.0, [1, 1], [1, 3], 1),
    fit("a target above the count, at the sum", 3.0, [1, 2], [1, 2], 0),
    fit("a target of 1", 1.0, [4, 7], [4, 7], 0),
    fit("a length of 0", 0.0, [4, 7], [4, 7], 0),
    fit("a length below zero", -9.0, [4, 7], [4, 7], 0),
    fit("a length of minus infinity", -math.inf, [4, 7], [4, 7], 0),
    fit("a length of NaN", NAN, [4, 7], [4, 7], 0),
    # T is 5 and rho 0: the estimate 2 is raised to 3, and the other state gives the frame too many.
    fit("an estimate raised to its shortest", 5.0, [3, 1], [3, 2], 1),
    fit("the estimate of the second raised", 7.0, [1, 5], [2, 5], 1),  # rho 1: 3 and 4, which is raised to 5
    # rho is 0.5, the start 3, 4, and both costs of a frame less are 0.5: the first state would give it.
    fit("the first state at its shortest gives nothing", 6.0, [3, 1], [3, 3], 1),
    fit("the same with ones", 6.0, [1, 1], [2, 4], 1),
    fit("the second state at its shortest gives nothing", 6.0, [1, 4], [2, 4], 1),
    fit("neither at its shortest", 6.0, [2, 3], [2, 4], 1),
    # rho is 1.5, the start 4, 5.
    fit("the first at its shortest, length 8", 8.0, [4, 1], [4, 4], 1),
    fit("the second at its shortest, length 8", 8.0, [1, 5], [3, 5], 1),
    # The start is 4, 6: two frames too many, both the first state's to give.
    fit("the second raised above its estimate, length 8", 8.0, [1, 6], [2, 6], 2),
    fit("length 7, at that sum", 7.0, [1, 6], [1, 6], 0),
    fit("length 8, at another sum", 8.0, [6, 2], [6, 2], 0),
    fit("length 9, shortest 2 and 6", 9.0, [2, 6], [3, 6], 1),  # rho 2, the start 4, 6
    # The start 2 + 3.5, 3 + 3.5 is 6, 7: a frame too many, and both cost 0.5.
    fit("shortest far below", 12.0, [2, 3], [5, 7], 1),
    # rho is infinite, every estimate NaN and so 1, raised to 2 and 3; all costs are NaN, and the first state gets the rest.
    fit("variances 0", 9.0, [2, 3], [6, 3], 4, [(2.0, 0.0), (2.0, 0.0)]),
    fit("variances 0, at the sum", 5.0, [2, 3], [2, 3], 0, [(2.0, 0.0), (2.0, 0.0)]),
    # rho is -1: the estimates 4, 4 and 4 are raised in the first two, to 5 and 5. Two frames too many, of the third.
    fit("one state of three above its shortest", 12.0, [5, 5, 1], [5, 5, 2], 2, [(5.0, 1.0)] * 3),
    # The same states: the start is 5, 4, 4, one too many; it costs the second and the third 1, and the second comes first.
    fit("two states of three above their shortest", 12.0, [5, 1, 1], [5, 3, 4], 1, [(5.0, 1.0)] * 3),
    fit("one state below its shortest", 4.4, [5], [5], 0, [(2.0, 1.0)]),
    fit("one state at its shortest", 5.4, [5], [5], 0, [(2.0, 1.0)]),
    fit("one state above its shortest", 5.5, [5], [6], 0, [(2.0, 1.0)]),  # rho 4
    fit("no states", 7.0, [], [], 0, []),
    fit("no states, an infinite length", math.inf, [], [], 0, []),
    # At the limit: the shortest themselves need no estimate, which would be too long.
    fit("the limit in one state", 1.0, [65_536], [65_536], 0, [(2.0, 1.0)]),
    fit("the limit in one state, and a target there", 65536.4, [65_536], [65_536], 0, [(2.0, 1.0)]),
    fit("the limit in two states", 65536.0, [65_535, 1], [65_535, 1], 0),
    fit("the limit in two states, a target of 2", 2.0, [1, 65_535], [1, 65_535], 0),
    fit("the limit in 4,096 states", 4097.0, [16] * 4_096, [16] * 4_096, 0, [(2.0, 1.0)] * 4_096),
]

SPEEDS = [
    speed("1, an estimate raised", 1.0, [4, 1], [4, 3], 0),
    speed("1, both raised", 1.0, [4, 5], [4, 5], 0),
    speed("1, at the estimates", 1.0, [2, 3], [2, 3], 0),
    speed("2, at the sum", 2.0, [2, 1], [2, 1], 0),  # 5 / 2 is a target of 3
    speed("2, below the sum", 2.0, [4, 1], [4, 1], 0),  # 7 / 2 is a target of 4
    # The natural total is 4 + 3, so T is 14 and rho 4.5: 6.5 and 7.5 are 7 and 8, one too many, and both cost 0.5.
    speed("0.5, the natural total with a raised estimate", 0.5, [4, 1], [6, 8], 1),
    # 4 + 7 is 11, T is 22 and rho 8.5: 11 and 12, and the first state gives one.
    speed("0.5, both raised", 0.5, [4, 7], [10, 12], 1),
    # 5 / 1.25 is a target of 4, which is not above the sum of 4.
    speed("1.25, at the sum", 1.25, [1, 3], [1, 3], 0),
    speed("infinite", math.inf, [2, 4], [2, 4], 0),
    speed("NaN", NAN, [2, 4], [2, 4], 0),
    speed("below zero", -1.0, [2, 4], [2, 4], 0),
    speed("1, at the limit", 1.0, [65_533, 1], [65_533, 3], 0),
    speed("none, no states", 0.0, [], [], 0, []),
]

ALIGNMENTS = [
    align("the first end too near", [1.0, 8.0], [3, 1], [3, 5], 0),  # 8 - 3 is 5, rho 2
    align("the second end too near", [4.0, 5.0], [1, 3], [4, 3], 0),
    align("the second target at its shortest", [4.0, 7.4], [1, 3], [4, 3], 0),
    align("the second target just above its shortest", [4.0, 7.5], [1, 3], [4, 4], 0),
    align("a group of both", [OPEN, 8.0], [4, 1], [4, 4], 1),  # as the fit to 8
    align("a group of both at its sum", [OPEN, 5.0], [3, 2], [3, 2], 0),
    align("a tail", [4.0, OPEN], [1, 1], [4, 3], 0),
    align("a tail at its shortest", [4.0, OPEN], [1, 3], [4, 3], 0),
    align("a tail below its shortest", [4.0, OPEN], [1, 5], [4, 5], 0),
    align("a tail behind an end too near", [4.0, OPEN], [6, 5], [6, 5], 0),
    align("a tail alone", [OPEN, OPEN], [4, 1], [4, 3], 0),
    align("no labels", [], [], [], 0, []),
    # rho is 0.5: 2.5 and 2.5 are 3 and 3, one too many; the second is at its shortest. The tail has 2 each.
    align("two states a label", [5.0, OPEN], [1, 3, 2, 2], [2, 3, 2, 2], 1, [(2.0, 1.0)] * 4, 2),
    align("two states a label, at their sum", [4.4, OPEN], [1, 3, 1, 3], [1, 3, 2, 3], 0, [(2.0, 1.0)] * 4, 2),
    # Each group has its shortest alone, together as many frames as there may be.
    align("two groups at the limit", [1.0, 2.0], [32_768, 32_768], [32_768, 32_768], 0),
    align("a running total at the limit", [40000.0, 40001.0], [1, 25_536], [40_000, 25_536], 0),
    align("a tail at the limit", [4.0, OPEN], [1, 65_532], [4, 65_532], 0),
    align("a tail at the limit behind an end too near", [1.0, OPEN], [65_533, 1], [65_533, 3], 0),
]

# What a call leaves that is refused before its work: all of it as it was.
UNTOUCHED = {"changes": UNTOUCHED_U32}
LIMIT = 65_536
NATURALLY_TOO_LONG = [(65537.0, 1.0), (3.0, 1.0)]
ZEROS = [[0, 1], [1, 0], [0, 0], [0, 65_536], [65_536, 0], [0, 65_537], [0, MOST]]
# The sums are above the limit; those of the first line are 1, 1, 1, 0, 2 and 1 in 16 bits, the next four 0, 1, 0 and 5 in 32.
TOO_LONG = [[65_536, 1], [1, 65_536], [65_535, 2], [65_536, 65_536], [65_537, 65_537], [32_768, 32_769]]
TOO_LONG += [[MOST, 1], [MOST, 2], [2**31, 2**31], [2**31, 2**31 + 5], [MOST, MOST], [1, MOST], [2**31, 1], [65_537, 1]]


def untouched(fields: Fields) -> Fields:
    return {**UNTOUCHED, "out": marked_u32(0, fields["out"]), "work": marked_u32(0, fields["work"])}


def zeroed(fields: Fields) -> Fields:
    count = len(fields["means"])
    return {**untouched(fields), "work": [0] * count + marked_u32(count, fields["work"])}


def refused(number: int, name: str, kind: str, fields: Fields, left: Fields | None = None) -> Told:
    return f"{kind}, {name}", Case(kind, fields), {}, number, untouched(fields) if left is None else left


def refused_fit(number: int, name: str, length: float, fields: Fields) -> Told:
    fields = {**fields, "length": length}
    return refused(number, name, "fit", fields, zeroed(fields) if number in (7, 8) else None)


def refused_speed(number: int, name: str, factor: float, fields: Fields) -> Told:
    fields = {**fields, "speed": factor}
    return refused(number, name, "speed", fields, zeroed(fields) if number in (7, 8) else None)


def refused_align(number: int, name: str, ends: list[float], fields: Fields, nstate: int = 1) -> Told:
    fields = {**fields, "nstate": nstate, "ends": ends}
    return refused(number, name, "align", fields, zeroed(fields) if number in (7, 8) else None)


ONE = [(2.0, 1.0)]
MANY = [(2.0, 1.0)] * 4_097
BAD = [*ZEROS, *TOO_LONG]

REFUSED = [
    refused_fit(15, "one state of shortest 0", 5.0, states(ONE, [0])),
    refused_fit(15, "one state of shortest 65,537", 5.0, states(ONE, [LIMIT + 1])),
    refused_fit(15, "one state of the largest shortest", 5.0, states(ONE, [MOST])),
    *[refused_fit(15, f"shortest {shortest}", 8.0, states(TWO, shortest)) for shortest in BAD],
    *[refused_speed(15, f"shortest {shortest}", 1.0, states(TWO, shortest)) for shortest in BAD],
    *[refused_align(15, f"shortest {shortest}", [4.0, 8.0], states(TWO, shortest)) for shortest in BAD],
    *[refused_align(15, f"shortest {shortest} and a tail", [4.0, OPEN], states(TWO, shortest)) for shortest in BAD],
    refused_fit(15, "4,096 states, a frame above the limit", 5.0, states(MANY[:-1], [16] * 4_095 + [17])),
    refused_fit(15, "4,096 states, the last shortest 0", 5.0, states(MANY[:-1], [1] * 4_095 + [0])),
    # Each group has few enough.
    refused_align(15, "two groups of 40,000", [1.0, 2.0], states(TWO, [40_000, 40_000])),
    refused_align(15, "a group and a tail, a frame above the limit", [1.0, OPEN], states(TWO, [32_768, 32_769])),
    refused_align(15, "two states a label, the tail above the limit", [4.0, OPEN], states([*TWO, *TWO], [1, 1, 65_534, 1]), 2),
    refused_align(15, "two states a label, a 0 in the tail", [4.0, OPEN], states([*TWO, *TWO], [1, 1, 1, 0]), 2),
    # 3 comes first.
    refused_fit(3, "4,097 states of shortest 0", 5.0, states(MANY, [0] * 4_097)),
    refused_align(3, "no states a label, a shortest of 0", [4.0, 8.0], states(TWO, [0, 1]), 0),
    refused_align(3, "17 states a label, a shortest of 0", [4.0, 8.0], states(TWO, [0, 1]), 17),
    # Then 4: a shortest too few or too many, whatever they are, or another list.
    *[refused_fit(4, f"two states, shortest {shortest}", 8.0, states(TWO, shortest)) for shortest in ([], [1], [1, 1, 1], [0])],
    *[refused_fit(4, f"two states, shortest {shortest}", 8.0, states(TWO, shortest)) for shortest in ([1, 1, 0], [MOST] * 3)],
    *[refused_fit(4, f"no states, shortest {shortest}", 8.0, states([], shortest)) for shortest in ([1], [0], [0, 0])],
    refused_fit(4, "a variance too few, a shortest of 0", 8.0, {**states(TWO, [0, 1]), "varis": [1.0]}),
    refused_fit(4, "a variance and a shortest too few", 8.0, {**states(TWO, [1]), "varis": [1.0]}),
    refused_fit(4, "a shortest too few, no room", 8.0, states(TWO, [1], out=0, work=0)),
    refused_speed(4, "a shortest too few", 2.0, states(TWO, [1])),
    refused_speed(4, "a shortest too many", 2.0, states(TWO, [1, 1, 1])),
    refused_align(4, "a shortest too few", [4.0, 8.0], states(TWO, [1])),
    refused_align(4, "a shortest too many", [4.0, 8.0], states(TWO, [1, 1, 1])),
    refused_align(4, "a shortest a label", [4.0, 8.0], states([*TWO, *TWO], [1, 1]), 2),
    refused_align(4, "an end too few, a shortest of 0", [4.0], states(TWO, [0, 1])),
    # Then 6.
    refused_fit(6, "no room in the output, a shortest of 0", 8.0, states(TWO, [0, 1], out=1)),
    refused_fit(6, "no room to work, a sum too long", 8.0, states(TWO, [LIMIT, 1], work=1)),
    refused_speed(6, "no room in the output, a shortest of 0", 2.0, states(TWO, [0, 1], out=1)),
    refused_align(6, "no room to work, a shortest of 0", [4.0, 8.0], states(TWO, [0, 1], work=0)),
    # Then 15, before what the work would find.
    refused_fit(15, "a length of 65,536.5", 65536.5, states(TWO, [0, 1])),
    refused_fit(15, "an infinite length", math.inf, states(TWO, [LIMIT, 1])),
    refused_fit(15, "estimates too long", 65536.0, states(TWO, [1, 0])),
    refused_speed(15, "a natural length too long", 1.0, states(NATURALLY_TOO_LONG, [1, 0])),
    refused_speed(15, "speed 0", 0.0, states(TWO, [0, 1])),
    refused_align(15, "an infinite end", [math.inf, OPEN], states(TWO, [1, 0])),
    refused_align(15, "a running total too long", [65536.0, 3.0], states(TWO, [0, 1])),
    refused_align(15, "a tail too long", [4.0, OPEN], states(NATURALLY_TOO_LONG[::-1], [0, 1])),
    # Then 7 and 8, with a shortest that is as it should be.
    refused_fit(7, "a length of 65,536.5, the shortest at the limit", 65536.5, states(TWO, [65_535, 1])),
    refused_fit(7, "an infinite length, one state at the limit", math.inf, states(ONE, [LIMIT])),
    # rho is 32,765.5: 32,768 is raised to 65,534, and 32,769 beside it is too long.
    refused_fit(8, "a target above the sum, an estimate raised", 65536.0, states(TWO, [65_534, 1])),
    # rho is 29,998.5: 30,001 is raised to 60,000, and 30,002 beside it is too long, though the target isn't.
    refused_fit(8, "a start too long by a raised estimate", 60002.0, states(TWO, [60_000, 1])),
    refused_speed(8, "1, a frame above the limit", 1.0, states(TWO, [65_534, 1])),
    refused_speed(8, "2, the natural length above the limit", 2.0, states(TWO, [65_535, 1])),
    refused_speed(7, "0, shortest 4 and 7", 0.0, states(TWO, [4, 7])),
    refused_align(8, "a running total above the limit", [40000.0, 40001.0], states(TWO, [1, 25_537])),
    refused_align(8, "a tail above the limit", [4.0, OPEN], states(TWO, [1, 65_533])),
    refused_align(8, "a tail above the limit behind an end too near", [1.0, OPEN], states(TWO, [65_534, 1])),
    refused_align(7, "an end at 65,536.5, the shortest at the limit", [65536.5, OPEN], states(TWO, [65_535, 1])),
    # The first group's target is 5, above its shortest by 4, so that all together are 65,540.
    refused_align(8, "the shortest at the limit, a target above its own", [5.0, 6.0], states(TWO, [1, 65_535])),
]

DURATIONS: list[Told] = FITS + SPEEDS + ALIGNMENTS + REFUSED


def job_file(pairs: Pairs, shortest: list[int], factor: float) -> bytes:
    """Of the second version."""
    head = b"SPJ" + struct.pack("<HHd", 2, len(pairs), factor)
    return head + b"".join(struct.pack("<ddI", *pair, frames) for pair, frames in zip(pairs, shortest))


# As the speed 0.5 of these states, above.
JOB = job_file(TWO, [4, 1], 0.5)
PRINTED = "states 2\nframes 14\nchanges 1\n6\n8\n"
NO_PLACE = {"place": UNTOUCHED_U64}
LARGEST = 20_495
LARGEST_FIRST = 16_399  # of the first version


def job(name: str, data: bytes, durations: list[int], changes: int) -> Told:
    count = len(durations)
    values = {"states": count, "frames": sum(durations), "changes": changes, "durations": durations}
    return f"job, {name}", Case("job", {"bytes": data, "out": count + 1, "work": count}), values, 0, NO_PLACE


def refused_job(number: int, name: str, data: bytes, room: int = 3) -> Told:
    """Refused for what it says, not for damage: no place, and with 15 all lists as they were."""
    pointers = dict.fromkeys(("states", "frames", "changes"), UNTOUCHED_U32)
    work = [0, 0, *marked_u32(2, room)] if number in (7, 8) else marked_u32(0, room)
    left = {**NO_PLACE, **pointers, "out": marked_u32(0, room), "work": work}
    return f"job, {name}", Case("job", {"bytes": data, "out": room, "work": room}), {}, number, left


JOBS: list[Told] = [
    job("the worked one of the second version", JOB, [6, 8], 1),
    job("the same with ones", job_file(TWO, [1, 1], 0.5), [4, 6], 1),
    job("both estimates raised", job_file(TWO, [4, 7], 0.5), [10, 12], 1),
    job("at speed 1", job_file(TWO, [4, 1], 1.0), [4, 3], 0),
    job("below the sum", job_file(TWO, [4, 1], 2.0), [4, 1], 0),
    job("no states, of the second version", job_file([], [], 0.5), [], 0),
    job("no states, an endless length", job_file([], [], 0.0), [], 0),
    # 258 is 2 and 1, so that bytes the other way round, or one of them alone, would be another number.
    job("a shortest of two bytes", job_file(TWO, [258, 1], 1.0), [258, 3], 0),
    job("the limit in one state", job_file(ONE, [65_536], 7.0), [65_536], 0),
    job("1,024 states of 64 frames, the limit", job_file(ONE * 1_024, [64] * 1_024, 1.0), [64] * 1_024, 0),
    *[refused_job(15, f"shortest {shortest}", job_file(TWO, shortest, 0.5)) for shortest in BAD],
    refused_job(6, "too little room, a shortest of 0", job_file(TWO, [0, 1], 0.5), 1),
    refused_job(6, "too little room, a sum too long", job_file(TWO, [65_536, 1], 0.5), 0),
    refused_job(15, "speed 0, a shortest of 0", job_file(TWO, [1, 0], 0.0)),
    refused_job(15, "a natural length and a sum too long", job_file(NATURALLY_TOO_LONG, [1, 65_536], 1.0)),
    refused_job(7, "speed 0, shortest 4 and 1", job_file(TWO, [4, 1], 0.0)),
    refused_job(8, "a natural length too long by its shortest", job_file(TWO, [65_534, 1], 1.0)),
]

SIZE = 20_504


def memory_of(number: int, content: bytes = b"", size: int = SIZE) -> bytes:
    """A link's memory: its number, what came, and zeros."""
    return (number.to_bytes(8, "little") + content).ljust(size, b"\0")


def link(name: str, memory: bytes, calls: list[LinkCall], values: list[tuple], refusals: list[int], after: bytes) -> Told:
    """Each accepted end's states, frames, changes and durations; and the memory behind the last call."""
    joined = {field: [one[place] for one in values] for place, field in enumerate(("states", "frames", "changes"))}
    joined["durations"] = [frames for one in values for frames in one[3]]
    return f"link, {name}", link_case(memory, calls), joined, 0, {"refusals": refusals, "memory": after}


def part(data: bytes) -> LinkCall:
    return LinkCall(PART, part=data)


def end(room: int = 2) -> LinkCall:
    return LinkCall(END, out=room, work=room)


BEGUN = LinkCall(BEGIN)
NOTHING = b"SPJ\1\0\0\0" + bytes(8)  # a job of the first version without states, at speed 0
WITH_ZERO = job_file(TWO, [0, 1], 0.5)
SIXES = (2, 14, 1, [6, 8])
FULL = job_file(ONE * 1_024, [64] * 1_024, 1.0)
ALL = (1_024, 65_536, 0, [64] * 1_024)


def cut_in_two(place: int) -> Told:
    calls = [BEGUN, part(JOB[:place]), part(b""), part(JOB[place:]), end()]
    return link(f"the worked job of version 2 cut at {place}", bytes(SIZE), calls, [SIXES], [0] * 5, memory_of(0, JOB))


LINKS: list[Told] = [
    *[cut_in_two(place) for place in range(len(JOB) + 1)],
    link("byte by byte", bytes(SIZE), [BEGUN, *(part(JOB[at : at + 1]) for at in range(55)), end()], [SIXES], [0] * 57,
         memory_of(0, JOB)),
    # The bytes of the first job that are behind the second stay.
    link("both versions, one after the other", bytes(SIZE), [BEGUN, part(JOB), end(), BEGUN, part(NOTHING), end()],
         [SIXES, (0, 0, 0, [])], [0] * 6, memory_of(0, NOTHING + JOB[15:])),
    # A refused end ends the job, too.
    link("a shortest of 0", bytes(SIZE), [BEGUN, part(WITH_ZERO), end(), end()], [], [0, 0, 15, 11], memory_of(0, WITH_ZERO)),
    link("a shortest of 0 and no room", bytes(SIZE), [BEGUN, part(WITH_ZERO), end(1), part(b"S")], [], [0, 0, 6, 11],
         memory_of(0, WITH_ZERO)),
    # How much a memory has, and what its number says.
    link("a memory a byte too short", bytes(SIZE - 1), [BEGUN, part(JOB), end()], [], [6, 11, 11], bytes(SIZE - 1)),
    link("a memory as long as it was before", bytes(16_408), [BEGUN, part(JOB), end()], [], [6, 11, 11], bytes(16_408)),
    link("a longer memory", bytes(SIZE + 3), [BEGUN, part(JOB), end()], [SIXES], [0, 0, 0], memory_of(0, JOB, SIZE + 3)),
    link("a begin", bytes([0xA5]) * SIZE, [BEGUN], [], [0], memory_of(1, bytes([0xA5]) * 20_496)),
    link("the largest job", bytes(SIZE), [BEGUN, part(FULL)], [], [0, 0], memory_of(20_496, FULL)),
    link("the largest job and its end", bytes(SIZE), [BEGUN, part(FULL[:16_399]), part(FULL[16_399:]), end(1_024)], [ALL], [0] * 4,
         memory_of(0, FULL)),
    link("a byte more than the largest", bytes(SIZE), [BEGUN, part(FULL), part(b"x")], [], [0] * 3, memory_of(20_497, FULL + b"x")),
    link("bytes behind those that are kept", bytes(SIZE), [BEGUN, part(FULL + b"xyz"), part(b"u")], [], [0] * 3,
         memory_of(20_497, FULL + b"x")),
    link("a byte more than the largest and its end", bytes(SIZE), [BEGUN, part(FULL + b"xyz"), end(1_024)], [], [0, 0, 9],
         memory_of(0, FULL + b"x")),
    link("a memory that is full", memory_of(20_497, FULL + b"x"), [part(b"u"), end(1_024)], [], [0, 9], memory_of(0, FULL + b"x")),
    link("the number of a job that is whole", memory_of(20_496, FULL), [end(1_024)], [ALL], [0], memory_of(0, FULL)),
    link("a number above all", memory_of(20_498, FULL), [part(b"u"), end()], [], [11, 11], memory_of(20_498, FULL)),
    # This was above all before: now it is a job of 16,401 zeros.
    link("a number that was above all", memory_of(16_402), [end()], [], [12], memory_of(0)),
    link("the same with another byte", memory_of(16_402), [part(b"u"), end()], [], [0, 12], memory_of(0, bytes(16_401) + b"u")),
]
