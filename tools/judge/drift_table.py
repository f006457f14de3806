"""RULES, Durations, by hand: for `tools/table`, chapters with the total at each given end, and what the claim must refuse."""

import math
from collections.abc import Sequence
from dataclasses import dataclass

from .formats import Case, Fields
from .reading.ieee import NAN

# A line of the table: its name, the case, its values or its refusal, and what a call leaves.
Told = tuple[str, Case, Fields, int, Fields]

OPEN = -1.0


@dataclass
class Chapter:
    """An accepted chapter with all that is worked out by hand."""

    name: str
    case: Case
    durations: list[int]
    changes: int
    totals: list[int]  # one a given end
    short: Sequence[int]  # the given ends, counted from 0, at which the premise fails
    again: int  # how many meet it directly behind such
    ties: int

    def told(self) -> Told:
        values = {"written": len(self.durations), "changes": self.changes, "durations": self.durations}
        return self.name, self.case, values, 0, {}


def case_of(ends: list[float], nstate: int = 1, shortest: list[int] | None = None) -> Case:
    """Every state has mean 2 and variance 1, and without others a shortest of 1."""
    count = nstate * len(ends)
    states = {"means": [2.0] * count, "varis": [1.0] * count, "shortest": shortest or [1] * count}
    return Case("chapter", {**states, "nstate": nstate, "ends": ends, "out": count + 1, "work": count + 2})


def steps_between(totals: list[int]) -> list[int]:
    return [after - before for before, after in zip([0, *totals], totals)]


def told(
    name: str,
    ends: list[float],
    totals: list[int],
    short: Sequence[int] = (),
    again: int = 0,
    ties: int = 0,
    shortest: list[int] | None = None,
) -> Chapter:
    """One state a label, all ends given. A state alone starts at its target, 2 + (T - 2) x 1, so nothing changes."""
    return Chapter(name, case_of(ends, 1, shortest), steps_between(totals), 0, totals, short, again, ties)


# Floats beside a half, a bit away.
BELOW_2_5, ABOVE_2_5 = math.nextafter(2.5, 0.0), math.nextafter(2.5, 3.0)
BELOW_5_5 = math.nextafter(5.5, 0.0)
BELOW_102_5, ABOVE_102_5 = math.nextafter(102.5, 0.0), math.nextafter(102.5, 103.0)
BELOW_65535_5, BELOW_65536_5 = math.nextafter(65535.5, 0.0), math.nextafter(65536.5, 0.0)

ONE_STATE = [
    told("an end at a half", [2.5], [3], ties=1),
    told("an end a bit below a half", [BELOW_2_5], [2]),
    told("an end a bit above a half", [ABOVE_2_5], [3]),
    told("an end at 3.5", [3.5], [4], ties=1),
    told("ends 1.5 and 3.4", [1.5, 3.4], [2, 3], short=[1], ties=1),  # 3.4 - 2 is 1.4, so the target is 1
    told("ends at halves behind 100 frames", [100.0, 102.5, 105.5], [100, 103, 106], ties=2),
    told("ends a bit below halves behind 100 frames", [100.0, BELOW_102_5], [100, 102]),
    told("ends a bit above halves behind 100 frames", [100.0, ABOVE_102_5], [100, 103]),
    # 4.2 - 4 has the target 1, which is not above the one state; the total runs ahead, and 9.5 is right again.
    told("an end too near, and the next one", [4.0, 4.2, 9.5], [4, 5, 10], short=[1], again=1, ties=1),
    told("four ends at 1, then 8", [1.0, 1.0, 1.0, 1.0, 8.0], [1, 2, 3, 4, 8], short=[0, 1, 2, 3], again=1),
    told("two too near, each with the next right", [4.0, 4.0, 9.0, 9.4, 20.0], [4, 5, 9, 10, 20], short=[1, 3], again=2),
    # 5.5 - 4 is 1.5: the target is 2, above the one state. A bit less is not.
    told("a target just above the count", [4.0, 5.5], [4, 6], ties=1),
    told("a target just at the count", [4.0, BELOW_5_5], [4, 5], short=[1]),
    told("an end at -0", [-0.0, 3.5], [1, 4], short=[0], again=1, ties=1),
    told("an end at 0", [0.0, 3.5], [1, 4], short=[0], again=1, ties=1),
    told("an end at half a frame", [0.5], [1], short=[0], ties=1),
    told("an end a bit below half a frame", [0.49999999999999994], [1], short=[0]),
    told("an end at the smallest float", [5e-324, 2.5], [1, 3], short=[0], again=1, ties=1),
    told("an end backward", [10.0, 6.0, 12.5], [10, 11, 13], short=[1], again=1, ties=1),
    told("an end backward to -0", [10.0, -0.0, 12.5], [10, 11, 13], short=[1], again=1, ties=1),
    # 10.5 - 11 is -0.5: rounded to -1, the target is 1.
    told("an end backward, the next too near", [10.0, 2.0, 10.5, 14.0], [10, 11, 12, 14], short=[1, 2], again=1, ties=1),
    told("an end at 65,536", [65536.0], [65_536]),
    told("an end at 65,536.4999", [65536.4999], [65_536]),
    told("an end a bit below 65,536.5", [BELOW_65536_5], [65_536]),
    told("an end at 65,535.5", [65535.5], [65_536], ties=1),
    told("an end a bit below 65,535.5", [BELOW_65535_5], [65_535]),
    told("ends 65,530 and 65,536.4999", [65530.0, 65536.4999], [65_530, 65_536]),
    told("ends 65,535 and 65,536.4999", [65535.0, 65536.4999], [65_535, 65_536], short=[1]),
    told("ends 65,535 and 3", [65535.0, 3.0], [65_535, 65_536], short=[1]),
]

# Groups of several states. With n states of mean 2 and variance 1 each starts at the target / n, rounded. A frame too few
# goes to the first state, one too many comes from it, since all costs are equal.
GROUPS = [
    Chapter("no labels", case_of([]), [], 0, [], [], 0, 0),
    Chapter("no end is given", case_of([OPEN, NAN, -math.inf]), [2, 2, 2], 0, [], [], 0, 0),
    Chapter("two open labels before 9.5", case_of([OPEN, NAN, 9.5]), [4, 3, 3], 1, [10], [], 0, 1),
    Chapter("two open labels before 3.4", case_of([OPEN, OPEN, 3.4]), [1, 1, 1], 0, [3], [0], 0, 0),
    Chapter("two open labels before 3.5", case_of([OPEN, OPEN, 3.5]), [2, 1, 1], 1, [4], [], 0, 1),
    Chapter("open labels between ends", case_of([2.5, OPEN, 9.4]), [3, 3, 3], 0, [3, 9], [], 0, 1),
    Chapter("open labels between ends too near", case_of([4.0, OPEN, 5.4, 12.5]), [4, 1, 1, 7], 0, [4, 6, 13], [1], 1, 1),
    Chapter("an end at a half and a tail", case_of([2.5, OPEN]), [3, 2], 0, [3], [], 0, 1),
    Chapter("three states, 3.4", case_of([3.4], 3), [1, 1, 1], 0, [3], [0], 0, 0),
    Chapter("three states, 3.5", case_of([3.5], 3), [2, 1, 1], 1, [4], [], 0, 1),
    Chapter("three states, -0 and 9", case_of([-0.0, 9.0], 3), [1, 1, 1, 2, 2, 2], 0, [3, 9], [0], 1, 0),
    Chapter("three states, 1, 2 and 11.5", case_of([1.0, 2.0, 11.5], 3), [1] * 6 + [2] * 3, 0, [3, 6, 12], [0, 1], 1, 1),
]


# With shortest durations of their own. Where a target is not above their sum, the total is that before and the sum.
BELOW_7_5 = math.nextafter(7.5, 0.0)
SHORTEST = [
    told("shortest 2, an end at 2.5", [2.5], [3], ties=1, shortest=[2]),
    told("shortest 3, an end at 2.5", [2.5], [3], short=[0], ties=1, shortest=[3]),  # the target is 3: right, and no premise
    told("shortest 4, an end at 2.5", [2.5], [4], short=[0], ties=1, shortest=[4]),
    told("an end too near by its shortest, and the next one", [4.0, 5.0, 9.5], [4, 7, 10], [1], 1, 1, [1, 3, 1]),
    told("a target at its shortest", [4.0, 7.4, 9.5], [4, 7, 10], [1], 1, 1, [1, 3, 1]),
    told("a target a bit below the next", [4.0, BELOW_7_5, 9.5], [4, 7, 10], [1], 1, 1, [1, 3, 1]),
    told("a target just above its shortest", [4.0, 7.5, 9.5], [4, 8, 10], ties=2, shortest=[1, 3, 1]),
    # 8 - 8, 9 - 10 and 9.5 - 12 have targets of 1; 20 - 14 is 6, above 2.
    told("four too near by their shortest", [1.0, 8.0, 9.0, 9.5, 20.0], [8, 10, 12, 14, 20], [0, 1, 2, 3], 1, 1, [8, 2, 2, 2, 2]),
    told("an end at -0, shortest 5", [-0.0, 7.5], [5, 8], [0], 1, 1, [5, 1]),
    told("an end backward, shortest 3", [10.0, 6.0, 14.5], [10, 13, 15], [1], 1, 1, [1, 3, 1]),
    told("the limit in one label", [3.0], [65_536], short=[0], shortest=[65_536]),
    told("the limit in the second label", [40000.0, 40001.0], [40_000, 65_536], short=[1], shortest=[1, 25_536]),
    Chapter("two open labels at their sum", case_of([OPEN, OPEN, 5.4], 1, [1, 3, 1]), [1, 3, 1], 0, [5], [0], 0, 0),
    # The target is 6 and rho 0: 2, 3 and 2, the second raised. A frame too many costs the others 1, and the first gives it.
    Chapter("two open labels above their sum", case_of([OPEN, NAN, 5.5], 1, [1, 3, 1]), [1, 3, 2], 1, [6], [], 0, 1),
    Chapter("a tail below its shortest", case_of([2.5, OPEN], 1, [1, 7]), [3, 7], 0, [3], [], 0, 1),
    Chapter("no end is given, shortest 1, 2 and 3", case_of([OPEN, OPEN, OPEN], 1, [1, 2, 3]), [2, 2, 3], 0, [], [], 0, 0),
    # 9 - 6 is 3, and rho -0.5: 1.5 and 1.5 are 2 and 2, and the first gives a frame.
    Chapter("two states a label, 5 and 9", case_of([5.0, 9.0], 2, [4, 2, 1, 1]), [4, 2, 1, 2], 1, [6, 9], [0], 1, 0),
]


def summed(length: float, labels: int) -> list[float]:
    """As a program would do it: each end is the one before and the length."""
    ends = [length]
    while len(ends) < labels:
        ends.append(ends[-1] + length)
    return ends


def quarters(target: int) -> list[int]:
    """Four states of mean 2 and variance 1: each starts at target / 4, rounded with halves up."""
    start, left = divmod(target, 4)
    return {
        0: [start] * 4,
        1: [start + 1, start, start, start],  # a frame goes to the first
        2: [start, start, start + 1, start + 1],  # all were rounded up: the first gives a frame, then the second
        3: [start, start + 1, start + 1, start + 1],  # all were rounded up
    }[left]


CHANGED_QUARTERS = {0: 0, 1: 1, 2: 2, 3: 1}

LABELS = range(1, 4_097)
# 15.4 frames a label: no end is at a half, so its tenths say how it is rounded.
TOTALS_15_4 = [(154 * label + 5) // 10 for label in LABELS]
TOTALS_2_5 = [(5 * label + 1) // 2 for label in LABELS]
TARGETS_61_6 = steps_between([(616 * label + 5) // 10 for label in range(1, 1_025)])

LONG = [
    told("4,096 labels of 15.4 frames", [154 * label / 10 for label in LABELS], TOTALS_15_4),
    told("4,096 labels of 15.4 frames, summed as floats", summed(15.4, 4_096), TOTALS_15_4),
    told("4,096 labels of 2.5 frames", [5 * label / 2 for label in LABELS], TOTALS_2_5, ties=2_048),
    # A state has a frame at least, so the total runs ahead at every end.
    told("4,096 labels of 0.4 frames", [4 * label / 10 for label in LABELS], [*LABELS], range(4_096)),
    told(
        "4,095 labels of 0.4 frames, then 5,000.5", [*(4 * label / 10 for label in range(1, 4_096)), 5000.5],
        [*range(1, 4_096), 5_001], range(4_095), again=1, ties=1,
    ),
    Chapter(
        "1,024 labels of 61.6 frames, four states each", case_of([616 * label / 10 for label in range(1, 1_025)], 4),
        [frames for target in TARGETS_61_6 for frames in quarters(target)],
        sum(CHANGED_QUARTERS[target % 4] for target in TARGETS_61_6),
        [(616 * label + 5) // 10 for label in range(1, 1_025)], [], 0, 0,
    ),
    Chapter(
        "4,095 open labels before 62,139.5", case_of([OPEN] * 4_095 + [62139.5]),
        # 62,140 / 4,096 is 15.2 or so: all start at 15, which is 61,440, and each of the first 700 gets a frame.
        [16] * 700 + [15] * 3_396, 700, [62_140], [], 0, 1,
    ),
]
STEPS_15_4 = steps_between(TOTALS_15_4)
LONG += [
    told("4,096 labels of 15.4 frames, shortest 2", [154 * label / 10 for label in LABELS], TOTALS_15_4, shortest=[2] * 4_096),
    # A target is 15 or 16, so 15 is no premise; the totals are the same.
    told(
        "4,096 labels of 15.4 frames, shortest 15", [154 * label / 10 for label in LABELS], TOTALS_15_4,
        [label for label, frames in enumerate(STEPS_15_4) if frames == 15],
        sum(before == 15 and after == 16 for before, after in zip(STEPS_15_4, STEPS_15_4[1:])), shortest=[15] * 4_096,
    ),
    # The total runs ahead at every end, up to as many frames as there may be.
    told(
        "4,096 labels of 15.4 frames, shortest 16", [154 * label / 10 for label in LABELS],
        [16 * label for label in LABELS], range(4_096), shortest=[16] * 4_096,
    ),
    # Ten labels of 20 frames at least: 200, where 154 were due. 169.4, 184.8 and 200.2 are too near, 215.6 is right again.
    told(
        "ten long labels, and others that catch up", [154 * label / 10 for label in range(1, 16)],
        [*range(20, 201, 20), 201, 202, 203, 216, 231], range(13), again=1, shortest=[20] * 10 + [1] * 5,
    ),
]
CHAPTERS = ONE_STATE + GROUPS + SHORTEST + LONG


def refused(name: str, ends: list[float], number: int, nstate: int = 1, shortest: list[int] | None = None) -> Told:
    return name, case_of(ends, nstate, shortest), {}, number, {}


REFUSED: list[Told] = [
    refused("an end at 65,536.5", [65536.5], 7),
    refused("an end at infinity", [math.inf], 7),
    refused("an end at infinity behind others", [2.5, 5.0, math.inf], 7),
    # The target is 7 frames, and the total 65,537.
    refused("ends 65,530 and 65,536.5", [65530.0, 65536.5], 8),
    refused("ends 65,536 and 3", [65536.0, 3.0], 8),
    refused("ends 65,536 and -0", [65536.0, -0.0], 8),
    refused("an end at 65,536, and a tail", [65536.0, OPEN], 8),
    # 16.4 frames are 65,534.4 at label 3,996, and 65,550.8 at the next.
    refused("4,096 labels of 16.4 frames", [164 * label / 10 for label in LABELS], 8),
    refused("a shortest of 0", [2.5, 5.0], 15, shortest=[1, 0]),
    refused("a shortest of 0 and an end at infinity", [math.inf, 5.0], 15, shortest=[1, 0]),
    refused("4,096 labels of 16 frames at least, and one of 17", [1.0] * 4_096, 15, shortest=[16] * 4_095 + [17]),
    # The first target is 17, above its shortest, and the others have 16 each: 65,537.
    refused("4,096 labels of 16 frames at least, a target of 17", [17.0] + [1.0] * 4_095, 8, shortest=[16] * 4_096),
]


@dataclass
class Drifting:
    """Other durations of a chapter, which the claim must refuse, and at which label."""

    name: str
    chapter: Chapter
    durations: list[int]
    label: int  # counted from 0
    off: int  # so many frames too many at the last end


# Each label's own length rounded: 15 frames for 15.4, and 3 for 2.5.
DRIFTING = [
    Drifting("4,096 times 15 frames", LONG[0], [15] * 4_096, 1, -1_638),  # 30, where 30.8 is 31
    Drifting("4,096 times 3 frames", LONG[2], [3] * 4_096, 1, 2_048),  # 6, where 5 is due
    Drifting("4,096 times 2 frames", LONG[2], [2] * 4_096, 0, -2_048),  # 2, where 2.5 is 3
    # As if one frame a state were enough: 4, 5 and 10, where 7 are due at the second end, and 10 at the third.
    Drifting("one frame for a shortest of 3", SHORTEST[3], [4, 1, 5], 1, 0),
    Drifting("one frame for a shortest of 3, backward", SHORTEST[9], [10, 1, 4], 1, 0),  # 11, where 13 are due
    Drifting("one frame a state in a group", SHORTEST[12], [1, 1, 1], 2, -2),  # 3, where 5 are due
]
