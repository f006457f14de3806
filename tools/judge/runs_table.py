"""RULES, One run alone, by hand: for `tools/table`, streams with their voiced runs, and runs alone beside the full trajectory."""

import math
from dataclasses import dataclass, field

from .formats import UNTOUCHED_U32, Case, Fields, marked_f64, marked_u32
from .lone import Held
from .numbers import ODD_NANS
from .reading.ieee import LARGEST, NAN

# A line of the table: its name, the case, its values or its refusal, and what a call leaves.
Told = tuple[str, Case, Fields, int, Fields]

MOST = 2**32 - 1
VOICED, UNVOICED = 0.9, 0.1  # weights, with a threshold of 0.5
# A state: how many frames, and its weight.
States = list[tuple[int, float]]


def runs_case(states: States, **fields) -> Case:
    """One window and v 1, masked, but for the fields."""
    records = [number for _, weight in states for number in (3.0, 4.0, weight)]
    plain = {"v": 1, "masked": 1, "threshold": 0.5, "windows": 1, "records": records}
    return Case("runs", plain | {"durations": [frames for frames, _ in states], "runs": 9} | fields)


def counted(name: str, case: Case, numbers: list[int]) -> Told:
    room, count = case["runs"], len(numbers) // 2
    left = {"runs": numbers + marked_u32(len(numbers), room), "count": count}
    return f"runs, {name}", case, {"runs": numbers, "count": count}, 0, left


def runs(name: str, states: States, numbers: list[int], **fields) -> Told:
    return counted(name, runs_case(states, **fields), numbers)


def unmasked(name: str, threshold: float, numbers: list[int]) -> Told:
    """Three states of 1, 0 and 2 frames without weights, which count as the largest float."""
    return runs(name, [], numbers, masked=0, threshold=threshold, records=[3.0, 4.0] * 3, durations=[1, 0, 2])


OVER_HALF = math.nextafter(0.5, 1.0)
EVERY_OTHER = [(1, VOICED if state % 2 == 0 else UNVOICED) for state in range(4_096)]
RUNS: list[Told] = [
    runs("no states", [], []),
    runs("no states and no room", [], [], runs=0),
    runs("one voiced state", [(3, VOICED)], [0, 3]),
    runs("one unvoiced state", [(3, UNVOICED)], [], runs=0),
    runs("two with a gap", [(2, VOICED), (1, UNVOICED), (3, VOICED)], [0, 2, 3, 3]),
    runs("just room enough", [(2, VOICED), (1, UNVOICED), (3, VOICED)], [0, 2, 3, 3], runs=4),
    runs("of one frame each", [(2, UNVOICED), (1, VOICED), (1, UNVOICED), (1, VOICED)], [2, 1, 4, 1]),
    runs("an unvoiced end", [(1, VOICED), (4, UNVOICED)], [0, 1]),
    runs("states side by side are one", [(2, VOICED), (3, VOICED), (1, VOICED)], [0, 6]),
    runs("gaps side by side are one", [(1, VOICED), (2, UNVOICED), (3, UNVOICED), (1, VOICED)], [0, 1, 6, 1]),
    # A state of 0 frames has no frame and separates nothing.
    runs("an unvoiced state of no frames within", [(2, VOICED), (0, UNVOICED), (3, VOICED)], [0, 5]),
    runs("a voiced one of no frames within", [(2, VOICED), (0, VOICED), (3, VOICED)], [0, 5]),
    runs("several of no frames within", [(2, VOICED), (0, UNVOICED), (0, VOICED), (0, UNVOICED), (3, VOICED)], [0, 5]),
    runs(
        "voiced ones of no frames beside a gap",
        [(2, VOICED), (0, VOICED), (1, UNVOICED), (0, VOICED), (1, VOICED)], [0, 2, 3, 1],
    ),
    runs(
        "a voiced one of no frames in a gap",
        [(1, VOICED), (1, UNVOICED), (0, VOICED), (1, UNVOICED), (1, VOICED)], [0, 1, 3, 1],
    ),
    runs("a voiced one of no frames before all", [(0, VOICED), (2, UNVOICED), (1, VOICED)], [2, 1]),
    runs("an unvoiced one of no frames before all", [(0, UNVOICED), (2, VOICED)], [0, 2]),
    runs("those of no frames behind all", [(2, VOICED), (0, UNVOICED), (0, VOICED)], [0, 2]),
    runs("a voiced one of no frames alone", [(0, VOICED)], [], runs=0),
    runs("nothing but states of no frames", [(0, VOICED), (0, UNVOICED), (0, VOICED)], []),
    # Voiced is above the threshold, and NaN is neither.
    runs("weights at and above the threshold", [(1, 0.5), (1, OVER_HALF), (1, 0.5), (1, OVER_HALF)], [1, 1, 3, 1]),
    runs("a weight of NaN", [(1, VOICED), (1, NAN), (1, VOICED)], [0, 1, 2, 1]),
    runs("a weight of another NaN", [(1, VOICED), (1, ODD_NANS[1]), (1, VOICED)], [0, 1, 2, 1]),
    runs("infinite weights", [(1, math.inf), (1, -math.inf), (1, math.inf)], [0, 1, 2, 1]),
    runs("a threshold of NaN", [(1, VOICED), (1, math.inf)], [], threshold=NAN),
    runs("a threshold of infinity", [(1, math.inf), (1, LARGEST)], [], threshold=math.inf),
    runs("a threshold of minus infinity", [(1, -math.inf), (1, -LARGEST), (1, NAN), (1, 0.0)], [1, 1, 3, 1], threshold=-math.inf),
    runs("a threshold of -0", [(1, 0.0), (1, -0.0), (1, 5e-324)], [2, 1], threshold=-0.0),
    unmasked("without weights", 0.5, [0, 3]),
    unmasked("without weights, a threshold of minus infinity", -math.inf, [0, 3]),
    unmasked("without weights, the float before the largest", math.nextafter(LARGEST, 0.0), [0, 3]),
    unmasked("without weights, a threshold of the largest float", LARGEST, []),
    unmasked("without weights, a threshold of infinity", math.inf, []),
    unmasked("without weights, a threshold of NaN", NAN, []),
    runs("masked by any number but 0", [(2, VOICED), (1, UNVOICED), (3, VOICED)], [0, 2, 3, 3], masked=0x80000000),
    runs(
        "weights behind 512 numbers", [], [0, 1, 2, 1], v=64, windows=4, durations=[1, 1, 1],
        records=[*[UNVOICED] * 512, VOICED, *[VOICED] * 512, UNVOICED, *[UNVOICED] * 512, VOICED],
    ),
    runs("65,536 frames", [(65_536, VOICED)], [0, 65_536]),
    runs("the last of 65,536 frames", [(65_535, UNVOICED), (1, VOICED)], [65_535, 1]),
    runs("2,048 runs of 4,096 states", EVERY_OTHER, [n for run in range(2_048) for n in (2 * run, 1)], runs=4_096),
]

TWO_RUNS: States = [(2, VOICED), (1, UNVOICED), (3, VOICED)]


def refused_runs(name: str, number: int, states: States = TWO_RUNS, **fields) -> Told:
    """Everything is left as it was."""
    case = runs_case(states, **fields)
    left = {"refusal": number, "runs": marked_u32(0, case["runs"]), "count": UNTOUCHED_U32}
    return f"runs, {name}", case, {}, number, left


NUMBERS = [3.0, 4.0, VOICED] * 3
REFUSED_RUNS: list[Told] = [
    refused_runs("no windows", 1, windows=0),
    refused_runs("5 windows", 1, windows=5),
    refused_runs("4,294,967,297 windows", 1, windows=2**32 + 1),
    refused_runs("as many windows as 64 bits count", 1, windows=2**64 - 1),
    refused_runs("4,097 states", 3, [(0, VOICED)] * 4_097),
    refused_runs("v 0", 3, v=0, records=[VOICED] * 3),
    refused_runs("v 65", 3, v=65),
    refused_runs("a number too few", 4, records=NUMBERS[:-1]),
    refused_runs("a number too many", 4, records=[*NUMBERS, 1.0]),
    refused_runs("weights and no mask", 4, masked=0),
    refused_runs("a mask and no weights", 4, records=[3.0, 4.0] * 3),
    refused_runs("records of another number of windows", 4, windows=2),
    refused_runs("65,537 frames", 5, [(65_536, VOICED), (1, VOICED)]),
    refused_runs("frames that 32 bits count as none", 5, [(2**31, VOICED), (2**31, VOICED)]),
    refused_runs("a number too little room", 6, runs=3),
    refused_runs("no room", 6, runs=0),
    refused_runs("room for one run of 2,048", 6, EVERY_OTHER, runs=2),
    # The smallest number that applies.
    refused_runs("no windows and v 0", 1, windows=0, v=0),
    refused_runs("no windows and no room", 1, windows=0, runs=0),
    refused_runs("v 65 and a number too few", 3, v=65, records=NUMBERS[:-1]),
    refused_runs("a number too few and 65,537 frames", 4, [(65_536, VOICED), (1, VOICED)], records=[3.0, 4.0, VOICED]),
    refused_runs("65,537 frames and no room", 5, [(65_536, VOICED), (1, VOICED)], runs=0),
]

# A state of a stream: its frames, its weight, its means and its variances, component by component and window by window.
State = tuple[int, float, list[float], list[float]]
FILL = -1.0
DELTA = {"widths": [1, 3], "coefficients": [1.0, -0.5, 0.0, 0.5]}
NO_FRAMES: State = (0, UNVOICED, [NAN, NAN], [NAN, NAN])


@dataclass
class Stream:
    """With each run's first frame and its numbers alone, the full trajectory, and what the claim says of both."""

    name: str
    states: list[State]
    runs: list[tuple[int, list[float]]]
    whole: list[float]
    held: Held
    fields: Fields = field(default_factory=lambda: dict(DELTA))

    def case(self, kind: str, **fields) -> Case:
        records = [number for _, weight, means, varis in self.states for number in (*means, *varis, weight)]
        plain = {
            "v": 1, "masked": 1, "threshold": 0.5, "fill": FILL, "gv_on": 0, "gv_weight": 1.0, **self.fields,
            "records": records, "durations": [frames for frames, *_ in self.states], "gv": [], "switches": b"",
        }
        return Case(kind, plain | fields)

    def v(self) -> int:
        return self.fields.get("v", 1)

    def lent(self, numbers: int) -> dict[str, int]:
        frames = numbers // self.v()
        return {"out": numbers + 2, "work": 48 * frames + 3, "marks": 4 * frames + 1}

    def alone(self, number: int) -> Told:
        _, out = self.runs[number]
        frames, lent = len(out) // self.v(), self.lent(len(out))
        left = {
            "out": out + marked_f64(len(out), lent["out"]),
            "work": [0.0] * (48 * frames) + marked_f64(48 * frames, lent["work"]),
            "marks": [0] * (4 * frames) + marked_u32(4 * frames, lent["marks"]),
            "frames": frames,
        }
        # A NaN is not itself: what is left of it is told by the values' bits.
        left = left if all(number == number for number in out) else {"frames": frames}
        return f"{self.name}, run {number} alone", self.case("run", run=number, **lent), {"out": out, "frames": frames}, 0, left

    def full(self) -> Told:
        case = self.case("trajectory", **self.lent(len(self.whole)))
        clamps = self.clamped()
        return f"{self.name}, in full", case, {"out": self.whole, **clamps}, 0, clamps

    def clamped(self) -> dict[str, int]:
        varis = [vari for frames, weight, _, varis in self.states if weight > 0.5 for vari in varis * frames]
        return {"high": sum(abs(vari) > 1e19 for vari in varis), "low": sum(abs(vari) < 1e-19 for vari in varis)}

    def counted(self) -> Told:
        frames = [number for first, out in self.runs for number in (first, len(out) // self.v())]
        fields = self.case("runs", windows=len(self.fields["widths"]), runs=len(frames) + 1).fields
        names = ("v", "masked", "threshold", "windows", "records", "durations", "runs")
        return counted(self.name, Case("runs", {name: fields[name] for name in names}), frames)

    def told(self) -> list[Told]:
        return [self.counted(), self.full(), *[self.alone(number) for number in range(len(self.runs))]]


def one(frames: int, weight: float, mean: float, vari: float = 1.0) -> State:
    """With the windows (1) and (-0.5, 0, 0.5); the second one's pair is (1, 0.25)."""
    return frames, weight, [mean, 1.0], [vari, 0.25]


# Windows (1) and (-0.5, 0, 0.5). The second one's inverse variance is 4, and 0 at every frame but the middle one of the run of
# three: at one frame, and at two, it reaches past the run everywhere. So the numbers there are the means. Of the run of three the
# middle one is its mean, and with c and d for the others: 2c - d = 1 - 2, and -c + 1.5d = 4 / 2 + 2, since the first has the
# inverse variance 1 and 1 = 4 x 0.5 x 0.5 of the second window's, the last 0.5 and 1. So d is 3.5, and c is 1.25; on the way
# stand 2, -0.5, 1, 3.5 and -0.5, all exact.
THREE = [one(1, VOICED, 1.0), one(1, VOICED, 2.0), one(1, VOICED, 4.0, 2.0)]
GAP = one(1, UNVOICED, 8.0)

# One frame each, with the second run's divisor and value 1. The first one's inverse variance is -1, and its mean 0: alone its
# value is 0 / -1 = -0. In full the entry between both is 0 / -1 = -0, and -0 x 1 is taken off: -0 - -0 = 0.
MINUS_ZERO = [(1, VOICED, [0.0, 1.0], [-1.0, 0.25]), GAP, one(1, VOICED, 1.0)]


def infinite(place: int, mean: float, vari: float, value: float, full: list[float]) -> Stream:
    """Two runs of one frame each, of which one is outside the premise; the other's mean is 2."""
    odd, plain = one(1, VOICED, mean, vari), one(1, VOICED, 2.0)
    states = [odd, GAP, plain] if place == 0 else [plain, GAP, odd]
    numbers = [[value], [2.0]] if place == 0 else [[2.0], [value]]
    # All NaNs are one, and so a NaN is like a NaN.
    unlike = sum(not (a == b or a != a and b != b) for (a,), b in zip(numbers, full))
    name = f"a run with the mean {mean!r} and the variance {vari!r} {'before' if place == 0 else 'behind'}"
    return Stream(name, states, list(zip([0, 2], numbers)), [full[0], FILL, full[1]], Held(1, outside=2, unlike=unlike))


STREAMS = [
    Stream(
        "three runs",
        [one(1, VOICED, 9.0), GAP, *THREE, GAP, one(2, VOICED, 5.0, 4.0)],
        [(0, [9.0]), (2, [1.25, 2.0, 3.5]), (6, [5.0, 5.0])],
        [9.0, FILL, 1.25, 2.0, 3.5, FILL, 5.0, 5.0],
        Held(1, inside=3),
    ),
    # Pairs of unvoiced states and of states of no frames are no matter.
    Stream(
        "three runs with states of no frames",
        [NO_FRAMES, THREE[0], NO_FRAMES, THREE[1], (0, VOICED, [NAN, NAN], [NAN, NAN]), THREE[2]]
        + [(1, UNVOICED, [math.inf, NAN], [0.0, NAN]), one(1, VOICED, 9.0), GAP, one(2, VOICED, 5.0), NO_FRAMES],
        [(0, [1.25, 2.0, 3.5]), (4, [9.0]), (6, [5.0, 5.0])],
        [1.25, 2.0, 3.5, FILL, 9.0, FILL, 5.0, 5.0],
        Held(1, inside=3),
    ),
    Stream("a run that is the stream", THREE, [(0, [1.25, 2.0, 3.5])], [1.25, 2.0, 3.5], Held(1, inside=1)),
    # A window of one coefficient: a number is its mean.
    Stream(
        "two runs and v 2",
        [(1, VOICED, [2.0, 20.0], [1.0, 4.0]), (2, UNVOICED, [3.0, 30.0], [1.0, 1.0])]
        + [(1, VOICED, [4.0, 40.0], [2.0, -1.0]), (2, VOICED, [5.0, 50.0], [0.5, 8.0])],
        [(0, [2.0, 20.0]), (3, [4.0, 40.0, 5.0, 50.0, 5.0, 50.0])],
        [2.0, 20.0, *[FILL] * 4, 4.0, 40.0, 5.0, 50.0, 5.0, 50.0],
        Held(1, inside=2),
        {"v": 2, "widths": [1], "coefficients": [1.0]},
    ),
    Stream("nothing voiced", [GAP, GAP], [], [FILL, FILL], Held(1)),
    Stream("a zero below zero", MINUS_ZERO, [(0, [-0.0]), (2, [1.0])], [0.0, FILL, 1.0], Held(1, inside=2, zeros=1)),
    # Windows of one coefficient couple nothing: whatever the other run is, a number is what it is alone. 0 / 0, 2 / 0 and -2 / 0.
    Stream(
        "runs without a divisor",
        [(1, VOICED, [3.0, 1.0], [1e20, 1e30]), (1, UNVOICED, [0.0, 0.0], [1.0, 1.0]), (1, VOICED, [3.0, 1.0], [1.0, -1.0])]
        + [(1, UNVOICED, [0.0, 0.0], [1.0, 1.0]), (1, VOICED, [1.0, 3.0], [1.0, -1.0])]
        + [(1, UNVOICED, [0.0, 0.0], [1.0, 1.0]), (1, VOICED, [2.0, 2.0], [2.0, 2.0])],
        [(0, [NAN]), (2, [math.inf]), (4, [-math.inf]), (6, [2.0])],
        [NAN, FILL, math.inf, FILL, -math.inf, FILL, 2.0],
        Held(1, outside=4),
        {"widths": [1, 1], "coefficients": [1.0, 1.0]},
    ),
    # With a longer one 0 / 0 between both is NaN in full.
    infinite(0, 1.0, 1e20, NAN, [NAN, NAN]),
    infinite(1, 1.0, 1e20, NAN, [NAN, NAN]),
    # And 0 x infinity is.
    infinite(0, math.inf, 1.0, math.inf, [NAN, NAN]),
    infinite(1, -math.inf, 1.0, -math.inf, [NAN, -math.inf]),
    infinite(0, NAN, 1.0, NAN, [NAN, NAN]),
    infinite(0, ODD_NANS[0], 1.0, NAN, [NAN, NAN]),
    infinite(1, 1.0, NAN, NAN, [NAN, NAN]),
    # A variance of infinity is an inverse variance of 0.
    infinite(0, 1.0, math.inf, NAN, [NAN, NAN]),
    # A mean that is finite, but not its product with 1e38.
    infinite(0, 1e300, 0.0, math.inf, [NAN, NAN]),
]
SOLVED: list[Told] = [line for stream in STREAMS for line in stream.told()]

WORKED = STREAMS[0]
# Run 1 has 3 frames of the 8, and wants so many numbers.
WANTED = {"out": 3, "work": 144, "marks": 12}


def accepted(name: str, **fields) -> Told:
    case, out = WORKED.case("run", run=1, **WANTED).with_fields(**fields), [1.25, 2.0, 3.5]
    return f"a run alone, {name}", case, {"out": out, "frames": 3}, 0, {"frames": 3}


def refused(name: str, number: int, **fields) -> Told:
    """Everything is left as it was."""
    case = WORKED.case("run", run=1, **WANTED).with_fields(**fields)
    rooms = {"out": marked_f64(0, case["out"]), "work": marked_f64(0, case["work"]), "marks": marked_u32(0, case["marks"])}
    return f"a run alone, {name}", case, {}, number, {"refusal": number, **rooms, "frames": UNTOUCHED_U32}


GV = {"gv_on": 1, "gv": [1.0, 1.0], "switches": bytes([1] * 7)}
LONGER_FIRST = {"widths": [2, 3], "coefficients": [1.0, 1.0, -0.5, 0.0, 0.5]}
NOWHERE = {"out": 0, "work": 0, "marks": 0}
RECORDS = WORKED.case("run")["records"]
LONG = [65_530, 1, 1, 1, 1, 1, 2]  # 65,537 frames
ALONE: list[Told] = [
    accepted("just room enough"),
    accepted("lists of GV that don't agree, with GV off", gv=[1.0], switches=bytes(1)),
    accepted("another fill", fill=NAN),
    refused("no windows", 1, widths=[], coefficients=[]),
    refused("a window of 16 coefficients", 1, widths=[1, 16]),
    refused("an infinite coefficient", 2, coefficients=[1.0, -0.5, 0.0, math.inf]),
    refused("v 0", 3, v=0),
    refused("v 65", 3, v=65),
    refused("4,097 states", 3, durations=[0] * 4_097),
    refused("a coefficient too few", 4, coefficients=[1.0, -0.5, 0.0]),
    refused("a number of a record too few", 4, records=RECORDS[:-1]),
    refused("GV with too short a list", 4, **{**GV, "gv": [1.0]}),
    refused("GV with a switch too few", 4, **{**GV, "switches": bytes(6)}),
    refused("65,537 frames", 5, durations=LONG),
    refused("an output of a number too few", 6, out=2),
    refused("a work space of a float too few", 6, work=143),
    refused("a work space of a whole number too few", 6, marks=11),
    refused("GV", 20, **GV),
    refused("GV by another number than 1", 20, **{**GV, "gv_on": 2**31}),
    refused("the run after the last", 21, run=3),
    refused("the largest number of a run", 21, run=MOST),
    refused("a number that 8 bits would take for the run", 21, run=257),
    refused("a number that 16 bits would take for the run", 21, run=65_537),
    refused("no run with nothing lent", 21, run=3, **NOWHERE),
    refused("nothing voiced", 21, threshold=math.inf, run=0, **NOWHERE),
    refused("no states", 21, durations=[], records=[], run=0),
    refused("a first window of two coefficients", 22, **LONGER_FIRST),
    refused("a first window of 15 coefficients", 22, widths=[15, 3], coefficients=[1.0] * 18),
    # 1 to 6, then 20, 21, 22.
    refused("no windows, and GV with too short a list", 1, widths=[], coefficients=[], gv_on=1),
    refused("a number of a record too few, GV and no run", 4, records=RECORDS[:-1], **GV, run=3),
    refused("65,537 frames and no room", 5, durations=LONG, **NOWHERE),
    refused("65,537 frames, GV and a longer first window", 5, durations=LONG, **GV, **LONGER_FIRST),
    refused("an output too short and GV", 6, **GV, out=2),
    refused("a work space too short and a longer first window", 6, **LONGER_FIRST, marks=0),
    refused("GV and no run", 20, **GV, run=3),
    refused("GV and no run with nothing lent", 20, **GV, run=3, **NOWHERE),
    refused("GV and a longer first window", 20, **GV, **LONGER_FIRST),
    refused("GV, no run and a longer first window", 20, **GV, **LONGER_FIRST, run=MOST),
    refused("no run and a longer first window", 21, **LONGER_FIRST, run=3),
    refused("no run and a longer first window with nothing lent", 21, **LONGER_FIRST, run=3, **NOWHERE),
]
