"""RULES, Clamps, by hand: for `tools/table`, variances with their clamp, and trajectories with how many pairs are clamped."""

import math
import struct

from .formats import UNTOUCHED_U32, Case, Fields
from .numbers import ODD_NANS
from .reading.ieee import LARGEST, NAN

# A line of the table: its name, the case, its values or its refusal, and what a call leaves.
Told = tuple[str, Case, Fields, int, Fields]

NOT_CLAMPED, HIGH, LOW = range(3)

# Each variance with its clamp. Both bounds are exclusive, and a variance counts by its size.
ABOVE_HIGH, BELOW_HIGH = 10000000000000002048.0, 9999999999999997952.0  # 1e19 is exact, its neighbours 2048 away
ABOVE_LOW, BELOW_LOW = math.nextafter(1e-19, 1.0), math.nextafter(1e-19, 0.0)
BY_SIZE = [
    (1.0, NOT_CLAMPED),
    (4.0, NOT_CLAMPED),
    (BELOW_HIGH, NOT_CLAMPED),
    (1e19, NOT_CLAMPED),
    (ABOVE_HIGH, HIGH),
    (1e30, HIGH),
    (LARGEST, HIGH),
    (math.inf, HIGH),
    (ABOVE_LOW, NOT_CLAMPED),
    (1e-19, NOT_CLAMPED),
    (BELOW_LOW, LOW),
    (1e-30, LOW),
    (2.2250738585072014e-308, LOW),  # the smallest normal float
    (5e-324, LOW),  # the smallest of all
    (0.0, LOW),
]
SIGNED = [(sign * size, clamp) for size, clamp in BY_SIZE for sign in (1.0, -1.0)]
VARIANCES = SIGNED + [(nan, NOT_CLAMPED) for nan in (NAN, *ODD_NANS)]


def inverse(vari: float, clamp: int) -> float:
    if math.isnan(vari):
        return NAN
    return {HIGH: 0.0, LOW: 1e38}[clamp] if clamp else 1.0 / vari


def shown(vari: float) -> str:
    return f"NaN {struct.pack('>d', vari).hex()}" if math.isnan(vari) else repr(vari)


def with_ivar(vari: float, clamp: int) -> Told:
    fields = {"operation": 0, "mean": 7.0, "vari": vari, "mean2": 1e30, "vari2": 1e30, "weight": 0.0}
    values = {"mean": 7.0, "vari": inverse(vari, clamp), "clamp": clamp}
    return f"variance {shown(vari)}", Case("pair", fields), values, 0, {}


def other_operation(operation: int, mean: float, vari: float) -> Told:
    """Of the pairs (0, 0) and (1e30, 1e30), both clamped by `with_ivar` alone."""
    fields = {"operation": operation, "mean": 0.0, "vari": 0.0, "mean2": 1e30, "vari2": 1e30, "weight": 2.0}
    values = {"mean": mean, "vari": vari, "clamp": NOT_CLAMPED}
    return f"operation {operation} on variances 0 and 1e30", Case("pair", fields), values, 0, {}


PAIRS: list[Told] = [
    *[with_ivar(vari, clamp) for vari, clamp in VARIANCES],
    other_operation(1, 0.0, 0.0),
    other_operation(2, 0.0, 0.0),
    other_operation(3, 1e30, 1e30),
    other_operation(4, 1e30, 1e30),
    other_operation(5, 1.0, 0.0),
]


def stream(**fields) -> Case:
    """One window of one coefficient and v 1, without weights and GV, but for the fields."""
    plain = {
        "v": 1, "masked": 0, "threshold": 0.5, "fill": -1.0, "gv_on": 0, "gv_weight": 1.0,
        "widths": [1], "coefficients": [1.0], "gv": [], "switches": b"",
    }
    frames = sum(fields["durations"])
    rooms = {"out": frames * fields.get("v", 1) + 2, "work": 48 * frames + 3, "marks": 4 * frames + 1}
    return Case("trajectory", plain | rooms | fields)


def counted(name: str, case: Case, out: list[float], high: int, low: int) -> Told:
    return name, case, {"out": out, "high": high, "low": low}, 0, {"high": high, "low": low}


def one_variance(vari: float, clamp: int) -> Told:
    """Three frames of mean 2: 2 x the inverse / the inverse, which is 0 / 0 where it is 0."""
    value = NAN if clamp == HIGH or math.isnan(vari) else 2.0
    case = stream(records=[2.0, vari], durations=[3])
    return counted(f"three frames of variance {shown(vari)}", case, [value] * 3, 3 * (clamp == HIGH), 3 * (clamp == LOW))


# Windows (1) and (-0.5, 0, 0.5), v 2: pairs 0 and 1 are the first window's, 2 and 3 the second's. The second window
# reaches a frame to both sides, so of a run of three frames its middle one alone isn't zeroed, and of one frame none is.
#
# state  frames           pair 0   pair 1   pair 2   pair 3   high  low
#     0  3, voiced        1e19     -1e-20   2e19     -3e30    3 x 2 3 x 1
#     1  none, voiced     1e30     0        -inf     1e-20    0     0
#     2  2, unvoiced      1e30     0        -inf     1e-20    0     0
#     3  1, voiced        1e-19    0        NaN      5e-324   0     1 x 2
#                                                             6     5
#
# Where the second window counts, in the middle of state 0, its inverse variances are 0. So every voiced number is its
# first mean: a power of 2 times an inverse variance, divided by it.
CLAMPED_STATE = [1.0, 1.0, 1.0, 1.0, 1e30, 0.0, -math.inf, 1e-20]
WORKED = stream(
    v=2,
    masked=1,
    widths=[1, 3],
    coefficients=[1.0, -0.5, 0.0, 0.5],
    records=[
        *[2.0, 4.0, 1.0, 1.0, 1e19, -1e-20, 2e19, -3e30, 0.9],
        *[*CLAMPED_STATE, 0.9],
        *[*CLAMPED_STATE, 0.1],
        *[8.0, 0.5, 1.0, 1.0, 1e-19, 0.0, NAN, 5e-324, 0.9],
    ],
    durations=[3, 0, 2, 1],
)
WORKED_OUT = [2.0, 4.0, 2.0, 4.0, 2.0, 4.0, -1.0, -1.0, -1.0, -1.0, 8.0, 0.5]


def full(vari: float, value: float, high: int, low: int) -> Told:
    """64 components, 4 windows of one coefficient and 256 frames are 65,536 pairs; the mean is 2 in each of them."""
    case = stream(
        v=64, widths=[1] * 4, coefficients=[1.0] * 4, records=[2.0] * 256 + [vari] * 256, durations=[256]
    )
    return counted(f"65,536 pairs of variance {vari!r}", case, [value] * 16_384, high, low)


TRAJECTORIES: list[Told] = [
    counted("the worked stream", WORKED, WORKED_OUT, 6, 5),
    # With GV on its own pairs aren't counted, and frames that aren't switched are; none is, so the numbers stay.
    counted(
        "the worked stream with GV, none switched",
        WORKED.with_fields(gv_on=1, gv=[1e30, 0.0, 1e30, 0.0], switches=bytes(4)), WORKED_OUT, 6, 5,
    ),
    *[one_variance(vari, clamp) for vari, clamp in VARIANCES],
    full(0.0, 2.0, 0, 65_536),
    full(1e30, NAN, 65_536, 0),
    counted("no states", stream(records=[], durations=[]), [], 0, 0),
    counted("no frames", stream(records=[2.0, 0.0, 2.0, 1e30], durations=[0, 0]), [], 0, 0),
    counted("nothing voiced", stream(masked=1, records=[2.0, 0.0, 0.1], durations=[2]), [-1.0, -1.0], 0, 0),
    counted("a weight at the threshold", stream(masked=1, records=[2.0, 0.0, 0.5], durations=[2]), [-1.0, -1.0], 0, 0),
    counted("a threshold of NaN", stream(threshold=NAN, records=[2.0, 0.0], durations=[2]), [-1.0, -1.0], 0, 0),
]

UNTOUCHED = {"high": UNTOUCHED_U32, "low": UNTOUCHED_U32}


def refused(name: str, number: int, **fields) -> Told:
    return f"the worked stream, {name}", WORKED.with_fields(**fields), {}, number, UNTOUCHED


REFUSED: list[Told] = [
    refused("a window of 16 coefficients", 1, widths=[1, 16]),
    refused("an infinite coefficient", 2, coefficients=[1.0, -0.5, 0.0, math.inf]),
    refused("v 65", 3, v=65),
    refused("a number of a record too few", 4, records=WORKED["records"][:-1]),
    refused("65,537 frames", 5, durations=[65_534, 0, 2, 1]),
    refused("an output of a number too few", 6, out=11),
    refused("a work space of a float too few", 6, work=287),
    refused("a work space of a whole number too few", 6, marks=23),
]
