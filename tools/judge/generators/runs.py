"""Streams of voiced runs: which there are, and one of them alone."""

import math
from collections.abc import Callable
from random import Random

from .. import damage
from ..formats import Case
from ..numbers import BEYOND, CLAMPING, mood, number, numbers, positives, special
from ..reading.ieee import LARGEST, NAN
from ..reading.refusals import MAX_STATES, MAX_V, MAX_WINDOWS, WORK_FLOATS, WORK_MARKS
from ..reading.runs import frames_asked, record_size, runs_of
from .common import room, to_the_limit
from .trajectories import switches_for, windows_for, with_variances


def stretches(rng: Random, states: int) -> list[bool]:
    """Which states are voiced: none, all, every other one, or a few in turn."""
    shape = rng.random()
    if shape < 0.03:
        return [False] * states
    if shape < 0.1:
        return [True] * states
    voiced = rng.random() < 0.6
    most = 1 if shape < 0.45 else rng.choice([2, 3, 6])
    result: list[bool] = []
    while len(result) < states:
        result += [voiced] * rng.randint(1, most)
        voiced = not voiced
    return result[:states]


def frames_for(rng: Random, states: int, most: int) -> list[int]:
    """States of no frames among them, few, many, or all."""
    empty = rng.choice([0.0, 0.0, 0.15, 0.3, 0.3, 0.6]) if rng.random() < 0.96 else rng.choice([0.9, 1.0])
    most = rng.choice([1, 1, 2, most])
    return [0 if rng.random() < empty else rng.randint(1, most) for _ in range(states)]


def threshold_for(rng: Random) -> float:
    if rng.random() < 0.9:
        return 0.5
    return rng.choice([0.0, -0.0, NAN, math.inf, -math.inf, LARGEST, math.nextafter(LARGEST, 0.0), -LARGEST, special(rng)])


def weight_for(rng: Random, voiced: bool, threshold: float) -> float:
    """On the right side of the threshold, or just so; in a few cases anything."""
    shape = rng.random()
    if shape < 0.02:
        return special(rng)
    if shape < 0.2:
        return math.nextafter(threshold, math.inf if voiced else -math.inf)
    if voiced:
        return rng.choice([0.9, 0.9, LARGEST, math.inf]) if threshold < 0.9 else math.inf
    return rng.choice([0.1, 0.1, threshold, NAN, -math.inf]) if threshold > 0.1 else threshold


def state_count(rng: Random, most: int) -> int:
    shape = rng.random()
    if shape < 0.01:
        return 0
    if shape < 0.05:
        return 1
    return rng.randint(2, 8) if shape < 0.65 else rng.randint(9, most)


def runs_case(rng: Random, small: bool) -> Case:
    states = state_count(rng, 16 if small else 60)
    v, windows = rng.choice([1, 1, 2, 3]), rng.choice([1, 1, 2, 3, MAX_WINDOWS])
    durations = frames_for(rng, states, 4)
    if not small and rng.random() < 0.01:
        v = rng.choice([MAX_V, MAX_V, rng.randint(1, MAX_V)])
    if not small and rng.random() < 0.01:
        states, v, windows = rng.choice([MAX_STATES - 1, MAX_STATES]), 1, 1
        durations = frames_for(rng, states, 16)
    if not small and rng.random() < 0.02:
        others = durations if rng.random() < 0.5 else [0] * states
        durations = to_the_limit(rng, others, rng.choice([-1, 0, 0]))
    threshold, masked = threshold_for(rng), rng.choice([0, 1, 1, 1, 1, 1, 0x80000000])
    records: list[float] = []
    for voiced in stretches(rng, states):
        # Pairs are looked at by no one; some look like weights of the other side.
        records += [rng.choice([0.1, 0.9, NAN, 1.0]) for _ in range(2 * windows * v)]
        records += [weight_for(rng, voiced, threshold)] if masked else []
    fields = {"v": v, "masked": masked, "threshold": threshold, "windows": windows, "records": records}
    case = Case("runs", {**fields, "durations": durations, "runs": 0})
    case = case.with_fields(runs=a_little_off(rng, 2 * len(runs_of(case))))
    return several(rng, case, RUNS_DAMAGES) if not small and rng.random() < 0.04 else case


def no_room(rng: Random, case: Case) -> Case:
    rooms = [name for name in ("runs", "out", "work", "marks") if name in case.fields]
    return case.with_fields(**{rng.choice(rooms): 0})


RUNS_DAMAGES = [no_room, damage.number_out_of_range, damage.other_voicing, damage.too_many_frames, damage.too_many_frames]
RUN_DAMAGES = [no_room, no_room, damage.too_many_frames, damage.gv_on, damage.longer_first_window, damage.other_run]


def several(rng: Random, case: Case, damages: list[damage.Damage]) -> Case:
    """Two or three reasons to refuse, so that their order shows."""
    for change in rng.sample(damages, rng.choice([2, 2, 3])):
        case = change(rng, case)
    return case


def a_little_off(rng: Random, needed: int) -> int:
    """A lent list, in a few cases one too short."""
    return max(0, needed - 1) if rng.random() < 0.04 else room(rng, needed)


# Changes a stream so that numbers arise which the claim doesn't cover, or only just.
Twist = Callable[[Random, Case], Case]


def as_it_is(rng: Random, case: Case) -> Case:
    return case


def clamped(rng: Random, case: Case) -> Case:
    """Variances around both bounds and far beyond: inverse variances of 0 and 1e38."""
    return with_variances(rng, case, CLAMPING, rng.choice([0.05, 0.3, 1.0]))


def large_but_finite(rng: Random, case: Case) -> Case:
    """The same, within the premise."""
    return with_variances(rng, case, [size for size in BEYOND if math.isfinite(size)], rng.choice([0.05, 0.3]))


def signed(rng: Random, case: Case) -> Case:
    """Variances of either sign, and means of zero: zeros of both signs."""
    case = with_variances(rng, case, [-1.0, 1.0, -0.5, 2.0], rng.choice([0.5, 1.0]))
    return with_means(rng, case, [0.0, -0.0, 0.0, 1.0], rng.choice([0.3, 0.8]))


def of_one_state(rng: Random, case: Case, first: int, last: int, others: list[float]) -> Case:
    """Numbers `first` to `last` of one record replaced, all by the same or each by its own."""
    if not case["durations"]:
        return case
    records, start = list(case["records"]), rng.randrange(len(case["durations"])) * record_size(case)
    one = rng.choice(others)
    for place in range(start + first, start + last):
        records[place] = one if rng.random() < 0.8 else rng.choice(others)
    return case.with_fields(records=records)


def no_divisor(rng: Random, case: Case) -> Case:
    """Every inverse variance of a state is 0."""
    count = len(case["widths"]) * case["v"]
    return of_one_state(rng, case, count, 2 * count, [1e20, -1e30, LARGEST])


def cancelling(rng: Random, case: Case) -> Case:
    """Windows of one coefficient whose inverse variances sum to 0, or nearly, in some states."""
    v, size = case["v"], record_size(case)
    old, records, own = list(case["records"]), [], 4 * v
    for state in range(len(case["durations"])):
        varis = [rng.choice([1.0, 2.0, 0.3]) for _ in range(v)]
        other = [rng.choice([-vari, -vari, vari, math.nextafter(-vari, 0.0)]) for vari in varis]
        weight = old[state * size + size - 1 : (state + 1) * size] if case["masked"] else []
        records += [rng.choice([1.0, 0.0, -2.0]) for _ in range(own // 2)] + varis + other + weight
    return case.with_fields(widths=[1, 1], coefficients=[1.0, rng.choice([1.0, -1.0])], records=records)


def overflowing(rng: Random, case: Case) -> Case:
    """A coefficient so large, or so small, that products of it overflow or vanish."""
    taps = list(case["coefficients"])
    taps[rng.randrange(len(taps))] = rng.choice([1e154, 1e160, 1e300, LARGEST, -LARGEST, 1e-160, 5e-324])
    return case.with_fields(coefficients=taps)


def unbounded(rng: Random, case: Case) -> Case:
    """A pair of a state that is infinite or NaN, or so large that its products are."""
    size = 2 * len(case["widths"]) * case["v"]
    place = rng.randrange(size)
    return of_one_state(rng, case, place, place + 1, [math.inf, -math.inf, NAN, 1e200, LARGEST])


def with_means(rng: Random, case: Case, others: list[float], share: float) -> Case:
    size, count, records = record_size(case), len(case["widths"]) * case["v"], list(case["records"])
    for state in range(len(case["durations"])):
        for place in range(state * size, state * size + count):
            if rng.random() < share:
                records[place] = rng.choice(others)
    return case.with_fields(records=records)


def of_any_size(rng: Random, case: Case) -> Case:
    """Coefficients, means and variances as far from 1 as a span of powers of 10 lets them be, each by itself."""
    span = rng.choice([20, 80, 150, 154, 300])

    def sized(most: float) -> float:
        return rng.choice([1.0, -1.0]) * 10.0 ** rng.uniform(-most, most)

    taps = [tap if tap == 0 or rng.random() < 0.5 else sized(span) for tap in case["coefficients"]]
    case = with_means(rng, case.with_fields(coefficients=taps), [sized(span) for _ in range(20)], 0.5)
    return with_variances(rng, case, [sized(rng.choice([19, 19, 300])) for _ in range(20)], 0.5)


TWISTS: list[Twist] = [as_it_is] * 9 + [clamped, large_but_finite, large_but_finite, signed, signed, no_divisor]
TWISTS += [cancelling, overflowing, unbounded, of_any_size, of_any_size]


def own_windows(rng: Random, small: bool) -> tuple[list[int], list[float]]:
    """The first mostly of one coefficient; in some cases all are."""
    if rng.random() < 0.1:
        widths = [1] * rng.randint(1, MAX_WINDOWS)
        return widths, [rng.choice([1.0, 1.0, -0.5, 0.0, 3.0]) for _ in widths]
    widths, taps = windows_for(rng, small)
    if widths[0] > 1 and rng.random() < 0.9:
        widths, taps = [1, *widths[1:]], taps[widths[0] - 1 :]
    if rng.random() < 0.7 and widths[0] == 1 and taps[0] == 0.0:
        taps = [rng.choice([1.0, 1.0, 0.7]), *taps[1:]]  # without it most divisors are zero
    return widths, taps


def number_of_run(rng: Random, count: int) -> int:
    """One that is there, the last, or one that is not."""
    if count and rng.random() < 0.88:
        return rng.choice([0, count - 1, rng.randrange(count), rng.randrange(count)])
    return rng.choice([count, count, count + 1, 2 * count, 0, 2**32 - 1, 2**31, 2**16, 2**8])


def tone_of(rng: Random) -> str:
    """Mostly such that every number is finite."""
    return rng.choice(["tame", "tame", "tame", "decimal", "decimal", "tied", mood(rng)])


def stream_of_runs(rng: Random, small: bool) -> Case:
    """Any stream, before it is twisted."""
    v, states = rng.choice([1, 1, 1, 2, 2, 3]), state_count(rng, 16)
    durations = frames_for(rng, states, 5 if states < 10 else 2)
    widths, taps = own_windows(rng, small)
    if not small and rng.random() < 0.06:
        # Long enough that a window of 15 counts somewhere.
        states = rng.randint(1, 5)
        durations = [rng.choice([0, 1, 4, 14, 15, 16, rng.randint(10, 40)]) for _ in range(states)]
    if not small and rng.random() < 0.01:
        v, (widths, taps) = rng.choice([8, MAX_V - 1, MAX_V]), rng.choice([([1], [1.0]), ([1, 3], [1.0, -0.5, 0.0, 0.5])])
    if not small and rng.random() < 0.001:
        # Longer than Python has patience for: the Rust judges alone.
        v, states, widths, taps = 3, 4, [1, 15], [1.0, *numbers(rng, "tame", 15)]
        durations = [rng.randint(600, 800), rng.randint(0, 3), rng.randint(1, 20), rng.randint(600, 800)]
    if not small and rng.random() < 0.004:
        v, states, (widths, taps) = 1, rng.choice([100, 300, 300, 300, MAX_STATES]), ([1, 3], [1.0, -0.5, 0.0, 0.5])
        durations = frames_for(rng, states, 2)
    threshold, masked, tone = threshold_for(rng), rng.choice([0, *[1] * 10, 0x80000000]), tone_of(rng)
    records: list[float] = []
    for voiced in stretches(rng, states):
        count = len(widths) * v
        records += numbers(rng, tone, count, 3.0) + positives(rng, tone, count, 2.0)
        records += [weight_for(rng, voiced, threshold)] if masked else []
    return Case("run", {
        "v": v,
        "masked": masked,
        "threshold": threshold,
        "fill": rng.choice([-1e10, 0.0, NAN, special(rng)]),
        "gv_on": 0,
        "gv_weight": rng.choice([1.0, number(rng, tone)]),
        "widths": widths,
        "coefficients": taps,
        "records": records,
        "durations": durations,
    })


def at_the_limit(rng: Random) -> Case:
    """65,536 frames, all of them but a few in one run, or in the gap before it; few taps, so that Python is quick."""
    durations = to_the_limit(rng, [rng.randint(0, 3) for _ in range(5)], rng.choice([-1, 0, 0]))
    voiced = [rng.random() < 0.6 for _ in durations]
    records = [number for is_voiced in voiced for number in (rng.choice([0.5, 2.0]), 1.0, 0.9 if is_voiced else 0.1)]
    fields = {"v": 1, "masked": 1, "threshold": 0.5, "fill": 0.0, "gv_on": 0, "gv_weight": 1.0}
    return Case("run", {**fields, "widths": [1], "coefficients": [1.0], "records": records, "durations": durations})


def with_gv(rng: Random, case: Case) -> Case:
    """On in a few cases, with lists that agree; off mostly, with any."""
    states, v = len(case["durations"]), case["v"]
    on = rng.choice([1, 1, 0x100, 2**31]) if rng.random() < 0.05 else 0
    is_given = on or rng.random() < 0.3
    gv = [rng.choice([1.0, 0.5, NAN]) for _ in range(2 * v)] if is_given else []
    return case.with_fields(gv_on=on, gv=gv, switches=switches_for(rng, states) if is_given else b"")


def with_run(rng: Random, case: Case) -> Case:
    """With the number of a run and lists for it, in a few cases for the whole utterance."""
    case = case.with_fields(run=number_of_run(rng, len(runs_of(case))))
    frames = sum(case["durations"]) if rng.random() < 0.06 else frames_asked(case)
    sizes = {"out": case["v"], "work": WORK_FLOATS, "marks": WORK_MARKS}
    rooms = {name: room(rng, size * frames) for name, size in sizes.items()}
    if rng.random() < 0.05:
        short = rng.choice(list(sizes))
        rooms[short] = max(0, sizes[short] * frames - 1)
    return case.with_fields(**rooms)


def run_case(rng: Random, small: bool) -> Case:
    if not small and rng.random() < 0.001:
        return with_run(rng, with_gv(rng, at_the_limit(rng)))
    case = stream_of_runs(rng, small)
    case = with_run(rng, with_gv(rng, rng.choice(TWISTS)(rng, case)))
    return several(rng, case, RUN_DAMAGES) if not small and rng.random() < 0.05 else case
