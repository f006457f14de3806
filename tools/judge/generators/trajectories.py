"""Masks, band rows and trajectories."""

from random import Random

from ..formats import Case
from ..numbers import BEYOND, CLAMPING, mood, number, numbers, positive, positives, special
from ..reading.ieee import LARGEST, MAX_FRAMES, NAN
from ..reading.refusals import MAX_V, MAX_WINDOWS, WORK_FLOATS, WORK_MARKS, band_width, record_size
from .common import durations_for, room, state_count, to_the_limit


def voicing(rng: Random, states: int, threshold: float) -> list[float]:
    """Weights on both sides of the threshold, at it, and odd ones."""
    share = rng.choice([0.0, 0.5, 0.7, 0.9, 1.0, 1.0])
    weights = []
    for _ in range(states):
        if rng.random() < 0.06:
            weights.append(special(rng))
        elif rng.random() < 0.06:
            weights.append(threshold)
        else:
            weights.append(0.9 if rng.random() < share else 0.1)
    return weights


def threshold_for(rng: Random) -> float:
    return 0.5 if rng.random() < 0.85 else rng.choice([0.9, 0.1, LARGEST, NAN, special(rng)])


def mask_case(rng: Random, small: bool) -> Case:
    states = state_count(rng, small)
    durations = durations_for(rng, states, 4)
    if not small and rng.random() < 0.004:
        durations = to_the_limit(rng, durations, rng.choice([-1, 0]))
    threshold = threshold_for(rng)
    frames = sum(durations)
    return Case("mask", {
        "weights": voicing(rng, states, threshold),
        "threshold": threshold,
        "durations": durations,
        "voiced": room(rng, frames),
        "left": room(rng, frames),
        "right": room(rng, frames),
    })


def windows_for(rng: Random, small: bool) -> tuple[list[int], list[float]]:
    """1 to 4 windows, the first mostly of one coefficient, with zero taps."""
    shape = rng.random()
    if shape < 0.25:
        return [1, 3, 3], [1.0, -0.5, 0.0, 0.5, 1.0, -2.0, 1.0]
    first = 1 if shape < 0.75 else rng.randint(2, 15)
    longest = 5 if rng.random() < (0.85 if small else 0.6) else 15
    widths = [first] + [rng.randint(1, longest) for _ in range(rng.randint(0, 3))]
    tone = rng.choice(["tame", "tame", "tied", "spiced"])
    taps = [number(rng, tone, 2.0) for _ in range(sum(widths))]
    return widths, [0.0 if rng.random() < 0.2 else tap if abs(tap) < float("inf") else 0.5 for tap in taps]


def band_case(rng: Random, small: bool) -> Case:
    widths, coefficients = windows_for(rng, small)
    frames = rng.choice([0, 1, 2, 3, 5, 8]) if small else rng.choice([0, 1, 1, 2, 3, 5, 8, 13, 20])
    if not small and rng.random() < 0.002:
        widths, coefficients, frames = [1], [number(rng, "tame")], rng.choice([MAX_FRAMES - 1, MAX_FRAMES])
    tone = mood(rng)
    ivars = []
    zero_ends = rng.random() < 0.7  # otherwise the Rust's `break` drops terms that aren't zero
    for window, width in enumerate(widths):
        half = width // 2
        for frame in range(frames):
            inside = frame >= half and frames - 1 - frame >= width - half - 1
            zero = zero_ends and window > 0 and not inside
            ivars.append(0.0 if zero else positive(rng, tone, 2.0))
    return Case("band", {
        "widths": widths,
        "coefficients": coefficients,
        "means": numbers(rng, tone, frames * len(widths)),
        "ivars": ivars,
        "rows": room(rng, frames * band_width(widths)),
        "right": room(rng, frames),
    })


def trajectory_durations(rng: Random, small: bool, states: int, v: int) -> list[int]:
    durations = durations_for(rng, states, 3 if v > 3 else 5)
    if not small and v == 1 and rng.random() < 0.002:
        return to_the_limit(rng, durations, rng.choice([-1, 0]))
    return durations


def switches_for(rng: Random, states: int) -> bytes:
    """None, one or all switched, or any; every byte but 0 means yes."""
    shape = rng.random()
    if shape < 0.1:
        return bytes(states)
    if shape < 0.2 and states:
        chosen = rng.randrange(states)
        return bytes(int(state == chosen) for state in range(states))
    if shape < 0.5:
        return bytes([1] * states)
    return bytes(rng.choice([0, 1, 1, 2, 128, 255]) for _ in range(states))


def crowded(rng: Random) -> Case:
    """About as many clamped pairs as 16 bits count; few taps, so that Python is quick."""
    coefficients = numbers(rng, "decimal", MAX_WINDOWS)
    durations = [rng.choice([0, 1]), rng.choice([255, 256, 256, 257]), rng.choice([0, 1])]
    case = stream_case(rng, MAX_V, [1] * MAX_WINDOWS, coefficients, durations)
    return with_variances(rng, case, [rng.choice(BEYOND)], 1.0)


def unsolved(rng: Random, case: Case) -> Case:
    """A value that isn't finite where GV is off: the objective is NaN, the other values aren't."""
    records, switches, state = list(case["records"]), case["switches"], rng.randrange(len(case["durations"]))
    records[state * record_size(case)] = rng.choice([float("inf"), -float("inf"), 1e200])
    return case.with_fields(records=records, switches=switches[:state] + bytes(1) + switches[state + 1 :])


def with_variances(rng: Random, case: Case, others: list[float], share: float) -> Case:
    """The same stream, a share of its variances replaced."""
    size, count, records = record_size(case), len(case["widths"]) * case["v"], list(case["records"])
    for state in range(len(case["durations"])):
        for place in range(state * size + count, state * size + 2 * count):
            if rng.random() < share:
                records[place] = rng.choice(others)
    return case.with_fields(records=records)


def trajectory_case(rng: Random, small: bool) -> Case:
    if not small and rng.random() < 0.01:
        return crowded(rng)
    v = rng.choice([1, 1, 1, 2, 2, 3])
    states = min(state_count(rng, small), 16)
    if not small and rng.random() < 0.04:
        v = rng.choice([4, 8, 13, 40, 63, 64, rng.randint(1, 64)])
        states = state_count(rng, True)
    if not small and rng.random() < 0.004:
        v, states = rng.choice([(1, 4095), (1, 4096), (2, 1500), (13, 300), (64, 60)])  # the Rust judges
    widths, coefficients = windows_for(rng, small or v > 3 or states > 16)
    durations = trajectory_durations(rng, small, states, v)
    if durations and rng.random() < 0.08:
        return unsolved(rng, stream_case(rng, v, [1], [1.0], durations))  # no other value follows
    case = stream_case(rng, v, widths, coefficients, durations)
    if case["gv_on"] and durations and rng.random() < 0.2:
        return unsolved(rng, case)
    return with_variances(rng, case, CLAMPING, rng.choice([0.0, 0.0, 0.0, 0.1, 0.3, 1.0]))


def stream_case(
    rng: Random, v: int, widths: list[int], coefficients: list[float], durations: list[int]
) -> Case:
    """Any stream of such a shape."""
    states = len(durations)
    masked = rng.choice([0, 1, 1, 1, 0x80000000])
    gv_on = rng.choice([0, 0, 1, 1, 0x100])
    threshold = threshold_for(rng)
    tone = mood(rng)
    weights = voicing(rng, states, threshold)
    records: list[float] = []
    for state in range(states):
        count = len(widths) * v
        records += numbers(rng, tone, count, 3.0) + positives(rng, tone, count, 2.0)
        records += [weights[state]] if masked else []
    switches = switches_for(rng, states)
    frames = sum(durations)
    return Case("trajectory", {
        "v": v,
        "masked": masked,
        "threshold": threshold,
        "fill": rng.choice([-1e10, 0.0, -0.0, NAN, special(rng)]),
        "gv_on": gv_on,
        "gv_weight": rng.choice([1.0, 1.0, 0.8, number(rng, tone)]),
        "widths": widths,
        "coefficients": coefficients,
        "records": records,
        "durations": durations,
        "gv": positives(rng, tone, 2 * v) if gv_on or rng.random() < 0.5 else [],
        "switches": switches if gv_on or rng.random() < 0.5 else b"",
        "out": room(rng, frames * v),
        "work": room(rng, WORK_FLOATS * frames),
        "marks": room(rng, WORK_MARKS * frames),
    })
