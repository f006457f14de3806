"""Shortest durations around every limit, and targets around their sums. Cases are made with ones; half of them keep these."""

import struct
from collections.abc import Callable
from random import Random

from ..formats import Case
from ..numbers import neighbours
from ..reading import ieee, jobs
from ..reading.ieee import MAX_FRAMES
from .tails import frames_before

ONES_SHARE = 0.5
# Of the jobs of the second version; as many are of the first.
ONES_IN_JOBS_SHARE = 0.25

# Lists that are refused, some of whose numbers or sums are small in 16, 24 or 32 bits.
TOO_LONG = [
    [MAX_FRAMES + 1], [MAX_FRAMES, 1], [1, MAX_FRAMES], [2**16, 2**16], [2**16 + 1, 2**16 + 1], [2**15, 2**15, 1],
    [2**31], [2**31, 2**31], [2**31, 2**31, 1], [2**32 - 1], [2**32 - 1, 1], [2**32 - 1, 2], [2**32 - 1, 3, 2], [1, 2**32 - 1],
    [2**32 - 2**16, 2**16], [2**32 - 1, 2**32 - 1], [2**31, 2**31 + 5], [2**30, 2**30, 2**30, 2**30 + 7],
    [2**24 + 1], [2**24 + 3, 2], [1, 2**24 + 2], [2**31 + 1], [3, 2**30 + 2],
]

# Shortest durations for states whose estimates with rho 0 are given.
Shape = Callable[[Random, list[int]], list[int]]


def small(rng: Random, natural: list[int]) -> list[int]:
    most = rng.choice([2, 3, 6, 12])
    return [rng.choice([1, rng.randint(1, most)]) for _ in natural]


def all_alike(rng: Random, natural: list[int]) -> list[int]:
    return [rng.choice([1, 2, 2, 3, 5])] * len(natural)


def around_the_estimates(rng: Random, natural: list[int]) -> list[int]:
    """Below an estimate, just at it, or above."""
    away = rng.choice([[0], [-1, 0, 1], [-2, -1, 0, 0, 1, 2], [1, 2, 5]])
    return [max(1, frames + rng.choice(away)) for frames in natural]


def all_but_one(rng: Random, natural: list[int]) -> list[int]:
    """Every state at its estimate, but for one that may give frames."""
    free = rng.randrange(len(natural))
    return [1 if state == free else frames for state, frames in enumerate(natural)]


def one_large(rng: Random, natural: list[int]) -> list[int]:
    shortest = small(rng, natural)
    shortest[rng.randrange(len(natural))] = rng.choice([7, 20, 100, 1_000, 30_000, rng.randint(2, 400)])
    return shortest


def to_the_limit(rng: Random, natural: list[int]) -> list[int]:
    """So long that their sum is about 65,536: one of them, or all alike."""
    count, total = len(natural), MAX_FRAMES + rng.choice([-100, -7, -2, -1, -1, 0, 0, 0, 1, 1, 2])
    shortest = small(rng, natural) if rng.random() < 0.6 else [total // count] * count
    state = rng.randrange(count)
    shortest[state] += total - sum(shortest)
    return shortest


def with_zeros(rng: Random, natural: list[int]) -> list[int]:
    """First, last, somewhere or everywhere, in some cases with a sum that is refused too."""
    shortest = rng.choice([small, small, around_the_estimates, to_the_limit])(rng, natural)
    for state in rng.choice([[0], [-1], [rng.randrange(len(natural))], range(len(natural))]):
        shortest[state] = 0
    return shortest


def too_long(rng: Random, natural: list[int]) -> list[int]:
    """Numbers that overflow, with ones among them."""
    numbers = rng.choice(TOO_LONG)[: len(natural)]
    shortest = numbers + [1] * (len(natural) - len(numbers))
    if rng.random() < 0.5:
        rng.shuffle(shortest)
    return shortest


SHAPES: list[Shape] = [
    *[small, around_the_estimates] * 4,
    *[all_alike, all_but_one, one_large, to_the_limit, with_zeros, too_long] * 2,
]


def natural_frames(means: list[float]) -> list[int]:
    """Estimates with rho 0; where one is longer than an utterance the case is refused, whatever stands here."""
    frames = [ieee.frames(mean) for mean in means]
    return [1 if number > MAX_FRAMES else number for number in frames]


def lists_for(rng: Random, means: list[float]) -> list[int]:
    natural = natural_frames(means)
    return rng.choice(SHAPES)(rng, natural) if natural else []


def length_near(rng: Random, shortest: list[int], natural: int) -> float:
    """Around the sum of the shortest, above it by some frames, or on the way from the estimates down to it."""
    least = sum(shortest)
    return rng.choice([
        lambda: least + rng.choice([-1.0, -0.5, 0.0, 0.25, *neighbours(0.5), 1.0, 1.5, 2.0]),
        lambda: float(least + rng.randint(1, 30)),
        lambda: float(rng.randint(min(least, natural), max(least, natural))),
    ])()


def natural_total(means: list[float], shortest: list[int]) -> int:
    return sum(map(max, shortest, natural_frames(means)))


def varied_fit(rng: Random, case: Case) -> Case:
    shortest = lists_for(rng, case["means"])
    if shortest and rng.random() < 0.6:
        case = case.with_fields(length=length_near(rng, shortest, natural_total(case["means"], shortest)))
    return case.with_fields(shortest=shortest)


def speed_near(rng: Random, means: list[float], shortest: list[int]) -> float:
    """One at which the fit's length is such a one."""
    natural = natural_total(means, shortest)
    return ieee.divide(float(natural), length_near(rng, shortest, natural))


def varied_speed(rng: Random, case: Case) -> Case:
    shortest = lists_for(rng, case["means"])
    if shortest and rng.random() < 0.6:
        case = case.with_fields(speed=speed_near(rng, case["means"], shortest))
    return case.with_fields(shortest=shortest)


def later_ends(ends: list[float], nstate: int, shortest: list[int]) -> list[float]:
    """Each given end as much later as the states so far are longer than one frame: where a target was just the number of
    its group's states, it is just the sum of their shortest."""
    later, ahead = [], 0
    for label, end in enumerate(ends):
        ahead += sum(shortest[label * nstate : (label + 1) * nstate]) - nstate
        later.append(end + ahead if end >= 0 else end)
    return later


def tail_to_the_limit(rng: Random, case: Case) -> Case:
    """The groups and the shortest of the last state, which an end may have or not, are as long as an utterance may be."""
    shortest, means = list(case["shortest"]), case["means"]
    natural = natural_frames(means)
    first = max((label for label, end in enumerate(case["ends"], 1) if end >= 0), default=0) * case["nstate"]
    before = frames_before(case) + sum(map(max, shortest[first:-1], natural[first:-1]))
    shortest[-1] = max(1, min(2**32 - 1, MAX_FRAMES - before + rng.choice([-1, 0, 0, 1, 1])))
    return case.with_fields(shortest=shortest)


def varied_alignment(rng: Random, case: Case) -> Case:
    shortest = lists_for(rng, case["means"])
    case, shape = case.with_fields(shortest=shortest), rng.random()
    if shape < 0.55:
        case = case.with_fields(ends=later_ends(case["ends"], case["nstate"], shortest))
    return tail_to_the_limit(rng, case) if shortest and 0.5 < shape < 0.6 else case


def second_version(speed: bytes, pairs: list[bytes], shortest: list[int]) -> bytes:
    head = jobs.MARK + struct.pack("<HH", jobs.SHORTEST_VERSION, len(pairs)) + speed
    return head + b"".join(pair + struct.pack("<I", frames) for pair, frames in zip(pairs, shortest))


def varied_job(rng: Random, case: Case) -> Case:
    """The job of the second version, with ones or with other shortest durations."""
    data = case["bytes"]
    speed, pairs = data[7 : jobs.HEAD], [data[at : at + jobs.PAIR] for at in range(jobs.HEAD, len(data), jobs.PAIR)]
    means = [struct.unpack_from("<d", pair)[0] for pair in pairs]
    shortest = [1] * len(pairs) if rng.random() < ONES_IN_JOBS_SHARE else lists_for(rng, means)
    if shortest and rng.random() < 0.5:
        speed = struct.pack("<d", speed_near(rng, means, shortest))
    return case.with_fields(bytes=second_version(speed, pairs, shortest))


VARIED: dict[str, Callable[[Random, Case], Case]] = {
    "fit": varied_fit,
    "speed": varied_speed,
    "align": varied_alignment,
    "chapter": varied_alignment,
    "job": varied_job,
}


def varied(rng: Random, case: Case) -> Case:
    """The case with other shortest durations than ones, in half of the cases."""
    return VARIED[case.kind](rng, case) if case.kind in VARIED and rng.random() >= ONES_SHARE else case
