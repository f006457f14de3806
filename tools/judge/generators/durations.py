"""Fits, speeds and alignments; `shortest` gives their states other shortest durations than 1."""

import math
from random import Random
from typing import NamedTuple

from ..formats import Case
from ..numbers import LENGTHS, mood, numbers, positives, special
from ..reading.ieee import MAX_FRAMES
from . import tails
from .common import room, state_count
from .tails import OPEN_ENDS


def long_pairs(rng: Random, count: int) -> tuple[list[float], list[float]]:
    """Means whose total is near the limit on frames."""
    total = MAX_FRAMES + rng.randint(-2, 2)
    cuts = sorted(rng.randint(0, total) for _ in range(count - 1))
    means = [float(b - a) for a, b in zip([0, *cuts], [*cuts, total])]
    return means, [rng.choice([0.0, 0.5, 1.0, 2.0]) for _ in range(count)]


def duration_pairs(rng: Random, count: int) -> tuple[list[float], list[float]]:
    if count and rng.random() < 0.06:
        return long_pairs(rng, count)
    if rng.random() < 0.2:
        # Equal variances put estimates on halves, where the last bit of rho decides.
        return positives(rng, "decimal", count), [rng.choice([0.1, 0.3, 1.0, 1.0])] * count
    tone = mood(rng)
    means = positives(rng, tone, count)
    varis = positives(rng, tone, count) if rng.random() < 0.8 else numbers(rng, tone, count)
    if rng.random() < 0.1:
        varis = [rng.choice([0.0, -0.0])] * count
    return means, varis


def natural_total(means: list[float]) -> float:
    return float(sum(max(1, round(mean)) if abs(mean) < 1e6 else 1 for mean in means))


def lengths_on_halves(means: list[float], vari: float) -> list[int]:
    """Lengths at which an estimate is within a few bits of a half, the variances being equal."""
    count, total = len(means), sum(means)

    def from_half(target: int, mean: float) -> float:
        estimate = mean + (target - total) / (count * vari) * vari
        return abs(estimate - math.floor(estimate) - 0.5)

    return [t for t in range(count + 1, count + 40) if any(from_half(t, mean) < 1e-9 for mean in means)]


def length_for(rng: Random, means: list[float], varis: list[float]) -> float:
    count, total = len(means), natural_total(means)
    if count == 0:
        return rng.choice([special(rng), *LENGTHS])  # an empty list answers whatever the length
    if total > 60_000 and rng.random() < 0.8:
        return rng.choice([*LENGTHS, total - 1, total - 0.5, total, total + 0.5, total + 1])
    if varis in ([0.1] * count, [0.3] * count, [1.0] * count) and all(abs(mean) < 100 for mean in means):
        halves = lengths_on_halves(means, varis[0])
        if halves:
            return float(rng.choice(halves))
    return rng.choice([
        lambda: total + rng.randint(-3, 6),
        lambda: total + rng.randint(-3, 6) + 0.5,
        lambda: total * rng.uniform(0.3, 3.0),
        lambda: count + rng.choice([-1.0, 0.0, 0.4, 0.49999999999999994, 0.5, 1.0, 1.5, 2.0]),
        lambda: float(count + rng.randint(0, 40)),
        lambda: special(rng),
        lambda: rng.choice(LENGTHS) if rng.random() < 0.1 else total,
    ])()


def fit_case(rng: Random, small: bool) -> Case:
    count = state_count(rng, small)
    means, varis = duration_pairs(rng, count)
    return Case("fit", {
        "means": means,
        "varis": varis,
        "shortest": [1] * count,
        "length": length_for(rng, means, varis),
        "out": room(rng, count),
        "work": room(rng, count),
    })


def speed_case(rng: Random, small: bool) -> Case:
    count = state_count(rng, small)
    means, varis = duration_pairs(rng, count)
    total = natural_total(means)
    speed = rng.choice([
        lambda: 1.0,
        lambda: rng.choice([0.5, 2.0, 4.0, 0.25, 1.0000000000000002, 0.9999999999999999]),
        lambda: rng.uniform(0.3, 3.0),
        lambda: total / (length_for(rng, means, varis) or 1.0),
        lambda: special(rng),
    ])()
    return Case("speed", {
        "means": means,
        "varis": varis,
        "shortest": [1] * count,
        "speed": speed,
        "out": room(rng, count),
        "work": room(rng, count),
    })


def ends_for(rng: Random, means: list[float], nstate: int) -> list[float]:
    """An end a label: some given and near the natural times, some open, some absurd."""
    labels = len(means) // nstate
    if labels > 2 and rng.random() < 0.05:
        # The running total is above the limit before an end is too far.
        return [1000.0, 66000.0, math.inf] + [rng.choice(OPEN_ENDS) for _ in range(labels - 3)]
    given = rng.choice([0.0, 0.5, 0.8, 0.8, 1.0, 1.0])
    ends, time = [], 0.0
    for label in range(labels):
        time += natural_total(means[label * nstate : (label + 1) * nstate])
        if rng.random() >= given:
            ends.append(rng.choice(OPEN_ENDS))
        elif rng.random() < min(0.06, 0.5 / labels):
            ends.append(rng.choice([-0.0, 0.0, special(rng), *LENGTHS]))
        else:
            ends.append(time + rng.choice([0.0, 0.5, -0.5, rng.uniform(-3.0, 3.0), float(rng.randint(-3, 8))]))
    return ends


def align_case(rng: Random, small: bool) -> Case:
    labels = 0 if rng.random() < 0.02 else rng.choice([1, 2, 2, 3, 3, 4, 5])
    nstate = rng.choice([1, 1, 2, 3]) if small or rng.random() < 0.9 else rng.choice([5, 15, 16])
    if not small and rng.random() < 0.008:
        labels, nstate = rng.choice([(256, 16), (4096, 1), (819, 5)])
    means, varis = duration_pairs(rng, labels * nstate)
    case = Case("align", {
        "means": means,
        "varis": varis,
        "shortest": [1] * (labels * nstate),
        "nstate": nstate,
        "ends": ends_for(rng, means, nstate),
        "out": room(rng, labels * nstate),
        "work": room(rng, labels * nstate),
    })
    return tails.opened(rng, case) if labels and rng.random() < 0.4 else case


# As many costs a gap may take to fit: what the reading works out in some milliseconds.
GAP_COSTS = 4_000


class Gap(NamedTuple):
    """States, the total of their estimates with rho 0, and a target with many steps between them, most with ties."""

    means: list[float]
    varis: list[float]
    shortest: list[int]
    natural: float
    target: int


def gap_states(rng: Random, count: int) -> Gap:
    return gap_of_ones(rng, count) if rng.random() < 0.6 else gap_at_the_shortest(rng, count)


def gap_of_ones(rng: Random, count: int) -> Gap:
    steps = rng.randint(0, max(20, GAP_COSTS // count))
    varis = rng.choice([[1.0], [0.5, 1.0, 2.0], [1.0, 1.0, -1.0], [0.0, 1.0]])
    if rng.random() < 0.3:
        varis = [rng.uniform(0.5, 20.0) for _ in range(count)]
    if rng.random() < 0.3:
        # Without variances rho is infinite or NaN, every estimate 1, and all costs are equal.
        means = positives(rng, "tied", count)
        return Gap(means, [0.0] * count, [1] * count, natural_total(means), count + steps)
    # Every other state is estimated too long: the means of the short ones make rho 0.
    long = (count + 1) // 2
    each = steps // long + rng.randint(2, 4)
    short = 1.0 - steps / max(count - long, 1)
    means = [float(each) if state % 2 == 0 else short for state in range(count)]
    rng.shuffle(means)
    target = long * each + count - long - steps
    return Gap(means, [rng.choice(varis) for _ in range(count)], [1] * count, natural_total(means), target)


def gap_at_the_shortest(rng: Random, count: int) -> Gap:
    """Only few states are above their shortest, in many cases one, and all frames too many are theirs to give."""
    steps = rng.randint(0, max(20, GAP_COSTS // count))
    shortest = [rng.choice([1, 2, 2, 3, rng.randint(1, 9)]) for _ in range(count)]
    if rng.random() < 0.2:
        # Without variances every state starts at its shortest, or at a frame more or less than that.
        means = [float(number + rng.choice([-1, 0, 0, 1])) for number in shortest]
        natural = sum(map(max, shortest, means))
        return Gap(means, [0.0] * count, shortest, natural, sum(shortest) + max(1, steps))
    free = rng.sample(range(count), min(count, rng.choice([1, 1, 2, 3, max(1, count // 4)])))
    # The target is some frames above the sum of the shortest, or just one, and the estimates so many steps above that.
    left = rng.choice([1, 1, 2, rng.randint(1, 20)])
    frames = list(shortest)
    for step in range(steps + left):
        frames[rng.choice(free) if step >= len(free) else free[step]] += 1
    # The others would be shorter, were it not for their shortest: by so much that rho is 0.
    others = max(1, count - len(free))
    means = [float(number) if state in free else number - steps / others for state, number in enumerate(frames)]
    varis = rng.choice([[1.0], [0.5, 1.0, 2.0], [1.0, 1.0, -1.0], [rng.uniform(0.5, 20.0) for _ in range(8)]])
    return Gap(means, [rng.choice(varis) for _ in range(count)], shortest, float(sum(frames)), sum(shortest) + left)


def gap_count(rng: Random) -> int:
    return rng.randint(*rng.choice([(1, 12), (13, 24), (25, 40), (41, 200)]))


def gap_fit(rng: Random) -> Case:
    count = gap_count(rng)
    gap = gap_states(rng, count)
    lists = {"means": gap.means, "varis": gap.varis, "shortest": gap.shortest, "length": float(gap.target)}
    return Case("fit", {**lists, "out": room(rng, count), "work": room(rng, count)})


def gap_speed(rng: Random) -> Case:
    count = gap_count(rng)
    gap = gap_states(rng, count)
    lists = {"means": gap.means, "varis": gap.varis, "shortest": gap.shortest, "speed": gap.natural / gap.target}
    return Case("speed", {**lists, "out": room(rng, count), "work": room(rng, count)})


def gap_align(rng: Random) -> Case:
    """Some groups of labels, each closed by its last one, and in some cases a tail."""
    nstate = rng.choice([1, 2, 5, 16])
    means, varis, shortest, ends, time = [], [], [], [], 0
    for closed in [True] * rng.randint(1, 3) + [False] * rng.choice([0, 0, 1]):
        labels = -(-gap_count(rng) // nstate)
        gap = gap_states(rng, labels * nstate)
        time += gap.target
        means, varis, shortest = means + gap.means, varis + gap.varis, shortest + gap.shortest
        ends += [rng.choice(OPEN_ENDS) for _ in range(labels - 1)]
        ends.append(float(time) if closed else rng.choice(OPEN_ENDS))
    lists = {"means": means, "varis": varis, "shortest": shortest, "nstate": nstate, "ends": ends}
    return Case("align", {**lists, "out": room(rng, len(means)), "work": room(rng, len(means))})
