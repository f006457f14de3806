"""Alignments whose last labels are open: tails as they come, and tails around every limit."""

import math
from collections.abc import Callable
from random import Random

from ..formats import Case
from ..reading import ieee
from ..reading.ieee import MAX_FRAMES, NAN

OPEN_ENDS = [-1.0, -5e-324, NAN, -math.inf, -3.5]
FAR_ENDS = [65536.5, 65537.0, 1e300, math.inf]
ODD_MEANS = [NAN, -math.inf, 0.0, -0.0, -3.0, 0.49999999999999994, 0.5, 2.5]

# Changes an alignment whose first so many states have an end.
Change = Callable[[Random, Case, int], Case]


def near_limit(rng: Random) -> int:
    return MAX_FRAMES + rng.choice([-1, 0, 1])


def means_of(rng: Random, count: int, total: int) -> list[float]:
    """Means whose estimates have this total: all alike, or one of them long."""
    frames = [rng.choice([1, 2, total // count])] * (count - 1)
    frames.insert(rng.randrange(count), total - sum(frames))
    return [number - rng.choice([0.0, 0.25, 0.5]) for number in frames]  # halves are rounded up


def with_tail(case: Case, means: list[float]) -> Case:
    return case.with_fields(means=case["means"][: -len(means)] + means)


def frames_before(case: Case) -> int:
    """The running total at the last given end: a group has its target, or each state its shortest."""
    frames = states = 0
    for label, end in enumerate(case["ends"], 1):
        if end >= 0:
            frames += max(ieee.frames(end - frames), sum(case["shortest"][states : label * case["nstate"]]))
            states = label * case["nstate"]
    return frames


def as_it_comes(rng: Random, case: Case, fitted: int) -> Case:
    return case


def odd(rng: Random, case: Case, fitted: int) -> Case:
    """Means of the tail that are no lengths or on a half, in some cases infinite."""
    means = ODD_MEANS + rng.choice([[], [], [math.inf]])
    return with_tail(case, [rng.choice([mean, rng.choice(means)]) for mean in case["means"][fitted:]])


def long_alone(rng: Random, case: Case, fitted: int) -> Case:
    """The tail by itself is about as long as an utterance may be."""
    return with_tail(case, means_of(rng, len(case["means"]) - fitted, near_limit(rng)))


def long_with_groups(rng: Random, case: Case, fitted: int) -> Case:
    """The groups and a long tail are."""
    left = near_limit(rng) - frames_before(case)
    return with_tail(case, means_of(rng, len(case["means"]) - fitted, left))


def short_after_long(rng: Random, case: Case, fitted: int) -> Case:
    """One long group and a short tail are."""
    if fitted == 0:
        return case
    count, labels = len(case["means"]) - fitted, fitted // case["nstate"]
    tail = rng.randint(count, 3 * count)
    end = near_limit(rng) - tail
    return case.with_fields(
        means=means_of(rng, fitted, end) + means_of(rng, count, tail),
        varis=[rng.choice([0.5, 1.0, 2.0]) for _ in case["varis"]],
        ends=[rng.choice(OPEN_ENDS) for _ in range(labels - 1)] + [float(end)] + case["ends"][labels:],
    )


def refused_before(rng: Random, case: Case, fitted: int) -> Case:
    """The tail is too long, and before it the last end is too far or an estimate too long."""
    case = with_tail(case, means_of(rng, len(case["means"]) - fitted, MAX_FRAMES + 1))
    labels = fitted // case["nstate"]
    if labels and rng.random() < 0.5:
        return case.with_fields(ends=[*case["ends"][: labels - 1], rng.choice(FAR_ENDS), *case["ends"][labels:]])
    # Where variances cancel rho is infinite.
    return case.with_fields(varis=[(-1.0) ** state for state in range(len(case["varis"]))])


CHANGES: list[Change] = [as_it_comes, odd, long_alone, long_with_groups, short_after_long, refused_before]


def opened(rng: Random, case: Case) -> Case:
    """The alignment with its last labels open, or all."""
    ends = case["ends"]
    labels = rng.choice([0, len(ends) - 1, len(ends) - 1, rng.randrange(len(ends))])
    fitted = labels * case["nstate"]
    ends = ends[:labels] + [rng.choice(OPEN_ENDS) for _ in ends[labels:]]
    if labels and not ends[labels - 1] >= 0:
        ends[labels - 1] = 2.0 * fitted
    return rng.choice(CHANGES)(rng, case.with_fields(ends=ends), fitted)
