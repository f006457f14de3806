"""Chapters: alignments of up to 4,096 labels, whose ends are running sums of random lengths."""

import math
from collections.abc import Callable, Iterator
from random import Random

from ..formats import Case
from ..numbers import LENGTHS, neighbours, special
from ..reading.ieee import MAX_FRAMES, NAN
from ..reading.refusals import MAX_STATES
from .common import room
from .durations import duration_pairs
from .tails import FAR_ENDS, OPEN_ENDS

# Chapters of more labels have wild numbers in few of them, or most would be refused.
FEW_LABELS = 12


def label_count(rng: Random, most: int) -> int:
    """Mostly few, so that cases are quick; in some cases as many as there may be."""
    shape = rng.random()
    if shape < 0.6:
        return rng.randint(1, FEW_LABELS)
    if shape < 0.9:
        return rng.randint(min(most, FEW_LABELS + 1), min(most, 60))
    if shape < 0.985:
        return rng.randint(min(most, 61), min(most, 300))
    return rng.choice([most, rng.randint(min(most, 301), most)])


def whole(rng: Random, size: float) -> int:
    """A whole number, 0 too, of about this size."""
    return rng.randint(0, max(1, round(2 * size)))


# Lengths of labels in frames, of about this size; the time is summed in floats, as an editor's program would do it.
Lengths = Callable[[Random, float], Iterator[float]]


def all_alike(rng: Random, size: float) -> Iterator[float]:
    length = rng.choice([round(10 * size) / 10, whole(rng, size) + 0.5, whole(rng, size) + rng.choice([0.4, 0.6]), size])
    while True:
        yield length


def on_a_grid(parts: int) -> Lengths:
    """So many parts a frame: the sum of fifths is that of whole milliseconds at 5 ms a frame."""

    def lengths(rng: Random, size: float) -> Iterator[float]:
        while True:
            yield whole(rng, parts * size) / parts

    return lengths


def anywhere(rng: Random, size: float) -> Iterator[float]:
    while True:
        yield rng.uniform(0.0, 2 * size)


def tiny(rng: Random, size: float) -> Iterator[float]:
    """Runs of less than half a frame, in which the total runs ahead, and then one that is long enough to catch up."""
    while True:
        run = rng.randint(1, 9)
        yield from (rng.choice([0.0, 0.25, 1e-9, rng.uniform(0.0, 0.5)]) for _ in range(run))
        yield rng.choice([0.5, 1.0, run / 2, run * size, 2 * run * size]) + rng.choice([0.0, 0.5, rng.random()])


def nothing(rng: Random, size: float) -> Iterator[float]:
    """Lengths of 0, and here and there a whole one."""
    while True:
        yield 0.0 if rng.random() < 0.7 else float(whole(rng, 2 * size))


SUMMED: list[Lengths] = [
    all_alike, on_a_grid(2), on_a_grid(2), on_a_grid(3), on_a_grid(5), on_a_grid(10), anywhere, tiny, tiny, nothing,
]


def summed(rng: Random, labels: int, size: float) -> list[float]:
    lengths, time, times = rng.choice(SUMMED)(rng, size), 0.0, []
    for _ in range(labels):
        time += next(lengths)
        times.append(time)
    return times


def counted(rng: Random, labels: int, size: float) -> list[float]:
    """Times in whole milliseconds, samples or units of 100 ns, summed exactly, and turned into frames at the end."""
    parts = rng.choice([2, 5, 80, 50_000])
    time, times = 0, []
    for _ in range(labels):
        time += whole(rng, parts * size)
        times.append(rng.choice([time / parts, time * (1.0 / parts)]))
    return times


def in_seconds(rng: Random, labels: int, size: float) -> list[float]:
    """Seconds summed in floats, at 200 frames a second: many are a bit or two beside a half."""
    time, times, into_frames = 0.0, [], rng.choice([lambda time: time * 200.0, lambda time: time / 0.005])
    for _ in range(labels):
        time += whole(rng, 2 * size) * 0.0025
        times.append(into_frames(time))
    return times


def frames_of(end: float, at_least: int) -> int:
    """The total at an end, to put the next ones around."""
    return max(math.floor(end) + (end - math.floor(end) >= 0.5), at_least)


# Changes an end, of a group with so many frames before it and so many states.
Change = Callable[[Random, float, int, int], float]


def as_it_comes(rng: Random, end: float, before: int, states: int) -> float:
    return end


def beside_a_half(rng: Random, end: float, before: int, states: int) -> float:
    return rng.choice(neighbours(math.floor(end) + 0.5))


def beside_a_frame(rng: Random, end: float, before: int, states: int) -> float:
    return abs(rng.choice(neighbours(float(round(end)))))


def around_the_count(rng: Random, end: float, before: int, states: int) -> float:
    """The target is the group's states, one more or one less."""
    return before + states + rng.choice([-1.0, -0.5, 0.0, 0.25, *neighbours(0.5), 1.0, 1.5])


def backward(rng: Random, end: float, before: int, states: int) -> float:
    return abs(end - rng.choice([0.5, 1.0, 2.0 * states, rng.uniform(0.0, 20.0), end]))


def at_nothing(rng: Random, end: float, before: int, states: int) -> float:
    return rng.choice([-0.0, -0.0, 0.0, 5e-324, 1e-300, 0.49999999999999994])


CHANGES: list[Change] = [beside_a_half, beside_a_half, beside_a_frame, around_the_count, around_the_count, backward, at_nothing]


def ends_for(rng: Random, times: list[float], nstate: int) -> list[float]:
    """The times, some of them open, some moved to where a rule turns."""
    open_share = rng.choice([0.0, 0.0, 0.0, 0.1, 0.5, 0.9])
    changed_share = rng.choice([0.0, 0.0, 0.1, 0.5])
    changes = rng.choice([CHANGES, [beside_a_half], [around_the_count], [as_it_comes]])
    ends, before, first = [], 0, 0
    for label, end in enumerate(times):
        if rng.random() < open_share:
            ends.append(rng.choice(OPEN_ENDS))
            continue
        states = (label + 1) * nstate - first
        if rng.random() < changed_share:
            end = rng.choice(changes)(rng, end, before, states)
        ends.append(end)
        before, first = frames_of(end, before + states), first + states
    if rng.random() < 0.03:
        ends[rng.randrange(len(ends))] = rng.choice([special(rng), *LENGTHS, *FAR_ENDS])
    return ends


def variances(rng: Random, count: int) -> list[float]:
    """All of one sort: with none of them is an estimate far from its target."""
    return rng.choice([
        lambda: [rng.uniform(0.3, 4.0) for _ in range(count)],
        lambda: [1.0] * count,
        lambda: [rng.choice([0.5, 1.0, 2.0]) for _ in range(count)],
        lambda: [-rng.uniform(0.3, 4.0) for _ in range(count)],
        lambda: [rng.choice([0.0, -0.0]) for _ in range(count)],
        lambda: [rng.choice([0.0, 1.0]) for _ in range(count)],
        lambda: [rng.choice([1e19, 1e300, 1.7e308]) for _ in range(count)],
        lambda: [rng.choice([1e-19, 5e-324, 1e-300]) for _ in range(count)],
        lambda: [NAN] * count,
        lambda: [math.inf] * count,
    ])()


def means(rng: Random, count: int, size: float) -> list[float]:
    return rng.choice([
        lambda: [rng.uniform(0.5, 2 * size) for _ in range(count)],
        lambda: [2.0] * count,
        lambda: [rng.randint(1, 60) / 10 for _ in range(count)],
        lambda: [float(whole(rng, size)) for _ in range(count)],
        lambda: [rng.choice([0.0, -3.0, 2.5]) for _ in range(count)],
        lambda: [size * rng.choice([1.0, 10.0]) for _ in range(count)],
    ])()


ODD_NUMBERS = [0.0, -0.0, -1.0, -4.0, 1e-300, 1e19, 1e300, -1e300, NAN, math.inf, 0.5, 100.0]


def pairs(rng: Random, labels: int, nstate: int, size: float) -> tuple[list[float], list[float]]:
    """Means and variances of many sorts, so that the fits are as different as they can be."""
    count = labels * nstate
    if labels <= FEW_LABELS and rng.random() < 0.3:
        return duration_pairs(rng, count)
    lists = means(rng, count, size / nstate), variances(rng, count)
    if rng.random() < 0.5:
        for _ in range(rng.randint(1, 4)):
            rng.choice(lists)[rng.randrange(count)] = rng.choice(ODD_NUMBERS)
    return lists


def chapter_case(rng: Random, small: bool) -> Case:
    nstate = rng.choice([1, 1, 1, 2, 3, 4, 5, 6, 7])
    labels = rng.randint(1, 3) if small else label_count(rng, MAX_STATES // nstate)
    size = nstate * rng.choice([0.4, 1.0, 1.3, 2.0, 2.0, 3.0, 5.0, 8.0, 15.0])
    # In all about as many frames as there may be, at most; in a few cases more than that.
    size = min(size, 0.9 * MAX_FRAMES / labels)
    if rng.random() < 0.03:
        size = rng.uniform(0.97, 1.2) * MAX_FRAMES / labels
    times = rng.choice([summed, summed, summed, counted, in_seconds])(rng, labels, size)
    means, varis = pairs(rng, labels, nstate, size)
    return Case("chapter", {
        "means": means,
        "varis": varis,
        "shortest": [1] * (labels * nstate),
        "nstate": nstate,
        "ends": ends_for(rng, times, nstate),
        "out": room(rng, labels * nstate),
        "work": room(rng, labels * nstate),
    })
