"""RULES, One run alone, the claim: its numbers are the full trajectory's at its frames, zeros of either sign the same.

The premise is worked out by the reading: no GV, a first window of one coefficient, every pair of the voiced frames finite, and of
every run of the stream, solved by itself, every divisor finite and not zero and every value finite. Outside of it nothing is
claimed, and what differs is counted.
"""

import math
from dataclasses import dataclass
from functools import cached_property

from .formats import STREAM, Case
from .reading import alone, refusals, runs
from .reading.alone import Frame
from .reading.refusals import WORK_FLOATS, WORK_MARKS, band_width
from .reading.runs import Run
from .reading.trajectory import PATIENCE, factored

# Of a stream with more runs so many are asked of the C calls, from the first to the last.
MOST_ASKED = 256


class Unlike(Exception):
    """A number of a run alone that isn't the full trajectory's."""


@dataclass
class Held:
    """What was seen of runs beside the full trajectory."""

    streams: int = 0
    inside: int = 0  # the premise, and all alike
    zeros: int = 0  # of these, runs with a zero of the other sign
    outside: int = 0
    unlike: int = 0  # of these, runs with another number

    def add(self, other: "Held") -> None:
        for name in ("streams", "inside", "zeros", "outside", "unlike"):
            setattr(self, name, getattr(self, name) + getattr(other, name))

    def __str__(self) -> str:
        inside = f"{self.inside} inside the premise, {self.zeros} of them with a zero of the other sign"
        return f"{self.streams} streams, {inside}, {self.outside} outside, {self.unlike} of them unlike"


@dataclass(frozen=True)
class Stream:
    """One whose runs can each be had alone."""

    case: Case

    @cached_property
    def runs(self) -> list[Run]:
        return runs.runs_of(self.case)

    def whole(self) -> Case:
        """The full trajectory of the same inputs."""
        fields = {name: self.case[name] for name, _ in STREAM}
        return Case("trajectory", fields | self.rooms(sum(self.case["durations"])))

    def part(self, number: int) -> Case:
        """One run alone, with lists that are just as long as it wants them."""
        return self.case.with_fields(run=number, **self.rooms(self.runs[number].frames))

    def rooms(self, frames: int) -> dict[str, int]:
        return {"out": frames * self.case["v"], "work": frames * WORK_FLOATS, "marks": frames * WORK_MARKS}

    def asked(self) -> list[int]:
        """The runs that the C calls are asked for."""
        count = len(self.runs)
        if count <= MOST_ASKED:
            return list(range(count))
        return sorted({place * (count - 1) // (MOST_ASKED - 1) for place in range(MOST_ASKED)})

    @cached_property
    def frames(self) -> list[list[Frame]]:
        """Of each run."""
        frames = alone.frames_of(self.case)
        return [alone.own(frames, run) for run in self.runs]

    @cached_property
    def numbers(self) -> list[list[float]]:
        """The reading's numbers of each run."""
        return [alone.numbers_of(self.case, frames) for frames in self.frames]

    @cached_property
    def meets_premise(self) -> bool:
        return all(map(self.is_finite, self.frames, self.numbers))

    def is_finite(self, frames: list[Frame], numbers: list[float]) -> bool:
        pairs = [number for means, varis in frames for number in (*means, *varis)]
        return all(map(math.isfinite, pairs)) and all(map(math.isfinite, numbers)) and self.divides(frames)

    def divides(self, frames: list[Frame]) -> bool:
        """Whether no divisor of these frames, solved by themselves, is zero, infinite or NaN."""
        components = [factored(alone.equations(self.case, frames, component)[0]) for component in range(self.case["v"])]
        return all(math.isfinite(row[0]) and row[0] != 0 for rows in components for row in rows)


def stream_of(case: Case) -> Stream | None:
    """None where no run would be handed out, or where the reading would take too long."""
    frames = sum(case["durations"])
    whole = case.with_fields(run=0, out=frames * case["v"], work=frames * WORK_FLOATS, marks=frames * WORK_MARKS)
    if refusals.before_work(whole) != 0:
        return None
    is_long = frames * case["v"] * band_width(case["widths"]) ** 2 > PATIENCE
    return None if is_long else Stream(case)


def same(a: float, b: float) -> bool:
    """Zeros of either sign are, and all NaNs."""
    return a == b or a != a and b != b


def is_other_zero(a: float, b: float) -> bool:
    return a == b == 0 and math.copysign(1.0, a) != math.copysign(1.0, b)


def held(stream: Stream, parts: dict[int, list[float]], whole: list[float]) -> Held:
    """Runs by their numbers, each beside its frames of the full trajectory; at the first that breaks the claim Unlike is raised."""
    seen, v = Held(streams=1), stream.case["v"]
    for number, given in parts.items():
        first, frames = stream.runs[number]
        full = whole[first * v : (first + frames) * v]
        if len(given) != len(full):
            raise Unlike(f"run {number} of frames {first} to {first + frames - 1}: {len(given)} numbers, not {len(full)}")
        unlike = next((place for place, (a, b) in enumerate(zip(given, full)) if not same(a, b)), None)
        if not stream.meets_premise:
            seen.outside += 1
            seen.unlike += unlike is not None
        elif unlike is None:
            seen.inside += 1
            seen.zeros += any(map(is_other_zero, given, full))
        else:
            place = f"run {number} of frames {first} to {first + frames - 1}, component {unlike % v} of its frame {unlike // v}"
            raise Unlike(f"{place}: alone {given[unlike]!r}, in full {full[unlike]!r}")
    return seen
