"""RULES, Durations, no drift: the claim, checked on the durations of a chapter over whole numbers alone.

Nothing of the reading is used: an end is a fraction, and rounding is a division of whole numbers. So an answer is held to
the claim by itself, whoever gave it.
"""

from collections.abc import Iterator
from dataclasses import dataclass
from fractions import Fraction
from functools import cached_property


class Drift(Exception):
    """A given end at which the claim doesn't hold."""

    def __init__(self, label: int, what: str):
        super().__init__(f"label {label}, counted from 0: {what}")
        self.label = label


@dataclass
class Held:
    """What was seen in chapters of which the claim holds."""

    chapters: int = 0
    longest: int = 0  # in labels
    ends: int = 0
    short: int = 0  # ends whose target is not above the shortest of the group's states together: the premise fails
    again: int = 0  # ends with the premise though the end before is without
    ties: int = 0  # ends in the middle between two frames
    farthest: Fraction = Fraction(0)  # twice the distance from the end to the total, where the premise holds

    def add(self, other: "Held") -> None:
        for name in ("chapters", "ends", "short", "again", "ties"):
            setattr(self, name, getattr(self, name) + getattr(other, name))
        self.longest = max(self.longest, other.longest)
        self.farthest = max(self.farthest, other.farthest)

    def __str__(self) -> str:
        chapters = f"{self.chapters} chapters without drift, the longest of {self.longest} labels"
        ends = f"{self.ends} given ends, {self.short} without the premise, {self.again} right again behind such, {self.ties} ties"
        far = f"{self.farthest.numerator}/{self.farthest.denominator}"
        return f"{chapters}: {ends}; twice the distance at most {far}"


def half_up(number: int, parts: int) -> int:
    """The fraction number / parts rounded, a half up."""
    return (2 * number + parts) // (2 * parts)


def target_of(number: int, parts: int) -> int:
    """The target of the length number / parts: rounded, a half away from zero, and at least 1."""
    return max(1, half_up(number, parts) if number >= 0 else -half_up(-number, parts))


@dataclass(frozen=True)
class Group:
    """The states that a given end closes, with the totals before them and at their end."""

    label: int
    end: float
    shortest: int  # of its states together
    before: int
    total: int

    @cached_property
    def fraction(self) -> tuple[int, int]:
        """The end: a whole number of parts, and how many parts a frame has."""
        return self.end.as_integer_ratio()

    def length(self) -> tuple[int, int]:
        """The end less the frames before, as it is."""
        number, parts = self.fraction
        return number - self.before * parts, parts

    def subtracted(self) -> tuple[int, int]:
        """The same by floats, whose difference is rounded."""
        return (self.end - float(self.before)).as_integer_ratio()

    @cached_property
    def target(self) -> int:
        return target_of(*self.length())

    def meets_premise(self) -> bool:
        return self.target > self.shortest

    def distance(self) -> tuple[int, int]:
        """Twice that from the end to the total."""
        number, parts = self.fraction
        return 2 * abs(self.total * parts - number), parts

    def is_tie(self) -> bool:
        number, parts = self.fraction
        return 2 * (number % parts) == parts

    def is_exact(self) -> bool:
        """By floats the target is the same, and so is the length, unless the end lies before the frames so far."""
        (number, parts), (other, other_parts) = self.length(), self.subtracted()
        same = number * other_parts == other * parts
        return target_of(other, other_parts) == self.target and (same or number < 0)

    def wrong(self) -> str:
        """What is not as claimed, nothing where all is."""
        rounded, shortest = half_up(*self.fraction), self.before + self.shortest
        due = rounded if self.meets_premise() else shortest
        distance, parts = self.distance()
        if not self.is_exact():
            return f"its length is {self.length()}, by floats {self.subtracted()}"
        if due != max(rounded, shortest) or self.meets_premise() != (rounded > shortest):
            return f"the target {self.target} says {due}, and not the larger of {rounded} and {shortest}"
        if self.total != due:
            return f"the total is {self.total}, and should be {due}"
        if self.meets_premise() and distance > parts:
            return f"twice the distance of the total {self.total} is {distance}/{parts}"
        return ""

    def __str__(self) -> str:
        number, parts = self.fraction
        return f"its end is {number}/{parts}, {self.before} frames are before its group of at least {self.shortest}"


def groups(nstate: int, ends: list[float], shortest: list[int], durations: list[int]) -> Iterator[Group]:
    """A number below zero and NaN are no ends, -0 is one."""
    total = before = least = 0
    for label, end in enumerate(ends):
        states = slice(label * nstate, (label + 1) * nstate)
        total += sum(durations[states])
        least += sum(shortest[states])
        if end >= 0:
            if end == float("inf"):
                raise Drift(label, "its end is infinite, and it is accepted")
            yield Group(label, end, least, before, total)
            before, least = total, 0


def held(nstate: int, ends: list[float], shortest: list[int], durations: list[int]) -> Held:
    """Of a chapter that is accepted, with one duration a state; at the first end that is not as claimed Drift is raised."""
    if len(durations) != nstate * len(ends):
        raise Drift(len(ends), f"{len(durations)} durations of {len(ends)} labels with {nstate} states each")
    seen, was_short = Held(chapters=1, longest=len(ends)), False
    farthest, of_parts = 0, 1
    for group in groups(nstate, ends, shortest, durations):
        wrong = group.wrong()
        if wrong:
            raise Drift(group.label, f"{group}: {wrong}")
        is_short = not group.meets_premise()
        distance, parts = group.distance()
        if not is_short and distance * of_parts > farthest * parts:
            farthest, of_parts = distance, parts
        seen.ends += 1
        seen.short += is_short
        seen.again += was_short and not is_short
        seen.ties += group.is_tie()
        was_short = is_short
    seen.farthest = Fraction(farthest, of_parts)
    return seen
