"""RULES, Houses, the claim: whatever calls the other house makes, a house's answers, refusals, free count and slots are the same.

What goes in is what the calls left, those of both houses and each house's alone, on the same table and with the same starts between
them. Nothing is worked out but who may see which numbers of a table, with none of the reading's code.
"""

from collections.abc import Iterator
from dataclasses import dataclass
from itertools import islice
from typing import NamedTuple

from .formats import TABLE_FREE, TABLE_START, TABLE_USE, Case, Fields, TableCall, table_calls, table_case

HOUSES = (0, 1)
COMMON = range(4)
OWN = {0: range(4, 8), 1: range(8, 12)}
# The numbers of a slot, and the slots of a table.
WIDTHS, COEFFICIENTS, SLOTS = 4, 60, 12


class Leak(Exception):
    """Something that a house sees of the other, or a slot that a house changes and doesn't own."""


@dataclass
class Held:
    """What was seen of houses alone."""

    tables: int = 0
    calls: int = 0  # of a house, made alone too
    others: int = 0  # that were left out then

    def add(self, other: "Held") -> None:
        for name in ("tables", "calls", "others"):
            setattr(self, name, getattr(self, name) + getattr(other, name))

    def __str__(self) -> str:
        return f"{self.tables} tables, {self.calls} calls of a house made alone too, {self.others} of others left out"


class Step(NamedTuple):
    """A call, its answer, both houses' free counts then, and the table's numbers before it and after it."""

    call: TableCall
    answer: list[int]  # the refusal and what was handed out
    free: list[int]
    before: list[int]
    after: list[int]


def is_heard(call: TableCall, house: int) -> bool:
    """A house's own calls, and the starts."""
    return call.call == TABLE_START or call.house == house


def alone(case: Case, house: int) -> Case:
    """The same table, without the calls of others."""
    calls = [one for one in table_calls(case) if is_heard(one, house)]
    return table_case(case["widths_table"], case["coefficients_table"], calls)


def asked(case: Case) -> list[Case]:
    """The calls of both houses, and each house's alone."""
    return [case, *(alone(case, house) for house in HOUSES)]


def steps(case: Case, left: Fields) -> Iterator[Step]:
    """The calls one after the other, with what they left."""
    names = ("refusals", "firsts", "used", "counts", "free", "changed")
    refusals, firsts, used, counts, free, changed = (iter(left[name]) for name in names)
    changes = zip(left["places"], left["numbers"])
    numbers = [*case["widths_table"], *case["coefficients_table"]]
    for at, call in enumerate(table_calls(case), 1):
        answer = [next(refusals)]
        if call.call == TABLE_USE:
            answer += [next(firsts), next(counts), *islice(used, call.room)]
        if call.call == TABLE_FREE:
            answer.append(next(free))
        before, numbers = numbers, list(numbers)
        for place, number in islice(changes, next(changed)):
            numbers[place] = number
        yield Step(call, answer, left["free_counts"][2 * at : 2 * at + 2], before, numbers)


def places_of(case: Case, slots: range) -> list[int]:
    """Where consecutive slots stand among a table's numbers, as far as its lists have them."""
    n_widths, n_coefficients = len(case["widths_table"]), len(case["coefficients_table"])
    widths = range(WIDTHS * slots.start, min(n_widths, WIDTHS * slots.stop))
    coefficients = range(COEFFICIENTS * slots.start, min(n_coefficients, COEFFICIENTS * slots.stop))
    return [*widths, *(n_widths + place for place in coefficients)]


def told(case: Case, place: int) -> str:
    """A number of a table in words."""
    n_widths = len(case["widths_table"])
    each, name, own = (WIDTHS, "width", place) if place < n_widths else (COEFFICIENTS, "coefficient", place - n_widths)
    return f"{name} {own % each} of slot {own // each}" if own < each * SLOTS else f"{name} {own}, behind the table"


def hold_others(case: Case, left: Fields) -> None:
    """No call of a house changes a slot that is not its own, or another house's free count."""
    own = {house: set(places_of(case, OWN[house])) for house in HOUSES}
    free = left["free_counts"][:2]
    for number, step in enumerate(steps(case, left)):
        house, earlier, free = step.call.house, free, step.free
        if step.call.call == TABLE_START:
            continue
        for place, (a, b) in enumerate(zip(step.before, step.after)) if step.before != step.after else ():
            if a != b and place not in own.get(house, ()):
                raise Leak(f"call {number}, of house {house}, changes {told(case, place)} from {a:#x} to {b:#x}")
        for other in HOUSES:
            if other != house and step.free[other] != earlier[other]:
                counts = f"from {earlier[other]} to {step.free[other]}"
                raise Leak(f"call {number}, of house {house}, changes house {other}'s free count {counts}")


def hold_house(case: Case, left: Fields, house: int, lone: Case, left_alone: Fields) -> Held:
    """Each of a house's calls is answered as it is alone, and leaves the house the same free count, own and common slots."""
    seen = [*places_of(case, COMMON), *places_of(case, OWN[house])]
    held, free = Held(), [left_alone["free_counts"][house], left["free_counts"][house]]
    own = steps(lone, left_alone)
    if free[0] != free[1]:
        raise Leak(f"house {house}'s free count before all calls: alone {free[0]}, together {free[1]}")
    for number, step in enumerate(steps(case, left)):
        if not is_heard(step.call, house):
            held.others += 1
            continue
        single, name = next(own), f"call {number}, of house {house}" if step.call.call != TABLE_START else f"start {number}"
        held.calls += step.call.call != TABLE_START
        if single.answer != step.answer:
            raise Leak(f"{name}: alone {single.answer}, together {step.answer}")
        if single.free[house] != step.free[house]:
            raise Leak(f"house {house}'s free count after {name}: alone {single.free[house]}, together {step.free[house]}")
        hold_slots(case, f"after {name}", seen, single.after, step.after)
    last = [[*one["widths_table"], *one["coefficients_table"]] for one in (left_alone, left)]
    hold_slots(case, f"at the end, for house {house}", seen, *last)
    return held


def hold_slots(case: Case, when: str, seen: list[int], single: list[int], both: list[int]) -> None:
    if single != both:
        for place in seen:
            if single[place] != both[place]:
                raise Leak(f"{told(case, place)} {when}: alone {single[place]:#x}, together {both[place]:#x}")


def held(case: Case, left: Fields, left_alone: list[Fields]) -> Held:
    """What the calls of both houses left, beside what each house's alone did; at the first difference Leak is raised."""
    hold_others(case, left)
    seen = Held(tables=1)
    for house, lefts in zip(HOUSES, left_alone, strict=True):
        seen.add(hold_house(case, left, house, alone(case, house), lefts))
    return seen
