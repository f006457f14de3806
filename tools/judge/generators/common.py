"""What several generators share."""

from random import Random

from ..formats import KINDS, Case
from ..numbers import ODD_NANS
from ..reading.ieee import MAX_FRAMES
from ..reading.refusals import MAX_STATES


def room(rng: Random, needed: int) -> int:
    """A lent list is as long as needed, or a little longer."""
    return needed + rng.choice([0, 0, 1, 5])


def state_count(rng: Random, small: bool) -> int:
    shape = rng.random()
    if shape < 0.02:
        return 0
    if shape < 0.12:
        return 1
    if shape < 0.87:
        return rng.randint(2, 6)
    if small or shape < 0.995:
        return rng.randint(7, 16)
    return rng.choice([100, MAX_STATES - 1, MAX_STATES])


def durations_for(rng: Random, states: int, most: int) -> list[int]:
    most = most if states <= 8 else 2
    shape = rng.random()
    if shape < 0.1:
        return [rng.choice([0, 0, 1]) for _ in range(states)]
    if shape < 0.3:
        return [1] * states
    return [rng.randint(0, most) for _ in range(states)]


def to_the_limit(rng: Random, durations: list[int], over: int) -> list[int]:
    """One duration made so long that the total is the limit + over."""
    if not durations:
        return durations
    state = rng.randrange(len(durations))
    others = sum(durations) - durations[state]
    return [*durations[:state], MAX_FRAMES + over - others, *durations[state + 1 :]]


def with_odd_nan(rng: Random, case: Case) -> Case:
    """One float of the input made a NaN of other bits than the one that is handed out."""
    floats = [name for name, form in KINDS[case.kind].inputs if form in ("f64", "f64s")]
    names = [name for name in floats if name != "coefficients" and case[name] != []]
    if not names:
        return case
    name, nan = rng.choice(names), rng.choice(ODD_NANS)
    if isinstance(case[name], float):
        return case.with_fields(**{name: nan})
    numbers = list(case[name])
    numbers[rng.randrange(len(numbers))] = nan
    return case.with_fields(**{name: numbers})
