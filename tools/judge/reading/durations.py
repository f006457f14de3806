"""RULES, Durations: estimate, fit, speed, alignment."""

import heapq
from dataclasses import dataclass
from typing import NamedTuple

from ..formats import Case, Fields
from . import ieee
from .ieee import MAX_FRAMES

# Comes after every cost: a state that may not give a frame.
BARRED = 1 << 64


class Refused(Exception):
    def __init__(self, number: int):
        super().__init__(number)
        self.number = number


class State(NamedTuple):
    mean: float
    vari: float
    shortest: int

    def frames(self, rho: float) -> int:
        """The estimate, at least 1 and at least the state's own shortest."""
        return max(self.shortest, ieee.frames(self.mean + rho * self.vari))

    def cost(self, frames: int, rho: float) -> int:
        return ieee.order(rho - ieee.divide(frames - self.mean, self.vari))


def states_of(means: list[float], varis: list[float], shortest: list[int]) -> list[State]:
    return list(map(State, means, varis, shortest))


def shortest_of(states: list[State]) -> list[int]:
    return [state.shortest for state in states]


def estimate(states: list[State], rho: float) -> list[int]:
    durations = [state.frames(rho) for state in states]
    if sum(durations) > MAX_FRAMES:
        raise Refused(8)
    return durations


@dataclass
class Fit:
    durations: list[int]
    changes: int


def walk(states: list[State], durations: list[int], rho: float, steps: int) -> None:
    """Adds `steps` frames, or takes as many where negative, each by the step rule."""
    unit = 1 if steps > 0 else -1

    def cost(place: int) -> int:
        state, frames = states[place], durations[place]
        if unit < 0 and frames <= state.shortest:
            return BARRED
        return state.cost(frames + unit, rho)

    # The least of them is in front: of equal costs that of the first state.
    costs = [(cost(place), place) for place in range(len(states))]
    heapq.heapify(costs)
    for _ in range(abs(steps)):
        _, place = costs[0]
        durations[place] += unit
        heapq.heapreplace(costs, (cost(place), place))


def fit(states: list[State], length: float) -> Fit:
    if not states:
        return Fit([], 0)
    target = ieee.frames(length)
    if target > MAX_FRAMES:
        raise Refused(7)
    if target <= sum(shortest_of(states)):
        return Fit(shortest_of(states), 0)
    means, varis = [state.mean for state in states], [state.vari for state in states]
    rho = ieee.divide(target - ieee.total(means), ieee.total(varis))
    durations = estimate(states, rho)
    steps = target - sum(durations)
    walk(states, durations, rho, steps)
    return Fit(durations, abs(steps))


def speed(states: list[State], factor: float) -> Fit:
    durations = estimate(states, 0.0)
    if factor == 1.0:
        return Fit(durations, 0)
    return fit(states, ieee.divide(float(sum(durations)), factor))


def align(states: list[State], nstate: int, ends: list[float]) -> Fit:
    """One duration a state: the groups', then the tail's at its natural length; the groups' changes summed."""
    whole = Fit([], 0)
    for label, end in enumerate(ends):
        if not end >= 0:
            continue  # below zero and NaN are open, minus zero is given
        first, last = len(whole.durations), (label + 1) * nstate
        group = fit(states[first:last], end - sum(whole.durations))
        whole.durations += group.durations
        whole.changes += group.changes
        if sum(whole.durations) > MAX_FRAMES:
            raise Refused(8)
    fitted = len(whole.durations)
    tail = estimate(states[fitted:], 0.0)
    if sum(whole.durations) + sum(tail) > MAX_FRAMES:
        raise Refused(8)
    whole.durations += tail
    return whole


def values(fit: Fit) -> Fields:
    return {"changes": fit.changes, "durations": fit.durations}


def states_in(case: Case) -> list[State]:
    return states_of(case["means"], case["varis"], case["shortest"])


def fit_values(case: Case) -> Fields:
    return values(fit(states_in(case), case["length"]))


def speed_values(case: Case) -> Fields:
    return values(speed(states_in(case), case["speed"]))


def align_values(case: Case) -> Fields:
    aligned = align(states_in(case), case["nstate"], case["ends"])
    return {"written": len(aligned.durations)} | values(aligned)
