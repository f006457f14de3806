"""RULES, One run alone: which voiced runs a stream has."""

from itertools import groupby
from typing import NamedTuple

from ..formats import Case, Fields
from . import pairs


class Run(NamedTuple):
    first: int  # frame
    frames: int


def window_count(case: Case) -> int:
    return case["windows"] if "windows" in case.fields else len(case["widths"])


def record_size(case: Case) -> int:
    return 2 * window_count(case) * case["v"] + (case["masked"] != 0)


def records_of(case: Case) -> list[list[float]]:
    size = record_size(case)
    return [case["records"][state * size : (state + 1) * size] for state in range(len(case["durations"]))]


def voicing_weights(case: Case) -> list[float]:
    return [pairs.voicing_weight(pairs.split_record(record)[2]) for record in records_of(case)]


def is_voiced(case: Case) -> list[bool]:
    """State by state."""
    return [weight > case["threshold"] for weight in voicing_weights(case)]


def runs_of(case: Case) -> list[Run]:
    """In the order of their frames, each as long as can be; a state of 0 frames has none, and separates nothing."""
    states = [(voiced, frames) for voiced, frames in zip(is_voiced(case), case["durations"]) if frames > 0]
    runs, first = [], 0
    for voiced, stretch in groupby(states, lambda state: state[0]):
        frames = sum(frames for _, frames in stretch)
        if voiced:
            runs.append(Run(first, frames))
        first += frames
    return runs


def is_there(case: Case) -> bool:
    return case["run"] < len(runs_of(case))


def frames_asked(case: Case) -> int:
    """Those of the run that is asked for; one that is not there has none."""
    return runs_of(case)[case["run"]].frames if is_there(case) else 0


def runs_values(case: Case) -> Fields:
    runs = runs_of(case)
    return {"runs": [number for run in runs for number in run], "count": len(runs)}
