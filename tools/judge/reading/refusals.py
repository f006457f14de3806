"""RULES, Refusals: those that are known before the work starts."""

import math
from collections.abc import Callable

from ..formats import Case
from . import jobs, runs
from .ieee import MAX_FRAMES

MAX_WINDOWS = 4
MAX_WIDTH = 15
MAX_V = 64
MAX_STATES = 4_096
MAX_NSTATE = 16
WORK_FLOATS = 48
WORK_MARKS = 4

Checks = dict[int, Callable[[], bool]]


def bad_windows(widths: list[int]) -> bool:
    return not 1 <= len(widths) <= MAX_WINDOWS or not all(1 <= w <= MAX_WIDTH for w in widths)


def band_width(widths: list[int]) -> int:
    return 2 * (max(widths) // 2) + 1


def record_size(case: Case) -> int:
    return 2 * len(case["widths"]) * case["v"] + (case["masked"] != 0)


def band_frames(case: Case) -> int:
    return len(case["means"]) // len(case["widths"])


def bad_shortest(shortest: list[int]) -> bool:
    return 0 in shortest or sum(shortest) > MAX_FRAMES


def fit_checks(case: Case) -> Checks:
    n = len(case["means"])
    return {
        3: lambda: n > MAX_STATES,
        4: lambda: len(case["varis"]) != n or len(case["shortest"]) != n,
        6: lambda: case["out"] < n or case["work"] < n,
        15: lambda: bad_shortest(case["shortest"]),
    }


def align_checks(case: Case) -> Checks:
    """A fit's, and those of the labels."""
    n, nstate, labels = len(case["means"]), case["nstate"], len(case["ends"])
    fit = fit_checks(case)
    return fit | {
        3: lambda: fit[3]() or not 1 <= nstate <= MAX_NSTATE,
        4: lambda: fit[4]() or n != labels * nstate,
    }


def mask_checks(case: Case) -> Checks:
    states, frames = len(case["durations"]), sum(case["durations"])
    return {
        3: lambda: states > MAX_STATES,
        4: lambda: len(case["weights"]) != states,
        5: lambda: frames > MAX_FRAMES,
        6: lambda: min(case["voiced"], case["left"], case["right"]) < frames,
    }


def window_checks(case: Case) -> Checks:
    return {
        1: lambda: bad_windows(case["widths"]),
        2: lambda: not all(math.isfinite(tap) for tap in case["coefficients"]),
    }


def band_checks(case: Case) -> Checks:
    def lists_disagree() -> bool:
        return (
            sum(case["widths"]) != len(case["coefficients"])
            or len(case["means"]) % len(case["widths"]) != 0
            or len(case["ivars"]) != len(case["means"])
        )

    def too_short() -> bool:
        frames = band_frames(case)
        return case["rows"] < frames * band_width(case["widths"]) or case["right"] < frames

    return window_checks(case) | {
        4: lists_disagree,
        5: lambda: band_frames(case) > MAX_FRAMES,
        6: too_short,
    }


def trajectory_checks(case: Case) -> Checks:
    states, frames, v = len(case["durations"]), sum(case["durations"]), case["v"]

    def lists_disagree() -> bool:
        if sum(case["widths"]) != len(case["coefficients"]):
            return True
        if len(case["records"]) != states * record_size(case):
            return True
        if not case["gv_on"]:
            return False
        return len(case["gv"]) != 2 * v or len(case["switches"]) != states

    return window_checks(case) | {
        3: lambda: states > MAX_STATES or not 1 <= v <= MAX_V,
        4: lists_disagree,
        5: lambda: frames > MAX_FRAMES,
        6: lambda: case["out"] < frames * v
        or case["work"] < frames * WORK_FLOATS
        or case["marks"] < frames * WORK_MARKS,
    }


def runs_checks(case: Case) -> Checks:
    states, v = len(case["durations"]), case["v"]
    return {
        1: lambda: not 1 <= case["windows"] <= MAX_WINDOWS,
        3: lambda: states > MAX_STATES or not 1 <= v <= MAX_V,
        4: lambda: len(case["records"]) != states * runs.record_size(case),
        5: lambda: sum(case["durations"]) > MAX_FRAMES,
        6: lambda: case["runs"] < 2 * len(runs.runs_of(case)),
    }


def run_checks(case: Case) -> Checks:
    """A trajectory's up to 5; the lists that are lent are as long as the run that is asked for wants them."""

    def too_short() -> bool:
        n = runs.frames_asked(case)
        return case["out"] < n * case["v"] or case["work"] < n * WORK_FLOATS or case["marks"] < n * WORK_MARKS

    return trajectory_checks(case) | {
        6: too_short,
        20: lambda: case["gv_on"] != 0,
        21: lambda: not runs.is_there(case),
        22: lambda: case["widths"][0] > 1,
    }


def place_checks(case: Case) -> Checks:
    return {
        3: lambda: not 1 <= case["v"] <= MAX_V,
        10: lambda: case["component"] >= case["v"],
    }


def excerpt_checks(case: Case) -> Checks:
    states, frames = len(case["durations"]), sum(case["durations"])
    return {
        3: lambda: states > MAX_STATES or not 1 <= case["v"] <= MAX_V,
        4: lambda: case["trajectory"] != frames * case["v"],
        5: lambda: frames > MAX_FRAMES,
        10: lambda: case["state"] >= states,
    }


def job_checks(case: Case) -> Checks:
    damage = jobs.damage(case["bytes"])
    if damage:
        return {damage.number: lambda: True}  # before all others
    shortest = jobs.parse(case["bytes"]).shortest
    n = len(shortest)
    return {
        6: lambda: case["out"] < n or case["work"] < n,
        15: lambda: bad_shortest(shortest),
    }


CHECKS: dict[str, Callable[[Case], Checks]] = {
    "fit": fit_checks,
    "speed": fit_checks,
    "align": align_checks,
    "mask": mask_checks,
    "band": band_checks,
    "trajectory": trajectory_checks,
    "runs": runs_checks,
    "run": run_checks,
    "place": place_checks,
    "excerpt": excerpt_checks,
    "job": job_checks,
    "chapter": align_checks,
}


def before_work(case: Case) -> int:
    """The smallest number that applies, 0 for none; 7 and 8 come up during the work, and so behind 15."""
    if case.kind not in CHECKS:
        return 0
    checks = CHECKS[case.kind](case)
    return next((number for number in sorted(checks) if checks[number]()), 0)
