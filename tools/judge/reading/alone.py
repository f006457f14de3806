"""RULES, One run alone: the numbers of a run, from its own frames."""

from ..formats import Case, Fields
from . import pairs
from .refusals import band_width
from .runs import Run, records_of, runs_of
from .trajectory import PATIENCE, Rows, TooLong, band_rows, solved, split_windows

# The means and variances of a frame, window by window.
Frame = tuple[list[float], list[float]]


def frames_of(case: Case) -> list[Frame]:
    """Of the stream, each frame's as its state's record has them."""
    states = [pairs.split_record(record)[:2] for record in records_of(case)]
    return [state for state, duration in zip(states, case["durations"]) for _ in range(duration)]


def own(frames: list[Frame], run: Run) -> list[Frame]:
    return frames[run.first : run.first + run.frames]


def reaches_out(window: list[float], left: int, right: int) -> bool:
    """Whether the window reaches past the run, from a frame with so many of it before and after."""
    half = len(window) // 2
    return left < half or right < len(window) - half - 1


def inverse_variances(frames: list[Frame], pair: int, window: list[float], is_first: bool) -> list[float]:
    """Of one pair, frame by frame; near the run's ends those of every window but the first are 0."""
    inverse, last = [], len(frames) - 1
    for frame, (_, varis) in enumerate(frames):
        zeroed = not is_first and reaches_out(window, frame, last - frame)
        inverse.append(0.0 if zeroed else pairs.inverse_variance(varis[pair]))
    return inverse


def equations(case: Case, frames: list[Frame], component: int) -> tuple[Rows, list[float]]:
    """The normal equations of these frames alone, of one component."""
    windows, means, ivars = split_windows(case), [], []
    for number, window in enumerate(windows):
        pair = case["v"] * number + component
        means.append([mean[pair] for mean, _ in frames])
        ivars.append(inverse_variances(frames, pair, window, number == 0))
    return band_rows(windows, means, ivars)


def numbers_of(case: Case, frames: list[Frame]) -> list[float]:
    """Of these frames alone, component c of frame t at t x v + c."""
    components = [solved(*equations(case, frames, component)) for component in range(case["v"])]
    return [number for frame in zip(*components) for number in frame]


def run_values(case: Case) -> Fields:
    run = runs_of(case)[case["run"]]
    if max(sum(case["durations"]), run.frames * case["v"] * band_width(case["widths"]) ** 2) > PATIENCE:
        raise TooLong
    return {"out": numbers_of(case, own(frames_of(case), run)), "frames": run.frames}
