"""RULES, Mask, Band rows, Global variance, and Clamps: how many pairs are clamped."""

from ..formats import Case, Fields
from . import ieee, pairs
from .ieee import divide
from .refusals import band_frames, band_width, record_size

# Frames times components times width squared that plain Python does in about a second.
PATIENCE = 400_000

GV_STEPS = 5
FIRST_STEP = 0.1
STEP_AFTER_RISE = 0.5
STEP_AFTER_FALL = 1.2

Rows = list[list[float]]


class TooLong(Exception):
    """An accepted case that takes plain Python too long: the Rust judges alone."""


def expand(items: list, durations: list[int]) -> list:
    return [item for item, duration in zip(items, durations) for _ in range(duration)]


def select(items: list, voiced: list[bool]) -> list:
    return [item for item, keep in zip(items, voiced) if keep]


def mask(weights: list[float], threshold: float, durations: list[int]) -> list[bool]:
    return expand([weight > threshold for weight in weights], durations)


def distances_before(voiced: list[bool]) -> list[int]:
    """For each voiced frame the voiced frames of its run before it; 0 elsewhere."""
    distances, run = [], 0
    for frame in voiced:
        distances.append(run if frame else 0)
        run = run + 1 if frame else 0
    return distances


def distances(voiced: list[bool]) -> tuple[list[int], list[int]]:
    """Left and right distances to the ends of each frame's run."""
    return distances_before(voiced), distances_before(voiced[::-1])[::-1]


def split_windows(case: Case) -> list[list[float]]:
    windows, first = [], 0
    for width in case["widths"]:
        windows.append(case["coefficients"][first : first + width])
        first += width
    return windows


def band_rows(windows: list[list[float]], means: Rows, ivars: Rows) -> tuple[Rows, list[float]]:
    """The rows before factoring and the right side; means and inverse variances window by window."""
    length = len(means[0])
    width = band_width([len(window) for window in windows])
    rows, right = [], []
    for t in range(length):
        row, side = [0.0] * width, 0.0
        for window, mean, ivar in zip(windows, means, ivars):
            half = len(window) // 2
            for tap in reversed(range(len(window))):
                frame = t - (tap - half)
                if window[tap] == 0 or not 0 <= frame < length:
                    continue
                wu = window[tap] * ivar[frame]
                side += wu * mean[frame]
                for j in reversed(range(len(window) - tap)):
                    if window[tap + j] != 0 and t + j < length:
                        row[j] += wu * window[tap + j]
        rows.append(row)
        right.append(side)
    return rows, right


def factored(rows: Rows) -> Rows:
    width = len(rows[0]) if rows else 0
    rows = [list(row) for row in rows]
    for t, row in enumerate(rows):
        for i in range(1, min(width, t + 1)):
            row[0] -= rows[t - i][i] * rows[t - i][i] * rows[t - i][0]
        for i in range(1, width):
            for j in range(1, min(width - i, t + 1)):
                row[i] -= rows[t - j][j] * rows[t - j][i + j] * rows[t - j][0]
            row[i] = divide(row[i], row[0])
    return rows


def solved(rows: Rows, right: list[float]) -> list[float]:
    length = len(rows)
    width = len(rows[0]) if rows else 0
    factors = factored(rows)
    forward: list[float] = []
    for t in range(length):
        value = right[t]
        for i in range(1, min(width, t + 1)):
            value -= factors[t - i][i] * forward[t - i]
        forward.append(value)
    values = [0.0] * length
    for t in reversed(range(length)):
        value = divide(forward[t], factors[t][0])
        for i in range(1, min(width, length - t)):
            value -= factors[t][i] * values[t + i]
        values[t] = value
    return values


def mean_and_variance(values: list[float], switched: list[bool]) -> tuple[float, float]:
    chosen = select(values, switched)
    mean = divide(ieee.total_from_first(chosen), len(chosen))
    squares = [(value - mean) * (value - mean) for value in chosen]
    return mean, divide(ieee.total_from_first(squares), len(chosen))


def derivative(rows: Rows, values: list[float]) -> list[float]:
    length, width = len(rows), len(rows[0])
    result = []
    for t in range(length):
        g = rows[t][0] * values[t]
        for i in range(1, width):
            if t + i < length:
                g += rows[t][i] * values[t + i]
            if t - i >= 0:
                g += rows[t - i][i] * values[t - i]
        result.append(g)
    return result


def objective(w: float, values: list[float], right: list[float], g: list[float]) -> float:
    result = 0.0
    for t in range(len(values)):
        result += w * values[t] * (right[t] - 0.5 * g[t])
    return result


def with_gv(
    rows: Rows,
    right: list[float],
    values: list[float],
    switched: list[bool],
    windows: int,
    target: float,
    vari_weight: float,
) -> list[float]:
    """Rescaled to the target's variance, then five steps; `rows` are those before factoring."""
    if not any(switched):
        return values
    length = len(values)
    mean, vari = mean_and_variance(values, switched)
    ratio = ieee.sqrt(divide(target, vari))
    values = [
        ratio * (value - mean) + mean if switch else value
        for value, switch in zip(values, switched)
    ]
    w = divide(1.0, windows * length)
    step, previous = FIRST_STEP, 0.0
    for number in range(GV_STEPS):
        mean, vari = mean_and_variance(values, switched)
        g = derivative(rows, values)
        gv_objective = -0.5 * vari * vari_weight * (vari - 2.0 * target)
        current = -(objective(w, values, right, g) + gv_objective)
        if number > 0 and current > previous:
            step *= STEP_AFTER_RISE
        elif number > 0 and current < previous:
            step *= STEP_AFTER_FALL
        previous = current
        dv = divide(-2.0 * vari_weight * (vari - target), length)
        for t in range(length):
            distance = values[t] - mean
            h = -w * rows[t][0] - 2.0 / (length * length) * (
                (length - 1) * vari_weight * (vari - target)
                + 2.0 * vari_weight * distance * distance
            )
            slope = w * (-g[t] + right[t])
            if switched[t]:
                slope += dv * distance
            values[t] += step * (divide(1.0, h) * slope)
    return values


def zeroed(ivars: list[float], window: list[float], left: list[int], right: list[int]) -> list[float]:
    """Zero where the window would reach past the run's ends."""
    half = len(window) // 2
    rest = len(window) - half - 1
    return [
        0.0 if left[frame] < half or right[frame] < rest else ivar
        for frame, ivar in enumerate(ivars)
    ]


def component_values(
    case: Case, component: int, records: list[list[float]], voiced: list[bool]
) -> list[float]:
    """One component's values at the voiced frames, closed up."""
    durations, v = case["durations"], case["v"]
    windows = split_windows(case)
    left, right = distances(voiced)
    means, ivars = [], []
    for number, window in enumerate(windows):
        pair = v * number + component
        states = [pairs.split_record(record) for record in records]
        mean = expand([state[0][pair] for state in states], durations)
        ivar = expand([pairs.inverse_variance(state[1][pair]) for state in states], durations)
        if number > 0:
            ivar = zeroed(ivar, window, left, right)
        means.append(select(mean, voiced))
        ivars.append(select(ivar, voiced))
    rows, side = band_rows(windows, means, ivars)
    values = solved(rows, side)
    if not case["gv_on"]:
        return values
    switched = select(expand([byte != 0 for byte in case["switches"]], durations), voiced)
    target = case["gv"][component] * case["gv_weight"]
    vari_weight = case["gv"][v + component]
    return with_gv(rows, side, values, switched, len(windows), target, vari_weight)


def clamps(records: list[list[float]], durations: list[int], voiced: list[bool]) -> list[int]:
    """How each pair of every voiced frame is clamped, whatever is zeroed later."""
    states = [[pairs.clamp(vari) for vari in pairs.split_record(record)[1]] for record in records]
    return [clamp for frame in select(expand(states, durations), voiced) for clamp in frame]


def mask_values(case: Case) -> Fields:
    frames = mask(case["weights"], case["threshold"], case["durations"])
    left, right = distances(frames)
    return {"voiced": [int(voiced) for voiced in frames], "left": left, "right": right}


def band_values(case: Case) -> Fields:
    frames = band_frames(case)
    if frames * band_width(case["widths"]) ** 2 > PATIENCE:
        raise TooLong
    starts = [window * frames for window in range(len(case["widths"]))]
    means = [case["means"][start : start + frames] for start in starts]
    ivars = [case["ivars"][start : start + frames] for start in starts]
    rows, right = band_rows(split_windows(case), means, ivars)
    return {"rows": [number for row in rows for number in row], "right": right}


def trajectory_values(case: Case) -> Fields:
    durations, v, size = case["durations"], case["v"], record_size(case)
    frames = sum(durations)
    if frames * v * band_width(case["widths"]) ** 2 > PATIENCE:
        raise TooLong
    records = [case["records"][state * size : (state + 1) * size] for state in range(len(durations))]
    weights = [pairs.voicing_weight(pairs.split_record(record)[2]) for record in records]
    voiced = mask(weights, case["threshold"], durations)
    out = [case["fill"]] * (frames * v)
    places = [frame * v for frame in range(frames) if voiced[frame]]
    for component in range(v):
        values = component_values(case, component, records, voiced)
        for place, value in zip(places, values):
            out[place + component] = value
    clamped = clamps(records, durations, voiced)
    return {"out": out, "high": clamped.count(pairs.HIGH), "low": clamped.count(pairs.LOW)}
