"""RULES, Pairs, Clamps: with_ivar and its clamp, a state's record, mul, mul_add_assign."""

from ..formats import Case, Fields
from . import ieee

Pair = tuple[float, float]

WITH_IVAR = 0  # of the operations
NOT_CLAMPED, HIGH, LOW = range(3)


def inverse_variance(vari: float) -> float:
    if abs(vari) > 1e19:
        return 0.0
    if abs(vari) < 1e-19:
        return 1e38
    return ieee.divide(1.0, vari)


def clamp(vari: float) -> int:
    """The bound that the variance's size is beyond; NaN's is beyond neither."""
    size = abs(vari)
    return HIGH if size > 1e19 else LOW if size < 1e-19 else NOT_CLAMPED


def split_record(record: list[float]) -> tuple[list[float], list[float], float | None]:
    """Means, as many variances, and one weight if a number is left; absent is None."""
    size = len(record) // 2
    weight = record[2 * size] if len(record) > 2 * size else None
    return record[:size], record[size : 2 * size], weight


def voicing_weight(weight: float | None) -> float:
    return ieee.LARGEST if weight is None else weight


def float_operation(case: Case) -> Fields:
    a, b = case["a"], case["b"]
    operations = [
        lambda: ieee.nearest(a),
        lambda: abs(a),
        lambda: ieee.sqrt(a),
        lambda: 1.0 if ieee.order(a) < ieee.order(b) else 0.0,
    ]
    return {"answer": operations[case["operation"]]()}


def pair_operation(case: Case) -> Fields:
    mean, vari, weight = case["mean"], case["vari"], case["weight"]
    mean2, vari2 = case["mean2"], case["vari2"]
    operations = [
        lambda: (mean, inverse_variance(vari)),
        lambda: (mean, 0.0),
        lambda: (mean * weight, vari * weight),
        lambda: (mean + mean2, vari + vari2),
        lambda: (ieee.total([mean, mean2]), ieee.total([vari, vari2])),
        lambda: (float(ieee.frames(mean + weight * vari)), 0.0),
    ]
    clamped = clamp(vari) if case["operation"] == WITH_IVAR else NOT_CLAMPED
    mean, vari = operations[case["operation"]]()
    return {"mean": mean, "vari": vari, "clamp": clamped}


def scaled(record: list[float], weight: float) -> list[float]:
    return [number * weight for number in record]


def add_weighted(record: list[float], weight: float, other: list[float]) -> list[float]:
    means, varis, given = split_record(record)
    other_means, other_varis, other_given = split_record(other)
    for place, (mean, vari) in enumerate(zip(other_means[: len(means)], other_varis)):
        means[place] += weight * mean
        varis[place] += weight * vari
    if given is None:
        return means + varis
    if other_given is not None:
        given += weight * other_given
    return means + varis + [given]


def record_operation(case: Case) -> Fields:
    record, weight = case["record"], case["weight"]
    operations = [
        lambda: record,
        lambda: scaled(record, weight),
        lambda: add_weighted(record, weight, case["other"]),
    ]
    return {"record": operations[case["operation"]]()}
