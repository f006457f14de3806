"""Operations on floats, pairs and records."""

from random import Random

from ..formats import Case
from ..numbers import CLAMPING, LENGTHS, mood, number, numbers, special
from ..reading.pairs import WITH_IVAR


def float_case(rng: Random, small: bool) -> Case:
    def one() -> float:
        return special(rng) if rng.random() < 0.7 else number(rng, "tame", 10.0 ** rng.randint(-3, 5))

    operation = rng.randint(0, 3)
    a = one()
    b = rng.choice([a, -a, one(), one()])
    if operation == 2 and rng.random() < 0.5:
        a = a * a  # perfect and nearly perfect squares
    return Case("float", {"operation": operation, "a": a, "b": b})


def pair_case(rng: Random, small: bool) -> Case:
    tone = rng.choice(["tied", "spiced", "wild", "wild"])
    fields = {name: number(rng, tone) for name in ("mean", "vari", "mean2", "vari2", "weight")}
    if rng.random() < 0.3:
        # An estimate near a half or near the limit.
        fields |= {"mean": rng.choice([*LENGTHS, 2.5, 0.5]), "vari": rng.choice([0.0, 0.5, -0.5, 1.0])}
    operation = rng.randint(0, 5)
    if operation == WITH_IVAR and rng.random() < 0.5:
        fields["vari"] = rng.choice(CLAMPING)
    return Case("pair", {"operation": operation, **fields})


def record_case(rng: Random, small: bool) -> Case:
    tone = mood(rng)
    size = rng.choice([0, 1, 2, 3, 4, 5, 6, 7])
    other = size if rng.random() < 0.5 else rng.randint(0, 8)
    return Case("record", {
        "operation": rng.randint(0, 2),
        "record": numbers(rng, tone, size),
        "other": numbers(rng, tone, other),
        "weight": number(rng, tone),
    })
