"""Random floats around the limits that the rules name."""

import math
import struct
from random import Random

from .reading.ieee import LARGEST, NAN


def neighbours(x: float) -> list[float]:
    return [math.nextafter(x, -math.inf), x, math.nextafter(x, math.inf)]


CLAMPS = [sign * near for bound in (1e19, 1e-19) for near in neighbours(bound) for sign in (1.0, -1.0)]
ROUNDING = [0.49999999999999994, 0.5, 1.5, 2.5, -0.5, -2.5, 4503599627370495.5, 4503599627370497.0]
LENGTHS = [65534.5, 65535.0, 65535.5, 65536.0, *neighbours(65536.5), 65537.0]
EXTREMES = [math.inf, -math.inf, NAN, LARGEST, -LARGEST, 1e300, 1e15]
TINY = [5e-324, -5e-324, 2.2250738585072014e-308, 1e-310, 1e-300]
SPECIAL = [0.0, -0.0, 1.0, -1.0, *CLAMPS, *ROUNDING, *EXTREMES, *TINY]

# NaNs of other bits than the one that is handed out: all are one.
ODD_NANS = [
    struct.unpack("<d", struct.pack("<Q", bits))[0]
    for bits in (0x7FF8000000000001, 0xFFF8000000000000, 0x7FFFFFFFFFFFFFFF, 0x7FF0000000000001)
]

# Variances of which some are clamped: around both bounds, far beyond them, and NaNs, of the rules' bits and of three others.
BEYOND = [sign * size for size in (1e30, LARGEST, math.inf, 0.0, 5e-324, 1e-310, 1e-30) for sign in (1.0, -1.0)]
CLAMPING = [*CLAMPS, *BEYOND, NAN, *ODD_NANS[1:]]

# How often a number is special, in each mood of a case.
MOODS = {"tame": 0.0, "tied": 0.0, "decimal": 0.0, "spiced": 0.08, "wild": 0.5}


def mood(rng: Random) -> str:
    return rng.choice(["tame", "tied", "decimal", "spiced", "spiced", "wild"])


def any_bits(rng: Random) -> float:
    value = struct.unpack("<d", rng.randbytes(8))[0]
    return value if value == value else NAN


def special(rng: Random) -> float:
    return rng.choice(SPECIAL) if rng.random() < 0.9 else any_bits(rng)


def ordinary(rng: Random, spread: float) -> float:
    shape = rng.random()
    if shape < 0.4:
        return rng.gauss(0.0, spread)
    if shape < 0.7:
        return rng.randint(-8, 8) / 2
    return rng.uniform(-spread, spread)


def number(rng: Random, mood: str, spread: float = 4.0) -> float:
    if rng.random() < MOODS[mood]:
        return special(rng)
    if mood == "tied":
        return rng.choice([-1.0, -0.0, 0.0, 1.0, 2.0])
    if mood == "decimal":
        return rng.randint(-20, 60) / 10  # sums whose last bit tells their order, near halves
    return ordinary(rng, spread)


def positive(rng: Random, mood: str, spread: float = 4.0) -> float:
    """Mostly above zero, as means of durations and variances are."""
    if rng.random() < MOODS[mood]:
        return special(rng)
    if mood == "tied":
        return float(rng.randint(0, 2))
    if mood == "decimal":
        return rng.randint(1, 60) / 10
    return abs(ordinary(rng, spread)) + rng.choice([0.0, 0.25, 1.0])


def numbers(rng: Random, mood: str, count: int, spread: float = 4.0) -> list[float]:
    return [number(rng, mood, spread) for _ in range(count)]


def positives(rng: Random, mood: str, count: int, spread: float = 4.0) -> list[float]:
    return [positive(rng, mood, spread) for _ in range(count)]
