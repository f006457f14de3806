"""IEEE 754 operations that Python's floats don't give as they are."""

import math
import struct
from typing import Any

NAN = struct.unpack("<d", struct.pack("<Q", 0x7FF8000000000000))[0]
NAN_BITS = 0x7FF8000000000000
LARGEST = struct.unpack("<d", struct.pack("<Q", 0x7FEFFFFFFFFFFFFF))[0]

MAX_FRAMES = 65_536


def divide(a: float, b: float) -> float:
    try:
        return a / b
    except ZeroDivisionError:
        if a == 0 or a != a:
            return NAN
        return math.copysign(math.inf, a) * math.copysign(1.0, b)


def sqrt(x: float) -> float:
    return math.sqrt(x) if x >= 0 else NAN


def nearest(x: float) -> float:
    """The nearest whole number, halves away from zero."""
    if not abs(x) < 2.0**52:
        return x  # whole already, infinite or NaN
    whole = math.floor(abs(x))
    if abs(x) - whole >= 0.5:  # the difference is exact
        whole += 1
    return math.copysign(whole, x)


def frames(x: float) -> int:
    """Rounded and at least 1; NaN gives 1; MAX_FRAMES + 1 stands for all that is larger."""
    rounded = nearest(x)
    if rounded > MAX_FRAMES:
        return MAX_FRAMES + 1
    return int(rounded) if rounded >= 1 else 1


def order(cost: float) -> int:
    """A whole number that orders costs: by absolute value, all NaNs equal and after infinity."""
    if cost != cost:
        return NAN_BITS
    return struct.unpack("<Q", struct.pack("<d", abs(cost)))[0]


def total(numbers: list[float]) -> float:
    """From zero, left to right, one rounding a term (later Pythons' `sum` compensates)."""
    result = 0.0
    for number in numbers:
        result += number
    return result


def total_from_first(numbers: list[float]) -> float:
    """From the first term; there is one."""
    result = numbers[0]
    for number in numbers[1:]:
        result += number
    return result


def one_nan(value: Any) -> Any:
    """The same fields with every NaN as the one that is handed out."""
    if isinstance(value, float):
        return value if value == value else NAN
    if isinstance(value, list):
        return [one_nan(item) for item in value] if value and isinstance(value[0], float) else value
    if isinstance(value, dict):
        return {name: one_nan(item) for name, item in value.items()}
    return value
