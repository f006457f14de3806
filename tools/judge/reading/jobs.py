"""RULES, Job file: what is wrong with the bytes, what they say, and what a job comes to."""

import struct
from dataclasses import dataclass
from typing import NamedTuple

from ..formats import Case, Fields
from . import durations

MARK = b"SPJ"
FIRST_VERSION, SHORTEST_VERSION = 1, 2
MAX_COUNT = 1_024
HEAD = 15
# The bytes of a state, by version: its pair, and in the second one its shortest.
PAIR, SHORTEST = 16, 4
STATE = {FIRST_VERSION: PAIR, SHORTEST_VERSION: PAIR + SHORTEST}

DAMAGES = (9, 12, 13, 14)
WRONG_LENGTH, WRONG_MARK, WRONG_VERSION, TOO_MANY_STATES = DAMAGES


class Damage(NamedTuple):
    number: int
    place: int


class Field(NamedTuple):
    place: int
    size: int
    least: int
    most: int
    number: int  # the refusal of any other value


# In the order in which they are looked at.
FIELDS = [
    Field(0, 1, MARK[0], MARK[0], WRONG_MARK),
    Field(1, 1, MARK[1], MARK[1], WRONG_MARK),
    Field(2, 1, MARK[2], MARK[2], WRONG_MARK),
    Field(3, 2, FIRST_VERSION, SHORTEST_VERSION, WRONG_VERSION),
    Field(5, 2, 0, MAX_COUNT, TOO_MANY_STATES),
]


def damage(data: bytes) -> Damage | None:
    """What is wrong with a file, None for nothing."""
    for place, size, least, most, number in FIELDS:
        if len(data) < place + size:
            return Damage(WRONG_LENGTH, len(data))
        value = int.from_bytes(data[place : place + size], "little")
        if not least <= value <= most:
            return Damage(number, place)
    version, count = struct.unpack_from("<HH", data, len(MARK))
    whole = HEAD + STATE[version] * count
    if len(data) != whole:
        return Damage(WRONG_LENGTH, min(len(data), whole))  # where it ends, or the first byte too many
    return None


def old_number(number: int) -> int:
    return WRONG_LENGTH if number in DAMAGES else number


def old_number_values(case: Case) -> Fields:
    return {"old": old_number(case["number"])}


@dataclass
class Job:
    speed: float
    means: list[float]
    varis: list[float]
    shortest: list[int]


def parse(data: bytes) -> Job | None:
    """None where the file is damaged."""
    if damage(data):
        return None
    version, count, speed = struct.unpack_from("<HHd", data, len(MARK))
    places = range(HEAD, len(data), STATE[version])
    pairs = [struct.unpack_from("<dd", data, place) for place in places]
    shortest = [1] * count
    if version == SHORTEST_VERSION:
        shortest = [int.from_bytes(data[place + PAIR : place + PAIR + SHORTEST], "little") for place in places]
    return Job(speed, [mean for mean, _ in pairs], [vari for _, vari in pairs], shortest)


def job_values(case: Case) -> Fields:
    job = parse(case["bytes"])
    states = durations.states_of(job.means, job.varis, job.shortest)
    values = durations.values(durations.speed(states, job.speed))
    return {"states": len(states), "frames": sum(values["durations"])} | values
