"""Places, excerpts, jobs and old numbers."""

import struct
from random import Random

from ..formats import Case
from ..reading.jobs import DAMAGES
from .common import durations_for, room, state_count, to_the_limit, with_odd_nan
from .durations import speed_case


def place_case(rng: Random, small: bool) -> Case:
    v = rng.choice([1, 2, 40, 63, 64, rng.randint(1, 64)])
    frame = rng.choice([0, 1, 13_421_772, 13_421_773, 2**31, 2**32 - 1, rng.randrange(2**32)])
    component = rng.choice([0, v - 1, rng.randrange(v), rng.randrange(v), v, 32, 2**32 - 1])
    return Case("place", {"frame": frame, "component": component, "v": v})


def excerpt_case(rng: Random, small: bool) -> Case:
    states = state_count(rng, small)
    durations = durations_for(rng, states, 5)
    if rng.random() < 0.02:
        durations = to_the_limit(rng, durations, rng.choice([-1, 0, 1]))
    v = rng.choice([1, 2, 3, 40, 64]) if sum(durations) < 1000 else rng.choice([1, 2])
    state = rng.randrange(states) if states and rng.random() < 0.9 else rng.choice([states, 2**32 - 1])
    return Case("excerpt", {"trajectory": sum(durations) * v, "durations": durations, "v": v, "state": state})


def job_case(rng: Random, small: bool) -> Case:
    speed = speed_case(rng, small)
    if rng.random() < 0.02:
        speed = with_odd_nan(rng, speed)
    pairs = list(zip(speed["means"], speed["varis"]))
    if not small and rng.random() < 0.01:
        pairs = (pairs or [(2.0, 1.0)]) * 1025
    pairs = pairs[: rng.choice([1023, 1024, 1025]) if len(pairs) > 1000 else len(pairs)]
    head = b"SPJ" + struct.pack("<HHd", 1, len(pairs), speed["speed"])
    body = b"".join(struct.pack("<dd", mean, vari) for mean, vari in pairs)
    return Case("job", {
        "bytes": head + body,
        "out": room(rng, len(pairs)),
        "work": room(rng, len(pairs)),
    })


def old_number_case(rng: Random, small: bool) -> Case:
    """Of a refusal, or with the last bits of a damaged job's, or any."""
    alike = rng.choice(DAMAGES) + (1 << rng.randrange(4, 32))
    return Case("old_number", {"number": rng.choice([rng.randint(0, 16), alike, rng.randrange(2**32)])})
