"""Links: memories of any content, and jobs of both versions that come in parts."""

import struct
from random import Random

from .. import broken_jobs, damage
from ..formats import BEGIN, END, PART, Case, LinkCall, link_case
from ..numbers import positive
from ..reading import jobs
from ..reading.links import KEPT, NUMBER, SIZE
from .common import room
from .shortest import second_version, varied
from .spool import job_case

# Where the largest job was one of the first version, one more than its bytes were kept.
KEPT_BEFORE = jobs.HEAD + jobs.PAIR * jobs.MAX_COUNT + 1
SIZE_BEFORE = NUMBER + KEPT_BEFORE

LENGTHS = [0, 1, NUMBER - 1, NUMBER, NUMBER + 1, NUMBER + 15, SIZE - 2, SIZE - 1, SIZE, SIZE + 1, SIZE + 100]
LENGTHS += [SIZE_BEFORE - 1, SIZE_BEFORE, SIZE_BEFORE + 1]

# Numbers in front of a memory: none, those of jobs, both sides of the largest, and more than fit in 16, 32 and 63 bits.
NUMBERS = [0, 1, 2, 3, 16, 48, KEPT - 1, KEPT, KEPT + 1, KEPT + 2, 2**16, 2**16 + 16, 2**32 + 1, 2**63, 2**64 - 1]
NUMBERS += [KEPT_BEFORE, KEPT_BEFORE + 1, KEPT_BEFORE + 2]

# Jobs up to this many bytes may come byte by byte.
BYTE_BY_BYTE = 80


def a_job(rng: Random, small: bool) -> Case:
    """Good or damaged, with room or with too little."""
    shape = rng.random()
    job = largest(rng) if shape < 0.02 else varied(rng, job_case(rng, small or rng.random() < 0.97))
    if shape < 0.04:
        return job.with_fields(bytes=broken_jobs.too_long(rng, job["bytes"]))
    if shape < 0.12:
        return damage.damaged(rng, job)
    return damage.changed_bytes(rng, job) if shape < 0.2 else job


def largest(rng: Random) -> Case:
    """A job of as many states as there may be, all alike; at speed 1 it is soon answered."""
    speed, pair = struct.pack("<d", 1.0), struct.pack("<dd", positive(rng, "decimal"), positive(rng, "decimal"))
    data = jobs.MARK + struct.pack("<HH", jobs.FIRST_VERSION, jobs.MAX_COUNT) + speed + pair * jobs.MAX_COUNT
    if rng.random() < 0.7:
        # 64 frames a state are as many as there may be.
        data = second_version(speed, [pair] * jobs.MAX_COUNT, [rng.choice([1, 2, 64, 64, 65])] * jobs.MAX_COUNT)
    return Case("job", {"bytes": data, "out": room(rng, jobs.MAX_COUNT), "work": room(rng, jobs.MAX_COUNT)})


def cuttings(rng: Random, data: bytes) -> list[bytes]:
    """The bytes in parts, some of them empty."""
    shape = rng.random()
    if shape < 0.25:
        return [data]
    if shape < 0.33 and len(data) <= BYTE_BY_BYTE:
        return [data[place : place + 1] for place in range(len(data))]
    most = 20 if shape < 0.38 else 4
    near = min(len(data), 16) if rng.random() < 0.5 else len(data)  # in the head, or anywhere
    cuts = sorted(rng.randint(0, near) for _ in range(rng.randint(0, most)))
    return [data[first:last] for first, last in zip([0, *cuts], [*cuts, len(data)])]


def job_calls(rng: Random, small: bool) -> list[LinkCall]:
    """A job as it should come, or in one of the ways in which it should not."""
    job = a_job(rng, small)
    parts = [LinkCall(PART, part=part) for part in cuttings(rng, job["bytes"])]
    end = LinkCall(END, out=job["out"], work=job["work"])
    shape = rng.random()
    if shape < 0.06:
        return [*parts, end]  # no begin: after the last job's end, or on what the memory says
    if shape < 0.12:
        broken_off = parts[: rng.randint(0, len(parts))]
        return [LinkCall(BEGIN), *broken_off, LinkCall(BEGIN), *parts, end]
    if shape < 0.15:
        return [LinkCall(BEGIN), *parts]
    return [LinkCall(BEGIN), *parts, end]


def late_calls(rng: Random) -> list[LinkCall]:
    """Calls after an end, mostly none."""
    part = LinkCall(PART, part=rng.choice([b"", b"S", b"SPJ\x01\0\0\0", b"SPJ\x02\0\0\0", bytes(KEPT)]))
    end = LinkCall(END, out=rng.randint(0, 3), work=rng.randint(0, 3))
    return [rng.choice([part, end]) for _ in range(rng.choice([0, 0, 0, 0, 0, 0, 1, 3]))]


def content(rng: Random, length: int, small: bool) -> bytes:
    """What a memory may hold: nothing, a pattern, anything, or a job that is under way."""
    shape = rng.random()
    if shape < 0.3:
        return bytes(length)
    if shape < 0.4:
        return bytes([rng.choice([0x01, 0xA5, 0xFF])]) * length
    if shape < 0.5:
        return rng.randbytes(length)
    job = varied(rng, job_case(rng, small))["bytes"] if rng.random() < 0.5 else b""
    number = len(job) + 1 if rng.random() < 0.5 else rng.choice([*NUMBERS, rng.randint(1, KEPT + 2)])
    filler = bytes([rng.randrange(256)])
    return (number.to_bytes(NUMBER, "little") + job + filler * length)[:length]


def a_link(rng: Random, small: bool) -> Case:
    length = SIZE if rng.random() < 0.85 else rng.choice([*LENGTHS, rng.randrange(SIZE)])
    memory = content(rng, length, small)
    jobs = rng.randint(1, 2) if length < SIZE else rng.randint(1, 8)
    return link_case(memory, [call for _ in range(jobs) for call in job_calls(rng, small) + late_calls(rng)])
