"""Damaged bytes of settings files: of every number, several at once."""

import struct
from random import Random

from .broken_jobs import Change, cut_within, empty, of_length, other_bytes, put, put_number, wrong_letters
from .reading.settings import EACH, HEAD, MARK, RECORD, count_of, damage, records, version_of

VERSION_AT, COUNT_AT = 3, 5

VERSIONS = [0, 1, 2, 3, 4, 0x0100, 0x0101, 0x0102, 0x0200, 0x0201, 0x8001, 0xFFFF]
COUNTS = [0, 1, 2, 255, 256, 257, 0x8000, 0xFFFF]
SURPLUS = [1, 2, 8, 16, 17, 18, 19, 25, 26, 27]
OTHER_MARKS = [b"SPJ", b"vst", b"VSt", b"VTS", b"TSV", b"\0\0\0", b"VS"]


def packed(version: int, voice: int, settings: list[int]) -> bytes:
    """A record as a version has it."""
    kept = EACH if version == 2 else EACH - 1
    return struct.pack(f"<H{kept}Q", voice, *settings[:kept])


def cut(rng: Random, data: bytes) -> bytes:
    """In the head, in the first record, or anywhere."""
    return data[: rng.randint(0, min(len(data), rng.choice([HEAD, HEAD, HEAD + 27, len(data)])))]


def cut_and_wrong(rng: Random, data: bytes) -> bytes:
    return cut_within(rng, data, HEAD)


def other_mark(rng: Random, data: bytes) -> bytes:
    """One letter, two or all wrong, or another mark."""
    if rng.random() < 0.2:
        return put(data, 0, rng.choice(OTHER_MARKS))
    return wrong_letters(rng, data, MARK)


def other_version(rng: Random, data: bytes) -> bytes:
    return put_number(data, VERSION_AT, rng.choice([*VERSIONS, rng.randrange(2**16)]))


def head_alone(rng: Random, data: bytes) -> bytes:
    """A mark and a version, and not all of the count."""
    return put_number(data, VERSION_AT, rng.choice(VERSIONS))[: rng.randint(VERSION_AT, HEAD - 1)]


def as_other_version(rng: Random, data: bytes) -> bytes:
    """The records as the other version has them, under the number of this one."""
    if damage(data):
        return data
    other = sum(RECORD) - version_of(data)
    return data[:HEAD] + b"".join(packed(other, *record) for record in records(data))


def other_count(rng: Random, data: bytes) -> bytes:
    """One off, with another byte, around the largest, or any."""
    count = count_of(data)
    near = count + rng.choice([-2, -1, -1, 1, 1, 2])
    one_byte = count ^ rng.randint(1, 255) << rng.choice([0, 8])
    other = rng.choice([near, near, one_byte, rng.choice(COUNTS), rng.randrange(2**16)])
    return put_number(data, COUNT_AT, other % 2**16)


def other_length(rng: Random, data: bytes) -> bytes:
    """One byte off, or one record."""
    return of_length(data, max(0, len(data) + rng.choice([-1, 1]) * rng.choice([1, 1, *RECORD.values()])))


def surplus(rng: Random, data: bytes) -> bytes:
    return data + rng.randbytes(rng.choice([*SURPLUS, rng.randint(1, 100)]))


def any_bytes(rng: Random, data: bytes) -> bytes:
    """Random from the first byte on, or behind the mark, version or count."""
    kept = data[: rng.choice([0, VERSION_AT, COUNT_AT, HEAD])]
    return kept + rng.randbytes(rng.randint(0, 60))


CHANGES: list[Change] = [
    *[cut, cut_and_wrong, other_mark, other_version, head_alone, other_count, other_length, surplus] * 2,
    *[other_mark, as_other_version, other_bytes, any_bytes, empty],
]


def broken(rng: Random, data: bytes) -> bytes:
    for _ in range(rng.choice([1, 1, 1, 1, 2, 3])):
        data = rng.choice(CHANGES)(rng, data)
    return data
