"""Damaged bytes of timing files: the head, the length and the spans, several at once."""

import struct
from random import Random

from .broken_jobs import Change, cut_within, empty, of_length, other_bytes, put, put_number, wrong_letters
from .reading.words import HEAD, MARK, SPAN, VERSION, count_of

VERSION_AT, COUNT_AT = 3, 5

LARGEST = 2**32 - 1
VERSIONS = [0, 2, 3, 0x0100, 0x0101, 0x0201, 0x8001, 0xFF01, 0xFFFF]
COUNTS = [0, 1, 2**16 - 1, 2**16, 2**29, 2**31 - 1, 2**31, LARGEST - 1, LARGEST]
# With these on top a count's bytes or numbers are as many where 32 bits count them, or its words where 16 do.
ON_TOP = [2**16, 2**24, 2**28, 2**29, 2**30, 2**31, 7 * 2**29]
SURPLUS = [1, 2, 3, 4, 7, 8, 9, 16]
OTHER_MARKS = [b"SPJ", b"VST", b"ral", b"RAl", b"RLA", b"LAR", b"\0\0\0", b"RA"]


def packed(spans: list[int]) -> bytes:
    """A file of these spans, whatever they are."""
    return MARK + struct.pack(f"<HI{len(spans)}I", VERSION, len(spans) // 2, *spans)


def put_long(data: bytes, place: int, number: int) -> bytes:
    return put(data, place, (number % 2**32).to_bytes(4, "little"))


def cut(rng: Random, data: bytes) -> bytes:
    """In the head, in the first spans, or anywhere."""
    return data[: rng.randint(0, min(len(data), rng.choice([HEAD, HEAD, HEAD + 17, len(data)])))]


def cut_and_wrong(rng: Random, data: bytes) -> bytes:
    return cut_within(rng, data, HEAD)


def other_mark(rng: Random, data: bytes) -> bytes:
    """One letter, two or all wrong, or another mark."""
    if rng.random() < 0.2:
        return put(data, 0, rng.choice(OTHER_MARKS))
    return wrong_letters(rng, data, MARK)


def other_version(rng: Random, data: bytes) -> bytes:
    return put_number(data, VERSION_AT, rng.choice([*VERSIONS, rng.randrange(2**16)]))


def other_count(rng: Random, data: bytes) -> bytes:
    """One off, with another byte, the same in fewer bits, around the largest, or any."""
    count = count_of(data)
    near = count + rng.choice([-2, -1, -1, 1, 1, 2])
    one_byte = count ^ rng.randint(1, 255) << rng.choice([0, 8, 16, 24])
    on_top = count + rng.choice(ON_TOP)
    other = rng.choice([near, near, one_byte, on_top, on_top, rng.choice(COUNTS), rng.randrange(2**32)])
    return put_long(data, COUNT_AT, other)


def other_length(rng: Random, data: bytes) -> bytes:
    """One byte off, a number or a word."""
    return of_length(data, max(0, len(data) + rng.choice([-1, 1]) * rng.choice([1, 1, 4, SPAN])))


def surplus(rng: Random, data: bytes) -> bytes:
    return data + rng.randbytes(rng.choice([*SURPLUS, rng.randint(1, 60)]))


def numbers_of(data: bytes) -> list[int]:
    """All whole numbers behind the head, as many as there are."""
    count = max(0, len(data) - HEAD) // 4
    return list(struct.unpack_from(f"<{count}I", data.ljust(HEAD), HEAD))


def with_number(data: bytes, at: int, number: int) -> bytes:
    return put_long(data, HEAD + 4 * at, number)


def other_bound(rng: Random, data: bytes) -> bytes:
    """One number off: the first, the last, or any."""
    numbers = numbers_of(data)
    if not numbers:
        return data
    at = rng.choice([0, len(numbers) - 1, rng.randrange(len(numbers))])
    off = rng.choice([-1, 1, -1, 1, rng.choice([2, 256, 2**16, 2**31])])
    return with_number(data, at, rng.choice([numbers[at] + off, numbers[at] + off, 0, LARGEST]))


def end_between(rng: Random, numbers: list[int]) -> int:
    """Where the end of a word stands that has one behind it: often the last such."""
    return rng.choice([len(numbers) // 2 * 2 - 3, 2 * rng.randrange(len(numbers) // 2 - 1) + 1])


def gap(rng: Random, data: bytes) -> bytes:
    """A word that ends a frame earlier than the next begins, or a next that begins later, both with frames left."""
    numbers = numbers_of(data)
    if len(numbers) < 4:
        return data
    end = end_between(rng, numbers)
    begun, ended, begins, ends = numbers[end - 1 : end + 3]
    if ended > begun and rng.random() < 0.5:
        return with_number(data, end, rng.choice([begun, ended - 1]))
    return with_number(data, end + 1, rng.choice([ends, begins + 1])) if ends > begins else data


def overlap(rng: Random, data: bytes) -> bytes:
    """A word that ends later than the next begins, or a next that begins earlier."""
    numbers = numbers_of(data)
    if len(numbers) < 4:
        return data
    end = end_between(rng, numbers)
    if numbers[end] < LARGEST and rng.random() < 0.5:
        return with_number(data, end, numbers[end] + 1)
    return with_number(data, end + 1, rng.choice([0, numbers[end + 1] - 1])) if numbers[end + 1] else data


def both_bounds(rng: Random, data: bytes) -> bytes:
    """Where one word ends and the next begins moved alike, often before the one begins or behind the other's end."""
    numbers = numbers_of(data)
    if len(numbers) < 4:
        return data
    at = end_between(rng, numbers)
    moved = rng.choice([numbers[at - 1] - 1, numbers[at + 2] + 1, numbers[at] + rng.choice([-1, 1]), 0, LARGEST])
    return with_number(with_number(data, at, moved), at + 1, moved)


def last_backward(rng: Random, data: bytes) -> bytes:
    """The last word ends before it begins."""
    numbers = numbers_of(data)
    if len(numbers) < 2 or numbers[-2] == 0:
        return data
    return with_number(data, len(numbers) - 1, rng.choice([0, numbers[-2] - 1]))


def all_later(rng: Random, data: bytes) -> bytes:
    """Every frame some later: words that touch, not from 0."""
    later = rng.choice([1, 1, 5, 2**31])
    for at, number in enumerate(numbers_of(data)[:50]):
        data = with_number(data, at, number + later)
    return data


def swapped(rng: Random, data: bytes) -> bytes:
    """Two numbers in each other's place."""
    numbers = numbers_of(data)
    if len(numbers) < 2:
        return data
    one, other = rng.sample(range(len(numbers)), 2)
    return with_number(with_number(data, one, numbers[other]), other, numbers[one])


def any_bytes(rng: Random, data: bytes) -> bytes:
    """Random from the first byte on, or behind the mark, version or count."""
    kept = data[: rng.choice([0, VERSION_AT, COUNT_AT, HEAD])]
    return kept + rng.randbytes(rng.randint(0, 40))


CHANGES: list[Change] = [
    *[cut, cut_and_wrong, other_mark, other_version, other_count, other_length, surplus] * 2,
    *[other_bound, gap, gap, overlap, overlap, both_bounds, last_backward] * 2,
    *[other_mark, other_mark, other_count, other_count, all_later, all_later, swapped, other_bytes, any_bytes, empty],
]


def broken(rng: Random, data: bytes) -> bytes:
    for _ in range(rng.choice([1, 1, 1, 1, 2, 3])):
        data = rng.choice(CHANGES)(rng, data)
    return data
