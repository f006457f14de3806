"""Damaged bytes of job files: of every number and at every place, several at once."""

from collections.abc import Callable
from random import Random

from .reading.jobs import FIRST_VERSION, HEAD, MARK, MAX_COUNT, PAIR, SHORTEST, SHORTEST_VERSION, STATE

VERSION_AT, COUNT_AT, SPEED_AT = 3, 5, 7
# The largest job of each version.
LARGEST = [HEAD + size * MAX_COUNT for size in STATE.values()]

# Of jobs, others around them, and with their bytes the other way round or a bit too many.
VERSIONS = [FIRST_VERSION, SHORTEST_VERSION, 0, 3] * 3
VERSIONS += [4, 0x0100, 0x0200, 0x0101, 0x0102, 0x0201, 0x8001, 0x8002, 0xFFFF]
COUNTS = [0, MAX_COUNT - 1, MAX_COUNT, MAX_COUNT + 1, MAX_COUNT + 2, MAX_COUNT + 0x0100, 2 * MAX_COUNT, 0x8000, 0xFFFF]
SURPLUS = [1, 2, 3, SHORTEST, 8, PAIR - 1, PAIR, PAIR + 1, PAIR + SHORTEST - 1, PAIR + SHORTEST, 100]
LONG = [whole + more for whole in LARGEST for more in (-1, 0, 1, 2, PAIR, PAIR + SHORTEST)]
LONG += [20_000, 2 * max(LARGEST), 2**16 - 1, 2**16]

# Changes the bytes of a file.
Change = Callable[[Random, bytes], bytes]


def put(data: bytes, place: int, new: bytes) -> bytes:
    """The bytes with new ones from a place on, as far as the file goes."""
    return (data[:place] + new + data[place + len(new) :])[: len(data)]


def put_number(data: bytes, place: int, number: int) -> bytes:
    return put(data, place, number.to_bytes(2, "little"))


def of_length(data: bytes, length: int) -> bytes:
    """The bytes cut, or with zeros behind them."""
    return data[:length].ljust(length, b"\0")


def version_of(data: bytes) -> int:
    return int.from_bytes(data[VERSION_AT:COUNT_AT], "little")


def count_of(data: bytes) -> int:
    return int.from_bytes(data[COUNT_AT:SPEED_AT], "little")


def state_size(data: bytes) -> int:
    """How many bytes a state has by a file's version, if it is one of a job."""
    return STATE.get(version_of(data), PAIR)


def other_byte(rng: Random, byte: int) -> int:
    return byte ^ rng.choice([1, 0x20, 0x80, rng.randint(1, 255)])


def cut(rng: Random, data: bytes) -> bytes:
    """In the head, or anywhere."""
    return data[: rng.randint(0, min(len(data), rng.choice([SPEED_AT, HEAD + 1, len(data)])))]


def cut_within(rng: Random, data: bytes, head: int) -> bytes:
    """Cut in a head, with another last byte."""
    kept = data[: rng.randint(1, head)]
    return kept[:-1] + bytes(other_byte(rng, byte) for byte in kept[-1:])


def wrong_letters(rng: Random, data: bytes, mark: bytes) -> bytes:
    """One letter of a mark, two or all wrong."""
    for place in rng.sample(range(len(mark)), rng.choice([1, 1, 2, 3])):
        data = put(data, place, bytes([other_byte(rng, mark[place])]))
    return data


def cut_and_wrong(rng: Random, data: bytes) -> bytes:
    return cut_within(rng, data, SPEED_AT)


def other_mark(rng: Random, data: bytes) -> bytes:
    return wrong_letters(rng, data, MARK)


def other_version(rng: Random, data: bytes) -> bytes:
    """Also a job's own other one, with a length that is no longer its."""
    return put_number(data, VERSION_AT, rng.choice([*VERSIONS, rng.randrange(2**16)]))


def other_count(rng: Random, data: bytes) -> bytes:
    """Around the largest, some states off, with another byte, or any."""
    count = count_of(data)
    near = count + rng.choice([-2, -1, 1, 2])
    one_byte = count ^ rng.randint(1, 255) << rng.choice([0, 8])
    other = rng.choice([rng.choice(COUNTS), near, one_byte, rng.randrange(2**16)])
    return put_number(data, COUNT_AT, other % 2**16)


def other_length(rng: Random, data: bytes) -> bytes:
    """One byte off, one shortest, or one state, of either version."""
    return of_length(data, max(0, len(data) + rng.choice([-1, 1]) * rng.choice([1, SHORTEST, *STATE.values()])))


def length_of_the_other(rng: Random, data: bytes) -> bytes:
    """As long as a file of so many states is in the other version."""
    other = sum(STATE.values()) - state_size(data)
    return of_length(data, HEAD + other * min(count_of(data), MAX_COUNT))


def cut_in_a_shortest(rng: Random, data: bytes) -> bytes:
    """Behind a state's pair, or within the four bytes that follow it in the second version."""
    state = rng.randrange(max(1, count_of(data)))
    return data[: HEAD + state * STATE[SHORTEST_VERSION] + PAIR + rng.randrange(SHORTEST)]


def other_shortest(rng: Random, data: bytes) -> bytes:
    """A shortest of the second version, or what stands there: another byte of it, all, or none."""
    at = HEAD + rng.randrange(max(1, count_of(data))) * STATE[SHORTEST_VERSION] + PAIR
    new = rng.choice([bytes(SHORTEST), rng.randbytes(SHORTEST), b"\xff" * SHORTEST, bytes([2, 0, 0, 0]), bytes([0, 0, 1, 0])])
    return put(data, at, new) if rng.random() < 0.5 else put(data, at + rng.randrange(SHORTEST), rng.randbytes(1))


def surplus(rng: Random, data: bytes) -> bytes:
    return data + rng.randbytes(rng.choice([*SURPLUS, rng.randint(1, 300)]))


def of_any_count(rng: Random, data: bytes) -> bytes:
    """Any number of states that there may be, and a length up to theirs, around it or a state above it."""
    count, size = rng.choice([MAX_COUNT, rng.randint(0, MAX_COUNT)]), state_size(data)
    whole = HEAD + size * count
    length = rng.choice([rng.randint(0, whole), rng.randint(0, whole), whole + rng.randint(-2, 2), whole + size])
    return of_length(put_number(data, COUNT_AT, count), length)


def too_long(rng: Random, data: bytes) -> bytes:
    """Around the largest job's length and above it, or so many bytes that 16 bits don't count them."""
    return of_length(data, rng.choice([*LONG, 2**16 + len(data)]))


def other_bytes(rng: Random, data: bytes) -> bytes:
    """Some bytes changed, anywhere."""
    for _ in range(rng.randint(1, 4) if data else 0):
        data = put(data, rng.randrange(len(data)), rng.randbytes(1))
    return data


def any_bytes(rng: Random, data: bytes) -> bytes:
    """Random from the first byte on, or behind the mark, version or count."""
    kept = data[: rng.choice([0, VERSION_AT, COUNT_AT, SPEED_AT])]
    return kept + rng.randbytes(rng.randint(0, 48))


def empty(rng: Random, data: bytes) -> bytes:
    return b""


# Some more often than others: the places that `of_any_count` reaches are many.
CHANGES: list[Change] = [
    *[of_any_count] * 5,
    *[cut, cut_and_wrong, other_mark, other_version, other_count, other_length, surplus] * 2,
    *[length_of_the_other, cut_in_a_shortest, other_shortest],
    *[other_bytes, any_bytes, too_long, empty],
]


def broken(rng: Random, data: bytes) -> bytes:
    for _ in range(rng.choice([1, 1, 1, 1, 2, 3])):
        data = rng.choice(CHANGES)(rng, data)
    return data
