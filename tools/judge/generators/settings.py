"""Stores of any content with calls on them, and settings files."""

import struct
from random import Random

from ..broken_settings import broken, other_length, other_version, packed, surplus
from ..formats import CLEAR, COUNT, GET, READ, REMOVE, SET, WRITE, Case, StoreCall, store_case
from ..reading.settings import EACH, FREE, HEAD, MARK, MAX_VOICE, PLACES, RECORD, WRITTEN_VERSION
from ..reading.settings import Left, Store, damage, follow, records

SETTINGS = EACH * PLACES

EDGES = [0, 1, 255, 256, MAX_VOICE - 1, MAX_VOICE]
BEYOND = [MAX_VOICE + 1, MAX_VOICE + 2, 2**17, 2**31, FREE - 1, FREE]

NANS = [
    *[0x7FF8000000000000, 0x7FF8000000000001, 0x7FF0000000000001, 0x7FFFFFFFFFFFFFFF, 0x7FF4000000000000],
    *[0xFFF8000000000000, 0xFFF8000000000001, 0xFFF0000000000001, 0xFFFFFFFFFFFFFFFF],
]
INFINITIES = [0x7FF0000000000000, 0xFFF0000000000000]
SPECIAL = [*NANS, *INFINITIES, 0, 0, 2**63, 1, 0x7FEFFFFFFFFFFFFF, 0x3FE0000000000000, 0x3FF0000000000000]

# Lengths of the lists that are too short, in numbers and in settings.
SHORT = [(PLACES - 1, SETTINGS), (PLACES, SETTINGS - 1), (PLACES - 1, SETTINGS - 1), (PLACES, SETTINGS - EACH)]
SHORTER = [(0, 0), (0, SETTINGS), (PLACES, 0), (1, EACH), (PLACES, PLACES), (SETTINGS, PLACES)]

# Files of so many records of few voices are rare: they take Python long.
THOUSANDS = [1_000, 4_000, 9_999]
MOST_RECORDS = 65_535

# A file from this many bytes on has many voices, and is damaged more often.
LARGE = 4_000

CALLS = [SET] * 8 + [GET] * 5 + [REMOVE] * 5 + [READ] * 3 + [COUNT, COUNT, WRITE, WRITE, WRITE, CLEAR]


def pattern(rng: Random) -> int:
    shape = rng.random()
    if shape < 0.4:
        return rng.choice(SPECIAL)
    if shape < 0.8:
        return struct.unpack("<Q", struct.pack("<d", rng.randint(-20, 60) / 20))[0]
    return rng.getrandbits(64)


def tiled(few: list[int], count: int) -> list[int]:
    return (few * (count // len(few) + 1))[:count]


def some_voices(rng: Random) -> list[int]:
    """Few, so that calls and records meet the same ones."""
    return [rng.choice([*EDGES, rng.randint(0, MAX_VOICE)]) for _ in range(rng.randint(1, 6))]


def different(rng: Random, count: int) -> list[int]:
    """So many different voices, in some order."""
    return rng.sample(range(rng.choice([count, 300, MAX_VOICE + 1]) if count <= 300 else MAX_VOICE + 1), count)


def free_number(rng: Random) -> int:
    return rng.choice([FREE, FREE, *BEYOND, rng.randint(MAX_VOICE + 1, FREE)])


def scattered(rng: Random, voices: list[int]) -> list[int]:
    """Voices in places with holes between them, in their order."""
    numbers = tiled([free_number(rng) for _ in range(rng.choice([1, 7]))], PLACES)
    reach = rng.choice([len(voices), min(PLACES, len(voices) + 3), PLACES])
    for place, voice in zip(sorted(rng.sample(range(reach), len(voices))), voices):
        numbers[place] = voice
    return numbers


def repeated(rng: Random, numbers: list[int]) -> list[int]:
    """Some places with the number of another, in front of it or behind it."""
    numbers = list(numbers)
    for _ in range(rng.choice([1, 1, 2, 5])):
        here, there = rng.randrange(PLACES), rng.randrange(PLACES)
        numbers[here] = numbers[there]
    return numbers


def numbers_at_entry(rng: Random, pool: list[int]) -> list[int]:
    shape = rng.random()
    if shape < 0.15:
        return [FREE] * PLACES
    if shape < 0.2:
        return [rng.choice([0, 1, MAX_VOICE, MAX_VOICE + 1, *pool])] * PLACES
    if shape < 0.5:
        return scattered(rng, different(rng, rng.randint(1, 8)))
    if shape < 0.6:
        return rng.choices([*pool, FREE], k=PLACES)
    if shape < 0.65:
        return tiled([rng.getrandbits(rng.choice([16, 17, 32])) for _ in range(rng.choice([50, PLACES]))], PLACES)
    numbers = scattered(rng, different(rng, rng.choice([PLACES - 2, PLACES - 1, PLACES, PLACES])))
    return numbers if shape < 0.85 else repeated(rng, numbers)


def settings_at_entry(rng: Random, count: int) -> list[int]:
    """Few patterns again and again, of a count that three doesn't divide."""
    return [0] * count if rng.random() < 0.2 else tiled([pattern(rng) for _ in range(17)], count)


def lengths(rng: Random) -> tuple[int, int]:
    shape = rng.random()
    if shape < 0.75:
        return PLACES, SETTINGS
    if shape < 0.88:
        return PLACES + rng.choice([0, 1, 1, 40]), SETTINGS + rng.choice([0, 1, 3, 100])
    if shape < 0.97:
        return rng.choice(SHORT)
    return rng.choice([*SHORTER, (rng.randrange(PLACES), rng.randrange(SETTINGS))])


def a_record(rng: Random, version: int, voice: int) -> bytes:
    return packed(version, voice, [pattern(rng) for _ in range(EACH)])


def with_repeats(rng: Random, voices: list[int]) -> list[int]:
    """Some voices once more: further on, at the end, or directly behind."""
    for _ in range(rng.choice([0, 0, 1, 3])):
        voices.insert(rng.choice([len(voices), rng.randint(0, len(voices))]), rng.choice(voices))
    return voices


def voices_of_file(rng: Random, pool: list[int], small: bool) -> list[int]:
    shape = rng.random()
    if shape < 0.05:
        return []
    if shape < 0.15:
        return [rng.choice(pool)]
    if small or shape < 0.7:
        return rng.choices(pool, k=rng.randint(1, 6))
    if shape < 0.96:
        return with_repeats(rng, different(rng, rng.randint(1, 12)))
    return with_repeats(rng, different(rng, rng.choice([PLACES - 1, PLACES, PLACES, PLACES + 1, PLACES + 1, 300])))


def a_file(rng: Random, pool: list[int], small: bool) -> bytes:
    """Well formed, though it may have too many voices."""
    version, shape = rng.choice(list(RECORD)), rng.random()
    if not small and shape < 0.001:
        count = MOST_RECORDS if shape < 0.0002 else rng.choice(THOUSANDS)
        few = [a_record(rng, version, voice) for voice in rng.choices(pool, k=20)]
        written = rng.choices(few, k=count)
    else:
        written = [a_record(rng, version, voice) for voice in voices_of_file(rng, pool, small)]
    return MARK + struct.pack("<HH", version, len(written)) + b"".join(written)


def room_for(rng: Random, voices: int) -> int:
    """As long as the written file, around it, or far from it."""
    needed = HEAD + RECORD[WRITTEN_VERSION] * voices
    near = [needed, needed, needed, needed - 1, needed + 1, needed + RECORD[WRITTEN_VERSION]]
    return rng.choice([*near, rng.choice([0, HEAD - 1, HEAD, rng.randint(0, needed), needed + 300])])


def a_voice(rng: Random, pool: list[int], voices: list[int]) -> int:
    """One of the store's or from behind it, of the few, a new one, or no voice's number."""
    shape = rng.random()
    if shape < 0.5:
        return rng.choice([number for number in voices if number <= MAX_VOICE] or pool)
    if shape < 0.75:
        return rng.choice(pool)
    return rng.randint(0, MAX_VOICE) if shape < 0.9 else rng.choice([*EDGES, *BEYOND])


def a_call(rng: Random, pool: list[int], store: Store, small: bool) -> StoreCall:
    call = rng.choice(CALLS)
    if call == SET:
        return StoreCall(SET, a_voice(rng, pool, store.voices), tuple(pattern(rng) for _ in range(EACH)))
    if call == READ:
        file = a_file(rng, pool, small)
        return StoreCall(READ, file=broken(rng, file) if rng.random() < 0.4 else file)
    if call == WRITE:
        refusal, held = store.count()
        return StoreCall(WRITE, room=room_for(rng, held))
    return StoreCall(call, a_voice(rng, pool, store.voices) if call in (GET, REMOVE) else 0)


def store_case_of(rng: Random, small: bool) -> Case:
    pool = some_voices(rng)
    n_voices, n_settings = lengths(rng)
    # Behind the store stand voices too, which no call may find.
    voices = (numbers_at_entry(rng, pool) + rng.choices(pool, k=SETTINGS))[:n_voices]
    settings = settings_at_entry(rng, n_settings)
    store, calls = Store(list(voices), list(settings)), []
    for _ in range(rng.choice([1, 2, 2, 3, 4, 5, 8])):
        calls.append(a_call(rng, pool, store, small))
        follow(store, calls[-1], Left())
    return store_case(voices, settings, calls)


def broken_large(rng: Random, file: bytes) -> bytes:
    """Often with all its voices, so that 17 shows behind 16 and 18."""
    return rng.choice([broken, *[other_version] * 3, other_length, surplus])(rng, file)


def settings_file_case(rng: Random, small: bool) -> Case:
    file = a_file(rng, some_voices(rng), small)
    if len(file) < LARGE:
        file = broken(rng, file) if rng.random() < 0.25 else file
    else:
        file = broken_large(rng, file) if rng.random() < 0.8 else file
    voices, settings = lengths(rng)
    held = 0 if damage(file) else len({voice for voice, _ in records(file)})
    return Case("settings_file", {"bytes": file, "voices": voices, "settings": settings, "out": room_for(rng, held)})
