"""Words over durations with all that is asked of them, and timing files."""

from itertools import accumulate
from random import Random

from ..broken_timing import LARGEST, broken, packed
from ..formats import Case
from ..reading.refusals import MAX_NSTATE, MAX_STATES, MAX_V
from ..reading.words import HEAD, SPAN, owners
from .common import durations_for, to_the_limit

NSTATES = [1, 1, 2, 2, 3, 5, 8, MAX_NSTATE]
# Rare ones out of range, with durations that would agree.
OTHER_NSTATES = [0, MAX_NSTATE + 1, MAX_NSTATE + 1, 2 * MAX_NSTATE]
OTHER_VS = [0, MAX_V + 1, MAX_V + 1, 2 * MAX_V]
# How many labels a word has.
FEW_LABELS = [0, 0, 1, 1, 1, 2, 3]
# How many words rare cases have.
MANY = [100, 255, 256, 257, 1_000]
# How many words a rare file has, around what 16 bits count.
MOST = [2**16 - 1, 2**16, 2**16 + 1]

# A trajectory of at most so many numbers is lent with any v.
MOST_NUMBERS = 200_000


def cut_up(rng: Random, labels: int) -> list[int]:
    """So many labels in few words, some of which have none."""
    cuts = sorted(rng.choices([0, labels, *range(labels + 1)], k=rng.choice([0, 1, 2, 5])))
    return [after - first for first, after in zip([0, *cuts], [*cuts, labels])]


def at_the_limit(rng: Random) -> tuple[list[int], int]:
    """4,096 states, or a label more, in few words or each label a word."""
    nstate = rng.choice([1, 2, 16, 16])
    labels = MAX_STATES // nstate + rng.choice([0, 0, 1])
    return (cut_up(rng, labels) if rng.random() < 0.8 else [1] * labels), nstate


def some_words(rng: Random, small: bool) -> list[int]:
    shape = rng.random()
    if shape < 0.04:
        return []
    if shape < 0.1:
        return [0] * rng.randint(1, 5)
    if shape < 0.2:
        return [rng.choice(FEW_LABELS)]
    if small or shape < 0.9:
        return rng.choices(FEW_LABELS, k=rng.randint(2, 6))
    if shape < 0.99:
        return rng.choices(FEW_LABELS, k=rng.randint(7, 16))
    return rng.choices([0, 0, 0, 1], k=rng.choice(MANY))


def silent(rng: Random, durations: list[int], nstate: int) -> list[int]:
    """With some labels, all states of each, of no frames."""
    durations = list(durations)
    for first in range(0, len(durations), nstate):
        if rng.random() < 0.4:
            durations[first : first + nstate] = [0] * len(durations[first : first + nstate])
    return durations


def odd_part(number: int) -> int:
    while number % 2 == 0:
        number //= 2
    return number


def in_32_bits(rng: Random, words: list[int], nstate: int) -> list[int]:
    """Other words, whose labels or states are as many as theirs where 32 bits count them."""
    wrong = rng.choice([2**32, 2**32 * odd_part(nstate or 1) // (nstate or 1)])
    parts = [[wrong // 2] * 2, [wrong // 4] * 4, [wrong // 4 * 3, wrong // 4], *[[wrong]] * (wrong < 2**32)]
    more = rng.choice(parts)
    words = words + [0] * (len(more) - len(words))
    for word, labels in zip(rng.sample(range(len(words)), len(more)), more):
        words[word] += labels
    return words


def other_labels(rng: Random, words: list[int], nstate: int) -> list[int]:
    """A label more or fewer, a word more or fewer, as many labels as states, or the same in 32 bits."""
    how, words = rng.randrange(6), list(words)
    if how == 0 or not words:
        return words + [rng.choice([1, 1, 2**31, LARGEST])]
    word = rng.randrange(len(words))
    if how == 1:
        words[word] += 1
    elif how == 2:
        words[word] = max(0, words[word] - 1)
    elif how == 3:
        del words[word]
    elif how == 4:
        words[word] += sum(words) * max(0, nstate - 1)
    else:
        return in_32_bits(rng, words, nstate)
    return words


def other_durations(rng: Random, durations: list[int], nstate: int) -> list[int]:
    """One more or fewer, a label's too many or too few, or one a label."""
    how = rng.randrange(5)
    if how == 0:
        return durations + [1]
    if how == 1:
        return durations[:-1]
    if how == 2:
        return durations + [1] * nstate
    return durations[: len(durations) - nstate] if how == 3 else durations[::nstate]


def room_near(rng: Random, needed: int) -> int:
    """The length of an output: as long as needed, around it, or far from it."""
    near = [needed, needed, needed, needed, needed + 1, max(0, needed - 1)]
    return rng.choice([*near, rng.choice([0, needed // 2, max(0, needed - 2), needed + 5, rng.randint(0, needed)])])


def frames_asked(rng: Random, owned: list[int]) -> list[int]:
    """First, last and after-last frames of words, the last of all, the one after it, and far ones."""
    turns = [0] + [frame for frame in range(1, len(owned)) if owned[frame] != owned[frame - 1]]
    near = [frame + off for frame in rng.sample(turns, min(len(turns), 3)) for off in (-1, 0, 1)]
    last = [len(owned) - 1, rng.randrange(len(owned) + 1)]
    far = [len(owned), len(owned), len(owned) + 1, LARGEST, last[1] + 2**16, rng.randrange(2**32)]
    return [max(0, frame) for frame in rng.sample([*near, *last, *rng.sample(far, 2)], rng.choice([1, 2, 4]))]


def words_asked(rng: Random, words: list[int]) -> list[int]:
    there = rng.sample(range(len(words)), min(len(words), 3))
    beyond = [len(words), len(words) + rng.choice([0, 1]), rng.choice([LARGEST, (there or [0])[0] + 2**16])]
    return rng.sample([*there, *there, *beyond], rng.choice([1, 2, 4] if there else [1, 2]))


def components(rng: Random, frames: int) -> int:
    shape = rng.random()
    if shape < 0.02:
        return rng.choice(OTHER_VS)
    v = rng.choice([1, 2, 3, 40, MAX_V - 1, MAX_V])
    return v if frames * v <= MOST_NUMBERS or shape < 0.1 else rng.choice([1, 2])


def trajectory_for(rng: Random, frames: int, v: int) -> int:
    """As many numbers as there must be, or some more or fewer, or one a frame."""
    whole = frames * v
    others = [whole + 1, max(0, whole - 1), whole + v, max(0, whole - v), frames, 0]
    return whole if rng.random() < 0.96 else rng.choice(others)


def words_case(rng: Random, small: bool) -> Case:
    words, nstate = some_words(rng, small), rng.choice([*NSTATES, rng.randint(1, MAX_NSTATE)])
    shape = rng.random()
    if not small and shape < 0.005:
        words, nstate = at_the_limit(rng)
    elif shape < 0.02:
        nstate = rng.choice(OTHER_NSTATES)
    durations = durations_for(rng, sum(words) * nstate, 5)
    if nstate and rng.random() < 0.2:
        durations = silent(rng, durations, nstate)
    if rng.random() < 0.02:
        durations = to_the_limit(rng, durations, rng.choice([-1, 0, 0, 1]))
    owned = owners(Case("words", {"words": words, "nstate": nstate, "durations": durations}))
    shape = rng.random()
    if shape < 0.06:
        words = other_labels(rng, words, nstate)
    elif shape < 0.1:
        durations = other_durations(rng, durations, nstate or 1)
    v, needed = components(rng, sum(durations)), 2 * len(words)
    return Case("words", {
        "words": words,
        "nstate": nstate,
        "durations": durations,
        "frames": frames_asked(rng, owned),
        "trajectory": trajectory_for(rng, sum(durations), v),
        "v": v,
        "asked": words_asked(rng, words),
        "spans": room_near(rng, needed),
        "milliseconds": room_near(rng, needed),
        "out": room_near(rng, HEAD + SPAN * len(words)),
    })


def bounds(rng: Random, words: int) -> list[int]:
    """Where words end, one after the other: with small steps, far ones, up to the largest frame, or in one place."""
    shape = rng.random()
    if shape < 0.5:
        return list(accumulate(rng.choices([0, 0, 1, 2, 5, 300], k=words)))
    if shape < 0.6:
        return [rng.choice([0, 1, 65_536, LARGEST])] * words
    ends = sorted(rng.choice([0, 255, 256, 2**16, 2**31, LARGEST, rng.getrandbits(32)]) for _ in range(words))
    return ends[:-1] + [rng.choice([LARGEST, *ends[-1:]])] if words else []


def a_file(rng: Random, small: bool) -> bytes:
    """Well formed."""
    shape = rng.random()
    if shape < 0.06:
        words = 0
    elif small or shape < 0.97:
        words = rng.choice([1, 1, 2, 3, rng.randint(2, 12)])
    else:
        words = rng.choice(MANY) if shape < 0.998 else rng.choice(MOST)
    ends = bounds(rng, words)
    return packed([number for first, end in zip([0, *ends], ends) for number in (first, end)])


def timing_case(rng: Random, small: bool) -> Case:
    file = a_file(rng, small)
    words = (len(file) - HEAD) // SPAN
    if rng.random() < 0.35:
        file = broken(rng, file)
    return Case("timing_file", {"bytes": file, "spans": room_near(rng, 2 * words)})
