"""Tables of any content, started or not, with calls of two houses on them, and of some that are none."""

from random import Random

from ..formats import OF_A_SLOT, TABLE_CLEAR, TABLE_FREE, TABLE_SET, TABLE_START, TABLE_USE, Case, TableCall, table_case
from ..reading.houses import COEFFICIENTS, COMMON, OWN, SLOTS, WIDTHS, is_finite, with_zeros
from ..reading.refusals import MAX_WIDTH
from .settings import INFINITIES, NANS, pattern

# The widths and the coefficients of a window set, or of what is none.
Windows = tuple[list[int], list[int]]

ALL_WIDTHS, ALL_COEFFICIENTS = WIDTHS * SLOTS, COEFFICIENTS * SLOTS

# Lengths of the lists that are too short: by a number, by half a slot or a whole one, and by more.
SHORT = [
    (ALL_WIDTHS - 1, ALL_COEFFICIENTS), (ALL_WIDTHS, ALL_COEFFICIENTS - 1), (ALL_WIDTHS - 1, ALL_COEFFICIENTS - 1),
    (ALL_WIDTHS - 2, ALL_COEFFICIENTS), (ALL_WIDTHS, ALL_COEFFICIENTS - 57), (ALL_WIDTHS - 4, ALL_COEFFICIENTS - 60),
]
SHORTER = [(0, 0), (0, ALL_COEFFICIENTS), (ALL_WIDTHS, 0), (30, 450), (18, 245), (1, 1), (ALL_COEFFICIENTS, ALL_WIDTHS)]

# Some that come to a house or a slot where their products with the numbers of a slot, or of a house, are taken in 32 bits.
NO_HOUSES = [2, 2, 3, 4, 255, 256, 2**16, 2**30, 2**30 + 1, 2**31, 2**32 - 2, 2**32 - 1, 2**32 - 1]
NO_SLOTS = [12, 12, 13, 15, 16, 255, 256, 264, 2**16 + 4, 2**30 + 4, 2**30 + 9, 2**31 + 8, 2**32 - 4, 2**32 - 1, 2**32 - 1]

BAD_WIDTHS = [0, 0, MAX_WIDTH + 1, MAX_WIDTH + 1, 60, 2**8 + 1, 2**16 + 1, 2**31, 2**32 - 1, 2**32 - 1]
CALLS = [TABLE_SET] * 10 + [TABLE_CLEAR] * 7 + [TABLE_USE] * 7 + [TABLE_FREE] * 3
HOUSES = [0] * 12 + [1] * 12


def finite(rng: Random) -> int:
    """Of any sign and size, by its bits."""
    while True:
        bits = rng.choice([0, 2**63, 1, 0x7FEFFFFFFFFFFFFF, 0xFFEFFFFFFFFFFFFF]) if rng.random() < 0.3 else pattern(rng)
        if is_finite(bits):
            return bits


def a_set(rng: Random) -> Windows:
    """One that is accepted."""
    widest = rng.choice([1, 3, 3, 5, MAX_WIDTH])
    widths = [rng.choice([rng.randint(1, widest), widest]) for _ in range(rng.randint(1, WIDTHS))]
    return widths, [finite(rng) for _ in range(sum(widths))]


def other_count(rng: Random, windows: Windows) -> Windows:
    """No widths, or too many; the coefficients as they were, or as many as these widths ask for, if they aren't large."""
    widths, coefficients = windows
    widths = rng.choice([[], [1] * (WIDTHS + 1), [*widths, *[1] * WIDTHS]])
    return widths, rng.choice([coefficients, [0] * min(sum(widths), 2 * COEFFICIENTS)])


def other_width(rng: Random, windows: Windows) -> Windows:
    """Out of range, in front, in the middle or at the end; the coefficients as they were, or as many as there may be."""
    widths, coefficients = list(windows[0]), windows[1]
    widths[rng.randrange(len(widths))] = rng.choice(BAD_WIDTHS)
    return widths, rng.choice([coefficients, [0] * min(sum(widths), COEFFICIENTS)])


def other_coefficient(rng: Random, windows: Windows) -> Windows:
    widths, coefficients = windows[0], list(windows[1])
    coefficients[rng.choice([0, -1, rng.randrange(len(coefficients))])] = rng.choice([*NANS, *INFINITIES])
    return widths, coefficients


def other_length(rng: Random, windows: Windows) -> Windows:
    """The coefficients one too few or one too many, which may be a NaN, or far from as many as there should be."""
    widths, coefficients = windows
    more = [[0], [finite(rng)], [rng.choice(NANS)], [0] * COEFFICIENTS]
    return widths, rng.choice([coefficients[:-1], coefficients + rng.choice(more), []])


WRONGS = [other_count, other_width, other_width, other_coefficient, other_length, other_length]


def wrong_set(rng: Random) -> Windows:
    """With one thing wrong, or several, so that their order shows."""
    windows = a_set(rng)
    for _ in range(rng.choice([1, 1, 1, 2, 3])):
        if windows[0] and windows[1]:
            windows = rng.choice(WRONGS)(rng, windows)
    return windows


def behind(rng: Random, numbers: list[int], count: int) -> list[int]:
    """What stands behind a slot's coefficients: mostly a few patterns again and again, NaNs among them."""
    few = [rng.choice([*NANS, *INFINITIES]), pattern(rng), pattern(rng), 0]
    return [*numbers, *(rng.choice(few) for _ in range(count))][:count]


def a_slot(rng: Random) -> Windows:
    """All the numbers of one: zeros, a set with zeros behind it or anything else, a set with something wrong, or anything."""
    shape = rng.random()
    if shape < 0.12:
        return [0] * WIDTHS, [0] * COEFFICIENTS
    if shape < 0.16:
        return [0] * WIDTHS, behind(rng, [], COEFFICIENTS)
    if shape < 0.22:
        return [rng.choice([0, 1, 3, 15, 16, rng.getrandbits(32)]) for _ in range(WIDTHS)], behind(rng, [], COEFFICIENTS)
    widths, coefficients = a_set(rng)
    if shape < 0.5:
        return with_zeros(widths, WIDTHS), with_zeros(coefficients, COEFFICIENTS)
    if shape > 0.8:
        widths, coefficients = rng.choice([other_width, other_coefficient])(rng, (widths, coefficients))
    if shape > 0.95:
        widths = [*widths, *[0] * (WIDTHS - 1 - len(widths)), rng.choice([1, 15])]  # behind a gap, mostly
    return with_zeros(widths[:WIDTHS], WIDTHS), behind(rng, coefficients, COEFFICIENTS)


def within_a_slot(rng: Random) -> tuple[int, int]:
    """One of the lists ends in a slot, or just before it."""
    slot = rng.randrange(SLOTS)
    if rng.random() < 0.5:
        return WIDTHS * slot + rng.randrange(WIDTHS), ALL_COEFFICIENTS
    return ALL_WIDTHS, COEFFICIENTS * slot + rng.choice([0, 1, 3, 9, rng.randrange(COEFFICIENTS), COEFFICIENTS - 1])


def lengths(rng: Random) -> tuple[int, int]:
    shape = rng.random()
    if shape < 0.7:
        return ALL_WIDTHS, ALL_COEFFICIENTS
    if shape < 0.82:
        return ALL_WIDTHS + rng.choice([0, 1, 4, 40]), ALL_COEFFICIENTS + rng.choice([0, 1, 60, 100])
    if shape < 0.97:
        return within_a_slot(rng) if shape < 0.91 else rng.choice(SHORT)
    return rng.choice([*SHORTER, (rng.randrange(ALL_WIDTHS), rng.randrange(ALL_COEFFICIENTS))])


def at_entry(rng: Random) -> Windows:
    """Few slots again and again, from slot to slot; behind a table stand more of them, which no call may find."""
    few = [([0] * WIDTHS, [0] * COEFFICIENTS)] if rng.random() < 0.15 else [a_slot(rng) for _ in range(rng.choice([1, 3, 12]))]
    chosen = [rng.choice(few) for _ in range(SLOTS)]
    n_widths, n_coefficients = lengths(rng)
    widths = [width for own, _ in chosen for width in own] + [1] * ALL_COEFFICIENTS
    coefficients = [bits for _, own in chosen for bits in own] + [pattern(rng)] * ALL_COEFFICIENTS
    return widths[:n_widths], coefficients[:n_coefficients]


def some_sets(rng: Random) -> list[Windows]:
    return [a_set(rng) for _ in range(rng.choice([0, 1, 2, 2, 3, 4, 4]))]


def started_with(rng: Random, sets: list[Windows]) -> TableCall:
    """The sets in rows as long as the longest, or as four widths."""
    row = rng.choice([max((len(widths) for widths, _ in sets), default=0), WIDTHS])
    widths = [width for own, _ in sets for width in with_zeros(own, row)]
    coefficients = [bits for _, own in sets for bits in own]
    return TableCall(TABLE_START, common=len(sets), widths=tuple(widths), coefficients=tuple(coefficients))


def another_set(rng: Random, sets: list[Windows]) -> list[Windows]:
    """One of them wrong, or too many of them, or some without widths."""
    how = rng.randrange(4)
    if how == 0:
        return sets + [a_set(rng) for _ in range(len(COMMON) + 1)]
    if how == 1 or not sets:
        return [*sets, ([], [])]
    at = rng.randrange(len(sets))
    return [*sets[:at], wrong_set(rng), *sets[at + 1 :]]


def other_rows(rng: Random, start: TableCall) -> TableCall:
    """Lists that no longer agree, rows of five or more, or another number of sets."""
    widths, coefficients, common = start.widths, start.coefficients, start.common
    how = rng.randrange(5)
    if how == 0:
        common = rng.choice([0, 0, 1, min(common + 1, 2**32 - 1), max(0, common - 1), 5, 2**16, 2**31, 2**32 - 1])
    elif how == 1:
        widths = rng.choice([widths[:-1], (*widths, 0), (*widths, 1), (*widths, 1), (*widths, 16), (), (*widths, 0, 0, 0, 0, 0)])
    elif how == 2:
        coefficients = rng.choice([coefficients[:-1], (*coefficients, 0), (*coefficients, rng.choice(NANS)), ()])
    elif how == 3 and 0 < common <= len(widths):
        row = len(widths) // common
        rows = [widths[row * at : row * (at + 1)] for at in range(common)]
        widths = tuple(width for own in rows for width in (*own, *[0] * (WIDTHS + 1 - row)))
    elif widths:
        at = rng.randrange(len(widths))
        widths = (*widths[:at], rng.choice([*BAD_WIDTHS, 1]), *widths[at + 1 :])
    return TableCall(TABLE_START, common=common, widths=widths, coefficients=coefficients)


def a_start(rng: Random, wrong_share: float) -> TableCall:
    sets = some_sets(rng)
    if rng.random() >= wrong_share:
        return started_with(rng, sets)
    if rng.random() < 0.4:
        return started_with(rng, another_set(rng, sets))
    start = started_with(rng, sets)
    for _ in range(rng.choice([1, 1, 1, 2])):
        start = other_rows(rng, start)
    return start


def slot_for(rng: Random, house: int, call: int) -> int:
    """Mostly of the house's own, also common ones, the other's, and none."""
    shape = rng.random()
    if shape < (0.6 if call == TABLE_USE else 0.8):
        return rng.choice(OWN.get(house, OWN[house % 2]))
    if shape < 0.86:
        return rng.choice(COMMON)
    return rng.choice(OWN[1 - house % 2]) if shape < 0.94 else rng.choice(NO_SLOTS)


def a_call(rng: Random) -> TableCall:
    if rng.random() < 0.03:
        return a_start(rng, 0.6)
    call, house = rng.choice(CALLS), rng.choice([*HOUSES, rng.choice(NO_HOUSES)])
    slot = slot_for(rng, house, call) if call in OF_A_SLOT else 0
    if call == TABLE_SET:
        widths, coefficients = wrong_set(rng) if rng.random() < 0.3 else a_set(rng)
        return TableCall(call, house, slot, widths=tuple(widths), coefficients=tuple(coefficients))
    room = rng.choice([*[WIDTHS] * 5, WIDTHS + 1, WIDTHS + 1, 0, WIDTHS - 1, 9]) if call == TABLE_USE else 0
    return TableCall(call, house, slot, room=room)


def houses_case(rng: Random, small: bool) -> Case:
    widths, coefficients = at_entry(rng)
    count = rng.choice([1, 2, 4, 8]) if small else rng.choice([1, 2, 3, 5, 8, 12, 20, 40])
    calls = [a_start(rng, 0.4)] if rng.random() < 0.45 else []
    calls += [a_call(rng) for _ in range(count)]
    return table_case(widths, coefficients, calls)
