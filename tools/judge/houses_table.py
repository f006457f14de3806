"""RULES, Houses, by hand: for `tools/table`, tables with all that the calls of two houses leave."""

import struct
from typing import NamedTuple

from .formats import TABLE_CLEAR, TABLE_FREE, TABLE_SET, TABLE_START, TABLE_USE, UNTOUCHED_U32, UNTOUCHED_U64
from .formats import Case, Fields, TableCall, marked_u32, table_case

# A line of the table: its name, the case, and what the calls leave.
Told = tuple[str, Case, Fields]


class Slot(NamedTuple):
    """What stands in a slot, zeros behind it, and whether that is a window set."""

    widths: list[int]
    coefficients: list[int]  # by their bits
    is_set: bool = True


# What stands in some slots of a table, zeros alone in all others.
Slots = dict[int, Slot]
# A call, its refusal, and what an accepted one comes to: of a use the first place, the widths and the count; of a free its count;
# of a start the table.
Made = tuple

HOUSE_0, HOUSE_1 = range(4, 8), range(8, 12)
NOBODY = 4_294_967_295


def bits(*numbers: float) -> list[int]:
    return list(struct.unpack(f"<{len(numbers)}Q", struct.pack(f"<{len(numbers)}d", *numbers)))


NAN, ODD_NAN, INFINITY, MINUS_INFINITY = 0x7FF8000000000000, 0xFFF0000000000001, 0x7FF0000000000000, 0xFFF0000000000000
MINUS_ZERO, LARGEST = 2**63, 0x7FEFFFFFFFFFFFFF

# The header's two sets.
STATIC = Slot([1], bits(1.0))
DELTA = Slot([1, 3], bits(1.0, -0.5, 0.0, 0.5))
HEADER_WIDTHS, HEADER_COEFFICIENTS = [1, 0, 1, 3], bits(1.0, 1.0, -0.5, 0.0, 0.5)

THREE = Slot([3], bits(0.25, 0.5, 0.25))
FULL = Slot([15, 15, 15, 15], bits(*map(float, range(1, 61))))
ZEROS = Slot([1, 2], [MINUS_ZERO, 0, LARGEST])
NONE = Slot([], [], False)

# What start or clear never left: sets with other numbers behind them, and slots that count as empty.
LOOSE = Slot([1, 3], [*bits(1.0, -0.5, 0.0, 0.5), ODD_NAN, INFINITY, *bits(7.0)])
HOLLOW = [
    Slot([], [ODD_NAN, *bits(1.0)], False),
    Slot([0, 1], bits(1.0), False),
    Slot([1, 0, 1], bits(1.0, 1.0), False),
    Slot([1, 0, 0, 1], bits(1.0, 1.0), False),
    Slot([16], bits(*[1.0] * 16), False),
    Slot([15, 15, 15, 16], bits(*[1.0] * 60), False),
    Slot([NOBODY], bits(1.0), False),
    Slot([NOBODY, 2], bits(1.0), False),
    Slot([1, 2**31, 2**31], bits(1.0), False),
    Slot([3], [*bits(1.0, 1.0), ODD_NAN], False),
    Slot([3], [INFINITY, *bits(1.0, 1.0)], False),
    Slot([1, 3], [*bits(1.0, -0.5), MINUS_INFINITY, *bits(0.5)], False),
    Slot([15, 15, 15, 15], [*bits(*[1.0] * 59), NAN], False),
]


def numbers_of(slots: Slots, each: int, name: str) -> list[int]:
    listed = [list(getattr(slots.get(slot, NONE), name)) for slot in range(12)]
    return [number for own in listed for number in own + [0] * (each - len(own))]


def in_lists(slots: Slots, lengths: tuple[int, int], behind: tuple[list[int], list[int]]) -> tuple[list[int], list[int]]:
    """A table's two lists, cut at these lengths, or with numbers behind it."""
    widths, coefficients = numbers_of(slots, 4, "widths"), numbers_of(slots, 60, "coefficients")
    return widths[: lengths[0]] + behind[0], coefficients[: lengths[1]] + behind[1]


def after(slots: Slots, call: TableCall, refusal: int, answer: object) -> Slots:
    if refusal or call.call in (TABLE_USE, TABLE_FREE):
        return slots
    if call.call == TABLE_START:
        return answer
    return {**slots, call.slot: Slot(list(call.widths), list(call.coefficients)) if call.call == TABLE_SET else NONE}


def free_in(slots: Slots, is_short: bool) -> list[int]:
    if is_short:
        return [UNTOUCHED_U32] * 2
    return [sum(not slots.get(slot, NONE).is_set for slot in own) for own in (HOUSE_0, HOUSE_1)]


def told(
    name: str,
    entry: Slots,
    made: list[Made],
    left: Slots,
    *,
    lengths: tuple[int, int] = (48, 720),
    behind: tuple[list[int], list[int]] = ([], []),
) -> Told:
    """Each call with its refusal, and what it hands out where it isn't refused; the table as it is left then."""
    is_short, slots = lengths[0] < 48 or lengths[1] < 720, entry
    values: Fields = {name: [] for name in ("refusals", "firsts", "used", "counts", "free", "changed", "places", "numbers")}
    values["free_counts"] = free_in(entry, is_short)
    for call, refusal, *handed in made:
        earlier, slots = slots, after(slots, call, refusal, *(handed or [None]))
        both = [sum(in_lists(one, lengths, behind), []) for one in (earlier, slots)]
        places = [place for place, (a, b) in enumerate(zip(*both)) if a != b]
        values["refusals"].append(refusal)
        values["free_counts"] += free_in(slots, is_short)
        values["changed"].append(len(places))
        values["places"] += places
        values["numbers"] += [both[1][place] for place in places]
        if call.call == TABLE_FREE:
            values["free"] += handed or [UNTOUCHED_U32]
        if call.call == TABLE_USE:
            first, widths, count = handed[0] if handed else (UNTOUCHED_U64, [], UNTOUCHED_U64)
            values["firsts"].append(first)
            values["counts"].append(count)
            values["used"] += widths + marked_u32(len(widths), call.room)
    values["widths_table"], values["coefficients_table"] = in_lists(left, lengths, behind)
    return name, table_case(*in_lists(entry, lengths, behind), [call for call, *_ in made]), values


def start(common: int, widths: list[int], coefficients: list[int]) -> TableCall:
    return TableCall(TABLE_START, common=common, widths=tuple(widths), coefficients=tuple(coefficients))


def put(house: int, slot: int, windows: Slot) -> TableCall:
    return TableCall(TABLE_SET, house, slot, widths=tuple(windows.widths), coefficients=tuple(windows.coefficients))


def clear(house: int, slot: int) -> TableCall:
    return TableCall(TABLE_CLEAR, house, slot)


def use(house: int, slot: int, room: int = 4) -> TableCall:
    return TableCall(TABLE_USE, house, slot, room=room)


def free(house: int) -> TableCall:
    return TableCall(TABLE_FREE, house)


HEADER: Slots = {0: STATIC, 1: DELTA}
# Every slot holds a set of its own.
EVERY: Slots = {slot: Slot([1, slot + 1], bits(*map(float, range(slot + 2)))) for slot in range(12)}
# What use hands out of each: the first place, the widths and the count.
USED = {slot: (60 * slot, [1, slot + 1, 0, 0], slot + 2) for slot in range(12)}

STARTS: list[Told] = [
    told("the header's start", EVERY, [(start(2, HEADER_WIDTHS, HEADER_COEFFICIENTS), 0, HEADER)], HEADER),
    told("the header's start in rows of four", {4: LOOSE, 11: HOLLOW[0]},
         [(start(2, [1, 0, 0, 0, 1, 3, 0, 0], HEADER_COEFFICIENTS), 0, HEADER)], HEADER),
    told("what the header's start hands out", {},
         [(start(2, HEADER_WIDTHS, HEADER_COEFFICIENTS), 0, HEADER), (use(0, 0), 0, (0, [1, 0, 0, 0], 1)),
          (use(1, 1), 0, (60, [1, 3, 0, 0], 4)), (use(0, 2), 24), (use(1, 3), 24), (use(0, 4), 24), (use(0, 8), 23),
          (free(0), 0, 4), (free(1), 0, 4)],
         HEADER),
    told("a start with no sets", EVERY, [(start(0, [], []), 0, {})], {}),
    told("a start with four sets", {},
         [(start(4, [3, 0, 0, 0, 15, 15, 15, 15, 1, 2, 0, 0, 1, 3, 0, 0],
                 THREE.coefficients + FULL.coefficients + ZEROS.coefficients + DELTA.coefficients), 0,
           {0: THREE, 1: FULL, 2: ZEROS, 3: DELTA})],
         {0: THREE, 1: FULL, 2: ZEROS, 3: DELTA}),
    told("a start in rows of one", {},
         [(start(3, [1, 3, 1], bits(1.0, 0.25, 0.5, 0.25, 1.0)), 0, {0: STATIC, 1: THREE, 2: STATIC})],
         {0: STATIC, 1: THREE, 2: STATIC}),
    told("a start over whatever stood there", {slot: hollow for slot, hollow in enumerate(HOLLOW[:12])},
         [(start(1, [1], bits(1.0)), 0, {0: STATIC})], {0: STATIC}),
    told("a start and what is behind the table", {}, [(start(1, [1], bits(1.0)), 0, {0: STATIC}), (start(0, [], []), 0, {})], {},
         behind=([1, 16, NOBODY], [ODD_NAN, 1, INFINITY])),
    told("a start anew clears both houses", {},
         [(put(0, 5, THREE), 0), (put(1, 9, FULL), 0), (start(1, [1], bits(1.0)), 0, {0: STATIC}), (free(0), 0, 4), (free(1), 0, 4),
          (use(0, 5), 24), (use(1, 9), 24), (put(0, 5, DELTA), 0)],
         {0: STATIC, 5: DELTA}),
]


def refused_start(name: str, number: int, common: int, widths: list[int], coefficients: list[int]) -> list[Told]:
    """The table is then as it was; before 6 goes every other number."""
    call = start(common, widths, coefficients)
    tables = [(48, 720), (47, 720), (48, 719), (0, 0)]
    return [told(f"start: {name}, in {lengths}", EVERY, [(call, number)], EVERY, lengths=lengths) for lengths in tables]


def short_start(lengths: tuple[int, int]) -> Told:
    calls = [(start(2, HEADER_WIDTHS, HEADER_COEFFICIENTS), 6), (start(0, [], []), 6)]
    return told(f"start in {lengths}", EVERY, calls, EVERY, lengths=lengths)


ONE = bits(1.0)
REFUSED_STARTS: list[Told] = [
    line
    for lines in [
        refused_start("5 sets", 23, 5, [1] * 5, bits(*[1.0] * 5)),
        refused_start("4,294,967,295 sets", 23, NOBODY, [], []),
        refused_start("5 sets and all else wrong", 23, 5, [16, 0, 1], [NAN] * 9),
        refused_start("a row of five", 1, 1, [1, 1, 1, 1, 1], bits(*[1.0] * 5)),
        refused_start("a row of five, four of them zeros", 1, 1, [1, 0, 0, 0, 0], ONE),
        refused_start("rows of five", 1, 2, [1, 0, 0, 0, 0, 1, 0, 0, 0, 0], bits(1.0, 1.0)),
        refused_start("a row of none", 1, 1, [], []),
        refused_start("fewer widths than sets", 1, 3, [1, 1], bits(1.0, 1.0)),
        refused_start("a row of zeros", 1, 2, [1, 0], ONE),
        refused_start("a row of four zeros", 1, 1, [0, 0, 0, 0], []),
        refused_start("a zero in front", 1, 1, [0, 1], ONE),
        refused_start("a zero in the middle", 1, 1, [1, 0, 1], bits(1.0, 1.0)),
        refused_start("a width of 16", 1, 1, [16], bits(*[1.0] * 16)),
        refused_start("a last set's width of 16", 1, 2, [1, 16], bits(*[1.0] * 17)),
        refused_start("a width of 4,294,967,295", 1, 2, [1, NOBODY], ONE),
        refused_start("a width, a coefficient and the lengths wrong", 1, 2, [1, 16, 1], [NAN]),
        refused_start("a row of zeros, a coefficient wrong", 1, 2, [1, 0], [INFINITY]),
        refused_start("a NaN", 2, 1, [1], [ODD_NAN]),
        refused_start("an infinity in the last set", 2, 2, [1, 1], [*ONE, MINUS_INFINITY]),
        refused_start("a NaN and a coefficient too many", 2, 1, [1], [*ONE, NAN]),
        refused_start("a NaN and rows that aren't all", 2, 2, [1, 1, 1], [*ONE, NAN, *ONE]),
        refused_start("a NaN and no set", 2, 0, [], [NAN]),
        refused_start("rows that aren't all of the list", 4, 2, [1, 1, 1], bits(1.0, 1.0, 1.0)),
        refused_start("rows that aren't all, a 16 left over", 4, 2, [1, 1, 16], bits(1.0, 1.0)),
        refused_start("rows that aren't all, a 0 left over", 4, 2, [1, 1, 0], bits(1.0, 1.0)),
        refused_start("nine widths of two sets", 4, 2, [1, 1, 1, 1, 1, 1, 1, 1, 1], bits(*[1.0] * 9)),
        refused_start("eleven widths of two sets", 1, 2, [1] * 11, bits(*[1.0] * 11)),
        refused_start("a coefficient too few", 4, 2, HEADER_WIDTHS, HEADER_COEFFICIENTS[:4]),
        refused_start("a coefficient too many", 4, 2, HEADER_WIDTHS, [*HEADER_COEFFICIENTS, 0]),
        refused_start("no coefficients", 4, 1, [1], []),
        refused_start("widths and no set", 4, 0, [1], []),
        refused_start("a width of 16 and no set", 4, 0, [16], []),
        refused_start("a zero and no set", 4, 0, [0], []),
        refused_start("coefficients and no set", 4, 0, [], ONE),
    ]
    for line in lines
] + [short_start(lengths) for lengths in [(47, 720), (48, 719), (47, 719), (0, 720), (48, 0), (0, 0), (4, 60)]]


# Wrong sets, and their numbers.
WRONG_SETS: list[tuple[Slot, int]] = [
    (Slot([], []), 1),
    (Slot([], ONE), 1),
    (Slot([1] * 5, bits(*[1.0] * 5)), 1),
    (Slot([0], []), 1),
    (Slot([1, 0], ONE), 1),  # zeros at the end are widths here
    (Slot([0, 1], ONE), 1),
    (Slot([1, 0, 1], bits(1.0, 1.0)), 1),
    (Slot([16], bits(*[1.0] * 16)), 1),
    (Slot([NOBODY], ONE), 1),
    (Slot([1, NOBODY, 1], ONE), 1),
    (Slot([16], [NAN]), 1),
    (Slot([], [NAN]), 1),
    (Slot([1], [NAN]), 2),
    (Slot([1], [ODD_NAN]), 2),
    (Slot([1], [INFINITY]), 2),
    (Slot([1, 3], [*bits(1.0, -0.5, 0.0), MINUS_INFINITY]), 2),
    (Slot([3], [NAN]), 2),
    (Slot([1], [*ONE, NAN]), 2),
    (Slot([1], []), 4),
    (Slot([1], bits(1.0, 1.0)), 4),
    (Slot([1, 3], bits(1.0, -0.5, 0.0)), 4),
    (Slot([15, 15, 15, 15], FULL.coefficients[:59]), 4),
    (Slot([15, 15, 15, 15], [*FULL.coefficients, 0]), 4),
]
EVERYTHING_WRONG = Slot([16, 0], [NAN])
SETS: Slots = {4: STATIC, 7: FULL, 8: DELTA, 11: LOOSE}


def order(lengths: tuple[int, int]) -> Told:
    """23 before 24 and 25, these before 1, 2 and 4, and 6 last: in a table that is long enough 6 is for use's list alone."""
    is_short = lengths != (48, 720)
    foreign = [(0, 8), (1, 7), (0, 0), (1, 3), (0, 12), (1, NOBODY), (2, 4), (2, 0), (NOBODY, 8)]
    made: list[Made] = [(put(house, slot, EVERYTHING_WRONG), 23) for house, slot in foreign]
    made += [(put(house, slot, STATIC), 23) for house, slot in foreign]
    made += [(clear(house, slot), 23) for house, slot in foreign]
    made += [(use(house, slot, 0), 23) for house, slot in [(0, 8), (1, 7), (0, 12), (1, NOBODY), (2, 0), (2, 4), (NOBODY, 3)]]
    made += [(put(0, 4, EVERYTHING_WRONG), 25), (put(1, 8, Slot([1], [NAN])), 25), (put(1, 8, STATIC), 25)]
    made += [(clear(0, 5), 24), (clear(1, 9), 24), (use(0, 5, 0), 24), (use(1, 2, 3), 24)]
    made += [(put(0, 5, wrong), number) for wrong, number in WRONG_SETS]
    made += [(use(0, 4, 3), 6), (use(1, 8, 0), 6), (free(2), 23), (free(NOBODY), 23)]
    made += [(put(0, 5, STATIC), 6), (clear(0, 4), 6), (use(0, 4), 6), (free(0), 6), (free(1), 6)] if is_short else []
    return told(f"refusals in their order, in {lengths}", SETS, made, SETS, lengths=lengths)


# Lists that end just behind the sets of the slots 4 and 8, or further on.
ORDERS = [order(lengths) for lengths in [(48, 720), (47, 720), (48, 719), (34, 484), (36, 720), (48, 600)]]


def cut(name: str, lengths: tuple[int, int], made: list[Made]) -> Told:
    return told(f"{name}, in {lengths}", SETS, made, SETS, lengths=lengths)


# Of a slot that a list ends before, or in, what is there counts: 6 where it is a set, 24 where not; 4 has one coefficient, 7 sixty.
CUTS: list[Told] = [
    cut("no list", (0, 0), [(use(0, 4), 24), (clear(0, 4), 24), (put(0, 4, STATIC), 6), (use(0, 0), 24), (free(0), 6)]),
    cut("the first width alone", (17, 241), [(use(0, 4), 6), (clear(0, 4), 6), (put(0, 4, STATIC), 25)]),
    cut("the slot's first width gone", (16, 241), [(use(0, 4), 24), (clear(0, 4), 24), (put(0, 4, STATIC), 6)]),
    cut("the slot's coefficient gone", (17, 240), [(use(0, 4), 24), (clear(0, 4), 24), (put(0, 4, STATIC), 6)]),
    cut("sixty coefficients", (32, 480), [(use(0, 7), 6), (clear(0, 7), 6), (put(0, 7, STATIC), 25)]),
    cut("the last of sixty gone", (32, 479), [(use(0, 7), 24), (clear(0, 7), 24), (put(0, 7, STATIC), 6)]),
    cut("three widths of four, and sixty coefficients", (31, 480), [(use(0, 7), 6), (clear(0, 7), 6), (put(0, 7, STATIC), 25)]),
    cut("three widths of four, and their 45 coefficients", (31, 465), [(use(0, 7), 6), (clear(0, 7), 6)]),
    cut("three widths of four, and 44 coefficients", (31, 464), [(use(0, 7), 24), (clear(0, 7), 24)]),
    cut("one of two widths, and its coefficient", (33, 481), [(use(1, 8), 6), (clear(1, 8), 6), (put(1, 8, STATIC), 25)]),
    cut("two widths, and three of four coefficients", (34, 483), [(use(1, 8), 24), (put(1, 8, STATIC), 6), (free(1), 6)]),
    cut("lists too short by one", (47, 719),
        [(use(1, 11), 6), (clear(1, 11), 6), (put(1, 11, STATIC), 25), (put(1, 10, STATIC), 6)]),
]


def own(house: int) -> range:
    return HOUSE_1 if house else HOUSE_0


def uses(house: int) -> list[Made]:
    """Every slot of a table in which each is set, by a house, and some that are not there."""
    seen = [*range(4), *own(house)]
    made: list[Made] = [(use(house, slot), 0, USED[slot]) if slot in seen else (use(house, slot), 23) for slot in range(14)]
    return [*made, (use(house, NOBODY), 23), (use(house, 2**30 + 4), 23), (free(house), 0, 0)]


TABLES: list[Told] = [
    told("zeros: every slot is empty", {},
         [*((use(0, slot), 24) for slot in range(8)), *((use(1, slot), 24) for slot in (0, 1, 2, 3, 8, 9, 10, 11)),
          (free(0), 0, 4), (free(1), 0, 4)],
         {}),
    told("house 0 uses every slot", EVERY, uses(0), EVERY),
    told("house 1 uses every slot", EVERY, uses(1), EVERY),
    told("a house that doesn't exist uses none", EVERY,
         [(use(house, slot), 23) for house in (2, 3, 2**30, NOBODY) for slot in (0, 3, 4, 8, 12, 16)], EVERY),
    told("use of the places that are there", {4: DELTA, 8: FULL},
         [(use(0, 4, 5), 0, (240, [1, 3, 0, 0], 4)), (use(1, 8, 9), 0, (480, [15] * 4, 60)), (use(0, 4, 3), 6), (use(0, 4, 0), 6)],
         {4: DELTA, 8: FULL}),
    told("set, clear and set again", {},
         [(put(0, 4, FULL), 0), (free(0), 0, 3), (put(0, 4, DELTA), 25), (clear(0, 4), 0), (clear(0, 4), 24), (free(0), 0, 4),
          (use(0, 4), 24), (put(0, 4, DELTA), 0), (use(0, 4), 0, (240, [1, 3, 0, 0], 4)), (free(0), 0, 3)],
         {4: DELTA}),
    told("at the border of the houses", {},
         [(put(0, 8, STATIC), 23), (put(1, 7, STATIC), 23), (put(0, 7, THREE), 0), (put(1, 8, FULL), 0), (use(0, 8), 23),
          (use(1, 7), 23), (clear(0, 8), 23), (clear(1, 7), 23), (free(0), 0, 3), (free(1), 0, 3), (clear(0, 7), 0),
          (use(1, 8), 0, (480, [15] * 4, 60))],
         {8: FULL}),
    told("at the border of the common slots", {3: STATIC},
         [(put(0, 3, THREE), 23), (clear(0, 3), 23), (clear(1, 3), 23), (put(1, 2, THREE), 23), (put(0, 2, THREE), 23),
          (use(0, 3), 0, (180, [1, 0, 0, 0], 1)), (use(1, 3), 0, (180, [1, 0, 0, 0], 1)), (put(0, 4, THREE), 0)],
         {3: STATIC, 4: THREE}),
    told("at the last slot", {},
         [(put(1, 11, FULL), 0), (put(1, 12, STATIC), 23), (use(1, 11), 0, (660, [15] * 4, 60)), (use(1, 12), 23)],
         {11: FULL}),
    told("a set to the bit", {}, [(put(1, 10, ZEROS), 0), (use(1, 10), 0, (600, [1, 2, 0, 0], 3))], {10: ZEROS}),
    told("both houses fill their slots", {},
         [*((put(slot // 8, slot, EVERY[slot]), 0) for slot in (4, 8, 5, 9, 10, 6, 11, 7)), (free(0), 0, 0), (free(1), 0, 0)],
         {slot: EVERY[slot] for slot in range(4, 12)}),
    told("free counts a house's own", {0: HOLLOW[1], 4: LOOSE, 5: HOLLOW[4], 8: HOLLOW[9], 9: FULL, 10: THREE, 11: STATIC},
         [(free(0), 0, 3), (free(1), 0, 1), (free(2), 23)],
         {0: HOLLOW[1], 4: LOOSE, 5: HOLLOW[4], 8: HOLLOW[9], 9: FULL, 10: THREE, 11: STATIC}),
    told("a set with numbers behind it", {1: LOOSE, 6: LOOSE, 9: LOOSE},
         [(use(0, 1), 0, (60, [1, 3, 0, 0], 4)), (use(0, 6), 0, (360, [1, 3, 0, 0], 4)), (put(0, 6, STATIC), 25), (clear(0, 6), 0),
          (put(0, 6, STATIC), 0), (use(1, 9), 0, (540, [1, 3, 0, 0], 4))],
         {1: LOOSE, 6: STATIC, 9: LOOSE}),
    told("what is behind the table is not touched", {},
         [(put(1, 11, FULL), 0), (put(1, 12, STATIC), 23), (use(0, 12), 23), (clear(1, 11), 0), (free(1), 0, 4)], {},
         behind=([1, 2, 3, 4, 5], [ODD_NAN, *bits(1.0, 2.0), INFINITY])),
]


def hollow_lines() -> list[Told]:
    """A slot that counts as empty, in every place; setting it leaves the same as setting one that was cleared."""
    lines = []
    for number, hollow in enumerate(HOLLOW):
        entry = {slot: hollow for slot in range(12)}
        left = {**entry, 6: DELTA, 8: FULL}
        made: list[Made] = [(use(0, 0), 24), (use(1, 3), 24), (use(0, 6), 24), (clear(0, 6), 24), (clear(1, 8), 24)]
        made += [(free(0), 0, 4), (put(0, 6, Slot([], [])), 1), (put(0, 6, DELTA), 0), (put(1, 8, FULL), 0)]
        made += [(free(0), 0, 3), (free(1), 0, 3)]
        lines.append(told(f"hollow slots, number {number}", entry, made, left))
        again = [*made, (clear(0, 6), 0), (put(0, 6, THREE), 0)]
        lines.append(told(f"hollow slots, number {number}, set, cleared and set", entry, again, {**entry, 6: THREE, 8: FULL}))
    return lines


LINES: list[Told] = [*STARTS, *REFUSED_STARTS, *ORDERS, *CUTS, *TABLES, *hollow_lines()]

# Calls of both houses, and each house's alone, for the claim: a house's answers stand there twice, by hand.
OF_0: list[Made] = [
    (put(0, 4, THREE), 0), (free(0), 0, 3), (put(0, 8, THREE), 23), (use(0, 4), 0, (240, [3, 0, 0, 0], 3)), (clear(0, 5), 24),
    (use(0, 0), 0, (0, [1, 0, 0, 0], 1)), (clear(0, 4), 0), (use(0, 4), 24),
]
OF_1: list[Made] = [
    (put(1, 8, FULL), 0), (put(1, 4, THREE), 23), (clear(1, 4), 23), (use(1, 0), 0, (0, [1, 0, 0, 0], 1)), (put(1, 11, DELTA), 0),
    (use(1, 8), 0, (480, [15] * 4, 60)), (free(1), 0, 2), (clear(1, 8), 0),
]
SHARED: Slots = {0: STATIC, 7: HOLLOW[3], 10: HOLLOW[0]}
TOGETHER = told("both houses", SHARED, [one for pair in zip(OF_0, OF_1) for one in pair], {**SHARED, 11: DELTA})
ALONE = [told("house 0 alone", SHARED, OF_0, SHARED), told("house 1 alone", SHARED, OF_1, {**SHARED, 11: DELTA})]
LINES += [TOGETHER, *ALONE]
