"""RULES, Houses: what a table's lists say, and what the calls make of them."""

from dataclasses import dataclass, field

from ..formats import TABLE_CLEAR, TABLE_FREE, TABLE_SET, TABLE_START, UNTOUCHED_U32, UNTOUCHED_U64
from ..formats import Case, Fields, TableCall, marked_u32, table_calls
from .refusals import MAX_WINDOWS, bad_windows
from .settings import INFINITY, SIZE_BITS

SLOTS = 12
COMMON = range(4)
OWN = {0: range(4, 8), 1: range(8, 12)}
# The numbers of a slot.
WIDTHS, COEFFICIENTS = MAX_WINDOWS, 60

BAD_WINDOWS, BAD_COEFFICIENT, DISAGREE, TOO_SHORT, NOT_YOURS, EMPTY, SET_ALREADY = 1, 2, 4, 6, 23, 24, 25


def without_zeros(widths: list[int]) -> list[int]:
    """Without those at their end."""
    count = max((place for place, width in enumerate(widths, 1) if width), default=0)
    return widths[:count]


def with_zeros(numbers: list[int], count: int) -> list[int]:
    return [*numbers, *[0] * (count - len(numbers))]


def is_finite(bits: int) -> bool:
    return bits & SIZE_BITS < INFINITY


def windows_refusal(widths: list[int], coefficients: list[int]) -> int:
    """Of a window set, 0 for none."""
    if bad_windows(widths):
        return BAD_WINDOWS
    if not all(map(is_finite, coefficients)):
        return BAD_COEFFICIENT
    return DISAGREE if len(coefficients) != sum(widths) else 0


def rows_of(widths: list[int], common: int) -> list[list[int]]:
    """A row for each set, all of one length; what is left over is in none."""
    length = len(widths) // common if common else 0
    return [widths[length * row : length * (row + 1)] for row in range(common)]


def start_refusal(widths: list[int], coefficients: list[int], common: int) -> int:
    """Of the common sets, 0 for none."""
    if common > len(COMMON):
        return NOT_YOURS
    rows = rows_of(widths, common)
    if any(len(row) > WIDTHS or bad_windows(without_zeros(row)) for row in rows):
        return BAD_WINDOWS
    if not all(map(is_finite, coefficients)):
        return BAD_COEFFICIENT
    if sum(map(len, rows)) != len(widths):
        return DISAGREE
    return DISAGREE if len(coefficients) != sum(widths) else 0


def is_own(house: int, slot: int) -> bool:
    return house in OWN and slot in OWN[house]


def may_use(house: int, slot: int) -> bool:
    return house in OWN and (slot in COMMON or slot in OWN[house])


@dataclass
class Table:
    widths: list[int]
    coefficients: list[int]  # by their bits

    def is_short(self) -> bool:
        return len(self.widths) < WIDTHS * SLOTS or len(self.coefficients) < COEFFICIENTS * SLOTS

    def content(self, slot: int) -> tuple[list[int], list[int]]:
        """The widths and coefficients of a slot, be they a window set or not."""
        widths = without_zeros(self.widths[WIDTHS * slot : WIDTHS * (slot + 1)])
        return widths, self.coefficients[COEFFICIENTS * slot : COEFFICIENTS * (slot + 1)][: sum(widths)]

    def is_empty(self, slot: int) -> bool:
        return windows_refusal(*self.content(slot)) != 0

    def put(self, slot: int, widths: list[int], coefficients: list[int]) -> None:
        self.widths[WIDTHS * slot : WIDTHS * (slot + 1)] = with_zeros(widths, WIDTHS)
        self.coefficients[COEFFICIENTS * slot : COEFFICIENTS * (slot + 1)] = with_zeros(coefficients, COEFFICIENTS)

    def start(self, widths: list[int], coefficients: list[int], common: int) -> int:
        number = start_refusal(widths, coefficients, common) or (TOO_SHORT if self.is_short() else 0)
        if number:
            return number
        for slot in range(SLOTS):
            self.put(slot, [], [])
        for slot, row in enumerate(rows_of(widths, common)):
            self.put(slot, without_zeros(row), coefficients[: sum(row)])
            coefficients = coefficients[sum(row) :]
        return 0

    def set_refusal(self, house: int, slot: int, widths: list[int], coefficients: list[int]) -> int:
        if not is_own(house, slot):
            return NOT_YOURS
        if not self.is_empty(slot):
            return SET_ALREADY
        return windows_refusal(widths, coefficients) or (TOO_SHORT if self.is_short() else 0)

    def set(self, house: int, slot: int, widths: list[int], coefficients: list[int]) -> int:
        number = self.set_refusal(house, slot, widths, coefficients)
        if number == 0:
            self.put(slot, widths, coefficients)
        return number

    def clear(self, house: int, slot: int) -> int:
        if not is_own(house, slot):
            return NOT_YOURS
        if self.is_empty(slot):
            return EMPTY
        if self.is_short():
            return TOO_SHORT
        self.put(slot, [], [])
        return 0

    def use(self, house: int, slot: int, room: int) -> tuple[int, list[int]]:
        """The refusal, and the widths where there is none."""
        if not may_use(house, slot):
            return NOT_YOURS, []
        if self.is_empty(slot):
            return EMPTY, []
        if self.is_short() or room < WIDTHS:
            return TOO_SHORT, []
        return 0, self.content(slot)[0]

    def free(self, house: int) -> tuple[int, int]:
        if house not in OWN:
            return NOT_YOURS, 0
        return (TOO_SHORT, 0) if self.is_short() else (0, sum(map(self.is_empty, OWN[house])))

    def free_count(self, house: int) -> int:
        """As it is handed out."""
        number, free = self.free(house)
        return UNTOUCHED_U32 if number else free

    def all_numbers(self) -> list[int]:
        return self.widths + self.coefficients


@dataclass
class Left:
    """What the calls hand out, refused ones too, and what each changes."""

    refusals: list[int] = field(default_factory=list)
    firsts: list[int] = field(default_factory=list)
    used: list[int] = field(default_factory=list)
    counts: list[int] = field(default_factory=list)
    free: list[int] = field(default_factory=list)
    free_counts: list[int] = field(default_factory=list)
    changed: list[int] = field(default_factory=list)
    places: list[int] = field(default_factory=list)
    numbers: list[int] = field(default_factory=list)

    def tell_free(self, table: Table) -> None:
        self.free_counts += [table.free_count(house) for house in OWN]

    def tell_changes(self, before: list[int], after: list[int]) -> None:
        places = [place for place, number in enumerate(after) if number != before[place]] if after != before else []
        self.changed.append(len(places))
        self.places += places
        self.numbers += [after[place] for place in places]


def follow(table: Table, one: TableCall, left: Left) -> int:
    """Makes a call and gives its refusal number."""
    widths, coefficients = list(one.widths), list(one.coefficients)
    if one.call == TABLE_START:
        return table.start(widths, coefficients, one.common)
    if one.call == TABLE_SET:
        return table.set(one.house, one.slot, widths, coefficients)
    if one.call == TABLE_CLEAR:
        return table.clear(one.house, one.slot)
    if one.call == TABLE_FREE:
        left.free.append(table.free_count(one.house))
        return table.free(one.house)[0]
    number, used = table.use(one.house, one.slot, one.room)
    left.firsts.append(UNTOUCHED_U64 if number else COEFFICIENTS * one.slot)
    left.counts.append(UNTOUCHED_U64 if number else sum(used))
    left.used += marked_u32(0, one.room) if number else with_zeros(used, WIDTHS) + marked_u32(WIDTHS, one.room)
    return number


def houses_values(case: Case) -> Fields:
    """What the case's calls leave, one after the other."""
    table, left = Table(list(case["widths_table"]), list(case["coefficients_table"])), Left()
    left.tell_free(table)
    for one in table_calls(case):
        before = table.all_numbers()
        left.refusals.append(follow(table, one, left))
        left.tell_free(table)
        left.tell_changes(before, table.all_numbers())
    return {**vars(left), "widths_table": table.widths, "coefficients_table": table.coefficients}
