"""Bad shapes of every kind, several at once."""

from collections.abc import Callable
from itertools import groupby
from random import Random

from . import broken_settings, broken_timing
from .broken_jobs import broken
from .formats import KINDS, PART, READ, ROOM, Case, LinkCall, StoreCall
from .formats import link_calls, link_case, store_calls, store_case, table_calls, table_case
from .reading.ieee import MAX_FRAMES, NAN
from .reading.refusals import MAX_STATES, MAX_V, MAX_WIDTH, MAX_WINDOWS

Damage = Callable[[Random, Case], Case]

LISTS = ("u32s", "f64s", "u8s")
OUT_OF_RANGE = {
    "v": [0, MAX_V + 1, 2**32 - 1],
    "nstate": [0, 17, 2**32 - 1],
    "windows": [0, MAX_WINDOWS + 1, 2**32 + 1, 2**63, 2**64 - 1],
}


def fields_of(case: Case, *forms: str) -> list[str]:
    return [name for name, form in KINDS[case.kind].inputs if form in forms]


def other_length(rng: Random, case: Case) -> Case:
    """A list one shorter, one longer or empty."""
    name = rng.choice(fields_of(case, *LISTS))
    old = case[name]
    grown = old + old[-1:] if len(old) else old
    return case.with_fields(**{name: rng.choice([old[:-1], grown, old[:0]])})


def short_room(rng: Random, case: Case) -> Case:
    rooms = fields_of(case, ROOM)
    if not rooms:
        return case
    name = rng.choice(rooms)
    return case.with_fields(**{name: max(0, case[name] - rng.choice([1, 2, 6, case[name]]))})


def longer_trajectory(rng: Random, case: Case) -> Case:
    """An excerpt's trajectory must have exactly its frames."""
    return case.with_fields(trajectory=case["trajectory"] + rng.choice([1, 2, 64]))


def number_out_of_range(rng: Random, case: Case) -> Case:
    names = [name for name in OUT_OF_RANGE if name in case.fields]
    if not names:
        return case
    name = rng.choice(names)
    return case.with_fields(**{name: rng.choice(OUT_OF_RANGE[name])})


def too_many_states(rng: Random, case: Case) -> Case:
    """One state too many, the other lists as they were or as long."""
    count = MAX_STATES + 1
    if "durations" in case.fields:
        return case.with_fields(durations=(case["durations"] or [1])[:1] * count)
    case = case.with_fields(means=(case["means"] or [1.0])[:1] * count)
    if rng.random() < 0.5:
        shortest = (case["shortest"] or [1])[:1] * count
        case = case.with_fields(varis=[1.0] * count, shortest=shortest, out=count, work=count)
    return case


def other_shortest(rng: Random, case: Case) -> Case:
    """A shortest duration of 0, or so long that the sum is above the limit, just so or far, 32 bits overflowing too."""
    if not case["shortest"]:
        return case
    shortest = list(case["shortest"])
    state = rng.randrange(len(shortest))
    rest = sum(shortest) - shortest[state]
    over = MAX_FRAMES + rng.choice([0, 1, 1, 2]) - min(rest, MAX_FRAMES)
    shortest[state] = rng.choice([0, 0, over, over, 2**16, 2**32 - 1, (2**32 - rest) % 2**32])
    return case.with_fields(shortest=shortest)


def bad_windows(rng: Random, case: Case) -> Case:
    if "widths" not in case.fields:
        return case
    widths = list(case["widths"])
    how = rng.randrange(4)
    if how == 0:
        return case.with_fields(widths=rng.choice([[], [1] * 5]))
    if widths and how == 1:
        widths[rng.randrange(len(widths))] = rng.choice([0, MAX_WIDTH + 1, 2**32 - 1])
        return case.with_fields(widths=widths)
    if widths and how == 2:
        widths[rng.randrange(len(widths))] = rng.randint(1, MAX_WIDTH)  # the sum no longer agrees
        return case.with_fields(widths=widths)
    taps = list(case["coefficients"])
    if not taps:
        return case
    taps[rng.randrange(len(taps))] = rng.choice([float("inf"), -float("inf"), NAN])
    if rng.random() < 0.2:
        taps = [*case["coefficients"], NAN]  # behind those that the widths count
    return case.with_fields(coefficients=taps)


def other_windows(rng: Random, case: Case) -> Case:
    """As many windows as the records weren't made for."""
    return case.with_fields(windows=rng.randint(1, MAX_WINDOWS))


def other_voicing(rng: Random, case: Case) -> Case:
    """Records with their weights, taken for some without, or the other way round."""
    return case.with_fields(masked=0 if case["masked"] else 1)


def other_run(rng: Random, case: Case) -> Case:
    """A run that is not there, or perhaps not."""
    return case.with_fields(run=rng.choice([case["run"] + 1, case["run"] + 2**31, 2**32 - 1, 2**16, 2**8, 0]) % 2**32)


def longer_first_window(rng: Random, case: Case) -> Case:
    """The lists still agree."""
    if not case["widths"] or case["widths"][0] >= MAX_WIDTH:
        return case
    more = rng.choice([1, 1, 2, MAX_WIDTH - case["widths"][0]])
    widths = [case["widths"][0] + more, *case["widths"][1:]]
    return case.with_fields(widths=widths, coefficients=[rng.choice([0.0, 0.5])] * more + case["coefficients"])


def gv_on(rng: Random, case: Case) -> Case:
    """With lists that agree, or as they are."""
    case = case.with_fields(gv_on=rng.choice([1, 1, 2, 0x100, 2**31]))
    if rng.random() < 0.7 and case["v"] <= MAX_V:
        case = case.with_fields(gv=[1.0] * (2 * case["v"]), switches=bytes([1]) * len(case["durations"]))
    return case


def too_many_frames(rng: Random, case: Case) -> Case:
    """A total of 65,537 and far more, 32 bits overflowing too."""
    if "durations" not in case.fields or not case["durations"]:
        return case
    durations = list(case["durations"])
    state = rng.randrange(len(durations))
    rest = sum(durations) - durations[state]
    durations[state] = rng.choice([MAX_FRAMES + 1 - min(rest, MAX_FRAMES), 2**32 - 1])
    if rng.random() < 0.3:
        durations[0] = durations[-1] = 2**31
    return case.with_fields(durations=durations)


def too_many_band_frames(rng: Random, case: Case) -> Case:
    if case.kind != "band" or rng.random() < 0.9:
        return case
    count = (MAX_FRAMES + 1) * max(1, len(case["widths"])) + rng.choice([0, 0, 1])
    return case.with_fields(means=[0.5] * count, ivars=[1.0] * (count - rng.choice([0, 0, 1])))


def changed_bytes(rng: Random, case: Case) -> Case:
    """The bytes of a job or a file damaged, also of a job that comes over a link and of a settings file that a store reads."""
    if case.kind == "job":
        return case.with_fields(bytes=broken(rng, case["bytes"]))
    if case.kind == "settings_file":
        return case.with_fields(bytes=broken_settings.broken(rng, case["bytes"]))
    if case.kind == "timing_file":
        return case.with_fields(bytes=broken_timing.broken(rng, case["bytes"]))
    if case.kind == "store":
        return changed_file(rng, case)
    return changed_parts(rng, case) if case.kind == "link" else case


def changed_parts(rng: Random, case: Case) -> Case:
    """Parts that follow each other with their joined bytes damaged, cut where they were."""
    calls = link_calls(case)
    runs = [list(run) for is_part, run in groupby(range(len(calls)), lambda at: calls[at].call == PART) if is_part]
    if not runs:
        return case
    *earlier, last = rng.choice(runs)
    data = broken(rng, b"".join(calls[at].part for at in [*earlier, last]))
    for at in earlier:
        size = len(calls[at].part)
        calls[at], data = LinkCall(PART, part=data[:size]), data[size:]
    calls[last] = LinkCall(PART, part=data)
    return link_case(case["memory"], calls)


def changed_file(rng: Random, case: Case) -> Case:
    """One of the files that a store reads damaged."""
    calls = store_calls(case)
    reads = [at for at, one in enumerate(calls) if one.call == READ]
    if not reads:
        return case
    at = rng.choice(reads)
    calls[at] = StoreCall(READ, file=broken_settings.broken(rng, calls[at].file))
    return store_case(case["voices"], case["settings"], calls)


def other_store(rng: Random, case: Case) -> Case:
    return other_lent(rng, case, rng.choice(["voices", "settings"]))


def other_table(rng: Random, case: Case) -> Case:
    return other_lent(rng, case, rng.choice(["widths_table", "coefficients_table"]))


def other_lent(rng: Random, case: Case, name: str) -> Case:
    """A list cut, longer, or with a number that stands elsewhere."""
    numbers, how = list(case[name]), rng.randrange(3)
    if how == 0:
        del numbers[rng.choice([0, 1, len(numbers) - 1, len(numbers) // 2]) :]
    elif how == 1 or not numbers:
        numbers += [0] * rng.choice([1, 3, 100])
    else:
        numbers[rng.randrange(len(numbers))] = rng.choice(numbers)
    return case.with_fields(**{name: numbers})


def other_store_calls(rng: Random, case: Case) -> Case:
    """A store's call left out, made twice or moved."""
    calls = store_calls(case)
    if calls:
        rearrange(rng, calls, rng.randrange(len(calls)), rng.randrange(3))
    return store_case(case["voices"], case["settings"], calls)


def other_table_calls(rng: Random, case: Case) -> Case:
    """A table's call left out, made twice or moved."""
    calls = table_calls(case)
    if calls:
        rearrange(rng, calls, rng.randrange(len(calls)), rng.randrange(3))
    return table_case(case["widths_table"], case["coefficients_table"], calls)


def other_memory(rng: Random, case: Case) -> Case:
    """A link's memory cut, longer, or with another byte in its number."""
    memory = bytearray(case["memory"])
    how = rng.randrange(3)
    if how == 0:
        del memory[rng.choice([0, 1, 7, 8, len(memory) - 1, len(memory) // 2]) :]
    elif how == 1 or not memory:
        memory += rng.randbytes(rng.choice([1, 8, 100]))
    else:
        memory[rng.randrange(min(len(memory), 8))] = rng.randrange(256)
    return case.with_fields(memory=bytes(memory))


def other_calls(rng: Random, case: Case) -> Case:
    """A link's call left out, made twice, moved, or changed."""
    calls = link_calls(case)
    if not calls:
        return case
    place, how = rng.randrange(len(calls)), rng.randrange(4)
    if how < 3:
        rearrange(rng, calls, place, how)
    else:
        calls[place] = changed_call(rng, calls[place])
    return link_case(case["memory"], calls)


def rearrange(rng: Random, calls: list, place: int, how: int) -> None:
    """A call left out, made twice or moved."""
    if how == 0:
        del calls[place]
    elif how == 1:
        calls.insert(place, calls[place])
    else:
        moved = calls.pop(place)
        calls.insert(rng.randint(0, len(calls)), moved)


def changed_call(rng: Random, call: LinkCall) -> LinkCall:
    """With one byte of its part changed, and less room."""
    part = bytearray(call.part)
    if part:
        part[rng.randrange(len(part))] = rng.randrange(256)
    return LinkCall(call.call, bytes(part), rng.randint(0, call.out), rng.randint(0, call.work))


def other_words(rng: Random, case: Case) -> Case:
    """A word with other labels, few or so many that 32 bits don't count them, or the words in another order."""
    words = list(case["words"]) or [0]
    if rng.random() < 0.3:
        rng.shuffle(words)
    else:
        word = rng.randrange(len(words))
        words[word] = rng.choice([0, words[word] ^ 1, words[word] ^ 1, 2**28, 2**31, 2**32 - 1])
    return case.with_fields(words=words)


GENERAL: list[Damage] = [other_length, short_room, number_out_of_range]
BY_KIND: dict[str, list[Damage]] = {
    "fit": [*GENERAL, too_many_states, other_shortest],
    "speed": [*GENERAL, too_many_states, other_shortest],
    "align": [*GENERAL, too_many_states, other_shortest],
    "mask": [*GENERAL, too_many_states, too_many_frames],
    "band": [*GENERAL, bad_windows, too_many_band_frames],
    "trajectory": [*GENERAL, bad_windows, too_many_frames, too_many_states],
    "place": [number_out_of_range],
    "excerpt": [*GENERAL, too_many_states, too_many_frames, longer_trajectory],
    "job": [short_room, changed_bytes],
    "link": [other_memory, other_calls, other_calls, changed_bytes],
    "store": [other_store, other_store_calls, changed_bytes],
    "settings_file": [short_room, changed_bytes],
    "words": [*GENERAL, too_many_states, too_many_frames, longer_trajectory, other_words, other_words],
    "timing_file": [short_room, changed_bytes],
    "chapter": [*GENERAL, too_many_states, other_shortest],
    "runs": [*GENERAL, short_room, too_many_states, too_many_frames, other_windows, other_voicing],
    "run": [*GENERAL, short_room, bad_windows, too_many_frames, too_many_states]
    + [other_voicing, other_run, longer_first_window, gv_on, gv_on],
    "houses": [other_table, other_table_calls],
}


def damaged(rng: Random, case: Case) -> Case:
    for _ in range(rng.choice([1, 1, 2, 3])):
        if case.kind in BY_KIND:
            case = rng.choice(BY_KIND[case.kind])(rng, case)
    return case
