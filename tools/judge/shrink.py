"""Cuts a case down to the smallest that still shows a difference."""

from collections.abc import Callable, Iterator
from dataclasses import replace
from functools import partial

from .broken_jobs import COUNT_AT, SPEED_AT, VERSION_AT, count_of, put, put_number, state_size, version_of
from .broken_timing import numbers_of, packed, put_long
from .formats import END, KINDS, PART, ROOM, Case, LinkCall, StoreCall, TableCall
from .formats import link_calls, link_case, store_calls, store_case, table_calls, table_case
from .reading import runs, settings, words
from .reading.jobs import FIRST_VERSION, HEAD, PAIR, SHORTEST_VERSION
from .reading.refusals import MAX_WINDOWS

# Which lists hold one number a state, so that a state leaves them all at once.
STATE_LISTS = ("means", "varis", "shortest", "weights", "durations", "switches")
SIMPLE = [0.0, 1.0, 2.0]

# So many numbers of a store, records of a settings file, or words are tried one by one.
FEW = 8
# So many labels of a chapter are.
FEW_LABELS = 40


def without_states(case: Case) -> Iterator[Case]:
    """One state fewer, or half of them, each list that has one number a state cut alike."""
    key = "durations" if "durations" in case.fields else "means"
    if case.kind == "band" or key not in case.fields:
        return
    count = len(case[key])
    nstate = case.fields.get("nstate", 1) or 1
    for size in {count // 2 // nstate * nstate, nstate}:
        for first in range(0, count, size) if size else ():
            yield drop_states(case, count, first, min(first + size, count), nstate)


def drop_states(case: Case, count: int, first: int, last: int, nstate: int) -> Case:
    fields = dict(case.fields)
    for name in STATE_LISTS:
        if name in fields and len(fields[name]) == count:
            fields[name] = fields[name][:first] + fields[name][last:]
    if "ends" in fields:
        fields["ends"] = fields["ends"][: first // nstate] + fields["ends"][last // nstate :]
    if "records" in fields and count:
        size = len(fields["records"]) // count
        fields["records"] = fields["records"][: first * size] + fields["records"][last * size :]
    return Case(case.kind, fields)


def without(items: list | bytes, first: int, count: int) -> list | bytes:
    return items[:first] + items[first + count :]


def without_window(case: Case, window: int) -> dict:
    """The window's width and coefficients left out."""
    first = sum(case["widths"][:window])
    return {
        "widths": without(case["widths"], window, 1),
        "coefficients": without(case["coefficients"], first, case["widths"][window]),
    }


def narrower_band(case: Case) -> Iterator[Case]:
    """Band rows with one window or one frame fewer."""
    windows = len(case["widths"])
    frames = len(case["means"]) // windows
    if len(case["means"]) != windows * frames or len(case["ivars"]) != windows * frames:
        return
    for window in range(windows if windows > 1 else 0):
        lists = {name: without(case[name], window * frames, frames) for name in ("means", "ivars")}
        yield case.with_fields(**without_window(case, window), **lists)
    for frame in range(frames):
        kept = [place for place in range(windows * frames) if place % frames != frame]
        lists = {name: [case[name][place] for place in kept] for name in ("means", "ivars")}
        yield case.with_fields(**lists)


def narrower_trajectory(case: Case) -> Iterator[Case]:
    """A trajectory with one window or one component fewer."""
    states, v, windows = len(case["durations"]), case["v"], len(case["widths"])
    size = 2 * windows * v + (case["masked"] != 0)
    if len(case["records"]) != states * size:
        return

    def records(keeps: Callable[[int, int], bool]) -> list[float]:
        """Each record with the pairs of the kept windows and components, and its weight."""
        pairs = [pair for pair in range(windows * v) if keeps(pair // v, pair % v)]
        kept = pairs + [windows * v + pair for pair in pairs] + list(range(2 * windows * v, size))
        return [case["records"][state * size + place] for state in range(states) for place in kept]

    for gone in range(windows if windows > 1 else 0):
        yield case.with_fields(**without_window(case, gone), records=records(lambda window, _: window != gone))
    for gone in range(v if v > 1 else 0):
        gv = [number for place, number in enumerate(case["gv"]) if place % v != gone]
        yield case.with_fields(v=v - 1, gv=gv, records=records(lambda _, component: component != gone))


def narrower_runs(case: Case) -> Iterator[Case]:
    """One window and one component, each record with its first pair and its weight."""
    states, size = len(case["durations"]), runs.record_size(case)
    if size > 3 and len(case["records"]) == states * size:
        weight = [size - 1] if case["masked"] else []
        records = [case["records"][state * size + place] for state in range(states) for place in [0, size // 2, *weight]]
        yield case.with_fields(windows=1, v=1, records=records)


def narrower(case: Case) -> Iterator[Case]:
    if case.kind == "band" and case["widths"]:
        yield from narrower_band(case)
    if case.kind in ("trajectory", "run"):
        yield from narrower_trajectory(case)
    if case.kind == "runs" and 1 <= case["windows"] <= MAX_WINDOWS:
        yield from narrower_runs(case)


def shorter_lists(case: Case) -> Iterator[Case]:
    for name, form in KINDS[case.kind].inputs:
        if form in ("u32s", "f64s", "u8s"):
            old = case[name]
            for cut in {len(old) // 2, len(old) - 1} if len(old) else ():
                yield case.with_fields(**{name: old[:cut]})


def smaller_numbers(case: Case) -> Iterator[Case]:
    for name, form in KINDS[case.kind].inputs:
        value = case[name]
        if form in ("u32", "u64", ROOM):
            yield from (case.with_fields(**{name: less}) for less in smaller_wholes(value))
        elif form == "f64":
            yield from (case.with_fields(**{name: simple}) for simple in simpler(value))
        elif form == "f64s" and len(value) <= 40:
            for place, number in enumerate(value):
                for simple in simpler(number):
                    yield case.with_fields(**{name: [*value[:place], simple, *value[place + 1 :]]})
        elif name == "shortest":
            yield from smaller_shortest(case)
        elif form == "u32s":
            for place, number in enumerate(value[:40]):
                for less in smaller_wholes(number):
                    yield case.with_fields(**{name: [*value[:place], less, *value[place + 1 :]]})


def smaller_shortest(case: Case) -> Iterator[Case]:
    """All ones, or one number nearer to 1; so a 0 stays only where it is what differs."""
    shortest = case["shortest"]
    yield case.with_fields(shortest=[1] * len(shortest))
    for place, number in enumerate(shortest[:40]):
        for less in [1 + less for less in smaller_wholes(number - 1)] if number else [1]:
            yield case.with_fields(shortest=[*shortest[:place], less, *shortest[place + 1 :]])


def smaller_wholes(number: int) -> list[int]:
    """0, then less and less below the number, so that a search by halves finds the least."""
    return [number - (number >> shift) for shift in range(number.bit_length())]


def simpler(number: float) -> list[float]:
    """Simpler floats, in an order that can't go round in circles."""
    if number in SIMPLE:
        return [simple for simple in SIMPLE if simple < number]
    rounded = [float(round(number))] if abs(number) < 1e9 and number != round(number) else []
    return SIMPLE + rounded


SOUND = b"SPJ\x01\0"


def smaller_bytes(data: bytes) -> Iterator[bytes]:
    """A job's bytes cut, with fewer or simpler states, with a sound byte in front, or with zeros behind the count."""
    yield from (data[:length] for length in smaller_wholes(len(data)))
    yield from fewer_states_of_job(data)
    yield from (put(data, place, SOUND[place : place + 1]) for place in range(len(SOUND)))
    yield from simpler_states_of_job(data)
    if version_of(data) != SHORTEST_VERSION:
        yield from (data[:kept].ljust(len(data), b"\0") for kept in (SPEED_AT, HEAD))


def fewer_states_of_job(data: bytes) -> Iterator[bytes]:
    size, old = state_size(data), count_of(data)
    for count in smaller_wholes(old):
        fewer = put_number(data, COUNT_AT, count)
        yield fewer
        for first in range(count + 1) if count < FEW else (0, count // 2, count):
            yield without(fewer, HEAD + size * first, size * (old - count))


def simpler_states_of_job(data: bytes) -> Iterator[bytes]:
    """Of the second version: without the shortest, as the first has it; with zeros for the pairs; or with a smaller shortest,
    1 at least."""
    if version_of(data) != SHORTEST_VERSION:
        return
    size = state_size(data)
    pairs = [data[place : place + PAIR] for place in range(HEAD, len(data), size)]
    shortest = [data[place + PAIR : place + size] for place in range(HEAD, len(data), size)]
    yield put_number(data[:HEAD], VERSION_AT, FIRST_VERSION) + b"".join(pairs)
    yield data[:HEAD] + b"".join(bytes(len(pair)) + frames for pair, frames in zip(pairs, shortest))
    for place, frames in enumerate(shortest[:FEW]):
        number = int.from_bytes(frames, "little")
        for less in smaller_wholes(number - 1) if number else ():
            yield put(data, HEAD + size * place + PAIR, (1 + less).to_bytes(len(frames), "little"))


def smaller_job(case: Case) -> Iterator[Case]:
    yield from (case.with_fields(bytes=less) for less in smaller_bytes(case["bytes"]))


# From these bytes on a part is made zeros: all of it, or what is behind a job's mark, count or speed.
PLAIN_FROM = [0, 3, 7, 15]


def fewer_calls(case: Case) -> Iterator[Case]:
    """A link's calls without half of them, or without one."""
    calls = link_calls(case)
    for size in sorted({len(calls) // 2, 1} - {0}, reverse=True) if calls else ():
        for first in range(0, len(calls), size):
            yield link_case(case["memory"], without(calls, first, size))


def smaller_call(one: LinkCall) -> Iterator[LinkCall]:
    """A part that is shorter or has more zeros, an end with less room."""
    if one.call == PART:
        yield from (LinkCall(PART, part=one.part[:size]) for size in smaller_wholes(len(one.part)))
        yield from (LinkCall(PART, part=one.part[:size].ljust(len(one.part), b"\0")) for size in PLAIN_FROM)
        for smaller in (fewer_states_of_job, simpler_states_of_job):
            yield from (LinkCall(PART, part=part) for part in smaller(one.part))
    if one.call == END:
        yield from (LinkCall(END, out=out, work=one.work) for out in smaller_wholes(one.out))
        yield from (LinkCall(END, out=one.out, work=work) for work in smaller_wholes(one.work))


def smaller_calls(case: Case) -> Iterator[Case]:
    """A link's calls with one that is smaller, or with two parts joined."""
    memory, calls = case["memory"], link_calls(case)
    for place, one in enumerate(calls):
        for less in smaller_call(one):
            yield link_case(memory, [*calls[:place], less, *calls[place + 1 :]])
        if one.call == PART and place and calls[place - 1].call == PART:
            joined = LinkCall(PART, part=calls[place - 1].part + one.part)
            yield link_case(memory, [*calls[: place - 1], joined, *calls[place + 1 :]])


def plainer_memory(case: Case) -> Iterator[Case]:
    """A link's memory of zeros, all of it or behind some of its bytes, or shorter."""
    memory = case["memory"]
    for kept in [0, *(1 << power for power in range(15))]:
        yield case.with_fields(memory=memory[:kept].ljust(len(memory), b"\0"))
    for length in smaller_wholes(len(memory)):
        yield case.with_fields(memory=memory[:length])


def fewer_store_calls(case: Case) -> Iterator[Case]:
    """A store's calls without half of them, or without one."""
    calls = store_calls(case)
    for size in sorted({len(calls) // 2, 1} - {0}, reverse=True) if calls else ():
        for first in range(0, len(calls), size):
            yield store_case(case["voices"], case["settings"], without(calls, first, size))


def zeroed_settings(data: bytes, record: int) -> bytes:
    """A settings file's records with their voices alone."""
    places = range(settings.HEAD, len(data), record)
    return data[: settings.HEAD] + b"".join(data[place : place + 2].ljust(record, b"\0") for place in places)


def smaller_file(data: bytes) -> Iterator[bytes]:
    """A settings file that is cut, has fewer records, more zeros or a sound byte in front."""
    yield from (data[:length] for length in smaller_wholes(len(data)))
    record, old = settings.RECORD.get(settings.version_of(data), 1), settings.count_of(data)
    for count in smaller_wholes(old):
        fewer = put_number(data, COUNT_AT, count)
        yield fewer
        for first in range(count + 1) if count < FEW else (0, count // 2, count):
            yield without(fewer, settings.HEAD + record * first, record * (old - count))
    yield from (put(data, place, sound) for place, sound in enumerate([b"V", b"S", b"T", b"\x02", b"\0"]))
    yield zeroed_settings(data, record)[: len(data)]
    if len(data) <= 100:
        yield from (put(data, place, b"\0") for place in range(settings.HEAD, len(data)))


def smaller_store_call(one: StoreCall) -> Iterator[StoreCall]:
    yield from (replace(one, voice=voice) for voice in smaller_wholes(one.voice))
    yield from (replace(one, room=room) for room in smaller_wholes(one.room))
    yield from (replace(one, file=file) for file in smaller_file(one.file))
    for place in range(len(one.given)):
        yield replace(one, given=(*one.given[:place], 0, *one.given[place + 1 :]))


def smaller_store_calls(case: Case) -> Iterator[Case]:
    """A store's calls with one that is smaller."""
    calls = store_calls(case)
    for place, one in enumerate(calls):
        for less in smaller_store_call(one):
            yield store_case(case["voices"], case["settings"], [*calls[:place], less, *calls[place + 1 :]])


def plainer_store(size: int, case: Case) -> Iterator[Case]:
    """A store with so many numbers free, or so many settings zeros."""
    for name, plain in (("voices", settings.FREE), ("settings", 0)):
        old = case[name]
        for first in range(0, len(old), size):
            plainer = [plain] * len(old[first : first + size])
            if old[first : first + size] != plainer:
                yield case.with_fields(**{name: [*old[:first], *plainer, *old[first + size :]]})


def smaller_store(case: Case) -> Iterator[Case]:
    """A store whose lists are shorter, or with a smaller number."""
    for name in ("voices", "settings"):
        yield from (case.with_fields(**{name: case[name][:length]}) for length in smaller_wholes(len(case[name])))
    held = [place for place, number in enumerate(case["voices"]) if number != settings.FREE]
    for place in held[:FEW]:
        for less in smaller_wholes(case["voices"][place]):
            yield case.with_fields(voices=[*case["voices"][:place], less, *case["voices"][place + 1 :]])


def smaller_settings_file(case: Case) -> Iterator[Case]:
    yield from (case.with_fields(bytes=file) for file in smaller_file(case["bytes"]))


def fewer_words(case: Case) -> Iterator[Case]:
    """Without half of the words or one, or without labels of one, and without their states where there are so many."""
    counts, nstate = case["words"], case["nstate"]
    for size in sorted({len(counts) // 2, 1} - {0}, reverse=True) if counts else ():
        for first in range(0, len(counts), size):
            states = nstate * sum(counts[first : first + size])
            yield from without_states_of(case, without(counts, first, size), nstate * sum(counts[:first]), states)
    for word, labels in enumerate(counts[:FEW]):
        for less in smaller_wholes(labels):
            fewer = [*counts[:word], less, *counts[word + 1 :]]
            yield from without_states_of(case, fewer, nstate * sum(counts[:word]), nstate * (labels - less))


def without_states_of(case: Case, counts: list[int], first: int, states: int) -> Iterator[Case]:
    """The trajectory loses what their frames have in it; the frames that are asked for stay, or come as much earlier."""
    gone = sum(case["durations"][first : first + states])
    rest = max(0, case["trajectory"] - gone * case["v"])
    fewer = case.with_fields(words=counts, durations=without(case["durations"], first, states), trajectory=rest)
    yield fewer
    if gone:
        yield fewer.with_fields(frames=[max(0, frame - gone) for frame in case["frames"]])


def simpler_states(case: Case) -> Iterator[Case]:
    """One state a label with all its frames, or a state's frames in the longest."""
    durations, nstate = case["durations"], case["nstate"]
    if 1 < nstate < len(durations) + 1:
        joined = [sum(durations[first : first + nstate]) for first in range(0, len(durations), nstate)]
        yield case.with_fields(nstate=1, durations=joined)
    for state in range(len(durations[:100])):
        longest = durations.index(max(durations))
        if state != longest and durations[state]:
            moved = list(durations)
            moved[longest] += moved[state]
            moved[state] = 0
            yield case.with_fields(durations=moved)


def smaller_frames(case: Case) -> Iterator[Case]:
    """A state with fewer frames, or one component, the trajectory as much shorter."""
    durations, frames = case["durations"], sum(case["durations"])
    for state, duration in enumerate(durations[:40]):
        for less in smaller_wholes(duration):
            rest = max(0, case["trajectory"] - (duration - less) * case["v"])
            fewer = case.with_fields(durations=[*durations[:state], less, *durations[state + 1 :]], trajectory=rest)
            yield fewer
            yield fewer.with_fields(frames=[max(0, frame - duration + less) for frame in case["frames"]])
    if case["v"] > 1 and case["trajectory"] >= frames * (case["v"] - 1):
        yield case.with_fields(v=1, trajectory=case["trajectory"] - frames * (case["v"] - 1))


def smaller_timing(case: Case) -> Iterator[Case]:
    """A timing file that is cut, has a word fewer, smaller numbers or a sound byte in front."""
    data = case["bytes"]
    smaller = [data[:length] for length in smaller_wholes(len(data))]
    count, spans = words.count_of(data), numbers_of(data)
    for less in smaller_wholes(count):
        fewer = put_long(data, COUNT_AT, less)
        places = range(words.HEAD, words.HEAD + words.SPAN * FEW, words.SPAN)
        smaller += [fewer, *(without(fewer, place, words.SPAN * (count - less)) for place in places)]
    smaller += [put(data, place, sound) for place, sound in enumerate([b"R", b"A", b"L", b"\x01", b"\0"])]
    for at, number in enumerate(spans if len(spans) <= 40 else []):
        smaller += [put_long(data, words.HEAD + 4 * at, less) for less in smaller_wholes(number)]
        # Where one word ends and the next begins, both at once.
        alike = [[less if one == number else one for one in spans] for less in smaller_wholes(number)]
        smaller += [data[: words.HEAD] + packed(numbers)[words.HEAD :] for numbers in alike]
    yield from (case.with_fields(bytes=less) for less in smaller)


def fewer_labels(parts: int, case: Case) -> Iterator[Case]:
    """A chapter without one of so many parts of its labels; the later ends stay, or come as many frames earlier."""
    ends, nstate = case["ends"], case["nstate"]
    size = len(ends) // parts
    if len(case["means"]) != len(ends) * nstate:
        return
    for first in range(0, len(ends), size) if size else ():
        last = min(first + size, len(ends))
        fewer = drop_states(case, len(case["means"]), first * nstate, last * nstate, nstate)
        yield fewer
        gone = time_at(ends[:last]) - time_at(ends[:first])
        if gone > 0 and first:
            yield fewer.with_fields(ends=ends[:first] + [end - gone if end >= gone else end for end in ends[last:]])


def time_at(ends: list[float]) -> float:
    """The last given end, in whole frames."""
    last = next((end for end in reversed(ends) if end >= 0), 0.0)
    return float(round(last)) if last < 1e9 else 0.0


def one_label_fewer(case: Case) -> Iterator[Case]:
    if len(case["ends"]) <= FEW_LABELS:
        yield from fewer_labels(max(1, len(case["ends"])), case)


def one_state_a_label(case: Case) -> Iterator[Case]:
    """A chapter with the first state of each label alone."""
    nstate = case["nstate"]
    lists = [name for name in STATE_LISTS if name in case.fields]
    if 1 < nstate and all(len(case[name]) == len(case["ends"]) * nstate for name in lists):
        yield case.with_fields(nstate=1, **{name: case[name][::nstate] for name in lists})


def on_same_table(case: Case, calls: list[TableCall]) -> Case:
    return table_case(case["widths_table"], case["coefficients_table"], calls)


def fewer_table_calls(case: Case) -> Iterator[Case]:
    """A table's calls without half of them, or without one."""
    calls = table_calls(case)
    for size in sorted({len(calls) // 2, 1} - {0}, reverse=True) if calls else ():
        for first in range(0, len(calls), size):
            yield on_same_table(case, without(calls, first, size))


def smaller_table_call(one: TableCall) -> Iterator[TableCall]:
    for name in ("house", "slot", "common", "room"):
        yield from (replace(one, **{name: less}) for less in smaller_wholes(getattr(one, name)))
    for window, width in enumerate(one.widths):
        first, fewer = sum(one.widths[:window]), without(one.widths, window, 1)
        yield replace(one, widths=fewer, coefficients=without(one.coefficients, first, width))
        for less in smaller_wholes(width):
            narrower = replace(one, widths=(*one.widths[:window], less, *one.widths[window + 1 :]))
            yield replace(narrower, coefficients=without(one.coefficients, first, width - less))
            yield narrower
    yield from (replace(one, coefficients=one.coefficients[:length]) for length in smaller_wholes(len(one.coefficients)))
    for place, bits in enumerate(one.coefficients):
        if bits:
            yield replace(one, coefficients=(*one.coefficients[:place], 0, *one.coefficients[place + 1 :]))


def smaller_table_calls(case: Case) -> Iterator[Case]:
    """A table's calls with one that is smaller."""
    calls = table_calls(case)
    for place, one in enumerate(calls):
        yield from (on_same_table(case, [*calls[:place], less, *calls[place + 1 :]]) for less in smaller_table_call(one))


def plainer_table(size: int, case: Case) -> Iterator[Case]:
    """A table with so many numbers zeros."""
    for name in ("widths_table", "coefficients_table"):
        old = case[name]
        for first in range(0, len(old), size):
            if any(old[first : first + size]):
                plainer = [0] * len(old[first : first + size])
                yield case.with_fields(**{name: [*old[:first], *plainer, *old[first + size :]]})


def smaller_table(case: Case) -> Iterator[Case]:
    """A table whose lists are shorter, or with a smaller width."""
    for name in ("widths_table", "coefficients_table"):
        yield from (case.with_fields(**{name: case[name][:length]}) for length in smaller_wholes(len(case[name])))
    for place, width in enumerate(case["widths_table"][:48]):
        for less in smaller_wholes(width):
            yield case.with_fields(widths_table=[*case["widths_table"][:place], less, *case["widths_table"][place + 1 :]])


GENERAL = (without_states, narrower, shorter_lists, smaller_numbers)
BY_KIND = {
    "job": (smaller_job, smaller_numbers),
    "link": (fewer_calls, smaller_calls, plainer_memory),
    "store": (
        fewer_store_calls,
        *[partial(plainer_store, size) for size in (1024, 128, 16, 4, 1)],
        smaller_store_calls,
        smaller_store,
    ),
    "settings_file": (smaller_settings_file, smaller_numbers),
    "words": (fewer_words, simpler_states, smaller_frames, shorter_lists, smaller_numbers),
    "timing_file": (smaller_timing, smaller_numbers),
    "chapter": (
        *[partial(fewer_labels, parts) for parts in (2, 4, 16, 64)],
        one_label_fewer,
        one_state_a_label,
        shorter_lists,
        smaller_numbers,
    ),
    "houses": (
        fewer_table_calls,
        *[partial(plainer_table, size) for size in (1024, 240, 60, 15, 4, 1)],
        smaller_table_calls,
        smaller_table,
    ),
}


def smallest(case: Case, shows: Callable[[list[Case]], list[bool]]) -> Case:
    """`shows` says of each candidate whether it still differs."""
    while True:
        for make in BY_KIND.get(case.kind, GENERAL):
            candidates = [smaller for smaller in make(case) if smaller != case]
            better = next((one for one, does in zip(candidates, shows(candidates)) if does), None)
            if better is not None:
                case = better
                break
        else:
            return case
