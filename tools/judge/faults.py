"""One-line faults of the second reading, each a mistake that a port could make."""

from dataclasses import dataclass

IEEE, PAIRS, DURATIONS = "ieee.py", "pairs.py", "durations.py"
TRAJECTORY, PLACES, JOBS, LINKS = "trajectory.py", "places.py", "jobs.py", "links.py"
SETTINGS, WORDS, REFUSALS, EXITS = "settings.py", "words.py", "refusals.py", "exits.py"
RUNS, ALONE, HOUSES, ANSWER = "runs.py", "alone.py", "houses.py", "__init__.py"


@dataclass(frozen=True)
class Fault:
    name: str
    file: str
    line: str  # stands in the file exactly once
    fault: str
    hidden: str = ""  # why no call can show it, if so
    drifts: bool = False  # the claim on chapters refuses it by itself, with no answer beside it
    unlike: bool = False  # so does the claim on runs alone
    leaks: bool = False  # and that on houses
    kinds: tuple[str, ...] = ()  # whose cases alone can show it, if they are fewer than the file's


HALF = "    if abs(x) - whole >= 0.5:  # the difference is exact"
CLAMP = "    return HIGH if size > 1e19 else LOW if size < 1e-19 else NOT_CLAMPED"
CLAMP_WITH_PAIR = '    clamped = clamp(vari) if case["operation"] == WITH_IVAR else NOT_CLAMPED'
CLAMPS_OF_STATES = "    states = [[pairs.clamp(vari) for vari in pairs.split_record(record)[1]] for record in records]"
CLAMPS_OF_FRAMES = "    return [clamp for frame in select(expand(states, durations), voiced) for clamp in frame]"
CLAMPS = "    clamped = clamps(records, durations, voiced)"
CLAMPS_BY_PLACE = "    clamped = [clamp for at, clamp in enumerate(clamps(records, durations, voiced)) if {keeps}]"
CLAMPS_AFTER_ZEROING = (
    "    left, right = distances(voiced); kept = zip(*[zeroed([1.0] * frames, window, left, right) if number"
    " else [1.0] * frames for number, window in enumerate(split_windows(case))]);"
    " kept = [keep for frame in select(list(kept), voiced) for keep in frame for _ in range(v)];"
    " clamped = [clamp if keep else {zeroed} for clamp, keep in zip(clamps(records, durations, voiced), kept)]"
)
CLAMPED = '    return {"out": out, "high": clamped.count(pairs.HIGH), "low": clamped.count(pairs.LOW)}'
HIGH_LEFT = '        "high": values["high"],'
NO_CALL = "a pair's operations are no C call; the operations show it"
ESTIMATE = "        return max(self.shortest, ieee.frames(self.mean + rho * self.vari))"
NATURAL = "ieee.frames(state.mean + 0.0 * state.vari) for state in states"
GIVES_NOTHING = "        if unit < 0 and frames <= state.shortest:"
STEPS_BY_COST = (
    "    costs = [(cost(place), place) for place in range(len(states))]\n"
    "    heapq.heapify(costs)\n"
    "    for _ in range(abs(steps)):\n"
    "        _, place = costs[0]\n"
    "        durations[place] += unit\n"
    "        heapq.heapreplace(costs, (cost(place), place))"
)
ENOUGH = "    if target <= sum(shortest_of(states)):"
SPEED_1 = "    if factor == 1.0:\n        return Fit(durations, 0)"
SPEED = "    return fit(states, ieee.divide(float(sum(durations)), factor))"
RHO = "    rho = ieee.divide(target - ieee.total(means), ieee.total(varis))"
MEANS = "    means, varis = [state.mean for state in states], [state.vari for state in states]"
TAIL = "    tail = estimate(states[fitted:], 0.0)"
OPEN = "        if not end >= 0:"
GROUP = "        group = fit(states[first:last], end - sum(whole.durations))"
# A group or tail whose shortest are those of other states.
OTHER_SHORTEST = "[state._replace(shortest=states[{at}].shortest) for at, state in enumerate(states[{first}:{last}])]"
LAST_END = "next((given for given in reversed(ends[:label]) if given >= 0), 0.0)"
SHORTEST = "        return Fit(shortest_of(states), 0)"
STEPS = "    steps = target - sum(durations)"
FIELD = "    for place, size, least, most, number in FIELDS:"
ENDS = "        if len(data) < place + size:"
WRONG = "            return Damage(number, place)"
WHOLE = "        return Damage(WRONG_LENGTH, min(len(data), whole))  # where it ends, or the first byte too many"
OLD = "    return WRONG_LENGTH if number in DAMAGES else number"
VERSIONS = "    Field(3, 2, FIRST_VERSION, SHORTEST_VERSION, WRONG_VERSION),"
VALUE = '        value = int.from_bytes(data[place : place + size], "little")'
STATE_SIZES = "STATE = {FIRST_VERSION: PAIR, SHORTEST_VERSION: PAIR + SHORTEST}"
JOB_PAIRS = '    pairs = [struct.unpack_from("<dd", data, place) for place in places]'
FIRST_SHORTEST = "    shortest = [1] * count"
JOB_SHORTEST = (
    '        shortest = [int.from_bytes(data[place + PAIR : place + PAIR + SHORTEST], "little") for place in places]'
)
JOB_STATES = "    states = durations.states_of(job.means, job.varis, job.shortest)"
KEPT_BYTES = "KEPT = jobs.HEAD + max(jobs.STATE.values()) * jobs.MAX_COUNT + 1"
LINK_ENDED = "        return number == 0 or number > KEPT + 1"
BAD_SHORTEST = "    return 0 in shortest or sum(shortest) > MAX_FRAMES"
ONE_A_STATE = '        4: lambda: len(case["varis"]) != n or len(case["shortest"]) != n,'
FIT_15 = '        15: lambda: bad_shortest(case["shortest"]),'
FIT_4_TO_15 = f'{ONE_A_STATE}\n        6: lambda: case["out"] < n or case["work"] < n,\n{FIT_15}'
LABELS_AGREE = "        4: lambda: fit[4]() or n != labels * nstate,"
IN_ORDER = "    return next((number for number in sorted(checks) if checks[number]()), 0)"
BEFORE_AND_WORK = (
    "    if number:\n        return number, {}\n    try:\n"
    "        return 0, ieee.one_nan(ANSWERS[case.kind](case))"
)
LEFT = "    fields = untouched(case)"
PLACES_OF_ENDS = '        "places": [end["place"] for end in ends],'
NAN_AS_ONE = "    return NAN_BITS if bits & SIZE_BITS > INFINITY else bits"
FILE_MARK = "    if data[: len(MARK)] != MARK:"
FILE_VERSION = '    return int.from_bytes(data[3:5], "little")'
KNOWN_VERSION = "    if version not in RECORD:"
FILE_LENGTH = "    if len(data) < HEAD or len(data) != HEAD + RECORD[version] * count_of(data):"
RECORDS = "    return [(voice, [*settings, *missing]) for voice, *settings in read]"
SHORT_STORE = "        return len(self.voices) < PLACES or len(self.settings) < EACH * PLACES"
FREE_PLACE = "        return number > MAX_VOICE or self.voices.index(number) < place"
HELD_PLACES = "        return [place for place in range(PLACES) if not self.is_free(place)]"
FIRST_FREE = "        return next(filter(self.is_free, range(PLACES)), None)"
OF_A_VOICE = "        return self.refusal(voice) or (0 if self.holds(voice) else NOT_HELD)"
FULL_STORE = "        if place is None:"
KEPT = "        self.put(place, voice, settings)"
SET = "        return self.refusal(voice) or self.keep(voice, [with_one_nan(bits) for bits in floats])"
GOT = "        return 0, [with_one_nan(bits) for bits in self.settings_of(self.place_of(voice))]"
REMOVED = "            self.put(self.place_of(voice), FREE, [0] * EACH)"
REMOVED_LATER = "            self.voices[:PLACES] = [FREE if other == voice else other for other in self.voices[:PLACES]]"
COUNTED = "        return (TOO_SHORT, 0) if len(self.voices) < PLACES else (0, len(self.held()))"
READ = "        number = TOO_SHORT if self.is_short() else damage(data)"
NEW_STORE = "        new = Store(list(self.voices), list(self.settings))"
RECORDS_KEPT = "        if any(new.keep(voice, settings) for voice, settings in records(data)):"
REPLACED_BY_READ = "        self.voices, self.settings = new.voices, new.settings"
WRITTEN_PLACES = "        held = self.held()"
WRITTEN_RECORDS = (
    '        kept = [struct.pack(f"<H{EACH}Q", self.voices[place], *self.settings_of(place)) for place in held]'
)
WRITTEN_HEAD = '        return MARK + struct.pack("<HH", WRITTEN_VERSION, len(held)) + b"".join(kept)'
WRITTEN = '        return (TOO_SHORT, b"") if room < len(data) else (0, data)'
ORDER = "ORDER = (REFUSED_BELOW, DISAGREE, NOT_THERE, MALFORMED, TOO_SHORT)"
NSTATE = '    if not 1 <= case["nstate"] <= MAX_NSTATE:'
STATES_AND_FRAMES = '    return len(case["durations"]) > MAX_STATES or sum(case["durations"]) > MAX_FRAMES'
COMPONENTS = '    if not 1 <= case["v"] <= MAX_V:'
NUMBERS = '    return case["trajectory"] != sum(case["durations"]) * case["v"]'
LABELS = '    states = sum(case["words"]) * case["nstate"]'
AGREE = '    return states != len(case["durations"]) or len(case["words"]) > MAX_WORDS'
OWN_STATES = '    states = (word for word, labels in enumerate(case["words"]) for _ in range(labels * case["nstate"]))'
OWN_FRAMES = '    return [word for word, duration in zip(states, case["durations"]) for _ in range(duration)]'
FIRST_FRAME = "    return bisect_left(owned, word)"
AFTER_LAST = "    return bisect_right(owned, word)"
SPANS = (
    '    return [bound(owned, word) for word in range(len(case["words"])) for bound in (first_frame, frame_after_last)]'
)
MILLISECONDS = "    return [FRAME_MILLISECONDS * frame for frame in spans]"
SPANS_ROOM = "    number = refusal(checks_of(case) | {TOO_SHORT: lambda: case[room] < needed})"
SPANS_LEFT = "    return number, (marked_u32(0, case[room]) if number else answer() + marked_u32(needed, case[room]))"
FRAME_THERE = '    number = refusal(checks_of(case) | {NOT_THERE: lambda: frame >= sum(case["durations"])})'
SOUNDING = "    return (number, UNTOUCHED_U32) if number else (0, owners(case)[frame])"
BELOW = "    below = lambda: bad_durations(case) or bad_trajectory(case)"
WORD_THERE = (
    '    number = refusal(checks_of(case) | {REFUSED_BELOW: below, NOT_THERE: lambda: word >= len(case["words"])})'
)
NO_PART = "        return number, UNTOUCHED_U64, UNTOUCHED_U64"
PART = "    return 0, first_frame(owned, word) * v, owned.count(word) * v"
TIMING_HEAD = '    head = MARK + struct.pack("<HI", VERSION, len(spans) // 2)'
TIMING_SPANS = '    return head + struct.pack(f"<{len(spans)}I", *spans)'
TIMING_ROOM = "    number = refusal(checks_of(case) | {TOO_SHORT: lambda: room < needed})"
NOTHING_WRITTEN = "        return number, UNTOUCHED_U64, marked_bytes(0, room)"
TIMING_WRITTEN = "    return 0, needed, file_of(spans_of(case)) + marked_bytes(needed, room)"
TIMING_MARK = "    if data[: len(MARK)] != MARK:"
TIMING_VERSION = '    return int.from_bytes(data[3:5], "little")'
ONE_VERSION = "    if version_of(data) != VERSION:"
TIMING_LENGTH = "    if len(data) < HEAD or len(data) != HEAD + SPAN * count_of(data):"
TOUCHING = "    if firsts != [0, *afters][: len(firsts)]:"
FORWARD = "    return any(after < first for first, after in zip(firsts, afters))"
READ_ROOM = "    number = refusal({MALFORMED: lambda: is_malformed(data), TOO_SHORT: lambda: room < 2 * count})"
NOTHING_READ = '        return {"refusal": number, "spans": marked_u32(0, room), "words": UNTOUCHED_U32}'
READ_SPANS = '    return {"refusal": 0, "spans": spans_in(data) + marked_u32(2 * count, room), "words": count}'
OF_RUNS = ("runs", "run")
RUN_SIZE = '    return 2 * window_count(case) * case["v"] + (case["masked"] != 0)'
RUN_WEIGHTS = "    return [pairs.voicing_weight(pairs.split_record(record)[2]) for record in records_of(case)]"
RUN_VOICED = '    return [weight > case["threshold"] for weight in voicing_weights(case)]'
RUN_STATES = (
    '    states = [(voiced, frames) for voiced, frames in zip(is_voiced(case), case["durations"]) if frames > 0]'
)
RUN_STRETCHES = "    for voiced, stretch in groupby(states, lambda state: state[0]):"
RUN_FRAMES = "        frames = sum(frames for _, frames in stretch)"
RUN_FOUND = "            runs.append(Run(first, frames))"
RUN_FIRST = "        first += frames\n    return runs"
RUN_THERE = '    return case["run"] < len(runs_of(case))'
RUN_WANTS = '    return runs_of(case)[case["run"]].frames if is_there(case) else 0'
RUNS_TOLD = '    return {"runs": [number for run in runs for number in run], "count": len(runs)}'
FRAMES_OF_STATES = '    return [state for state, duration in zip(states, case["durations"]) for _ in range(duration)]'
OWN_OF_RUN = "    return frames[run.first : run.first + run.frames]"
RUN_HALF = "    half = len(window) // 2"
REACHES = "    return left < half or right < len(window) - half - 1"
RUN_ZEROED = "        zeroed = not is_first and reaches_out(window, frame, last - frame)"
RUN_INVERSE = "        inverse.append(0.0 if zeroed else pairs.inverse_variance(varis[pair]))"
RUN_PAIR = '        pair = case["v"] * number + component'
RUN_MEANS = "        means.append([mean[pair] for mean, _ in frames])"
RUN_COMPONENTS = '    components = [solved(*equations(case, frames, component)) for component in range(case["v"])]'
RUN_NUMBERS = "    return [number for frame in zip(*components) for number in frame]"
RUN_ASKED = '    run = runs_of(case)[case["run"]]'
RUN_ALONE = '    return {"out": numbers_of(case, own(frames_of(case), run)), "frames": run.frames}'
FULL_AT_RUN = (
    '__import__("judge.reading.trajectory", fromlist=["x"]).trajectory_values(case)["out"]'
    '[run.first * case["v"] : (run.first + run.frames) * case["v"]]'
)
RUNS_1 = '        1: lambda: not 1 <= case["windows"] <= MAX_WINDOWS,'
RUNS_3 = "        3: lambda: states > MAX_STATES or not 1 <= v <= MAX_V,\n        4: lambda: len"
RUNS_4 = '        4: lambda: len(case["records"]) != states * runs.record_size(case),'
RUNS_5 = '        5: lambda: sum(case["durations"]) > MAX_FRAMES,'
RUNS_6 = '        6: lambda: case["runs"] < 2 * len(runs.runs_of(case)),'
RUN_AS_TRAJECTORY = "    return trajectory_checks(case) | {\n        6: too_short,"
RUN_6 = "        6: too_short,\n        20:"
RUN_N = "        n = runs.frames_asked(case)"
RUN_ROOM = (
    '        return case["out"] < n * case["v"] or case["work"] < n * WORK_FLOATS or case["marks"] < n * WORK_MARKS'
)
RUN_20 = '        20: lambda: case["gv_on"] != 0,'
RUN_21 = "        21: lambda: not runs.is_there(case),"
RUN_22 = '        22: lambda: case["widths"][0] > 1,'
RUNS_LEFT = '    return {"runs": written_u32(values["runs"], case["runs"]), "count": values["count"]}'
RUN_WORK_LEFT = '        "work": written_f64([0.0] * (n * WORK_FLOATS), case["work"]),'
RUN_MARKS_LEFT = '        "marks": written_u32([0] * (n * WORK_MARKS), case["marks"]),'
RUN_FRAMES_LEFT = '        "frames": n,'
OWN_SLOTS = "OWN = {0: range(4, 8), 1: range(8, 12)}"
ZEROS_DROPPED = "    return widths[:count]"
FINITE = "    return bits & SIZE_BITS < INFINITY"
SET_1_AND_2 = (
    "        return BAD_WINDOWS\n    if not all(map(is_finite, coefficients)):\n        return BAD_COEFFICIENT\n"
    "    return DISAGREE if len(coefficients) != sum(widths) else 0\n\n\ndef rows_of"
)
ROW_LENGTH = "    length = len(widths) // common if common else 0"
MOST_COMMON = "    if common > len(COMMON):"
BAD_ROW = "    if any(len(row) > WIDTHS or bad_windows(without_zeros(row)) for row in rows):"
ROWS_ARE_ALL = "    if sum(map(len, rows)) != len(widths):"
IS_OWN = "    return house in OWN and slot in OWN[house]"
MAY_USE = "    return house in OWN and (slot in COMMON or slot in OWN[house])"
SHORT_TABLE = "        return len(self.widths) < WIDTHS * SLOTS or len(self.coefficients) < COEFFICIENTS * SLOTS"
SLOT_WIDTHS = "        widths = without_zeros(self.widths[WIDTHS * slot : WIDTHS * (slot + 1)])"
SLOT_CONTENT = "        return widths, self.coefficients[COEFFICIENTS * slot : COEFFICIENTS * (slot + 1)][: sum(widths)]"
IS_EMPTY = "        return windows_refusal(*self.content(slot)) != 0"
WIDTHS_PUT = "        self.widths[WIDTHS * slot : WIDTHS * (slot + 1)] = with_zeros(widths, WIDTHS)"
COEFFICIENTS_PUT = (
    "        self.coefficients[COEFFICIENTS * slot : COEFFICIENTS * (slot + 1)] = with_zeros(coefficients, COEFFICIENTS)"
)
START = "        number = start_refusal(widths, coefficients, common) or (TOO_SHORT if self.is_short() else 0)"
STARTED_SLOTS = "        for slot in range(SLOTS):"
COMMON_SET = "            self.put(slot, without_zeros(row), coefficients[: sum(row)])"
SET_NOT_YOURS = "        if not is_own(house, slot):\n            return NOT_YOURS\n        if not self.is_empty(slot):"
SET_ALREADY = "            return SET_ALREADY"
SET_WINDOWS = "        return windows_refusal(widths, coefficients) or (TOO_SHORT if self.is_short() else 0)"
SET_DONE = "            self.put(slot, widths, coefficients)"
CLEAR_NOT_YOURS = "        if not is_own(house, slot):\n            return NOT_YOURS\n        if self.is_empty(slot):"
CLEAR_EMPTY = "        if self.is_empty(slot):\n            return EMPTY\n"
CLEARED = "        self.put(slot, [], [])\n        return 0"
USE_NOT_YOURS = "        if not may_use(house, slot):"
USE_EMPTY = "            return EMPTY, []"
USE_SHORT = "        if self.is_short() or room < WIDTHS:"
FREE_HOUSE = "        if house not in OWN:"
FREE_COUNT = "        return (TOO_SHORT, 0) if self.is_short() else (0, sum(map(self.is_empty, OWN[house])))"
FREE_TOLD = "        return UNTOUCHED_U32 if number else free"
FIRST_TOLD = "    left.firsts.append(UNTOUCHED_U64 if number else COEFFICIENTS * one.slot)"
COUNT_TOLD = "    left.counts.append(UNTOUCHED_U64 if number else sum(used))"
USED_TOLD = (
    "    left.used += marked_u32(0, one.room) if number else with_zeros(used, WIDTHS) + marked_u32(WIDTHS, one.room)"
)


def of_runs(name: str, file: str, line: str, fault: str, hidden: str = "", unlike: bool = False) -> Fault:
    """Of a line that no other call reads."""
    return Fault(name, file, line, fault, hidden, unlike=unlike, kinds=OF_RUNS)


FAULTS = [
    Fault("rounding to even", IEEE, HALF,
          "    if abs(x) - whole > 0.5 or abs(x) - whole == 0.5 and whole % 2:", drifts=True),
    Fault("adding 0.5 and cutting, for rounding", IEEE, HALF,
          "    if math.floor(abs(x) + 0.5) > whole:",
          "it differs at 0.49999999999999994 alone, which is at least 1 after both"),
    Fault("the half cut off with the rest of the fraction", IEEE, HALF, "    if abs(x) - whole >= 1:", drifts=True),
    Fault("negative halves rounded up", IEEE, HALF,
          "    if abs(x) - whole >= (0.5 if x > 0 else math.nextafter(0.5, 1)):",
          "negative numbers become 1 after both"),
    Fault("NaN lengths too long instead of 1", IEEE,
          "    if rounded > MAX_FRAMES:", "    if not rounded <= MAX_FRAMES:"),
    Fault("65,536 frames refused", IEEE,
          "    if rounded > MAX_FRAMES:", "    if rounded >= MAX_FRAMES:"),
    Fault("NaN cost least", IEEE, "        return NAN_BITS", "        return -1"),
    Fault("NaN cost equal to infinity", IEEE, "        return NAN_BITS", "        return 0x7FF0000000000000"),
    Fault("cost with its sign", IEEE,
          '    return struct.unpack("<Q", struct.pack("<d", abs(cost)))[0]',
          '    return struct.unpack("<Q", struct.pack("<d", cost))[0]'),
    Fault("sums from right to left", IEEE,
          "    for number in numbers:", "    for number in reversed(numbers):"),
    Fault("sums of pairs start with the first term", IEEE, "    result = 0.0", "    result = -0.0"),
    Fault("GV's sums start from zero", IEEE, "    result = numbers[0]", "    result = 0.0 + numbers[0]",
          "it differs where all switched values are -0: their variance is 0 and every value NaN"),
    Fault("a zero divisor gives 0", IEEE,
          "        return math.copysign(math.inf, a) * math.copysign(1.0, b)", "        return 0.0"),
    Fault("NaN with the machine's bits", IEEE,
          "        return value if value == value else NAN", "        return value"),
    Fault("inclusive 1e19", PAIRS, "    if abs(vari) > 1e19:", "    if abs(vari) >= 1e19:"),
    Fault("inclusive 1e-19", PAIRS, "    if abs(vari) < 1e-19:", "    if abs(vari) <= 1e-19:"),
    Fault("bounds of the variance itself", PAIRS, "    if abs(vari) < 1e-19:", "    if vari < 1e-19:"),
    Fault("a NaN variance counted high", PAIRS, CLAMP, CLAMP.replace("size > 1e19", "not size <= 1e19")),
    Fault("a NaN variance counted low", PAIRS, CLAMP, CLAMP.replace("size < 1e-19", "not size >= 1e-19")),
    Fault("a NaN variance of other bits counted high", PAIRS, CLAMP,
          CLAMP.replace("size > 1e19", "size > 1e19 or size != size"
                        " and (pack := __import__('struct').pack)('<d', vari) != pack('<d', ieee.NAN)")),
    Fault("a variance of 1e19 counted high", PAIRS, CLAMP, CLAMP.replace("size > 1e19", "size >= 1e19")),
    Fault("a variance of 1e-19 counted low", PAIRS, CLAMP, CLAMP.replace("size < 1e-19", "size <= 1e-19")),
    Fault("large variances below zero not counted", PAIRS, CLAMP, CLAMP.replace("size > 1e19", "vari > 1e19")),
    Fault("large variances below zero counted low", PAIRS, CLAMP,
          CLAMP.replace("size > 1e19", "vari > 1e19").replace("size < 1e-19", "size < 1e-19 or vari < -1e19")),
    Fault("all variances below zero counted low", PAIRS, CLAMP, CLAMP.replace("size < 1e-19", "vari < 1e-19")),
    Fault("small variances below zero not counted", PAIRS, CLAMP, CLAMP.replace("size < 1e-19", "0 <= vari < 1e-19")),
    Fault("a variance of 0 not counted", PAIRS, CLAMP, CLAMP.replace("size < 1e-19", "0 < size < 1e-19")),
    Fault("an infinite variance not counted", PAIRS, CLAMP,
          CLAMP.replace("size > 1e19", "1e19 < size <= ieee.LARGEST")),
    Fault("denormal variances not counted", PAIRS, CLAMP,
          CLAMP.replace("size < 1e-19", "size == 0 or 2.0**-1022 <= size < 1e-19")),
    Fault("high and low the other way round", PAIRS, CLAMP,
          "    return LOW if size > 1e19 else HIGH if size < 1e-19 else NOT_CLAMPED"),
    Fault("no clamp with its pair", PAIRS, CLAMP_WITH_PAIR, "    clamped = NOT_CLAMPED", NO_CALL),
    Fault("a clamp with every operation's pair", PAIRS, CLAMP_WITH_PAIR, "    clamped = clamp(vari)", NO_CALL),
    Fault("the clamp of the inverse variance", PAIRS, CLAMP_WITH_PAIR,
          CLAMP_WITH_PAIR.replace("clamp(vari)", "clamp(inverse_variance(vari))"), NO_CALL),
    Fault("absent weight as infinity", PAIRS,
          "    return ieee.LARGEST if weight is None else weight",
          '    return float("inf") if weight is None else weight'),
    Fault("absent weight added as the largest", PAIRS,
          "    other_means, other_varis, other_given = split_record(other)",
          "    other_means, other_varis, other_given = *split_record(other)[:2], voicing_weight(split_record(other)[2])",
          "a record's operations are no C call; the operations show it"),
    Fault("one rounding in the estimate", DURATIONS, ESTIMATE,
          "        m, s = self.mean, self.vari; return max(self.shortest, ieee.frames("
          "float((F := __import__('fractions').Fraction)(m) + F(rho) * F(s))"
          " if abs(m) + abs(s) + abs(rho) < 1e99 else m + rho * s))"),
    Fault("an estimate without its shortest", DURATIONS, ESTIMATE,
          "        return ieee.frames(self.mean + rho * self.vari)"),
    Fault("a natural duration without its shortest", DURATIONS, ESTIMATE,
          ESTIMATE.replace("self.shortest", "self.shortest if rho else 1")),
    Fault("a fit's estimate without its shortest", DURATIONS, ESTIMATE,
          ESTIMATE.replace("self.shortest", "1 if rho else self.shortest")),
    Fault("an estimate and its shortest added", DURATIONS, ESTIMATE,
          "        return self.shortest - 1 + ieee.frames(self.mean + rho * self.vari)"),
    Fault("an estimate at most its shortest", DURATIONS, ESTIMATE, ESTIMATE.replace("max(", "min(")),
    Fault("an estimate of NaN at 1 frame, not at its shortest", DURATIONS, ESTIMATE,
          ESTIMATE + " if self.mean + rho * self.vari == self.mean + rho * self.vari else 1"),
    Fault("an estimate below zero at 1 frame, not at its shortest", DURATIONS, ESTIMATE,
          ESTIMATE + " if not self.mean + rho * self.vari < 0 else 1"),
    Fault("the largest shortest for every estimate", DURATIONS,
          "    durations = [state.frames(rho) for state in states]",
          "    durations = [max([state.frames(rho), *shortest_of(states)]) for state in states]"),
    Fault("last state on a tie", DURATIONS, STEPS_BY_COST,
          STEPS_BY_COST.replace("(cost(place), place)", "(cost(place), -place)")
          .replace("_, place = costs[0]", "place = -costs[0][1]")),
    Fault("cost at the duration itself", DURATIONS,
          "        return state.cost(frames + unit, rho)", "        return state.cost(frames, rho)"),
    Fault("a state at its shortest gives a frame", DURATIONS, GIVES_NOTHING, "        if unit < 0 and frames <= 1:"),
    Fault("a state gives its last frame", DURATIONS, GIVES_NOTHING, "        if unit < 0 and frames < state.shortest:"),
    Fault("a state gives nothing from a frame above its shortest on", DURATIONS, GIVES_NOTHING,
          "        if unit < 0 and frames <= state.shortest + 1:"),
    Fault("a state at its shortest gets no frame", DURATIONS, GIVES_NOTHING, "        if frames <= state.shortest:"),
    Fault("the first state's shortest for all that give", DURATIONS, GIVES_NOTHING,
          "        if unit < 0 and frames <= states[0].shortest:"),
    Fault("the cost's distance from the shortest", DURATIONS,
          "        return ieee.order(rho - ieee.divide(frames - self.mean, self.vari))",
          "        return ieee.order(rho - ieee.divide(frames - max(self.mean, self.shortest), self.vari))"),
    Fault("target at the sum of the shortest fitted", DURATIONS, ENOUGH, ENOUGH.replace("<=", "<")),
    Fault("target a frame above the sum of the shortest not fitted", DURATIONS, ENOUGH,
          ENOUGH.replace("):", ") + 1:"), drifts=True),
    Fault("target compared with the number of states", DURATIONS, ENOUGH, "    if target <= len(states):", drifts=True),
    Fault("target compared with the largest shortest", DURATIONS, ENOUGH,
          "    if target <= max(shortest_of(states)):", drifts=True),
    Fault("target compared with the sum of the shortest in 16 bits", DURATIONS, ENOUGH,
          ENOUGH.replace("):", ") % 2**16:")),
    Fault("target compared with the sum of the natural durations", DURATIONS, ENOUGH,
          "    if target <= sum(state.frames(0.0) for state in states):", drifts=True),
    Fault("rho by means that are raised to their shortest", DURATIONS, MEANS,
          MEANS.replace("[state.mean for", "[max(state.mean, state.shortest) for")),
    Fault("rho by what is above the shortest", DURATIONS, RHO,
          RHO.replace("target -", "target - sum(shortest_of(states)) -")),
    Fault("empty list refused with 7", DURATIONS,
          "    if not states:", "    if not states and ieee.frames(length) <= MAX_FRAMES:"),
    Fault("changes upwards alone counted", DURATIONS,
          "    return Fit(durations, abs(steps))", "    return Fit(durations, max(steps, 0))"),
    Fault("speed 1 fitted too", DURATIONS, "    if factor == 1.0:", "    if factor == 0.0:"),
    Fault("speed's target refused before its estimate", DURATIONS,
          "    durations = estimate(states, 0.0)", "    durations = [state.frames(0.0) for state in states]"),
    Fault("speed 1 without the shortest", DURATIONS, SPEED_1,
          f"    if factor == 1.0:\n        return Fit([{NATURAL}], 0)"),
    Fault("a speed's length without the shortest", DURATIONS, SPEED,
          f"    return fit(states, ieee.divide(float(sum({NATURAL})), factor))"),
    Fault("a speed's length by the sum of the shortest", DURATIONS, SPEED,
          SPEED.replace("sum(durations)", "sum(shortest_of(states))")),
    Fault("minus zero as open", DURATIONS, OPEN, '        if not end >= 0 or str(end) == "-0.0":', drifts=True),
    Fault("NaN end as given", DURATIONS, OPEN, "        if end < 0:"),
    Fault("groups fitted to the end itself", DURATIONS, GROUP,
          "        group = fit(states[first:last], end)", drifts=True),
    Fault("a group with the shortest of the list's first states", DURATIONS, GROUP,
          GROUP.replace("states[first:last]", OTHER_SHORTEST.format(at="at", first="first", last="last")), drifts=True),
    Fault("a group with the shortest of the first label's states", DURATIONS, GROUP,
          GROUP.replace("states[first:last]", OTHER_SHORTEST.format(at="at % nstate", first="first", last="last")),
          drifts=True),
    Fault("a group of ones", DURATIONS, GROUP,
          GROUP.replace("states[first:last]", "[state._replace(shortest=1) for state in states[first:last]]"), drifts=True),
    Fault("running total checked at the end alone", DURATIONS,
          "        if sum(whole.durations) > MAX_FRAMES:", "        if False:"),
    Fault("each label's own length rounded", DURATIONS, GROUP,
          GROUP.replace("sum(whole.durations)", LAST_END), drifts=True),
    Fault("each label's own length cut", DURATIONS, GROUP,
          GROUP.replace("end - sum(whole.durations)", f"(end - {LAST_END}) // 1.0"), drifts=True),
    Fault("the frames so far by the last end, rounded", DURATIONS, GROUP,
          GROUP.replace("sum(whole.durations)", f"ieee.nearest({LAST_END})"), drifts=True),
    Fault("an end rounded, less the last one cut", DURATIONS, GROUP,
          GROUP.replace("end - sum(whole.durations)", f"ieee.nearest(end) - {LAST_END} // 1.0"), drifts=True),
    Fault("an end cut", DURATIONS, GROUP, GROUP.replace("end - sum", "end // 1.0 - sum"), drifts=True),
    Fault("an end rounded up", DURATIONS, GROUP, GROUP.replace("end - sum", "-(-end // 1.0) - sum"), drifts=True),
    Fault("an end's half rounded down", DURATIONS, GROUP,
          GROUP.replace("end - sum", "-((0.5 - end) // 1.0) - sum"), drifts=True),
    Fault("an end's half rounded to even", DURATIONS, GROUP,
          GROUP.replace("end - sum", "(round(end) if end < 1e9 else end) - sum"), drifts=True),
    Fault("an end in 32 bits", DURATIONS, GROUP,
          GROUP.replace("end - sum", "(__import__('ctypes').c_float(end).value) - sum"), drifts=True),
    Fault("an end cut to whole milliseconds", DURATIONS, GROUP,
          GROUP.replace("end - sum", "end * 5 // 1.0 / 5 - sum"), drifts=True),
    Fault("the last group's frames for those so far", DURATIONS, GROUP,
          GROUP.replace("sum(whole.durations)", "(sum(group.durations) if first else 0)"), drifts=True),
    Fault("frames so far in 8 bits", DURATIONS, GROUP,
          GROUP.replace("sum(whole.durations)", "sum(whole.durations) % 2**8"), drifts=True),
    Fault("a group at its shortest not among the frames so far", DURATIONS, GROUP,
          GROUP.replace("sum(whole.durations)", "getattr(whole, 'counted', 0)")
          + "; whole.counted = getattr(whole, 'counted', 0)"
          " + sum(group.durations) * (sum(group.durations) > sum(shortest_of(states[first:last])))", drifts=True),
    Fault("a tie's frame not among the frames so far", DURATIONS, GROUP,
          GROUP.replace("sum(whole.durations)", "getattr(whole, 'counted', 0)")
          + "; whole.counted = getattr(whole, 'counted', 0) + sum(group.durations) - (end % 1.0 == 0.5)", drifts=True),
    Fault("open labels at their shortest beside their group", DURATIONS, GROUP,
          "        own = label * nstate; group = fit(states[own:last], end - sum(whole.durations));"
          " group.durations[:0] = shortest_of(states[first:own])", drifts=True),
    Fault("open labels at their natural length, the label itself fitted to the rest", DURATIONS, GROUP,
          "        own = label * nstate; open_ones = estimate(states[first:own], 0.0);"
          " group = fit(states[own:last], end - sum(whole.durations) - sum(open_ones));"
          " group.durations[:0] = open_ones", drifts=True),
    Fault("open labels at their shortest, the label itself fitted to the rest", DURATIONS, GROUP,
          "        own = label * nstate; open_ones = shortest_of(states[first:own]);"
          " group = fit(states[own:last], end - sum(whole.durations) - sum(open_ones)); group.durations[:0] = open_ones"),
    Fault("an end that goes backward as open", DURATIONS, OPEN,
          f"        if not end >= {LAST_END}:", drifts=True),
    Fault("an end with a target at the shortest as open", DURATIONS, OPEN,
          "        if not end >= 0 or ieee.frames(end - sum(whole.durations)) <= sum(shortest_of("
          "states[len(whole.durations) : (label + 1) * nstate])):", drifts=True),
    Fault("a target below the sum kept, the last states without frames", DURATIONS, SHORTEST,
          "        return Fit([max(0, min(state.shortest, target - sum(shortest_of(states[:at]))))"
          " for at, state in enumerate(states)], 0)", drifts=True),
    Fault("ones where the target is not above the sum of the shortest", DURATIONS, SHORTEST,
          "        return Fit([1] * len(states), 0)", drifts=True),
    Fault("a target not above the sum divided among the states", DURATIONS, SHORTEST,
          "        return Fit([max(1, target // len(states))] * len(states), 0)", drifts=True),
    Fault("changes told where there is nothing to fit", DURATIONS, SHORTEST,
          "        return Fit(shortest_of(states), sum(shortest_of(states)) - target)"),
    Fault("a state's natural length at least, in a group at its shortest", DURATIONS, SHORTEST,
          "        return Fit(estimate(states, 0.0), 0)", drifts=True),
    Fault("a step too few upwards", DURATIONS, STEPS,
          "    steps = target - sum(durations) - (target > sum(durations))", drifts=True),
    Fault("a step too few downwards", DURATIONS, STEPS,
          "    steps = target - sum(durations) + (target < sum(durations))", drifts=True),
    Fault("the start handed out", DURATIONS, STEPS, "    steps = 0", drifts=True),
    Fault("an alignment's tail dropped", DURATIONS, TAIL, "    tail = []"),
    Fault("a tail dropped where no end is given", DURATIONS, TAIL, TAIL + " if fitted else []"),
    Fault("a tail with the last group's rho", DURATIONS, TAIL,
          "    tail = estimate(states[fitted:], ieee.divide(sum(group.durations)"
          " - ieee.total([state.mean for state in states[first:last]]),"
          " ieee.total([state.vari for state in states[first:last]])) if fitted else 0.0)"),
    Fault("a tail fitted to its summed means", DURATIONS, TAIL,
          "    tail = fit(states[fitted:], ieee.total([state.mean for state in states[fitted:]])).durations"),
    Fault("a tail's means without their variances", DURATIONS, TAIL,
          "    tail = [max(state.shortest, ieee.frames(state.mean)) for state in states[fitted:]]"),
    Fault("a tail at least a frame a state, not its shortest", DURATIONS, TAIL, f"    tail = [{NATURAL}[fitted:]]"),
    Fault("a tail at its shortest", DURATIONS, TAIL, "    tail = shortest_of(states[fitted:])"),
    Fault("a tail with the shortest of the list's first states", DURATIONS, TAIL,
          TAIL.replace("states[fitted:]", OTHER_SHORTEST.format(at="at", first="fitted", last=""))),
    Fault("no 8 for a tail", DURATIONS, TAIL,
          "    return Fit(whole.durations + [state.frames(0.0) for state in states[fitted:]], whole.changes)"),
    Fault("running total without the tail", DURATIONS,
          "    if sum(whole.durations) + sum(tail) > MAX_FRAMES:", "    if sum(tail) > MAX_FRAMES:"),
    Fault("a tail's 8 before a group's 7", DURATIONS,
          "    whole = Fit([], 0)",
          "    whole, first = Fit([], 0), max((i for i, e in enumerate(ends, 1) if e >= 0), default=0) * nstate;"
          " estimate(states[first:], 0.0)"),
    Fault("voiced at the threshold", TRAJECTORY,
          "    return expand([weight > threshold for weight in weights], durations)",
          "    return expand([weight >= threshold for weight in weights], durations)"),
    Fault("NaN weight voiced", TRAJECTORY,
          "    return expand([weight > threshold for weight in weights], durations)",
          "    return expand([not weight <= threshold for weight in weights], durations)"),
    Fault("first window masked too", TRAJECTORY, "        if number > 0:", "        if number >= 0:"),
    Fault("utterance distances", TRAJECTORY,
          "    left, right = distances(voiced)", "    left, right = distances([True] * len(voiced))"),
    Fault("half rounded up at boundaries", TRAJECTORY,
          "    rest = len(window) - half - 1", "    half, rest = len(window) - half - 1, half"),
    Fault("inclusive boundaries", TRAJECTORY,
          "        0.0 if left[frame] < half or right[frame] < rest else ivar",
          "        0.0 if left[frame] <= half or right[frame] < rest else ivar"),
    Fault("clamped pairs counted after the zeroing, zeroed ones high", TRAJECTORY, CLAMPS,
          CLAMPS_AFTER_ZEROING.format(zeroed="pairs.HIGH")),
    Fault("clamped pairs counted after the zeroing, zeroed ones not", TRAJECTORY, CLAMPS,
          CLAMPS_AFTER_ZEROING.format(zeroed="pairs.NOT_CLAMPED")),
    Fault("clamped pairs counted once a state", TRAJECTORY, CLAMPS_OF_FRAMES,
          "    return [clamp for state in set(select(expand(list(range(len(states))), durations), voiced))"
          " for clamp in states[state]]"),
    Fault("clamped pairs of unvoiced frames counted", TRAJECTORY, CLAMPS_OF_FRAMES,
          "    return [clamp for frame in expand(states, durations) for clamp in frame]"),
    Fault("clamped pairs of states of no frames counted", TRAJECTORY, CLAMPS_OF_FRAMES,
          "    return [clamp for frame in select(expand(states, durations), voiced)"
          " + [state for state, duration in zip(states, durations) if duration == 0] for clamp in frame]"),
    Fault("frames with clamped pairs counted", TRAJECTORY, CLAMPS_OF_FRAMES,
          CLAMPS_OF_FRAMES.replace("for clamp in frame]", "for clamp in set(frame)]")),
    Fault("clamped pairs of the first window alone", TRAJECTORY, CLAMPS,
          CLAMPS_BY_PLACE.format(keeps='at // v % len(case["widths"]) == 0')),
    Fault("clamped pairs of the first window not counted", TRAJECTORY, CLAMPS,
          CLAMPS_BY_PLACE.format(keeps='at // v % len(case["widths"]) > 0')),
    Fault("clamped pairs of the last window alone", TRAJECTORY, CLAMPS,
          CLAMPS_BY_PLACE.format(keeps='at // v % len(case["widths"]) == len(case["widths"]) - 1')),
    Fault("clamped pairs of the first component alone", TRAJECTORY, CLAMPS, CLAMPS_BY_PLACE.format(keeps="at % v == 0")),
    Fault("clamped pairs of the last component alone", TRAJECTORY, CLAMPS, CLAMPS_BY_PLACE.format(keeps="at % v == v - 1")),
    Fault("clamped pairs counted once a component", TRAJECTORY, CLAMPS, CLAMPS + " * v"),
    Fault("clamped pairs counted once a window", TRAJECTORY, CLAMPS, CLAMPS + ' * len(case["widths"])'),
    Fault("means counted for variances", TRAJECTORY, CLAMPS_OF_STATES,
          CLAMPS_OF_STATES.replace("split_record(record)[1]", "split_record(record)[0]")),
    Fault("a voicing weight counted as a variance", TRAJECTORY, CLAMPS_OF_STATES,
          CLAMPS_OF_STATES.replace("pairs.split_record(record)[1]", "record[len(record) // 2 :]")),
    Fault("clamped GV variances counted", TRAJECTORY, CLAMPS,
          CLAMPS + ' + [pairs.clamp(vari) for vari in case["gv"][v:] if case["gv_on"]]'),
    Fault("clamped pairs of switched frames alone", TRAJECTORY, CLAMPS,
          '    clamped = clamps(records, durations, [one and byte != 0 for one, byte in'
          ' zip(voiced, expand(list(case["switches"]), durations))] if case["gv_on"] else voiced)'),
    Fault("both counts the other way round", TRAJECTORY, CLAMPED,
          '    return {"out": out, "high": clamped.count(pairs.LOW), "low": clamped.count(pairs.HIGH)}'),
    Fault("both counts of all clamped pairs", TRAJECTORY, CLAMPED,
          '    return {"out": out} | dict.fromkeys(["high", "low"], len(clamped) - clamped.count(pairs.NOT_CLAMPED))'),
    Fault("counts of clamped pairs in 8 bits", TRAJECTORY, CLAMPED,
          CLAMPED.replace("HIGH)", "HIGH) % 2**8").replace("LOW)", "LOW) % 2**8")),
    Fault("counts of clamped pairs in 16 bits", TRAJECTORY, CLAMPED,
          CLAMPED.replace("HIGH)", "HIGH) % 2**16").replace("LOW)", "LOW) % 2**16")),
    Fault("the Rust's break", TRAJECTORY,
          "                    if window[tap + j] != 0 and t + j < length:",
          "                    if t + max(k for k, c in enumerate(window[tap:]) if c) < length and window[tap + j]:"),
    Fault("zero taps added", TRAJECTORY,
          "                if window[tap] == 0 or not 0 <= frame < length:",
          "                if not 0 <= frame < length:"),
    Fault("zeroed frames skipped", TRAJECTORY,
          "                side += wu * mean[frame]", "                side += wu * mean[frame] if wu else 0.0"),
    Fault("taps from first to last", TRAJECTORY,
          "            for tap in reversed(range(len(window))):", "            for tap in range(len(window)):"),
    Fault("factor's product grouped otherwise", TRAJECTORY,
          "            row[0] -= rows[t - i][i] * rows[t - i][i] * rows[t - i][0]",
          "            row[0] -= rows[t - i][i] * (rows[t - i][i] * rows[t - i][0])"),
    Fault("backward sums from the far end", TRAJECTORY,
          "        for i in range(1, min(width, length - t)):",
          "        for i in reversed(range(1, min(width, length - t))):"),
    Fault("factored matrix in GV", TRAJECTORY,
          "    return with_gv(rows, side, values, switched, len(windows), target, vari_weight)",
          "    return with_gv(factored(rows), side, values, switched, len(windows), target, vari_weight)"),
    Fault("four GV steps", TRAJECTORY, "GV_STEPS = 5", "GV_STEPS = 4"),
    Fault("GV without its rescaling", TRAJECTORY,
          "    ratio = ieee.sqrt(divide(target, vari))", "    ratio = 1.0"),
    Fault("step grows when the objective stays", TRAJECTORY,
          "        elif number > 0 and current < previous:", "        elif number > 0 and current <= previous:"),
    Fault("step grows when the objective is NaN", TRAJECTORY,
          "        elif number > 0 and current < previous:", "        elif number > 0 and not current == previous:"),
    Fault("objective's sum starts with its first term", TRAJECTORY,
          "    result = 0.0", "    result = -0.0",
          "it differs in the sign of a zero, which no comparison sees"),
    Fault("GV variance inverted", TRAJECTORY,
          '    vari_weight = case["gv"][v + component]',
          '    vari_weight = pairs.inverse_variance(case["gv"][v + component])'),
    Fault("GV weight on the variance too", TRAJECTORY,
          '    vari_weight = case["gv"][v + component]',
          '    vari_weight = case["gv"][v + component] * case["gv_weight"]'),
    Fault("GV mean and variance of all voiced frames", TRAJECTORY,
          "    chosen = select(values, switched)", "    chosen = list(values)"),
    Fault("GV counts switched frames", TRAJECTORY,
          "    w = divide(1.0, windows * length)", "    w = divide(1.0, windows * sum(switched))"),
    Fault("a place taken in 32 bits", PLACES,
          '    return {"place": (case["frame"] * case["v"] + case["component"]) * 8}',
          '    return {"place": (case["frame"] * case["v"] + case["component"]) * 8 % 2**32}'),
    Fault("an excerpt counted in frames", PLACES,
          '    return {"first": before * v, "count": case["durations"][state] * v}',
          '    return {"first": before, "count": case["durations"][state]}'),
    Fault("surplus bytes of a job passed over", JOBS, "    if len(data) != whole:", "    if len(data) < whole:"),
    Fault("a job's version in 8 bits", JOBS,
          '        value = int.from_bytes(data[place : place + size], "little")',
          '        value = int.from_bytes(data[place : place + (1 if place == 3 else size)], "little")'),
    Fault("a job's version with its high byte first", JOBS, VALUE,
          '        value = int.from_bytes(data[place : place + size], "big" if place == 3 else "little")'),
    Fault("version 2 refused with 13", JOBS, VERSIONS, VERSIONS.replace("SHORTEST_VERSION", "FIRST_VERSION")),
    Fault("version 1 refused with 13", JOBS, VERSIONS, VERSIONS.replace("FIRST_VERSION", "SHORTEST_VERSION")),
    Fault("version 3 taken", JOBS, VERSIONS,
          VERSIONS.replace("SHORTEST_VERSION", "3") + " *(STATE.update({3: PAIR + SHORTEST}) or []),"),
    Fault("version 0 taken", JOBS, VERSIONS,
          VERSIONS.replace("FIRST_VERSION", "0") + " *(STATE.update({0: PAIR}) or []),"),
    Fault("version 2 with 16 bytes a state", JOBS, STATE_SIZES, STATE_SIZES.replace("PAIR + SHORTEST", "PAIR")),
    Fault("version 1 with 20 bytes a state", JOBS, STATE_SIZES, STATE_SIZES.replace("N: PAIR,", "N: PAIR + SHORTEST,")),
    Fault("version 2 with a shortest in 64 bits", JOBS, STATE_SIZES, STATE_SIZES.replace("+ SHORTEST", "+ 8")),
    Fault("version 1 read with zeros", JOBS, FIRST_SHORTEST, "    shortest = [0] * count"),
    Fault("version 2 read with ones", JOBS, JOB_SHORTEST, "        shortest = [1] * count"),
    Fault("a job's shortest left unused", JOBS, JOB_STATES, JOB_STATES.replace("job.shortest", "[1] * len(job.means)")),
    Fault("a shortest before its pair", JOBS, JOB_SHORTEST,
          "        pairs = [struct.unpack_from('<dd', data, place + 4) for place in places];"
          " shortest = [struct.unpack_from('<I', data, place)[0] for place in places]"),
    Fault("all pairs, then every shortest", JOBS, JOB_SHORTEST,
          "        pairs = [struct.unpack_from('<dd', data, HEAD + 16 * at) for at in range(count)];"
          " shortest = [struct.unpack_from('<I', data, HEAD + 16 * count + 4 * at)[0] for at in range(count)]"),
    Fault("a shortest with its high bytes first", JOBS, JOB_SHORTEST, JOB_SHORTEST.replace("little", "big")),
    Fault("a shortest in 8 bits", JOBS, JOB_SHORTEST, JOB_SHORTEST.replace("PAIR + SHORTEST", "PAIR + 1")),
    Fault("a shortest in 16 bits", JOBS, JOB_SHORTEST, JOB_SHORTEST.replace("PAIR + SHORTEST", "PAIR + 2")),
    Fault("a shortest in 24 bits", JOBS, JOB_SHORTEST, JOB_SHORTEST.replace("PAIR + SHORTEST", "PAIR + 3")),
    Fault("a surplus told by the first version's length", JOBS, WHOLE,
          "        return Damage(WRONG_LENGTH, min(len(data), HEAD + PAIR * count))"),
    Fault("a shortest of 0 told as damage", JOBS, WHOLE + "\n    return None",
          WHOLE + "\n    zeros = [at for at in range(HEAD + PAIR, whole, 20) if version == 2 and not any(data[at : at + 4])]"
          "\n    return Damage(WRONG_LENGTH, zeros[0]) if zeros else None"),
    Fault("a job of 1,024 states refused", JOBS,
          "    Field(5, 2, 0, MAX_COUNT, TOO_MANY_STATES),", "    Field(5, 2, 0, MAX_COUNT - 1, TOO_MANY_STATES),"),
    Fault("the last wrong byte of the mark told", JOBS, WRONG,
          "            return Damage(number, max(i for i, (a, b) in enumerate(zip(data, MARK)) if a != b)"
          " if number == WRONG_MARK else place)"),
    Fault("the mark looked at whole", JOBS, ENDS, "        if len(data) < max(place + size, len(MARK)):"),
    Fault("a file that ends inside the mark told as 12", JOBS,
          "            return Damage(WRONG_LENGTH, len(data))",
          "            return Damage(WRONG_MARK if place < len(MARK) else WRONG_LENGTH, len(data))"),
    Fault("the version looked at before the mark", JOBS, FIELD,
          "    for place, size, least, most, number in [FIELDS[3], *FIELDS]:"),
    Fault("half a version told as 13", JOBS, ENDS, "        if len(data) <= place:"),
    Fault("a version's place at its second byte", JOBS, WRONG,
          "            return Damage(number, place + (number == WRONG_VERSION and data[3] in (1, 2)))"),
    Fault("a count's place at its second byte", JOBS, WRONG,
          "            return Damage(number, place + (number == TOO_MANY_STATES))"),
    Fault("too many states told by the length", JOBS,
          "        if not least <= value <= most:", "        if not least <= value <= most and place < 5:"),
    Fault("a file that ends in its head told before its fields", JOBS, ENDS, "        if len(data) < HEAD:"),
    Fault("a file longer than any job told by its length", JOBS, FIELD,
          "    for place, size, least, most, number in FIELDS if len(data) <= 20_495 else FIELDS[4:]:"),
    Fault("a surplus told before a wrong version", JOBS, WRONG,
          '            return Damage(number, place) if number != 13 or len(data) <= (whole := HEAD + PAIR *'
          ' int.from_bytes(data[5:7], "little")) else Damage(WRONG_LENGTH, whole)'),
    Fault("a short file told where it should end", JOBS, WHOLE, "        return Damage(WRONG_LENGTH, whole)"),
    Fault("a short file told as 14", JOBS, WHOLE,
          "        return Damage(TOO_MANY_STATES if len(data) < whole else WRONG_LENGTH, min(len(data), whole))"),
    Fault("a surplus told at the file's end", JOBS, WHOLE, "        return Damage(WRONG_LENGTH, len(data))"),
    Fault("the old number of 14 left as 14", JOBS, OLD, "    return WRONG_LENGTH if number in (9, 12, 13) else number"),
    Fault("the old number of 11 made 9", JOBS, OLD,
          "    return WRONG_LENGTH if number in (*DAMAGES, 11) else number"),
    Fault("the old number of all from 12 up made 9", JOBS, OLD,
          "    return WRONG_LENGTH if number == 9 or number >= 12 else number"),
    Fault("the old number by the last 8 bits", JOBS, OLD,
          "    return WRONG_LENGTH if number % 256 in DAMAGES else number"),
    Fault("a job's means, then its variances", JOBS, JOB_PAIRS,
          "    pairs = [(struct.unpack_from('<d', data, HEAD + 8 * at)[0],"
          " struct.unpack_from('<d', data, HEAD + 8 * (count + at))[0]) for at in range(count)]"),
    Fault("a part of no bytes ends the job", LINKS,
          "            self.keep(self.came() + data)",
          '            self.keep(self.came() + data) if data else self.write(0, b"")'),
    Fault("a part after the end is kept", LINKS,
          "        number = self.refusal()", "        number = self.refusal() % JOB_ENDED"),
    Fault("a part that does not fit passed over", LINKS,
          "        kept = job[:KEPT]", "        kept = job if len(job) <= KEPT else self.came()"),
    Fault("the surplus byte of a job that is too long dropped", LINKS,
          "        kept = job[:KEPT]", "        kept = job[: KEPT - 1]"),
    Fault("a job's bytes counted in 16 bits", LINKS,
          "        kept = job[:KEPT]", "        kept = job[: len(job) % 2**16][:KEPT]"),
    Fault("a link's number in 16 bits", LINKS,
          '        return int.from_bytes(self.memory[:NUMBER], "little")',
          '        return int.from_bytes(self.memory[:2], "little")'),
    Fault("begin keeps the old count", LINKS,
          '        self.write(1, b"")', '        self.write(self.number() or 1, b"")'),
    Fault("begin clears a link's memory", LINKS,
          '        self.write(1, b"")', "        self.write(1, bytes(KEPT))"),
    Fault("a refused end is no end", LINKS,
          '        self.write(0, b"")', '        self.write(self.number() if answer(job)[0] else 0, b"")'),
    Fault("a second end answers again", LINKS, '        self.write(0, b"")', "        pass"),
    Fault("6 before 11", LINKS,
          "        if self.has_ended():", "        if self.has_ended() and not self.is_short():"),
    Fault("a memory of zeros as a job of no bytes", LINKS,
          "        return number == 0 or number > KEPT + 1", "        return number > KEPT + 1"),
    Fault("any number but 0 as a job under way", LINKS,
          "        return number == 0 or number > KEPT + 1", "        return number == 0"),
    Fault("a full memory as ended", LINKS,
          "        return number == 0 or number > KEPT + 1", "        return number == 0 or number > KEPT"),
    Fault("a link for jobs of version 1 alone", LINKS, KEPT_BYTES, "KEPT = 16_400"),
    Fault("a link for 1,024 states without the byte behind", LINKS, KEPT_BYTES, KEPT_BYTES.replace(" + 1", "")),
    Fault("a memory of the size before taken", LINKS,
          "        return len(self.memory) < SIZE", "        return len(self.memory) < 16_408"),
    Fault("a number above 16,401 as ended", LINKS, LINK_ENDED, "        return number == 0 or number > 16_401"),
    Fault("as many bytes kept as before", LINKS, "        kept = job[:KEPT]", "        kept = job[:16_400]"),
    Fault("an end that is refused with 15 is no end", LINKS,
          '        self.write(0, b"")', '        self.write(self.number() if answer(job)[0] == 15 else 0, b"")'),
    Fault("a memory of a byte too few taken", LINKS,
          "        return len(self.memory) < SIZE", "        return len(self.memory) < SIZE - 1"),
    Fault("a replaced voice moves to the end", SETTINGS, KEPT,
          "        place = max(self.held() + [place]) if self.holds(voice) and self.remove(voice) == 0 else place;"
          " self.put(place, voice, settings)"),
    Fault("a voice set anew in the first free place", SETTINGS, "        if self.holds(voice):",
          "        if self.holds(voice) and not any(map(self.is_free, range(self.place_of(voice)))):"),
    Fault("the last free place", SETTINGS, FIRST_FREE,
          "        return next(filter(self.is_free, reversed(range(PLACES))), None)"),
    Fault("a new voice behind all others", SETTINGS, FIRST_FREE,
          "        return next((place for place in range(max(self.held(), default=-1) + 1, PLACES)), None)"),
    Fault("17 though the voice is held", SETTINGS, FULL_STORE, "        if len(self.held()) == PLACES:"),
    Fault("17 with a repeated place in a full store", SETTINGS, FIRST_FREE,
          "        return next((place for place in range(PLACES) if self.voices[place] > MAX_VOICE), None)"),
    Fault("17 at 255 voices", SETTINGS, FULL_STORE,
          "        if place is None or not self.holds(voice) and len(self.held()) == PLACES - 1:"),
    Fault("a full store takes a voice in its last place", SETTINGS, FIRST_FREE,
          "        return next(filter(self.is_free, range(PLACES)), PLACES - 1)"),
    Fault("a repeated number counted twice", SETTINGS, COUNTED,
          "        return (TOO_SHORT, 0) if len(self.voices) < PLACES else"
          " (0, sum(number <= MAX_VOICE for number in self.voices[:PLACES]))"),
    Fault("a repeated number held at both places", SETTINGS, FREE_PLACE, "        return number > MAX_VOICE"),
    Fault("the last of two places with one number counts", SETTINGS, "        return self.voices.index(voice)",
          "        return PLACES - 1 - self.voices[:PLACES][::-1].index(voice)"),
    Fault("free by 4,294,967,295 alone", SETTINGS, FREE_PLACE,
          "        return number == FREE or self.voices.index(number) < place"),
    Fault("the voice 65,535 free", SETTINGS, FREE_PLACE,
          "        return number >= MAX_VOICE or self.voices.index(number) < place"),
    Fault("the voice 0 free", SETTINGS, FREE_PLACE,
          "        return number > MAX_VOICE or number == 0 or self.voices.index(number) < place"),
    Fault("the voice 65,535 refused", SETTINGS, "        if voice > MAX_VOICE:", "        if voice >= MAX_VOICE:"),
    Fault("a voice above 65,535 not held", SETTINGS, OF_A_VOICE,
          "        return 19 if voice > MAX_VOICE else self.refusal(voice) or (0 if self.holds(voice) else NOT_HELD)"),
    Fault("6 before 3", SETTINGS, "        if voice > MAX_VOICE:",
          "        if voice > MAX_VOICE and not self.is_short():"),
    Fault("19 before 6", SETTINGS, OF_A_VOICE,
          "        return self.refusal(voice) if voice > MAX_VOICE or self.holds(voice) else NOT_HELD"),
    Fault("a store of 255 numbers taken", SETTINGS, COUNTED,
          "        return (TOO_SHORT, 0) if len(self.voices) < PLACES - 1 else"
          " (0, len({number for number in self.voices[:PLACES] if number <= MAX_VOICE}))"),
    Fault("a store of 767 settings taken", SETTINGS, SHORT_STORE,
          "        return len(self.voices) < PLACES or len(self.settings) < EACH * PLACES - 1"),
    Fault("the numbers alone looked at for a short store", SETTINGS, SHORT_STORE,
          "        return len(self.voices) < PLACES"),
    Fault("a longer store refused", SETTINGS, SHORT_STORE,
          "        return len(self.voices) != PLACES or len(self.settings) != EACH * PLACES"),
    Fault("a voice found behind the store", SETTINGS, "        return voice in self.voices[:PLACES]",
          "        return voice in self.voices"),
    Fault("behind the store cleared", SETTINGS,
          "        self.settings[: EACH * PLACES] = [0] * (EACH * PLACES)",
          "        self.settings[:] = [0] * len(self.settings)"),
    Fault("clear leaves the settings", SETTINGS,
          "        self.settings[: EACH * PLACES] = [0] * (EACH * PLACES)", "        pass"),
    Fault("NaN payload kept by set", SETTINGS, SET,
          "        return self.refusal(voice) or self.keep(voice, list(floats))"),
    Fault("NaN payload kept by get", SETTINGS, GOT, "        return 0, self.settings_of(self.place_of(voice))"),
    Fault("an infinity as NaN", SETTINGS, NAN_AS_ONE,
          "    return NAN_BITS if bits & SIZE_BITS >= INFINITY else bits"),
    Fault("a NaN's sign kept", SETTINGS, NAN_AS_ONE,
          "    return NAN_BITS | bits & ~SIZE_BITS if bits & SIZE_BITS > INFINITY else bits"),
    Fault("settings in the wrong order", SETTINGS, KEPT,
          "        self.put(place, voice, [settings[1], settings[0], settings[2]])"),
    Fault("get's settings in the wrong order", SETTINGS, GOT,
          "        return 0, [with_one_nan(bits) for bits in self.settings_of(self.place_of(voice))][::-1]"),
    Fault("remove leaves the later place", SETTINGS, REMOVED_LATER, "            pass"),
    Fault("remove passes over all but the next place with the number", SETTINGS, REMOVED_LATER,
          "            if self.holds(voice): self.voices[self.place_of(voice)] = FREE"),
    Fault("a removed place's settings not zeroed", SETTINGS, REMOVED,
          "            self.voices[self.place_of(voice)] = FREE"),
    Fault("a later place's settings zeroed by remove", SETTINGS, REMOVED,
          "            [self.put(place, FREE, [0] * EACH) for place in range(PLACES) if self.voices[place] == voice]"),
    Fault("the places behind a removed one close up", SETTINGS, REMOVED,
          "            place = self.place_of(voice); self.voices[place:PLACES] = [*self.voices[place + 1 : PLACES], FREE];"
          " self.settings[EACH * place : EACH * PLACES] ="
          " [*self.settings[EACH * (place + 1) : EACH * PLACES], 0, 0, 0]"),
    Fault("a removed voice's number made 65,536", SETTINGS, REMOVED,
          "            self.put(self.place_of(voice), MAX_VOICE + 1, [0] * EACH)"),
    Fault("version 1's threshold 0", SETTINGS,
          "MISSING = {1: [0x3FE0000000000000], 2: []}  # a threshold of 0.5", "MISSING = {1: [0], 2: []}"),
    Fault("a later version read as 2", SETTINGS, FILE_VERSION,
          '    return min(int.from_bytes(data[3:5], "little"), 2)'),
    Fault("a settings file's version in 8 bits", SETTINGS, FILE_VERSION, "    return data[3]"),
    Fault("a settings file's count in 8 bits", SETTINGS,
          '    return int.from_bytes(data[5:7], "little")', "    return data[5]"),
    Fault("a settings file's mark in any letters", SETTINGS, FILE_MARK,
          "    if data[: len(MARK)].upper() != MARK:"),
    Fault("two bytes of the mark looked at", SETTINGS, FILE_MARK, "    if data[:2] != MARK[:2] or len(data) < 3:"),
    Fault("16 before a wrong mark's 18", SETTINGS, FILE_MARK,
          "    if len(data) >= VERSION_END and version_of(data) not in RECORD: return UNKNOWN_VERSION\n"
          "    if data[: len(MARK)] != MARK:"),
    Fault("16 for a version that is cut", SETTINGS, "    if len(data) < VERSION_END:",
          "    if len(data) == VERSION_END - 1: return UNKNOWN_VERSION\n    if len(data) < VERSION_END:"),
    Fault("16 for half a version other than 1 and 2", SETTINGS, "    if len(data) < VERSION_END:",
          "    if len(data) == 4 and data[3] not in RECORD: return UNKNOWN_VERSION\n    if len(data) < VERSION_END:"),
    Fault("18 for a file that ends in its head before 16", SETTINGS, KNOWN_VERSION,
          "    if len(data) < HEAD: return MALFORMED\n    if version not in RECORD:"),
    Fault("18 for a length of neither version before 16", SETTINGS, KNOWN_VERSION,
          "    if all(len(data) != HEAD + size * count_of(data) for size in RECORD.values()): return MALFORMED\n"
          "    if version not in RECORD:"),
    Fault("17 before 18 for the length", SETTINGS, FILE_LENGTH,
          '    if len({*struct.iter_unpack(f"<H{RECORD[version] - 2}x", data[HEAD : len(data) - (len(data) - HEAD)'
          " % RECORD[version]])}) > PLACES: return FULL\n" + FILE_LENGTH),
    Fault("17 before 16", SETTINGS, KNOWN_VERSION,
          '    if len({*struct.iter_unpack("<H24x", data[HEAD : len(data) - (len(data) - HEAD) % 26])}) > PLACES:'
          " return FULL\n    if version not in RECORD:"),
    Fault("17 by the count of records", SETTINGS, RECORDS_KEPT,
          "        if count_of(data) > PLACES or any(new.keep(voice, settings) for voice, settings in records(data)):"),
    Fault("17 by the count before 18", SETTINGS, FILE_LENGTH,
          "    if len(data) >= HEAD and count_of(data) > PLACES: return FULL\n" + FILE_LENGTH),
    Fault("the voices beyond 256 passed over", SETTINGS, RECORDS_KEPT,
          "        if [new.keep(voice, settings) for voice, settings in records(data)] is None:"),
    Fault("surplus bytes of a settings file passed over", SETTINGS, FILE_LENGTH,
          "    if len(data) < HEAD or len(data) < HEAD + RECORD[version] * count_of(data):"),
    Fault("a settings file's records by its length", SETTINGS, FILE_LENGTH,
          "    if len(data) < HEAD or (len(data) - HEAD) % RECORD[version]:"),
    Fault("a short record at the end passed over", SETTINGS, FILE_LENGTH,
          "    if len(data) < HEAD or (len(data) - HEAD) // RECORD[version] != count_of(data):"),
    Fault("6 after 18", SETTINGS, READ,
          "        number = damage(data) if damage(data) == 18 or not self.is_short() else TOO_SHORT"),
    Fault("6 after 16", SETTINGS, READ,
          "        number = damage(data) if damage(data) == 16 or not self.is_short() else TOO_SHORT"),
    Fault("a refused read that leaves half of the records", SETTINGS, NEW_STORE, "        new = self"),
    Fault("a refused read clears", SETTINGS, READ,
          "        number = TOO_SHORT if self.is_short() else damage(data); number and self.clear()"),
    Fault("read without clearing", SETTINGS, "        new.clear()", "        pass"),
    Fault("read leaves the settings of free places", SETTINGS, "        new.clear()",
          "        new.voices[:PLACES] = [FREE] * PLACES"),
    Fault("read drops what is behind the store", SETTINGS, REPLACED_BY_READ,
          "        self.voices, self.settings = new.voices[:PLACES], new.settings[: EACH * PLACES]"),
    Fault("the earlier record of a voice counts", SETTINGS, RECORDS_KEPT,
          "        if any(new.keep(voice, settings) for voice, settings in records(data) if not new.holds(voice)):"),
    Fault("NaN made one by read", SETTINGS, RECORDS,
          "    return [(voice, [*map(with_one_nan, settings), *missing]) for voice, *settings in read]"),
    Fault("NaN made one by write", SETTINGS, WRITTEN_RECORDS,
          '        kept = [struct.pack(f"<H{EACH}Q", self.voices[place], *map(with_one_nan, self.settings_of(place)))'
          " for place in held]"),
    Fault("a written hole", SETTINGS, WRITTEN_PLACES,
          "        held = [*range(max(self.held(), default=-1) + 1)]; self = Store([v % 2**16 for v in self.voices], self.settings)"),
    Fault("written in the order of numbers", SETTINGS, WRITTEN_PLACES,
          "        held = sorted(self.held(), key=lambda place: self.voices[place])"),
    Fault("written from the last place to the first", SETTINGS, WRITTEN_PLACES, "        held = self.held()[::-1]"),
    Fault("written threshold dropped", SETTINGS, WRITTEN_RECORDS,
          '        kept = [struct.pack("<H2Q", self.voices[place], *self.settings_of(place)[:2]) for place in held]'),
    Fault("version 1 written", SETTINGS, WRITTEN_HEAD,
          '        return MARK + struct.pack("<HH", 1, len(held)) + b"".join(kept)'),
    Fault("a written count in 8 bits", SETTINGS, WRITTEN_HEAD,
          '        return MARK + struct.pack("<HH", WRITTEN_VERSION, len(held) % 256) + b"".join(kept)'),
    Fault("an output too short by one taken", SETTINGS, WRITTEN,
          '        return (TOO_SHORT, b"") if room < len(data) - 1 else (0, data)'),
    Fault("an output of the exact length refused", SETTINGS, WRITTEN,
          '        return (TOO_SHORT, b"") if room <= len(data) else (0, data)'),
    Fault("the rest of the output zeroed", SETTINGS, "    left.out += data + marked_bytes(len(data), one.room)",
          "    left.out += data.ljust(one.room, b'\\0') if data else marked_bytes(0, one.room)"),
    Fault("the written length for a refused write", SETTINGS,
          "    left.written.append(UNTOUCHED_U64 if number else len(data))", "    left.written.append(len(data))"),
    Fault("the count handed out in a short store", SETTINGS,
          "        left.held.append(UNTOUCHED_U32 if number else held)", "        left.held.append(held)"),
    Fault("zeros handed out for a voice that is not held", SETTINGS,
          "        left.got += got or [UNTOUCHED_U64] * EACH", "        left.got += got or [0] * EACH"),
    Fault("a word begins a frame late", WORDS, FIRST_FRAME,
          "    return min(bisect_left(owned, word) + (word > 0), len(owned))"),
    Fault("a word ends at its last frame", WORDS, AFTER_LAST,
          "    return max(bisect_left(owned, word), bisect_right(owned, word) - 1)"),
    Fault("the last word's end left out", WORDS, SPANS, SPANS[:-1] + "][: 2 * len(case[\"words\"]) - 1]"),
    Fault("the last word ends where it begins", WORDS, SPANS,
          SPANS.replace("return", "spans =") + "; spans[-1:] = spans[-2:-1]; return spans"),
    Fault("a word's frames for its end", WORDS, AFTER_LAST, "    return owned.count(word)"),
    Fault("a word of no frames ends at 0", WORDS, AFTER_LAST,
          "    return bisect_right(owned, word) if word in owned else 0"),
    Fault("a word of no frames begins at 0", WORDS, FIRST_FRAME,
          "    return bisect_left(owned, word) if word in owned else 0"),
    Fault("words of no frames left out of the spans", WORDS, SPANS,
          SPANS.replace(" for bound", " if word in owned for bound")),
    Fault("all first frames, then all ends", WORDS, SPANS,
          '    words = range(len(case["words"]));'
          " return [bound(owned, word) for bound in (first_frame, frame_after_last) for word in words]"),
    Fault("one state a label", WORDS, OWN_STATES, OWN_STATES.replace('labels * case["nstate"]', "labels")),
    Fault("a word of no labels takes a label's states", WORDS, OWN_STATES, OWN_STATES.replace("labels *", "max(1, labels) *")),
    Fault("a word's states a label too many", WORDS, OWN_STATES, OWN_STATES.replace("labels *", "(labels + 1) *")),
    Fault("a state of no frames as one", WORDS, OWN_FRAMES, OWN_FRAMES.replace("range(duration)", "range(max(1, duration))")),
    Fault("frames in 16 bits", WORDS, SPANS, SPANS.replace("[bound(owned, word)", "[bound(owned, word) % 2**16")),
    Fault("4 ms a frame", WORDS, "FRAME_MILLISECONDS = 5", "FRAME_MILLISECONDS = 4"),
    Fault("milliseconds of the first frames alone", WORDS, MILLISECONDS,
          "    return [frame if at % 2 else 5 * frame for at, frame in enumerate(spans)]"),
    Fault("milliseconds of the ends alone", WORDS, MILLISECONDS,
          "    return [5 * frame if at % 2 else frame for at, frame in enumerate(spans)]"),
    Fault("milliseconds up to the last frame's beginning", WORDS, MILLISECONDS,
          "    return [5 * max(0, frame - at % 2) for at, frame in enumerate(spans)]"),
    Fault("milliseconds in 16 bits", WORDS, MILLISECONDS, "    return [5 * frame % 2**16 for frame in spans]"),
    Fault("the word before sounds at its end", WORDS, SOUNDING,
          "    return (number, UNTOUCHED_U32) if number else (0, owners(case)[max(0, frame - 1)])"),
    Fault("the next word sounds at a word's last frame", WORDS, SOUNDING,
          "    return (number, UNTOUCHED_U32) if number else (0, [*owners(case), len(case['words']) - 1][frame + 1])"),
    Fault("a word of no frames sounds", WORDS, SOUNDING,
          "    return (number, UNTOUCHED_U32) if number else (0, spans_of(case)[0::2].index(frame)"
          " if frame in spans_of(case)[0::2] else owners(case)[frame])"),
    Fault("words of no frames not counted in the word that sounds", WORDS, SOUNDING,
          "    return (number, UNTOUCHED_U32) if number else (0, sorted({*owners(case)}).index(owners(case)[frame]))"),
    Fault("the word that sounds counted from 1", WORDS, SOUNDING,
          "    return (number, UNTOUCHED_U32) if number else (0, owners(case)[frame] + 1)"),
    Fault("the frame after the last taken", WORDS, FRAME_THERE,
          FRAME_THERE.replace(">=", ">") + "; frame = min(frame, sum(case['durations']) - 1)"),
    Fault("the last word sounds past the end", WORDS, SOUNDING,
          "    return (number, UNTOUCHED_U32) if number not in (0, 2) or not case['words'] else"
          " (0, [*owners(case), len(case['words']) - 1][min(frame, sum(case['durations']))])"),
    Fault("the last frame past the end", WORDS, FRAME_THERE, FRAME_THERE.replace("frame >=", "frame + 1 >=")),
    Fault("a frame asked for in 16 bits", WORDS, FRAME_THERE, "    frame %= 2**16;" + FRAME_THERE[3:]),
    Fault("a frame asked for in milliseconds", WORDS, FRAME_THERE, "    frame //= 5;" + FRAME_THERE[3:]),
    Fault("the number of words for a frame that is not there", WORDS, SOUNDING,
          "    return (number, len(case['words']) if number == 2 else UNTOUCHED_U32) if number else (0, owners(case)[frame])"),
    Fault("a word's excerpt counted in frames", WORDS, PART, "    return 0, first_frame(owned, word), owned.count(word)"),
    Fault("a word's excerpt from its first frame's number", WORDS, PART,
          "    return 0, first_frame(owned, word), owned.count(word) * v"),
    Fault("a word's excerpt up to its end as its count", WORDS, PART,
          "    return 0, first_frame(owned, word) * v, frame_after_last(owned, word) * v"),
    Fault("a word's excerpt without its last frame", WORDS, PART,
          "    return 0, first_frame(owned, word) * v, max(0, owned.count(word) - 1) * v"),
    Fault("a state's excerpt for a word's", WORDS, PART,
          "    return 0, sum(case['durations'][:word]) * v, sum(case['durations'][word : word + 1]) * v"),
    Fault("a label's excerpt for a word's", WORDS, PART,
          "    n = case['nstate']; return 0, sum(case['durations'][: word * n]) * v,"
          " sum(case['durations'][word * n : word * n + n]) * v"),
    Fault("an empty excerpt from 0", WORDS, PART,
          "    return 0, first_frame(owned, word) * v if word in owned else 0, owned.count(word) * v"),
    Fault("an empty excerpt refused", WORDS, PART,
          "    return (0, first_frame(owned, word) * v, owned.count(word) * v) if word in owned else"
          " (2, UNTOUCHED_U64, UNTOUCHED_U64)"),
    Fault("the word at the count taken", WORDS, WORD_THERE, WORD_THERE.replace("word >= len", "word > len")),
    Fault("the last word not there", WORDS, WORD_THERE, WORD_THERE.replace("word >= len", "word + 1 >= len")),
    Fault("a word asked for in 16 bits", WORDS, WORD_THERE, "    word %= 2**16;" + WORD_THERE[3:]),
    Fault("the empty part written for a refused excerpt", WORDS, NO_PART, "        return number, 0, 0"),
    Fault("the trajectory not looked at", WORDS, BELOW, "    below = lambda: bad_durations(case)"),
    Fault("the trajectory looked at after the labels", WORDS, WORD_THERE,
          "    number = refusal(checks_of(case)) or (5 if bad_trajectory(case) else 2 * (word >= len(case['words'])))"),
    Fault("the trajectory looked at after the word", WORDS, WORD_THERE,
          "    number = refusal(checks_of(case)) or (2 if word >= len(case['words']) else 5 * bad_trajectory(case))"),
    Fault("a trajectory's 4 handed on", WORDS, NO_PART,
          "        return 4 if number == 5 and 1 <= case['v'] <= MAX_V and not bad_durations(case) else number,"
          " UNTOUCHED_U64, UNTOUCHED_U64"),
    Fault("a v's 3 handed on", WORDS, NO_PART,
          "        return 3 if number == 5 and not 1 <= case['v'] <= MAX_V else number, UNTOUCHED_U64, UNTOUCHED_U64"),
    Fault("a word's 10 handed on", WORDS, NO_PART,
          "        return 10 if number == 2 else number, UNTOUCHED_U64, UNTOUCHED_U64"),
    Fault("a longer trajectory taken", WORDS, NUMBERS, NUMBERS.replace("!=", "<")),
    Fault("a shorter trajectory taken", WORDS, NUMBERS, NUMBERS.replace("!=", ">")),
    Fault("a trajectory with a part of a frame taken", WORDS, NUMBERS,
          "    return case['trajectory'] // case['v'] != sum(case['durations'])"),
    Fault("a v of 0 taken", WORDS, COMPONENTS, '    if case["v"] > MAX_V:'),
    Fault("a v of 65 taken", WORDS, COMPONENTS, '    if not 1 <= case["v"] <= MAX_V + 1:'),
    Fault("a v of 64 refused", WORDS, COMPONENTS, '    if not 1 <= case["v"] < MAX_V:'),
    Fault("no states a label taken", WORDS, NSTATE, '    if case["nstate"] > MAX_NSTATE:'),
    Fault("17 states a label taken", WORDS, NSTATE, '    if not 1 <= case["nstate"] <= MAX_NSTATE + 1:'),
    Fault("16 states a label refused", WORDS, NSTATE, '    if not 1 <= case["nstate"] < MAX_NSTATE:'),
    Fault("4,096 states of words refused", WORDS, STATES_AND_FRAMES,
          STATES_AND_FRAMES.replace("> MAX_STATES", ">= MAX_STATES")),
    Fault("too many states of words taken", WORDS, STATES_AND_FRAMES, '    return sum(case["durations"]) > MAX_FRAMES'),
    Fault("65,536 frames of words refused", WORDS, STATES_AND_FRAMES,
          STATES_AND_FRAMES.replace("> MAX_FRAMES", ">= MAX_FRAMES")),
    Fault("65,537 frames of words taken", WORDS, STATES_AND_FRAMES,
          STATES_AND_FRAMES.replace("> MAX_FRAMES", "> MAX_FRAMES + 1")),
    Fault("words' frames summed in 32 bits", WORDS, STATES_AND_FRAMES,
          # What it takes has so many frames that it ends here.
          '    total = sum(case["durations"]); return len(case["durations"]) > MAX_STATES or total % 2**32 > MAX_FRAMES'
          " or total > MAX_FRAMES and 1 / 0"),
    Fault("labels summed in 32 bits", WORDS, LABELS, '    states = sum(case["words"]) % 2**32 * case["nstate"]'),
    Fault("words' states counted in 32 bits", WORDS, LABELS, LABELS + " % 2**32"),
    Fault("labels as states", WORDS, LABELS, '    states = sum(case["words"])'),
    Fault("durations behind the last word taken", WORDS, AGREE, AGREE.replace("!=", ">")),
    Fault("durations that are too few taken", WORDS, AGREE, AGREE.replace("!=", "<")),
    Fault("durations of a part of a label taken", WORDS, AGREE,
          '    return sum(case["words"]) != len(case["durations"]) // case["nstate"]'),
    Fault("4,294,967,296 words taken", WORDS, AGREE, '    return states != len(case["durations"])',
          "no case has so many words; `tools/table --long` lends them"),
    Fault("no words refused", WORDS, AGREE, AGREE + ' or not case["words"]'),
    Fault("a word of no labels refused", WORDS, AGREE, AGREE + ' or 0 in case["words"]'),
    Fault("of words 1 before 5", WORDS, ORDER, "ORDER = (1, 5, 2, 3, 4)"),
    Fault("of words 2 before 1", WORDS, ORDER, "ORDER = (5, 2, 1, 3, 4)"),
    Fault("of words 2 before 5", WORDS, ORDER, "ORDER = (2, 5, 1, 3, 4)"),
    Fault("of words 3 before 2", WORDS, ORDER, "ORDER = (5, 1, 3, 2, 4)", "no call has a frame or a word, and a file"),
    Fault("of words 4 before 3", WORDS, ORDER, "ORDER = (5, 1, 2, 4, 3)"),
    Fault("of words 4 before 1", WORDS, ORDER, "ORDER = (5, 4, 1, 2, 3)"),
    Fault("of words 4 before 5", WORDS, ORDER, "ORDER = (4, 5, 1, 2, 3)"),
    Fault("the smallest of the words' numbers", WORDS, ORDER, "ORDER = (1, 2, 3, 4, 5)"),
    Fault("spans of one number too few taken", WORDS, SPANS_ROOM, SPANS_ROOM.replace("< needed", "< needed - 1")),
    Fault("spans of one number a word taken", WORDS, SPANS_ROOM, SPANS_ROOM.replace("< needed", "< needed // 2")),
    Fault("spans of the exact length refused", WORDS, SPANS_ROOM, SPANS_ROOM.replace("< needed", "<= needed")),
    Fault("longer spans refused", WORDS, SPANS_ROOM, SPANS_ROOM.replace("< needed", "!= needed")),
    Fault("spans written as far as there is room", WORDS, SPANS_LEFT,
          "    new = answer()[: case[room]] if number in (0, 4) else [];"
          " return number, new + marked_u32(len(new), case[room])"),
    Fault("what is behind the spans zeroed", WORDS, SPANS_LEFT,
          "    return number, (marked_u32(0, case[room]) if number else answer() + [0] * (case[room] - needed))"),
    Fault("a timing file's output of a byte too few taken", WORDS, TIMING_ROOM,
          TIMING_ROOM.replace("< needed", "< needed - 1")),
    Fault("a timing file's output of the exact length refused", WORDS, TIMING_ROOM,
          TIMING_ROOM.replace("< needed", "<= needed")),
    Fault("a timing file's output measured without its head", WORDS, TIMING_ROOM,
          TIMING_ROOM.replace("< needed", "< needed - HEAD")),
    Fault("the length of a timing file that is not written", WORDS, NOTHING_WRITTEN,
          "        return number, needed, marked_bytes(0, room)"),
    Fault("the head of a timing file written though refused", WORDS, NOTHING_WRITTEN,
          "        new = file_of([])[:room] if number == 4 else b'';"
          " return number, UNTOUCHED_U64, new + marked_bytes(len(new), room)"),
    Fault("what is behind a timing file zeroed", WORDS, TIMING_WRITTEN,
          "    return 0, needed, file_of(spans_of(case)) + bytes(room - needed)"),
    Fault("the output's length as what is written", WORDS, TIMING_WRITTEN,
          "    return 0, room, file_of(spans_of(case)) + marked_bytes(needed, room)"),
    Fault("a timing file in milliseconds", WORDS, TIMING_WRITTEN,
          "    return 0, needed, file_of(in_milliseconds(spans_of(case))) + marked_bytes(needed, room)"),
    Fault("the written count of numbers, not of words", WORDS, TIMING_HEAD, TIMING_HEAD.replace(" // 2", "")),
    Fault("a timing file's written count in 8 bits", WORDS, TIMING_HEAD, TIMING_HEAD.replace(" // 2", " // 2 % 256")),
    Fault("a timing file's version 2 written", WORDS, TIMING_HEAD, TIMING_HEAD.replace("VERSION", "2")),
    Fault("a timing file's head with its high bytes first", WORDS, TIMING_HEAD, TIMING_HEAD.replace("<", ">")),
    Fault("a timing file's frames with their high bytes first", WORDS, TIMING_SPANS, TIMING_SPANS.replace("<", ">")),
    Fault("a timing file's mark in any letters", WORDS, TIMING_MARK, "    if data[: len(MARK)].upper() != MARK:"),
    Fault("two bytes of a timing file's mark looked at", WORDS, TIMING_MARK, "    if data[:2] != MARK[:2]:"),
    Fault("a timing file's mark not looked at", WORDS, TIMING_MARK, "    if len(data) < len(MARK):"),
    Fault("a timing file's version in 8 bits", WORDS, TIMING_VERSION, "    return data[3] if len(data) > 3 else 0"),
    Fault("a timing file's version not looked at", WORDS, ONE_VERSION, "    if len(data) < 5:"),
    Fault("a timing file's later version taken", WORDS, ONE_VERSION, "    if version_of(data) < VERSION:"),
    Fault("a timing file's version 0 taken", WORDS, ONE_VERSION, "    if version_of(data) > VERSION:"),
    Fault("a timing file's count in 16 bits", WORDS, '    return int.from_bytes(data[5:9], "little")',
          '    return int.from_bytes(data[5:7], "little")'),
    Fault("a timing file's count in 24 bits", WORDS, '    return int.from_bytes(data[5:9], "little")',
          '    return int.from_bytes(data[5:8], "little")'),
    Fault("a timing file's length in 32 bits", WORDS, TIMING_LENGTH,
          "    if len(data) < HEAD or (HEAD + SPAN * count_of(data)) % 2**32 != len(data):"),
    Fault("surplus bytes of a timing file passed over", WORDS, TIMING_LENGTH, TIMING_LENGTH.replace("!=", "<")),
    Fault("a timing file's words by its length", WORDS, TIMING_LENGTH,
          "    if len(data) < HEAD or (len(data) - HEAD) % SPAN: return True\n"
          "    data = data[:5] + ((len(data) - HEAD) // SPAN).to_bytes(4, 'little') + data[9:]\n    if False:"),
    Fault("a part of a word at the end passed over", WORDS, TIMING_LENGTH,
          "    if len(data) < HEAD or (len(data) - HEAD) // SPAN != count_of(data):"),
    Fault("a timing file without words refused", WORDS, TIMING_LENGTH, TIMING_LENGTH[:-1] + " or len(data) == HEAD:"),
    Fault("gaps between words taken", WORDS, TOUCHING,
          "    if any(first < after for first, after in zip(firsts, [0, *afters])) or firsts[:1] not in ([], [0]):"),
    Fault("words that overlap taken", WORDS, TOUCHING,
          "    if any(first > after for first, after in zip(firsts, [0, *afters])):"),
    Fault("words that don't touch taken", WORDS, TOUCHING, "    if firsts[:1] not in ([], [0]):"),
    Fault("words not from 0 taken", WORDS, TOUCHING, "    if firsts[1:] != afters[: len(firsts[1:])]:"),
    Fault("the last word's touching not looked at", WORDS, TOUCHING,
          "    if firsts[:-1] != [0, *afters][: len(firsts[:-1])] or firsts[:1] not in ([], [0]):"),
    Fault("a word that ends before it begins taken", WORDS, FORWARD, "    return False"),
    Fault("a last word that ends before it begins taken", WORDS, FORWARD,
          "    return any(after < first for first, after in zip(firsts[:-1], afters))"),
    Fault("a word of no frames in a file refused", WORDS, FORWARD,
          "    return any(after <= first for first, after in zip(firsts, afters))"),
    Fault("frames of a file with a sign", WORDS, FORWARD,
          "    return any((after ^ 2**31) < (first ^ 2**31) for first, after in zip(firsts, afters))"),
    Fault("a file's frames above 65,536 refused", WORDS, FORWARD,
          "    return any(not first <= after <= MAX_FRAMES for first, after in zip(firsts, afters))"),
    Fault("a file's frame 4,294,967,295 refused", WORDS, FORWARD,
          "    return any(not first <= after < MAX_WORDS for first, after in zip(firsts, afters))"),
    Fault("read spans of one number too few taken", WORDS, READ_ROOM, READ_ROOM.replace("< 2 * count", "< 2 * count - 1")),
    Fault("read spans of one number a word taken", WORDS, READ_ROOM, READ_ROOM.replace("< 2 * count", "< count")),
    Fault("read spans of the exact length refused", WORDS, READ_ROOM, READ_ROOM.replace("< 2 * count", "<= 2 * count")),
    Fault("the number of words for a refused read", WORDS, NOTHING_READ, NOTHING_READ.replace("UNTOUCHED_U32", "count")),
    Fault("no words for a refused read", WORDS, NOTHING_READ, NOTHING_READ.replace("UNTOUCHED_U32", "0")),
    Fault("spans read up to where a file is malformed", WORDS, NOTHING_READ,
          "        new = spans_in(data)[:2] if number == 3 and len(data) == HEAD + SPAN * count <= HEAD + 4 * room else []\n"
          "        return {'refusal': number, 'spans': new + marked_u32(len(new), room), 'words': UNTOUCHED_U32}"),
    Fault("what is behind read spans zeroed", WORDS, READ_SPANS,
          "    return {'refusal': 0, 'spans': spans_in(data) + [0] * (room - 2 * count), 'words': count}"),
    Fault("the number of read frames for that of words", WORDS, READ_SPANS,
          READ_SPANS.replace('"words": count', '"words": 2 * count')),
    Fault("the largest refusal that applies", REFUSALS, IN_ORDER,
          "    return next((number for number in sorted(checks, reverse=True) if checks[number]()), 0)"),
    Fault("15 before 6", REFUSALS, IN_ORDER,
          IN_ORDER.replace("sorted(checks)", "sorted(checks, key=lambda number: 5.5 if number == 15 else number)")),
    Fault("15 before 4", REFUSALS, IN_ORDER,
          IN_ORDER.replace("sorted(checks)", "sorted(checks, key=lambda number: 3.5 if number == 15 else number)")),
    Fault("15 before 3", REFUSALS, IN_ORDER,
          IN_ORDER.replace("sorted(checks)", "sorted(checks, key=lambda number: 2.5 if number == 15 else number)")),
    Fault("15 after 7", REFUSALS, FIT_15,
          FIT_15.replace("),", ') and not case.fields.get("length", 0.0) >= 65536.5,')),
    Fault("15 after 7 and 8", ANSWER, BEFORE_AND_WORK,
          "    if number and number != 15:\n        return number, {}\n    try:\n"
          "        values = ieee.one_nan(ANSWERS[case.kind](case)); return (number, {}) if number else (0, values)"),
    Fault("a shortest of 0 taken", REFUSALS, BAD_SHORTEST, "    return sum(shortest) > MAX_FRAMES"),
    Fault("a first shortest of 0 alone refused", REFUSALS, BAD_SHORTEST,
          BAD_SHORTEST.replace("0 in shortest", "shortest[:1] == [0]")),
    Fault("a last shortest of 0 taken", REFUSALS, BAD_SHORTEST,
          BAD_SHORTEST.replace("0 in shortest", "0 in shortest[:-1]")),
    Fault("a shortest of 1 refused", REFUSALS, BAD_SHORTEST,
          BAD_SHORTEST.replace("0 in shortest", "any(number < 2 for number in shortest)")),
    Fault("15 with no states", REFUSALS, BAD_SHORTEST, BAD_SHORTEST + " or not shortest"),
    Fault("shortest durations of 65,536 together refused", REFUSALS, BAD_SHORTEST, BAD_SHORTEST.replace(">", ">=")),
    Fault("shortest durations of 65,537 together taken", REFUSALS, BAD_SHORTEST,
          BAD_SHORTEST.replace("MAX_FRAMES", "MAX_FRAMES + 1")),
    Fault("the shortest summed in 16 bits", REFUSALS, BAD_SHORTEST,
          BAD_SHORTEST.replace("sum(shortest)", "sum(shortest) % 2**16")),
    Fault("the shortest summed in 32 bits", REFUSALS, BAD_SHORTEST,
          BAD_SHORTEST.replace("sum(shortest)", "sum(shortest) % 2**32")),
    Fault("each shortest held to the limit by itself", REFUSALS, BAD_SHORTEST,
          BAD_SHORTEST.replace("sum(shortest)", "max([0, *shortest])")),
    Fault("15 group by group", REFUSALS, LABELS_AGREE,
          LABELS_AGREE + "\n        15: lambda: any(bad_shortest(case['shortest'][at : at + nstate])"
          " for at in range(0, n, nstate)),"),
    Fault("15 without the tail", REFUSALS, LABELS_AGREE,
          LABELS_AGREE + "\n        15: lambda: bad_shortest(case['shortest'][: nstate * max("
          "(label for label, end in enumerate(case['ends'], 1) if end >= 0), default=0)]),"),
    Fault("shortest durations too few or too many taken", REFUSALS, ONE_A_STATE,
          '        4: lambda: len(case["varis"]) != n,'),
    Fault("shortest durations too many taken", REFUSALS, ONE_A_STATE,
          ONE_A_STATE.replace('len(case["shortest"]) !=', 'len(case["shortest"]) <')),
    Fault("shortest durations too few or too many told as 15", REFUSALS, FIT_4_TO_15,
          FIT_4_TO_15.replace(' or len(case["shortest"]) != n', "")
          .replace("15: lambda:", '15: lambda: len(case["shortest"]) != n or')),
    Fault("a damaged job's room looked at first", REFUSALS,
          "        return {damage.number: lambda: True}  # before all others",
          '        return {damage.number: lambda: True, 6: lambda: 16 * min(case["out"], case["work"])'
          ' < len(case["bytes"]) - 15}'),
    Fault("GV's lists checked with GV off", REFUSALS, '        if not case["gv_on"]:', "        if False:"),
    Fault("coefficients beyond the windows unchecked", REFUSALS,
          '        2: lambda: not all(math.isfinite(tap) for tap in case["coefficients"]),',
          '        2: lambda: not all(math.isfinite(tap) for tap in case["coefficients"][: sum(case["widths"])]),'),
    Fault("totals taken in 32 bits", REFUSALS,
          '    states, frames, v = len(case["durations"]), sum(case["durations"]), case["v"]',
          '    states, frames, v = len(case["durations"]), sum(case["durations"]) % 2**32, case["v"]'),
    Fault("room for an alignment's groups alone", REFUSALS,
          '    n, nstate, labels = len(case["means"]), case["nstate"], len(case["ends"])',
          '    n, nstate, labels, case = len(case["means"]), case["nstate"], len(case["ends"]), case.with_fields('
          'out=case["out"] + case["nstate"]'
          ' * next((i for i, e in enumerate(case["ends"][::-1]) if e >= 0), len(case["ends"])))'),
    Fault("work space untouched at 8", EXITS, "ZEROING_REFUSALS = (7, 8)", "ZEROING_REFUSALS = (7,)"),
    Fault("work space zeroed at 15", EXITS, "ZEROING_REFUSALS = (7, 8)", "ZEROING_REFUSALS = (7, 8, 15)"),
    Fault("the shortest handed out at 15", EXITS, LEFT,
          LEFT + ' | ({"out": written_u32(list(case["shortest"]), case["out"])}'
          ' if refusal == 15 and "shortest" in case.fields else {})'),
    Fault("no changes told at 15", EXITS, LEFT, LEFT + ' | ({"changes": 0} if refusal == 15 else {})'),
    Fault("a job's states told at 15", EXITS, LEFT,
          LEFT + ' | ({"states": state_count(case)} if refusal == 15 and case.kind == "job" else {})'),
    Fault("a place for 15", EXITS, LEFT, LEFT + ' | ({"place": 3} if refusal == 15 else {})'),
    Fault("a refused trajectory's counts set to 0", EXITS, "    fields = untouched(case)",
          '    fields = untouched(case) | ({"high": 0, "low": 0} if refusal else {})'),
    Fault("a trajectory's counts set to 0 before 6", EXITS, "    fields = untouched(case)",
          '    fields = untouched(case) | ({"high": 0, "low": 0} if refusal == 6 else {})'),
    Fault("a count of 0 not written", EXITS, HIGH_LEFT, '        "high": values["high"] or UNTOUCHED_U32,'),
    Fault("counts added to what stood there", EXITS, HIGH_LEFT,
          '        "high": (values["high"] + UNTOUCHED_U32) % 2**32,'),
    Fault("a place for 9 alone", EXITS,
          "    elif refusal in jobs.DAMAGES:", "    elif refusal == jobs.WRONG_LENGTH:"),
    Fault("the place written for 6", EXITS,
          "    fields = untouched(case)", '    fields = untouched(case) | ({"place": 0} if refusal == 6 else {})'),
    Fault("the place written for an accepted job", EXITS,
          '    "job": duration_exit,', '    "job": lambda case, values: duration_exit(case, values) | {"place": 0},'),
    Fault("a place counted in a link's memory", EXITS, PLACES_OF_ENDS,
          '        "places": [end["place"] + links.NUMBER * (one.refusal in jobs.DAMAGES)'
          " for end, one in zip(ends, followed.ends)],"),
    Fault("a place counted from the last part's first byte", EXITS, PLACES_OF_ENDS,
          '        "places": [(end["place"] - max(0, len(one.job["bytes"]) - last) * (one.refusal in jobs.DAMAGES)) % 2**64'
          ' for end, one, last in zip(ends, followed.ends, [[2**64, *case["lengths"]][case["calls"][:at].count(1)]'
          ' for at, call in enumerate(case["calls"]) if call == 2])],'),
    Fault("work space zeroed whole", EXITS,
          '        "work": written_f64([0.0] * (WORK_FLOATS * frames), case["work"]),',
          '        "work": [0.0] * case["work"],'),
    Fault("a run's stream masked by 1 alone", RUNS, RUN_SIZE, RUN_SIZE.replace("!= 0", "== 1"), unlike=True),
    Fault("a run's weight at the front of its record", RUNS, RUN_WEIGHTS,
          "    return [pairs.voicing_weight(record[0] if len(record) % 2 else None) for record in records_of(case)]",
          unlike=True),
    Fault("a run's absent weights unvoiced", RUNS, RUN_WEIGHTS,
          "    return [float('nan') if len(record) % 2 == 0 else record[-1] for record in records_of(case)]"),
    Fault("a run's absent weights voiced at any threshold", RUNS, RUN_VOICED,
          RUN_VOICED.replace("[weight >", '[case["masked"] == 0 or weight >')),
    Fault("a run's frames voiced at the threshold", RUNS, RUN_VOICED, RUN_VOICED.replace(">", ">="), unlike=True),
    Fault("a run's weight of NaN voiced", RUNS, RUN_VOICED, RUN_VOICED.replace("weight >", "not weight <="), unlike=True),
    Fault("a run's weight of NaN voiced, not a threshold of NaN", RUNS, RUN_VOICED,
          RUN_VOICED.replace("[weight >", "[weight != weight or weight >"), unlike=True),
    Fault("a run's infinite weight unvoiced", RUNS, RUN_VOICED,
          RUN_VOICED.replace("[weight >", '[weight < float("inf") and weight >'), unlike=True),
    Fault("a state of 0 frames splits a run, or is one", RUNS, RUN_STATES, RUN_STATES.replace(" if frames > 0", ""), unlike=True),
    Fault("an unvoiced state of 0 frames splits a run", RUNS, RUN_STATES,
          RUN_STATES.replace("frames > 0", "frames > 0 or not voiced"), unlike=True),
    Fault("a voiced state of 0 frames in a gap is a run", RUNS, RUN_STATES,
          RUN_STATES.replace("frames > 0", "frames > 0 or voiced"), unlike=True),
    Fault("a state of 0 frames has one, in runs", RUNS, RUN_STATES,
          RUN_STATES.replace("[(voiced, frames)", "[(voiced, max(1, frames))").replace(" if frames > 0", ""), unlike=True),
    Fault("a run ends with its state", RUNS, RUN_STRETCHES,
          "    for voiced, stretch in ((voiced, [(voiced, frames)]) for voiced, frames in states):", unlike=True),
    Fault("a run ends at a state of another length", RUNS, RUN_STRETCHES,
          "    for (voiced, _), stretch in groupby(states):", unlike=True),
    Fault("a run's frames as its states", RUNS, RUN_FRAMES, "        frames = sum(1 for _, frames in stretch)", unlike=True),
    Fault("a run's frames those of its longest state", RUNS, RUN_FRAMES,
          "        frames = max(frames for _, frames in stretch)", unlike=True),
    Fault("a run's first frame counted from 1", RUNS, RUN_FOUND, RUN_FOUND.replace("first,", "first + 1,"), unlike=True),
    Fault("a run's first frame one too far left", RUNS, RUN_FOUND, RUN_FOUND.replace("first,", "max(0, first - 1),"),
          unlike=True),
    Fault("a run's last frame for its first", RUNS, RUN_FOUND, RUN_FOUND.replace("first,", "first + frames - 1,"), unlike=True),
    Fault("a run's first frame in 8 bits", RUNS, RUN_FOUND, RUN_FOUND.replace("first,", "first % 2**8,")),
    Fault("a run's frames in 8 bits", RUNS, RUN_FOUND, RUN_FOUND.replace("frames)", "frames % 2**8)")),
    Fault("a run's frames in 16 bits", RUNS, RUN_FOUND, RUN_FOUND.replace("frames)", "frames % 2**16)")),
    Fault("a run a frame too long", RUNS, RUN_FOUND, RUN_FOUND.replace("frames)", "frames + 1)"), unlike=True),
    Fault("runs of one frame left out", RUNS, RUN_FOUND,
          RUN_FOUND.replace("runs.append(Run(first, frames))", "runs += [Run(first, frames)] * (frames > 1)")),
    Fault("a run's first frame among the voiced ones", RUNS, RUN_FIRST,
          RUN_FIRST.replace("first += frames", "first += frames * voiced"), unlike=True),
    Fault("gaps numbered among the runs", RUNS, "        if voiced:\n" + RUN_FOUND, RUN_FOUND.removeprefix("    "), unlike=True),
    Fault("runs from the last to the first", RUNS, RUN_FIRST, RUN_FIRST + "[::-1]", unlike=True),
    Fault("runs by their lengths", RUNS, RUN_FIRST,
          RUN_FIRST.replace("return runs", "return sorted(runs, key=lambda run: -run.frames)"), unlike=True),
    Fault("a run at the end left out", RUNS, RUN_FIRST,
          RUN_FIRST.replace("return runs", "return [run for run in runs if run.first + run.frames < first]")),
    Fault("a run at the start left out", RUNS, RUN_FIRST,
          RUN_FIRST.replace("return runs", "return [run for run in runs if run.first]"), unlike=True),
    Fault("as many runs as 8 bits count", RUNS, RUN_FIRST, RUN_FIRST + "[: 2**8 - 1]"),
    Fault("the run after the last taken", RUNS, RUN_THERE,
          '    return case["run"] <= len(runs_of(case))'),
    Fault("the last run not there", RUNS, RUN_THERE, '    return case["run"] + 1 < len(runs_of(case))'),
    Fault("a run's number in 8 bits", RUNS, RUN_THERE,
          '    return case.fields.update(run=case["run"] % 2**8) or case["run"] < len(runs_of(case))'),
    Fault("a run's number in 16 bits", RUNS, RUN_THERE,
          '    return case.fields.update(run=case["run"] % 2**16) or case["run"] < len(runs_of(case))'),
    Fault("a run's number with a sign", RUNS, RUN_THERE,
          '    return case["run"] < len(runs_of(case)) or case["run"] >= 2**31'),
    Fault("room for the whole utterance wanted by a run", RUNS, RUN_WANTS, '    return sum(case["durations"])'),
    Fault("room for the whole utterance wanted by a run that is not there", RUNS, RUN_WANTS,
          RUN_WANTS.replace("else 0", 'else sum(case["durations"])')),
    Fault("room for a frame wanted by a run that is not there", RUNS, RUN_WANTS, RUN_WANTS.replace("else 0", "else 1")),
    Fault("room for the longest run wanted", RUNS, RUN_WANTS,
          "    return max([run.frames for run in runs_of(case)], default=0)"),
    Fault("room for all voiced frames wanted by a run", RUNS, RUN_WANTS,
          "    return sum(run.frames for run in runs_of(case))"),
    Fault("room for the first run wanted", RUNS, RUN_WANTS,
          "    return runs_of(case)[0].frames if is_there(case) else 0"),
    Fault("the frame after a run's last for its frames", RUNS, RUNS_TOLD,
          RUNS_TOLD.replace("number in run]", "number in (run.first, run.first + run.frames)]")),
    Fault("a run's last frame for its frames", RUNS, RUNS_TOLD,
          RUNS_TOLD.replace("number in run]", "number in (run.first, run.first + run.frames - 1)]")),
    Fault("a run's frames before its first frame", RUNS, RUNS_TOLD,
          RUNS_TOLD.replace("number in run]", "number in run[::-1]]")),
    Fault("all runs' first frames, then all their frames", RUNS, RUNS_TOLD,
          RUNS_TOLD.replace("[number for run in runs for number in run]", "[number for numbers in zip(*runs) for number in numbers]")),
    Fault("both numbers of a run counted", RUNS, RUNS_TOLD, RUNS_TOLD.replace("len(runs)}", "2 * len(runs)}")),
    Fault("runs counted in 8 bits", RUNS, RUNS_TOLD, RUNS_TOLD.replace("len(runs)}", "len(runs) % 2**8}")),
    Fault("voiced frames counted for runs", RUNS, RUNS_TOLD,
          RUNS_TOLD.replace("len(runs)}", "sum(run.frames for run in runs)}")),
    Fault("a run's numbers one a state", ALONE, FRAMES_OF_STATES,
          FRAMES_OF_STATES.replace("range(duration)", "range(min(1, duration))"), unlike=True),
    Fault("states of 0 frames have one, in a run's numbers", ALONE, FRAMES_OF_STATES,
          FRAMES_OF_STATES.replace("range(duration)", "range(max(1, duration))"), unlike=True),
    Fault("a run's numbers from one frame too far left", ALONE, OWN_OF_RUN,
          "    return frames[max(0, run.first - 1) : max(0, run.first - 1) + run.frames]", unlike=True),
    Fault("the frame before a run solved with it", ALONE, OWN_OF_RUN, OWN_OF_RUN.replace("[run.first", "[max(0, run.first - 1)"),
          unlike=True),
    Fault("the frame behind a run solved with it", ALONE, OWN_OF_RUN, OWN_OF_RUN.replace("run.frames]", "run.frames + 1]"),
          unlike=True),
    Fault("all frames up to a run's last solved with it", ALONE, OWN_OF_RUN, OWN_OF_RUN.replace("[run.first :", "[:"),
          unlike=True),
    Fault("half rounded up at a run's ends", ALONE, RUN_HALF, "    half = (len(window) + 1) // 2", unlike=True),
    Fault("a run's ends a frame too far in", ALONE, REACHES, REACHES.replace("left <", "left <=").replace("right <", "right <="),
          unlike=True),
    Fault("a window as long to a run's end as to its front", ALONE, REACHES, REACHES.replace("len(window) - half - 1", "half"),
          unlike=True),
    Fault("inverse variances near a run's ends not zeroed", ALONE, RUN_ZEROED, "        zeroed = False", unlike=True),
    Fault("inverse variances near a run's front not zeroed", ALONE, RUN_ZEROED,
          RUN_ZEROED.replace("window, frame,", "window, len(window),"), unlike=True),
    Fault("inverse variances near a run's end not zeroed", ALONE, RUN_ZEROED,
          RUN_ZEROED.replace("last - frame", "len(window)"), unlike=True),
    Fault("a run's left distance from 1", ALONE, RUN_ZEROED, RUN_ZEROED.replace("window, frame,", "window, frame + 1,"),
          unlike=True),
    Fault("a run's right distance from 1", ALONE, RUN_ZEROED, RUN_ZEROED.replace("last - frame", "last - frame + 1"),
          unlike=True),
    Fault("a run's distances the other way round", ALONE, RUN_ZEROED,
          RUN_ZEROED.replace("window, frame, last - frame", "window, last - frame, frame"), unlike=True),
    Fault("a run's first window zeroed too", ALONE, RUN_ZEROED, RUN_ZEROED.replace("not is_first and ", ""),
          "it has one coefficient, which reaches past nothing"),
    Fault("a run's variances not inverted", ALONE, RUN_INVERSE, "        inverse.append(0.0 if zeroed else varis[pair])",
          unlike=True),
    Fault("a run's variances inverted without their bounds", ALONE, RUN_INVERSE,
          "        inverse.append(0.0 if zeroed else pairs.ieee.divide(1.0, varis[pair]))", unlike=True),
    Fault("a run's pairs component by component", ALONE, RUN_PAIR, "        pair = len(windows) * component + number",
          unlike=True),
    Fault("a run's first mean for every window", ALONE, RUN_MEANS, "        means.append([mean[component] for mean, _ in frames])",
          unlike=True),
    Fault("a run's first component for all", ALONE, RUN_COMPONENTS, RUN_COMPONENTS.replace("frames, component)", "frames, 0)"),
          unlike=True),
    Fault("a run's numbers component by component", ALONE, RUN_NUMBERS,
          "    return [number for component in components for number in component]", unlike=True),
    Fault("a run's zeros without their sign", ALONE, RUN_NUMBERS, RUN_NUMBERS.replace("[number for", "[number + 0.0 for")),
    Fault("the fill for a run's numbers that aren't finite", ALONE, RUN_NUMBERS,
          RUN_NUMBERS.replace("[number for", '[number if abs(number) < float("inf") else case["fill"] for')),
    Fault("zeros for a run's numbers that aren't finite", ALONE, RUN_NUMBERS,
          RUN_NUMBERS.replace("[number for", '[number if abs(number) < float("inf") else 0.0 for')),
    Fault("the run after", ALONE, RUN_ASKED, '    run = runs_of(case)[(case["run"] + 1) % len(runs_of(case))]', unlike=True),
    Fault("the run before", ALONE, RUN_ASKED, '    run = runs_of(case)[case["run"] - 1]', unlike=True),
    Fault("a run counted from the last", ALONE, RUN_ASKED, '    run = runs_of(case)[-1 - case["run"]]', unlike=True),
    Fault("the longest run, whichever is asked for", ALONE, RUN_ASKED,
          "    run = max(runs_of(case), key=lambda run: run.frames)", unlike=True),
    Fault("the full trajectory's numbers for a run's", ALONE, RUN_ALONE,
          RUN_ALONE.replace("numbers_of(case, own(frames_of(case), run))", FULL_AT_RUN)),
    Fault("the full trajectory's numbers for a run's, its zeros alike", ALONE, RUN_ALONE,
          "    alone = numbers_of(case, own(frames_of(case), run)); return {\"out\": [a if a == b == 0 else b for a, b in zip(alone, "
          + FULL_AT_RUN + ')], "frames": run.frames}'),
    Fault("a run's frames told as its numbers", ALONE, RUN_ALONE, RUN_ALONE.replace("run.frames}", 'run.frames * case["v"]}'),
          unlike=True),
    Fault("a run's frames told from its first frame on", ALONE, RUN_ALONE,
          RUN_ALONE.replace("run.frames}", "run.first + run.frames}"), unlike=True),
    of_runs("runs of no windows taken", REFUSALS, RUNS_1, RUNS_1.replace("not 1 <=", "not 0 <=")),
    of_runs("runs of 5 windows taken", REFUSALS, RUNS_1, RUNS_1.replace("MAX_WINDOWS", "MAX_WINDOWS + 1")),
    of_runs("a run's windows counted in 32 bits", REFUSALS, RUNS_1, RUNS_1.replace('case["windows"]', 'case["windows"] % 2**32')),
    of_runs("runs of any v", REFUSALS, RUNS_3, RUNS_3.replace(" or not 1 <= v <= MAX_V", "")),
    of_runs("runs of 4,097 states taken", REFUSALS, RUNS_3, RUNS_3.replace("MAX_STATES", "MAX_STATES + 1")),
    of_runs("runs of 4,096 states refused", REFUSALS, RUNS_3, RUNS_3.replace("states >", "states >=")),
    of_runs("runs of too long records taken", REFUSALS, RUNS_4, RUNS_4.replace("!=", "<")),
    of_runs("runs of too short records taken", REFUSALS, RUNS_4, RUNS_4.replace("!=", ">")),
    of_runs("runs of 65,536 frames refused", REFUSALS, RUNS_5 + "\n" + RUNS_6, (RUNS_5 + "\n" + RUNS_6).replace("> MAX", ">= MAX")),
    of_runs("runs of any number of frames", REFUSALS, RUNS_5 + "\n" + RUNS_6, RUNS_6),
    of_runs("a run's frames totalled in 32 bits", REFUSALS, RUNS_5 + "\n" + RUNS_6,
            (RUNS_5 + "\n" + RUNS_6).replace("> MAX", "% 2**32 > MAX")),
    of_runs("no room for runs told before their frames", REFUSALS, RUNS_5 + "\n" + RUNS_6,
            RUNS_5.replace("MAX_FRAMES", 'MAX_FRAMES and case["runs"] >= 2') + "\n" + RUNS_6),
    of_runs("room for one number a run", REFUSALS, RUNS_6, RUNS_6.replace("2 * len", "len")),
    of_runs("room for one more run wanted", REFUSALS, RUNS_6, RUNS_6.replace("2 * len", "2 + 2 * len")),
    of_runs("room for a run a state wanted", REFUSALS, RUNS_6, RUNS_6.replace("len(runs.runs_of(case))", "states")),
    of_runs("6 before 5, for a run", REFUSALS, RUN_AS_TRAJECTORY,
            "    whole = trajectory_checks(case)\n    return whole | {\n        5: lambda: whole[5]() and not too_short(),\n"
            "        6: too_short,"),
    of_runs("GV's lists looked at for a run with GV off", REFUSALS, RUN_AS_TRAJECTORY,
            '    whole = trajectory_checks(case.with_fields(gv_on=1))\n    return whole | {\n        6: too_short,'),
    of_runs("GV's lists not looked at for a run", REFUSALS, RUN_AS_TRAJECTORY,
            '    whole = trajectory_checks(case.with_fields(gv_on=0))\n    return whole | {\n        6: too_short,'),
    of_runs("20 before all others", REFUSALS, RUN_AS_TRAJECTORY,
            RUN_AS_TRAJECTORY.replace("return", 'return {20: lambda: True} if case["gv_on"] else')),
    of_runs("20 before 6", REFUSALS, RUN_6, RUN_6.replace("too_short", 'lambda: not case["gv_on"] and too_short()')),
    of_runs("21 before 6", REFUSALS, RUN_6, RUN_6.replace("too_short", "lambda: runs.is_there(case) and too_short()"),
            "a run that is not there has no frames, and nothing is too short for it"),
    of_runs("22 before 6", REFUSALS, RUN_6, RUN_6.replace("too_short", 'lambda: case["widths"][0] == 1 and too_short()')),
    of_runs("6 by a trajectory's rule, for a run", REFUSALS, RUN_N, '        n = sum(case["durations"])'),
    of_runs("a run's room for a frame less", REFUSALS, RUN_N, "        n = max(0, runs.frames_asked(case) - 1)"),
    of_runs("a run's output of a number a frame taken", REFUSALS, RUN_ROOM, RUN_ROOM.replace('n * case["v"]', "n")),
    of_runs("a run's output unchecked", REFUSALS, RUN_ROOM, RUN_ROOM.replace('case["out"] < n * case["v"] or ', "")),
    of_runs("a run's work space unchecked", REFUSALS, RUN_ROOM, RUN_ROOM.replace('case["work"] < n * WORK_FLOATS or ', "")),
    of_runs("a run's marks unchecked", REFUSALS, RUN_ROOM, RUN_ROOM.replace(' or case["marks"] < n * WORK_MARKS', "")),
    of_runs("a run with GV taken", REFUSALS, RUN_20, "        20: lambda: False,"),
    of_runs("a run with GV taken by another number than 1", REFUSALS, RUN_20, RUN_20.replace("!= 0", "== 1")),
    of_runs("a run with GV taken where nothing is switched", REFUSALS, RUN_20,
            RUN_20.replace("!= 0", '!= 0 and any(case["switches"])')),
    of_runs("21 before 20", REFUSALS, RUN_20, RUN_20.replace("!= 0", "!= 0 and runs.is_there(case)")),
    of_runs("22 before 20", REFUSALS, RUN_20, RUN_20.replace("!= 0", '!= 0 and case["widths"][0] == 1')),
    of_runs("22 before 21", REFUSALS, RUN_21, RUN_21.replace("not runs", 'case["widths"][0] == 1 and not runs')),
    of_runs("no run told as 10", REFUSALS, RUN_21, RUN_21.replace("21", "10")),
    of_runs("a run's longer first window taken", REFUSALS, RUN_22, "        22: lambda: False,"),
    of_runs("a run's first window of two coefficients taken", REFUSALS, RUN_22, RUN_22.replace("> 1", "> 2")),
    of_runs("a run's longer first window taken where all of it but one is 0", REFUSALS, RUN_22,
            '        22: lambda: sum(tap != 0 for tap in case["coefficients"][: case["widths"][0]]) > 1,'),
    of_runs("22 for any longer window", REFUSALS, RUN_22, RUN_22.replace('case["widths"][0]', 'max(case["widths"])')),
    of_runs("zeros behind the runs", EXITS, RUNS_LEFT,
            RUNS_LEFT.replace('written_u32(values["runs"], case["runs"])',
                              'values["runs"] + [0] * (case["runs"] - len(values["runs"]))')),
    of_runs("no runs not counted", EXITS, RUNS_LEFT, RUNS_LEFT.replace('values["count"]}', 'values["count"] or UNTOUCHED_U32}')),
    of_runs("a run's work space left as it was", EXITS, RUN_WORK_LEFT, '        "work": marked_f64(0, case["work"]),'),
    of_runs("a run's work space zeroed whole", EXITS, RUN_WORK_LEFT, '        "work": [0.0] * case["work"],'),
    of_runs("a run's work space zeroed for the utterance", EXITS, RUN_WORK_LEFT,
            RUN_WORK_LEFT.replace("n * WORK_FLOATS", 'min(case["work"], sum(case["durations"]) * WORK_FLOATS)')),
    of_runs("a run's marks left as they were", EXITS, RUN_MARKS_LEFT, '        "marks": marked_u32(0, case["marks"]),'),
    of_runs("a run's marks zeroed whole", EXITS, RUN_MARKS_LEFT, '        "marks": [0] * case["marks"],'),
    of_runs("the utterance's frames told for a run's", EXITS, RUN_FRAMES_LEFT, '        "frames": sum(case["durations"]),',
            unlike=True),
    of_runs("a run's frames not told", EXITS, RUN_FRAMES_LEFT, '        "frames": UNTOUCHED_U32,', unlike=True),
    of_runs("a refused run's frames told as 0", EXITS, LEFT,
            LEFT + ' | ({"frames": 0} if case.kind == "run" and refusal >= 20 else {})'),
    of_runs("a run's frames told as 0 with 6", EXITS, LEFT,
            LEFT + ' | ({"frames": 0} if case.kind == "run" and refusal == 6 else {})'),
    of_runs("refused runs counted as none", EXITS, LEFT,
            LEFT + ' | ({"count": 0} if case.kind == "runs" and refusal == 6 else {})'),
    of_runs("a refused run's work space zeroed", EXITS, LEFT,
            LEFT + ' | ({"work": [0.0] * case["work"]} if case.kind == "run" and refusal >= 20 else {})'),
    of_runs("a refused run's output filled", EXITS, LEFT,
            LEFT + ' | ({"out": [case["fill"]] * case["out"]} if case.kind == "run" and refusal == 21 else {})'),
    Fault("free counts all slots", HOUSES, FREE_COUNT, FREE_COUNT.replace("OWN[house]", "range(SLOTS)"), leaks=True),
    Fault("free counts both houses' slots", HOUSES, FREE_COUNT, FREE_COUNT.replace("OWN[house]", "[*OWN[0], *OWN[1]]"), leaks=True),
    Fault("free counts the common slots too", HOUSES, FREE_COUNT, FREE_COUNT.replace("OWN[house]", "[*COMMON, *OWN[house]]")),
    Fault("free counts the other's slots", HOUSES, FREE_COUNT, FREE_COUNT.replace("OWN[house]", "OWN[1 - house]"), leaks=True),
    Fault("free counts the sets", HOUSES, FREE_COUNT, FREE_COUNT.replace("sum(map", "4 - sum(map")),
    Fault("free counts what is there of a short table", HOUSES, FREE_COUNT,
          "        return 0, sum(map(self.is_empty, OWN[house]))"),
    Fault("6 before 23 for a free count", HOUSES, FREE_HOUSE, "        if house not in OWN and not self.is_short():"),
    Fault("a house that doesn't exist has nothing free", HOUSES, FREE_HOUSE,
          "        if house not in OWN: return 0, 0\n" + FREE_HOUSE),
    Fault("a refused free count handed out as 0", HOUSES, FREE_TOLD, "        return free"),
    Fault("house 1's slots from 7", HOUSES, OWN_SLOTS, OWN_SLOTS.replace("range(8,", "range(7,"), leaks=True),
    Fault("house 1's slots from 9", HOUSES, OWN_SLOTS, OWN_SLOTS.replace("range(8,", "range(9,")),
    Fault("house 1's slots to 10", HOUSES, OWN_SLOTS, OWN_SLOTS.replace("12)", "11)")),
    Fault("house 1's slots to 12", HOUSES, OWN_SLOTS, OWN_SLOTS.replace("12)", "13)")),
    Fault("house 0's slots from 3", HOUSES, OWN_SLOTS, OWN_SLOTS.replace("range(4,", "range(3,"), leaks=True),
    Fault("house 0's slots to 8", HOUSES, OWN_SLOTS, OWN_SLOTS.replace("8),", "9),"), leaks=True),
    Fault("the houses' slots the other way round", HOUSES, OWN_SLOTS, "OWN = {1: range(4, 8), 0: range(8, 12)}", leaks=True),
    Fault("common slots 0 to 2", HOUSES, "COMMON = range(4)", "COMMON = range(3)"),
    Fault("any slot of a house is set and cleared by both", HOUSES, IS_OWN,
          "    return house in OWN and slot in [*OWN[0], *OWN[1]]", leaks=True),
    Fault("a house by its lowest bit", HOUSES, IS_OWN, "    return slot in OWN[house % 2]", leaks=True),
    Fault("a house in 30 bits", HOUSES, IS_OWN, "    return slot in OWN.get(house % 2**30, ())", leaks=True),
    Fault("a slot in 8 bits", HOUSES, IS_OWN, "    return house in OWN and slot % 2**8 in OWN[house]"),
    Fault("a slot in 30 bits", HOUSES, MAY_USE, MAY_USE.replace("slot in", "slot % 2**30 in")),
    Fault("any slot used by both houses", HOUSES, MAY_USE, "    return house in OWN and slot < SLOTS", leaks=True),
    Fault("common slots used by house 0 alone", HOUSES, MAY_USE,
          "    return house in OWN and (slot in COMMON and house == 0 or slot in OWN[house])"),
    Fault("common slots not used", HOUSES, MAY_USE, IS_OWN),
    Fault("common slots used by a house that doesn't exist", HOUSES, MAY_USE, "    return slot in COMMON or is_own(house, slot)"),
    Fault("a common slot set", HOUSES, SET_NOT_YOURS, SET_NOT_YOURS.replace("is_own", "may_use"), leaks=True),
    Fault("an empty common slot set by a house", HOUSES, SET_NOT_YOURS,
          SET_NOT_YOURS.replace("is_own(house, slot)", "(may_use(house, slot) and self.is_empty(slot) or is_own(house, slot))"),
          leaks=True),
    Fault("a common slot cleared", HOUSES, CLEAR_NOT_YOURS, CLEAR_NOT_YOURS.replace("is_own", "may_use"), leaks=True),
    Fault("25 before 23", HOUSES, SET_NOT_YOURS,
          "        if not self.is_empty(slot): return SET_ALREADY\n" + SET_NOT_YOURS, leaks=True),
    Fault("24 before 23 for a clear", HOUSES, CLEAR_NOT_YOURS,
          "        if self.is_empty(slot): return EMPTY\n" + CLEAR_NOT_YOURS, leaks=True),
    Fault("24 before 23 for a use", HOUSES, USE_NOT_YOURS,
          "        if self.is_empty(slot): return EMPTY, []\n" + USE_NOT_YOURS, leaks=True),
    Fault("23 for an empty slot in use", HOUSES, USE_EMPTY, "            return NOT_YOURS, []"),
    Fault("1, 2 and 4 before 25", HOUSES, SET_ALREADY, "            return windows_refusal(widths, coefficients) or SET_ALREADY"),
    Fault("1, 2 and 4 before 23", HOUSES, SET_NOT_YOURS,
          SET_NOT_YOURS.replace("return NOT_YOURS", "return windows_refusal(widths, coefficients) or NOT_YOURS")),
    Fault("6 before 23 for a set", HOUSES, SET_NOT_YOURS, "        if self.is_short(): return TOO_SHORT\n" + SET_NOT_YOURS),
    Fault("6 before 25", HOUSES, SET_ALREADY, "            return TOO_SHORT if self.is_short() else SET_ALREADY"),
    Fault("6 before 1, 2 and 4", HOUSES, SET_WINDOWS,
          "        return TOO_SHORT if self.is_short() else windows_refusal(widths, coefficients)"),
    Fault("6 before 23 for a clear", HOUSES, CLEAR_NOT_YOURS, "        if self.is_short(): return TOO_SHORT\n" + CLEAR_NOT_YOURS),
    Fault("6 before 24 for a clear", HOUSES, CLEAR_EMPTY, "        if self.is_short(): return TOO_SHORT\n" + CLEAR_EMPTY),
    Fault("6 before 23 for a use", HOUSES, USE_NOT_YOURS, "        if self.is_short(): return TOO_SHORT, []\n" + USE_NOT_YOURS),
    Fault("6 before 24 for a use", HOUSES, USE_EMPTY, "            return TOO_SHORT if self.is_short() else EMPTY, []"),
    Fault("6 for a use's list before 24", HOUSES, USE_EMPTY, "            return TOO_SHORT if room < WIDTHS else EMPTY, []"),
    Fault("6 before all of a start's", HOUSES, START,
          "        number = TOO_SHORT if self.is_short() else start_refusal(widths, coefficients, common)"),
    Fault("a slot that is set set anew", HOUSES, SET_ALREADY, "            pass"),
    Fault("an empty slot cleared", HOUSES, CLEAR_EMPTY, ""),
    Fault("an empty slot used with what stood there", HOUSES, USE_EMPTY, "            return 0, self.content(slot)[0]"),
    Fault("a table of 47 widths taken", HOUSES, SHORT_TABLE, SHORT_TABLE.replace("WIDTHS * SLOTS", "WIDTHS * SLOTS - 1")),
    Fault("a table of 719 coefficients taken", HOUSES, SHORT_TABLE,
          SHORT_TABLE.replace("COEFFICIENTS * SLOTS", "COEFFICIENTS * SLOTS - 1")),
    Fault("the widths alone looked at for a short table", HOUSES, SHORT_TABLE, "        return len(self.widths) < WIDTHS * SLOTS"),
    Fault("a longer table refused", HOUSES, SHORT_TABLE, SHORT_TABLE.replace("<", "!=")),
    Fault("zeros at the end not dropped", HOUSES, ZEROS_DROPPED, "    return widths"),
    Fault("all zeros dropped", HOUSES, ZEROS_DROPPED, "    return [width for width in widths if width]"),
    Fault("widths up to the first zero", HOUSES, ZEROS_DROPPED, "    return [*widths, 0][: [*widths, 0].index(0)]"),
    Fault("an infinite coefficient taken", HOUSES, FINITE, FINITE.replace("<", "<=")),
    Fault("a NaN coefficient taken", HOUSES, FINITE, FINITE.replace("<", "!=")),
    Fault("a negative NaN or infinity taken", HOUSES, FINITE, "    return not INFINITY <= bits < 2**63"),
    Fault("negative coefficients refused", HOUSES, FINITE, "    return bits < INFINITY"),
    Fault("2 before 1", HOUSES, SET_1_AND_2,
          SET_1_AND_2.replace("BAD_WINDOWS", "BAD_WINDOWS if all(map(is_finite, coefficients)) else BAD_COEFFICIENT")),
    Fault("2 before 1 in a start", HOUSES, BAD_ROW,
          BAD_ROW + "\n        if not all(map(is_finite, coefficients)): return BAD_COEFFICIENT"),
    Fault("4 before 2", HOUSES, SET_1_AND_2,
          SET_1_AND_2.replace("BAD_COEFFICIENT", "BAD_COEFFICIENT if len(coefficients) == sum(widths) else DISAGREE")),
    Fault("4 before 2 in a start", HOUSES, "        return BAD_COEFFICIENT\n" + ROWS_ARE_ALL,
          "        return BAD_COEFFICIENT if len(coefficients) == sum(widths) else DISAGREE\n" + ROWS_ARE_ALL),
    Fault("coefficients too many taken", HOUSES, SET_1_AND_2, SET_1_AND_2.replace("!= sum", "< sum")),
    Fault("coefficients too few taken", HOUSES, SET_1_AND_2, SET_1_AND_2.replace("!= sum", "> sum")),
    Fault("zeros behind a given set's widths taken", HOUSES, SET_WINDOWS,
          SET_WINDOWS.replace("(widths,", "(without_zeros(widths),")),
    Fault("a slot's sixty coefficients all looked at", HOUSES, IS_EMPTY,
          IS_EMPTY + " or not all(map(is_finite, self.coefficients[COEFFICIENTS * slot : COEFFICIENTS * (slot + 1)]))"),
    Fault("empty by the widths alone", HOUSES, IS_EMPTY, "        return bad_windows(self.content(slot)[0])"),
    Fault("empty without widths alone", HOUSES, IS_EMPTY, "        return not self.content(slot)[0]"),
    Fault("empty by the first width", HOUSES, IS_EMPTY,
          "        return self.widths[WIDTHS * slot : WIDTHS * slot + 1] in ([], [0])"),
    Fault("empty by zeros alone", HOUSES, IS_EMPTY,
          "        first = COEFFICIENTS * slot;"
          " return not any(self.content(slot)[0]) and not any(self.coefficients[first : first + COEFFICIENTS])"),
    Fault("a slot that the widths end in empty", HOUSES, IS_EMPTY, IS_EMPTY + " or len(self.widths) < WIDTHS * (slot + 1)"),
    Fault("a slot that the coefficients end in empty", HOUSES, IS_EMPTY,
          IS_EMPTY + " or len(self.coefficients) < COEFFICIENTS * (slot + 1)"),
    Fault("every slot of a short table empty", HOUSES, IS_EMPTY, IS_EMPTY + " or self.is_short()"),
    Fault("zeros where the coefficients end", HOUSES, SLOT_CONTENT,
          SLOT_CONTENT.replace("self.co", "with_zeros(self.co").replace("[: sum", ", COEFFICIENTS)[: sum")),
    Fault("the coefficients of a slot that ends run on in the next", HOUSES, SLOT_CONTENT,
          "        return widths, self.coefficients[COEFFICIENTS * slot :][: sum(widths)]",
          "no widths that are taken sum to more than sixty"),
    Fault("three widths of a slot", HOUSES, SLOT_WIDTHS, SLOT_WIDTHS.replace("WIDTHS * (slot + 1)]", "WIDTHS * (slot + 1) - 1]")),
    Fault("a slot's widths from the next", HOUSES, SLOT_WIDTHS,
          "        widths = without_zeros(self.widths[WIDTHS * (slot + 1) : WIDTHS * (slot + 2)])", leaks=True),
    Fault("the widths behind a set left", HOUSES, WIDTHS_PUT,
          "        self.widths[WIDTHS * slot : WIDTHS * slot + len(widths)] = widths"),
    Fault("the coefficients behind a set left", HOUSES, COEFFICIENTS_PUT,
          "        self.coefficients[COEFFICIENTS * slot : COEFFICIENTS * slot + len(coefficients)] = coefficients"),
    Fault("a coefficient of -0 set as 0", HOUSES, COEFFICIENTS_PUT,
          COEFFICIENTS_PUT.replace("(coefficients,", "([bits if bits != 2**63 else 0 for bits in coefficients],")),
    Fault("-0 behind a set's coefficients", HOUSES, COEFFICIENTS_PUT,
          COEFFICIENTS_PUT.replace("with_zeros(coefficients, COEFFICIENTS)", "(coefficients + [2**63] * 60)[:60]")),
    Fault("a set in the next slot", HOUSES, SET_DONE, "            self.put(slot + 1, widths, coefficients)", leaks=True),
    Fault("a set in both houses' slots", HOUSES, SET_DONE,
          SET_DONE + "; self.put(slot ^ 12, widths, coefficients)", leaks=True),
    Fault("a refused set clears the slot", HOUSES, "        if number == 0:",
          "        if number in (1, 2, 4) and not self.is_short(): self.put(slot, [], [])\n        if number == 0:"),
    Fault("clear leaves the widths", HOUSES, CLEARED,
          "        self.coefficients[COEFFICIENTS * slot : COEFFICIENTS * (slot + 1)] = [0] * COEFFICIENTS\n        return 0"),
    Fault("clear leaves the coefficients", HOUSES, CLEARED,
          "        self.widths[WIDTHS * slot : WIDTHS * (slot + 1)] = [0] * WIDTHS\n        return 0"),
    Fault("clear zeroes the set alone", HOUSES, CLEARED,
          "        first = COEFFICIENTS * slot; count = len(self.content(slot)[1])\n"
          "        self.coefficients[first : first + count] = [0] * count\n"
          "        self.widths[WIDTHS * slot : WIDTHS * (slot + 1)] = [0] * WIDTHS\n        return 0"),
    Fault("clear clears all of the house", HOUSES, CLEARED,
          "        [self.put(own, [], []) for own in OWN[house]]\n        return 0"),
    Fault("clear clears the slots behind", HOUSES, CLEARED,
          "        [self.put(own, [], []) for own in range(slot, SLOTS)]\n        return 0", leaks=True),
    Fault("a start leaves both houses' slots", HOUSES, STARTED_SLOTS, "        for slot in COMMON:"),
    Fault("a start leaves house 1's slots", HOUSES, STARTED_SLOTS, "        for slot in range(8):"),
    Fault("a start leaves the common slots without a set", HOUSES, STARTED_SLOTS, "        for slot in range(4, SLOTS):"),
    Fault("a start zeroes what is behind the table", HOUSES, STARTED_SLOTS,
          "        self.widths[:] = [0] * len(self.widths); self.coefficients[:] = [0] * len(self.coefficients)\n" + STARTED_SLOTS),
    Fault("5 common sets taken", HOUSES, MOST_COMMON, "    if common > len(COMMON) + 1:"),
    Fault("4 common sets refused", HOUSES, MOST_COMMON, "    if common >= len(COMMON):"),
    Fault("1 for too many common sets", HOUSES, MOST_COMMON, "    if common > len(COMMON): return BAD_WINDOWS\n" + MOST_COMMON),
    Fault("1 and 2 before 23 in a start", HOUSES, MOST_COMMON,
          "    if len(widths) < common: return BAD_WINDOWS\n"
          "    if not all(map(is_finite, coefficients)): return BAD_COEFFICIENT\n" + MOST_COMMON),
    Fault("rows of four widths alone", HOUSES, ROW_LENGTH, "    length = WIDTHS"),
    Fault("a row's length rounded up", HOUSES, ROW_LENGTH, "    length = -(-len(widths) // common) if common else 0"),
    Fault("a row of five with zeros taken", HOUSES, BAD_ROW, BAD_ROW.replace("len(row) > WIDTHS or ", "")),
    Fault("zeros at a row's end refused", HOUSES, BAD_ROW, BAD_ROW.replace("without_zeros(row)", "row")),
    Fault("all zeros of a row dropped", HOUSES, BAD_ROW,
          BAD_ROW.replace("without_zeros(row)", "[width for width in row if width]")),
    Fault("a row without a width taken", HOUSES, BAD_ROW, BAD_ROW.replace("bad_windows", "any(row) and bad_windows")),
    Fault("the last row not looked at", HOUSES, BAD_ROW, BAD_ROW.replace("in rows)", "in rows[:-1])")),
    Fault("widths left over passed over", HOUSES, ROWS_ARE_ALL, "    if False:"),
    Fault("widths without a set passed over", HOUSES, ROWS_ARE_ALL, ROWS_ARE_ALL.replace("if sum", "if common and sum")),
    Fault("4 before 1 in a start", HOUSES, BAD_ROW, ROWS_ARE_ALL + "\n        return DISAGREE\n" + BAD_ROW),
    Fault("1 where the rows aren't all of the widths", HOUSES, ROWS_ARE_ALL,
          ROWS_ARE_ALL + "\n        return BAD_WINDOWS\n" + ROWS_ARE_ALL),
    Fault("a common set's coefficients from the front of all", HOUSES,
          COMMON_SET + "\n            coefficients = coefficients[sum(row) :]", COMMON_SET),
    Fault("the common sets from the last slot down", HOUSES, COMMON_SET, COMMON_SET.replace("put(slot,", "put(common - 1 - slot,")),
    Fault("a use's list of three taken", HOUSES, USE_SHORT, USE_SHORT.replace("WIDTHS", "WIDTHS - 1")),
    Fault("a use's list as long as the widths alone", HOUSES, USE_SHORT, USE_SHORT.replace("WIDTHS", "len(self.content(slot)[0])")),
    Fault("a use's list of the exact length refused", HOUSES, USE_SHORT, USE_SHORT.replace("<", "<=")),
    Fault("the first place counted in slots", HOUSES, FIRST_TOLD, FIRST_TOLD.replace("COEFFICIENTS * ", "")),
    Fault("the first place in the widths", HOUSES, FIRST_TOLD, FIRST_TOLD.replace("COEFFICIENTS", "WIDTHS")),
    Fault("the first place from the house's own on", HOUSES, FIRST_TOLD, FIRST_TOLD.replace("one.slot", "(one.slot % 4)")),
    Fault("a refused use's first place told", HOUSES, FIRST_TOLD,
          "    left.firsts.append(UNTOUCHED_U64 if number in (6, 23) else COEFFICIENTS * one.slot)"),
    Fault("a set's widths counted", HOUSES, COUNT_TOLD, COUNT_TOLD.replace("sum(used)", "len(used)")),
    Fault("sixty coefficients of every set", HOUSES, COUNT_TOLD, COUNT_TOLD.replace("sum(used)", "COEFFICIENTS")),
    Fault("a refused use's count told as 0", HOUSES, COUNT_TOLD, "    left.counts.append(sum(used))"),
    Fault("no zeros behind a use's widths", HOUSES, USED_TOLD,
          "    left.used += used + marked_u32(len(used), one.room)"),
    Fault("a use's list zeroed whole", HOUSES, USED_TOLD,
          "    left.used += marked_u32(0, one.room) if number else with_zeros(used, one.room)"),
    Fault("a refused use's list zeroed", HOUSES, USED_TOLD, USED_TOLD.replace("marked_u32(0, one.room) if", "[0] * one.room if")),
]
