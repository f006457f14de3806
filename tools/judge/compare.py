"""Runs cases through the reading, the oracle and the C calls, and tells where they differ."""

import struct
from collections import Counter
from collections.abc import Iterable, Iterator
from dataclasses import dataclass, field
from itertools import groupby, islice

from . import apart, drift, lone, reading
from .domain import WITH_SHORTEST, Judge, all_ones, answered, judge_of, oracle_answers, tail_of
from .formats import ALIGNMENTS, KINDS, READ, Case, Fields, decode, encode, encode_case, store_calls, table_calls
from .programs import ANSWERED, LOST, MISTIMED, PANICKED, PARTED, STRAYED, Program
from .reading import jobs, links
from .reading.ieee import one_nan
from .reading.trajectory import TooLong

BAD_SHORTEST = 15
# The calls on a table, by their numbers in a case.
TABLE_CALLS = ("start", "set", "clear", "use", "free")

# As many equal bytes, or numbers of a list, are told one by one.
LONG_RUN = 8

FAILURES = {
    PANICKED: "panicked",
    STRAYED: "wrote outside the lent lists, into an input, or into the store of a refused call",
    PARTED: "an end is not hejmirov_job's answer on the joined bytes",
    LOST: "what was written is not read back as it was",
    MISTIMED: "what was written of words is not read back as their spans",
}


@dataclass
class Difference:
    case: Case
    judged: str  # whose answer is wrong, or the Rust's where it isn't the reading's
    expected: Fields | None
    got: Fields | str

    def __str__(self) -> str:
        lines = [f"{self.judged} on {self.case.kind}:"]
        lines += [f"  {name} = {shown(value)}" for name, value in self.case.fields.items()]
        if isinstance(self.got, str):
            return "\n".join([*lines, f"  {self.got}"])
        for name, got in self.got.items():
            lines.append(f"  {name}: {compared(got, self.expected[name])}")
        return "\n".join(lines)


def compared(got: object, expected: object) -> str:
    """Both where they differ, with the first place of a list."""
    if shown(got) == shown(expected):
        return "as expected"
    text = f"{shown(got)}, expected {shown(expected)}"
    if isinstance(got, list):
        unlike = (place for place, (a, b) in enumerate(zip(got, expected)) if shown(a) != shown(b))
        text += f", first at {next(unlike, 'the end of the shorter')}"
    return text


def shown(value: object) -> str:
    """A number or a list, NaNs with their bits."""
    if isinstance(value, float):
        return repr(value) if value == value else f"NaN {struct.pack('>d', value).hex()}"
    if isinstance(value, list):
        return f"[{', '.join(in_runs(map(shown, value)))}]"
    return " ".join(in_runs(f"{byte:02x}" for byte in value)) if isinstance(value, bytes) else str(value)


def in_runs(items: Iterable[str]) -> Iterator[str]:
    """A long run of the same as its length."""
    for item, run in groupby(items):
        count = len(list(run))
        yield from [f"{item}*{count}"] if count > LONG_RUN else [item] * count


@dataclass
class Tally:
    """How many cases were judged by whom."""

    judged: Counter = field(default_factory=Counter)
    refusals: Counter = field(default_factory=Counter)
    # Accepted alignments with a tail, which is not compared with the Rust.
    tails: int = 0
    # By kind, over links too: cases with other shortest durations than ones, how many of them were accepted, and how many
    # refused with 15.
    other_shortest: Counter = field(default_factory=Counter)
    shortest_accepted: Counter = field(default_factory=Counter)
    shortest_refused: Counter = field(default_factory=Counter)
    # Accepted chapters whose totals were held to the claim.
    chapters: drift.Held = field(default_factory=drift.Held)
    # Runs alone beside the full trajectory, by whose numbers they are.
    alone: dict[str, lone.Held] = field(default_factory=dict)
    # Accepted trajectories with clamped pairs, and such pairs in all, each once a voiced frame.
    clamped: int = 0
    high: int = 0
    low: int = 0
    # Damaged jobs, over links too: by number, how many at each place.
    damaged: dict[int, Counter] = field(default_factory=lambda: {number: Counter() for number in jobs.DAMAGES})
    # Over links: jobs that came to their end, those of them that were accepted, and calls that were refused.
    jobs: int = 0
    accepted: int = 0
    link_refusals: Counter = field(default_factory=Counter)
    # On stores: calls other than reads, and settings files that were read, with those that were refused.
    on_stores: int = 0
    store_refusals: Counter = field(default_factory=Counter)
    files: int = 0
    file_refusals: Counter = field(default_factory=Counter)
    # Calls on words, and timing files that were read, with those that were refused by the words' own numbers.
    on_words: int = 0
    word_refusals: Counter = field(default_factory=Counter)
    timings: int = 0
    timing_refusals: Counter = field(default_factory=Counter)
    # On tables: calls by their names, and refusals of each, by number; and houses alone, by whose answers.
    on_tables: Counter = field(default_factory=Counter)
    table_refusals: dict[str, Counter] = field(default_factory=lambda: {name: Counter() for name in TABLE_CALLS})
    houses: dict[str, apart.Held] = field(default_factory=dict)

    def __str__(self) -> str:
        judged = ", ".join(f"{count} by {judge}" for judge, count in self.judged.items())
        line = f"{judged}; refused {numbered(self.refusals)}"
        if self.tails:
            line += f"; {self.tails} tails not compared with the Rust"
        if self.other_shortest:
            line += f"; shortest durations other than ones in {', '.join(map(self.of_kind, sorted(self.other_shortest)))}"
        if self.chapters.chapters:
            line += f"; {self.chapters}"
        for whose, held in self.alone.items():
            line += f"; runs alone beside the full trajectory by {whose}: {held}"
        if self.clamped:
            line += f"; {self.clamped} trajectories with clamped pairs, {self.high} high and {self.low} low"
        if any(self.damaged.values()):
            line += f"; damaged jobs {', '.join(placed(number, at) for number, at in self.damaged.items() if at)}"
        if self.jobs:
            line += f"; over links {self.jobs} jobs, {self.accepted} accepted, calls refused {numbered(self.link_refusals)}"
        if self.on_stores:
            line += f"; on stores {self.on_stores} calls, refused {numbered(self.store_refusals)}"
        if self.files:
            line += f"; {self.files} settings files, refused {numbered(self.file_refusals)}"
        if self.on_words:
            line += f"; on words {self.on_words} calls, refused {numbered(self.word_refusals)}"
        if self.timings:
            line += f"; {self.timings} timing files, refused {numbered(self.timing_refusals)}"
        if self.on_tables:
            line += f"; on tables {self.on_tables.total()} calls: {', '.join(map(self.on_table, TABLE_CALLS))}"
        for whose, held in self.houses.items():
            line += f"; houses alone by {whose}: {held}"
        return line

    def on_table(self, call: str) -> str:
        return f"{self.on_tables[call]} {call} (refused {numbered(self.table_refusals[call])})"

    def of_kind(self, kind: str) -> str:
        accepted, refused = self.shortest_accepted[kind], self.shortest_refused[kind]
        return f"{kind} {self.other_shortest[kind]}, {accepted} accepted and {refused} refused with 15"


def numbered(refusals: Counter) -> str:
    return ", ".join(f"{number}: {count}" for number, count in sorted(refusals.items())) or "none"


def placed(number: int, places: Counter) -> str:
    return f"{number}: {places.total()} at {len(places)} place{'s' if len(places) > 1 else ''}"


# Each case's refusal number and values; None where the reading would take too long.
Answers = list[tuple[int, Fields | None]]


@dataclass
class Comparison:
    oracle: Program
    paper: Program
    subject: Program | None
    kinds_there: set[str]
    tally: Tally = field(default_factory=Tally)

    def differences(self, cases: list[Case]) -> list[Difference]:
        answers = [self.read(case) for case in cases]
        found = self.against_oracles(cases, answers)
        self.count(cases, answers)
        found += self.against_subject(cases, answers)
        found += self.runs_against_whole(cases)
        found += self.houses_apart(cases)
        return found + self.claim_without_calls(cases, answers)

    def read(self, case: Case) -> tuple[int, Fields | None]:
        """The reading's answer; the values are None where the Rust judges alone."""
        try:
            return reading.answer(case)
        except TooLong:
            return 0, None

    def count(self, cases: list[Case], answers: Answers) -> None:
        """What no oracle judges; the others are counted where they are compared."""
        for case, (refusal, values) in zip(cases, answers):
            if refusal:
                self.tally.refusals[refusal] += 1
            elif judge_of(case) == Judge.READING:
                self.tally.judged["the reading alone"] += 1
            if case.kind in ALIGNMENTS and refusal == 0:
                self.tally.tails += bool(tail_of(case))
            if case.kind in WITH_SHORTEST:
                self.count_shortest(case.kind, case, refusal)
            if case.kind == "trajectory" and values:
                self.tally.clamped += bool(values["high"] or values["low"])
                self.tally.high += values["high"]
                self.tally.low += values["low"]
            if case.kind == "job":
                self.count_damage(case, refusal)
            if case.kind == "link":
                followed = links.followed(case)
                self.tally.jobs += sum(end.ended for end in followed.ends)
                self.tally.accepted += len(followed.accepted())
                self.tally.link_refusals.update(number for number in followed.refusals if number)
                for end in followed.ends:
                    self.count_damage(end.job, end.refusal)
                    self.count_shortest(case.kind, end.job, end.refusal)
            if case.kind in ("store", "settings_file"):
                self.count_store(case, values["refusals"])
            if case.kind == "words":
                self.tally.on_words += len(values["refusals"])
                self.tally.word_refusals.update(number for number in values["refusals"] if number)
            if case.kind == "timing_file":
                self.tally.timings += 1
                self.tally.timing_refusals.update(number for number in [values["refusal"]] if number)

            if case.kind == "houses":
                for one, number in zip(table_calls(case), values["refusals"]):
                    self.tally.on_tables[TABLE_CALLS[one.call]] += 1
                    self.tally.table_refusals[TABLE_CALLS[one.call]].update([number] if number else [])

    def count_store(self, case: Case, refusals: list[int]) -> None:
        reads = [one.call == READ for one in store_calls(case)]
        self.tally.files += sum(reads)
        self.tally.on_stores += len(reads) - sum(reads)
        for read, number in zip(reads, refusals):
            if number:
                (self.tally.file_refusals if read else self.tally.store_refusals)[number] += 1

    def count_shortest(self, kind: str, case: Case, refusal: int) -> None:
        if not all_ones(case):
            self.tally.other_shortest[kind] += 1
            self.tally.shortest_accepted[kind] += refusal == 0
            self.tally.shortest_refused[kind] += refusal == BAD_SHORTEST

    def count_damage(self, job: Case, refusal: int) -> None:
        if refusal in jobs.DAMAGES:
            number, place = jobs.damage(job["bytes"])
            self.tally.damaged[number][place] += 1

    def against_oracles(self, cases: list[Case], answers: Answers) -> list[Difference]:
        """Compares values; fills in the oracle's where the reading has none."""
        rust = self.against_oracle(Judge.RUST, self.oracle, cases, answers)
        return rust + self.against_oracle(Judge.PAPER, self.paper, cases, answers)

    def against_oracle(
        self, judge: Judge, oracle: Program, cases: list[Case], answers: Answers
    ) -> list[Difference]:
        found = []
        accepted = [place for place, (refusal, _) in enumerate(answers) if refusal == 0]
        places = [place for place in accepted if judge_of(cases[place]) == judge]
        for place, given in zip(places, oracle_answers(oracle, [cases[place] for place in places])):
            case, values = cases[place], answers[place][1]
            alone = values is None
            both = f"the reading and {oracle.name}" if given else "the reading alone"
            self.tally.judged[f"{oracle.name} alone" if alone else both] += 1
            failed = [answer for answer in given if answer is None or answer[0] != ANSWERED]
            if failed:
                found.append(Difference(case, oracle.name, values, failure(failed[0])))
                continue
            schema, got = KINDS[case.kind].values, answered(case, [answer[1:] for answer in given])
            if case.kind in ALIGNMENTS and got["written"] != len(case["means"]):
                found.append(Difference(case, oracle.name, values, "does not end at the last given end"))
            elif alone:
                answers[place] = 0, got
            elif encode(schema, got) != encode(schema, values):
                found.append(Difference(case, oracle.name, values, got))
        return found

    def against_subject(self, cases: list[Case], answers: Answers) -> list[Difference]:
        """Compares everything that the C calls leave."""
        found = []
        places = [place for place, case in enumerate(cases) if case.kind in self.kinds_there]
        data = [encode_case(cases[place], answers[place][0] != 0) for place in places]
        given = self.subject.answers(data) if self.subject else []
        for place, answer in zip(places, given):
            case, (refusal, values) = cases[place], answers[place]
            if values is None:
                continue  # the Rust was to judge alone and gave no answer: told already
            schema = KINDS[case.kind].exit
            expected = reading.at_exit(case, refusal, values)
            if answer is None or answer[0] != ANSWERED:
                found.append(Difference(case, self.subject.name, expected, failure(answer)))
                continue
            if case.kind == "chapter":
                left = decode(schema, answer[1:])
                if left["refusal"] == 0:
                    found += self.against_claim(case, self.subject.name, left["out"][: len(case["means"])])
            if answer[1:] != encode(schema, expected):
                found.append(Difference(case, self.subject.name, expected, decode(schema, answer[1:])))
        return found

    def against_claim(self, case: Case, whose: str, durations: list[int]) -> list[Difference]:
        """Holds the totals of an accepted chapter to what is claimed of them."""
        try:
            self.tally.chapters.add(drift.held(case["nstate"], case["ends"], case["shortest"], durations))
        except drift.Drift as drifted:
            return [Difference(case, f"the totals of {whose}", None, str(drifted))]
        return []

    def claim_without_calls(self, cases: list[Case], answers: Answers) -> list[Difference]:
        """Chapters that no C call answers: the claim on the reading's answers."""
        found = []
        for case, (refusal, values) in zip(cases, answers):
            if case.kind == "chapter" and case.kind not in self.kinds_there and refusal == 0 and values is not None:
                found += self.against_claim(case, "the reading", values["durations"])
        return found


    def runs_against_whole(self, cases: list[Case]) -> list[Difference]:
        """Every run of a stream that hands them out, beside its full trajectory: the reading's, the Rust's and the C calls'."""
        streams = [stream for case in cases if case.kind == "run" and (stream := lone.stream_of(case))]
        found = []
        for stream, (rust,) in zip(streams, oracle_answers(self.oracle, [stream.whole() for stream in streams])):
            parts, (_, values) = dict(enumerate(stream.numbers)), reading.answer(stream.whole())
            found += self.against_whole(stream, "the reading", parts, values["out"])
            if rust is None or rust[0] != ANSWERED:
                found.append(Difference(stream.case, f"the full trajectory by {self.oracle.name}", None, failure(rust)))
            else:
                whole = decode(KINDS["trajectory"].values, rust[1:])["out"]
                found += self.against_whole(stream, self.oracle.name, parts, whole)
        return found + self.calls_against_whole(streams)

    def calls_against_whole(self, streams: list[lone.Stream]) -> list[Difference]:
        if not self.subject or not {"run", "trajectory"} <= self.kinds_there:
            return []
        asked = [[*map(stream.part, stream.asked()), stream.whole()] for stream in streams]
        given = iter(self.subject.answers([encode_case(case, False) for asking in asked for case in asking]))
        found = []
        for stream, asking in zip(streams, asked):
            found += self.call_against_whole(stream, asking, list(islice(given, len(asking))))
        return found

    def call_against_whole(self, stream: lone.Stream, cases: list[Case], answers: list[bytes | None]) -> list[Difference]:
        """Each run by the C call is the reading's, to the bit, and is held to the C call's own full trajectory, the last."""
        whose, numbers = f"every run by {self.subject.name}", stream.asked()
        wrong = [answer for answer in answers if answer is None or answer[0] != ANSWERED]
        if wrong:
            return [Difference(stream.case, whose, None, failure(wrong[0]))]
        *left, whole = [decode(KINDS[case.kind].exit, answer[1:]) for case, answer in zip(cases, answers)]
        for number, case, one in zip(numbers, cases, left):
            values = {"out": one_nan(stream.numbers[number]), "frames": stream.runs[number].frames}
            expected = reading.at_exit(case, 0, values)
            if encode(KINDS[case.kind].exit, one) != encode(KINDS[case.kind].exit, expected):
                told = "; ".join(f"{name}: {compared(one[name], expected[name])}" for name in one)
                return [Difference(stream.case, whose, None, f"run {number}: {told}")]
        parts = {number: one["out"] for number, one in zip(numbers, left)}
        return self.against_whole(stream, self.subject.name, parts, whole["out"])

    def against_whole(
        self, stream: lone.Stream, whose: str, parts: dict[int, list[float]], whole: list[float]
    ) -> list[Difference]:
        try:
            self.tally.alone.setdefault(whose, lone.Held()).add(lone.held(stream, parts, whole))
        except lone.Unlike as unlike:
            return [Difference(stream.case, f"a run alone beside the full trajectory by {whose}", None, str(unlike))]
        return []


    def houses_apart(self, cases: list[Case]) -> list[Difference]:
        """Each house's calls beside the same calls without the other's: the reading's, and the C calls'."""
        tables = [case for case in cases if case.kind == "houses"]
        asked = [apart.asked(case) for case in tables]
        found = []
        for asking in asked:
            found += self.against_alone("the reading", asking, [reading.answer(case)[1] for case in asking])
        return found + self.calls_apart(asked)

    def calls_apart(self, asked: list[list[Case]]) -> list[Difference]:
        if not self.subject or "houses" not in self.kinds_there:
            return []
        given = iter(self.subject.answers([encode_case(case, False) for asking in asked for case in asking]))
        found = []
        for asking in asked:
            answers = list(islice(given, len(asking)))
            wrong = [answer for answer in answers if answer is None or answer[0] != ANSWERED]
            if wrong:
                found.append(Difference(asking[0], f"a house alone by {self.subject.name}", None, failure(wrong[0])))
            else:
                left = [decode(KINDS["houses"].exit, answer[1:]) for answer in answers]
                found += self.against_alone(self.subject.name, asking, left)
        return found

    def against_alone(self, whose: str, asked: list[Case], left: list[Fields]) -> list[Difference]:
        try:
            self.tally.houses.setdefault(whose, apart.Held()).add(apart.held(asked[0], left[0], left[1:]))
        except apart.Leak as leak:
            return [Difference(asked[0], f"a house alone by {whose}", None, str(leak))]
        return []


def failure(answer: bytes | None) -> str:
    if answer is None:
        return "died or hung"
    return FAILURES.get(answer[0], f"status {answer[0]}")
