"""Which program judges an accepted case, and what the Rust is asked."""

from collections.abc import Iterator
from enum import Enum, auto
from itertools import islice

from .formats import ALIGNMENTS, KINDS, Case, Fields, decode, encode_case
from .programs import Program
from .reading import ieee, jobs, links, runs
from .reading.durations import estimate, states_in
from .reading.refusals import band_frames


class Judge(Enum):
    RUST = auto()  # the Rust follows the rules
    PAPER = auto()  # terms that the Rust's `break` would drop: its twin by the paper's rule
    READING = auto()  # the second reading alone


# The kinds whose states have shortest durations of their own, which the Rust doesn't know.
WITH_SHORTEST = ("fit", "speed", "align", "chapter", "job")
BY_RUST = ("float", "pair", "record", "fit", "speed", "align", "mask", "band", "trajectory", "job", "link", "chapter")
BY_RUST += ("runs", "run")


def drops_nothing(case: Case) -> bool:
    """Band rows where each window but the first counts nothing within its reach of the end."""
    frames = band_frames(case)
    for window, width in enumerate(case["widths"]):
        reach = width - width // 2 - 1
        tail = case["ivars"][(window + 1) * frames - min(reach, frames) : (window + 1) * frames]
        if window > 0 and any(ivar != 0 for ivar in tail):
            return False
    return True


def shortest_of(case: Case) -> list[int]:
    """Of a case that has them; a damaged job has none."""
    if case.kind != "job":
        return case["shortest"]
    job = jobs.parse(case["bytes"])
    return job.shortest if job else []


def all_ones(case: Case) -> bool:
    """Whether the rules are the Rust's: with a shortest of 1 everywhere there might as well be none."""
    return all(number == 1 for number in shortest_of(case))


def judge_of(case: Case) -> Judge:
    """Of an accepted case; of a link the Rust is asked those jobs that it can judge."""
    if case.kind not in BY_RUST:
        return Judge.READING
    if case.kind in WITH_SHORTEST and not all_ones(case):
        return Judge.READING
    if "widths" in case.fields and case["widths"][0] > 1:
        return Judge.PAPER
    if case.kind == "band" and not drops_nothing(case):
        return Judge.PAPER
    return Judge.RUST


def speed_of(job: bytes) -> Case:
    """A job as the Rust takes it: a speed over its pairs."""
    parsed = jobs.parse(job)
    states = {"means": parsed.means, "varis": parsed.varis, "shortest": parsed.shortest}
    return Case("speed", {**states, "speed": parsed.speed, "out": 0, "work": 0})


def mask_of(case: Case) -> Case:
    """A stream's voicing as the Rust takes it."""
    fields = {"weights": runs.voicing_weights(case), "threshold": case["threshold"], "durations": case["durations"]}
    return Case("mask", {**fields, "voiced": 0, "left": 0, "right": 0})


def lone_stream(case: Case) -> Case:
    """The run that is asked for as a stream of its own, which has nothing but the run's states and is voiced throughout."""
    first, frames = runs.runs_of(case)[case["run"]]
    before, records, durations = 0, [], []
    for record, duration in zip(runs.records_of(case), case["durations"]):
        if duration and first <= before < first + frames:
            records += record[: 2 * (len(record) // 2)]
            durations.append(duration)
        before += duration
    own = {"masked": 0, "threshold": 0.0, "gv_on": 0, "gv": [], "switches": b"", "records": records, "durations": durations}
    return Case("trajectory", {name: value for name, value in case.fields.items() if name != "run"} | own)


def asked(case: Case) -> list[Case]:
    """What the Rust is asked of an accepted case: mostly the case, of a link each accepted end with ones, of a chapter its
    alignment, of a stream's runs its mask, and of a run alone a stream that has no other; NaNs are one."""
    if case.kind == "job":
        questions = [speed_of(case["bytes"])]
    elif case.kind == "link":
        questions = [speed_of(end.job["bytes"]) for end in links.followed(case).accepted() if all_ones(end.job)]
    elif case.kind == "chapter":
        questions = [Case("align", case.fields)]
    elif case.kind == "runs":
        questions = [mask_of(case)]
    elif case.kind == "run":
        questions = [lone_stream(case)]
    else:
        questions = [case]
    return [Case(question.kind, ieee.one_nan(question.fields)) for question in questions]


def oracle_answers(oracle: Program, cases: list[Case]) -> Iterator[list[bytes | None]]:
    """The oracle's answers to all that it is asked of each case."""
    questions = [[encode_case(question, False) for question in asked(case)] for case in cases]
    given = iter(oracle.answers([question for asking in questions for question in asking]))
    for asking in questions:
        yield list(islice(given, len(asking)))


def job_answered(answer: bytes) -> Fields:
    values = decode(KINDS["speed"].values, answer)
    durations = values["durations"]
    return {"states": len(durations), "frames": sum(durations), **values}


def tail_of(case: Case) -> list[int]:
    """The reading's durations of the states after the last given end, of an accepted alignment."""
    first = max((label for label, end in enumerate(case["ends"], 1) if end >= 0), default=0) * case["nstate"]
    return estimate(states_in(case)[first:], 0.0)


def align_answered(case: Case, answer: bytes) -> Fields:
    """The Rust ends at the last given end, and the reading's tail completes its answer: no tail is compared with it."""
    values, tail = decode(KINDS["align"].values, answer), tail_of(case)
    return {**values, "written": values["written"] + len(tail), "durations": values["durations"] + tail}


def runs_answered(answer: bytes) -> Fields:
    """A run begins at each voiced frame with none before it, and has as many frames as that one has behind it, and itself."""
    mask = decode(KINDS["mask"].values, answer)
    frames = zip(mask["voiced"], mask["left"], mask["right"])
    numbers = [(frame, right + 1) for frame, (voiced, left, right) in enumerate(frames) if voiced and left == 0]
    return {"runs": [number for run in numbers for number in run], "count": len(numbers)}


def run_answered(case: Case, answer: bytes) -> Fields:
    out = decode(KINDS["trajectory"].values, answer)["out"]
    return {"out": out, "frames": len(out) // case["v"]}


def answered(case: Case, answers: list[bytes]) -> Fields:
    """The case's values, from the Rust's answers to what it was asked."""
    if case.kind == "link":
        given, ends = iter(answers), links.followed(case).accepted()
        return links.joined([job_answered(next(given)) if all_ones(end.job) else end.values for end in ends])
    (answer,) = answers
    if case.kind in ALIGNMENTS:
        return align_answered(case, answer)
    if case.kind == "runs":
        return runs_answered(answer)
    if case.kind == "run":
        return run_answered(case, answer)
    return job_answered(answer) if case.kind == "job" else decode(KINDS[case.kind].values, answer)
