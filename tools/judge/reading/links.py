"""RULES, Serial link: what a link's memory says, and what begin, part and end make of it."""

from collections.abc import Iterator
from dataclasses import dataclass
from functools import lru_cache

from ..formats import BEGIN, PART, Case, Fields
from . import jobs, refusals
from .durations import Refused

# The bytes of the number in front, and those of a job that are kept: one more than the largest has.
NUMBER = 8
KEPT = jobs.HEAD + max(jobs.STATE.values()) * jobs.MAX_COUNT + 1
SIZE = NUMBER + KEPT

TOO_LITTLE_ROOM = 6
JOB_ENDED = 11


@dataclass
class Link:
    memory: bytearray

    def number(self) -> int:
        return int.from_bytes(self.memory[:NUMBER], "little")

    def has_ended(self) -> bool:
        """No job is under way: the number is 0, or more than one of a job."""
        number = self.number()
        return number == 0 or number > KEPT + 1

    def is_short(self) -> bool:
        return len(self.memory) < SIZE

    def refusal(self) -> int:
        """Of a part or an end, 0 for none."""
        if self.has_ended():
            return JOB_ENDED
        return TOO_LITTLE_ROOM if self.is_short() else 0

    def came(self) -> bytes:
        """The bytes of the job that is under way."""
        return bytes(self.memory[NUMBER : NUMBER + self.number() - 1])

    def write(self, number: int, job: bytes) -> None:
        front = number.to_bytes(NUMBER, "little") + job
        self.memory[: len(front)] = front

    def begin(self) -> int:
        if self.is_short():
            return TOO_LITTLE_ROOM
        self.write(1, b"")
        return 0

    def part(self, data: bytes) -> int:
        number = self.refusal()
        if number == 0:
            self.keep(self.came() + data)
        return number

    def keep(self, job: bytes) -> None:
        kept = job[:KEPT]
        self.write(len(kept) + 1, kept)

    def end(self, out: int, work: int) -> "End":
        refusal = self.refusal()
        if refusal:
            return End(False, job_file(b"", out, work), refusal)
        job = job_file(self.came(), out, work)
        self.write(0, b"")
        return End(True, job, *answer(job))


@dataclass
class End:
    ended: bool  # whether a job was under way
    job: Case  # what has come, as a job file
    refusal: int
    values: Fields | None = None  # None where there are none


def job_file(data: bytes, out: int, work: int) -> Case:
    return Case("job", {"bytes": data, "out": out, "work": work})


def answer(job: Case) -> tuple[int, Fields | None]:
    """A job file's refusal number, and its values."""
    number = refusals.before_work(job)
    if number:
        return number, None
    try:
        return 0, jobs.job_values(job)
    except Refused as refused:
        return refused.number, None


@dataclass
class Followed:
    refusals: list[int]  # one a call
    ends: list[End]
    memory: bytes

    def accepted(self) -> list[End]:
        return [end for end in self.ends if end.refusal == 0]


def followed(case: Case) -> Followed:
    """The case's calls, one after the other."""
    lists = (tuple(case[name]) for name in ("lengths", "out", "work"))
    return follow(case["memory"], case["calls"], case["bytes"], *lists)


@lru_cache(maxsize=1_000)  # it is asked of a case in several places
def follow(memory: bytes, calls: bytes, data: bytes, lengths: tuple, out: tuple, work: tuple) -> Followed:
    link, numbers, ends = Link(bytearray(memory)), [], []
    parts, rooms = split(data, lengths), zip(out, work)
    for call in calls:
        if call == BEGIN:
            numbers.append(link.begin())
        elif call == PART:
            numbers.append(link.part(next(parts)))
        else:
            ends.append(link.end(*next(rooms)))
            numbers.append(ends[-1].refusal)
    return Followed(numbers, ends, bytes(link.memory))


def split(data: bytes, lengths: tuple) -> Iterator[bytes]:
    """The parts that stand joined."""
    first = 0
    for length in lengths:
        yield data[first : first + length]
        first += length


def joined(answers: list[Fields]) -> Fields:
    """The values of several jobs as a link's."""
    return {
        **{name: [values[name] for values in answers] for name in ("states", "frames", "changes")},
        "durations": [frames for values in answers for frames in values["durations"]],
    }


def link_values(case: Case) -> Fields:
    """Those of the accepted ends."""
    return joined([end.values for end in followed(case).accepted()])
