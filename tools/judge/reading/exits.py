"""What each call leaves: the number, the values through pointers, and every lent number."""

from collections.abc import Iterator

from ..formats import KINDS, UNTOUCHED_U32, UNTOUCHED_U64, Case, Fields, marked_f64, marked_u32
from . import jobs, links
from .refusals import WORK_FLOATS, WORK_MARKS

ZEROING_REFUSALS = (7, 8)

UNTOUCHED = {
    "u32": lambda case, name: UNTOUCHED_U32,
    "u64": lambda case, name: UNTOUCHED_U64,
    "u32s": lambda case, name: marked_u32(0, case[name]),
    "f64s": lambda case, name: marked_f64(0, case[name]),
}


def untouched(case: Case) -> Fields:
    return {name: UNTOUCHED[form](case, name) for name, form in KINDS[case.kind].exit}


def written_u32(new: list[int], room: int) -> list[int]:
    return new + marked_u32(len(new), room)


def written_f64(new: list[float], room: int) -> list[float]:
    return new + marked_f64(len(new), room)


def state_count(case: Case) -> int:
    if case.kind == "job":
        return len(jobs.parse(case["bytes"]).means)
    return len(case["means"])


def duration_exit(case: Case, values: Fields) -> Fields:
    pointers = {name: values[name] for name in ("states", "frames", "written", "changes") if name in values}
    return {
        **pointers,
        "out": written_u32(values["durations"], case["out"]),
        "work": written_u32([0] * state_count(case), case["work"]),
    }


def mask_exit(case: Case, values: Fields) -> Fields:
    lists = {name: written_u32(values[name], case[name]) for name in ("voiced", "left", "right")}
    return {"frames": len(values["voiced"]), **lists}


def band_exit(case: Case, values: Fields) -> Fields:
    return {name: written_f64(values[name], case[name]) for name in ("rows", "right")}


def trajectory_exit(case: Case, values: Fields) -> Fields:
    frames = sum(case["durations"])
    return {
        "out": written_f64(values["out"], case["out"]),
        "work": written_f64([0.0] * (WORK_FLOATS * frames), case["work"]),
        "marks": written_u32([0] * (WORK_MARKS * frames), case["marks"]),
        "high": values["high"],
        "low": values["low"],
    }


def runs_exit(case: Case, values: Fields) -> Fields:
    return {"runs": written_u32(values["runs"], case["runs"]), "count": values["count"]}


def run_exit(case: Case, values: Fields) -> Fields:
    """The run's own frames decide, not the utterance's."""
    n = values["frames"]
    return {
        "out": written_f64(values["out"], case["out"]),
        "work": written_f64([0.0] * (n * WORK_FLOATS), case["work"]),
        "marks": written_u32([0] * (n * WORK_MARKS), case["marks"]),
        "frames": n,
    }


def separate(values: Fields) -> Iterator[Fields]:
    """Each job's values, of a link's."""
    first = 0
    for states, frames, changes in zip(values["states"], values["frames"], values["changes"]):
        durations = values["durations"][first : first + states]
        first += states
        yield {"states": states, "frames": frames, "changes": changes, "durations": durations}


def link_exit(case: Case, values: Fields) -> Fields:
    """An end leaves what the call of its job file does."""
    followed, accepted = links.followed(case), separate(values)
    ends = [at_exit(end.job, end.refusal, next(accepted) if end.refusal == 0 else {}) for end in followed.ends]
    return {
        "refusals": followed.refusals,
        **{name: [end[name] for end in ends] for name in ("states", "frames", "changes")},
        "places": [end["place"] for end in ends],
        **{name: [number for end in ends for number in end[name]] for name in ("out", "work")},
        "memory": followed.memory,
    }


EXITS = {
    "fit": duration_exit,
    "speed": duration_exit,
    "align": duration_exit,
    "mask": mask_exit,
    "band": band_exit,
    "trajectory": trajectory_exit,
    "place": lambda case, values: values,
    "excerpt": lambda case, values: values,
    "job": duration_exit,
    "old_number": lambda case, values: values,
    "chapter": duration_exit,
    "runs": runs_exit,
    "run": run_exit,
}


def at_exit(case: Case, refusal: int, values: Fields) -> Fields:
    """All that a C call leaves, from its refusal number or its values."""
    if case.kind == "link":
        return link_exit(case, values)
    if case.kind in ("store", "settings_file", "words", "timing_file", "houses"):
        return values
    fields = untouched(case)
    if refusal == 0:
        fields |= EXITS[case.kind](case, values)
    elif refusal in ZEROING_REFUSALS:
        fields["work"] = written_u32([0] * state_count(case), case["work"])
    elif refusal in jobs.DAMAGES:
        fields["place"] = jobs.damage(case["bytes"]).place
    return fields | {"refusal": refusal}
