"""A second reading: the rules (docs/RULES.md) as a plain program, whole numbers and IEEE doubles only.

`answer` gives what the rules say of a case: its refusal number, and the values if there is none.
`at_exit` adds what they say of everything lent.
"""

from ..formats import Case, Fields
from . import alone, durations, exits, houses, ieee, jobs, links, pairs, places, refusals, runs, settings, trajectory, words
from .durations import Refused

at_exit = exits.at_exit

ANSWERS = {
    "float": pairs.float_operation,
    "pair": pairs.pair_operation,
    "record": pairs.record_operation,
    "fit": durations.fit_values,
    "speed": durations.speed_values,
    "align": durations.align_values,
    "mask": trajectory.mask_values,
    "band": trajectory.band_values,
    "trajectory": trajectory.trajectory_values,
    "place": places.place_values,
    "excerpt": places.excerpt_values,
    "job": jobs.job_values,
    "link": links.link_values,
    "old_number": jobs.old_number_values,
    "store": settings.store_values,
    "settings_file": settings.store_values,
    "words": words.words_values,
    "timing_file": words.timing_values,
    "chapter": durations.align_values,
    "runs": runs.runs_values,
    "run": alone.run_values,
    "houses": houses.houses_values,
}


def answer(case: Case) -> tuple[int, Fields]:
    """The refusal number and no values, or 0 and the values."""
    number = refusals.before_work(case)
    if number:
        return number, {}
    try:
        return 0, ieee.one_nan(ANSWERS[case.kind](case))
    except Refused as refused:
        return refused.number, {}
