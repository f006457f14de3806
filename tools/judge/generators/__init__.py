"""Random cases around every limit of the rules. A case comes from its seed, kind and index alone."""

from collections.abc import Callable
from random import Random

from .. import damage
from ..formats import Case
from . import chapters, durations, houses, links, operations, runs, settings, shortest, spool, trajectories, words
from .common import with_odd_nan

GENERATORS: dict[str, Callable[[Random, bool], Case]] = {
    "float": operations.float_case,
    "pair": operations.pair_case,
    "record": operations.record_case,
    "fit": durations.fit_case,
    "speed": durations.speed_case,
    "align": durations.align_case,
    "mask": trajectories.mask_case,
    "band": trajectories.band_case,
    "trajectory": trajectories.trajectory_case,
    "place": spool.place_case,
    "excerpt": spool.excerpt_case,
    "job": spool.job_case,
    "link": links.a_link,
    "old_number": spool.old_number_case,
    "store": settings.store_case_of,
    "settings_file": settings.settings_file_case,
    "words": words.words_case,
    "timing_file": words.timing_case,
    "chapter": chapters.chapter_case,
    "runs": runs.runs_case,
    "run": runs.run_case,
    "houses": houses.houses_case,
}

# Fits with many steps to take and many ties.
GAPS: dict[str, Callable[[Random], Case]] = {
    "fit": durations.gap_fit,
    "speed": durations.gap_speed,
    "align": durations.gap_align,
}

DAMAGED_SHARE = 0.15
ODD_NAN_SHARE = 0.01


def make(seed: int, kind: str, index: int) -> Case:
    """Case `index` of a run: mostly well shaped, some damaged, few with another NaN."""
    rng = Random(f"{seed} {kind} {index}")
    case = shortest.varied(rng, GENERATORS[kind](rng, False))
    if rng.random() < DAMAGED_SHARE:
        case = damage.damaged(rng, case)
    if rng.random() < ODD_NAN_SHARE:
        case = with_odd_nan(rng, case)
    return case


def make_damaged(seed: int, kind: str, index: int) -> Case:
    """A damaged case; the bytes of a job, over a link too, and of a settings or timing file are, whatever else is."""
    rng = Random(f"{seed} {kind} {index}")
    case = shortest.varied(rng, GENERATORS[kind](rng, False))
    return damage.damaged(rng, damage.changed_bytes(rng, case))


def make_gap(seed: int, kind: str, index: int) -> Case:
    """A well-shaped fit with a large gap."""
    return GAPS[kind](Random(f"{seed} {kind} {index}"))


def make_small(seed: int, kind: str, index: int) -> Case:
    """A well-shaped case small enough to store; every shortest duration is 1, and a job of the first version."""
    return GENERATORS[kind](Random(f"{seed} {kind} {index}"), True)
