"""RULES, Places: the spool place and the excerpt of one state."""

from ..formats import Case, Fields


def place_values(case: Case) -> Fields:
    return {"place": (case["frame"] * case["v"] + case["component"]) * 8}


def excerpt_values(case: Case) -> Fields:
    state, v = case["state"], case["v"]
    before = sum(case["durations"][:state])
    return {"first": before * v, "count": case["durations"][state] * v}
