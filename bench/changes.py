"""Small changes of real logs, of which the result that should be reported is known.

A change takes a group: the results of one log with the same tool, rule, place and message, if they are two or more and
each has a line and a snippet. It adds a result (`one more`), or removes one and adds another (`one for another`). The
other lines stay, or the lines below the added result move. Fingerprints are left out: nobody knows those of a line that
doesn't exist.
"""

import json
from dataclasses import dataclass

REDACTED = "REDACTED"
MOVES = "the other lines stay", "the lines below move"
KINDS = tuple((what, moves) for what in ("one more", "one for another") for moves in MOVES)
# Which snippets the results of the changed logs have: none, all the same, or their own.
SNIPPETS = "no", "equal", "own"
# A result that is added before the first or after the last of a group is at most so many lines away.
NEAR = 20


@dataclass
class Spot:
    """A result of a group: its record, the line where it begins, its other numbers, and its snippet."""

    record: object
    line: int
    numbers: tuple
    snippet: str


@dataclass
class Change:
    """A group before and after a change, and the position of the added result."""

    older: list
    newer: list
    added: int


def groups_of(records):
    """The groups of a log, each in the order of its lines."""
    found = {}
    for it in records:
        found.setdefault((it.tool, it.rule, it.place, it.message), []).append(it)
    groups = [it for it in found.values() if len(it) > 1 and all(one.region and one.snippet for one in it)]
    spots = lambda group: [Spot(it, it.region[0], it.region[1:], it.snippet) for it in group]
    return [sorted(spots(it), key=lambda spot: spot.line) for it in groups]


def moved(spot, by):
    """A result, moved down by a number of lines."""
    start_column, last, end_column = spot.numbers
    numbers = (start_column, None if last is None else last + by, end_column)
    return Spot(spot.record, spot.line + by, numbers, spot.snippet)


def line_for(spots, stays, dice):
    """A random line for one more result: before the first, after the last, or between two neighbours. Returns the line
    and a neighbour. If the other lines stay, none of them is on that line."""
    while True:
        at = dice.randrange(len(spots) + 1)
        least = spots[at - 1].line + 1 if at else max(1, spots[0].line - NEAR)
        most = spots[at].line - stays if at < len(spots) else spots[-1].line + NEAR
        if least <= most:
            return dice.randint(least, most), spots[max(at - 1, 0)]


def changed(group, kind, number, dice):
    """A change of one of the four kinds, at a random place."""
    what, moves = kind
    stays = moves == MOVES[0]
    newer = list(group)
    if what == "one for another":
        newer.pop(dice.randrange(len(newer)))
    line, near = line_for(newer, stays, dice)
    if not stays:
        by = dice.randint(1, 5)
        newer = [moved(it, by) if it.line >= line else it for it in newer]
    text = Spot(near.record, near.line, near.numbers, f"added({number});")
    added = moved(text, line - near.line)
    newer = sorted([*newer, added], key=lambda spot: spot.line)
    return Change(group, newer, next(i for i, it in enumerate(newer) if it is added))


def result(spot, snippets):
    """A result as a log has it."""
    names = "startColumn", "endLine", "endColumn"
    region = {name: it for name, it in zip(names, spot.numbers) if it is not None}
    region["startLine"] = spot.line
    if snippets != "no":
        region["snippet"] = {"text": REDACTED if snippets == "equal" else spot.snippet}
    it = spot.record
    place = {name: part for name, part in zip(("uri", "uriBaseId"), it.place) if part is not None}
    text, name, arguments = it.message
    message = {"text": text, "id": name, "arguments": list(arguments)}
    physical = {"artifactLocation": place, "region": region}
    own = {"level": it.level} if it.kind == "fail" else {}
    shown = {"kind": it.kind, "ruleId": it.rule, "message": message, **own}
    return {**shown, "locations": [{"physicalLocation": physical}]}


def log(changes, side, snippets):
    """A log with one run for each change. Each run has its own tool, so the changes don't meet."""
    runs = []
    for number, change in enumerate(changes):
        spots = getattr(change, side)
        tool = {"driver": {"name": f"{spots[0].record.tool} {number}"}}
        runs.append({"tool": tool, "results": [result(it, snippets) for it in spots]})
    return json.dumps({"version": "2.1.0", "runs": runs})


def named(changes, states):
    """In how many changes only the added result is new or updated. `states` are those of all current results."""
    states, right = iter(states), 0
    for change in changes:
        found = [next(states) for _ in change.newer]
        right += [i for i, it in enumerate(found) if it in ("new", "updated")] == [change.added]
    return right
