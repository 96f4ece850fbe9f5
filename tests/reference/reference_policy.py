"""The policy of the second merger: which policy files are rejected, which results a condition checks, and which hits it
allows. It follows the rules sentence by sentence and shares no code with the program."""

import re

from reference_entries import Entry
from reference_json import Fault, read_json
from reference_members import LEVELS, STATES, is_whole

MOST_CONDITIONS, MOST_FILTERS = 100, 1_000
OF_FILE = ("$schema", "version", "conditions")
OF_CONDITION = ("name", "level", "states", "max", "ratchet", "only", "except", "minSecuritySeverity", "unrated", "diff")
OF_FILTER = ("tool", "ruleId", "uri", "uriPrefix", "guid", "fingerprints", "partialFingerprints")
OF_FILTER += ("message", "messageId", "messageArguments", "snippet")
NAME = re.compile(r"(?! )[A-Za-z0-9._ -]{1,50}(?<! )")
DECIMAL = re.compile(r"([0-9]+)(?:\.([0-9]+))?")
# What a result does to the gate: it is a hit of a condition that fails, it is a hit, or it is only reported.
STOPS, HIT, OTHER = "stops", "hit", "other"


class PolicyFault(Exception):
    """A policy file is rejected: the place that its line names, and the cause."""

    def __init__(self, cause, place="policy"):
        super().__init__(f"{place}: {cause}")
        self.place, self.cause = place, cause


# ---- Security severity


def digits(text):
    """The digits of a decimal before and after its dot, without those that change nothing; None for another string."""
    found = DECIMAL.fullmatch(text)
    return found and (found[1].lstrip("0"), (found[2] or "").rstrip("0"))


def is_at_least(one, other):
    """Compares two decimals by their digits: more digits before the dot are more, then the first that differ decide."""
    order = lambda it: (len(it[0]), it[0], it[1])
    return order(one) >= order(other)


def rating_of(result, rule):
    """The security severity of a result: its own, otherwise that of its rule, otherwise None."""
    for holder in (result, rule):
        properties = holder.get("properties") if isinstance(holder, dict) else None
        found = properties.get("security-severity") if isinstance(properties, dict) else None
        if found is not None:
            return found
    return None


# ---- Conditions


class Condition:
    """A condition of the gate. Without a policy the options are one, which has no name."""

    def __init__(self, name=None, level="error", states=("new", "updated"), most=0, diff=None):
        self.name, self.level, self.states, self.max, self.diff = name, level, states, most, diff
        self.ratchet, self.only, self.excepted = False, None, []
        self.least, self.counts_unrated = None, True

    def filters(self):
        return [*(self.only or []), *self.excepted]

    def checks(self, record):
        """Returns whether a filter of `only` matches, if there are some, and none of `except` does."""
        is_chosen = self.only is None or any(it.is_met(record) for it in self.only)
        return is_chosen and not any(it.is_met(record) for it in self.excepted)

    def is_rated(self, rating):
        """Returns whether a rating meets the minimum. One that is no decimal does."""
        if self.least is None:
            return True
        if rating is None:
            return self.counts_unrated
        found = digits(rating) if isinstance(rating, str) else None
        return found is None or is_at_least(found, self.least)

    def is_bad(self, record):
        """Returns whether the level and the rating are those of a hit."""
        return LEVELS.index(record.level) >= LEVELS.index(self.level) and self.is_rated(record.rating)

    def reports(self, finding):
        """Returns whether a finding is reported, if it is inside of the change."""
        return not finding.is_suppressed() and finding.state in self.states and self.checks(finding.record)

    def would_be_hit(self, finding):
        """Returns whether a finding is a hit, if it is inside of the change."""
        return self.reports(finding) and self.is_bad(finding.record)

    def lets_grow(self, finding):
        """Returns whether an absent finding is one that the limit grows by, if its tool was heard."""
        return not finding.is_suppressed() and self.checks(finding.record) and self.is_bad(finding.record)


class Decided:
    """What a condition decides about the findings of a merge."""

    def __init__(self, condition, merge):
        self.condition = condition
        would_be = [it for it in merge.merged() if condition.would_be_hit(it)]
        self.hits = [it for it in would_be if merge.is_inside(it, condition.diff)]
        self.outside = len(would_be) - len(self.hits)
        gone = [it for it in merge.absent if condition.ratchet and condition.lets_grow(it) and merge.is_fixed(it)]
        self.limit = condition.max + len(gone)
        self.fails = len(self.hits) > self.limit
        self.verdict = "fail" if self.fails else "pass"

    def object(self):
        outside = {} if self.condition.diff is None else {"outside": self.outside}
        numbers = {"hits": len(self.hits), "limit": self.limit, "name": self.condition.name}
        return {**numbers, **outside, "verdict": self.verdict}

    def line(self):
        outside = "" if self.condition.diff is None else f", outside {self.outside}"
        numbers = f"hits {len(self.hits)}, limit {self.limit}{outside}"
        return f"condition {self.condition.name}: {self.verdict}, {numbers}\n"


# ---- Reading a policy file


def read_policy(source, has_diff):
    """The conditions of a policy file."""
    try:
        file = read_json(source)
    except Fault as fault:
        raise PolicyFault(fault.cause) from None
    if not isinstance(file, dict) or not set(file) <= set(OF_FILE) or not isinstance(file.get("conditions"), list):
        raise PolicyFault("NotPolicy")
    if not is_whole(file.get("version")) or file["version"] != 1:
        raise PolicyFault("WrongVersion")
    if not file["conditions"]:
        raise PolicyFault("NoCondition")
    if len(file["conditions"]) > MOST_CONDITIONS:
        raise PolicyFault("TooMany")
    found = []
    for number, value in enumerate(file["conditions"]):
        found.append(Reading(f"policy, condition {number}", value).condition(found, has_diff))
    return found


class Reading:
    """Reads a condition at a place."""

    def __init__(self, place, value):
        self.place, self.value = place, value

    def require(self, is_right, cause="BadCondition"):
        if not is_right:
            raise PolicyFault(cause, self.place)

    def condition(self, earlier, has_diff):
        value = self.value
        self.require(isinstance(value, dict) and set(value) <= set(OF_CONDITION))
        name = value.get("name")
        self.require(isinstance(name, str) and NAME.fullmatch(name))
        one = Condition(name, self.one_of("level", LEVELS) or "error", self.states(), self.limit())
        one.diff = self.one_of("diff", ("lines", "files"))
        one.ratchet = self.flag("ratchet")
        one.least, one.counts_unrated = self.minimum()
        self.require(not ("absent" in one.states and (one.ratchet or one.diff)) and not (one.ratchet and one.diff))
        lists = [self.list(it) for it in ("only", "except")]
        one.only, one.excepted = [self.filters(*it) for it in zip(("only", "except"), lists)]
        one.excepted = one.excepted or []
        self.require(name not in [it.name for it in earlier], "SameName")
        self.require(one.diff is None or has_diff, "NeedsDiff")
        return one

    def one_of(self, name, texts):
        found = self.value.get(name)
        self.require(found is None or isinstance(found, str) and found in texts)
        return found

    def states(self):
        found = self.value.get("states")
        if found is None:
            return ("new", "updated")
        self.require(isinstance(found, list) and found and all(isinstance(it, str) for it in found))
        self.require(set(found) <= set(STATES) and len(set(found)) == len(found))
        return tuple(found)

    def limit(self):
        found = self.value.get("max")
        self.require(found is None or is_whole(found) and 0 <= found < 2**32)
        return found or 0

    def flag(self, name):
        found = self.value.get(name)
        self.require(found is None or isinstance(found, bool))
        return bool(found)

    def minimum(self):
        """The digits of the minimum, and whether a result without a rating meets it."""
        least, unrated = self.value.get("minSecuritySeverity"), self.one_of("unrated", ("count", "skip"))
        self.require(least is None or isinstance(least, str) and digits(least))
        self.require(least is not None or unrated is None)
        return least and digits(least), unrated != "skip"

    def list(self, name):
        found = self.value.get(name)
        self.require(found is None or isinstance(found, list) and 1 <= len(found) <= MOST_FILTERS)
        return found

    def filters(self, name, values):
        return values and [self.filter(f"{self.place}, {name} {number}", it) for number, it in enumerate(values)]

    def filter(self, place, value):
        """A filter is an entry of a suppression file that has conditions alone."""
        if not isinstance(value, dict) or not set(value) <= set(OF_FILTER):
            raise PolicyFault("BadFilter", place)
        try:
            return Entry(value, 5, None)
        except Fault as fault:
            raise PolicyFault({"BadEntry": "BadFilter", "EmptyMatch": "EmptyFilter"}[fault.cause], place) from None
