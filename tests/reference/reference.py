#!/usr/bin/env python3
"""A second merger of SARIF 2.1.0 logs, in plain Python, for tests/program/compare.

It follows the rules of reading, matching, suppressing, merging and counting sentence by sentence. It shares no
code with the program and is not written for speed, so that a mistake in either shows as a difference. It takes
the program's arguments and has the same output, lines and exit status.
"""

import os
import re
import sys

import reference_diff
from reference_arguments import NoArguments, Unread, replaced
from reference_change import Change
from reference_entries import read_rules
from reference_json import Fault, compact, read_json, stripped
from reference_life import Choice, Known, PastLimit, Renewed, failed, file_of, happened, heard, reports, tool_of, unused
from reference_matching import fields, has_evidence, partners, region_and_snippet, state
from reference_members import KINDS, LEVELS, STATES, STATUSES, guid, index, objects, of_kind, one_of, texts
from reference_policy import HIT, OTHER, STOPS, Condition, Decided, PolicyFault, rating_of, read_policy

MOST_LOGS = 1_000
MOST_RUNS = 10_000
MOST_RESULTS = 1_000_000
MOST_BYTES = 67_108_864


class Refused(Exception):
    """A merge is rejected: the place that its line names, and the cause."""

    def __init__(self, place, cause):
        super().__init__(f"{place}: {cause}" if place else cause)
        self.status = 3 if cause in ("ReadFailed", "WriteFailed") else 2


# ---- Reading a log


def read_log(source, allow_external=False):
    """The stripped runs of a log."""
    log = stripped(read_json(source))
    if not isinstance(log, dict) or not isinstance(log.get("runs", 0), (list, type(None))):
        raise Fault("NotLog")
    if log.get("version") != "2.1.0":
        raise Fault("WrongVersion")
    runs = log["runs"] or []
    if len(runs) > MOST_RUNS:
        raise Fault("TooMany")
    total = 0
    for number, run in enumerate(runs):
        try:
            check_form(run, allow_external)
        except Fault as fault:
            raise Fault(fault.cause, run=number) from None
        total += len(run.get("results") or [])
        if total > MOST_RESULTS:
            raise Fault("TooMany", run=number)
    return runs


# What is read of a run, of what an external property file may hold.
READ_PARTS = ("artifacts", "driver", "extensions", "invocations", "results")


def may_be_named(files, allow_external):
    """Returns whether a run may name these external property files."""
    if files is None or files == {}:
        return True
    if not allow_external or not isinstance(files, dict):
        return False
    return all(files.get(part) is None or files[part] == [] for part in READ_PARTS)


def check_form(run, allow_external):
    driver = run
    for name in ("tool", "driver"):
        driver = driver.get(name) if isinstance(driver, dict) else None
    if not isinstance(driver, dict) or not isinstance(driver.get("name"), str):
        raise Fault("BadRun")
    if not may_be_named(run.get("externalPropertyFileReferences"), allow_external):
        raise Fault("ExternalProperties")
    objects(run, "results", "BadRun")


# ---- Opening a run: its rules, artifacts and overrides


class Head:
    """The parts of a run that its results refer to."""

    def __init__(self, run):
        tool = run["tool"]
        self.name = tool["driver"]["name"]
        self.components = [tool["driver"], *objects(tool, "extensions", "BadRules")]
        for component in self.components:
            self.check_rules(component)
        self.artifacts = [self.artifact(it) for it in objects(run, "artifacts", "BadLocation")]
        invocations = objects(run, "invocations", "BadMember")
        lists = [objects(it, "ruleConfigurationOverrides", "BadMember") for it in invocations]
        self.overrides = [[self.override(it) for it in overrides] for overrides in lists]

    def check_rules(self, component):
        for rule in of_kind(component, "rules", list, "BadRules") or []:
            if not isinstance(rule, dict) or not isinstance(rule.get("id"), str):
                raise Fault("BadRules")
            default = of_kind(rule, "defaultConfiguration", dict, "BadRules") or {}
            one_of(default, "level", LEVELS, "BadLevel")

    def artifact(self, artifact):
        location = of_kind(artifact, "location", dict, "BadLocation") or {}
        return tuple(of_kind(location, name, str, "BadLocation") for name in ("uri", "uriBaseId"))

    def override(self, override):
        """The descriptor that an override specifies, or None, and its level."""
        reference = of_kind(override, "descriptor", dict, "BadMember") or {}
        identity = of_kind(reference, "id", str, "BadMember")
        component = of_kind(reference, "toolComponent", dict, "BadMember") or {}
        configuration = of_kind(override, "configuration", dict, "BadMember") or {}
        rule, extension = index(reference, "index"), index(component, "index")
        found = self.descriptor(extension, rule, identity)
        return found, one_of(configuration, "level", LEVELS, "BadLevel")

    def rules(self, component):
        return self.components[component].get("rules") or []

    def descriptor(self, extension, rule, identity):
        """A component and one of its rules, or None."""
        component = 0 if extension is None else extension + 1
        if component >= len(self.components):
            raise Fault("BadIndex")
        if rule is not None:
            if rule >= len(self.rules(component)):
                raise Fault("BadIndex")
            return component, rule
        for number, one in enumerate(self.rules(component)):
            if identity is not None and one["id"] == identity:
                return component, number
        return None

    def rule(self, descriptor):
        return self.rules(descriptor[0])[descriptor[1]]

    def level(self, kind, own, descriptor, invocation):
        """The effective level of a result."""
        if kind != "fail":
            return "none"
        if own is not None:
            return own
        if descriptor is None:
            return "warning"
        if invocation is not None:
            levels = [level for found, level in self.overrides[invocation] if found == descriptor]
            if levels and levels[0] is not None:
                return levels[0]
        default = self.rule(descriptor).get("defaultConfiguration") or {}
        return default.get("level") or "warning"


# ---- A result


class Record:
    """A result for matching, suppressing and counting."""

    def __init__(self, head, result, checks):
        self.tool = head.name
        if result.get("baselineState") == "absent":
            raise Fault("AbsentInput")
        self.kind = one_of(result, "kind", KINDS, "BadKind") or "fail"
        own = one_of(result, "level", LEVELS, "BadLevel")
        self.guid = guid(result, "correlationGuid", "BadGuid")
        self.full = checks.kept(texts(result, "fingerprints", "BadFingerprint"))
        self.partial = checks.kept(texts(result, "partialFingerprints", "BadFingerprint"))
        self.held = [self.status(it) for it in objects(result, "suppressions", "BadSuppression")]
        self.read_message(result)
        identity, references = self.references(result)
        rule, extension, invocation = self.indexes(result, *references)
        location, artifact = self.location(result)
        descriptor = head.descriptor(extension, rule, identity)
        if invocation is not None and invocation >= len(head.overrides):
            raise Fault("BadIndex")
        if identity is None:
            identity = head.rule(descriptor)["id"] if descriptor else ""
        self.rule = identity
        self.level = head.level(self.kind, own, descriptor, invocation)
        self.rating = rating_of(result, head.rule(descriptor) if descriptor else None)
        self.place = self.placed(head, location, artifact)
        self.region, self.snippet = region_and_snippet(result, self.place)

    def status(self, suppression):
        if one_of(suppression, "kind", ("inSource", "external"), "BadSuppression") is None:
            raise Fault("BadSuppression")
        return one_of(suppression, "status", STATUSES, "BadSuppression") or "accepted"

    def read_message(self, result):
        message = of_kind(result, "message", dict, "BadMember") or {}
        words = of_kind(message, "arguments", list, "BadMember") or []
        if not all(isinstance(word, str) for word in words):
            raise Fault("BadMember")
        named = [of_kind(message, name, str, "BadMember") for name in ("text", "id")]
        self.message = (*named, tuple(words))

    def references(self, result):
        """The result's own rule id, and the objects that hold its indexes."""
        identity = of_kind(result, "ruleId", str, "BadMember")
        rule = of_kind(result, "rule", dict, "BadMember") or {}
        other = of_kind(rule, "id", str, "BadMember")
        component = of_kind(rule, "toolComponent", dict, "BadMember") or {}
        provenance = of_kind(result, "provenance", dict, "BadMember") or {}
        return other if identity is None else identity, (rule, component, provenance)

    def indexes(self, result, rule, component, provenance):
        outer, inner = index(result, "ruleIndex"), index(rule, "index")
        extension = index(component, "index")
        invocation = index(provenance, "invocationIndex")
        return outer if inner is None else inner, extension, invocation

    def location(self, result):
        locations = of_kind(result, "locations", list, "BadLocation") or [{}]
        if not isinstance(locations[0], dict):
            raise Fault("BadLocation")
        physical = of_kind(locations[0], "physicalLocation", dict, "BadLocation") or {}
        artifact = of_kind(physical, "artifactLocation", dict, "BadLocation") or {}
        own = tuple(of_kind(artifact, name, str, "BadLocation") for name in ("uri", "uriBaseId"))
        return own, index(artifact, "index")

    def placed(self, head, own, artifact):
        if own[0] is not None:
            return own
        if artifact is None:
            return (None, None)
        if artifact >= len(head.artifacts):
            raise Fault("BadIndex")
        return head.artifacts[artifact]


# ---- The merge


class Policy:
    """The policy of the gate."""

    def __init__(self, fail_on="error", most=0, states=("new", "updated")):
        self.fail_on, self.max, self.states = fail_on, most, states


class Checks:
    """What is required of runs beyond the form of a log, and what is compared of their results."""

    def __init__(self, require_success=False, allow_external=False, version=2, ignored=(), once=False):
        self.require_success, self.allow_external, self.once = require_success, allow_external, once
        self.version, self.ignored = version, set(ignored)

    def kept(self, members):
        """The fingerprints whose names aren't ignored."""
        return {name: value for name, value in members.items() if name not in self.ignored}


class Finding:
    """A result with its place in the inputs, and with what the merge adds."""

    def __init__(self, run, value, record):
        self.run, self.value, self.record = run, value, record
        self.state, self.list, self.statuses = "absent", own_of(value), list(record.held)
        self.first, self.matched = self, []

    def suppress(self, entry):
        self.statuses.append(entry.status)
        if not any(same(it, entry.object()) for it in self.list):
            self.list.append(entry.object())

    def is_suppressed(self):
        return bool(self.statuses) and all(it == "accepted" for it in self.statuses)

    def annotated(self):
        marks = {"level": self.record.level, "baselineState": self.state, "suppressions": self.list}
        return {**self.value, **marks}


def findings_of(results):
    """The results that are no copies. Each copy gets its finding: the first result that is alike to it."""
    firsts = {}
    for result in results:
        if (alike := fields(result.record)) is not None:
            result.first = firsts.setdefault(alike, result)
    return [it for it in results if it.first is it]


def own_of(value):
    return list(value.get("suppressions") or [])


def same(one, other):
    """Returns whether two values are the same JSON value. Here true is not a number."""
    return type(one) is type(other) and compact(one) == compact(other)


class Diff:
    """The bytes of a diff, the scope of the change, and the roots of URIs."""

    def __init__(self, source, scope="lines", roots=()):
        self.source, self.scope, self.roots = source, scope, roots

    def read(self):
        try:
            return Change(self.source, self.scope, self.roots)
        except reference_diff.Fault as fault:
            where = "" if fault.line is None else f", line {fault.line}"
            raise Refused(f"diff{where}", fault.cause) from None


class Merge:
    """A merge of sources, which are byte strings. `conditions` is a policy file, which takes the place of `policy`."""

    def __init__(self, logs, baselines, suppress=None, policy=None, today=None, checks=None, diff=None, conditions=None):
        self.policy, self.checks, self.today = policy or Policy(), checks or Checks(), today
        check_number(logs, baselines)
        self.runs, self.results = 0, 0
        logs = [self.read(f"log {number}", source) for number, source in enumerate(logs)]
        baselines = [
            self.read(f"baseline {number}", source) for number, source in enumerate(baselines)
        ]
        self.entries = self.read_entries(suppress, today)
        self.file = file_of(suppress)
        self.conditions = None if conditions is None else self.read_policy(conditions, diff is not None)
        self.change = None if diff is None else diff.read()
        self.inputs = [run for log in logs for run in log]
        self.before = [run for log in baselines for run in log]
        self.every, self.every_before = self.findings(logs, "log", False), self.findings(baselines, "baseline", True)
        one = findings_of if self.checks.once else list
        self.current, self.baseline = one(self.every), one(self.every_before)
        self.decide()
        self.spread()
        self.count()

    def read(self, name, source):
        try:
            runs = read_log(source, self.checks.allow_external)
        except Fault as fault:
            raise Refused(
                name if fault.run is None else f"{name}, run {fault.run}", fault.cause
            ) from None
        self.runs += len(runs)
        self.results += sum(len(run.get("results") or []) for run in runs)
        if self.runs > MOST_RUNS or self.results > MOST_RESULTS:
            raise Refused(name, "TooMany")
        return runs

    def read_entries(self, source, today):
        try:
            return [] if source is None else read_rules(source, today)
        except Fault as fault:
            number = "" if fault.entry is None else f", entry {fault.entry}"
            raise Refused(f"suppressions{number}", fault.cause) from None

    def read_policy(self, source, has_diff):
        try:
            return read_policy(source, has_diff)
        except PolicyFault as fault:
            raise Refused(fault.place, fault.cause) from None

    def findings(self, logs, name, is_baseline):
        found = []
        for number, log in enumerate(logs):
            for count, run in enumerate(log):
                found += self.of_run(f"{name} {number}, run {count}", run, is_baseline)
        return found

    def of_run(self, place, run, is_baseline):
        found = []
        try:
            head = Head(run)
            if self.checks.require_success and not is_baseline and failed(run):
                raise Fault("NotSuccessful")
            for number, value in enumerate(run.get("results") or []):
                at = f"{place}, result {number}"
                if not is_baseline or value.get("baselineState") != "absent":
                    found.append(Finding(run, value, self.record(at, head, value)))
        except Fault as fault:
            raise Refused(place, fault.cause) from None
        return found

    def record(self, place, head, value):
        try:
            return Record(head, value, self.checks)
        except Fault as fault:
            raise Refused(place, fault.cause) from None

    def decide(self):
        """Computes states and suppressions, and the baseline results that no result matches."""
        before = [finding.record for finding in self.baseline]
        version = self.checks.version
        found = partners([finding.record for finding in self.current], before, version)
        self.used, met = set(), [0] * len(self.entries)
        for finding, partner in zip(self.current, found):
            other = None if partner is None else before[partner]
            finding.state = state(finding.record, other, version)
            finding.is_sure = other is None or version == 2 or has_evidence(finding.record, other)
            finding.matched = self.matching(finding.record, met)
            for number in finding.matched:
                self.used.add(number)
                finding.suppress(self.entries[number])
        self.unused = len(self.entries) - len(self.used)
        self.absent = [finding for j, finding in enumerate(self.baseline) if j not in found]

    def matching(self, record, met):
        """The numbers of the entries that match a finding. `met` has for each entry how many findings met it so far; one
        with `max` matches only the first of these."""
        found = []
        for number, entry in enumerate(self.entries):
            if entry.is_met(record):
                met[number] += 1
                found += [number] * (entry.max is None or met[number] <= entry.max)
        return found

    def spread(self):
        """Gives copies what their findings have."""
        for copy in self.every:
            if copy.first is not copy:
                copy.state = copy.first.state
                copy.matched = copy.first.matched
                for number in copy.matched:
                    copy.suppress(self.entries[number])
        left = {id(finding) for finding in self.absent}
        self.every_absent = [it for it in self.every_before if id(it.first) in left]

    def copies(self):
        """The run and the number of each copy in the merged log."""
        found = []
        for number, results in enumerate(self.results_of_runs()):
            found += [[number, at] for at, it in enumerate(results) if it.first is not it]
        return found

    def results_of_runs(self):
        """The results of each run of the merged log."""
        of = lambda run, results: [it for it in results if it.run is run]
        absent = [of(run, self.every_absent) for run in self.before]
        return [of(run, self.every) for run in self.inputs] + [it for it in absent if it]

    def count(self):
        self.counts = {state: {"active": [0] * 4, "suppressed": [0] * 4} for state in STATES}
        for finding in self.merged():
            side = "suppressed" if finding.is_suppressed() else "active"
            self.counts[finding.state][side][3 - LEVELS.index(finding.record.level)] += 1
        self.without = sum(run.get("results") is None for run in self.inputs)
        self.decided = [Decided(it, self) for it in self.conditions or [self.of_options()]]
        self.is_hit_of = {id(it) for decided in self.decided for it in decided.hits}
        self.stopping = {id(it) for decided in self.decided if decided.fails for it in decided.hits}
        self.hits = len(self.is_hit_of)
        self.outside = self.decided[0].outside
        self.verdict = "fail" if any(it.fails for it in self.decided) else "pass"

    def of_options(self):
        """The options as a condition."""
        scope = None if self.change is None else self.change.scope
        return Condition(None, self.policy.fail_on, self.policy.states, self.policy.max, scope)

    def is_hit(self, finding):
        return id(finding) in self.is_hit_of

    def would_be_hit(self, finding):
        """Returns whether a finding would be a hit if no condition looked at the change."""
        return any(it.condition.would_be_hit(finding) for it in self.decided)

    def standing(self, finding):
        """What a finding does to the gate; None if it isn't reported."""
        if self.is_hit(finding):
            return STOPS if id(finding) in self.stopping else HIT
        conditions = [it.condition for it in self.decided]
        is_reported = any(it.reports(finding) and self.is_inside(finding, it.diff) for it in conditions)
        return OTHER if is_reported else None

    def is_inside(self, finding, scope):
        """Returns whether a finding is inside of the change in this scope; without a scope all are."""
        return scope is None or self.change.is_inside(finding.run, finding.value, finding.state, scope)

    def is_fixed(self, finding):
        """Returns whether an absent finding went away: its tool was heard, and no entry of the suppression file has
        conditions that it meets."""
        is_accepted = any(it.has_met_conditions(finding.record) for it in self.entries)
        return heard(self, tool_of(finding.run)) and not is_accepted

    def unchecked(self):
        """The number of active current findings that no condition checks."""
        active = [it for it in self.current if not it.is_suppressed()]
        return sum(not any(one.condition.checks(it.record) for one in self.decided) for it in active)

    def unused_filters(self):
        """The number of filters that match no current finding."""
        filters = [it for one in self.decided for it in one.condition.filters()]
        return sum(not any(filter.is_met(it.record) for it in self.current) for filter in filters)

    def merged(self):
        """The findings of the merged log, in its order."""
        return [*self.current, *self.absent]

    def written(self, run, findings):
        kept = {name: it for name, it in run.items() if name not in ("baselineGuid", "results")}
        results = [finding.annotated() for finding in findings if finding.run is run]
        return kept if run.get("results") is None else {**kept, "results": results}

    def text(self):
        """The merged log."""
        runs = [self.written(run, self.every) for run in self.inputs]
        absent = {id(finding.run) for finding in self.every_absent}
        runs += [self.written(run, self.every_absent) for run in self.before if id(run) in absent]
        gate = {
            "counts": self.counts,
            "hits": self.hits,
            "runsWithoutResults": self.without,
            "unusedSuppressions": self.unused,
            "verdict": self.verdict,
            **self.of_policy(),
        }
        if self.checks.once:
            gate["copies"] = self.copies()
        if self.change is not None:
            scope = {} if self.conditions else {"scope": self.change.scope}
            gate["diff"] = {**self.changed(), **scope}
        return compact({"properties": {"gate": gate}, "runs": runs, "version": "2.1.0"})

    def of_policy(self):
        """The members of the gate object that the policy decides."""
        if self.conditions:
            objects = [it.object() for it in self.decided]
            return {"conditions": objects, "unchecked": self.unchecked(), "unusedFilters": self.unused_filters()}
        states = [state for state in STATES if state in self.policy.states]
        return {"failOn": self.policy.fail_on, "max": self.policy.max, "states": states}

    def changed(self):
        """The numbers of the change. With a policy each condition has its own number of findings outside."""
        outside = {} if self.conditions else {"outside": self.outside}
        return {"files": len(self.change.files), "lines": self.change.lines, **outside}

    def summary(self):
        lines = ["state           error    warning       note       none suppressed\n"]
        for state in ("new", "unchanged", "updated", "absent"):
            counts = self.counts[state]
            numbers = [*counts["active"], sum(counts["suppressed"])]
            lines.append(f"{state:<10}" + "".join(f"{number:>11}" for number in numbers) + "\n")
        if self.change is not None:
            lines.append("diff: " + ", ".join(f"{name} {n}" for name, n in self.changed().items()) + "\n")
        last = f"max {self.policy.max}"
        if self.conditions:
            lines += [it.line() for it in self.decided]
            last = f"conditions {len(self.decided)}, failed {sum(it.fails for it in self.decided)}"
        return "".join([*lines, f"gate: {self.verdict}, hits {self.hits}, {last}\n"])

    def status(self):
        return 0 if self.verdict == "pass" else 1


def check_number(logs, baselines):
    for name, sources in (("log", logs), ("baseline", baselines)):
        if len(sources) > MOST_LOGS:
            raise Refused(f"{name} {MOST_LOGS}", "TooMany")


# ---- The command line

USAGE = """Usage: sarif_gate [--baseline F]... [--suppress F] [--today N] [--workers N]
    [--fail-on L] [--states LIST] [--max N] [--suppress-out F] [--accept] [--prune]
    [--reason TEXT] [--until N] [--at PLACE]... [--rule ID]... [--root PREFIX]...
    [--show WHICH] [--unused F] [--known F] [--adopt] [--require-success]
    [--allow-external-properties] [--matching N] [--ignore-fingerprint NAME]... [--once]
    [--diff F] [--diff-scope SCOPE] [--policy F] [--explain] --out F LOG... [@FILE]...
"""


class Usage(Exception):
    """The arguments are invalid, or they request the help (status 0)."""

    def __init__(self, status):
        super().__init__("usage")
        self.status = status


RANGES = {"today": (10000101, 99991231), "workers": (1, 64), "max": (0, 2**32 - 1), "matching": (2, 3)}
VALUES = ("suppress", "out", "fail-on", "states", "suppress-out", "reason", "until", "unused", "known", "diff", "diff-scope")
VALUES += ("policy", "show")
CHOICES = {"fail-on": LEVELS, "diff-scope": ("lines", "files"), "show": ("hits", "all")}
FLAGS = ("accept", "prune", "adopt", "explain", "require-success", "allow-external-properties", "once")
# The page is not written here: tests/program/reports reads it.
REPORTS = ("text", "github", "markdown", "gitlab", "html", "junit", "azure")


class Request:
    """What the arguments request."""

    def __init__(self, words):
        self.logs, self.baselines, self.ignored, self.given = [], [], [], {}
        self.places, self.rules, self.roots = [], [], []
        words, plain = list(words), False
        while words:
            word = words.pop(0)
            if plain or not word.startswith("-") or word == "-":
                self.logs.append(word)
            elif word == "--":
                plain = True
            elif word in ("-h", "--help"):
                raise Usage(0)
            else:
                self.option(word, words)
        self.out = self.given.get("out")
        if not self.logs or self.out is None:
            raise Usage(2)
        self.suppress, self.today = self.given.get("suppress"), self.given.get("today")
        if not self.fits_together() or self.have_clash():
            raise Usage(2)
        states = self.given.get("states", ("new", "updated"))
        self.policy = Policy(self.given.get("fail-on", "error"), self.given.get("max", 0), states)
        flags = [name in self.given for name in ("require-success", "allow-external-properties")]
        self.checks = Checks(*flags, self.given.get("matching", 2), self.ignored, "once" in self.given)

    def option(self, word, words):
        name, equals, value = word.removeprefix("--").partition("=")
        if not word.startswith("--") or name in self.given:
            raise Usage(2)
        if name in FLAGS and not equals:
            self.given[name] = True
            return
        if not equals and (not words or words[0].startswith("-") and words[0] != "-"):
            raise Usage(2)
        value = value if equals else words.pop(0)
        several = {
            "baseline": self.baselines,
            "ignore-fingerprint": self.ignored,
            "at": self.places,
            "rule": self.rules,
            "root": self.roots,
        }
        if name in several:
            several[name].append(value)
        elif name not in (*VALUES, *RANGES, *REPORTS):
            raise Usage(2)
        else:
            self.given[name] = self.checked(name, value)

    def checked(self, name, value):
        if name in CHOICES and value not in CHOICES[name]:
            raise Usage(2)
        if name == "states":
            return listed(value)
        if name == "until":
            return day(value)
        if name not in RANGES:
            return value
        least, most = RANGES[name]
        if not re.fullmatch("[0-9]+", value) or not least <= int(value) <= most:
            raise Usage(2)
        return int(value)

    def fits_together(self):
        """Returns whether each option has those that it needs, and none that it rules out."""
        has = self.given.__contains__
        until = self.given.get("until")
        return (
            has("suppress-out") == (has("accept") or has("prune"))
            and (has("suppress") or not has("prune") and not has("unused"))
            and (has("accept") or not has("reason") and not has("until"))
            and (has("accept") or not self.places and not self.rules)
            and (until is None or self.today is not None and self.today <= until)
            and not (has("known") and has("accept"))
            and (has("known") or not has("adopt"))
            and (has("diff") or not has("diff-scope"))
            and not (has("policy") and any(map(has, ("states", "fail-on", "max", "diff-scope"))))
            and not (has("diff") and "absent" in self.given.get("states", ()))
            and not (self.given.get("diff") == "-" and "-" in self.logs)
        )

    def have_clash(self):
        """Returns whether two logs or two baselines have one name, or an output has a name that it may not have."""
        if len(set(self.logs)) < len(self.logs) or len(set(self.baselines)) < len(self.baselines):
            return True
        outputs = ("out", "suppress-out", "known", *REPORTS, "unused")
        names = [it for it in outputs if it in self.given]
        files = [self.given[it] for it in names]
        if len(set(files)) < len(files):
            return True
        return any(self.replaces(name, self.given[name]) for name in names)

    def replaces(self, name, file):
        if file == self.suppress and name != "suppress-out" or file == self.given.get("policy"):
            return True
        if file == "-":
            return False
        if file == self.given.get("diff"):
            return True
        is_only = name == "known" and len(self.baselines) == 1
        may_replace_baseline = name == "out" or is_only
        return file in self.logs or file in self.baselines and not may_replace_baseline


def day(text):
    """A day yyyymmdd of a month 1 to 12 and a day 1 to 31."""
    if not re.fullmatch("[0-9]{8}", text):
        raise Usage(2)
    number = int(text)
    if number < 10000101 or not 1 <= number // 100 % 100 <= 12 or not 1 <= number % 100 <= 31:
        raise Usage(2)
    return number


def listed(text):
    """The states of a list: each at most once, and at least one."""
    names = text.split(",")
    if not set(names) <= set(STATES) or len(set(names)) < len(names):
        raise Usage(2)
    return tuple(names)


def read_source(place, source):
    try:
        read = source.read(MOST_BYTES + 1)
    except OSError:
        raise Refused(place, "ReadFailed") from None
    if len(read) > MOST_BYTES:
        raise Refused(place, "TooLong")
    return read


def read_file(place, name, may_be_stream=False):
    if may_be_stream and name == "-":
        return read_source(place, sys.stdin.buffer)
    try:
        file = open(name, "rb")
    except OSError:
        raise Refused(place, "ReadFailed") from None
    with file:
        return read_source(place, file)


def asked(request):
    """The merge of the files that the arguments name."""
    check_number(request.logs, request.baselines)
    logs = [read_file(f"log {number}", name, True) for number, name in enumerate(request.logs)]
    baselines = [
        read_file(f"baseline {number}", name) for number, name in enumerate(request.baselines)
    ]
    suppress = None if request.suppress is None else read_file("suppressions", request.suppress)
    conditions = request.given.get("policy")
    conditions = None if conditions is None else read_file("policy", conditions)
    name, diff = request.given.get("diff"), None
    if name is not None:
        diff = Diff(read_file("diff", name, True), request.given.get("diff-scope", "lines"), request.roots)
    return Merge(logs, baselines, suppress, request.policy, request.today, request.checks, diff, conditions)


def write_file(name, text, place="output"):
    """Writes a file completely, or leaves the old file unchanged."""
    try:
        name = "/dev/stdout" if name == "-" else followed(name)
        if is_as_is(name):
            with open(name, "wb") as file:
                file.write(text.encode())
        else:
            replace_file(name, text.encode())
    except OSError:
        raise Refused(place, "WriteFailed") from None


def is_as_is(name):
    """Returns whether an output is written directly: if it is not a file, or in a folder of the system."""
    is_other = os.path.exists(name) and not os.path.isfile(name)
    return is_other or name.startswith(("/dev/", "/proc/"))


def followed(name):
    """The target of a name, after all links."""
    for _ in range(40):
        if is_as_is(name) or not os.path.islink(name):
            return name
        name = os.path.join(os.path.dirname(name), os.readlink(name))
    raise OSError("the links have no end")


def replace_file(name, text):
    """Writes a new file next to the old one, and gives it the old one's name and mode."""
    mode = None
    if os.path.isfile(name):
        os.close(os.open(name, os.O_WRONLY))
        mode = os.stat(name).st_mode & 0o777
    beside = os.path.join(os.path.dirname(name), f".reference-{os.getpid()}")
    try:
        with open(beside, "xb") as file:
            if mode is not None:
                os.fchmod(file.fileno(), mode)
            file.write(text)
        os.rename(beside, name)
    except OSError:
        if os.path.exists(beside):
            os.remove(beside)
        raise


def says(stream, text):
    """Returns whether a string can be written to a stream."""
    try:
        return os.write(stream, text.encode()) > 0
    except OSError:
        return False


class Outputs:
    """What a request writes besides the merged log and the summary."""

    def __init__(self, request, merge):
        given = request.given
        how = {it: given[it] for it in ("accept", "prune", "reason", "until") if it in given}
        if request.places or request.rules:
            how["choice"] = Choice(request.places, request.rules, request.roots)
        self.files, self.lines = [], []
        try:
            if "suppress-out" in given:
                self.add("new suppressions", given["suppress-out"], Renewed(merge, **how))
            if "known" in given:
                self.add("known log", given["known"], Known(merge, "adopt" in given))
        except PastLimit as past:
            raise Refused(past.place, past.cause) from None
        self.files += reports(merge, given, request.roots)
        if "unused" in given:
            self.files.append(("unused report", given["unused"], unused(merge)))
        if merge.checks.once:
            self.lines.append(f"sarif_gate: {len(merge.copies())} copies\n")
        if "explain" in given:
            self.lines += happened(merge)

    def add(self, place, name, made):
        self.files.append((place, name, made.text))
        self.lines.append(made.line())


def speaks_aside(request):
    """Returns whether the summary goes to standard error, as a file that is read again is on standard output."""
    return "-" in [request.given.get(it) for it in ("out", "suppress-out", "known")]


def main(words):
    out, say, files, lines = "/dev/stdout", 2, [], []
    try:
        if words := replaced(words):
            merge = asked(request := Request(words))
            out, say = request.out, 2 if speaks_aside(request) else 1
            outputs = Outputs(request, merge)
            files, lines = outputs.files, outputs.lines
        else:
            merge = Merge([read_source("log 0", sys.stdin.buffer)], [])
        write_file(out, merge.text())
        for place, name, text in files:
            write_file(name, text, place)
    except Usage as usage:
        says(2 if usage.status else 1, USAGE)
        return usage.status
    except NoArguments:
        says(2, USAGE)
        return 2
    except Unread as unread:
        says(2, f"sarif_gate: {unread}\n")
        return 3
    except Refused as refused:
        says(2, f"sarif_gate: {refused}\n")
        return refused.status
    for line in lines:
        says(2, line)
    return merge.status() if says(say, merge.summary()) else 3


if __name__ == "__main__":
    sys.exit(main(sys.argv[1:]))
