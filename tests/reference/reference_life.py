"""What a merge of the reference merger writes for later merges: the new suppression file, the lines of unused
entries, and the known log. It follows the rules sentence by sentence and shares no code with the program."""

import json
from dataclasses import replace

from reference_entries import read_rules
from reference_json import compact, quoted, read_json, stripped
from reference_matching import fields, telling
from reference_reports import Found, Policy, Reports, reported, shown

MOST_ENTRIES = 10_000
MOST_BYTES = 67_108_864


class PastLimit(Exception):
    """A new file isn't made: the place that the error line names, and the cause. It is past a limit, or a place or a rule
    names no hit."""

    def __init__(self, place, cause):
        super().__init__(f"{place}: {cause}")
        self.place, self.cause = place, cause


# ---- What is known of the tools


def tool_of(run):
    return run["tool"]["driver"]["name"]


def failed(run):
    """Returns whether a run's analysis failed: an invocation says so, or the run has no results."""
    invocations = run.get("invocations") or []
    says_so = any(it.get("executionSuccessful") is False for it in invocations)
    return says_so or run.get("results") is None


def heard(merge, tool):
    """Returns whether some input run has this tool and none with it failed; without a tool, whether there are
    input runs and none failed."""
    runs = [run for run in merge.inputs if tool is None or tool_of(run) == tool]
    return bool(runs) and not any(map(failed, runs))


# ---- Reports

KINDS = ("text", "github", "markdown", "gitlab", "junit", "azure")


def reports(merge, given, roots):
    """The reports of a merge but the page: for each its place, its file and its text. Copies aren't reported."""
    log = json.loads(merge.text())
    for run, result in reversed(log["properties"]["gate"].get("copies", [])):
        del log["runs"][run]["results"][result]
    policy = merge.policy
    policy = Policy(policy.fail_on, policy.max, policy.states, tuple(roots), given.get("show", "all"))
    standings = [merge.standing(it) for it in merge.merged()] if merge.conditions else None
    made = Reports(log, policy, merge.change, standings)
    return [(f"{it} report", given[it], getattr(made, it)().decode()) for it in KINDS if it in given]


# ---- JSON for people


def pretty(value, indent=""):
    """The value as serde_json prints it for people: two spaces for each level, members in the order of names."""
    inner = indent + "  "
    if isinstance(value, list) and value:
        items = [inner + pretty(item, inner) for item in value]
        return "[\n" + ",\n".join(items) + f"\n{indent}]"
    if isinstance(value, dict) and value:
        names = sorted(value, key=lambda name: name.encode())
        items = [f"{inner}{quoted(name)}: {pretty(value[name], inner)}" for name in names]
        return "{\n" + ",\n".join(items) + f"\n{indent}" + "}"
    return compact(value)


def hyphenated(guid):
    digits = f"{guid:032x}"
    return "-".join(digits[a:b] for a, b in ((0, 8), (8, 12), (12, 16), (16, 20), (20, 32)))


def there(members):
    """The members that have a value."""
    return {name: value for name, value in members.items() if value is not None}


# ---- The new suppression file


def conditions(record, version):
    """What the entry that accepts this record requires of a result, besides its snippet."""
    text, identity, arguments = record.message
    uri = record.place[0]
    full, partial = telling(record.full, version), telling(record.partial, version)
    if record.guid is not None:
        return {"guid": hyphenated(record.guid)}
    if full:
        return {"fingerprints": full, "uri": uri}
    if partial:
        return {"partialFingerprints": partial, "uri": uri}
    words = list(arguments) or None
    return {"uri": uri, "message": text, "messageId": identity, "messageArguments": words}


def entry_for(record, version, reason=None, until=None):
    own = {"tool": record.tool, "ruleId": record.rule, "justification": reason, "expires": until}
    snippet = record.snippet if version == 3 else None
    return there({**own, **conditions(record, version), "snippet": snippet})


class Choice:
    """The places and the rules that the arguments name: only hits at one of these places and of one of these rules are
    accepted."""

    def __init__(self, places=(), rules=(), roots=()):
        self.places, self.rules, self.policy = list(places), list(rules), Policy(root=tuple(roots))

    def names(self, hit):
        """The places by which a hit may be named, and its rule."""
        found = reported(Found(hit.run, hit.annotated()), self.policy)
        without_column = replace(found, column=None)
        without_line = replace(without_column, line=None)
        return {it.place() for it in (found, without_column, without_line)}, found.rule

    def chosen(self, hits):
        """The chosen hits. Each place and each rule must name one of them."""
        if not self.places and not self.rules:
            return hits
        named = [(hit, *self.names(hit)) for hit in hits]
        chosen = [
            (hit, places, rule)
            for hit, places, rule in named
            if (not self.places or places & set(self.places)) and (not self.rules or rule in self.rules)
        ]
        for number, place in enumerate(self.places):
            if not any(place in places for _, places, _ in chosen):
                raise PastLimit(f"--at {number}", "NoHit")
        for number, rule in enumerate(self.rules):
            if not any(rule == its for _, _, its in chosen):
                raise PastLimit(f"--rule {number}", "NoHit")
        return [hit for hit, _, _ in chosen]


def able(hits):
    """The hits that an entry can accept."""
    return [it for it in hits if it.state != "absent" and not it.statuses]


class Renewed:
    """The new suppression file of a merge, with its numbers."""

    def __init__(self, merge, accept=False, prune=False, reason=None, until=None, choice=None):
        goes = [prune and self.goes(merge, number) for number in range(len(merge.entries))]
        kept = [it for it, is_gone in zip(merge.file["suppressions"], goes) if not is_gone]
        hits = [it for it in merge.merged() if accept and merge.is_hit(it)]
        chosen = able(choice.chosen(hits) if choice else hits)
        added = []
        seen = set()
        for finding in chosen:
            entry = entry_for(finding.record, merge.checks.version, reason, until)
            if compact(entry) not in seen:
                seen.add(compact(entry))
                added.append(entry)
        self.accepted, self.pruned, self.alike = len(chosen), sum(goes), None
        self.entries = len(kept) + len(added)
        others = stripped(merge.file)
        is_fifth = merge.file.get("version") == 5 or any("snippet" in entry for entry in added)
        self.text = pretty({**others, "suppressions": kept + added, "version": 5 if is_fifth else 4}) + "\n"
        if self.entries > MOST_ENTRIES:
            raise PastLimit("suppressions", "TooMany")
        if len(self.text.encode()) > MOST_BYTES:
            raise PastLimit("suppressions", "TooLong")
        if choice:
            made = read_rules(self.text.encode(), merge.today)[len(kept) :]
            named = {id(it) for it in chosen}
            others = [it for it in able(hits) if id(it) not in named]
            self.alike = sum(any(entry.is_met(it.record) for entry in made) for it in others)
        self.stay = len(hits) - self.accepted - (self.alike or 0)

    def goes(self, merge, number):
        entry = merge.entries[number]
        return entry.is_expired or number not in merge.used and heard(merge, entry.tool)

    def line(self):
        alike = "" if self.alike is None else f"{self.alike} alike, "
        numbers = f"{self.accepted} accepted, {alike}{self.stay} stay, {self.pruned} pruned"
        return f"sarif_gate: {numbers}, {self.entries} entries\n"


def unused(merge):
    """A line for each entry that matches no current result."""
    lines = []
    for number, entry in enumerate(merge.entries):
        if number not in merge.used:
            why = "expired" if entry.is_expired else "unmatched"
            value = stripped(merge.file["suppressions"][number])
            lines.append(f"entry {number}: {why}: {shown(compact(value))}\n")
    return "".join(lines)


def happened(merge):
    """Lines on runs without results, on unused entries and on the expired ones of these, each if there are any."""
    expired = sum(it.is_expired for number, it in enumerate(merge.entries) if number not in merge.used)
    one_run = "run without results: nothing is known of what it looked for."
    more_runs = "runs without results: nothing is known of what they looked for."
    said = (
        (merge.without, one_run, more_runs),
        (merge.unused, "suppression entry matches nothing.", "suppression entries match nothing."),
        (expired, "suppression entry has expired.", "suppression entries have expired."),
    )
    return [f"sarif_gate: {n} {one if n == 1 else more}\n" for n, one, more in said if n]


# ---- What is known


def left_out(merge, finding, adopt):
    """Returns whether a current result isn't in the known log."""
    matched = [merge.entries[number] for number in finding.matched]
    lasting = [it.status for it in matched if it.expires is None]
    lasting = [*finding.record.held, *lasting]
    is_lasting = bool(lasting) and all(it == "accepted" for it in lasting)
    if finding.is_suppressed() and not is_lasting:
        return True
    stops = merge.would_be_hit(finding) or finding.is_suppressed()
    return not adopt and (finding.state == "new" or not finding.is_sure) and stops


def known_result(record, artifacts, has_regions):
    """A record as a result. A base without a URI is added to `artifacts`."""
    uri, base = record.place
    place = there({"uri": uri, "uriBaseId": base}) if uri is not None else None
    if uri is None and base is not None:
        place = {"index": len(artifacts)}
        artifacts.append({"location": {"uriBaseId": base}})
    text, identity, arguments = record.message
    is_failure = record.kind == "fail"
    return there(
        {
            "kind": None if is_failure else record.kind,
            "level": record.level if is_failure else None,
            "ruleId": record.rule or None,
            "message": there({"text": text, "id": identity, "arguments": list(arguments) or None}),
            "locations": place and [{"physicalLocation": there({"artifactLocation": place, "region": region_of(record) if has_regions else None})}],
            "correlationGuid": None if record.guid is None else hyphenated(record.guid),
            "fingerprints": record.full or None,
            "partialFingerprints": record.partial or None,
            "suppressions": [{"kind": "external", "status": it} for it in record.held] or None,
        }
    )


def region_of(record):
    """The region of a record with its snippet, or None where it has neither."""
    names = ("startLine", "startColumn", "endLine", "endColumn")
    found = there(dict(zip(names, record.region or [])))
    snippet = {} if record.snippet is None else {"snippet": {"text": record.snippet}}
    return {**found, **snippet} or None


def known_run(tool, records, has_regions):
    artifacts = []
    results = [known_result(record, artifacts, has_regions) for record in records]
    run = {"artifacts": artifacts or None, "results": results, "tool": {"driver": {"name": tool}}}
    return there(run)


class Known:
    """The known log of a merge, with its numbers."""

    def __init__(self, merge, adopt=False):
        gone = {id(it) for it in merge.current if left_out(merge, it, adopt)}
        stay = [it for it in merge.current if id(it) not in gone]
        kept = [it for it in merge.absent if not heard(merge, tool_of(it.run))]
        if merge.checks.once:
            alike = {fields(it.record) for it in stay} - {None}
            kept = [it for it in kept if fields(it.record) not in alike]
        tools = dict.fromkeys(map(tool_of, [*merge.before, *merge.inputs]))
        runs = []
        has_regions = merge.checks.version == 3 or merge.checks.once
        for tool in tools:
            sides = [(merge.inputs, stay), (merge.before, kept)]
            for sources, findings in sides if merge.checks.version == 2 else sides[::-1]:
                for run in sources:
                    records = [it.record for it in findings if it.run is run]
                    if tool_of(run) == tool and records:
                        runs.append(known_run(tool, records, has_regions))
        self.known, self.left, self.kept = len(stay) + len(kept), len(gone), len(kept)
        self.text = pretty({"runs": runs, "version": "2.1.0"}) + "\n"
        if len(self.text.encode()) > MOST_BYTES:
            raise PastLimit("known log", "TooLong")

    def line(self):
        return f"sarif_gate: {self.known} known, {self.left} left out, {self.kept} kept\n"


def file_of(source):
    """The suppression file as a value; without one, an object without entries."""
    return {"suppressions": []} if source is None else read_json(source)
