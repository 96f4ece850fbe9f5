"""Small random inputs of a merge: logs, baselines, suppression files, policies and diffs over a few strings, so that
they often match, collide and clash. If the chance `wrong` isn't 0, a member may have any type.
"""

import json

from drawn_diffs import Diffs
from drawn_policies import Policies

GUID = "0f14d0ab-9605-4a62-a9e4-5ed26688389b"
GUIDS = [GUID, GUID.upper(), GUID.replace("-", ""), f"{{{GUID}}}", f"URN:uuid:{GUID}", "7" * 32]
NO_GUIDS = [
    "",
    "x",
    GUID[1:],
    f"{{{GUID}",
    "{" + "7" * 32 + "}",
    f"uuid:{GUID}",
    "g" * 32,
    GUID + " ",
]
LEVELS = ["none", "note", "warning", "error"]
KINDS = ["pass", "open", "informational", "notApplicable", "review", "fail"]
STATUSES = ["accepted", "underReview", "rejected"]
RULES = ["R1", "R2", "R1", "", "R1/a"]
URIS = ["a.c", "gen/a.c", "gen/b.c", "", "é.c"]
# Other forms of URIs, for places that only a change reads.
OTHER_URIS = [*URIS, "b.c", "GEN/%61.c", "gen\\b.c", "../a.c", "file:///w/gen/a.c", "/gen/b.c", "x%20y/a.c#L3", "gen/"]
FILES = ["a.c", "gen/a.c", "gen/b.c", "é.c", "b.c"]
LINES = (("startLine", 0.9), ("startColumn", 0.2), ("endLine", 0.3), ("endColumn", 0.1))
NAMES = ["f/v1", "f/v2", "", "f", "é", "\U0001f600", "\uffff"]
TEXTS = ["", "a", "A", "é", "\U0001f600", "\uffff", "\0\x1f\x7f", '"\\/', "\b\f\n\r\t"]


def choice(rng):
    """Options of a merge that accepts only some of the hits of such inputs."""
    places = rng.sample(["a.c", "gen/a.c", "b.c", "é.c", "-"], rng.choice([0, 1, 1, 2]))
    words = [f"--at={it}{rng.choice(['', '', ':1', ':2'])}" for it in places]
    words += [f"--rule={it}" for it in rng.sample(["R1", "R2", "", "R1/a"], rng.choice([0, 1, 1, 2]))]
    return words + ["--root", "gen/"] * (rng.random() < 0.3)


class Raw:
    """A value that is written as this string."""

    def __init__(self, text):
        self.text = text


FRACTIONS = [Raw(it) for it in ("1.5", "1.0", "1e2", "-0", "-0.0", "18446744073709551616", "1E-9")]
RATINGS = ["7.0", "6.9", "9.8", "0.0", "10", "07.00", "high", "7.", 9, True, None, Raw("9.8")]
WHOLE = [0, 1, -1, -2, 4294967295, 4294967296, 2**64 - 1, -(2**63)]
OTHERS = [True, False, None, "", "x", [], {}, [1], [None], [{}], {"a": 1}, {"a": None}, "absent"]
LONE = [
    Raw(it) for it in ("1e999", "-", "01", "1.", "nul", '"\\ud800"', '"\\x"', '"\t"', "[1,]", "+1")
]


class Inputs:
    """Makes inputs with the generator `rng`. `wrong` is the chance of a wrong member. `has_rules` allows
    rules, invocations, artifacts and references to them."""

    def __init__(self, rng, wrong=0.0, has_rules=True):
        self.rng, self.wrong, self.has_rules = rng, wrong, has_rules

    def chance(self, part):
        return self.rng.random() < part

    def any(self, values):
        return self.rng.choice(values)

    def count(self, *weights):
        """A number from 0 with these weights."""
        return self.rng.choices(range(len(weights)), weights)[0]

    def junk(self):
        if self.chance(0.02):
            return self.any(LONE)
        nested = [[self.any(FRACTIONS)], [[self.any(FRACTIONS)], 1], {"a": self.any(FRACTIONS)}]
        return self.any([self.any(FRACTIONS), self.any(WHOLE), self.any(OTHERS), self.any(nested)])

    def value(self, right):
        return self.junk() if self.chance(self.wrong) else right()

    def members(self, *given):
        """An object with some of these members, each a name, a chance and a maker. It is null at times."""
        found = {}
        for name, part, right in given:
            if self.chance(part):
                is_null = part < 0.99 and self.chance(0.03)
                found[name] = None if is_null else self.value(right)
            elif self.chance(self.wrong / 4):
                found[name] = self.junk()
        return found

    def anything(self, depth):
        """A value that a merge copies, except for its fractions."""
        kind = self.count(3, 3, 3, 2, depth, depth)
        if kind < 4:
            return self.any([WHOLE, FRACTIONS, TEXTS, [True, False, None]][kind])
        items = [self.anything(depth - 1) for _ in range(self.count(1, 3, 3, 1))]
        return items if kind == 4 else dict(zip(self.rng.sample(TEXTS, len(items)), items))

    def one(self, values):
        return lambda: self.any(values)

    def of(self, *given):
        return lambda: self.members(*given)

    def list(self, weights, right):
        return lambda: [self.value(right) for _ in range(self.count(*weights))]

    # ---- a log

    def log(self, is_baseline=False):
        version = (
            "2.1.0" if not self.chance(self.wrong / 2) else self.any(["2.0.0", "2.1.0 ", None, 2])
        )
        runs = self.value(self.list([2, 10, 10, 4, 1], lambda: self.run(is_baseline)))
        return {"version": version, "runs": runs, "$schema": "s", "rank": self.any(FRACTIONS)}

    def run(self, is_baseline):
        """A run. Its tables come first, so that most references to them are valid."""
        self.rules_of, self.artifacts, self.invocations = [0], 0, 0
        results = self.list([1, 4, 6, 4, 2, 1], lambda: self.result(is_baseline))
        tables = [
            ("artifacts", 0.5, self.artifact_list),
            ("invocations", 0.5, self.invocation_list),
        ]
        return self.members(
            ("tool", 1 - self.wrong / 8, self.tool),
            *tables * self.has_rules,
            ("baselineGuid", 0.2, self.one(GUIDS)),
            ("externalPropertyFileReferences", 0.05 * self.has_rules, self.named_files),
            ("columnKind", 0.2, lambda: self.anything(2)),
            ("results", 0.93, results),
        )

    def named_files(self):
        """External property files: none, or ones that hold nothing that is read, or ones that do."""
        if self.chance(0.5):
            return {}
        parts = ["taxonomies", "conversion", "artifacts", "driver", "extensions", "invocations", "results"]
        given = [(part, 0.5 if part in parts[:2] else 0.1, self.one([[], [{}], {}])) for part in parts]
        return self.members(*given)

    def tool(self):
        tool = self.members(
            ("driver", 1 - self.wrong / 8, lambda: self.component(1 - self.wrong / 8))
        )
        if self.has_rules and self.chance(0.4):
            tool["extensions"] = self.value(self.list([1, 3, 1], lambda: self.component(0.5)))
        parts = [tool.get("driver"), *self.listed(tool.get("extensions"))]
        rules = [self.listed(it.get("rules")) if isinstance(it, dict) else [] for it in parts]
        self.rules_of = [len(it) for it in rules]
        return tool

    def component(self, named):
        rules = [("rules", 0.7, self.list([1, 2, 3, 2], self.rule))] * self.has_rules
        return self.members(("name", named, self.one(["lint", "lint", "flint"])), *rules)

    def listed(self, value):
        return value if isinstance(value, list) else []

    def rule(self):
        configuration = self.of(
            ("level", 0.8, self.one(LEVELS)), ("rank", 0.2, self.one(FRACTIONS))
        )
        return self.members(
            ("id", 1 - self.wrong / 8, self.one(RULES)),
            ("defaultConfiguration", 0.6, configuration),
            ("properties", 0.3, self.properties),
        )

    def artifact_list(self):
        found = self.list([1, 2, 2], self.of(("location", 0.9, self.location)))()
        self.artifacts = len(found)
        return found

    def invocation_list(self):
        found = self.list([1, 3, 2], self.invocation)()
        self.invocations = len(found)
        return found

    def location(self):
        base = ("uriBaseId", 0.3, self.one(["S", ""]))
        return self.members(("uri", 0.8, self.one(URIS)), base, ("index", 0.2, self.one(WHOLE)))

    def within(self, size):
        """An index into a table of this size, or -1."""
        if self.chance(self.wrong):
            return self.any([size, size + 1, -2])
        return self.rng.randrange(size) if size and self.chance(0.9) else self.any([-1, Raw("0.0")])

    def reference(self):
        """A reference to a rule of the driver or of an extension: an index or an id."""
        component = self.rng.randrange(len(self.rules_of))
        holder = {"index": component - 1} if component else {}
        return self.members(
            ("index", 0.5, lambda: self.within(self.rules_of[component])),
            ("id", 0.5, self.one(RULES)),
            *[("toolComponent", 1, lambda: holder)] * bool(component),
        )

    def referring(self):
        """The members of a result that refer to its rule."""
        rule = self.members(("rule", 0.3, self.reference))
        found = rule.get("rule") if isinstance(rule.get("rule"), dict) else {}
        holder = found.get("toolComponent")
        number = holder.get("index", -1) if isinstance(holder, dict) else -1
        is_there = isinstance(number, int) and -1 <= number < len(self.rules_of) - 1
        size = self.rules_of[number + 1] if is_there else 0
        return {**rule, **self.members(("ruleIndex", 0.2, lambda: self.within(size)))}

    def invocation(self):
        override = self.of(
            ("descriptor", 0.9, self.reference),
            ("configuration", 0.9, self.of(("level", 0.8, self.one(LEVELS)))),
        )
        return self.members(("ruleConfigurationOverrides", 0.8, self.list([1, 3, 3], override)))

    # ---- a result

    def result(self, is_baseline):
        states = ["new", "unchanged", 1, None]
        states += ["absent"] * 3 * (is_baseline or self.chance(self.wrong))
        index = ("invocationIndex", 0.8, lambda: self.within(self.invocations))
        found = self.members(
            ("message", 0.95, self.message),
            ("ruleId", 0.7, self.one(RULES)),
            ("kind", 0.2, self.one(KINDS)),
            ("level", 0.3, self.one(LEVELS)),
            ("baselineState", 0.2, self.one(states)),
            ("correlationGuid", 0.15, self.one(NO_GUIDS if self.chance(3 * self.wrong) else GUIDS)),
            ("fingerprints", 0.25, self.pairs),
            ("partialFingerprints", 0.35, self.pairs),
            ("suppressions", 0.3, self.list([2, 4, 2, 1], self.suppression)),
            ("locations", 0.7, self.locations),
            ("relatedLocations", 0.15, self.list([1, 3, 1], self.other_place)),
            ("codeFlows", 0.1, self.list([1, 3], self.flow)),
            ("rank", 0.2, self.one(FRACTIONS)),
            ("properties", 0.3, self.properties),
            *[("provenance", 0.4, self.of(index))] * self.has_rules,
        )
        return {**found, **self.referring()} if self.has_rules else found

    def properties(self):
        """A property bag, which may have a security severity."""
        rated = self.of(("security-severity", 0.9, self.one(RATINGS)))
        return rated() if self.chance(0.5) else self.anything(3)

    def message(self):
        return self.members(
            ("text", 0.9, self.one(["m", "m", "n"])),
            ("id", 0.2, self.one(["i", ""])),
            ("arguments", 0.2, self.list([1, 2, 1], self.one(["x", "y"]))),
        )

    def pairs(self):
        names = self.rng.sample(NAMES, self.count(1, 6, 3, 1))
        return {name: self.value(self.one(["x", "x", "y", "", None])) for name in names}

    def suppression(self):
        return self.members(
            ("kind", 1 - self.wrong / 8, self.one(["inSource", "external"])),
            ("status", 0.5, self.one(STATUSES)),
            ("justification", 0.2, self.one(["j", "k"])),
            ("rank", 0.1, self.one(FRACTIONS)),
        )

    def locations(self):
        index = [("index", 0.3, lambda: self.within(self.artifacts))] * self.has_rules
        artifact = self.of(
            ("uri", 0.8, self.one(URIS)), ("uriBaseId", 0.3, self.one(["S", ""])), *index
        )
        region = self.of(*[(name, part, self.line) for name, part in LINES], ("snippet", 0.6, self.snippet))
        regions = [("region", 0.6, region), ("contextRegion", 0.3, region)]
        physical = self.of(("artifactLocation", 0.9, artifact), *regions)
        first = self.value(self.of(("physicalLocation", 0.95, physical)))
        others = self.any([[], [], [None], [1], [self.value(self.other_place)]])
        return others if self.chance(self.wrong) else [first, *others]

    def other_place(self):
        """A place that no check reads: a related one, one of a flow, or one after the first."""
        artifact = self.of(("uri", 0.8, self.one(OTHER_URIS)), ("index", 0.3, self.one([0, 1, -1, "0"])))
        region = self.of(("startLine", 0.8, self.line), ("endLine", 0.3, self.line))
        physical = self.of(("artifactLocation", 0.9, artifact), ("region", 0.7, region))
        return self.members(("physicalLocation", 0.9, physical))

    def flow(self):
        """A flow of some steps."""
        step = self.of(("location", 0.8, self.other_place), ("index", 0.2, self.one([0, -1, "0"])))
        threads = self.list([0, 3, 1], self.of(("locations", 0.9, self.list([1, 3, 2], step))))
        return self.members(("threadFlows", 0.9, threads))

    def line(self):
        return self.any([1, 1, 1, 2, 3, 0, -1, 4294967295, 4294967296, "1", None, True, Raw("1.5"), Raw("1.0")])

    def snippet(self):
        """A snippet, or something that isn't read as one."""
        text = self.any(["x", "x", "y", " x", "x\n", "\t", "", "\u00a0", "\u000b", 5, None])
        return self.any([{"text": text}] * 9 + [{}, None, "x", []])

    # ---- results that occur more than once

    def copied(self, logs):
        """Adds some results of these logs again: to their own run, to other runs and to other logs."""
        runs = [it for log in logs if isinstance(log["runs"], list) for it in log["runs"]]
        lists = [it["results"] for it in runs if isinstance(it, dict) and isinstance(it.get("results"), list)]
        for _ in range(self.count(1, 3, 3, 2)):
            found = [(results, it) for results in lists for it in results if isinstance(it, dict)]
            if not found:
                return
            home, result = self.any(found)
            if self.chance(0.9):
                # Other runs may lack what it refers to.
                for name in ("rule", "ruleIndex", "provenance"):
                    result.pop(name, None)
                result["locations"] = [self.spot()]
            for _ in range(self.count(0, 3, 2, 1)):
                to = self.any([home, *lists])
                again = {**result, "rank": 1} if self.chance(0.2) else result
                to.insert(self.rng.randint(0, len(to)), again)

    def spot(self):
        """A place with a line, and sometimes with a snippet."""
        snippet = [("snippet", 0.5, self.snippet), ("endLine", 0.2, self.line)]
        region = {"startLine": self.any([1, 2]), **self.members(*snippet)}
        return {"physicalLocation": {"artifactLocation": {"uri": self.any(URIS)}, "region": region}}

    # ---- a suppression file

    def rules(self):
        version = self.any([1, 2, 2, 4, 4, 5, 5, 5])
        if self.chance(self.wrong):
            version = self.any([3, 6, Raw("1.0"), "1", None, True])
        entries = self.value(self.list([1, 3, 4, 3], lambda: self.entry(version)))
        return {"version": version, "suppressions": entries, "properties": 1.5}

    def entry(self, version):
        days = [20250131, 20250131, 20250201, 20241231, 20250231]
        wrong = [20250132, 20250100, 20251301, 9999, "20250131"] if self.chance(self.wrong) else []
        dated = [
            ("uriPrefix", 0.3, self.one(["gen/", "", "a.c"])),
            ("expires", 0.3, self.one(days + wrong)),
        ]
        worded = [
            ("message", 0.2, self.one(["m", "n", ""])),
            ("messageId", 0.1, self.one(["i", "m"])),
            ("messageArguments", 0.1, self.one([["x"], ["x", "y"], []])),
        ]
        no_limits = [0, -1, 4294967296, "1", Raw("1.0"), True] if self.chance(self.wrong) else []
        shown = [
            ("snippet", 0.4, self.one(["x", " x", "x\n", "y", "", "\t", "\u00a0"])),
            ("max", 0.4, self.one([1, 1, 2, 3, 4294967295] + no_limits)),
        ]
        found = self.members(
            ("tool", 0.3, self.one(["lint", "flint", "x"])),
            ("ruleId", 0.4, self.one(RULES)),
            ("uri", 0.2, self.one(URIS)),
            ("guid", 0.1, self.one(NO_GUIDS if self.chance(3 * self.wrong) else GUIDS)),
            ("fingerprints", 0.1, self.pairs),
            ("partialFingerprints", 0.1, self.pairs),
            ("status", 0.5, self.one(["accepted", "accepted", *STATUSES])),
            ("justification", 0.3, self.one(["j", "k"])),
            *dated * (version != 1 or self.chance(self.wrong)),
            *worded * (version in (4, 5) or self.chance(self.wrong)),
            *shown * (version == 5 or self.chance(self.wrong)),
        )
        if not self.chance(0.1 * bool(self.wrong)):
            found.setdefault("ruleId", self.any(RULES))
        return found

    # ---- a policy

    def policy(self, has_diff):
        return Policies(self, has_diff).policy()

    # ---- a diff

    def diff(self):
        """The bytes of a diff of files that results name, or of others."""
        names = self.rng.sample(FILES, self.any([1, 1, 2, len(FILES)]))
        return Diffs(self.rng, names, min(20 * self.wrong, 0.5)).diff()

    # ---- the text of a value

    def text(self, value):
        """The bytes of the value, at times with spaces, escapes, a byte order mark or a repeated member."""
        spoken = self.spoken(value, self.chance(0.3)).encode("utf-8", "surrogatepass")
        spoken = b"\xef\xbb\xbf" * self.chance(0.1) + spoken
        return self.broken(spoken) if self.chance(self.wrong / 2) else spoken

    def spoken(self, value, is_loose):
        if isinstance(value, Raw):
            return value.text
        if isinstance(value, dict):
            pairs = [
                f"{self.spoken(key, is_loose)}:{self.spoken(it, is_loose)}"
                for key, it in value.items()
            ]
            if is_loose and value and self.chance(0.05):
                pairs.insert(
                    0, f"{json.dumps(self.any(list(value)))}:{self.spoken(self.junk(), False)}"
                )
            return "{" + self.space(is_loose).join(["", ",".join(pairs), ""]) + "}"
        if isinstance(value, list):
            gap = self.space(is_loose)
            return "[" + gap + f"{gap},".join(self.spoken(it, is_loose) for it in value) + "]"
        return json.dumps(value, ensure_ascii=is_loose)

    def space(self, is_loose):
        return self.any(["", " ", "\n", "\t\r\n"]) if is_loose else ""

    def broken(self, text):
        at = self.rng.randrange(len(text))
        change = [text[:at], text[:at] + text[at + 1 :], text + b" x", text[:at] + b'"' + text[at:]]
        deep = self.any([124, 125, 126, 127, 128])
        change += [
            text[:at] + b"\xff" + text[at:],
            b"[" * deep + b"]" * deep,
            b"",
            b"\xef\xbb\xbf" + text,
        ]
        return self.any(change)

    # ---- what was there before

    def aged(self, log):
        """The log as it may have been before: its runs and results in another order, some changed."""
        rng = self.rng
        runs = log["runs"] if isinstance(log["runs"], list) else []
        found = []
        for run in rng.sample(runs, len(runs)):
            results = run.get("results") if isinstance(run, dict) else None
            if isinstance(results, list):
                kept = rng.sample(results, rng.randint(0, len(results)))
                run = {**run, "results": [self.changed(it) for it in kept]}
            found.append(run)
        return {**log, "runs": found}

    def changed(self, result):
        if self.chance(0.6) or not isinstance(result, dict):
            return result
        other = self.result(True)
        names = [it for it in {**result, **other} if self.chance(0.8)]
        return {name: result.get(name, other.get(name)) for name in names}
