"""Cases of the reports: each report of a merged log, compared with the reference."""

import json
import random
from dataclasses import dataclass, field
from functools import cached_property

import hostile_logs as hostile
import reference
import reference_diff
from azure_reader import azure_faults
from cases import *
from drawn_diffs import Diffs
from markdown_reader import markdown_faults
from page_reader import page_faults
from reference_reports import Policy, Reports
from xml_reader import xml_faults

KINDS = ("text", "github", "markdown", "gitlab", "html", "junit", "azure")
ROOT_FOLDER = "file:///src/"


@dataclass
class Reporting(Case):
    """A merge that writes all reports."""

    policy: Policy = field(default_factory=Policy)
    logs: list = field(default_factory=list)
    baselines: list = field(default_factory=list)
    suppress: Optional[bytes] = None
    kept: Optional[str] = None
    diff: Optional[bytes] = None
    scope: str = "lines"

    def __post_init__(self):
        self.look, self.seconds = self.compare, 600
        self.files = {f"log{number}": given for number, given in enumerate(self.logs)}
        for number, given in enumerate(self.baselines):
            self.files[f"baseline{number}"] = given
            self.words = [*self.words, "--baseline", f"baseline{number}"]
        if self.suppress is not None:
            self.files["rules"] = self.suppress
            self.words = [*self.words, "--suppress", "rules"]
        if self.diff is not None:
            self.files["diff"] = self.diff
            self.words = [*self.words, "--diff", "diff", "--diff-scope", self.scope]
        self.words = [*self.words, *self.of_policy(), *every_report(), "--out", "o"]
        self.words += [f"log{number}" for number in range(len(self.logs))]

    def of_policy(self):
        words = ["--fail-on", self.policy.fail_on, "--max", str(self.policy.max)]
        words += ["--show", "hits"] * (self.policy.show == "hits")
        words += ["--link", self.policy.link] if self.policy.link else []
        return words + [word for root in self.policy.roots() for word in ("--root", root) if root]

    @cached_property
    def merge(self):
        policy = reference.Policy(self.policy.fail_on, self.policy.max)
        diff = None if self.diff is None else reference.Diff(self.diff, self.scope, self.policy.roots())
        return reference.Merge(self.logs, self.baselines, self.suppress, policy, diff=diff)

    @cached_property
    def reports(self):
        return Reports(json.loads(self.merge.text()), self.policy, self.merge.change)

    def compare(self, folder, kept):
        return [
            f"{kind}: {fault}"
            for kind in KINDS
            for fault in report_faults(folder / kind, kind, self.reports)
        ] + (self.beside_kept(folder) if self.kept else [])

    def beside_kept(self, folder):
        """Returns whether the reports are those of the examples."""
        found = {kind: (folder / kind).read_bytes() for kind in KINDS if (folder / kind).is_file()}
        return [
            f"{kind}, beside {kept_name(self.kept, kind)}: {difference(wanted, found.get(kind))}"
            for kind in KINDS
            if (wanted := example(f"reports/{kept_name(self.kept, kind)}")) != found.get(kind)
        ]

    def faults(self, answer):
        self.status = self.merge.status()
        self.stdout, self.stderr = self.merge.summary().encode(), b""
        self.out = self.merge.text().encode()
        return super().faults(answer)


NAMES = ("txt", "github.txt", "md", "gitlab.json", "html", "junit.xml", "azure.txt")
ENDINGS = dict(zip(KINDS, NAMES))
READERS = {"markdown": markdown_faults, "junit": xml_faults, "azure": azure_faults}


def kept_name(name, kind):
    return f"{name}.{ENDINGS[kind]}"


def every_report():
    """Arguments for all reports, each in a file of its name."""
    return [word for kind in KINDS for word in (f"--{kind}", kind)]


def report_faults(file, kind, reports):
    """What is wrong with one report in a file."""
    if not file.is_file():
        return ["it wasn't written"]
    found = file.read_bytes()
    if kind == "html":
        return page_faults(found, reports)
    wanted = getattr(reports, kind)()
    faults = [difference(wanted, found)] * (found != wanted)
    return faults + (READERS[kind](found, reports) if kind in READERS else [])


# ---- Examples

BANDIT, CLANG = "bandit-django-forms.sarif", "clang-lua-lstate.sarif"
BEFORE = ("bandit-django-forms-2.2.28.sarif", "clang-lua-lstate-5.3.6.sarif")
ACCEPTED = rules({"ruleId": "B308", "justification": "looked at"}, {"uri": "file:///src/lstate.c"})


def of_examples(name, logs, baselines=(), **given):
    read = lambda names: [example(it) for it in names]
    return Reporting("examples", name, logs=read(logs), baselines=read(baselines), **given)


def kept():
    """The merges whose reports are in examples/reports."""
    for name, given in KEPT:
        yield of_examples(f"{name}, as it is kept", kept=name, **given)


def examples():
    yield from kept()
    for fail_on in ("error", "warning", "note", "none"):
        for most, root in ((0, ""), (3, "django/"), (17, ROOT_FOLDER)):
            policy = Policy(fail_on, most, root=root)
            title = f"from {fail_on}, {most} allowed, without {root!r}"
            yield of_examples(f"two logs {title}", [CLANG, BANDIT], policy=policy)
            yield of_examples(f"with baselines {title}", [BANDIT, CLANG], BEFORE, policy=policy)
            yield of_examples(
                f"with baselines and suppressions {title}",
                [BANDIT, CLANG],
                BEFORE[:1],
                policy=policy,
                suppress=ACCEPTED,
            )


ROOTED = Policy(root=ROOT_FOLDER)
KEPT = [
    ("bandit-django-forms", {"logs": [BANDIT], "policy": Policy("warning")}),
    ("clang-lua-lstate", {"logs": [CLANG], "policy": Policy("warning", 10, root=ROOT_FOLDER)}),
    ("both-with-baselines", {"logs": [BANDIT, CLANG], "baselines": BEFORE, "policy": ROOTED}),
]


# ---- Hostile logs


def strange(name, given, **more):
    logs = given if isinstance(given, list) else [given]
    return Reporting("hostile", name, logs=logs, **more)


def template(number):
    """The template of links of a third of the cases."""
    turn, rest = divmod(number, 3)
    return hostile.TEMPLATES[turn % 3] if rest == 1 else None


def hostile_logs():
    for number, text in enumerate(hostile.TEXTS):
        seen = repr(text if len(text) < 40 else f"{text[:20]}.. of {len(text)}")
        yield strange(f"{seen} everywhere", hostile.everywhere(text), policy=Policy(link=template(number)))
    parts = (
        ("each uri", hostile.placed()),
        ("each address of a page", hostile.linked()),
        ("each code", hostile.with_code(0)),
        ("each line and column", hostile.numbered()),
        ("each way to a message", hostile.spoken()),
        ("each link of a message", hostile.bracketed()),
        ("results that look alike", hostile.alike()),
        ("names that are equal", hostile.called()),
        ("each level and kind", hostile.levelled()),
    )
    for name, given in parts:
        yield strange(name, given)
        for fail_on in ("warning", "none"):
            link = hostile.TEMPLATES[0] if fail_on == "none" else None
            policy = Policy(fail_on, 5, root=ROOT_FOLDER, link=link)
            yield strange(f"{name}, from {fail_on}", given, policy=policy)
    for link in hostile.TEMPLATES:
        yield strange(f"each uri linked to {link}", hostile.placed(), policy=Policy("note", link=link))
    for turn in (20, 60, 100, 140, 180):
        yield strange(f"each code, the last {turn} first", hostile.with_code(turn))
    for root in ("file:///", "file:///src", "a", "%", "a b", "\u00e9", "a.c", ":a", "x" * 2_000):
        policy = Policy(root=root)
        yield strange(f"each uri without {root[:20]!r}", hostile.placed(), policy=policy)
    for roots in (("file:///s", "file:///src/"), (ROOT_FOLDER, "file:///"), ("", "a", "a")):
        policy = Policy(root=roots)
        yield strange(f"each uri without one of {roots}", hostile.placed(), policy=policy)
    level, alike = hostile.levelled(), hostile.alike()
    other = {"uri": "open.c", "status": "underReview"}
    given = {"baselines": [level], "suppress": rules({"ruleId": "none"}, {"uri": "pass.c"}, other)}
    yield strange("suppressions and a baseline", [level, alike], **given)
    yield strange("a log beside itself", [alike], baselines=[alike, hostile.placed()])


def only_hits():
    """Reports that show only the hits."""
    for name, given in (("each level and kind", hostile.levelled()), ("results that look alike", hostile.alike())):
        for fail_on in ("error", "warning", "note", "none"):
            policy = Policy(fail_on, 1, show="hits")
            yield strange(f"{name}, only hits from {fail_on}", given, policy=policy)
    for count in (1, 200, 201, 10_203):
        policy = Policy("warning", show="hits")
        yield Reporting("many", f"the hits of {count} results", logs=[hostile.scattered(count)], policy=policy)
    yield of_examples("the hits of two logs", [CLANG, BANDIT], BEFORE[:1], policy=Policy("error", show="hits"))


def many():
    for count in (0, 1, 199, 200, 201, 202, 10_000, 10_001, 10_203):
        policy = Policy("warning", count // 2)
        yield Reporting("many", f"{count} results", logs=[hostile.many(count)], policy=policy)


def scattered():
    """Logs whose files take turns, with as many rows as a page has, and more."""
    for count in (2, 11, 200, 10_000, 10_203):
        for fail_on, most in (("error", 0), ("error", count), ("note", 1)):
            name = f"{count} results of a few files in turn, from {fail_on}, {most} allowed"
            policy = Policy(fail_on, most)
            yield Reporting("many", name, logs=[hostile.scattered(count)], policy=policy)


def drawn(seed, count):
    """This number of random logs."""
    for number in range(count):
        rng = random.Random(f"reports {seed} {number}")
        makes = hostile.Drawn(rng)
        logs = [makes.log() for _ in range(rng.choice([1, 1, 2]))]
        before = [logs[0]] * (rng.random() < 0.2) + [makes.log()] * (rng.random() < 0.2)
        root = rng.choice(["", "", ROOT_FOLDER, "a", "%", "./", ("a", ROOT_FOLDER), ("", "src/")])
        level = rng.choice(["error", "warning", "note", "none"])
        show = "hits" if number % 4 == 3 else "all"
        policy = Policy(level, rng.choice([0, 1, 4]), root=root, show=show, link=template(number))
        name = f"seed {seed}, number {number}"
        given = {"logs": logs, "baselines": before, "policy": policy}
        if number % 3 == 2:
            given |= {"diff": drawn_diff(rng), "scope": rng.choice(["lines", "files"])}
        yield Reporting("drawn", name, **given)


def drawn_diff(rng):
    """A diff without an error of some of the files of hostile logs."""
    while True:
        diff = Diffs(rng, rng.sample(hostile.FILES, rng.choice([1, 2, len(hostile.FILES)]))).diff()
        try:
            reference_diff.read(diff)
            return diff
        except reference_diff.Fault:
            pass


def of_rows():
    """What a report holds, in this order, worked out by hand."""

    def shows(name, results, option, pieces, status=0):
        def look(folder, kept):
            report = (folder / "r").read_text()
            found = sorted(pieces, key=report.find)
            wrong = [f"it has no {it}" for it in pieces if it not in report]
            return wrong or [f"the order is {found}"] * (found != pieces)

        words = [option, "r", "--out", "o", "log0"]
        files = {"log0": log(run("lint", *results))}
        return Case("examples", name, words, files=files, status=status, look=look)

    line = {"physicalLocation": {"artifactLocation": {"uri": "./:x"}, "region": {"startLine": 2}}}
    result = plain(level="note", locations=[line])
    yield shows("JUnit's file has no ./", [result], "--junit", ['classname=":x"', 'file=":x"', 'line="2"'])
    said = lambda word, **more: {"level": "error", "message": {"text": word}, **more}
    results = [said("one"), said("two", **at("a")), said("three")]
    pieces = ["3 hits stop this change", "one</p>", "three</p>", "two</p>"]
    yield shows("hits without a place are together on the page", results, "--html", pieces, status=1)


def cases(seed=1, count=200):
    for part in (of_rows, examples, hostile_logs, only_hits, many, scattered):
        yield from part()
    yield from drawn(seed, count)
