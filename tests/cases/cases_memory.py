"""Cases that run with failing allocations: what the program does on small files."""

from cases import *
from cases_output import OLD, linked
from cases_outputs import explains
from cases_words import merging

GUID = "0f14d0ab-9605-4a62-a9e4-5ed26688389b"
DRIVER = {
    "name": "lint",
    "rules": [
        {"id": "R1", "defaultConfiguration": {"level": "error"}},
        {"id": "R2", "shortDescription": {"text": "é\n"}},
    ],
}
OVERRIDES = [{"descriptor": {"id": "R2"}, "configuration": {"level": "note"}}]
RUN = {
    "tool": {"driver": DRIVER, "extensions": [{"name": "more", "rules": [{"id": "E1"}]}]},
    "artifacts": [{"location": {"uri": "src/a.c", "uriBaseId": "TOP"}}],
    "invocations": [{"executionSuccessful": True, "ruleConfigurationOverrides": OVERRIDES}],
}
PLACED = {"locations": [{"physicalLocation": {"artifactLocation": {"index": 0}}}]}
OWN = [{"kind": "inSource", "status": "underReview"}, {"kind": "external"}]


def results(word):
    """Results of all kinds, one of which has this word in its message."""
    return [
        ruled(ruleIndex=0, correlationGuid=GUID, **PLACED),
        plain(rule={"id": "R2"}, provenance={"invocationIndex": 0}, rank=1.5),
        plain(rule={"index": 0, "toolComponent": {"index": 0}}, suppressions=OWN),
        {"message": {"id": "m", "arguments": ["\\", word]}, **at("gen/b.c")},
        ruled(fingerprints={"f/v1": "x", "f/v2": word}, properties={"deep": [[{"a": [1, 2]}]]}),
        ruled(partialFingerprints={"p/v1": word}, kind="pass"),
    ]


NOW = log({**RUN, "results": results("now")}, run("b", plain()), run("lint"))
NO_RESULTS = {"tool": {"driver": {"name": "c"}}}
NO_TOOL = log({"tool": {"driver": {"name": "b"}}})
BEFORE = log({**RUN, "results": results("before")[::-1]}, run("b"), NO_RESULTS)
ENTRIES = rules(
    {"ruleId": "R2", "justification": "checked by hand"},
    {"uri": "src/a.c", "status": "underReview"},
    {"guid": GUID.upper()},
    {"tool": "b"},
    {"fingerprints": {"f/v1": "x"}},
    {"partialFingerprints": {"p/v1": "now"}, "status": "rejected"},
    {"uriPrefix": "gen/", "expires": 20250131},
    {"uriPrefix": "gen/b", "expires": 20240131},
    version=2,
)
DAY = ["--today", "20250131"]
OLD_OUTPUT = {"o": OLD}


def memory(name, logs, workers, old=OLD_OUTPUT, more=(), **wanted):
    """A merge of these logs, with an old output."""
    words = ["--workers", str(workers), *more]
    given = merging("memory", f"{name}, {counted(workers)}", logs, more=words, **wanted)
    given.files.update(old)
    return given


def counted(workers):
    return f"{workers} worker{'s' * (workers > 1)}"


def merges():
    for workers in (1, 4):
        yield memory("a log of one result", [ONE], workers, out=ONE_MERGED, stdout=ONE_SUMMARY)
        yield memory("a log with all that is read", [NOW], workers, status=1)
        yield memory("a log with a baseline", [NOW], workers, baselines=[BEFORE])
        suppressed = {"suppress": ENTRIES, "more": DAY}
        yield memory("a log with a suppression file", [NOW], workers, status=1, **suppressed)
    several = {"baselines": [BEFORE, ONE], "suppress": ENTRIES, "more": DAY}
    yield memory("several logs, baselines and a suppression file", [NOW, ONE], 4, **several)
    fails = [*DAY, "--max=9", "--fail-on", "note"]
    yield memory("a suppression file and a limit", [ONE], 4, suppress=ENTRIES, more=fails)


def refusals():
    bad = log({**RUN, "results": [*results("now"), plain(level="high")]})
    for workers in (1, 4):
        fault = refused("log 0, run 0, result 6: BadLevel")
        yield memory("a result that is refused", [bad], workers, **fault)
        yield memory("a log that is no JSON", [NOW[:-1]], workers, **refused("log 0: NotJson"))
    rows = {
        "a run that is refused": ({"baselines": [log({"tool": {}})]}, "baseline 0, run 0: BadRun"),
        "an entry that is refused": ({"suppress": ENTRIES}, "suppressions, entry 6: NeedsToday"),
        "a suppression file that is no JSON": ({"suppress": b"{"}, "suppressions: NotJson"),
    }
    for name, (given, fault) in rows.items():
        yield memory(name, [NOW], 4, **given, **refused(fault))


def explanations():
    """Errors with their explanations."""
    bad = log({**RUN, "results": [*results("now"), plain(level="high")]})
    rows = {
        "a result that is rejected": (bad, explains("log 0, run 0, result 6: BadLevel", found='"high"')),
        "a log that is no JSON": (NOW[:-1], explains("log 0: NotJson", line=True)),
    }
    for name, (text, check) in rows.items():
        yield memory(f"{name}, explained", [text], 4, more=["--explain"], status=2, stdout=b"", check=check)


DIFF = (
    b"From 1\n\n---\n src/a.c | 2 +-\n\ndiff --git a/src/a.c b/src/a.c\nindex 1..2 100644\n--- a/src/a.c\n+++ b/src/a.c\n"
    b"@@ -1,3 +1,3 @@\n x\n-y\n+z\n x\n@@ -9 +9,0 @@\n-y\n"
    b'diff --git "a/\\303\\251.c" "b/\\303\\251.c"\nold mode 100644\nnew mode 100755\n'
    b"diff --git a/x.c b/gen/b.c\nrename from x.c\nrename to gen/b.c\n"
)


def changes():
    """Merges with a diff: what is inside of its change is reported and accepted."""
    old = {**OLD_OUTPUT, "d": DIFF, "t": OLD, "h": OLD}
    more = ["--diff", "d", "--root", "gen/", "--fail-on", "note", "--text", "t", "--html", "h"]
    far = log(run("lint", ruled(level="error", **at("far.c")), ruled(level="note", **at("a.c"))))
    said = "diff: files 3, lines 1, outside 1\n"
    told = lambda answer: [f"it said {answer.stdout[-90:]!r}"] * (said not in answer.stdout.decode())
    for workers in (1, 4):
        yield memory("a diff", [NOW, far], workers, baselines=[BEFORE], more=more, old=old, status=1, check=told)
    files = [*more, "--diff-scope", "files", "--suppress-out", "n", "--accept"]
    yield memory("a diff, accepting", [NOW, far], 1, more=files, old={**old, "n": OLD}, status=1, check=told)
    faults = {"diff: NoChange": b"x\n", "diff, line 17: BadHunk": DIFF.replace(b"@@ -9 +9,0 @@", b"@@ -9 +9 @@")}
    for fault, text in faults.items():
        yield memory(f"rejected with {fault}", [NOW], 1, more=more, old={**old, "d": text}, **refused(fault))
    bad = {**old, "d": b"diff --cc a.c\n"}
    check = explains("diff, line 1: Combined", found="diff --cc a.c")
    yield memory("a diff that is rejected, explained", [NOW], 1, more=[*more, "--explain"], old=bad, status=2, check=check)
    yield Case("memory", "a diff on standard input", ["--out", "o", "--diff", "-", "a"], files={"a": NOW}, stdin=DIFF, status=1)


POLICY = text(
    {
        "version": 1,
        "conditions": [
            {"name": "rated", "level": "note", "minSecuritySeverity": "7.0", "only": [{"tool": "lint"}, {"uriPrefix": "gen/"}]},
            {"name": "no more", "states": ["new"], "ratchet": True, "except": [{"fingerprints": {"f/v1": "x"}}], "max": 1},
            {"name": "all", "level": "none", "max": 100},
            {"name": "listed", "only": [{"ruleId": f"R{n}"} for n in range(9)], "max": 100},
        ],
    }
)


def policies():
    """Merges with a policy of several conditions."""
    old = {**OLD_OUTPUT, "p": POLICY, "t": OLD, "h": OLD}
    more = ["--policy", "p", "--text", "t", "--html", "h"]
    told = lambda answer: [f"it said {answer.stdout[-90:]!r}"] * (b"\ncondition no more: pass, " not in answer.stdout)
    for workers in (1, 4):
        yield memory("a policy", [NOW, ONE], workers, baselines=[BEFORE], more=more, old=old, status=1, check=told)
    bad = POLICY.replace(b'"no more"', b'"rated"')
    fault = "policy, condition 1: SameName"
    yield memory("a policy that is rejected", [NOW], 1, more=more, old={**old, "p": bad}, **refused(fault))
    check = explains(fault, where="/conditions/1/name", found='"rated"')
    given = {"more": [*more, "--explain"], "old": {**old, "p": bad}, "status": 2, "stdout": b"", "check": check}
    yield memory("a policy that is rejected, explained", [NOW], 1, **given)


def words():
    files = {"a": NOW, "g": b"# a\n--workers\n1\na\n", "h": b"a\n@g\n", **OLD_OUTPUT}
    rows = {
        "the help": (["--help"], {}),
        "wrong words": (["--workers", "65", "--out", "o", "a"], {"status": 2}),
        "an output with the name of the suppression file": (
            ["--out", "o", "--suppress", "o", "a"],
            {"status": 2},
        ),
        "a log that isn't there": (["--out", "o", "a", "b"], refused("log 1: ReadFailed")),
        "an output in no folder": (["--out", "none/o", "a"], refused("output: WriteFailed")),
        "arguments from a file": (["--out", "o", "@g"], {"status": 1}),
        "a file of arguments with another": (["--out", "o", "@h"], {"status": 2}),
        "a file of arguments that isn't there": (["@none"], refused("@none: ReadFailed")),
    }
    for name, (given, wanted) in rows.items():
        yield Case("memory", name, given, files=files, **wanted)


def outputs():
    yield memory("no old output", [NOW], 4, old={}, status=1)
    link = linked("there/p", folder="there")
    yield memory("an output through a link", [NOW], 4, old={}, status=1, prepare=link)
    yield Case("memory", "standard input and output", stdin=NOW, status=1)


def later_merges():
    """What is made for later merges: the new suppression file and the unused entries, or the known log."""
    accept = ["--accept", "--prune", "--reason", "ticket 17", "--until", "20270101"]
    renew = [*accept, "--suppress-out", "n", "--unused", "u", "--fail-on", "note", *DAY]
    know = ["--known", "k", *DAY]
    old = {**OLD_OUTPUT, "n": OLD, "u": OLD, "k": OLD}
    given = {"suppress": ENTRIES, "old": old}
    unheard = log(run("b", ruled(), plain()))
    renewed = {"status": 1, "stderr": b"sarif_gate: 1 accepted, 2 stay, 1 pruned, 8 entries\n"}
    known = {"stderr": b"sarif_gate: 7 known, 1 left out, 1 kept\n"}
    for workers in (1, 4):
        yield memory("accepting", [NOW, ONE], workers, more=renew, **renewed, **given)
        baselines = {"baselines": [BEFORE, unheard], **known, **given}
        yield memory("a known log", [NOW, NO_TOOL], workers, more=know, **baselines)


def cases():
    for part in (merges, changes, policies, refusals, explanations, words, outputs, later_merges):
        yield from part()
