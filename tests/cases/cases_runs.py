"""Cases of what is required of runs: analyses that were successful, and external property files."""

import json

from cases import *

NAME = {"tool": {"driver": {"name": "lint"}}}
REQUIRED = ["--require-success"]
ALLOWED = ["--allow-external-properties"]
FAILED = {"executionSuccessful": False}


def merging(name, log, more, files=None, **wanted):
    """A merge of the log `a`."""
    given = {"a": log if isinstance(log, bytes) else text(log), **(files or {})}
    return Case("runs", name, [*more, "--out", "o", "a"], files=given, **wanted)


def rejected(name, log, more, fault, **wanted):
    return merging(name, log, more, check=is_unwritten, **refused(fault), **wanted)


def of_runs(gate, *runs):
    """The merged log of these runs, with members in the order of their names."""
    return merged(gate, *(json.loads(json.dumps(it, sort_keys=True)) for it in runs))


def is_unwritten(answer):
    return ["an output was written"] * (answer.out is not None)


# ---- Analyses that were successful


def failures():
    """A run failed by its own word, or since it has no results."""
    stops = "log 0, run 0: NotSuccessful"
    failed = {**NAME, "invocations": [{"executionSuccessful": True}, FAILED], "results": []}
    yield rejected("one of two invocations wasn't successful", log(run("lint"), failed), REQUIRED, "log 0, run 1: NotSuccessful")
    yield rejected("a run without results", log(NAME), REQUIRED, stops)
    yield rejected("a run whose results are null", log({**NAME, "results": None}), REQUIRED, stops)
    yield rejected("a run whose results are read as absent", log(run("lint", 1.5)), REQUIRED, stops)
    yield merging("without the option such runs are merged", log(failed, NAME), [], out=of_runs(gate(without=1), failed, NAME))


def successes():
    """What says nothing of a failure counts as success."""
    for value in (True, None, 0, "false", []):
        given = {**NAME, "invocations": [{"executionSuccessful": value}, {}], "results": []}
        yield merging(f"executionSuccessful {value!r} is no failure", log(given), REQUIRED, out=of_runs(gate(), given))
    dropped = {**NAME, "invocations": [FAILED, 1.5], "results": []}
    left = {**NAME, "results": []}
    yield merging("invocations that are read as absent say nothing", log(dropped), REQUIRED, out=of_runs(gate(), left))
    yield merging("a log without runs has none that failed", log(), REQUIRED, out=of_runs(gate()))
    before = {"b": log(NAME, {**NAME, "invocations": [FAILED], "results": [plain()]})}
    words = [*REQUIRED, "--baseline", "b"]
    wanted = of_runs(gate(unchanged=[0, 1, 0, 0]), written("lint", marked("unchanged", **plain())))
    yield merging("baselines may have runs that failed", ONE, words, before, out=wanted)


def order():
    """An error of opening the run comes first, then its failure, then the errors of its results."""
    bad = {**NAME, "invocations": [FAILED, 5], "results": []}
    yield rejected("an invocation that is no object comes first", log(bad), REQUIRED, "log 0, run 0: BadMember")
    bad = {**NAME, "invocations": [FAILED], "results": [{"kind": "bad"}]}
    yield rejected("a bad result comes later", log(bad), REQUIRED, "log 0, run 0: NotSuccessful")
    bad = run("lint", {"kind": "bad"})
    yield rejected("so do the runs after it", log(bad, NAME), REQUIRED, "log 0, run 0, result 0: BadKind")
    words = [*REQUIRED, "--suppress", "s"]
    yield rejected("the suppression file comes first", log(NAME), words, "suppressions, entry 0: EmptyMatch", files={"s": rules({})})


# ---- External property files


def naming(files):
    return {**NAME, "externalPropertyFileReferences": files, "results": [plain()]}


def external_files():
    """Files that hold what isn't read may be named."""
    stops = "log 0, run 0: ExternalProperties"
    taxonomy = {"taxonomies": [{"location": {"uri": "c.sarif"}}]}
    yield rejected("a taxonomy in another file", log(naming(taxonomy)), [], stops)
    for files in (taxonomy, {"results": [], "artifacts": None, "conversion": {}}, {}, None):
        wanted = {**naming(files), "results": [marked("new", **plain())]}
        yield merging(f"{files} is allowed", log(naming(files)), ALLOWED, out=of_runs(gate(new=[0, 1, 0, 0]), wanted))
    for files in ({"results": [{}]}, {"driver": {}}, {"artifacts": 5}, {"extensions": ""}, {"invocations": [[]]}, [], "x", 0):
        yield rejected(f"{files!r} isn't allowed", log(naming(files)), ALLOWED, stops)
    left = {**naming({}), "results": [marked("new", **plain())]}
    fraction = log(naming({"results": [1.5]}))
    yield merging("what is read as absent names nothing", fraction, ALLOWED, out=of_runs(gate(new=[0, 1, 0, 0]), left))
    yield from external_baselines(taxonomy)
    bad = {**naming({"results": [{}]}), "tool": {"driver": {}}}
    yield rejected("the tool comes before the files", log(bad), ALLOWED, "log 0, run 0: BadRun")
    bad = {**naming({"results": [{}]}), "results": 5}
    yield rejected("the files come before the results", log(bad), ALLOWED, stops)


def external_baselines(taxonomy):
    words, files = ["--baseline", "b"], {"b": log(naming(taxonomy))}
    yield rejected("a baseline names a taxonomy", ONE, words, "baseline 0, run 0: ExternalProperties", files=files)
    wanted = of_runs(gate(unchanged=[0, 1, 0, 0]), written("lint", marked("unchanged", **plain())))
    yield merging("a baseline may name a taxonomy too", ONE, [*ALLOWED, *words], files, out=wanted)


def flawfinder():
    """A real log: each of its runs names a taxonomy in another file."""
    given = json.loads(example("flawfinder-cjson.sarif"))

    def check(answer):
        found = json.loads(answer.out)["runs"]
        return [] if found == [as_written(run) for run in given["runs"]] else ["the runs aren't those of the log"]

    words = [*ALLOWED, *REQUIRED]
    counted = gate("fail", 6, new=[6, 0, 35, 0])
    whole = lambda answer: check(answer) + tells(counted)(answer)
    yield merging("Flawfinder's log is merged as it is", example("flawfinder-cjson.sarif"), words, status=1, check=whole)


def as_written(run):
    """The run as the merged log has it: each result is new and has a level; a rank with a fraction is left out."""
    results = [{**it, "baselineState": "new", "suppressions": []} for it in run["results"]]
    return {**run, "results": [{name: value for name, value in it.items() if not isinstance(value, float)} for it in results]}


def cases():
    for group in (failures, successes, order, external_files, flawfinder):
        yield from group()
