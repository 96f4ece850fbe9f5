"""Cases of rules, levels and places, with one log on standard input."""

from cases import *


def rule(name, level=None):
    return {"id": name} if level is None else {"id": name, "defaultConfiguration": {"level": level}}


def linted(result, driver=(), extensions=None, **members):
    """A log with one result and these rules."""
    tool = {"driver": {"name": "lint", "rules": list(driver)}}
    if extensions is not None:
        tool["extensions"] = extensions
    return log({"tool": tool, "results": [result], **members})


def level_is(name, level, given):
    numbers = {
        "error": [1, 0, 0, 0],
        "warning": [0, 1, 0, 0],
        "note": [0, 0, 1, 0],
        "none": [0, 0, 0, 1],
    }
    is_hit = level == "error"
    counted = gate("fail" if is_hit else "pass", int(is_hit), new=numbers[level])
    return Case(
        "rules", name, stdin=given, status=int(is_hit), check=tells(counted, ["new"], [level])
    )


def answers(name, given, fault):
    return Case("rules", name, stdin=given, **refused(fault))


def levels():
    two = [rule("R1", "note"), rule("R1", "error")]
    yield level_is("the first rule of an id counts", "note", linted(ruled(), two))
    yield level_is(
        "an index picks the rule",
        "error",
        linted(ruled(ruleIndex=1), [two[0], rule("R2", "error")]),
    )
    extension = [{"name": "x", "rules": [rule("E1", "error")]}]
    reference = {"id": "E1", "toolComponent": {"index": 0}}
    yield level_is(
        "a rule of an extension", "error", linted(plain(rule=reference), extensions=extension)
    )
    yield level_is(
        "an extension's rule isn't the driver's",
        "warning",
        linted(plain(ruleId="E1"), extensions=extension),
    )
    yield level_is("an index of -1 is absent", "warning", linted(ruled(ruleIndex=-1)))
    yield level_is(
        "an index with an exponent is absent",
        "warning",
        linted(ruled()).replace(b'"R1"', b'"R1","ruleIndex":1e2', 1),
    )
    yield level_is(
        "a kind other than fail comes first", "none", linted(ruled(kind="open", level="error"), two)
    )
    yield level_is("an own level comes next", "error", linted(ruled(level="error"), two))


def overrides():
    def invoked(*overrides):
        return {"invocations": [{"ruleConfigurationOverrides": list(overrides)}]}

    def override(**configuration):
        return {"descriptor": {"index": 0}, "configuration": configuration}

    found = ruled(provenance={"invocationIndex": 0})
    note = [rule("R1", "note")]
    yield level_is(
        "an override without a level",
        "note",
        linted(found, note, **invoked(override(enabled=True))),
    )
    yield level_is(
        "an override's level", "error", linted(found, note, **invoked(override(level="error")))
    )
    yield level_is(
        "no invocation, no override",
        "note",
        linted(ruled(), note, **invoked(override(level="error"))),
    )
    both = invoked(override(enabled=True), override(level="error"))
    yield level_is("only the first override counts", "note", linted(found, note, **both))
    none = invoked({"configuration": {"level": "error"}})
    yield level_is("an override without a descriptor", "note", linted(found, note, **none))


def faults():
    single, opening = "log 0, run 0, result 0", "log 0, run 0"
    yield answers("an index past an empty table", linted(plain(ruleIndex=0)), f"{single}: BadIndex")
    yield answers(
        "an extension past its table",
        linted(plain(rule={"toolComponent": {"index": 0}})),
        f"{single}: BadIndex",
    )
    passing = plain(kind="pass", provenance={"invocationIndex": 0})
    yield answers(
        "an invocation past its table, not needed", linted(passing), f"{single}: BadIndex"
    )
    lost = plain(locations=[{"physicalLocation": {"artifactLocation": {"index": 1}}}])
    yield answers(
        "an artifact past its table",
        linted(lost, artifacts=[{"location": {"uri": "a.c"}}]),
        f"{single}: BadIndex",
    )
    yield answers("a rule without an id", linted(ruled(), [{}]), f"{opening}: BadRules")
    yield answers(
        "a rule's level before the next rule",
        linted(ruled(), [rule("R1", "high"), 1]),
        f"{opening}: BadLevel",
    )
    yield answers(
        "extensions before the driver's rules",
        linted(ruled(), [1], extensions=[{"rules": 1}, 1]),
        f"{opening}: BadRules",
    )
    yield answers(
        "artifacts that are no objects", linted(ruled(), artifacts=[1]), f"{opening}: BadLocation"
    )
    yield answers(
        "invocations that are no objects", linted(ruled(), invocations=[1]), f"{opening}: BadMember"
    )
    past = [{"ruleConfigurationOverrides": [{"descriptor": {"index": 0}}]}]
    yield answers(
        "an override past its table", linted(ruled(), invocations=past), f"{opening}: BadIndex"
    )
    high = [{"ruleConfigurationOverrides": [{"configuration": {"level": "high"}}]}]
    yield answers(
        "an override's wrong level", linted(ruled(), invocations=high), f"{opening}: BadLevel"
    )
    eight = [plain() for _ in range(7)] + [plain(correlationGuid="x")]
    two = log(run("lint", *eight), run("lint", plain(level="high")))
    yield answers("the first fault in the order of the log", two, "log 0, run 0, result 7: BadGuid")
    bad = log(run("lint", plain(level="high"), artifacts=[1]))
    yield answers("opening comes before the results", bad, f"{opening}: BadLocation")


def cases():
    for part in (levels, overrides, faults):
        yield from part()
