"""Inputs with many of one thing and little else, to measure how costs grow with it."""

from shapes import Input, at, entries, log, message, run
from shapes_change import lines_of, one_line, section


def runs(count):
    return Input([log(*[run([{}]) for _ in range(count)])])


def results(count):
    return Input([log(run([message(f"m{i}", ruleId=f"R{i % 50}") for i in range(count)]))])


def matched(count):
    """Results, half of them in a baseline."""
    text = log(run([message(f"m{i}", ruleId=f"R{i % 50}") for i in range(count // 2)]))
    return Input([text], [text])


def rules(count):
    chosen = [{"ruleId": f"R{i}"} for i in range(count)]
    return Input([log(run(chosen, {"rules": [{"id": f"R{i}"} for i in range(count)]}))])


def extensions(count):
    found = [{"name": f"e{i}", "rules": [{"id": "R"}]} for i in range(count)]
    tool = {"driver": {"name": "t"}, "extensions": found}
    chosen = [{"rule": {"index": 0, "toolComponent": {"index": i}}} for i in range(count)]
    return Input([log({"tool": tool, "results": chosen})])


def overrides(count):
    levels = [
        {"descriptor": {"index": i}, "configuration": {"level": "note"}} for i in range(count)
    ]
    invocations = [{"executionSuccessful": True, "ruleConfigurationOverrides": levels}]
    chosen = [{"ruleIndex": i, "provenance": {"invocationIndex": 0}} for i in range(count)]
    driver = {"rules": [{"id": f"R{i}"} for i in range(count)]}
    return Input([log(run(chosen, driver, invocations=invocations))])


def artifacts(count):
    found = [{"location": {"uri": f"src/{i}.c"}} for i in range(count)]
    place = lambda i: {"physicalLocation": {"artifactLocation": {"index": i}}}
    return Input([log(run([{"locations": [place(i)]} for i in range(count)], artifacts=found))])


def fingerprints(count):
    names = {f"f{i}/v1": f"{i}" for i in range(count)}
    text = log(run([message(fingerprints=names)]))
    return Input([text], [text])


def names_of_fingerprints(count):
    text = log(run([message(fingerprints={f"f{i}/v1": f"{i}"}) for i in range(count)]))
    return Input([text], [text])


def suppressions(count):
    return Input([log(run([message(suppressions=[{"kind": "inSource"}] * count)]))])


def entries_of_rules(count):
    text = log(run([message(ruleId=f"R{i % 10_000}", **at(f"src/{i}.c")) for i in range(20_000)]))
    return Input([text], suppress=entries([{"ruleId": f"R{i}"} for i in range(count)]))


def arguments(count):
    text = log(run([{"message": {"id": "m", "arguments": [f"{i}" for i in range(count)]}}]))
    return Input([text], [text])


def members(count):
    return Input([log(run([message(properties={f"m{i}": i for i in range(count)})]))])


def depth(count):
    text = log(run([message(properties={"x": 0})] * 10_000))
    return Input([text.replace('"x":0', f'"x":{"[" * count + "]" * count}')])


def length(count):
    text = log(run([message("m" * count)]))
    return Input([text], [text])


def sources(count):
    return Input([log(run([{}] * 20))] * count)


def hunks(count):
    found = [one_line(2 * i + 1) for i in range(count)]
    return Input(lines_of("a.c", range(2, 2 * count + 2, 20)), diff=section("a.c", *found))


def changed_files(count):
    diff = "".join(section(f"src/{i:06}.c", one_line(1)) for i in range(count))
    results = [{**message(f"m{i}", level="error"), **at(f"src/{i:06}.c")} for i in range(count // 10)]
    return Input([log(run(results))], diff=diff)


THINGS = {
    "runs": (runs, 10_000),
    "results": (results, 100_000),
    "results, matched": (matched, 100_000),
    "rules": (rules, 50_000),
    "extensions": (extensions, 20_000),
    "overrides": (overrides, 40_000),
    "artifacts": (artifacts, 50_000),
    "fingerprints of one": (fingerprints, 50_000),
    "fingerprint names": (names_of_fingerprints, 40_000),
    "own suppressions": (suppressions, 200_000),
    "entries": (entries_of_rules, 10_000),
    "hunks": (hunks, 500_000),
    "changed files": (changed_files, 200_000),
    "arguments": (arguments, 200_000),
    "members": (members, 200_000),
    "depth": (depth, 120),
    "length of a text": (length, 10_000_000),
    "sources": (sources, 1_000),
}
