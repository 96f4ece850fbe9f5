"""Cases of a policy: which results its conditions check, what they allow, and policy files that are rejected."""

import json
from dataclasses import replace

from cases import *
from cases_change import D, FOUR, found, holds, place


def policy(*conditions, **members):
    """A policy with these conditions."""
    return text({"version": 1, "conditions": list(conditions), **members})


def condition(name="c", **members):
    return {"name": name, **members}


def error(rule, level="error", **members):
    """A result of that rule, whose message is its name."""
    return {"ruleId": rule, "level": level, "message": {"text": rule}, **members}


def rated(rating=None, rule="R", **members):
    """An error with that security severity; none if it is None."""
    properties = {} if rating is None else {"properties": {"security-severity": rating}}
    return error(rule, **properties, **members)


def told(rules):
    """The lines of the text report for new errors of these rules."""
    return "".join(f"-: error: {it} [{it}] (lint, new)\n" for it in rules).encode()


def differs(folder, name, wanted):
    """What is wrong with a file that must have these bytes."""
    found = (folder / name).read_bytes() if (folder / name).is_file() else b""
    return [f"{name}: {difference(wanted, found)}"] * (found != wanted)


def decided(name, conditions, results, last, gate=None, listed=None, words=(), **wanted):
    """A merge of these results with these conditions: the last lines of its summary, members of its gate object, and the
    rules of the results in its text report, in order."""
    files = {"a.sarif": log(run("lint", *results)), "p": policy(*conditions), **wanted.pop("files", {})}
    reports = wanted.pop("reports", {})

    def check(answer):
        summary = answer.stdout.decode().splitlines()
        wrong = [f"the summary ends with {summary[-len(last):]}, and not {last}"] * (summary[-len(last) :] != list(last))
        found = json.loads(answer.out or b"{}").get("properties", {}).get("gate", {})
        return wrong + [f"{name} is {found.get(name)}, and not {it}" for name, it in (gate or {}).items() if found.get(name) != it]

    def look(folder, kept):
        wrong = [] if listed is None else differs(folder, "t", told(listed))
        texts = {it: (folder / it).read_text() if (folder / it).is_file() else "" for it in reports}
        return wrong + [f"{it}: {fault}" for it in reports for fault in reports[it](texts[it])]

    status = 0 if last[-1].startswith("gate: pass") else 1
    asked = [it for kind in reports for it in (f"--{kind}", kind)]
    words = ["--out", "o", "--text", "t", *asked, "--policy", "p", *words, "a.sarif"]
    return Case("policy", name, words, files=files, status=status, check=check, look=look, **wanted)


# ---- One condition


def one():
    results = [error("E"), {**error("N"), "level": "note"}]
    row = b"-: error: E [E] (lint, new)\n-: note: N [N] (lint, new)\n"
    end = ["condition c: fail, hits 1, limit 0", "gate: fail, hits 1, conditions 1, failed 1"]
    counts = {state: {side: [0] * 4 for side in ("active", "suppressed")} for state in ("absent", "new", "unchanged", "updated")}
    counts["new"]["active"] = [1, 0, 1, 0]
    gate = {
        "conditions": [{"hits": 1, "limit": 0, "name": "c", "verdict": "fail"}],
        "counts": counts,
        "hits": 1,
        "runsWithoutResults": 0,
        "unchecked": 0,
        "unusedFilters": 0,
        "unusedSuppressions": 0,
        "verdict": "fail",
    }

    def check(answer):
        summary = answer.stdout.decode().splitlines()
        out = answer.out or b""
        wrong = [f"the summary ends with {summary[-2:]}"] * (summary[-2:] != end)
        return wrong + [f"the gate isn't {gate}"] * (b'{"properties":{"gate":' + text(gate) + b"}" not in out)

    look = lambda folder, kept: differs(folder, "t", row)
    files = {"a.sarif": log(run("lint", *results)), "p": policy(condition())}
    words = ["--out", "o", "--text", "t", "--policy", "p", "a.sarif"]
    yield Case("policy", "one condition", words, files=files, status=1, check=check, look=look)
    files = {**files, "p": MARK + policy(condition(level=None, states=None, max=None), **{"$schema": "policy.schema.json"})}
    yield Case("policy", "one condition with nulls", words, files=files, status=1, check=check, look=look)
    last = ["condition c: pass, hits 2, limit 2", "gate: pass, hits 2, conditions 1, failed 0"]
    yield decided("a level and a limit", [condition(level="note", max=2)], results, last)
    last = ["condition c: pass, hits 0, limit 0", "gate: pass, hits 0, conditions 1, failed 0"]
    yield decided("states", [condition(states=["unchanged"])], results, last, {"unchecked": 0}, [])


# ---- Several conditions, and their filters


def several():
    three = [error("R1"), error("R2"), error("R3")]
    one = condition("one", only=[{"ruleId": "R1"}, {"ruleId": "R2"}], max=1)
    two = condition("two", only=[{"ruleId": "R2"}], max=1)
    last = [
        "condition one: fail, hits 2, limit 1",
        "condition two: pass, hits 1, limit 1",
        "gate: fail, hits 2, conditions 2, failed 1",
    ]
    gate = {"hits": 2, "unchecked": 1, "unusedFilters": 0}
    yield decided("each condition has its own hits", [one, two], three, last, gate, ["R1", "R2"])
    last = [last[1], last[0], last[2]]
    yield decided("the order of conditions changes no hit", [two, one], three, last, gate, ["R1", "R2"])
    but = condition(**{"except": [{"ruleId": "R1"}, {"message": "R2"}, {"tool": "b"}]})
    last = ["condition c: fail, hits 1, limit 0", "gate: fail, hits 1, conditions 1, failed 1"]
    yield decided("what filters except", [but], three, last, {"unchecked": 2, "unusedFilters": 1}, ["R3"])
    both = condition(only=[{"ruleId": "R1"}, {"ruleId": "R2"}], **{"except": [{"ruleId": "R1"}]})
    yield decided("what filters except of what others match", [both], three, last, {"unchecked": 2, "unusedFilters": 0}, ["R2"])
    quiet = error("R3", suppressions=[{"kind": "external", "status": "accepted"}])
    yield decided("a suppressed result", [condition()], [error("R1"), quiet], last, {"hits": 1, "unchecked": 0}, ["R1"])


def listed():
    """The hits that stop the change come first, then the other hits, then the other reported results."""
    three = [error("R1"), {**error("R2"), "level": "note"}, error("R3")]
    one = condition("one", only=[{"ruleId": "R1"}], max=1)
    two = condition("two", only=[{"ruleId": "R2"}, {"ruleId": "R3"}])
    last = [
        "condition one: pass, hits 1, limit 1",
        "condition two: fail, hits 1, limit 0",
        "gate: fail, hits 2, conditions 2, failed 1",
    ]
    rows = b"-: error: R3 [R3] (lint, new)\n-: error: R1 [R1] (lint, new)\n-: note: R2 [R2] (lint, new)\n"
    reports = {
        "junit": holds('failures="1" skipped="1"'),
        "markdown": holds("## Gate: fail, 2 hits, 1 of 2 conditions failed\n", "\n| <code>two</code> | fail | 1 | 0 |  |\n"),
    }
    case = decided("what stops comes first", [one, two], three, last, reports=reports)
    yield replace(case, look=lambda folder, kept: case.look(folder, kept) + differs(folder, "t", rows))


def long():
    """A report of many conditions and many hits has room for both."""
    names = [f"{number:02}" + "." * 48 for number in range(100)]
    results = [{"ruleId": "R", "level": "error", "message": {"text": "x" * 508}} for _ in range(100)]
    last = [*(f"condition {it}: fail, hits 100, limit 0" for it in names), "gate: fail, hits 100, conditions 100, failed 100"]
    reports = {"markdown": holds("47 more hits are in the merged log.")}
    yield decided("100 conditions and 100 hits", [condition(it) for it in names], results, last, reports=reports)


# ---- Ratchets


def ratchets():
    new = [error("N1"), error("N2")]
    gone = [error("O1"), error("O2")]
    ratchet = condition("r", ratchet=True, states=["new"])

    def compared(name, before, limit, ratchet=ratchet, entry=None, words=()):
        verdict = "pass" if limit >= 2 else "fail"
        last = [f"condition r: {verdict}, hits 2, limit {limit}"]
        last += [f"gate: {verdict}, hits 2, conditions 1, failed {int(verdict == 'fail')}"]
        files = {"b": log(*before)}
        if entry is not None:
            files["s"] = rules(entry, version=5 if "max" in entry else 4)
            words = ["--suppress", "s", *words]
        return decided(name, [ratchet], new, last, files=files, words=["--baseline", "b", *words])

    both = [run("lint", *gone)]
    yield compared("as many as went away", both, 2)
    yield compared("more than went away", [run("lint", gone[0])], 1)
    yield compared("more than went away and are allowed", [run("lint", gone[0])], 2, {**ratchet, "max": 1})
    yield compared("a great limit that grows", both, 4294967297, {**ratchet, "max": 4294967295})
    yield compared("a note went away", [run("lint", gone[0], {**gone[1], "level": "note"})], 1)
    yield compared("a tool that didn't run", [run("lint", gone[0]), run("other", gone[1])], 1)
    quiet = {**gone[1], "suppressions": [{"kind": "external", "status": "accepted"}]}
    yield compared("an accepted result went away", [run("lint", gone[0], quiet)], 1)
    yield compared("an entry matches what went away", both, 1, entry={"ruleId": "O1"})
    yield compared("an entry under review", both, 1, entry={"ruleId": "O1", "status": "underReview"})
    past = {"ruleId": "O1", "expires": 20250101}
    yield compared("an entry that expired", both, 1, entry=past, words=["--today", "20250601"])
    yield compared("an entry with a limit", both, 1, entry={"ruleId": "O1", "max": 1})
    yield compared("what is excepted went away", both, 1, {**ratchet, "except": [{"ruleId": "O1"}]})
    for name, results, limit in (("without results", None, 1), ("with an empty list of results", [], 2)):
        other = {"tool": {"driver": {"name": "other"}}, **({} if results is None else {"results": results})}
        case = compared(f"a tool that ran {name}", [run("lint", gone[0]), run("other", gone[1])], limit)
        yield replace(case, files={**case.files, "a.sarif": log(run("lint", *new), other)})


# ---- Security severity


def severities():
    def hits(name, results, count, words=(), **members):
        last = [f"condition c: {'fail' if count else 'pass'}, hits {count}, limit 0"]
        last += [f"gate: {'fail' if count else 'pass'}, hits {count}, conditions 1, failed {int(count > 0)}"]
        members = {"minSecuritySeverity": "7.0", **members}
        return decided(name, [condition(**members)], results, last, words=words)

    for text_ in ("7.0", "7", "07.00", "10.0", "7.00000000000000000001", "70"):
        yield hits(f"the rating {text_}", [rated(text_)], 1)
    for text_ in ("6.9", "6.99999999999999999999", "0.7", "01"):
        yield hits(f"the rating {text_}", [rated(text_)], 0)
    yield hits("a long minimum", [rated("6.9999999999999999999")], 0, minSecuritySeverity="6.99999999999999999999")
    unknown = ["high", "", "7.", ".5", "+1", "1e0", 1, True, {}]
    yield hits("ratings that are no decimals", [rated(it, f"R{number}") for number, it in enumerate(unknown)], len(unknown))
    none = [rated(), error("R2", properties={"security-severity": None}), error("R3", properties={"security-severity": 9.8})]
    yield hits("no ratings", none, 3)
    yield hits("no ratings, which are skipped", none, 0, unrated="skip")
    yield hits("no ratings, which are counted", none, 3, unrated="count")
    for name, own, of_rule, count in (("the result's rating", "8", "6", 1), ("the rule's rating", "1", "9.1", 0), ("the rule alone", None, "9.1", 1)):
        case = hits(name, [], count)
        rule = {"id": "R", "properties": {"security-severity": of_rule}}
        tool = {"driver": {"name": "lint", "rules": [rule]}}
        given = log({"tool": tool, "results": [rated(own, ruleIndex=0)]})
        yield replace(case, files={**case.files, "a.sarif": given})


# ---- With a change


def changes():
    four = [{**it, "message": {"text": f"m{number}"}} for number, it in enumerate(FOUR)]
    conditions = [condition("lines", diff="lines"), condition("files", diff="files", max=1), condition("all", max=4)]
    last = [
        "diff: files 1, lines 1",
        "condition lines: fail, hits 1, limit 0, outside 3",
        "condition files: fail, hits 3, limit 1, outside 1",
        "condition all: pass, hits 4, limit 4",
        "gate: fail, hits 4, conditions 3, failed 2",
    ]
    decisions = [
        {"hits": 1, "limit": 0, "name": "lines", "outside": 3, "verdict": "fail"},
        {"hits": 3, "limit": 1, "name": "files", "outside": 1, "verdict": "fail"},
        {"hits": 4, "limit": 4, "name": "all", "verdict": "pass"},
    ]
    gate = {"diff": {"files": 1, "lines": 1}, "conditions": decisions, "hits": 4}
    yield decided("scopes", conditions, four, last, gate, files={"d": D}, words=["--diff", "d"])


# ---- Copies, and filters by snippets


def copies():
    five = [{**found(place(uri, 2)), "message": {"text": "m"}} for uri in ("a.c", "a.c", "b.c", "b.c", "b.c")]
    of_one = condition(only=[{"uri": "a.c"}], max=1)
    last = ["condition c: pass, hits 1, limit 1", "gate: pass, hits 1, conditions 1, failed 0"]
    said = {"words": ["--once"], "stderr": b"sarif_gate: 3 copies\n"}
    yield decided("copies", [of_one], five, last, {"unchecked": 1}, **said)
    last = ["condition c: fail, hits 2, limit 1", "gate: fail, hits 2, conditions 1, failed 1"]
    yield decided("copies that are counted", [of_one], five, last, {"unchecked": 3})
    spot = {"locations": [place("a.c", 2)]}
    two = [rated("2.0", **spot), rated("9.8", **spot)]
    for words, count in ((["--once"], 0), ([], 1)):
        verdict = "fail" if count else "pass"
        last = [f"condition c: {verdict}, hits {count}, limit 0", f"gate: {verdict}, hits {count}, conditions 1, failed {count}"]
        yield decided(f"ratings of copies {' '.join(words)}", [condition(minSecuritySeverity="7.0")], two, last, words=words)
    gone = [error("O1", **spot), error("O1", **spot)]
    ratchet = condition("r", ratchet=True, max=0)
    for words, limit in ((["--once"], 1), ([], 2)):
        last = [f"condition r: pass, hits 0, limit {limit}", "gate: pass, hits 0, conditions 1, failed 0"]
        words = [*words, "--baseline", "b"]
        yield decided(f"copies that went away {limit}", [ratchet], [], last, files={"b": log(run("lint", *gone))}, words=words)


def snippets():
    def shown(snippet):
        region = {} if snippet is None else {"region": {"startLine": 1, "snippet": {"text": snippet}}}
        return {"physicalLocation": {"artifactLocation": {"uri": "a.c"}, **region}}

    results = [found(shown(it), message={"text": "m"}) for it in ("x = 1", "x=2", None)]
    by_snippet = condition(only=[{"snippet": " x=1"}, {"snippet": ""}])
    last = ["condition c: fail, hits 1, limit 0", "gate: fail, hits 1, conditions 1, failed 1"]
    yield decided("filters by snippets", [by_snippet], results, last, {"unchecked": 2, "unusedFilters": 1})


# ---- Bad policies, and their place among the errors


# ---- For later merges


def kept(name, conditions, results, line, words, status=1, **wanted):
    """A merge of these results with these conditions that also writes a file for later merges: its line on standard error."""
    files = {"a.sarif": log(run("lint", *results)), "p": policy(*conditions), **wanted.pop("files", {})}
    words = ["--out", "o", "--policy", "p", *words, "a.sarif"]
    return Case("policy", name, words, files=files, status=status, stderr=f"sarif_gate: {line}\n".encode(), **wanted)


def accepting():
    """Exactly the hits of conditions are accepted, and those within a limit too."""
    three = [error("R1"), error("R2"), error("R3")]
    only = [condition("one", only=[{"ruleId": "R1"}], max=1), condition("two", only=[{"ruleId": "R2"}])]
    accept = ["--suppress-out", "n", "--accept"]
    rules = lambda folder, kept: [it["ruleId"] for it in json.loads((folder / "n").read_text())["suppressions"]]
    look = lambda folder, kept: [f"accepted: {rules(folder, kept)}"] * (rules(folder, kept) != ["R1", "R2"])
    yield kept("accepting hits of conditions", only, three, "2 accepted, 0 stay, 0 pruned, 2 entries", accept, look=look)
    twice = [*three[:2], error("R3", level="note")]
    none = [condition("none", only=[{"ruleId": "R9"}]), condition("notes", level="note", only=[{"ruleId": "R3"}])]
    yield kept("accepting what no option makes a hit", none, twice, "1 accepted, 0 stay, 0 pruned, 1 entries", accept)
    quiet = error("R1", suppressions=[{"kind": "external", "status": "rejected"}])
    stays = [condition("one", only=[{"ruleId": "R1"}])]
    yield kept("accepting a hit with suppressions", stays, [quiet, *three[1:]], "0 accepted, 1 stay, 0 pruned, 0 entries", accept)
    absent = {"files": {"b": log(run("lint", error("O1"), error("O2")))}}
    gone = [condition("gone", states=["absent", "new"], only=[{"ruleId": "O1"}, {"ruleId": "R1"}])]
    words = [*accept, "--baseline", "b"]
    yield kept("accepting with absent hits", gone, three, "1 accepted, 1 stay, 0 pruned, 1 entries", words, **absent)
    for scope, inside in (("lines", 1), ("files", 3)):
        line = f"{inside} accepted, 0 stay, 0 pruned, 1 entries"
        change = [condition("change", diff=scope)]
        yield kept(f"accepting in the change by {scope}", change, FOUR, line, [*accept, "--diff", "d"], files={"d": D})


def choosing():
    """A place and a rule are those of hits of conditions."""
    three = [error(rule, locations=[place(*at)]) for rule, at in (("R1", ("a.c", 3)), ("R2", ("a.c", 3)), ("R2", ("b.c", 9)))]
    only = [condition("two", only=[{"ruleId": "R2"}])]
    accept = ["--suppress-out", "n", "--accept"]
    yield kept("a place of hits", only, three, "1 accepted, 0 alike, 1 stay, 0 pruned, 1 entries", [*accept, "--at", "a.c:3"])
    yield kept("a rule of hits", only, three, "2 accepted, 0 alike, 0 stay, 0 pruned, 2 entries", [*accept, "--rule", "R2"])
    for words, fault in ((["--rule", "R1"], "--rule 0: NoHit"), (["--at", "b.c:9", "--at", "c.c"], "--at 1: NoHit")):
        look = lambda folder, kept: [f"{it} was written" for it in "no" if (folder / it).exists()]
        wanted = {"status": 2, "stdout": b"", "look": look}
        yield kept(f"no hit for {' '.join(words)}", only, three, fault, [*accept, *words], **wanted)
    absent = {"files": {"b": log(run("lint", error("O1", locations=[place("o.c", 1)])))}}
    gone = [condition("gone", states=["absent", "new"])]
    words = [*accept, "--baseline", "b", "--at", "o.c:1"]
    yield kept("a place of an absent hit", gone, three, "0 accepted, 0 alike, 4 stay, 0 pruned, 0 entries", words, **absent)


def knowing():
    """New hits of conditions don't become known, with a diff and without it; other new results do."""
    three = [error("R1"), error("R2"), error("R3", level="note")]
    only = [condition("one", only=[{"ruleId": "R1"}], max=9)]
    known = ["--known", "k"]
    yield kept("knowing what no condition makes a hit", only, three, "2 known, 1 left out, 0 kept", known, 0)
    yield kept("adopting hits of conditions", only, three, "3 known, 0 left out, 0 kept", [*known, "--adopt"], 0)
    notes = [condition("notes", level="note", max=9)]
    yield kept("knowing less than without a policy", notes, three, "0 known, 3 left out, 0 kept", known, 0)
    change = [condition("change", diff="lines", level="none", max=9)]
    yield kept("knowing with a diff", change, FOUR, "0 known, 4 left out, 0 kept", [*known, "--diff", "d"], 0, files={"d": D})
    before = {"files": {"b": log(run("lint", error("R1"), error("O1"))), "d": D}}
    yield kept("knowing what was known", only, three, "3 known, 0 left out, 0 kept", [*known, "--baseline", "b"], 0, **before)


def bad(name, given, fault, words=(), **wanted):
    """A policy file that is rejected. No output is written."""
    files = {"a.sarif": log(run("lint")), "p": given, **wanted.pop("files", {})}
    words = ["--out", "o", "--policy", "p", *words, "a.sarif"]
    look = lambda folder, kept: ["o was written"] * (folder / "o").exists()
    return Case("policy", name, words, files=files, look=look, **refused(fault), **wanted)


BAD_CONDITIONS = [
    5,
    None,
    {},
    {"name": None},
    *({"name": it} for it in (5, "", " c", "c ", "a:b", "a/b", "\u00e9", "a\nb", "x" * 51)),
    condition(Level="error"),
    condition(failOn="error"),
    condition(level="high"),
    condition(level=1),
    condition(states=[]),
    condition(states="new"),
    condition(states=["new", "new"]),
    condition(states=["old"]),
    *(condition(max=it) for it in (1.0, -1, 4294967296, "1")),
    *(condition(ratchet=it) for it in (1, "true")),
    *(condition(**{kind: it}) for kind in ("only", "except") for it in ([], {}, "R1", [{"ruleId": "R1"}] * 1001)),
    *(condition(minSecuritySeverity=it) for it in (7, "", "7.", ".5", "+1", "1e0", "high")),
    condition(minSecuritySeverity="7.0", unrated="drop"),
    condition(unrated="skip"),
    condition(unrated="count", minSecuritySeverity=None),
    condition(diff="line"),
    condition(diff=True),
    condition(ratchet=True, states=["new", "absent"]),
    condition(ratchet=True, diff="lines"),
    condition(diff="files", states=["absent"]),
]


def faults():
    for given in (b"", b"{", b"[1,]", b"\xff", b"[" * 1000 + b"]" * 1000):
        yield bad(f"no JSON: {given[:20]!r}", given, "policy: NotJson")
    for given in (b"[]", b"5", b"null", text({"version": 1}), text({"version": 1, "conditions": {}}), policy(condition(), max=0)):
        yield bad(f"no policy: {given[:60]!r}", given, "policy: NotPolicy")
    for version in (2, 0, -1, 1.0, "1", True, None):
        yield bad(f"version {version!r}", policy(condition(), version=version), "policy: WrongVersion")
    yield bad("no version", text({"conditions": []}), "policy: WrongVersion")
    yield bad("no condition", policy(), "policy: NoCondition")
    yield bad("101 conditions", policy(*[condition(f"c{number}") for number in range(101)]), "policy: TooMany")
    for number, it in enumerate(BAD_CONDITIONS):
        name = f"condition {number}: {text(it)[:60]!r}"
        yield bad(name, policy(condition("first"), it), "policy, condition 1: BadCondition", ["--diff", "d"], files={"d": D})


def filters():
    good = {"ruleId": "R1"}
    for it in ({"expires": 20270101}, {"tool": 5}, {"max": 1}, {"snippet": 5}, {"justification": "x"}, {"fingerprints": []}, 5, []):
        given = policy(condition("a"), condition(only=[good, it]))
        yield bad(f"the filter {text(it).decode()}", given, "policy, condition 1, only 1: BadFilter")
    yield bad("a filter with another member", policy(condition(only=[{"snippet": "x", "max": 1}])), "policy, condition 0, only 0: BadFilter")
    for it in ({}, {"tool": None}, {"snippet": None}):
        given = policy(condition(**{"except": [good, good, it]}))
        yield bad(f"the empty filter {text(it).decode()}", given, "policy, condition 0, except 2: EmptyFilter")
    both = condition(only=[{}], **{"except": [5]})
    yield bad("first the filters of only", policy(both), "policy, condition 0, only 0: EmptyFilter")
    both = condition(level="x", only=[{}])
    yield bad("first the condition", policy(both), "policy, condition 0: BadCondition")
    same = [condition("a"), condition("b"), condition("a", diff="lines")]
    yield bad("a name twice", policy(*same), "policy, condition 2: SameName")
    yield bad("first the filters, then the name", policy(condition(), condition(only=[5])), "policy, condition 1, only 0: BadFilter")
    yield bad("a diff that isn't there", policy(condition("a"), condition("b", diff="lines")), "policy, condition 1: NeedsDiff")
    yield bad("conditions in order", policy(condition("a", diff="lines"), 5), "policy, condition 0: NeedsDiff")


def order():
    bad_log = log(run("lint", {"kind": "x"}))
    words = ["--baseline", "b", "--suppress", "s", "--policy", "p", "--diff", "d", "--out", "o", "a.sarif"]
    files = {"a.sarif": bad_log, "b": b"{", "s": rules({}), "p": b"{}", "d": b""}
    for fault, mended in [
        ("baseline 0: NotJson", {"b": log(run("lint"))}),
        ("suppressions, entry 0: EmptyMatch", {"s": rules()}),
        ("policy: NotPolicy", {"p": policy(condition())}),
        ("diff: NoChange", {"d": D}),
        ("log 0, run 0, result 0: BadKind", {"a.sarif": log(run("lint"))}),
    ]:
        yield Case("policy", f"the first error is {fault}", words, files=files, **refused(fault))
        files = {**files, **mended}
    yield Case("policy", "then there is none", words, files=files)
    for words, fault in [
        ("--suppress no --policy none", "suppressions: ReadFailed"),
        ("--policy no --diff none", "policy: ReadFailed"),
        ("--policy p --diff none", "diff: ReadFailed"),
    ]:
        words = [*words.split(), "--out", "o", "a.sarif"]
        yield Case("policy", f"the first file that isn't there: {fault}", words, files=files, **refused(fault))


def arguments():
    """Arguments that don't fit together."""
    given = policy(condition())
    files = {"a.sarif": log(run("lint")), "p": given, "d": D}
    for words in [
        "--out o --policy p --states new a.sarif",
        "--out o --policy p --fail-on error a.sarif",
        "--out o --policy p --max 0 a.sarif",
        "--out o --policy p --diff d --diff-scope lines a.sarif",
        "--out o --policy p --policy p a.sarif",
        "--out p --policy p a.sarif",
        "--out o --text p --policy p a.sarif",
        "--out - --policy - a.sarif",
    ]:

        def look(folder, kept):
            same = (folder / "p").read_bytes() == given
            return ["p changed"] * (not same) + ["o was written"] * (folder / "o").exists()

        yield Case("policy", f"bad usage: {words}", words.split(), files=files, stdin=given, status=2, stdout=b"", look=look)
    named = {"a.sarif": log(run("lint")), "-": given}
    yield Case("policy", "a policy named -", "--out o --policy - a.sarif".split(), files=named, stdin=b"{")


def cases():
    shapes = (one, several, listed, long, ratchets, severities, changes, copies, snippets)
    shapes = (*shapes, accepting, choosing, knowing, faults, filters, order, arguments)
    for part in shapes:
        yield from part()
