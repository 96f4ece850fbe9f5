"""Cases of the life of a finding: accepting, pruning, unused entries, and what is known."""

import json

from cases import *

FINDING = ruled(level="error")
KNOWN_FINDING = ruled(level="warning")


def pretty(value):
    """The text for people: two spaces for each level, members in the order of their names, and a newline."""
    return (json.dumps(value, indent=2, sort_keys=True, ensure_ascii=False) + "\n").encode()


def entries(*given, version=4):
    return {"suppressions": list(given), "version": version}


def known(*runs):
    return {"runs": list(runs), "version": "2.1.0"}


def rerun(name, *results, **members):
    """A run as the known log has it."""
    return {"results": list(results), "tool": {"driver": {"name": name}}, **members}


def placed(**location):
    """The members of a result at this artifact location."""
    return {"locations": [{"physicalLocation": {"artifactLocation": location}}]}


def based(uri, base):
    return {"uri": uri, "uriBaseId": base}


def other(rule, level="error"):
    return plain(level=level, ruleId=rule)


def life(name, words, log, files=None, said=(), last=None, made=None, gone=(), holds=(), **wanted):
    """A case with the log `a` and the output `o`. `said` are lines of standard error, in order; `last` is the last
    line of the summary; `made` are files with their bytes; `gone` are files that may not exist; the merged log
    holds each of `holds`."""
    given = {"a": log if isinstance(log, bytes) else text(log), **(files or {})}
    words = words.split() if isinstance(words, str) else list(words)
    status = wanted.setdefault("status", 0)
    lines = [it if isinstance(it, str) else it.decode() for it in said]

    def check(answer):
        errors = answer.stderr.decode().splitlines()
        wrong = [f"standard error says {errors}, and not {lines}"] * (errors[: len(lines)] != lines)
        summary = (answer.stdout + answer.stderr).decode(errors="replace").splitlines()
        if last is not None and last not in summary:
            wrong.append(f"the summary is {summary[-1:]}, and not {last!r}")
        out = (answer.out or b"").decode()
        return wrong + [f"o doesn't hold {it}" for it in holds if it not in out]

    def look(folder, kept):
        wrong = []
        for file, bytes_ in (made or {}).items():
            found = (folder / file).read_bytes() if (folder / file).is_file() else None
            wrong += [f"{file}: {difference(bytes_, found)}"] * (found != bytes_)
        wrong += [f"{it} was written" for it in gone if (folder / it).exists()]
        return wrong

    wanted.setdefault("check", check)
    gone = (*gone, "o") if status == 2 else gone
    return Case("life", name, [*words, "--out", "o", "a"], files=given, look=look, **wanted)


def stops(fault):
    return {"status": 2, "said": [f"sarif_gate: {fault}"]}


# ---- The entry that accepts a result


def accepts(name, result, entry, more=(), **run_members):
    words = ["--accept", "--suppress-out", "n", *more]
    return life(
        f"the entry of {name}",
        words,
        log(run("lint", result, **run_members)) if "tool" not in run_members else text(known(run_members)),
        status=1,
        said=["sarif_gate: 1 accepted, 0 stay, 0 pruned, 1 entries"],
        made={"n": pretty(entries(entry))},
    )


GUID = "0f14d0ab-9605-4a62-a9e4-5ed26688389b"
FULL = {"fingerprints": {"f/v1": "x", "f/v2": None, "e": "y"}}
PARTIAL = {"partialFingerprints": {"p/v1": "x", "q": None}}


def entries_of_results():
    here = {"ruleId": "R1", "tool": "lint"}
    marked_guid = {"correlationGuid": f"urn:uuid:{GUID.upper()}"}
    both = {"fingerprints": {"e": "y", "f/v1": "x"}}
    yield accepts("a result with a GUID", {**FINDING, **marked_guid, **FULL, **PARTIAL, **placed(uri="a.c")}, {"guid": GUID, **here})
    yield accepts("fingerprints in a file", {**FINDING, **FULL, **PARTIAL, **placed(uri="a.c", uriBaseId="S")}, {**both, **here, "uri": "a.c"})
    yield accepts("fingerprints alone", {**FINDING, **FULL}, {**both, **here})
    nulls = {"fingerprints": {"f/v1": None}}
    yield accepts(
        "partial fingerprints",
        {**FINDING, **nulls, **PARTIAL, **placed(uri="a.c")},
        {"partialFingerprints": {"p/v1": "x"}, **here, "uri": "a.c"},
    )
    empty = {"fingerprints": {}, "partialFingerprints": None}
    yield accepts("an empty uri", {**FINDING, **empty, **placed(uri="")}, {"message": "m", **here, "uri": ""})
    yield accepts("a message alone", FINDING, {"message": "m", **here})
    bare_rule = {"ruleId": "", "tool": "lint"}
    said = {"message": {"id": "i", "arguments": ["u", "v"]}, "level": "error"}
    yield accepts("a message's id", said, {"messageArguments": ["u", "v"], "messageId": "i", **bare_rule})
    said = {"message": {"text": "m", "id": "i", "arguments": []}, "level": "error"}
    yield accepts("a text with an id", said, {"message": "m", "messageId": "i", **bare_rule})
    yield accepts("a level alone", {"level": "error"}, bare_rule)
    tool = {"driver": {"name": "lint", "rules": [{"id": "R7"}]}}
    run_members = {
        "artifacts": [{"location": {"uri": "b.c"}}],
        "results": [plain(level="error", ruleIndex=0, **placed(index=0))],
        "tool": tool,
    }
    yield accepts("an artifact and a rule by index", None, {"message": "m", "ruleId": "R7", "tool": "lint", "uri": "b.c"}, **run_members)
    more = ["--reason", "ticket 17", "--until", "20270101", "--today", "20260101"]
    dated = {"expires": 20270101, "justification": "ticket 17", "message": "m", **here}
    yield accepts("a reason and a last day", FINDING, dated, more)
    more = ["--reason=", "--until", "20260101", "--today", "20260101"]
    dated = {"expires": 20260101, "justification": "", "message": "m", **here}
    yield accepts("an empty reason, until today", FINDING, dated, more)


def new_files():
    one_entry = {"message": "m", "ruleId": "R1", "tool": "lint"}
    file = {
        "version": 1,
        "$schema": "x",
        "rank": 1.5,
        "z": [1, [1.5]],
        "note": {"a": [{"b": 1.5, "c": []}], "d": {}},
        "suppressions": [{"tool": "b", "guid": None, "fingerprints": {"f": None}, "status": "rejected"}],
    }
    old = {"fingerprints": {"f": None}, "guid": None, "status": "rejected", "tool": "b"}
    new = {"$schema": "x", "note": {"a": [{"c": []}], "d": {}}, **entries(old, one_entry)}
    yield life(
        "other members of the file stay, without fractions",
        "--suppress-out n --accept --suppress s",
        log(run("lint", FINDING)),
        {"s": text(file)},
        status=1,
        said=["sarif_gate: 1 accepted, 0 stay, 0 pruned, 2 entries"],
        made={"n": pretty(new)},
    )
    yield life(
        "hits with one entry",
        "--suppress-out n --accept",
        log(run("lint", FINDING, {**FINDING, "rank": 1}, other("R2"))),
        status=1,
        said=["sarif_gate: 3 accepted, 0 stay, 0 pruned, 2 entries"],
        made={"n": pretty(entries(one_entry, {**one_entry, "ruleId": "R2"}))},
    )
    held = [{"kind": "inSource"}, {"kind": "external", "status": "rejected"}]
    yield life(
        "a hit with suppressions stays",
        "--suppress-out n --accept",
        log(run("lint", {**FINDING, "suppressions": held})),
        status=1,
        said=["sarif_gate: 0 accepted, 1 stay, 0 pruned, 0 entries"],
        made={"n": pretty(entries())},
    )
    review = {"tool": "lint", "status": "underReview"}
    yield life(
        "a hit under review stays",
        "--suppress-out n --accept --suppress s",
        log(run("lint", FINDING)),
        {"s": rules(review, version=2)},
        status=1,
        said=["sarif_gate: 0 accepted, 1 stay, 0 pruned, 1 entries"],
        made={"n": pretty(entries(review))},
    )
    yield life(
        "an absent hit stays",
        "--suppress-out n --accept --baseline b --states new,absent",
        log(run("lint", other("R2"))),
        {"b": log(run("lint", FINDING))},
        status=1,
        said=["sarif_gate: 1 accepted, 1 stay, 0 pruned, 1 entries"],
        made={"n": pretty(entries({**one_entry, "ruleId": "R2"}))},
    )
    dated = {"expires": 20270101, **one_entry}
    yield life(
        "an accepted finding on the last day",
        "--suppress n --today 20270101",
        log(run("lint", FINDING, ruled())),
        {"n": pretty(entries(dated))},
        last="gate: pass, hits 0, max 0",
        holds=['"new":{"active":[0,0,0,0],"suppressed":[1,1,0,0]}', '"unusedSuppressions":0'],
    )
    yield life(
        "an accepted finding on the day after",
        "--suppress n --today 20270102",
        log(run("lint", FINDING)),
        {"n": pretty(entries(dated))},
        status=1,
        last="gate: fail, hits 1, max 0",
    )
    many = {"uri": "b"}
    yield life(
        "10,000 entries and one more",
        "--suppress-out n --accept --suppress s",
        log(run("lint", FINDING)),
        {"s": rules(*[many] * 10_000)},
        gone=["n"],
        **stops("suppressions: TooMany"),
    )
    yield life(
        "10,000 entries that go, and one more",
        "--suppress-out n --accept --prune --suppress s",
        log(run("lint", FINDING)),
        {"s": rules(*[many] * 10_000)},
        status=1,
        said=["sarif_gate: 1 accepted, 0 stay, 10000 pruned, 1 entries"],
        made={"n": pretty(entries(one_entry))},
    )


# ---- Pruning


def pruning():
    mixed = [
        {"tool": "lint", "ruleId": "R9"},
        {"ruleId": "R1", "status": "rejected"},
        {"tool": "lint", "expires": 20250131},
        {"tool": "lint", "expires": 20250201},
        {"tool": "b"},
        {"tool": "b", "expires": 20250131},
        {"ruleId": "R9"},
    ]
    left = [{"ruleId": "R1", "status": "rejected"}, {"expires": 20250201, "tool": "lint"}, {"tool": "b"}]
    yield life(
        "expired and unmatched entries go",
        "--suppress s --suppress-out n --prune --today 20250201",
        log(run("lint", FINDING)),
        {"s": rules(*mixed, version=2)},
        status=1,
        said=["sarif_gate: 0 accepted, 0 stay, 4 pruned, 3 entries"],
        made={"n": pretty(entries(*left))},
    )
    bare_run = {"tool": {"driver": {"name": "lint"}}}
    yield life(
        "an entry of a tool that failed isn't pruned",
        "--suppress s --suppress-out n --prune",
        log(run("lint"), run("b"), bare_run),
        {"s": rules({"tool": "lint"}, {"tool": "b"}, {"ruleId": "R9"})},
        said=["sarif_gate: 0 accepted, 0 stay, 1 pruned, 2 entries"],
        made={"n": pretty(entries({"tool": "lint"}, {"ruleId": "R9"}))},
    )
    yield life(
        "a match with an absent result isn't one",
        "--suppress s --suppress-out n --prune --baseline b",
        log(run("lint")),
        {"b": log(run("lint", FINDING)), "s": rules({"tool": "lint"})},
        said=["sarif_gate: 0 accepted, 0 stay, 1 pruned, 0 entries"],
        made={"n": pretty(entries())},
    )


def nothing_more():
    """Only what is requested is made."""
    yield life(
        "without options for later merges nothing is made for them",
        "",
        log(run("lint", FINDING)),
        status=1,
        stderr=b"",
        gone=["n", "k", "u"],
    )


def unused_entries():
    given = [
        {"tool": "b"},
        {"tool": "lint"},
        {"tool": "lint", "uri": None, "expires": 20250131},
        {"expires": 20250131, "tool": "\n\u0085##"},
    ]
    lines = (
        'entry 0: unmatched: {"tool":"b"}\n'
        'entry 2: expired: {"expires":20250131,"tool":"lint","uri":null}\n'
        'entry 3: expired: {"expires":20250131,"tool":"\\n # #"}\n'
    )
    yield life(
        "unused entries, expired and unmatched",
        "--suppress s --unused u --today 20250201",
        log(run("lint", FINDING)),
        {"s": rules(*given, version=2)},
        holds=['"unusedSuppressions":3'],
        made={"u": lines.encode()},
    )
    wide = [{"tool": "x" * 990}, {"tool": "x" * 989}]
    lines = 'entry 0: unmatched: {"tool":"' + "x" * 990 + '"\u2026\nentry 1: unmatched: {"tool":"' + "x" * 989 + '"}\n'
    yield life(
        "an unused entry is cut where it is long",
        "--suppress s --unused u",
        log(run("lint", FINDING)),
        {"s": rules(*wide)},
        status=1,
        made={"u": lines.encode()},
    )
    yield life(
        "no unused entry empties an old list",
        "--suppress s --unused u",
        log(run("lint", FINDING)),
        {"s": rules({"tool": "lint"}), "u": b"old\n"},
        made={"u": b""},
    )


# ---- What is known


def written_known():
    yield life(
        "a kind, and a level that is the default",
        "--known k --adopt",
        log(run("lint", {"kind": "open", "level": "note"}, {"kind": "fail", "ruleId": ""})),
        made={"k": pretty(known(rerun("lint", {"kind": "open", "message": {}}, {"level": "warning", "message": {}})))},
    )
    message = {"text": "", "id": "i", "arguments": ["u", "v"]}
    result = {
        "message": {**message, "markdown": "x"},
        "correlationGuid": "{" + GUID.upper() + "}",
        **FULL,
        **PARTIAL,
        **placed(**based("a.c", "S")),
    }
    wanted = {
        "correlationGuid": GUID,
        "fingerprints": {"e": "y", "f/v1": "x"},
        "level": "warning",
        **placed(**based("a.c", "S")),
        "message": message,
        "partialFingerprints": {"p/v1": "x"},
    }
    yield life(
        "a GUID, fingerprints and a place with a base",
        "--known k --adopt",
        log(run("lint", result)),
        made={"k": pretty(known(rerun("lint", wanted)))},
    )
    tool = {"driver": {"name": "lint", "rules": [{"id": "R7", "defaultConfiguration": {"level": "note"}}]}}
    whole = {
        "artifacts": [{"location": {"uri": "b.c"}}],
        "results": [plain(ruleIndex=0, **placed(index=0, uriBaseId="T"))],
        "tool": tool,
    }
    yield life(
        "a rule and an artifact by index",
        "--known k --adopt",
        log(whole),
        made={"k": pretty(known(rerun("lint", plain(level="note", ruleId="R7", **placed(uri="b.c")))))},
    )
    held = [
        {"kind": "inSource"},
        {"kind": "external", "status": "rejected", "justification": "j"},
        {"kind": "inSource", "status": None},
    ]
    statuses = [{"kind": "external", "status": it} for it in ("accepted", "rejected", "accepted")]
    yield life("no runs at all", "--known k --adopt", log(), made={"k": pretty(known())})
    yield life(
        "the statuses of its own suppressions alone",
        "--known k --adopt",
        log(run("lint", {**FINDING, "suppressions": held})),
        status=1,
        made={"k": pretty(known(rerun("lint", {**FINDING, "suppressions": statuses})))},
    )
    yield life(
        "the statuses of its own suppressions",
        "--known k --adopt --suppress s",
        log(run("lint", {**FINDING, "suppressions": held})),
        {"s": rules({"tool": "lint", "status": "underReview"})},
        status=1,
        made={"k": pretty(known(rerun("lint", {**FINDING, "suppressions": statuses})))},
    )
    yield life(
        "a run without results has no run",
        "--known k --adopt",
        log(run("lint", ruled()), run("lint"), run("lint", ruled())),
        made={"k": pretty(known(rerun("lint", KNOWN_FINDING), rerun("lint", KNOWN_FINDING)))},
    )
    base = {"location": {"uriBaseId": "S"}}
    whole = {
        "artifacts": [{}, base],
        "results": [plain(**placed(index=number)) for number in (1, 0, 1)],
        "tool": {"driver": {"name": "lint"}},
    }
    found = [
        plain(level="warning", **placed(index=0)),
        plain(level="warning"),
        plain(level="warning", **placed(index=1)),
    ]
    yield life(
        "places with a base alone",
        "--known k --adopt",
        log(whole),
        made={"k": pretty(known(rerun("lint", *found, artifacts=[base, base])))},
    )


def left_out():
    until = {"tool": "lint", "expires": 20250131}
    words = "--known k --adopt --today 20250131 --suppress s"
    yield life(
        "a finding accepted until a day isn't known",
        words,
        log(run("lint", FINDING)),
        {"s": rules(until, version=2)},
        said=["sarif_gate: 0 known, 1 left out, 0 kept"],
        made={"k": pretty(known())},
    )
    yield life(
        "a finding also accepted for ever is known",
        words,
        log(run("lint", FINDING)),
        {"s": rules(until, {"ruleId": "R1"}, version=2)},
        said=["sarif_gate: 1 known, 0 left out, 0 kept"],
        made={"k": pretty(known(rerun("lint", FINDING)))},
    )
    accepted = [{"kind": "external", "status": "accepted"}]
    yield life(
        "a finding suppressed in its source is known",
        words,
        log(run("lint", {**FINDING, "suppressions": [{"kind": "inSource"}]})),
        {"s": rules(until, version=2)},
        made={"k": pretty(known(rerun("lint", {**FINDING, "suppressions": accepted})))},
    )
    yield life(
        "a new hit isn't known, an updated one is",
        "--known k --baseline b",
        log(run("lint", ruled(), FINDING, other("R2"))),
        {"b": log(run("lint", plain(ruleId="R2")))},
        status=1,
        said=["sarif_gate: 2 known, 1 left out, 0 kept"],
        last="gate: fail, hits 2, max 0",
        made={"k": pretty(known(rerun("lint", KNOWN_FINDING, other("R2"))))},
    )
    yield life(
        "a new hit is known if it is adopted",
        "--known k --adopt",
        log(run("lint", FINDING)),
        status=1,
        said=["sarif_gate: 1 known, 0 left out, 0 kept"],
        made={"k": pretty(known(rerun("lint", FINDING)))},
    )
    yield life(
        "a new suppressed finding isn't known",
        "--known k --baseline b --suppress s",
        log(
            run(
                "lint",
                FINDING,
                {**FINDING, "suppressions": [{"kind": "inSource"}]},
                other("R2"),
                plain(ruleId="R3"),
            )
        ),
        {"b": log(run("lint", other("R2"))), "s": rules({"ruleId": "R2"}, {"ruleId": "R3"})},
        status=1,
        said=["sarif_gate: 1 known, 3 left out, 0 kept"],
        made={"k": pretty(known(rerun("lint", other("R2"))))},
    )
    yield life(
        "a new hit stays new",
        "--known k --baseline k",
        log(run("lint", FINDING)),
        {"k": pretty(known())},
        status=1,
        last="gate: fail, hits 1, max 0",
        made={"k": pretty(known())},
    )


def kept_known():
    gone = {"baselineState": "absent"}
    yield life(
        "a tool without a log is not forgotten",
        "--known k --adopt --baseline b",
        log(run("lint", FINDING)),
        {"b": log(run("b", ruled()), run("lint", ruled()), run("b", FINDING), run("c"))},
        status=1,
        said=["sarif_gate: 3 known, 0 left out, 2 kept"],
        made={"k": pretty(known(rerun("b", KNOWN_FINDING), rerun("b", FINDING), rerun("lint", FINDING)))},
    )
    yield life(
        "tools that no input run has stay known",
        "--known k --adopt --baseline b --baseline c",
        log(run("lint", FINDING)),
        {
            "b": log(run("b", ruled()), run("lint", ruled()), run("b", FINDING, {**FINDING, **gone})),
            "c": log(run("b", ruled(**gone)), run("c"), run("b", FINDING)),
        },
        status=1,
        made={
            "k": pretty(
                known(
                    rerun("b", KNOWN_FINDING),
                    rerun("b", FINDING),
                    rerun("b", FINDING),
                    rerun("lint", FINDING),
                )
            )
        },
    )
    # Tools in the order of the baseline and then of the log; input runs of a tool before its baseline runs; no run
    # without results. The run of b failed, so its baseline results are kept.
    failed = {"invocations": [{"executionSuccessful": False}]}
    numbered = lambda tool, number: rerun(tool, {"level": "warning", "message": {}, "ruleId": number})
    tools = known(*(numbered(*it) for it in (("b", "5"), ("b", "1"), ("b", "2"), ("lint", "4"), ("c", "3"))))
    yield life(
        "runs are listed tool by tool",
        "--known k --adopt --baseline b",
        log(run("c", {"ruleId": "3"}), run("lint", {"ruleId": "4"}), run("lint"), run("b", {"ruleId": "5"}, **failed)),
        {"b": log(run("b", {"ruleId": "1"}), run("lint"), run("b", {"ruleId": "2"}))},
        made={"k": pretty(tools)},
    )
    words = "--known k --adopt --baseline b"
    yield life("a known log is its own known log", words, log(), {"b": pretty(tools)}, made={"k": pretty(tools)})
    bare_run = {"tool": {"driver": {"name": "lint"}}}
    yield life(
        "a tool with a failed run stays known",
        "--known k --adopt --baseline b",
        log(bare_run, run("lint", ruled()), run("c")),
        {"b": log(run("lint", other("R2"), ruled()), run("c", ruled()))},
        said=["sarif_gate: 2 known, 0 left out, 1 kept"],
        made={"k": pretty(known(rerun("lint", KNOWN_FINDING), rerun("lint", other("R2"))))},
    )


def at_lines(uri="a.c", **region):
    """A finding at this region."""
    return {**FINDING, "locations": [{"physicalLocation": {"artifactLocation": {"uri": uri}, "region": region}}]}


def known_with_regions():
    """What is known with version 3 of matching."""
    numbers = {"startLine": 3, "startColumn": 2, "endLine": 4, "endColumn": 4294967295}
    given = [
        ("a region and a snippet", numbers | {"snippet": {"text": " x = 1\n"}}, numbers | {"snippet": {"text": " x = 1\n"}}),
        ("a region alone", {"startLine": 3, "charOffset": 7}, {"startLine": 3}),
        ("a snippet alone", {"snippet": {"text": "x", "rendered": {"text": "y"}}}, {"snippet": {"text": "x"}}),
        ("a blank snippet", {"startLine": 3, "endLine": 0, "snippet": {"text": " \t"}}, {"startLine": 3}),
    ]
    for name, region, written in given:
        wanted = {"3": at_lines(**written), "2": {**FINDING, **placed(uri="a.c")}}
        for version, result in wanted.items():
            yield life(
                f"version {version} knows {name}",
                f"--matching {version} --known k --adopt",
                log(run("lint", at_lines(**region))),
                status=1,
                said=["sarif_gate: 1 known, 0 left out, 0 kept"],
                made={"k": pretty(known(rerun("lint", result)))},
            )
    yield life(
        "version 3 knows a place without a region",
        "--matching 3 --known k --adopt",
        log(run("lint", at_lines(), FINDING)),
        status=1,
        made={"k": pretty(known(rerun("lint", {**FINDING, **placed(uri="a.c")}, FINDING)))},
    )
    context = at_lines(startLine=3)
    context["locations"][0]["physicalLocation"]["contextRegion"] = {"startLine": 3, "snippet": {"text": "x"}}
    yield life(
        "version 3 knows the snippet of a context region",
        "--matching 3 --known k --adopt",
        log(run("lint", context)),
        status=1,
        made={"k": pretty(known(rerun("lint", at_lines(startLine=3, snippet={"text": "x"}))))},
    )
    failed = {"invocations": [{"executionSuccessful": False}]}
    numbered = lambda tool, number: rerun(tool, {"level": "warning", "message": {}, "ruleId": number})
    tools = known(*(numbered(*it) for it in (("b", "1"), ("b", "2"), ("b", "5"), ("lint", "4"), ("c", "3"))))
    yield life(
        "with version 3 runs of the baseline come before runs of the logs",
        "--matching 3 --known k --adopt --baseline b",
        log(run("c", {"ruleId": "3"}), run("lint", {"ruleId": "4"}), run("lint"), run("b", {"ruleId": "5"}, **failed)),
        {"b": log(run("b", {"ruleId": "1"}), run("lint"), run("b", {"ruleId": "2"}))},
        made={"k": pretty(tools)},
    )
    other_line = at_lines(startLine=3, snippet={"text": "y"})
    before = {"b": log(run("lint", at_lines(startLine=3, snippet={"text": "x"})))}
    yield life(
        "a match without evidence isn't known",
        "--matching 3 --known k --baseline b",
        log(run("lint", other_line)),
        before,
        status=1,
        said=["sarif_gate: 0 known, 1 left out, 0 kept"],
        made={"k": pretty(known())},
    )
    yield life(
        "a match without evidence is known if new hits are",
        "--matching 3 --known k --adopt --baseline b",
        log(run("lint", other_line)),
        before,
        status=1,
        said=["sarif_gate: 1 known, 0 left out, 0 kept"],
        made={"k": pretty(known(rerun("lint", other_line)))},
    )
    yield life(
        "in version 2 each match is known",
        "--known k --baseline b",
        log(run("lint", other_line)),
        before,
        said=["sarif_gate: 1 known, 0 left out, 0 kept"],
        made={"k": pretty(known(rerun("lint", {**FINDING, **placed(uri="a.c")})))},
    )
    edited = at_lines(startLine=3, snippet={"text": "y"}) | {"fingerprints": {"f": "1", "g": "2"}}
    yield life(
        "an ignored fingerprint isn't known",
        "--ignore-fingerprint f --known k --adopt",
        log(run("lint", edited)),
        status=1,
        made={"k": pretty(known(rerun("lint", {**FINDING, **placed(uri="a.c"), "fingerprints": {"g": "2"}})))},
    )
    yield life(
        "an added entry names no ignored fingerprint",
        "--ignore-fingerprint f --accept --suppress-out n",
        log(run("lint", edited)),
        status=1,
        said=["sarif_gate: 1 accepted, 0 stay, 0 pruned, 1 entries"],
        made={"n": pretty(entries({"fingerprints": {"g": "2"}, "ruleId": "R1", "tool": "lint", "uri": "a.c"}))},
    )


# ---- Arguments


APART = [
    "--suppress-out n",
    "--accept",
    "--prune",
    "--accept --prune --suppress s",
    "--reason x",
    "--suppress s --suppress-out n --prune --reason x",
    "--suppress s --suppress-out n --prune --until 20260101 --today 20250101",
    "--suppress-out n --accept --until 20260101",
    "--suppress-out n --accept --until 20260101 --today 20260102",
    "--suppress-out n --accept --until 20261301 --today 20260101",
    "--unused u",
    "--suppress-out n --prune",
    "--suppress-out n --accept --prune",
    "--adopt",
    "--suppress-out n --accept --known k",
    "--suppress-out n --accept --known k --adopt",
]

CLASHES = [
    "--out x --suppress-out x --accept a",
    "--out x --known x a",
    "--out o --suppress s --suppress-out x --prune --known x a",
    "--out o --known x --text x a",
    "--out o --suppress s --unused x --known x a",
    "--out - --known - a",
    "--out o --suppress s --suppress-out - --prune --known - a",
    "--out o --suppress s --known s a",
    "--out o --suppress s --unused s a",
    "--out s --suppress s a",
    "--out o --baseline b --suppress-out b --accept a",
    "--out o --baseline b --suppress s --unused b a",
    "--out a a",
    "--out o --suppress-out a --accept a",
    "--out o --known a a",
    "--out o --suppress s --unused a a",
    "--out o --known a --baseline a a",
    "--out o --known b --baseline b --baseline c a",
    "--out - --unused - --suppress s a",
]


def unchanged(files):
    """Checks that the folder has just these files, with these bytes."""

    def look(folder, kept):
        found = {it.name: it.read_bytes() for it in folder.iterdir()}
        return [f"the files are {sorted(found)}"] * (found != files)

    return look


def says_usage(answer):
    return says_what_is_wrong(answer)


def bad_arguments():
    files = {"a": ONE, "b": ONE, "c": ONE, "s": rules({"tool": "lint"}), "x": b"old"}
    for words in [*(f"{it} --out o a" for it in APART), *CLASHES]:
        yield Case(
            "usage",
            f"{words} is bad usage",
            words.split(),
            files=files,
            status=2,
            stdout=b"",
            check=says_usage,
            look=unchanged(files),
        )


def good_names():
    yield life(
        "the suppression file and the baseline are written again",
        "--suppress s --suppress-out s --prune --baseline k --known k",
        log(run("lint", FINDING)),
        {"k": log(run("lint", FINDING), run("b", ruled())), "s": rules({"ruleId": "R1"})},
        said=[
            "sarif_gate: 0 accepted, 0 stay, 0 pruned, 1 entries",
            "sarif_gate: 2 known, 0 left out, 1 kept",
        ],
        holds=['"baselineState":"unchanged"', '"baselineState":"absent"'],
        made={
            "s": pretty(entries({"ruleId": "R1"})),
            "k": pretty(known(rerun("lint", FINDING), rerun("b", KNOWN_FINDING))),
        },
    )
    yield Case(
        "life",
        "standard input is a log, and standard output the known log",
        ["--out", "o", "-", "--known", "-"],
        stdin=log(),
        stdout=pretty(known()),
    )
    yield Case(
        "life",
        "standard input is a log, and standard output the merged log",
        ["--out", "-", "--known", "k", "-"],
        stdin=log(),
        out_name="k",
        out=pretty(known()),
    )
    numbers = b"sarif_gate: 0 accepted, 0 stay, 0 pruned, 0 entries\n"
    table = HEADING + b"".join(
        f"{state:<10}".encode() + ZERO for state in ("new", "unchanged", "updated", "absent")
    )
    yield Case(
        "life",
        "the new suppression file is standard output",
        ["--suppress-out", "-", "--accept", "--out", "o", "a"],
        files={"a": log(run("lint"))},
        stdout=pretty(entries()),
        stderr=numbers + table + b"gate: pass, hits 0, max 0\n",
    )


def lost():
    yield life(
        "a known log that can't be written, and nothing follows",
        "--suppress s --suppress-out n --prune --known no/k --text t --gitlab g --unused u",
        log(run("lint", FINDING)),
        {"s": rules({"uri": "b"})},
        status=3,
        said=["sarif_gate: known log: WriteFailed"],
        made={"n": pretty(entries())},
        gone=["k", "t", "g", "u"],
        holds=['"baselineState":"new"', '"hits":1'],
    )


def cases():
    yield from entries_of_results()
    yield from new_files()
    yield from pruning()
    yield from nothing_more()
    yield from unused_entries()
    yield from written_known()
    yield from left_out()
    yield from kept_known()
    yield from known_with_regions()
    yield from bad_arguments()
    yield from good_names()
    yield from lost()
