"""Cases of --once: which results are copies, and what of them is written, counted, accepted and known."""

from cases import *
from cases_life import GUID, entries, known, life, pretty, rerun
from cases_words import merging


def at_line(uri="h.c", line=314, **members):
    """A result at a line."""
    snippet = {"snippet": {"text": members.pop("snippet")}} if "snippet" in members else {}
    place = {"artifactLocation": {"uri": uri}, "region": {"startLine": line, **snippet}}
    return {**ruled(locations=[{"physicalLocation": place}]), **members}


def lint(*results, **members):
    return log(run("lint", *results, **members))


def copied(counts, copies, states):
    """Checks the gate with these copies, the states of all results in order, and the line about the copies."""

    def check(answer):
        said = f"sarif_gate: {len(copies)} copies\n".encode()
        wrong = [f"standard error is {answer.stderr}, and not {said}"] * (answer.stderr != said)
        return wrong + tells({**counts, "copies": copies}, states)(answer)

    return check


def both(name, logs, baselines, without, once, copies, **wanted):
    """The same sources without the option and with it: the gate, then the states of all results in order."""
    group = "once"
    yield merging(group, f"{name}: without the option", logs, baselines, check=tells(*without), **wanted)
    for version in ("2", "3"):
        words = ["--once", "--matching", version]
        yield merging(group, f"{name}: version {version}", logs, baselines, more=words, check=copied(once[0], copies, once[1]))


def rows():
    h, b = at_line(), at_line("b.c", 1)
    yield from both(
        "a header that is seen twice",
        [lint(h), lint(h, b)],
        [],
        (gate(new=[0, 3, 0, 0]), ["new"] * 3),
        (gate(new=[0, 2, 0, 0]), ["new"] * 3),
        [[1, 0]],
    )
    yield from both(
        "one file more includes a header",
        [lint(h), lint(h, b), lint(h)],
        [lint(h), lint(h, b)],
        (gate(new=[0, 1, 0, 0], unchanged=[0, 3, 0, 0]), ["unchanged"] * 3 + ["new"]),
        (gate(unchanged=[0, 2, 0, 0]), ["unchanged"] * 4),
        [[1, 0], [2, 0]],
    )
    yield from both(
        "copies within a run",
        [lint(h, h, h)],
        [lint(h)],
        (gate(new=[0, 2, 0, 0], unchanged=[0, 1, 0, 0]), ["unchanged", "new", "new"]),
        (gate(unchanged=[0, 1, 0, 0]), ["unchanged"] * 3),
        [[0, 1], [0, 2]],
    )
    apart = [h, at_line(snippet="x"), at_line(line=315), at_line(fingerprints={"f/v1": "x"})]
    nowhere = [ruled(**at("h.c")), ruled(**at("h.c"))]
    yield from both(
        "results that aren't alike",
        [lint(*apart, *nowhere)],
        [],
        (gate(new=[0, 6, 0, 0]), ["new"] * 6),
        (gate(new=[0, 6, 0, 0]), ["new"] * 6),
        [],
    )
    yield from both(
        "a copy is absent with its finding",
        [lint(b)],
        [lint(h), lint(h)],
        (gate(new=[0, 1, 0, 0], absent=[0, 2, 0, 0]), ["new", "absent", "absent"]),
        (gate(new=[0, 1, 0, 0], absent=[0, 1, 0, 0]), ["new", "absent", "absent"]),
        [[2, 0]],
    )
    yield from both(
        "nine copies in the baseline take no result's place",
        [lint(h, at_line(line=315))],
        [lint(*[h] * 10)],
        (gate(unchanged=[0, 2, 0, 0], absent=[0, 8, 0, 0]), ["unchanged"] * 2 + ["absent"] * 8),
        (gate(new=[0, 1, 0, 0], unchanged=[0, 1, 0, 0]), ["unchanged", "new"]),
        [],
    )


def fields():
    """Two results that differ in one field are no copies; what isn't a field may differ."""
    given = [
        ("the rule", {"ruleId": "R2"}),
        ("the kind", {"kind": "review"}),
        ("the level", {"level": "note"}),
        ("the message", {"message": {"text": "n"}}),
        ("the GUID", {"correlationGuid": GUID}),
        ("partial fingerprints", {"partialFingerprints": {"p": "1"}}),
        ("own suppressions", {"suppressions": [{"kind": "external", "status": "rejected"}]}),
    ]
    for name, members in given:
        yield merging(
            "once",
            f"no copy: {name}",
            [lint(at_line(), at_line(**members))],
            more=["--once"],
            check=lambda answer: ["there are copies"] * (b'"copies":[]' not in answer.out),
        )
    yield merging(
        "once",
        "no copy: the tool",
        [log(run("lint", at_line()), run("flint", at_line()))],
        more=["--once"],
        check=lambda answer: ["there are copies"] * (b'"copies":[]' not in answer.out),
    )
    own = [{"kind": "inSource", "justification": it} for it in ("j", "k")]
    yield merging(
        "once",
        "a copy keeps its own members",
        [lint(at_line(suppressions=own[:1], rank=1), at_line(suppressions=own[1:], rank=2))],
        more=["--once"],
        out=merged(
            in_order({**gate(suppressed={"new": [0, 1, 0, 0]}), "copies": [[0, 1]]}),
            written(
                "lint",
                in_order(marked("new", suppressions=own[:1], **at_line(rank=1))),
                in_order(marked("new", suppressions=own[1:], **at_line(rank=2))),
            ),
        ),
    )


def later():
    """What is accepted, known and unused."""
    h = {**at_line(), "level": "error"}
    own = {"message": "m", "ruleId": "R1", "tool": "lint", "uri": "h.c"}
    yield life(
        "copies aren't accepted",
        "--once --accept --suppress-out n",
        lint(h, h),
        status=1,
        said=["sarif_gate: 1 accepted, 0 stay, 0 pruned, 1 entries", "sarif_gate: 1 copies"],
        made={"n": pretty(entries(own))},
        last="gate: fail, hits 1, max 0",
    )
    yield life(
        "an entry suppresses a finding and its copies",
        "--once --suppress s",
        lint(h, h),
        {"s": rules({"uri": "h.c"}, {"uri": "x"})},
        said=["sarif_gate: 1 copies"],
        last="gate: pass, hits 0, max 0",
        holds=['"unusedSuppressions":1', '"copies":[[0,1]]'],
    )
    known = {
        "runs": [{
            "results": [{
                "level": "error",
                "locations": [{"physicalLocation": {"artifactLocation": {"uri": "h.c"}, "region": {"startLine": 314}}}],
                "message": {"text": "m"},
                "ruleId": "R1",
            }],
            "tool": {"driver": {"name": "lint"}},
        }],
        "version": "2.1.0",
    }
    yield life(
        "copies aren't known",
        "--once --known k --adopt",
        lint(h, h),
        status=1,
        said=["sarif_gate: 1 known, 0 left out, 0 kept", "sarif_gate: 1 copies"],
        made={"k": pretty(known)},
    )


def kept_known():
    """Absent results of a tool that wasn't heard stay known, but none that is alike to a known current result."""
    failed = {"tool": {"driver": {"name": "lint"}}}
    here, moved = at_line(line=315), at_line()
    made = lambda *runs: {"k": pretty(known(*(rerun("lint", *it) for it in runs)))}
    warned = lambda result: {"level": "warning", **result}
    words = "--known k --baseline b"
    # In version 2 the result matches the first of the two in the baseline, and the second is absent.
    sources = log(failed, run("lint", here)), {"b": lint(moved, here)}
    yield life(
        "an absent result stays known, alike or not, without the option",
        words,
        *sources,
        said=["sarif_gate: 2 known, 0 left out, 1 kept"],
        made=made([warned(ruled(**at("h.c")))], [warned(ruled(**at("h.c")))]),
    )
    yield life(
        "an absent result that is alike to a known one isn't kept",
        f"--once {words}",
        *sources,
        said=["sarif_gate: 1 known, 0 left out, 0 kept", "sarif_gate: 0 copies"],
        made=made([warned(here)]),
    )
    yield life(
        "an absent result that is alike to none is kept",
        f"--once --matching 3 {words}",
        *sources,
        said=["sarif_gate: 2 known, 0 left out, 1 kept", "sarif_gate: 0 copies"],
        made=made([warned(moved)], [warned(here)]),
    )
    # In version 3 it matches the last of two with one GUID.
    own = at_line(correlationGuid=GUID)
    yield life(
        "version 3: an absent result that is alike to a known one isn't kept",
        f"--once --matching 3 {words}",
        log(failed, run("lint", own)),
        {"b": lint(own, at_line("b.c", 1, correlationGuid=GUID))},
        said=["sarif_gate: 1 known, 0 left out, 0 kept", "sarif_gate: 0 copies"],
        made=made([warned(own)]),
    )
    others = [("a level", {"level": "note"}), ("own suppressions", {"suppressions": [{"kind": "external", "status": "rejected"}]})]
    for name, members in others:
        unlike = at_line(line=315, **members)
        yield life(
            f"an absent result with other {name} is kept",
            f"--once {words}",
            log(failed, run("lint", here)),
            {"b": lint(moved, unlike)},
            said=["sarif_gate: 2 known, 0 left out, 1 kept", "sarif_gate: 0 copies"],
            made=made([warned(here)], [warned(unlike)]),
        )
    nowhere = ruled(**at("h.c"))
    yield life(
        "an absent result without a line is kept",
        f"--once {words}",
        log(failed, run("lint", nowhere)),
        {"b": lint(nowhere, nowhere)},
        said=["sarif_gate: 2 known, 0 left out, 1 kept", "sarif_gate: 0 copies"],
        made=made([warned(nowhere)], [warned(nowhere)]),
    )
    yield life(
        "an absent result that is alike to one that is left out is kept",
        f"--once {words} --today 20250131 --suppress s",
        *sources[:1],
        {**sources[1], "s": rules({"tool": "lint", "expires": 20250131}, version=2)},
        said=["sarif_gate: 1 known, 1 left out, 1 kept", "sarif_gate: 0 copies"],
        made=made([warned(here)]),
    )
    first = at_line(line=300)
    yield life(
        "an absent result that is alike to a known one before which an entry is used up isn't kept",
        f"--once {words} --suppress s",
        log(failed, run("lint", first, here)),
        {"b": lint(first, moved, here), "s": rules({"max": 1, "uri": "h.c"}, version=5)},
        said=["sarif_gate: 2 known, 0 left out, 0 kept", "sarif_gate: 0 copies"],
        made=made([warned(first), warned(here)]),
    )


def cases():
    yield from rows()
    yield from fields()
    yield from later()
    yield from kept_known()
