"""Cases of accepting results by their snippets."""

from cases import *
from cases_life import FINDING, GUID, at_lines, entries, life, placed, pretty


def seen(text, uri="a.c", line=3, **members):
    """A finding with this snippet."""
    return at_lines(uri, startLine=line, snippet={"text": text}) | members


def entries_with_snippets():
    """Results that are accepted by what version 3 reads, and later merges with the new file."""
    own = {"message": "m", "ruleId": "R1", "tool": "lint", "uri": "a.c"}
    both = [{**own, "snippet": it} for it in ("y", " x\n")]
    now = log(run("lint", seen("y"), seen(" x\n")))
    yield life(
        "version 3 accepts two snippets",
        "--matching 3 --accept --suppress-out n",
        now,
        status=1,
        said=["sarif_gate: 2 accepted, 0 stay, 0 pruned, 2 entries"],
        made={"n": pretty(entries(*both, version=5))},
    )
    yield life(
        "version 2 accepts what has two snippets",
        "--accept --suppress-out n",
        now,
        status=1,
        said=["sarif_gate: 2 accepted, 0 stay, 0 pruned, 1 entries"],
        made={"n": pretty(entries(own))},
    )
    file = {"s": pretty(entries(*both, version=5))}
    for version in ("2", "3"):
        yield life(
            f"version {version}: the accepted snippet at another line, and another snippet",
            f"--matching {version} --suppress s",
            log(run("lint", seen("x", line=90), seen("z"))),
            file,
            status=1,
            last="gate: fail, hits 1, max 0",
            holds=['"unusedSuppressions":1'],
        )
        yield life(
            f"version {version}: a file of version 5 stays one",
            f"--matching {version} --suppress s --suppress-out n --prune",
            log(run("lint", {**FINDING, **placed(uri="a.c")})),
            file,
            status=1,
            said=["sarif_gate: 0 accepted, 0 stay, 2 pruned, 0 entries"],
            made={"n": pretty(entries(version=5))},
        )
    yield life(
        "version 2 adds an entry without a snippet to a file of version 5",
        "--suppress s --suppress-out n --accept",
        log(run("lint", seen("z"))),
        {"s": rules({"snippet": "x"}, version=5)},
        status=1,
        said=["sarif_gate: 1 accepted, 0 stay, 0 pruned, 2 entries"],
        made={"n": pretty(entries({"snippet": "x"}, own, version=5))},
    )
    marked = [
        ("a fingerprint", {"fingerprints": {"f": "", "g": "1"}}, {"fingerprints": {"g": "1"}, "uri": "a.c"}),
        ("a partial fingerprint", {"partialFingerprints": {"f": "", "g": "1"}}, {"partialFingerprints": {"g": "1"}, "uri": "a.c"}),
        ("empty fingerprints", {"fingerprints": {"f": ""}, "partialFingerprints": {"f": ""}}, {"message": "m", "uri": "a.c"}),
        ("a GUID", {"correlationGuid": GUID}, {"guid": GUID}),
    ]
    here = {"ruleId": "R1", "snippet": "x", "tool": "lint"}
    for name, members, conditions in marked:
        yield life(
            f"version 3 accepts a snippet beside {name}",
            "--matching 3 --accept --suppress-out n",
            log(run("lint", seen("x", **members))),
            status=1,
            said=["sarif_gate: 1 accepted, 0 stay, 0 pruned, 1 entries"],
            made={"n": pretty(entries({**here, **conditions}, version=5))},
        )
    empty = {"fingerprints": {"f": "", "g": "1"}}
    for version, pairs in (("2", empty["fingerprints"]), ("3", {"g": "1"})):
        yield life(
            f"version {version} accepts a result without a snippet in version 4",
            f"--matching {version} --accept --suppress-out n",
            log(run("lint", at_lines(startLine=3) | empty)),
            status=1,
            said=["sarif_gate: 1 accepted, 0 stay, 0 pruned, 1 entries"],
            made={"n": pretty(entries({"fingerprints": pairs, "ruleId": "R1", "tool": "lint", "uri": "a.c"}))},
        )


# ---- The new suppression file


def cases():
    yield from entries_with_snippets()
