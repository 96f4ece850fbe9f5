"""Cases of accepting chosen hits alone: by their places and by their rules."""

from dataclasses import replace

from cases import *
from cases_life import FINDING, at_lines, entries, life, other, placed, pretty

ACCEPT = ["--suppress-out", "n", "--accept"]


def found(uri, line, message="m", rule="R1", **members):
    """An error at this place."""
    return at_lines(uri, startLine=line) | {"message": {"text": message}, "ruleId": rule, "level": "error"} | members


THREE = log(run("lint", found("a.c", 3, "m"), found("a.c", 9, "n"), found("b.c", 3, "m", "R2")))
ALIKE = log(run("lint", found("a.c", 3), found("a.c", 9), found("b.c", 3, rule="R2")))


def numbers(accepted, alike, stay, entries, pruned=0):
    return f"sarif_gate: {accepted} accepted, {alike} alike, {stay} stay, {pruned} pruned, {entries} entries"


def entry(message, uri="a.c", rule="R1", **members):
    return {"message": message, "ruleId": rule, "tool": "lint", "uri": uri, **members}


def chosen(name, words, log, said, **wanted):
    """A case of an accepting merge with these places and rules, which fails all the same."""
    return life(name, [*ACCEPT, *words], log, status=1, said=[said], **wanted)


def choices():
    """Which hits are accepted, and how many are alike and stay."""
    m, n, two = entry("m"), entry("n"), entry("m", "b.c", "R2")
    rows = [
        ("a line", ["--at", "a.c:3"], (1, 0, 2, 1), [m]),
        ("a path", ["--at", "a.c"], (2, 0, 1, 2), [m, n]),
        ("a rule", ["--rule", "R1"], (2, 0, 1, 2), [m, n]),
        ("a rule and a line", ["--rule", "R1", "--at", "a.c:9"], (1, 0, 2, 1), [n]),
        ("two lines", ["--at", "a.c:9", "--at", "b.c:3"], (2, 0, 1, 2), [n, two]),
        ("a place twice", ["--at", "b.c", "--at", "b.c"], (1, 0, 2, 1), [two]),
        ("two rules", ["--rule", "R2", "--rule", "R1"], (3, 0, 0, 3), [m, n, two]),
        ("two files and two rules", ["--at", "a.c", "--at", "b.c", "--rule=R2", "--rule=R1"], (3, 0, 0, 3), [m, n, two]),
    ]
    for name, words, of, made in rows:
        yield chosen(f"{name} chooses hits", words, THREE, numbers(*of), made={"n": pretty(entries(*made))})
    yield chosen("a hit is alike", ["--at", "a.c:3"], ALIKE, numbers(1, 1, 1, 1), made={"n": pretty(entries(m))})
    bare = {"message": "m", "ruleId": "R1", "tool": "lint"}
    yield chosen(
        "a hit without a path",
        ["--at", "-"],
        log(run("lint", FINDING, found("a.c", 3))),
        numbers(1, 1, 0, 1),
        made={"n": pretty(entries(bare))},
    )
    yield chosen(
        "a place without its root",
        ["--at", "src/a.c:3", "--root", "file:///w/"],
        log(run("lint", found("file:///w/./src/a.c", 3))),
        numbers(1, 0, 0, 1),
    )
    yield life(
        "without places and rules all hits are chosen",
        ACCEPT,
        THREE,
        status=1,
        said=["sarif_gate: 3 accepted, 0 stay, 0 pruned, 3 entries"],
    )


def columns():
    """Places with a column."""
    at_column = at_lines("a.c", startLine=3, startColumn=5) | {"level": "error"}
    given = log(run("lint", at_column, at_column | {"ruleId": "R2"}))
    for place in ("a.c:3:5", "a.c:3", "a.c"):
        yield chosen(f"a hit with a column at {place}", ["--at", place, "--rule", "R2"], given, numbers(1, 0, 1, 1))
    yield life(
        "another column is no place of a hit",
        [*ACCEPT, "--at", "a.c:3:6"],
        given,
        status=2,
        said=["sarif_gate: --at 0: NoHit"],
        gone=["o", "n"],
    )
    yield chosen(
        "the empty rule is that of a hit without a rule",
        ["--rule="],
        log(run("lint", plain(level="error", **placed(uri="a.c")), found("a.c", 3))),
        numbers(1, 0, 1, 1),
        made={"n": pretty(entries(entry("m", rule="")))},
    )


def staying():
    """Chosen hits that stay."""
    rejected = {"suppressions": [{"kind": "external", "status": "rejected"}]}
    given = log(run("lint", found("a.c", 3, **rejected), found("b.c", 3)))
    yield chosen("a chosen hit stays", ["--at", "a.c"], given, numbers(0, 0, 2, 0), made={"n": pretty(entries())})
    yield chosen(
        "a hit that has suppressions is not alike",
        ["--at", "a.c:3"],
        log(run("lint", found("a.c", 3), found("a.c", 9, **rejected))),
        numbers(1, 0, 1, 1),
        made={"n": pretty(entries(entry("m")))},
    )
    yield life(
        "a chosen hit is absent",
        [*ACCEPT, "--at", "c.c", "--at", "b.c", "--baseline", "b", "--states", "new,absent"],
        log(run("lint", found("b.c", 3))),
        {"b": log(run("lint", found("c.c", 3)))},
        status=1,
        said=[numbers(1, 0, 1, 1)],
    )
    yield life(
        "what an expired entry accepted is chosen again",
        [*ACCEPT, "--prune", "--suppress", "s", "--today", "20250201", "--at", "a.c:3"],
        ALIKE,
        {"s": text(entries({"ruleId": "R1", "expires": 20250131}, {"ruleId": "R2"}))},
        status=1,
        said=[numbers(1, 1, 0, 2, 1)],
        made={"n": pretty(entries({"ruleId": "R2"}, entry("m")))},
    )


def refusals():
    """Places and rules that fit no chosen hit."""
    rows = [
        (["--at", "a.c:4"], "--at 0"),
        (["--at", "./a.c"], "--at 0"),
        (["--at", "a.c:03"], "--at 0"),
        (["--at", "a.c:"], "--at 0"),
        (["--at", "a"], "--at 0"),
        (["--at", "-"], "--at 0"),
        (["--at="], "--at 0"),
        (["--at", "a.c", "--rule", "R2"], "--at 0"),
        (["--at", "a.c", "--at", "a.c:4"], "--at 1"),
        (["--rule", "R1", "--rule", "r1"], "--rule 1"),
        (["--rule="], "--rule 0"),
        (["--at", "a.c", "--rule", "R1", "--rule", "R2"], "--rule 1"),
        (["--at", "a.c", "--at", "b.c", "--rule", "R1"], "--at 1"),
    ]
    for words, where in rows:
        yield life(
            f"no hit: {' '.join(words)}",
            [*ACCEPT, *words],
            THREE,
            status=2,
            said=[f"sarif_gate: {where}: NoHit"],
            gone=["o", "n"],
        )
    yield life(
        "a note is no hit",
        [*ACCEPT, "--at", "a.c"],
        log(run("lint", found("a.c", 3, level="note"), found("b.c", 3))),
        status=2,
        said=["sarif_gate: --at 0: NoHit"],
        gone=["o", "n"],
    )
    many = {"suppressions": [{"uri": "z"}] * 10_000, "version": 1}
    for words, cause in ((["--at", "a.c:4"], "--at 0: NoHit"), (["--at", "a.c:3"], "suppressions: TooMany")):
        yield life(
            f"10,000 entries and one more: {words[1]}",
            [*ACCEPT, "--suppress", "s", *words],
            THREE,
            {"s": text(many)},
            status=2,
            said=[f"sarif_gate: {cause}"],
            gone=["o", "n"],
        )


def snippets():
    """With version 3 of matching an entry has the snippet of its hit."""

    def seen(text, line):
        region = {"startLine": line, **({"snippet": {"text": text}} if text else {})}
        return at_lines("a.c", **region) | {"level": "error"}

    given = log(run("lint", seen("x", 3), seen("y", 9), seen(None, 12)))
    three = ["--matching", "3"]
    fifth = {"n": pretty(entries(entry("m", snippet="x"), version=5))}
    yield chosen("another snippet isn't alike", [*three, "--at", "a.c:3"], given, numbers(1, 0, 2, 1), made=fifth)
    fourth = {"n": pretty(entries(entry("m")))}
    yield chosen("version 2 sees no snippets", ["--at", "a.c:3"], given, numbers(1, 2, 0, 1), made=fourth)
    yield chosen(
        "the entry of a hit without a snippet matches those with one",
        [*three, "--at", "a.c:12"],
        given,
        numbers(1, 2, 0, 1),
        made=fourth,
    )


def copies():
    """With --once a copy is neither chosen nor alike, and the line about the copies follows."""
    two, three = [found("a.c", 2)] * 2, [found("b.c", 2)] * 3
    given = log(run("lint", *two, *three))
    made = {"n": pretty(entries(entry("m")))}
    words = [*ACCEPT, "--once", "--at", "a.c:2"]
    said = [numbers(1, 0, 1, 1), "sarif_gate: 3 copies"]
    yield life("copies aren't chosen", words, given, status=1, said=said, made=made)
    # A related location doesn't tell a copy from its finding.
    elsewhere = [found("a.c", 2), found("a.c", 2, relatedLocations=[{"physicalLocation": {}}])]
    words = [*ACCEPT, "--once", "--rule", "R1"]
    said = [numbers(1, 0, 0, 1), "sarif_gate: 1 copies"]
    yield life("a copy isn't counted", words, log(run("lint", *elsewhere)), status=1, said=said, made=made)


def words_that_do_not_fit():
    """Places and rules without hits that are accepted."""
    prune = ["--suppress", "s", "--suppress-out", "n", "--prune"]
    for words in (["--at", "a.c"], ["--rule", "R1"], [*prune, "--at", "a.c"], [*prune, "--rule", "R1"]):
        files = {"a": THREE, "s": rules({"ruleId": "R1"})}
        yield Case("choice", f"without --accept: {' '.join(words)}", ["--out", "o", *words, "a"], files=files, status=2)


def cases():
    for part in (choices, columns, staying, refusals, snippets, copies, words_that_do_not_fit):
        for case in part():
            yield replace(case, group="choice")
