"""Cases of version 5 of the suppression file: the condition on a result's snippet, and how many results an entry matches."""

from cases import *
from cases_life import GUID, entries, known, life, pretty, rerun
from cases_once import copied
from cases_versions import one, spoken
from cases_words import merging
from matching_examples import listed

# The entries, the results, and which are suppressed (s) or active (a), with the number of unused entries.
SNIPPETS = [
    ([{"snippet": " x=1"}], 'a"x = 1" a"x=2" a', "s a a 0"),
    ([{"snippet": "", "tool": "lint"}], 'a"x" a', "a a 1"),
    ([{"snippet": ""}], 'a"x" a', "a a 1"),
    ([{"snippet": " \t\n\f\r"}], 'a"x" a" "', "a a 1"),
    ([{"snippet": "x"}], 'a" x" a"x\\n" a"\\tx" a"\\fx\\r" b"x" a"xx" a"X"', "s s s s s a a 0"),
    ([{"snippet": "x"}], 'a"\\u00a0x" a"\\u000bx" a"\\u2003x"', "a a a 1"),
    ([{"snippet": "\u00a0x"}], 'a"\\u00a0 x" a"x"', "s a 0"),
    ([{"snippet": "x"}], "a@3 a[x] a(p:x) a/x", "a a a a 1"),
    ([{"snippet": "x", "uri": "b.c"}], 'a"x" b"x" b', "a s a 0"),
    ([{"snippet": "x", "message": "n"}], 'a"x"/n a"x" a"y"/n', "s a a 0"),
    ([{"snippet": "x", "fingerprints": {"f/v1": "l"}}], 'a[l]"x" a[l]"y" a"x"', "s a a 0"),
    ([{"snippet": it} for it in ("x", "y", "x ")], 'a"y" a"z" a"x"', "s a s 0"),
    ([{"snippet": "x"}, {"snippet": "x", "uriPrefix": "c"}], 'a"x" a"y"', "s a 1"),
    ([{"snippet": "x", "messageArguments": []}, {"snippet": "y", "uri": None}], 'a"x" a"y"', "s s 0"),
]


def suppressing(name, given, words, answer, more=(), group="fifth"):
    """A merge of these results, and all that it writes."""
    *sides, unused = answer.split()
    accepted = [{"kind": "external", "status": "accepted"}]
    results = [spoken(it) for it in listed(words)]
    marks = [marked("new", suppressions=accepted * (it == "s"), **one) for it, one in zip(sides, results)]
    counts = gate(unused=int(unused), new=[0, sides.count("a"), 0, 0], suppressed={"new": [0, sides.count("s"), 0, 0]})
    assert len(sides) == len(results), words
    return merging(
        group,
        name,
        [log(run("lint", *results))],
        suppress=rules(*given, version=5),
        more=list(more),
        out=merged(*in_order([counts, written("lint", *marks)])),
    )


def examples():
    """Each version of matching compares snippets the same."""
    for given, words, answer in SNIPPETS:
        name = f"{json.dumps(given)} on {words}"
        yield suppressing(f"version 3: {name}", given, words, answer, ["--matching", "3"])
        yield suppressing(f"version 2: {name}", given, words, answer, ["--matching", "2"])
        yield suppressing(f"no version: {name}", given, words, answer)


# The same for entries with a limit on how many results they match.
LIMITED = [
    ([{"max": 2, "uri": "a.c"}], 'a"x" b a"y" a"z"', "s a s a 0"),
    ([{"max": 1, "tool": "lint"}, {"max": 2, "uri": "a.c"}], "a a a", "s s a 0"),
    ([{"max": 2, "uri": "a.c"}, {"max": 1, "tool": "lint"}], "a a a", "s s a 0"),
    ([{"max": 1, "uri": "a.c"}, {"max": 1, "uri": "b.c"}], "a b a b", "s s a a 0"),
    ([{"max": 1, "uri": "a.c"}, {"uri": "a.c"}], "a a", "s s 0"),
    ([{"max": 1, "uri": "a.c"}] * 2, "a a", "s a 0"),
    ([{"max": 1, "uri": "b.c"}], "a a", "a a 1"),
    ([{"max": 4294967295, "uri": "a.c"}], "a b a", "s a s 0"),
    ([{"max": None, "uri": "a.c"}], "a b a", "s a s 0"),
]


def limits():
    """Entries with `max` match the first results that meet them, in every version of matching."""
    for given, words, answer in LIMITED:
        name = f"{json.dumps(given)} on {words}"
        yield suppressing(f"limited: {name}", given, words, answer)
        yield suppressing(f"limited, version 3: {name}", given, words, answer, ["--matching", "3"])
    logs = [log(run("lint", *[spoken(it) for it in listed(words)])) for words in ("b a@3", "a@3 a@4")]
    for most, once, active, marks in LIMITED_LOGS:
        states = ["new"] * 4
        counted = [it for it, mark in enumerate(marks) if not (once and it == 2)]
        held = sum(marks[it] for it in counted)
        counts = gate(new=[0, active, 0, 0], suppressed={"new": [0, held, 0, 0]})
        assert active + held == len(counted)
        told = copied(counts, [[1, 0]], states) if once else tells(counts, states)
        yield merging(
            "fifth",
            f"a limit of {most} is that of all logs{', and copies use up none' * once}",
            logs,
            suppress=rules({"max": most, "uri": "a.c"}, version=5),
            more=["--once"] * once,
            check=marked_as(marks, told),
        )


# In the logs `b a@3` and `a@3 a@4`: the limit of an entry on a.c, whether --once is given, how many results are active,
# and which results are suppressed. The third result is a copy, which has what its finding has.
LIMITED_LOGS = [
    (1, False, 3, [0, 1, 0, 0]),
    (2, False, 2, [0, 1, 1, 0]),
    (1, True, 2, [0, 1, 1, 0]),
    (2, True, 1, [0, 1, 1, 1]),
]


def marked_as(marks, told):
    """Checks how many suppressions each result of the merged log has, in order, and what `told` checks."""

    def check(answer):
        results = [it for run in json.loads(answer.out)["runs"] for it in run["results"]]
        found = [len(it["suppressions"]) for it in results]
        return [f"suppressions {found}, and not {marks}"] * (found != marks) + told(answer)

    return check


def kept_limits():
    """A new suppression file keeps `max`, and adds none."""
    limited = {**WORDED, "max": 1}
    file = {"s": rules(limited, version=5)}
    results = log(run("lint", bad("a@3"), bad("a@4")))
    for words, accepted, made in (("--accept", 1, [limited, WORDED]), ("--prune", 0, [limited])):
        yield life(
            f"a limit stays with {words}",
            f"--suppress s --suppress-out n {words}",
            results,
            file,
            status=1,
            said=[f"sarif_gate: {accepted} accepted, 0 stay, 0 pruned, {len(made)} entries"],
            last="gate: fail, hits 1, max 0",
            made={"n": pretty(entries(*made, version=5))},
        ).into("fifth")
    many = log(run("lint", bad("a@3"), bad("a@4"), bad("b@5")))
    yield life(
        "a limit stays with another number",
        "--suppress s --suppress-out n --prune",
        many,
        {"s": rules({"uri": "c.c"}, limited, version=5)},
        status=1,
        said=["sarif_gate: 0 accepted, 0 stay, 1 pruned, 1 entries"],
        last="gate: fail, hits 2, max 0",
        made={"n": pretty(entries(limited, version=5))},
    ).into("fifth")
    yield life(
        "what a limit leaves becomes known if it is adopted",
        "--suppress s --known k --adopt",
        many,
        {"s": rules(limited, version=5)},
        status=1,
        said=["sarif_gate: 3 known, 0 left out, 0 kept"],
        last="gate: fail, hits 2, max 0",
    ).into("fifth")
    yield life(
        "a limited entry before an accepted one",
        "--suppress s",
        results,
        {"s": rules(limited, WORDED, version=5)},
        last="gate: pass, hits 0, max 0",
        holds=['"unusedSuppressions":0'],
    ).into("fifth")


CONTEXT = {"startLine": 3, "snippet": {"text": "x"}}
READ = {
    "a context of the same lines": ({"region": {"startLine": 3}, "contextRegion": CONTEXT}, True),
    "a context of other lines": ({"region": {"startLine": 4}, "contextRegion": CONTEXT}, False),
    "the region's own, before the context's": (
        {"region": {"startLine": 3, "snippet": {"text": "y"}}, "contextRegion": CONTEXT},
        False,
    ),
    "a region without a line": ({"region": {"snippet": {"text": "x"}}}, True),
    "a snippet of another type": ({"region": {"startLine": 3, "snippet": "x"}}, False),
}


def read():
    """Which snippet an entry is compared with."""
    for name, (regions, is_match) in READ.items():
        physical = {"artifactLocation": {"uri": "a.c"}, **regions}
        counts = [0, 1, 0, 0]
        side = {"suppressed": {"new": counts}} if is_match else {"new": counts, "unused": 1}
        yield merging(
            "fifth",
            f"the snippet of {name}",
            [log(run("lint", ruled(locations=[{"physicalLocation": physical}])))],
            suppress=rules({"snippet": "x"}, version=5),
            more=["--matching", "3"],
            check=tells(gate(**side), ["new"]),
        )
    physical = {"region": {"startLine": 3, "snippet": {"text": "x"}}}
    yield merging(
        "fifth",
        "a result without a place has no snippet",
        [log(run("lint", ruled(locations=[{"physicalLocation": physical}])))],
        suppress=rules({"snippet": "x"}, version=5),
        more=["--matching", "3"],
        check=tells(gate(new=[0, 1, 0, 0], unused=1), ["new"]),
    )


# ---- Files and entries that are rejected

TWO = [1, 2, 4]
REJECTED = [
    *((5, {"snippet": it}, "BadEntry") for it in (5, ["x"], {"text": "x"}, True)),
    *((version, {"snippet": it, "tool": "lint"}, "BadEntry") for version in TWO for it in ("x", None)),
    (5, {"snippet": None}, "EmptyMatch"),
    (5, {"snippet": None, "messageArguments": [], "fingerprints": {"f": None}}, "EmptyMatch"),
    (5, {"Snippet": "x"}, "BadEntry"),
    *((5, {"max": it, "tool": "lint"}, "BadEntry") for it in (0, -1, 4294967296, "1", 1.5, 1.0, True, [1])),
    *((version, {"max": it, "tool": "lint"}, "BadEntry") for version in TWO for it in (1, None)),
    (5, {"max": 1}, "EmptyMatch"),
    (5, {"max": None}, "EmptyMatch"),
    (5, {"max": 0}, "BadEntry"),
]


def rejected_entries(table):
    for version, entry, cause in table:
        yield merging(
            "fifth",
            f"version {version} with {json.dumps(entry)}",
            [log(run("lint", ruled()))],
            suppress=rules(entry, version=version),
            **refused(f"suppressions, entry 0: {cause}"),
        )


def rejected():
    yield from rejected_entries(REJECTED)
    for version in (6, 3, 55):
        yield merging(
            "fifth",
            f"version {version} is unknown",
            [ONE],
            suppress=rules(version=version),
            **refused("suppressions: WrongVersion"),
        )
    yield merging("fifth", "no entries in version 5", [ONE], suppress=rules(version=5), out=ONE_MERGED)
    every = {"tool": "b", "uriPrefix": "x", "message": "m", "messageId": "i", "expires": 20250131}
    every["messageArguments"] = ["u"]
    yield merging(
        "fifth",
        "version 5 has the members of version 4",
        [ONE],
        suppress=rules(every, version=5),
        more=["--today", "20250131"],
        check=tells(gate(new=[0, 1, 0, 0], unused=1), ["new"]),
    )


# ---- The entry that accepts a result


def bad(word):
    return {**one(word), "level": "error"}


HERE = {"ruleId": "R1", "tool": "lint"}
WORDED = {"message": "m", **HERE, "uri": "a.c"}

# The result, and its entries in version 3 and in version 2.
ACCEPTED = [
    ('a"x"', {**WORDED, "snippet": "x"}, WORDED),
    ('a" x =\\n1"@3', {**WORDED, "snippet": " x =\n1"}, WORDED),
    ("a@3", WORDED, WORDED),
    ('a" \\t"', WORDED, WORDED),
    ('a"x"+G[f:l](p:1)', {"guid": GUID, **HERE, "snippet": "x"}, {"guid": GUID, **HERE}),
    (
        'a"x"[f:l,g:]',
        {"fingerprints": {"f": "l"}, **HERE, "uri": "a.c", "snippet": "x"},
        {"fingerprints": {"f": "l", "g": ""}, **HERE, "uri": "a.c"},
    ),
    (
        "a[f:](p:1,q:)",
        {"partialFingerprints": {"p": "1"}, **HERE, "uri": "a.c"},
        {"fingerprints": {"f": ""}, **HERE, "uri": "a.c"},
    ),
    ("a(p:)", WORDED, {"partialFingerprints": {"p": ""}, **HERE, "uri": "a.c"}),
    ('a[f:](p:)"x"', {**WORDED, "snippet": "x"}, {"fingerprints": {"f": ""}, **HERE, "uri": "a.c"}),
]


def accepted():
    for word, third, second in ACCEPTED:
        for version, entry in (("3", third), ("2", second)):
            made = entries(entry, version=5 if "snippet" in entry else 4)
            yield life(
                f"version {version}: the entry of {word}",
                f"--matching {version} --accept --suppress-out n",
                log(run("lint", bad(word))),
                status=1,
                said=["sarif_gate: 1 accepted, 0 stay, 0 pruned, 1 entries"],
                made={"n": pretty(made)},
            ).into("fifth")
    two = [{**WORDED, "snippet": it} for it in "yx"]
    results = log(run("lint", bad('a"y"'), bad('a"x"')))
    for more, made in (("--matching 3 ", entries(*two, version=5)), ("", entries(WORDED))):
        number = len(made["suppressions"])
        yield life(
            f"two secrets are accepted, {more or 'without the option'}",
            f"{more}--suppress-out n --accept",
            results,
            status=1,
            said=[f"sarif_gate: 2 accepted, 0 stay, 0 pruned, {number} entries"],
            made={"n": pretty(made)},
        ).into("fifth")
    side = {"new": [1, 0, 0, 0]}
    for word, hits, version in [(*it, version) for it in (('a"x"@90', 0), ('a"z"', 1)) for version in "23"]:
        counts = gate("fail", 1, unused=2, **side) if hits else gate(unused=1, suppressed=side)
        yield merging(
            "fifth",
            f"version {version}: two accepted secrets, and {word}",
            [log(run("lint", bad(word)))],
            suppress=pretty(entries(*two, version=5)),
            more=["--matching", version],
            status=hits,
            check=tells(counts, ["new"]),
        )


def versions_of_files():
    """Which version a new file has."""
    snippet = {**WORDED, "snippet": "x"}
    old = {"tool": "b"}
    given = [
        ("it is 5 if that of the old file is", "--prune", 5, [bad("a")], [old], 5),
        ("and if an entry is added to it", "--accept", 5, [bad("a")], [old, WORDED], 5),
        ("it is 5 if a snippet is added", "--accept --matching 3", 2, [bad('a"x"')], [old, snippet], 5),
        ("it is 4 if none is", "--accept --matching 3", 1, [bad("a@3")], [old, WORDED], 4),
        ("nor in version 2", "--accept", 4, [bad('a"x"')], [old, WORDED], 4),
    ]
    for name, words, version, results, wanted, made in given:
        number = len(wanted) - 1
        yield life(
            f"the version of a new file: {name}",
            f"{words} --suppress s --suppress-out n",
            log(run("lint", *results)),
            {"s": rules(old, version=version)},
            status=1,
            said=[f"sarif_gate: {number} accepted, 0 stay, 0 pruned, {len(wanted)} entries"],
            made={"n": pretty(entries(*wanted, version=made))},
        ).into("fifth")
    stays = {"snippet": "x", "guid": None, "tool": "b"}
    yield life(
        "an old entry stays as it is",
        "--prune --suppress s --suppress-out n",
        log(run("lint", bad('a"x"'))),
        {"s": rules(stays, {"snippet": "y", "tool": "lint"}, {"snippet": "", "tool": "lint"}, version=5)},
        status=1,
        said=["sarif_gate: 0 accepted, 0 stay, 2 pruned, 1 entries"],
        made={"n": pretty(entries(stays, version=5))},
    ).into("fifth")
    unused = 'entry 0: unmatched: {"guid":null,"snippet":"y ##"}\n'.replace("##", "# #")
    yield life(
        "an unused entry with a snippet is listed",
        "--matching 3 --suppress s --unused u",
        log(run("lint", bad('a"x"'))),
        {"s": rules({"snippet": "y ##", "guid": None}, {"snippet": "x", "tool": "lint"}, version=5)},
        made={"u": unused.encode()},
    ).into("fifth")


def known_logs():
    """Only with version 3 of matching, the known log has regions and snippets. Entries read them in each version."""
    given = log(run("lint", bad('a"x"@3')))
    place = {"artifactLocation": {"uri": "a.c"}}
    region = {"snippet": {"text": "x"}, "startLine": 3}
    for version, physical in (("2", place), ("3", {**place, "region": region})):
        result = {**bad("a"), "locations": [{"physicalLocation": physical}]}
        yield life(
            f"version {version}: what is known of a result whose snippet an entry names",
            f"--matching {version} --known k --adopt --suppress s",
            given,
            {"s": rules({"snippet": "x"}, version=5)},
            said=["sarif_gate: 1 known, 0 left out, 0 kept"],
            last="gate: pass, hits 0, max 0",
            made={"k": pretty(known(rerun("lint", result)))},
        ).into("fifth")
    yield merging(
        "fifth",
        "a result is unchanged, although its known one has no snippet",
        [given],
        baselines=[pretty(known(rerun("lint", {**bad("a"), "locations": [{"physicalLocation": place}]})))],
        suppress=rules({"snippet": "x"}, version=5),
        check=tells(gate(suppressed={"unchanged": [1, 0, 0, 0]}), ["unchanged"]),
    )


def cases():
    for part in (examples, limits, read, rejected, accepted, kept_limits, versions_of_files, known_logs):
        yield from part()
