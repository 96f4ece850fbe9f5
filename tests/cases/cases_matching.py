"""Cases of baselines and suppression files."""

from cases import *
from cases_words import merging


def examples():
    names = ("bandit-django-forms", "clang-lua-lstate")
    before = ("bandit-django-forms-2.2.28", "clang-lua-lstate-5.3.6")
    yield Case(
        "baseline",
        "both examples with their baselines, as an independent implementation has it",
        [it for name in before for it in ("--baseline", name)] + ["--out", "o", *names],
        files={name: example(f"{name}.sarif") for name in (*names, *before)},
        out=expected("both-with-baselines.merged.sarif"),
        stdout=expected("both-with-baselines.summary.txt"),
    )


def partial(uri, value="a"):
    return ruled(**at(uri, partialFingerprints={"p/v1": value}))


def states():
    pair, single = log(run("lint", ruled(), ruled()), run("lint", ruled())), log(
        run("lint", ruled(), ruled())
    )
    counted = gate(new=[0, 1, 0, 0], unchanged=[0, 2, 0, 0])
    yield merging(
        "baseline",
        "equal results are paired once each",
        [pair],
        [single],
        check=tells(counted, ["unchanged", "unchanged", "new"]),
    )
    number = "0f14d0ab-9605-4a62-a9e4-5ed26688389b"
    yield merging(
        "baseline",
        "a guid in capital letters, and another text: updated",
        [log(run("lint", {"message": {"text": "n"}, "correlationGuid": number.upper()}))],
        [log(run("lint", plain(correlationGuid=number)))],
        check=tells(gate(updated=[0, 1, 0, 0]), ["updated"]),
    )
    here, gone = partial("a.c", "b"), partial("a.c")
    absent = merged(
        gate(new=[0, 1, 0, 0], absent=[0, 1, 0, 0]),
        written("lint", marked("new", **here)),
        written("lint", marked("absent", **gone)),
    )
    yield merging(
        "baseline",
        "another fingerprint: new, and absent",
        [log(run("lint", here))],
        [log(run("lint", gone))],
        out=absent,
    )
    yield merging(
        "baseline",
        "matching goes over all runs",
        [log(run("lint"), run("lint", ruled()))],
        [log(run("lint", ruled()), run("lint"))],
        out=merged(
            gate(unchanged=[0, 1, 0, 0]),
            written("lint"),
            written("lint", marked("unchanged", **ruled())),
        ),
    )
    two = plain(fingerprints={"f/v1": "x", "f/v2": "y"})
    before = [plain(fingerprints={"f/v1": "x"}), plain(fingerprints={"f/v2": "y"})]
    yield merging(
        "baseline",
        "the greatest name of a fingerprint comes first",
        [log(run("lint", two))],
        [log(run("lint", *before))],
        out=merged(
            gate(unchanged=[0, 1, 0, 0], absent=[0, 1, 0, 0]),
            written("lint", marked("unchanged", **two)),
            written("lint", marked("absent", **before[0])),
        ),
    )
    other = run("lint", ruled()), run("flint", ruled())
    counted = gate(new=[0, 1, 0, 0], absent=[0, 1, 0, 0])
    yield merging(
        "baseline",
        "another tool",
        [log(other[0])],
        [log(other[1])],
        check=tells(counted, ["new", "absent"]),
    )


def moved():
    yield merging(
        "baseline",
        "a moved result is updated",
        [log(run("lint", partial("b.c")))],
        [log(run("lint", partial("a.c")))],
        check=tells(gate(updated=[0, 1, 0, 0]), ["updated"]),
    )
    yield merging(
        "baseline",
        "a result at its place before a moved one",
        [log(run("lint", partial("b.c"), partial("c.c")))],
        [log(run("lint", partial("a.c"), partial("b.c")))],
        check=tells(gate(unchanged=[0, 1, 0, 0], updated=[0, 1, 0, 0]), ["unchanged", "updated"]),
    )


def again():
    """A merged log as the next baseline."""
    pair = log(run("lint", ruled(), ruled()), run("lint", ruled()))
    runs = [written("lint", *[marked("new", **ruled())] * number) for number in (2, 1)]
    known = [written("lint", *[marked("unchanged", **ruled())] * number) for number in (2, 1)]
    yield merging(
        "baseline",
        "the output of a merge as its own baseline",
        [pair],
        [merged(gate(new=[0, 3, 0, 0]), *runs)],
        out=merged(gate(unchanged=[0, 3, 0, 0]), *known),
    )
    kept, gone = marked("unchanged", **partial("a.c", "b")), marked("absent", **partial("a.c"))
    before = merged(
        gate(), written("lint", marked("new", **partial("a.c", "b"))), written("lint", gone)
    )
    current = log(run("lint", partial("a.c", "b")))
    yield merging(
        "baseline",
        "absent results of a baseline are skipped",
        [current],
        [before],
        out=merged(gate(unchanged=[0, 1, 0, 0]), written("lint", kept)),
    )
    yield merging(
        "baseline",
        "an absent result of a log",
        [before],
        **refused("log 0, run 1, result 0: AbsentInput"),
    )
    skipped = log(run("lint", plain(baselineState="absent", kind="bad"), artifacts=[1]))
    yield merging(
        "baseline",
        "a skipped result's run is opened",
        [current],
        [skipped],
        **refused("baseline 0, run 0: BadLocation"),
    )
    bad = log(run("lint", plain(kind="bad")))
    yield merging(
        "baseline",
        "reading a baseline comes before results",
        [bad],
        [b"["],
        **refused("baseline 0: NotJson"),
    )
    fault = refused("baseline 0, run 0, result 0: BadKind")
    yield merging("baseline", "a bad result of a baseline", [current], [bad], **fault)


def several():
    simple = log(run("lint", ruled()))
    yield merging(
        "baseline",
        "a result is paired in one of two baselines",
        [simple],
        [simple, simple],
        out=merged(
            gate(unchanged=[0, 1, 0, 0], absent=[0, 1, 0, 0]),
            written("lint", marked("unchanged", **ruled())),
            written("lint", marked("absent", **ruled())),
        ),
    )
    yield merging(
        "baseline",
        "a broken second baseline",
        [ONE],
        [ONE, ONE[:50]],
        **refused("baseline 1: NotJson"),
    )


def suppressed():
    inside, review = {"kind": "inSource"}, {"kind": "external", "status": "underReview"}
    rejected = {"kind": "external", "status": "rejected"}
    results = [
        plain(suppressions=[inside, review]),
        plain(ruleId="R2", suppressions=[inside]),
        plain(ruleId="R3", suppressions=[inside]),
    ]
    lists = [[inside, review], [inside, rejected], [inside]]
    kept = [
        {name: it for name, it in result.items() if name != "suppressions"} for result in results
    ]
    yield merging(
        "suppress",
        "one that is rejected or under review suppresses nothing",
        [log(run("lint", *results))],
        suppress=rules({"ruleId": "R2", "status": "rejected"}),
        out=merged(
            gate(new=[0, 2, 0, 0], suppressed={"new": [0, 1, 0, 0]}),
            written(
                "lint", *(marked("new", suppressions=list_, **it) for list_, it in zip(lists, kept))
            ),
        ),
    )
    unused = ONE_MERGED.replace(b'"unusedSuppressions":0', b'"unusedSuppressions":1')
    yield merging(
        "suppress",
        "an entry that matches nothing",
        [ONE],
        suppress=rules({"ruleId": "NOPE"}),
        out=unused,
    )
    same = {"kind": "external", "status": "accepted"}
    yield merging(
        "suppress",
        "an object that stands already isn't written again",
        [log(run("lint", ruled(suppressions=[{**same, "rank": 1.5}])))],
        suppress=rules({"ruleId": "R1"}, {"tool": "lint"}, {"tool": "lint", "justification": "j"}),
        out=merged(
            gate(suppressed={"new": [0, 1, 0, 0]}),
            written(
                "lint",
                marked("new", suppressions=[same, {"justification": "j", **same}], **ruled()),
            ),
        ),
    )
    absent = gate(new=[0, 1, 0, 0], absent=[0, 1, 0, 0], unused=1)
    entry = rules({"ruleId": "R1"})
    yield merging(
        "suppress",
        "entries leave absent results alone",
        [ONE],
        [log(run("lint", ruled()))],
        entry,
        check=tells(absent),
    )


def dated():
    def ending(day):
        return rules({"uriPrefix": "gen/", "expires": day}, version=2)

    inside, outside = (log(run("lint", ruled(**at(uri)))) for uri in ("gen/a.c", "src/gen/a.c"))
    accepted, file = {"kind": "external", "status": "accepted"}, ending(20250131)
    yield merging(
        "suppress",
        "an entry holds on its last day",
        [inside],
        suppress=file,
        more=["--today", "20250131"],
        out=merged(
            gate(suppressed={"new": [0, 1, 0, 0]}),
            written("lint", marked("new", suppressions=[accepted], **ruled(**at("gen/a.c")))),
        ),
    )
    active = tells(gate(new=[0, 1, 0, 0], unused=1), ["new"])
    for what, given, day in (
        ("an entry has ended", inside, "20250201"),
        ("a prefix stands at the front", outside, "20250131"),
    ):
        words = ["--today", day]
        yield merging("suppress", what, [given], suppress=file, more=words, check=active)
    yield merging(
        "suppress",
        "no day is given",
        [inside],
        suppress=file,
        **refused("suppressions, entry 0: NeedsToday"),
    )
    first = rules({"uriPrefix": "gen/", "expires": 20250131})
    yield merging(
        "suppress",
        "the first version knows no days",
        [inside],
        suppress=first,
        **refused("suppressions, entry 0: BadEntry"),
    )
    for day in (20251301, 20250132, 20250100, 9991231, "20250131"):
        fault = refused("suppressions, entry 0: BadEntry")
        yield merging(
            "suppress",
            f"the day {day!r}",
            [inside],
            suppress=ending(day),
            more=["--today", "20250131"],
            **fault,
        )
    leap = tells(gate(suppressed={"new": [0, 1, 0, 0]}))
    yield merging(
        "suppress",
        "months have 31 days",
        [inside],
        suppress=ending(20250231),
        more=["--today", "20250131"],
        check=leap,
    )
    bare = rules({"expires": 20250131}, version=2)
    for more in ([], ["--today", "20250131"]):
        yield merging(
            "suppress",
            "a day is no condition",
            [inside],
            suppress=bare,
            more=more,
            **refused("suppressions, entry 0: EmptyMatch"),
        )


def said(**members):
    """An error whose message has these members."""
    return {"level": "error", "message": members}


def worded():
    """Conditions on the message, which version 4 of the file has."""

    def accepts(what, results, entry, hits, unused=0):
        accepted = len(results) - hits
        counts = gate(
            "fail",
            hits,
            unused=unused,
            new=[hits, 0, 0, 0],
            suppressed={"new": [accepted, 0, 0, 0]},
        )
        return merging(
            "suppress",
            what,
            [log(run("lint", *results))],
            suppress=rules(entry, version=4),
            status=1,
            check=tells(counts),
        )

    other = [
        {**said(text="M"), "ruleId": "R1"},
        {**said(id="m"), "ruleId": "R1"},
        {"level": "error", "ruleId": "R1"},
    ]
    yield accepts("a message's text is compared byte by byte", other, {"message": "m"}, 3, 1)
    lists = [["u", "v"], ["v", "u"], ["u"], ["u", "v", "w"]]
    five = [said(id="i", arguments=it) for it in lists] + [said(id="j", arguments=["u", "v"])]
    both = {"messageId": "i", "messageArguments": ["u", "v"]}
    yield accepts("a message's id and its arguments", five, both, 4)
    yield accepts("a message's id alone", five, {"messageId": "i"}, 1)
    yield accepts("a message's arguments alone", five, {"messageArguments": ["u", "v"]}, 3)
    placed = [
        {**said(text=text), **at(uri)} for text in ("m", "n") for uri in ("a.c", "b.c")
    ] + [said(text="m")]
    yield accepts("a message at a URI", placed, {"message": "m", "uri": "b.c"}, 4)
    yield accepts("a message at any place", placed, {"message": "m"}, 2)
    begun = {"message": "m", "uriPrefix": "a"}
    yield accepts("a message below a prefix", placed, begun, 4)
    no_list = {"message": "m", "messageArguments": []}
    yield accepts("an empty array of arguments is no condition", placed, no_list, 2)
    bad = [
        (1, {"message": "m"}),
        (2, {"message": "m"}),
        (2, {"message": None, "tool": "lint"}),
        (4, {"message": 1}),
        (4, {"message": ["m"]}),
        (4, {"message": {"text": "m"}}),
        (2, {"messageId": "m"}),
        (1, {"messageArguments": []}),
        (4, {"messageId": ["m"]}),
        (4, {"messageArguments": "m"}),
        (4, {"messageArguments": ["m", None]}),
    ]
    none = {"messageArguments": [], "fingerprints": {}}
    given = [(*it, "BadEntry") for it in bad] + [(4, none, "EmptyMatch")]
    for version, entry, cause in given:
        yield merging(
            "suppress",
            f"version {version} with {json.dumps(entry)}",
            [log(run("lint", ruled(level="error")))],
            suppress=rules(entry, version=version),
            **refused(f"suppressions, entry 0: {cause}"),
        )


def refusals():
    given = [
        (b"{", ": NotJson"),
        (b'{"version":1}', ": NotList"),
        (rules(version=3), ": WrongVersion"),
        (b'{"version":1.0,"suppressions":[]}', ": WrongVersion"),
        (rules(*[{"tool": "t"}] * 10_001), ": TooMany"),
        (rules({}), ", entry 0: EmptyMatch"),
        (rules({"tool": "t"}, {"rule": "x"}), ", entry 1: BadEntry"),
        (rules({"tool": "t"}, {"guid": "x"}), ", entry 1: BadEntry"),
        (rules({"fingerprints": {"a": None}}), ", entry 0: EmptyMatch"),
        (rules({"uriPrefix": None, "tool": "t"}), ", entry 0: BadEntry"),
        (rules({}, 1), ", entry 0: EmptyMatch"),
    ]
    for file, fault in given:
        yield merging(
            "suppress",
            f"a suppression file refused{fault}",
            [ONE],
            suppress=file,
            **refused(f"suppressions{fault}"),
        )
    for version in (1, 2, 4):
        yield merging(
            "suppress",
            f"no entries in version {version}",
            [ONE],
            suppress=rules(version=version),
            out=ONE_MERGED,
        )
    bad = log(run("lint", plain(kind="bad")))
    fault = refused("suppressions, entry 0: EmptyMatch")
    yield merging("suppress", "the file comes before results", [bad], suppress=rules({}), **fault)
    yield merging(
        "suppress",
        "a log comes before the file",
        [b"{"],
        suppress=rules({}),
        **refused("log 0: NotJson"),
    )


def cases():
    for part in (examples, states, moved, again, several, suppressed, dated, worded, refusals):
        yield from part()
