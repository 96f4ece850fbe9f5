"""Cases of merges, each with the complete merged log or the first error. Runs are in few words, as `lint: A M; b: `:
each run is a tool and its results, and each result is a name of RESULTS."""

from cases import *
from cases_words import merging

RESULTS = {"M": plain(), "A": ruled(), "E": ruled(level="error")}
GUID = "0f14d0ab-9605-4a62-a9e4-5ed26688389b"
SAID = {"kind": "external", "status": "accepted"}


def results_of(names, more):
    return [more.get(name) or RESULTS[name] for name in names.split()]


def runs(words, **more):
    """The runs of these words; `more` are other results by their names."""
    parts = [it.split(":") for it in words.split(";")]
    return [run(tool.strip(), *results_of(names, more)) for tool, names in parts]


def log_of(words, **more):
    return log(*runs(words, **more))


def marks(words):
    """Runs as they are written. A result is a name with its state, as A-new."""
    found = []
    for tool, names in [it.split(":") for it in words.split(";")]:
        pairs = [it.split("-") for it in names.split()]
        found.append(written(tool.strip(), *(marked(state, **RESULTS[name]) for name, state in pairs)))
    return found


def merges(name, logs, baselines=(), entries=None, more=(), version=1, **wanted):
    suppress = None if entries is None else rules(*entries, version=version)
    return merging("merges", name, logs, baselines, suppress, more, **wanted)


def holds(*parts):
    """Checks that the merged log has these parts, which are bytes."""
    return lambda answer: [f"the merged log has no {it!r}" for it in parts if it not in (answer.out or b"")]


# ---- Without a baseline


def one_log():
    two = log_of("lint: A A; b: A")
    whole = marks("lint: A-new A-new; b: A-new")
    yield merges("equal results are all written", [two, two], out=merged(gate(new=[0, 6, 0, 0]), *whole, *whole))
    guided = log(run("lint", baselineGuid=GUID))
    yield merges("the GUID of a baseline isn't written", [guided], out=merged(gate(), written("lint")))
    invoked = {"provenance": {"invocationIndex": 0}}
    for configuration, members, level in (
        ({"enabled": True}, invoked, "note"),
        ({"level": "error"}, invoked, "error"),
        ({"level": "error"}, {}, "note"),
    ):
        rule = {"id": "R1", "defaultConfiguration": {"level": "note"}}
        override = {"descriptor": {"index": 0}, "configuration": configuration}
        given = {
            "invocations": [{"ruleConfigurationOverrides": [override]}],
            "results": [ruled(**members)],
            "tool": {"driver": {"name": "lint", "rules": [rule]}},
        }
        result = text(marked("new", level, **ruled(**members)))
        title = f"an override by {configuration} with {members} gives the level {level}"
        yield merges(title, [log(given)], status=int(level == "error"), check=holds(result))


# ---- With a suppression file


def suppressed():
    own = [{"kind": "external", "rank": 1.5, "status": "accepted"}, {"status": "accepted", "kind": "external"}]
    entries = [{"tool": "lint"}, {"tool": "lint", "justification": "j"}, {"tool": "lint", "status": "accepted"}]
    result = marked("new", suppressions=[SAID, SAID, {"justification": "j", **SAID}], **plain())
    yield merges(
        "an object that is there already isn't written again",
        [log(run("lint", plain(suppressions=own)))],
        entries=[*entries, entries[1]],
        out=merged(gate(suppressed={"new": [0, 1, 0, 0]}), written("lint", result)),
    )
    yield merges(
        "entries are not applied to absent results",
        [log_of("lint:")],
        [log_of("lint: A")],
        [{"ruleId": "R1"}],
        out=merged(gate(absent=[0, 1, 0, 0], unused=1), *marks("lint:; lint: A-absent")),
    )


def dated():
    def in_file(name, uri, day, today, is_active, **wanted):
        held = [] if is_active else [SAID]
        counts = gate(new=[0, 1, 0, 0], unused=1) if is_active else gate(suppressed={"new": [0, 1, 0, 0]})
        out = merged(counts, written("lint", marked("new", suppressions=held, **ruled(**at(uri)))))
        given, entry = log(run("lint", ruled(**at(uri)))), {"uriPrefix": "gen/", "expires": day}
        return merges(name, [given], entries=[entry], more=["--today", today], version=2, out=out, **wanted)

    yield in_file("an entry applies on its expiry date", "gen/a.c", 20250131, "20250131", False)
    yield in_file("an entry has expired a day later", "gen/a.c", 20250131, "20250201", True)
    yield in_file("a prefix is at the beginning", "src/gen/a.c", 20250131, "20250131", True)
    yield in_file("each month may have 31 days", "gen/a.c", 20250231, "20250131", False)
    given = log(run("lint", ruled(**at("gen/a.c"))))
    days = [(2, 20251301), (2, 20250132), (2, 20250100), (2, 9991231), (2, "20250131"), (1, 20250131)]
    wrong = [(version, {"uriPrefix": "gen/", "expires": day}, "BadEntry") for version, day in days]
    for version, entry, cause in [*wrong, (2, {"expires": 20250131}, "EmptyMatch")]:
        for more in ([], ["--today", "20250131"]):
            title = f"version {version} with {entry} and the arguments {more}"
            fault = refused(f"suppressions, entry 0: {cause}")
            yield merges(title, [given], entries=[entry], more=more, version=version, **fault)


# ---- With baselines


def matched():
    pair = log_of("lint: A A; lint: A")
    first = merged(gate(new=[0, 1, 0, 0], unchanged=[0, 2, 0, 0]), *marks("lint: A-unchanged A-unchanged; lint: A-new"))
    again = merged(gate(unchanged=[0, 3, 0, 0]), *marks("lint: A-unchanged A-unchanged; lint: A-unchanged"))
    yield merges("equal results are matched in order", [pair], [log_of("lint: A A")], out=first)
    yield merges("the merged log is the next baseline", [pair], [first], out=again)
    now = {"correlationGuid": GUID.upper(), "message": {"text": "n"}}
    yield merges(
        "an equal GUID and another message",
        [log(run("lint", now))],
        [log(run("lint", plain(correlationGuid=GUID)))],
        out=merged(gate(updated=[0, 1, 0, 0]), written("lint", marked("updated", **now))),
    )
    yield merges(
        "a match is in any run",
        [log_of("lint:; lint: A")],
        [log_of("lint: A; lint:")],
        out=merged(gate(unchanged=[0, 1, 0, 0]), *marks("lint:; lint: A-unchanged")),
    )
    second = run("lint", ruled())
    second["tool"]["driver"]["version"] = "1"
    gone = {"results": [marked("absent", **ruled())], "tool": second["tool"]}
    yield merges(
        "baselines are matched together",
        [log_of("lint: A")],
        [log_of("lint: A"), log(second)],
        out=merged(gate(absent=[0, 1, 0, 0], unchanged=[0, 1, 0, 0]), *marks("lint: A-unchanged"), gone),
    )
    others = [plain(ruleId="R2"), {"message": {"text": "n"}, "ruleId": "R2"}]
    left = run("lint", others[0], ruled(), marked("absent", **ruled()), others[1])
    yield merges(
        "matched results of a baseline are left out",
        [log_of("lint: A")],
        [log(run("b"), left)],
        out=merged(
            gate(absent=[0, 2, 0, 0], unchanged=[0, 1, 0, 0]),
            *marks("lint: A-unchanged"),
            written("lint", *(marked("absent", **it) for it in others)),
        ),
    )


def printed(uri, value):
    return ruled(**at(uri, partialFingerprints={"p/v1": value}))


def unmatched():
    here, before = printed("a.c", "b"), printed("a.c", "a")
    both = merged(
        gate(absent=[0, 1, 0, 0], new=[0, 1, 0, 0]),
        written("lint", marked("new", **here)),
        written("lint", marked("absent", **before)),
    )
    yield merges("a result without a match is absent", [log(run("lint", here))], [log(run("lint", before))], out=both)
    yield merges(
        "an absent result of a baseline is skipped",
        [log(run("lint", here))],
        [both],
        out=merged(gate(unchanged=[0, 1, 0, 0]), written("lint", marked("unchanged", **here))),
    )
    yield merges("an absent result of a log", [both], **refused("log 0, run 1, result 0: AbsentInput"))


def moved():
    a, b, c = (printed(uri, "a") for uri in ("a.c", "b.c", "c.c"))
    yield merges(
        "a result that moved is updated",
        [log(run("lint", b))],
        [log(run("lint", a))],
        out=merged(gate(updated=[0, 1, 0, 0]), written("lint", marked("updated", **b))),
    )
    yield merges(
        "a result that stayed is matched before one that moved",
        [log(run("lint", b, c))],
        [log(run("lint", a, b))],
        out=merged(
            gate(unchanged=[0, 1, 0, 0], updated=[0, 1, 0, 0]),
            written("lint", marked("unchanged", **b), marked("updated", **c)),
        ),
    )


def many_equal():
    """Each of 20,000 equal results matches the one with its number in the baseline; the one after them is new."""
    known, new = [marked("unchanged", **ruled())] * 20_000, marked("new", **ruled())
    yield merges(
        "20,001 equal results and a baseline of 20,000",
        [log(run("lint", *[ruled()] * 20_001))],
        [log(run("lint", *[ruled()] * 20_000))],
        seconds=300,
        out=merged(gate(new=[0, 1, 0, 0], unchanged=[0, 20_000, 0, 0]), written("lint", *known, new)),
    )


# ---- Rejected merges


def first_errors():
    """Of several errors, the first is reported."""
    bad, high = plain(kind="bad"), plain(level="high")
    one, kinds, levels = log(run("lint", bad)), [run("lint", ruled(), bad)], [run("lint"), run("lint", high)]
    kind = "log 0, run 0, result 0: BadKind"
    yield merges("a bad result", [one], **refused(kind))
    yield merges("a baseline that is no JSON, and a bad result", [one], [b"x"], **refused("baseline 0: NotJson"))
    yield merges("a log and a baseline that are no JSON", [b"x"], [b"x"], **refused("log 0: NotJson"))
    both = [ONE, ONE[:50]]
    yield merges("the second log and the second baseline are broken", both, both, **refused("log 1: NotJson"))
    yield merges("an empty entry and a bad result", [one], entries=[{}], **refused("suppressions, entry 0: EmptyMatch"))
    yield merges("an empty entry, and a log that is no JSON", [b"x"], entries=[{}], **refused("log 0: NotJson"))
    fault = refused("log 0, run 0, result 1: BadKind")
    yield merges("a bad result of a log before one of a baseline", [log(*kinds)], [log(*levels)], **fault)
    fault = refused("baseline 0, run 1, result 0: BadLevel")
    yield merges("the first baseline before the second", [log_of("lint: A")], [log(*levels), log(*kinds)], **fault)
    wrong = run("lint", bad)
    wrong["tool"]["driver"]["rules"] = 1
    yield merges("the error of a run before those of its results", [log(wrong)], **refused("log 0, run 0: BadRules"))
    fault = refused("log 0, run 1, result 0: BadLevel")
    yield merges("a bad result before the error of a later run", [log(*levels), log(wrong)], **fault)


def skipped():
    """A skipped result has no error, but its run may have one."""
    absent = log(run("lint", {"baselineState": "absent", "kind": "bad"}))
    wanted = merged(gate(new=[0, 1, 0, 0]), *marks("lint: A-new"))
    yield merges("a skipped result has no error", [log_of("lint: A")], [absent], out=wanted)
    wrong = run("lint", {"baselineState": "absent"})
    wrong["tool"]["driver"]["rules"] = 1
    yield merges("its run may have one", [ONE], [log(wrong)], **refused("baseline 0, run 0: BadRules"))


def limits():
    most, past = [ONE] * 1_000, [b""] * 1_001
    yield merges("1,000 logs and 1,001 baselines", most, past, **refused("baseline 1000: TooMany"))
    counted = gate(unchanged=[0, 1_000, 0, 0])
    yield merges("1,000 logs and 1,000 baselines", most, most, check=tells(counted, ["unchanged"] * 1_000))
    fault = refused("baseline 0: TooMany")
    yield merges("600,000 results and a baseline of 400,001", [bare(600_000)], [bare(400_001)], seconds=300, **fault)


def required():
    words = ["--require-success"]
    name = {"tool": {"driver": {"name": "lint"}}}
    says = [{"executionSuccessful": None}, {"executionSuccessful": "false"}, {}]
    given = {"invocations": says, "results": [], **name}
    yield merges("no invocation says false", [log(given)], more=words, out=merged(gate(), given))
    failed = {**name, "invocations": [{"executionSuccessful": False}], "results": [{}]}
    logs, wanted = [log(run("lint", {}))], merged(gate(unchanged=[0, 1, 0, 0]), written("lint", marked("unchanged")))
    yield merges("the runs of a baseline may have failed", logs, [log(failed, name)], more=words, out=wanted)


def named():
    words = ["--allow-external-properties"]

    def naming(files, **members):
        return log({**run("lint", {}), "externalPropertyFileReferences": files, **members})

    for files in ({"extensions": [[]]}, {"invocations": ""}):
        fault = refused("log 0, run 0: ExternalProperties")
        yield merges(f"external property files {files}", [naming(files)], more=words, **fault)
    both = [naming(None), naming({"results": [{}]})]
    fault = refused("baseline 1, run 0: ExternalProperties")
    yield merges("the second baseline names a file of results", [naming(None)], both, more=words, **fault)


def cases():
    parts = (one_log, suppressed, dated, matched, unmatched, moved, many_equal)
    for part in (*parts, first_errors, skipped, limits, required, named):
        yield from part()
