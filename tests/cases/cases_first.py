"""Cases with one log on standard input, for a program without arguments."""

from cases import *


def examples():
    for name in ("bandit-django-forms", "clang-lua-lstate"):
        yield Case(
            "first",
            f"{name}: merged as an independent implementation has it",
            stdin=example(f"{name}.sarif"),
            stdout=expected(f"{name}.merged.sarif"),
            stderr=expected(f"{name}.summary.txt"),
        )
    yield Case(
        "first",
        "flawfinder-cjson: refused for its external properties",
        stdin=example("flawfinder-cjson.sarif"),
        status=2,
        stdout=b"",
        stderr=expected("flawfinder-cjson.refusal.txt"),
    )


def accepted():
    yield Case(
        "first",
        "one result with no level is a new warning",
        stdin=ONE,
        stdout=ONE_MERGED,
        stderr=ONE_SUMMARY,
    )
    yield Case(
        "first",
        "no results are an empty array",
        stdin=log(run("lint")),
        stdout=merged(gate(), written("lint")),
    )
    tools = [{"tool": {"driver": {"name": name}}} for name in "ab"]
    yield Case(
        "first",
        "absent and null results are left out and counted",
        stdin=log({**tools[0], "results": None}, tools[1]),
        stdout=merged(gate(without=2), *tools),
    )
    yield Case(
        "first",
        "a kind other than fail has the level none",
        stdin=log(run("lint", plain(kind="pass", level="error"))),
        stdout=merged(
            gate(new=[0, 0, 0, 1]), written("lint", marked("new", "none", **plain(kind="pass")))
        ),
    )
    fractions = {"rank": 12.5, "properties": {"list": [1, 2.5], "keep": [1, 2]}}
    yield Case(
        "first",
        "a fraction is dropped with its member, and an order mark is passed over",
        stdin=MARK + log(run("lint", plain(**fractions))),
        stdout=merged(
            gate(new=[0, 1, 0, 0]),
            written("lint", marked("new", **plain(properties={"keep": [1, 2]}))),
        ),
    )
    yield Case(
        "first",
        "an error fails the gate",
        stdin=log(run("lint", plain(level="error"))),
        stdout=merged(
            gate("fail", 1, new=[1, 0, 0, 0]), written("lint", marked("new", "error", **plain()))
        ),
        stderr=HEADING
        + b"new                 1          0          0          0          0\n"
        + b"".join(name + ZERO for name in (b"unchanged ", b"updated   ", b"absent    "))
        + b"gate: fail, hits 1, max 0\n",
        status=1,
    )
    yield Case(
        "first",
        "escapes are written in their shortest form, and other texts as they are",
        stdin=ONE.replace(b'"m"', b'"\\u00e9\\/\\u000a\\u0001\\ud83d\\ude00\x7f"'),
        stdout=ONE_MERGED.replace(b'"m"', '"é/\\n\\u0001\N{GRINNING FACE}\x7f"'.encode()),
    )
    yield Case(
        "first",
        "no runs at all are an empty array",
        stdin=b' {"runs" : null , "version":"2.1.0"}\n',
        stdout=merged(gate()),
    )


def faults():
    """Each cause of the readings and of a record, by a change of one log."""
    result = [
        ({"baselineState": "absent"}, "AbsentInput"),
        ({"kind": "bad"}, "BadKind"),
        ({"level": "high"}, "BadLevel"),
        ({"correlationGuid": "x"}, "BadGuid"),
        ({"fingerprints": {"a": 1}}, "BadFingerprint"),
        ({"partialFingerprints": []}, "BadFingerprint"),
        ({"suppressions": [{}]}, "BadSuppression"),
        ({"message": {"arguments": [None]}}, "BadMember"),
        ({"ruleIndex": -2}, "BadIndex"),
        ({"ruleIndex": 4294967296}, "BadIndex"),
        ({"locations": [None]}, "BadLocation"),
    ]
    for members, fault in result:
        given = log(run("a"), run("lint", plain(), {**plain(), **members}))
        yield Case(
            "first",
            f"{members} is refused",
            stdin=given,
            **refused(f"log 0, run 1, result 1: {fault}"),
        )
    sound = {"tool": {"driver": {"name": "lint"}}}
    whole = [
        (ONE[:50], "log 0: NotJson"),
        (b"", "log 0: NotJson"),
        (b"\xff", "log 0: NotJson"),
        (ONE + b"x", "log 0: NotJson"),
        (b"[" * 128 + b"]" * 128, "log 0: NotJson"),
        (b"[" * 127 + b"]" * 127, "log 0: NotLog"),
        (b'{"runs":[1.5],"version":"1"}', "log 0: NotLog"),
        (b'{"runs":null,"version":"1"}', "log 0: WrongVersion"),
        (log(sound, {"tool": {"driver": {}}}), "log 0, run 1: BadRun"),
        (log({**sound, "results": [1]}), "log 0, run 0: BadRun"),
        (log({**sound, "externalPropertyFileReferences": []}), "log 0, run 0: ExternalProperties"),
        (log(*[sound] * 10_001), "log 0: TooMany"),
        (bare(1_000_001), "log 0, run 0: TooMany"),
    ]
    for given, fault in whole:
        yield Case("first", f"{given[:40]!r} is refused", stdin=given, **refused(fault))


def streams():
    yield Case(
        "first",
        "an output that takes nothing",
        stdin=ONE,
        status=3,
        stderr=line("output: WriteFailed"),
        streams={"stdout": FULL},
    )
    yield Case(
        "first",
        "a summary that can't be written",
        stdin=ONE,
        status=3,
        stdout=ONE_MERGED,
        streams={"stderr": FULL},
    )
    yield Case(
        "first",
        "a fault line that can't be written changes no status",
        stdin=b"",
        status=2,
        streams={"stderr": FULL},
    )
    yield Case(
        "first",
        "an input that can't be read",
        streams={"stdin": "/proc/self/mem"},
        **refused("log 0: ReadFailed"),
    )
    yield Case(
        "first", "a source past its limit", stdin=bytes(67_108_865), **refused("log 0: TooLong")
    )
    yield Case(
        "first",
        "a source at its limit is read",
        stdin=bytes(67_108_864),
        **refused("log 0: NotJson"),
    )
    spaces = b" " * (67_108_864 - len(ONE))
    yield Case(
        "first",
        "a log at its limit is merged",
        stdin=ONE + spaces,
        stdout=ONE_MERGED,
        stderr=ONE_SUMMARY,
    )


def cases():
    for part in (examples, accepted, faults, streams):
        yield from part()
