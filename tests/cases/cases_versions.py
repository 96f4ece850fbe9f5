"""Cases of --matching and --ignore-fingerprint."""

from cases import *
from cases_words import merging
from matching_examples import EXAMPLES, listed

GUIDS = {"G": "0f14d0ab-9605-4a62-a9e4-5ed26688389b", "H": "7" * 32}
SHOWN = {"n": "new", "=": "unchanged", "~": "updated"}


def spoken(said, region_name="region"):
    """The result that is described by what a word says."""
    region = {"startLine": said.line} if said.line else {}
    if said.snippet is not None:
        region["snippet"] = {"text": said.snippet}
    physical = {"artifactLocation": {"uri": said.file}, **({region_name: region} if region else {})}
    members = {"ruleId": "R1", "message": {"text": said.message}, "locations": [{"physicalLocation": physical}]}
    if said.guid:
        members["correlationGuid"] = GUIDS[said.guid]
    for name, given in (("fingerprints", said.full), ("partialFingerprints", said.partial)):
        if given:
            members[name] = given
    return members


def lint(words):
    """A log with the results that these words describe."""
    return log(run("lint", *map(spoken, listed(words))))


def one(words):
    (said,) = listed(words)
    return spoken(said)


def told(answer):
    """Checks the states of the current results and how many baseline results are absent."""
    *_, states, absent = answer.split()
    counts = {name: [0, states.count(sign), 0, 0] for sign, name in SHOWN.items()}
    wanted = [SHOWN[it] for it in states] + ["absent"] * int(absent)
    return tells(gate(absent=[0, int(absent), 0, 0], **counts), wanted)


def examples():
    for current, baseline, *answers in EXAMPLES:
        for version, answer in zip(("2", "3"), answers):
            yield merging(
                "versions",
                f"version {version}: {current} with {baseline}",
                [lint(current)],
                [lint(baseline)],
                more=["--matching", version],
                check=told(answer),
            )
        yield merging(
            "versions",
            f"no version: {current} with {baseline}",
            [lint(current)],
            [lint(baseline)],
            check=told(answers[0]),
        )


def spots():
    """Where a snippet is read from, and which lines count."""
    lines, text = {"startLine": 3}, {"snippet": {"text": "x"}}

    def placed(**members):
        return log(run("lint", ruled(locations=[{"physicalLocation": {"artifactLocation": {"uri": "a.c"}, **members}}])))

    whole = placed(region={**lines, "endLine": 3}, contextRegion={**lines, **text})
    given = [
        ("a context of the same lines has the snippet", whole, "~"),
        ("a context of more lines has none", placed(region=lines, contextRegion={**lines, "endLine": 4, **text}), "="),
        ("a region of more lines has none", placed(region={**lines, "endLine": 4}, contextRegion={**lines, **text}), "="),
        ("a blank snippet is none", placed(region={**lines, "snippet": {"text": " \t\n\f\r"}}), "="),
        ("another kind of white space is a snippet", placed(region={**lines, "snippet": {"text": "\u00a0"}}), "~"),
        ("a line of another kind is none", placed(region={"startLine": "3"}, contextRegion={**lines, **text}), "="),
        ("a region of another kind is none", placed(region=[3], contextRegion=5), "="),
        ("a snippet of another kind is none", placed(region={**lines, "snippet": "x"}), "="),
        ("a line past the limit is none", placed(region={"startLine": 4294967296}, contextRegion=text), "="),
    ]
    for name, current, sign in given:
        yield merging(
            "versions",
            name,
            [current],
            [lint('a"y"')],
            more=["--matching", "3"],
            check=told(f"{sign} 0"),
        )
    broken = placed(region={**lines, "snippet": {"text": 5}, "endLine": -1}, contextRegion={"snippet": None})
    for version in ("2", "3"):
        yield merging(
            "versions",
            f"version {version} refuses no region",
            [broken],
            more=["--matching", version],
            check=tells(gate(new=[0, 1, 0, 0])),
        )


def ignored():
    """Fingerprints that are ignored."""
    for version in ("2", "3"):
        more = ["--matching", version]
        yield merging(
            "ignored",
            f"version {version}: another value of an ignored fingerprint",
            [lint("a[y]")],
            [lint("a[x]")],
            more=[*more, "--ignore-fingerprint", "f/v1"],
            check=told("= 0"),
        )
        yield merging(
            "ignored",
            f"version {version}: one of two partial fingerprints",
            [lint("a(p:1,q:1)")],
            [lint("a(p:1,q:2)")],
            more=[*more, "--ignore-fingerprint", "r", "--ignore-fingerprint=q", "--ignore-fingerprint", "q"],
            check=told("= 0"),
        )
        yield merging(
            "ignored",
            f"version {version}: a part of a name is another name",
            [lint("b[y]")],
            [lint("b[x]")],
            more=[*more, "--ignore-fingerprint", "f", "--ignore-fingerprint", "", "--ignore-fingerprint", "f/v11"],
            check=told("n 1" if version == "2" else "~ 0"),
        )
    nameless = ruled(**at("a.c", fingerprints={"": "y"}))
    yield merging(
        "ignored",
        "the empty name",
        [log(run("lint", nameless))],
        [log(run("lint", {**nameless, "fingerprints": {"": "x"}}))],
        more=["--ignore-fingerprint="],
        check=told("= 0"),
    )
    entry = rules({"fingerprints": {"f/v1": "x"}})
    result = one("a[x]")
    accepted = [{"kind": "external", "status": "accepted"}]
    yield merging(
        "ignored",
        "an entry that names a fingerprint",
        [lint("a[x]")],
        suppress=entry,
        out=merged(
            gate(suppressed={"new": [0, 1, 0, 0]}),
            written("lint", marked("new", suppressions=accepted, **result)),
        ),
    )
    yield merging(
        "ignored",
        "an entry that names an ignored fingerprint matches nothing",
        [lint("a[x]")],
        suppress=entry,
        more=["--ignore-fingerprint", "f/v1"],
        out=merged(gate(new=[0, 1, 0, 0], unused=1), written("lint", marked("new", **result))),
    )
    yield merging(
        "ignored",
        "a bad value of an ignored fingerprint",
        [log(run("lint", ruled(fingerprints={"f": 5})))],
        more=["--ignore-fingerprint", "f"],
        **refused("log 0, run 0, result 0: BadFingerprint"),
    )


SPACED = 'a"x\\u0020=\\u00201"'

# The entries of a file of version 5, results, which of these are suppressed (s) or active (a) in each version of
# matching, and how many entries are unused.
SEEN = [
    ([{"snippet": " x=1"}], f'{SPACED} a"x=2" a', "saa", 0),
    ([{"snippet": "", "tool": "lint"}], 'a"x" a', "aa", 1),
    ([{"snippet": " \t\n"}], 'a"x" a', "aa", 1),
    ([{"snippet": "\u00a0x"}], 'a"x"', "a", 1),
    ([{"snippet": None, "tool": "lint"}], 'a"x" a', "ss", 0),
    ([{"snippet": "x"}], 'a"x"@3 b"x"@9 a"x"[y] a"x"+G a"X" a"xx" a"x"/n', "ssssaas", 0),
    ([{"snippet": "x", "uri": "a.c"}, {"snippet": "x", "uri": "b.c"}], 'a"x" a"y" b"y"', "saa", 1),
    ([{"snippet": "x", "fingerprints": {"f/v1": "y"}}], 'a"x"[y] a"x"[z] a"z"[y]', "saa", 0),
    ([{"snippet": "x", "partialFingerprints": {"p": "1"}}], 'a"x"(p:1) a"x"(p:2)', "sa", 0),
    ([{"snippet": "x", "guid": GUIDS["G"]}], 'a"x"+G a"x"+H a"y"+G a"x"', "saaa", 0),
    ([{"snippet": "x", "message": "m"}, {"message": "n"}], 'a"x" a"x"/n a"y"', "ssa", 0),
    ([{"snippet": "x", "uriPrefix": "a"}, {"snippet": "y", "ruleId": "R1"}], 'a"x" b"x" b"y"', "sas", 0),
    ([{"snippet": "x", "tool": "lint"}, {"snippet": ""}, {"tool": "lint", "uri": "b.c"}], 'a"x" b"x"', "ss", 1),
]

# Entries of a file of this version that aren't read, and why.
UNREAD = [
    (5, {"snippet": 5}, "BadEntry"),
    (5, {"snippet": ["x"]}, "BadEntry"),
    (5, {"snippet": {"text": "x"}}, "BadEntry"),
    (5, {"snippet": None}, "EmptyMatch"),
    *((version, {"tool": "lint", "snippet": value}, "BadEntry") for version in (1, 2, 4) for value in ("x", None)),
]


def snippets():
    """Entries that name snippets, with both versions of matching."""
    for version in ("2", "3"):
        more = ["--matching", version]
        for entries, words, wanted, unused in SEEN:
            suppressed = {"new": [0, wanted.count("s"), 0, 0]}
            yield merging(
                "snippets",
                f"version {version}: {entries} on {words}",
                [lint(words)],
                suppress=rules(*entries, version=5),
                more=more,
                check=tells(gate(new=[0, wanted.count("a"), 0, 0], suppressed=suppressed, unused=unused)),
            )
        for file_version, entry, cause in UNREAD:
            yield merging(
                "snippets",
                f"version {version}: {entry} in a file of version {file_version}",
                [lint("a")],
                suppress=rules(entry, version=file_version),
                more=more,
                **refused(f"suppressions, entry 0: {cause}"),
            )
    for words, baseline, answer in (('a"y" a"x"', 'a"x"', "=n 0"), ('a"x"', 'a"y"', "= 0"), ("b(p:)", "a(p:)", "~ 0")):
        yield merging(
            "snippets",
            f"version 2 of matching looks at no snippet: {words} with {baseline}",
            [lint(words)],
            [lint(baseline)],
            suppress=rules(version=5),
            check=told(answer),
        )
    for number in (3, 6, 50):
        yield merging(
            "snippets",
            f"there is no version {number}",
            [lint("a")],
            suppress=rules({"tool": "lint"}, version=number),
            **refused("suppressions: WrongVersion"),
        )


def cases():
    for part in (examples, spots, ignored, snippets):
        yield from part()
