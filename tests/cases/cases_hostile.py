"""Cases of malformed logs, limits, and files that can't be read or written.

tests/program/run has further cases: limits of runs, errors in each member, devices, links, modes and limits
of a file's size.
"""

import os

from cases import *
from cases_output import LOST, OLD, alone, unwritable
from cases_words import merging

LIMIT = 67_108_864
LONG = 120
SMALLEST = b'{"version":"2.1.0","runs":[]}'
MOST_RESULTS = 1_000_000


def hostile(name, words, **wanted):
    """Arguments for a file `a`, with an old output."""
    files = {"o": OLD, **wanted.pop("files", {})}
    return Case("hostile", name, words, files=files, **wanted)


def taken_as(name, part, given, **wanted):
    """These bytes as a log, as a baseline or as the suppression file."""
    words = {
        "log 0": ["--out", "o", "a"],
        "baseline 0": ["--baseline", "a", "--out", "o", "b"],
        "suppressions": ["--suppress", "a", "--out", "o", "b"],
    }
    return hostile(f"{name}, as {part}", words[part], files={"a": given, "b": ONE}, **wanted)


SOURCES = ("log 0", "baseline 0", "suppressions")


def prefixes():
    """Each prefix of a string, as bytes."""
    file = rules({"ruleId": "R1"})
    for name, whole, parts in (
        ("the smallest log", SMALLEST, SOURCES[:2]),
        ("a log of one result", ONE, SOURCES[:1]),
        ("a suppression file", file, SOURCES[2:]),
    ):
        for part in parts:
            for count in range(len(whole)):
                title = f"the first {count} bytes of {name}"
                fault = refused(f"{part}: NotJson")
                yield taken_as(title, part, whole[:count], out=OLD, **fault)
            yield taken_as(f"{name}, whole", part, whole)


def not_utf8():
    """Bytes that are not UTF-8, in a message and in a justification."""
    rows = {
        "a byte ff": b"\xff",
        "a byte c0": b"\xc0\x80",
        "half a surrogate pair": b"\xed\xa0\x80",
        "the first byte of two": b"\xc3",
        "a byte that goes on": b"\x80",
        "more than the last character": b"\xf4\x90\x80\x80",
    }
    texts = {
        "log 0": ONE,
        "baseline 0": ONE,
        "suppressions": rules({"ruleId": "R1", "justification": "m"}),
    }
    for name, given in rows.items():
        for part, whole in texts.items():
            text = whole.replace(b'"m"', b'"' + given + b'"')
            fault = refused(f"{part}: NotJson")
            yield taken_as(f"{name} in a text", part, text, out=OLD, **fault)


def nested(depth):
    """A log with one result, with arrays nested to this depth in its properties."""
    return ONE.replace(b'"m"}', b'"m"},"properties":{"deep":' + b"[" * depth + b"]" * depth + b"}")


def deep():
    kept = plain(properties={"deep": []})
    whole = merged(gate(new=[0, 1, 0, 0]), written("lint", marked("new", **kept)))
    whole = whole.replace(b"[]", b"[" * 121 + b"]" * 121, 1)
    for workers in ("1", "64"):
        words = ["--workers", workers, "--out", "o", "a"]
        title = f"by {workers} workers"
        yield hostile(
            f"a value nested 121 arrays deep, {title}", words, files={"a": nested(121)}, out=whole
        )
        yield hostile(
            f"a value nested 122 arrays deep, {title}",
            words,
            files={"a": nested(122)},
            out=OLD,
            **refused("log 0: NotJson"),
        )
    yield hostile(
        "a log with a deep value, and its merged log as the baseline",
        ["--baseline", "b", "--out", "o", "a"],
        files={"a": nested(121), "b": whole},
        check=tells(gate(unchanged=[0, 1, 0, 0]), ["unchanged"]),
    )
    for depth in (128, 1_000_000):
        fault = refused("log 0: NotJson")
        yield taken_as(f"{depth} brackets", "log 0", b"[" * depth, out=OLD, **fault)


def long():
    """Sources at their limit and above it, and sources that never end."""
    for part in SOURCES:
        for count, cause in ((LIMIT, "NotJson"), (LIMIT + 1, "TooLong")):
            fault = refused(f"{part}: {cause}")
            yield taken_as(
                f"{count:,} spaces", part, b" " * count, seconds=LONG, out=OLD, **fault
            )
    endless = {
        "log 0": ["--out", "o", "/dev/zero"],
        "log 1": ["--out", "o", "a", "/dev/zero", "b"],
        "baseline 0": ["--baseline", "/dev/zero", "--out", "o", "a"],
        "suppressions": ["--suppress", "/dev/zero", "--out", "o", "a"],
    }
    for part, words in endless.items():
        fault = refused(f"{part}: TooLong")
        yield hostile(f"a source that never ends, as {part}", words, files={"a": ONE, "b": ONE}, out=OLD, **fault)
    yield Case(
        "hostile",
        "standard input that never ends",
        streams={"stdin": "/dev/zero"},
        **refused("log 0: TooLong"),
    )


def indented():
    """A new suppression file that is too long because its values are deep."""
    deep = b'{"suppressions":[],"version":2,"x":' + b"[" * 120 + b"1," * 300_000 + b"1" + b"]" * 120 + b"}"
    yield hostile(
        "numbers in 120 arrays of the suppression file",
        ["--suppress", "a", "--suppress-out", "n", "--accept", "--out", "o", "b"],
        files={"a": deep, "b": ONE},
        out=OLD,
        **refused("suppressions: TooLong"),
    )


def many():
    """The maximum number of results, in one log and in all."""
    counted = MOST_RESULTS
    result = b'{"baselineState":"new","level":"warning","suppressions":[]}'
    empty = merged(gate(new=[0, counted, 0, 0]), written("b", 0))
    whole = empty.replace(b'"results":[0]', b'"results":[' + b",".join([result] * counted) + b"]", 1)
    yield hostile(
        "1,000,000 results without members",
        ["--out", "o", "a"],
        files={"a": bare(counted)},
        seconds=LONG,
        out=whole,
    )
    yield hostile(
        "1,000,001 results without members",
        ["--out", "o", "a"],
        files={"a": bare(counted + 1)},
        seconds=LONG,
        out=OLD,
        **refused("log 0, run 0: TooMany"),
    )
    yield merging(
        "hostile",
        "1,000,000 results in a log and a baseline",
        [bare(counted // 2)],
        [bare(counted // 2)],
        seconds=LONG,
        out=whole.replace(b",".join([result] * counted), b",".join([result] * (counted // 2)))
        .replace(b'"baselineState":"new"', b'"baselineState":"unchanged"')
        .replace(b"[0,1000000,0,0]", b"[0,0,0,0]")
        .replace(b'"unchanged":{"active":[0,0', b'"unchanged":{"active":[0,500000'),
    )


def forbidden(name):
    """Prepares a file of that name that the user nobody can't read."""

    def prepare(folder):
        (folder / name).chmod(0)

    return prepare


def stands(names, holds=None):
    """Checks that these names are in the folder `there`, and the contents of its file `o`."""

    def look(folder, kept):
        (folder / "there").chmod(0o755)
        found = sorted(it.name for it in (folder / "there").iterdir())
        wrong = [f"the folder has {found}"] * (found != names)
        if holds is not None and (folder / "there/o").read_bytes() != holds:
            wrong.append("the old file was changed")
        return wrong

    return look


def permissions():
    """What file modes forbid."""
    words = {
        "log 0": ["--out", "o", "a", "b"],
        "log 1": ["--out", "o", "b", "a"],
        "baseline 0": ["--baseline", "a", "--out", "o", "b"],
        "suppressions": ["--suppress", "a", "--out", "o", "b"],
    }
    for part, given in words.items():
        yield hostile(
            f"a source that may not be read, as {part}",
            given,
            files={"a": ONE, "b": ONE},
            prepare=forbidden("a"),
            is_nobody=True,
            out=OLD,
            **refused(f"{part}: ReadFailed"),
        )
    given = {"words": ["--out", "there/o", "a"], "files": {"a": ONE}, "is_nobody": True}
    yield hostile(
        "an old output in a folder that can't be written",
        **given,
        prepare=unwritable,
        look=stands(["o"], OLD),
        **LOST,
    )

    def empty(folder):
        (folder / "there").mkdir(mode=0o555)

    yield hostile(
        "a new output in a folder that can't be written",
        **given,
        prepare=empty,
        look=stands([]),
        **LOST,
    )

    def closed(folder):
        (folder / "there").mkdir(mode=0o777)
        (folder / "there").chmod(0o777)
        (folder / "there/o").write_bytes(OLD)
        (folder / "there/o").chmod(0o444)

    yield hostile(
        "an old output that can't be written",
        **given,
        prepare=closed,
        look=stands(["o"], OLD),
        **LOST,
    )


def cases():
    for part in (prefixes, not_utf8, deep, long, indented, many, permissions):
        yield from part()
