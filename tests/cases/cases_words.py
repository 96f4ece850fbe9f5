"""Cases of the program's arguments: files, exit statuses, many logs and workers."""

from cases import *


def merging(group, name, logs, baselines=(), suppress=None, more=(), **wanted):
    """A merge of these logs, as files and arguments."""
    files = {f"log{number}": given for number, given in enumerate(logs)}
    words = []
    for number, given in enumerate(baselines):
        files[f"baseline{number}"] = given
        words += ["--baseline", f"baseline{number}"]
    if suppress is not None:
        files["rules"] = suppress
        words += ["--suppress", "rules"]
    words += [*more, "--out", "o", *(f"log{number}" for number in range(len(logs)))]
    return Case(group, name, words, files=files, **wanted)


def one(name, words, **wanted):
    """Arguments for a file `a` that has one warning."""
    return Case("words", name, words, files={"a": ONE, **wanted.pop("files", {})}, **wanted)


def gates():
    base = ["--out", "o", "a"]
    yield one("a log and an output", base, out=ONE_MERGED, stdout=ONE_SUMMARY, stderr=b"")
    failed = gate("fail", 1, fail_on="warning", new=[0, 1, 0, 0])
    yield one(
        "a warning fails where the gate is told so",
        ["--fail-on", "warning", *base],
        status=1,
        stdout=ONE_TABLE + b"gate: fail, hits 1, max 0\n",
        check=tells(failed, ["new"]),
    )
    passed = gate("pass", 1, fail_on="warning", most=1, new=[0, 1, 0, 0])
    yield one(
        "as many hits as are allowed pass",
        ["--fail-on", "warning", "--max", "1", *base],
        stdout=ONE_TABLE + b"gate: pass, hits 1, max 1\n",
        check=tells(passed, ["new"]),
    )
    least = gate("pass", 1, fail_on="none", most=4294967295, new=[0, 1, 0, 0])
    yield one(
        "the largest number of hits",
        ["--fail-on=none", "--max=4294967295", *base],
        check=tells(least),
    )
    yield from listed_states()
    for words in (
        ["a", "--out=o"],
        ["--out", "o", "--workers", "64", "a"],
        ["--workers", "1", *base],
        ["--matching", "2", *base],
        ["--matching=3", *base],
        ["--ignore-fingerprint", "", "--ignore-fingerprint=-x", *base],
    ):
        yield one(f"the words {' '.join(words)}", words, out=ONE_MERGED, stdout=ONE_SUMMARY)
    yield one("a day is read", ["--today", "99991231", *base], out=ONE_MERGED)


def listed_states():
    """Which states make a result a hit."""
    nothing, bad = log(run("lint")), log(run("lint", ruled(level="error")))
    wanted = gate("fail", 1, states=["absent"], absent=[1, 0, 0, 0])
    yield merging(
        "words",
        "absent results count where they are listed",
        [nothing],
        [bad],
        more=["--states", "absent"],
        status=1,
        check=tells(wanted, ["absent"]),
    )
    order = ["absent", "new", "unchanged", "updated"]
    wanted = gate("fail", 1, states=order, unchanged=[1, 0, 0, 0])
    yield merging(
        "words",
        "all states, in another order than the gate object's",
        [bad],
        [bad],
        more=["--states=updated,unchanged,new,absent"],
        status=1,
        check=tells(wanted, ["unchanged"]),
    )
    wanted = gate(states=["unchanged"], new=[1, 0, 0, 0])
    yield merging(
        "words",
        "a new result is no hit where new isn't listed",
        [bad],
        more=["--states", "unchanged"],
        check=tells(wanted, ["new"]),
    )
    words = ["--states", "new,updated", "--out", "o", "a"]
    yield one("the default states by name", words, out=ONE_MERGED, stdout=ONE_SUMMARY)


def usual(name, words, **wanted):
    """Arguments that don't lead to a merge."""
    return Case("usage", name, words, files={"a": ONE}, **wanted)


def usage():
    wrong = [
        "--workers 0",
        "--workers 65",
        "--workers x",
        "--max 4294967296",
        "--max -1",
        "--matching 1",
        "--matching 4",
        "--matching x",
        "--matching=",
        "--matching 2 --matching 3",
        "--matching",
        "--ignore-fingerprint",
        "--fail-on high",
        "--fail-on Error",
        "--today 0",
        "--today 10000100",
        "--today 99991232",
        "--nothing",
        "--out p",
        "--suppress",
        "--states=",
        "--states new,new",
        "--states new,",
        "--states=,new",
        "--states New",
        "--states new;updated",
        "--states all",
        "--states new --states new",
        "--require-success --require-success",
        "--require-success=true",
        "--allow-external-properties --allow-external-properties",
        "--once --once",
        "--once=1",
        "--allow-external",
    ]
    for words in wrong:
        yield usual(
            f"a --out o {words} is bad usage",
            ["a", "--out", "o", *words.split()],
            status=2,
            stdout=b"",
            check=says_usage,
        )
    yield from twice()
    for words, told in EXPECTED:
        yield usual(
            f"what is said of {words}",
            ["a", "--out", "o", *words.split()],
            status=2,
            stdout=b"",
            check=lambda answer, told=told: says_usage(answer) + says_if_ours(answer, told),
        )
    yield usual("no log is bad usage", ["--out", "o"], status=2, stdout=b"", check=says_usage)
    yield usual("no output is bad usage", ["a"], status=2, stdout=b"", check=says_usage)
    for word in ("--help", "-h"):
        yield usual(f"{word} is help", [word], stderr=b"", check=says_help)


# What is said of a value that isn't a number or a date.
A_DATE = "expected a date as YYYYMMDD, for example 20251128"
A_NUMBER = "expected a number from 0 to 4294967295"
EXPECTED = [
    ("--today 2026-11-28", f"invalid value '2026-11-28' for '--today <YYYYMMDD>': {A_DATE}"),
    ("--until 28.11.2026", f"invalid value '28.11.2026' for '--until <YYYYMMDD>': {A_DATE}"),
    ("--max 10%", f"invalid value '10%' for '--max <NUMBER>': {A_NUMBER}"),
    ("--max 4294967296", f"invalid value '4294967296' for '--max <NUMBER>': {A_NUMBER}"),
    ("--matching 1", "invalid value '1' for '--matching <VERSION>': expected a number from 2 to 3"),
    ("--matching two", "invalid value 'two' for '--matching <VERSION>': expected a number from 2 to 3"),
    ("--workers four", "invalid value 'four' for '--workers <NUMBER>': expected a number from 1 to 64"),
]

# Arguments with a name that is twice among the logs or twice among the baselines, and what is said of it.
ONE_FILE = "; --baseline takes one file, and the files after it are logs"
TWICE = [
    ("--out o a a", "the log a is passed twice"),
    ("--out o b a c a", "the log a is passed twice"),
    ("a --out o b b a", "the log a is passed twice"),
    ("--out o - a -", "standard input (-) can be only one of the logs"),
    ("--baseline b --baseline b --out o a", "the baseline b is passed twice"),
    ("--baseline b --baseline c --baseline=b --out o a", "the baseline b is passed twice"),
    ("--baseline - --baseline - --out o a", "the baseline - is passed twice"),
    ("--baseline a b c b c --out o", f"the log b is passed twice{ONE_FILE}"),
    ("--out o --baseline=a b c b", f"the log b is passed twice{ONE_FILE}"),
    ("--baseline a --baseline a b c --out o", f"the baseline a is passed twice{ONE_FILE}"),
    ("--baseline a b --out o b", "the log b is passed twice"),
    # Before what is wrong with outputs, and logs before baselines.
    ("--baseline b --baseline b --out a a a", "the log a is passed twice"),
    ("--baseline b --baseline b --suppress o --text o --out o a", "the baseline b is passed twice"),
]


def twice():
    for words, told in TWICE:
        yield usual(
            f"{words} has a name twice",
            words.split(),
            status=2,
            stdout=b"",
            check=lambda answer, told=told: says_usage(answer) + says_if_ours(answer, told),
        )
    many = [f"{number:0200}" for number in range(5_000)]
    yield usual(
        "the first of 5,000 long names, and again the last",
        ["--out", "o", *many, many[0]],
        status=2,
        stdout=b"",
        check=says_usage,
    )


def says_if_ours(answer, told):
    """What our program says of its arguments; the second merger says only what it takes."""
    wanted = f"error: {told}\n\nFor more information, try '--help'.\n".encode()
    is_other = answer.stderr.startswith(b"Usage:")
    return [f"{answer.stderr} and not {wanted}"] * (not is_other and answer.stderr != wanted)


def says_usage(answer):
    return says_what_is_wrong(answer) + ["an output was written"] * (answer.out is not None)


OPTIONS = ("--baseline", "--suppress", "--today", "--workers", "--fail-on", "--max", "--out")
OPTIONS += ("--require-success", "--allow-external-properties", "--matching", "--once", "--ignore-fingerprint")
OPTIONS += ("--at", "--rule", "--diff", "--diff-scope", "--policy")


def says_help(answer):
    return [f"the help doesn't name {it}" for it in OPTIONS if it.encode() not in answer.stdout]


def files():
    old = {"o": b"old"}
    yield one(
        "a log that isn't there",
        ["--out", "o", "a", "b"],
        files=old,
        out=b"old",
        **refused("log 1: ReadFailed"),
    )
    yield one(
        "a log that is a folder",
        ["--out", "o", ".", "a"],
        files=old,
        out=b"old",
        **refused("log 0: ReadFailed"),
    )
    yield one(
        "a baseline that isn't there",
        ["--baseline", "a", "--baseline", "b", "--out", "o", "a"],
        **refused("baseline 1: ReadFailed"),
    )
    yield one(
        "a suppression file that isn't there",
        ["--suppress", "b", "--out", "o", "a"],
        **refused("suppressions: ReadFailed"),
    )
    bad = {"b": b"{"}
    yield one(
        "an unreadable log before one that isn't JSON",
        ["--out", "o", "b", "c"],
        files=bad,
        **refused("log 1: ReadFailed"),
    )
    yield one(
        "an output in a folder that isn't there",
        ["--out", "none/o", "a"],
        **refused("output: WriteFailed"),
    )
    yield one("an output that is a folder", ["--out", ".", "a"], **refused("output: WriteFailed"))
    yield one(
        "an output that takes nothing", ["--out", FULL, "a"], **refused("output: WriteFailed")
    )
    yield one(
        "a refused merge leaves the old output",
        ["--out", "o", "b"],
        files={**bad, **old},
        out=b"old",
        **refused("log 0: NotJson"),
    )
    yield one(
        "an old output is replaced", ["--out", "o", "a"], files={"o": b"x" * 9999}, out=ONE_MERGED
    )
    known = (
        ONE_MERGED.replace(b'"new":{"active":[0,1', b'"new":{"active":[0,0')
        .replace(b'"unchanged":{"active":[0,0', b'"unchanged":{"active":[0,1')
        .replace(b'"baselineState":"new"', b'"baselineState":"unchanged"')
    )
    words = ["--baseline", "o", "--out", "o", "a"]
    yield one("a baseline may be its own output", words, files={"o": ONE}, out=known)
    yield one("a log may be a baseline too", ["--baseline", "a", "--out", "o", "a"], out=known)
    yield one(
        "no log is its own output",
        ["--out", "a", "a"],
        out_name="a",
        out=ONE,
        status=2,
        stdout=b"",
        check=lambda answer: ["nothing stands on standard error"] * (not answer.stderr),
    )
    yield one(
        "no later log is the output",
        ["--out=a", "b", "a"],
        files={"b": ONE},
        out_name="a",
        out=ONE,
        status=2,
    )
    yield one(
        "a summary that can't be written",
        ["--out", "o", "a"],
        status=3,
        out=ONE_MERGED,
        streams={"stdout": FULL},
    )
    yield one(
        "a fault line that can't be written",
        ["--out", "o", "b"],
        status=3,
        streams={"stderr": FULL},
    )
    yield one(
        "standard output as the output",
        ["--out", "/dev/stdout", "a"],
        stdout=ONE_MERGED + ONE_SUMMARY,
    )
    yield one(
        "standard input as a log",
        ["--out", "o", "/dev/stdin"],
        stdin=ONE,
        out=ONE_MERGED,
    )
    long = {"b": bytes(67_108_865)}
    yield one(
        "a baseline past its limit",
        ["--baseline", "b", "--out", "o", "a"],
        files=long,
        **refused("baseline 0: TooLong"),
    )


def many():
    """Limits and the order of errors, with several logs."""
    half = log(*[run("b")] * 6_000)
    yield merging("many", "two logs of 6,000 runs each", [half, half], **refused("log 1: TooMany"))
    whole = log(*[run("b")] * 10_000)
    yield merging("many", "a log of 10,000 runs", [whole], check=tells(gate(), []))
    almost, two = log(*[run("b")] * 9_999), log(run("b"), run("b"))
    yield merging(
        "baseline",
        "9,999 runs and a baseline of 2",
        [almost],
        [two],
        **refused("baseline 0: TooMany"),
    )
    title = "40 logs and 40 baselines where 12 files may be open"
    few = merging("many", title, [ONE] * 40, [ONE] * 40)
    few.open_files = 12
    yield few
    results = [bare(600_000), bare(400_001)]
    yield merging("many", "1,000,001 results of two logs", results, **refused("log 1: TooMany"))
    skipped = log(run("b", *[{"baselineState": "absent"}] * 2))
    fault = refused("baseline 0: TooMany")
    yield merging("baseline", "skipped results count", [bare(999_999)], [skipped], **fault)
    names = [f"n{number}" for number in range(1_001)]
    yield Case(
        "many",
        "1,001 logs, before any is read",
        ["--out", "o", *names],
        **refused("log 1000: TooMany"),
    )
    before = [word for name in names for word in ("--baseline", name)]
    yield one("1,001 baselines", [*before, "--out", "o", "a"], **refused("baseline 1000: TooMany"))
    yield one(
        "1,001 logs and baselines", [*before, "--out", "o", *names], **refused("log 1000: TooMany")
    )
    bad = log(run("lint", ruled(correlationGuid="x")))
    yield merging(
        "many", "a result's fault after a later log's", [bad, b"{"], **refused("log 1: NotJson")
    )
    yield merging(
        "many",
        "a result of the second log",
        [ONE, bad],
        **refused("log 1, run 0, result 0: BadGuid"),
    )
    both = written("lint", marked("new", **plain()))
    merge = merged(gate(new=[0, 2, 0, 0]), both, both)
    yield merging("many", "two logs, run after run", [ONE, ONE], out=merge)


def workers():
    given = log(run("lint", ruled(), ruled()), run("b"), run("lint", ruled()))
    result = marked("new", **ruled())
    merge = merged(
        gate(new=[0, 3, 0, 0]),
        written("lint", result, result),
        written("b"),
        written("lint", result),
    )
    eight = [plain() for _ in range(7)] + [plain(correlationGuid="x")]
    faulty = log(run("lint", *eight), run("lint", plain(level="high")))
    for number in ("1", "2", "8", "64"):
        more = ["--workers", number]
        yield merging("workers", f"three runs by {number} workers", [given], more=more, out=merge)
        fault = refused("log 0, run 0, result 7: BadGuid")
        yield merging(
            "workers", f"the first fault by {number} workers", [faulty], more=more, **fault
        )
    many = log(*[run("lint", *[ruled()] * 100)] * 100)
    yield merging(
        "workers", "10,000 results by 4 workers", [many], check=tells(gate(new=[0, 10_000, 0, 0]))
    )


def cases():
    for part in (gates, usage, files, many, workers):
        yield from part()
