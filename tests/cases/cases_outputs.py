"""Cases of the options for reports: files, standard streams, outputs that can't be written, explanations."""

import gzip
import os
import re
import stat

from cases import *
from cases_reports import KINDS, every_report, report_faults
from page_reader import page_faults
from reference_reports import Policy, Reports

OLD = b"what stood there"
OF_ONE = Reports(json.loads(ONE_MERGED), Policy())
BAD = log(run("lint", plain(correlationGuid="x")))
NONE = log(run("lint"))
NONE_MERGED = merged(gate(), written("lint"))


def one(name, words, **wanted):
    """Arguments for a file `a` that has one warning."""
    files = {"a": ONE, **wanted.pop("files", {})}
    return Case(wanted.pop("group", "words"), name, list(words), files=files, **wanted)


def holds(wanted, absent=(), reports=OF_ONE):
    """Checks that exactly these files exist, each with these bytes or with the report of that name."""

    def look(folder, kept):
        wrong = []
        for name, it in wanted.items():
            if isinstance(it, bytes):
                found = (folder / name).read_bytes() if (folder / name).is_file() else None
                wrong += [f"{name}: {difference(it, found)}"] * (found != it)
            else:
                faults = report_faults(folder / name, it[0], reports)
                wrong += [f"{name}: {fault}" for fault in faults]
        found = {it.name for it in folder.iterdir()}
        more = sorted(found - set(wanted))
        return wrong + [f"there are also {more}"] * bool(more)

    return look


def reported(*kinds):
    """The files of these reports, for `holds`."""
    return {kind: [kind] for kind in kinds}


# ---- Streams


def spoken(kind):
    """Checks that standard output has a report and then the summary."""

    def check(answer):
        if not answer.stdout.endswith(ONE_SUMMARY):
            return ["the summary isn't last"]
        said = answer.stdout[: -len(ONE_SUMMARY)]
        if kind == "html":
            return page_faults(said, OF_ONE)
        wanted = getattr(OF_ONE, kind)()
        return [difference(wanted, said)] * (said != wanted)

    return check


def streams():
    base = {"a": ONE, "o": ONE_MERGED}
    for kind in KINDS:
        words = [f"--{kind}", "-", "--out", "o", "a"]
        given = {"check": spoken(kind), "look": holds(base), "stderr": b""}
        yield one(f"--{kind} - is standard output", words, **given)
        words = [f"--{kind}={kind}", "--out", "-", "a"]
        yield one(
            f"--out - and --{kind}",
            words,
            stdout=ONE_MERGED,
            stderr=ONE_SUMMARY,
            look=holds({"a": ONE, **reported(kind)}),
        )
    both = {"stdout": ONE_MERGED, "stderr": ONE_SUMMARY}
    yield one("--out - alone", ["--out", "-", "a"], look=holds({"a": ONE}), **both)
    given = {"stdin": ONE, "files": {"a": b"{"}, "stdout": ONE_SUMMARY}
    yield one("- is a log", ["--out", "o", "-"], out=ONE_MERGED, **given)
    words = ["--text", "-", "--out", "o", "-"]
    yield one("--text - beside a log -", words, stdin=ONE, check=spoken("text"))
    yield one("a log - and --out -", ["--out", "-", "-"], stdin=ONE, **both)
    two = merged(gate(new=[0, 2, 0, 0]), *[written("lint", marked("new", **plain()))] * 2)
    yield one("- among other logs", ["--out", "o", "a", "-"], stdin=ONE, out=two)
    result = marked("unchanged", **plain())
    again = merged(gate(unchanged=[0, 1, 0, 0]), written("lint", result))
    named = {"files": {"-": ONE}, "out": again}
    yield one("--baseline - is a file's name", ["--baseline", "-", "--out", "o", "a"], **named)
    entries = rules({"tool": "lint"})
    held = [{"kind": "external", "status": "accepted"}]
    result = marked("new", suppressions=held, **plain())
    quiet = merged(gate(suppressed={"new": [0, 1, 0, 0]}), written("lint", result))
    named = {"files": {"-": entries}, "out": quiet}
    yield one("--suppress - is a file's name", ["--suppress", "-", "--out", "o", "a"], **named)
    words = ["--text", "./-", "--out", "o", "a"]
    yield one("./- is a file", words, look=holds({**base, "-": ["text"]}))
    yield one(
        "a log - that is faulty",
        ["--out", "o", "a", "-"],
        stdin=b"{",
        look=holds({"a": ONE}),
        **refused("log 1: NotJson"),
    )


# ---- A terminal

WAITS = b"sarif_gate: reading a SARIF log from standard input; --help shows the options\n"


def typed(text):
    """The name of a terminal at which this text was typed, and then the end of the input."""
    keyboard, terminal = os.openpty()
    os.write(keyboard, text + b"\n\x04")
    return os.ttyname(terminal)


def terminals():
    given = {"stdout": ONE_MERGED, "look": holds({"a": ONE})}
    streams = {"stdin": typed(ONE)}
    yield one("no arguments in a terminal", [], streams=streams, stderr=WAITS + ONE_SUMMARY, **given)
    streams = {"stdin": typed(ONE)}
    yield one("- in a terminal", ["--out", "-", "-"], streams=streams, stderr=ONE_SUMMARY, **given)


# ---- Invalid arguments


def told_of_words():
    """What is said of an unknown option, and of a value that isn't allowed."""
    more = "\n\nFor more information, try '--help'.\n"
    unknown = (
        "error: unexpected argument '--frobnicate' found\n\n"
        "  tip: to pass '--frobnicate' as a value, use '-- --frobnicate'\n\n"
        f"Usage: sarif_gate [OPTIONS] --out <FILE> <LOG>...{more}"
    )
    given = {"status": 2, "stdout": b""}
    yield one("what is said of an unknown option", ["--frobnicate"], stderr=unknown.encode(), **given)
    bad = f"error: invalid value '0' for '--workers <NUMBER>': expected a number from 1 to 64{more}"
    words = ["--workers", "0", "--out", "o", "a"]
    yield one("what is said of a wrong value", words, stderr=bad.encode(), **given)
    for words, sentence in (
        ("--diff-scope lines", "--diff-scope needs --diff"),
        ("--diff d --diff-scope line", "invalid value for '--diff-scope <SCOPE>': expected lines or files"),
        ("--diff d --states new,absent", "--states with absent and --diff cannot be used together"),
        ("--diff - -", "standard input (-) can be only one of the logs and --diff"),
        ("--diff d --text d", "--text would overwrite the diff d"),
        ("--policy p --max 0", "--max and --policy cannot be used together: each condition has its own max"),
        ("--policy p --text p", "--text would overwrite the policy p"),
    ):

        def check(answer, sentence=sentence):
            said = answer.stderr.decode()
            return [f"it said {said!r}, and not {sentence!r}"] * (sentence not in said)

        yield one(f"what is said of {words}", [*words.split(), "--out", "o", "a"], check=check, **given)


def wrong(name, words, files=()):
    """Invalid arguments: nothing is written."""
    given = {"b": OLD, "s": OLD, **dict.fromkeys(files, OLD)}
    return one(
        f"{name}: {' '.join(words)}",
        words,
        files=given,
        status=2,
        stdout=b"",
        look=holds({"a": ONE, **given}),
        check=says_what_is_wrong,
    )


def clashes():
    for kind in KINDS:
        word = f"--{kind}"
        yield wrong("a log's name", [word, "a", "--out", "o", "a"])
        yield wrong("a second log's name", [word, "b", "--out", "o", "a", "b"])
        yield wrong("a baseline's name", [word, "b", "--baseline", "b", "--out", "o", "a"])
        more = ["--baseline", "a", "--baseline", "b"]
        yield wrong("a second baseline's name", [word, "b", *more, "--out", "o", "a"])
        words = [word, "s", "--suppress", "s", "--out", "o", "a"]
        yield wrong("the suppression file's name", words)
        yield wrong("the output's name", [word, "o", "--out", "o", "a"])
        yield wrong("the output's name, where a file stands", [word, "o", "--out", "o", "a"], ["o"])
        yield wrong("two for standard output", [word, "-", "--out", "-", "a"])
        yield wrong("twice", [word, "p", word, "q", "--out", "o", "a"])
        yield wrong("no file", ["--out", "o", "a", word])
    for number, kind in enumerate(KINDS):
        for other in KINDS[number + 1 :]:
            words = [f"--{other}", "p", f"--{kind}", "p", "--out", "o", "a"]
            yield wrong("one name for two reports", words)
            yield wrong("two for standard output", ["-" if it == "p" else it for it in words])
    yield wrong("standard input twice", ["--out", "o", "-", "-"])
    yield wrong("standard input thrice", ["--out", "o", "-", "a", "-", "-"])
    two = ["--root", "a", "--root", "b", "--out", "o", "a"]
    yield one("two roots", two, look=holds({"a": ONE, "o": ONE_MERGED}))
    yield wrong("explained twice", ["--explain", "--explain", "--out", "o", "a"])
    yield from told_of_words()
    yield wrong("a report and no output", ["--text", "t", "a"])
    yield wrong("a report and no log", ["--text", "t", "--out", "o"])
    base = {"a": ONE, "o": ONE_MERGED}
    other = ["--text", "./a.txt", "--out", "o", "a"]
    yield one("a name of its own", other, look=holds({**base, "a.txt": ["text"]}))
    yield wrong("--out and a log", ["--out", "a", "a"])
    yield one(
        "--out may replace a baseline",
        ["--baseline", "b", "--out", "b", "a"],
        files={"b": log()},
        look=holds({"a": ONE, "b": ONE_MERGED}),
    )


def versions():
    for word in ("--version", "-V"):
        yield Case("words", f"{word} tells the version", [word], stderr=b"", check=tells_version)
    yield Case("words", "the help names the words", ["--help"], stderr=b"", check=names_words)
    yield Case("words", "the help can be read", ["--help"], stderr=b"", check=is_readable)
    words = ["--out", "o", "a", "-V"]
    yield one("--version among others", words, check=tells_version, look=holds({"a": ONE}))


def tells_version(answer):
    is_told = re.fullmatch(rb"sarif_gate [0-9]+\.[0-9]+\.[0-9]+\n", answer.stdout)
    return [f"it says {answer.stdout[:60]!r}"] * (not is_told)


def names_words(answer):
    later = ["--suppress-out", "--accept", "--prune", "--reason", "--until", "--known", "--adopt"]
    words = [*(f"--{kind}" for kind in KINDS), *later, "--unused", "--root", "--explain", "--version"]
    return [f"the help doesn't name {it}" for it in words if it.encode() not in answer.stdout]


GROUPS = ["Inputs:", "Gate:", "Outputs:", "Upkeep:", "Other:"]
HIT = "A hit is an active result with a state of --states and a level at or above that of --fail-on."


def is_readable(answer):
    """The help has its groups in their order, is at most 100 columns wide, and says what a hit is."""
    text = answer.stdout.decode()
    lines = text.splitlines()
    groups = [it for it in lines if it in [*GROUPS, "Arguments:", "Options:"]]
    wrong = [f"its groups are {groups}"] * (groups != GROUPS)
    wrong += [f"wider than 100 columns: {it}" for it in lines if len(it) > 100]
    return wrong + ["it doesn't say what a hit is"] * (HIT not in text)


# ---- What is written when


def failing(number, name, file, old=False, **more):
    """The report with this number is written to a file that can't be written, the others to their own files."""
    kind = KINDS[number]
    words = [word for it in KINDS for word in (f"--{it}", file if it == kind else it)]
    olds = dict.fromkeys(KINDS, OLD) if old else {}
    stand = {"a": ONE, "o": ONE_MERGED, **olds, **reported(*KINDS[:number])}
    return one(
        f"{kind} into {name}" + ", where others stand" * old,
        [*words, "--out", "o", "a"],
        files=olds,
        group="writing",
        look=holds(stand),
        **{**refused(f"{kind} report: WriteFailed"), **more},
    )


def failures():
    for number in range(len(KINDS)):
        for old in (False, True):
            yield failing(number, "a folder that isn't there", "none/p", old)
            yield failing(number, "a full device", FULL, old)
            yield failing(number, "a folder", ".", old)
        full = {"streams": {"stdout": FULL}, "stdout": None}
        yield failing(number, "a full standard output", "-", **full)
    words = [*every_report(), "--out", "none/o", "a"]
    none = {"group": "writing", "look": holds({"a": ONE}), **refused("output: WriteFailed")}
    yield one("the output fails", words, **none)
    words = [*every_report(), "--out", "-", "a"]
    yield one("standard output fails", words, **{**none, "stdout": None}, streams={"stdout": FULL})
    whole = {"a": ONE, "o": ONE_MERGED, **reported(*KINDS)}
    yield one(
        "the summary alone fails",
        [*every_report(), "--out", "o", "a"],
        group="writing",
        status=3,
        streams={"stdout": FULL},
        look=holds(whole),
    )
    yield one(
        "a page past the limit of a file's size",
        [*every_report(), "--out", "o", "a"],
        files={"html": OLD},
        group="writing",
        file_size=2_000,
        look=holds({"a": ONE, "o": ONE_MERGED, **reported(*KINDS[:4]), "html": OLD}),
        **refused("html report: WriteFailed"),
    )


def refusals():
    olds = dict.fromkeys(KINDS, OLD)
    for name, bad, fault in (
        ("a log that isn't JSON", b"{", "log 0: NotJson"),
        ("a bad result", BAD, "log 0, run 0, result 0: BadGuid"),
    ):
        for files in ({}, olds):
            yield one(
                f"{name} leaves {'old' if files else 'no'} reports",
                [*every_report(), "--out", "o", "a"],
                files={**files, "a": bad},
                group="writing",
                look=holds({**files, "a": bad}),
                **refused(fault),
            )
    yield one(
        "a log that can't be read leaves no reports",
        [*every_report(), "--out", "o", "b"],
        group="writing",
        look=holds({"a": ONE}),
        **refused("log 0: ReadFailed"),
    )


def empty():
    none = Reports(json.loads(NONE_MERGED), Policy())
    wanted = {"a": NONE, "o": NONE_MERGED, **reported(*KINDS)}
    for old in ({}, dict.fromkeys(KINDS, OLD)):
        yield one(
            f"nothing reported makes {'old files empty' if old else 'empty files'}",
            [*every_report(), "--out", "o", "a"],
            files={"a": NONE, **old},
            group="writing",
            look=holds(wanted, reports=none),
        )
    names = (b"new       ", b"unchanged ", b"updated   ", b"absent    ")
    summary = HEADING + b"".join(it + ZERO for it in names) + b"gate: pass, hits 0, max 0\n"
    for kind in ("text", "github"):
        words = [f"--{kind}", "-", "--out", "o", "a"]
        given = {"files": {"a": NONE}, "group": "writing", "stdout": summary}
        yield one(f"nothing reported by --{kind} -", words, **given)


def kept_modes():
    whole = {"a": ONE, "o": ONE_MERGED, **reported(*KINDS)}

    def prepare(folder):
        for kind in KINDS:
            (folder / kind).write_bytes(OLD)
            (folder / kind).chmod(0o640)

    def look(folder, kept):
        modes = {stat.S_IMODE((folder / kind).stat().st_mode) for kind in KINDS}
        return holds(whole)(folder, kept) + [f"the modes {modes}"] * (modes != {0o640})

    words, group = [*every_report(), "--out", "o", "a"], "writing"
    yield one("the mode of an old report is kept", words, group=group, prepare=prepare, look=look)

    def link(folder):
        (folder / "text").symlink_to("t")

    def still_links(folder, kept):
        wrong = ["the link was replaced"] * (not (folder / "text").is_symlink())
        return wrong + holds({**whole, "t": ["text"]})(folder, kept)

    yield one("a link is followed", words, group="writing", prepare=link, look=still_links)
    words = ["--text", "/dev/stdout", "--html", "/dev/null", "--out", "o", "a"]
    yield one("devices are written as they are", words, group="writing", check=spoken("text"))
    yield one(
        "a failing gate writes all reports",
        ["--fail-on", "warning", *every_report(), "--out", "o", "a"],
        group="writing",
        status=1,
        look=lambda folder, kept: [
            f"{kind} wasn't written" for kind in KINDS if not (folder / kind).is_file()
        ],
    )


# ---- Explanations

NO_FILE = "No such file or directory (os error 2)"
NAMES = ("file", "where", "line", "column", "found", "wanted", "system", "advice")


def explains(fault, **wanted):
    """Checks the error line, and that the lines of an explanation follow it in order, with these strings."""

    def check(answer):
        lines = answer.stderr.decode().split("\n")
        wrong = [f"the fault line is {lines[0]!r}"] * (lines[0] != f"sarif_gate: {fault}")
        wrong += ["the last line isn't ended"] * (lines[-1] != "")
        told = [re.fullmatch(r"  ([a-z]+): (.*)", it) for it in lines[1:-1]]
        if not all(told) or not told:
            return wrong + [f"the lines are {lines[1:]}"]
        names = [it.group(1) for it in told]
        wrong += [f"the names are {names}"] * (names != [it for it in NAMES if it in names])
        found = {it.group(1): it.group(2) for it in told}
        for name, text in wanted.items():
            is_told = name in found if text is True else found.get(name) == text
            wrong += [f"{name} is {found.get(name)!r}, and not {text!r}"] * (not is_told)
        return wrong

    return check


def explained(name, files, fault, words=("--out", "o", "a"), **wanted):
    status = refused(fault.split(" (")[0])["status"]
    check = explains(fault, **wanted)
    words = ["--explain", *words]
    return one(name, words, group="explain", files=files, status=status, stdout=b"", check=check)


def explained_outputs():
    """Outputs for later merges that can't be written, or would be too large for these merges."""
    hit = log(run("lint", ruled(level="error")))
    full = rules(*[{"uri": "b"}] * 10_000)
    accept = ["--suppress-out", "n", "--accept", "--out", "o", "a"]
    fewer = "accept fewer hits in one call, pass --prune, or write an entry by hand that matches many of them"
    told = {"file": "n", "wanted": "at most 10000 entries", "advice": fewer}
    words = ["--suppress", "s", *accept]
    yield explained("a new file past the limit", {"a": hit, "s": full}, "suppressions: TooMany", words, **told)
    over = rules(*[{"uri": "b"}] * 10_001)
    told = {"file": "s", "where": "/suppressions", "wanted": "at most 10000 entries"}
    yield explained("a file past the limit", {"a": hit, "s": over}, "suppressions: TooMany", words, **told)
    for words, fault in (
        (["--known", "no/f"], "known log: WriteFailed"),
        (["--suppress-out", "no/f", "--accept"], "new suppressions: WriteFailed"),
        (["--suppress", "s", "--unused", "no/f"], "unused report: WriteFailed"),
    ):
        files = {"a": hit, "s": rules()}
        words = [*words, "--out", "o", "a"]
        yield explained(f"{fault}, explained", files, fault, words, file="no/f", system=True, advice=True)


def explained_diffs():
    """Errors of a diff, with the line that has them."""
    words = ["--diff", "d", "--out", "o", "a"]
    head = b"diff --git a/a.c b/a.c\n--- a/a.c\n+++ b/a.c\n"
    submodules = "pass --submodule=diff to git diff, or --ignore-submodules"
    for fault, diff, told in (
        ("diff: NoChange", b"", {"advice": True}),
        ("diff, line 1: Combined", b"diff --cc a.c", {"found": "diff --cc a.c", "advice": "compare two commits: git diff A B"}),
        ("diff, line 2: Submodule", b"diff --git a/s b/s\nindex 1..2 160000\n", {"found": "index 1..2 160000", "advice": submodules}),
        ("diff, line 4: BadHunk", head + b"@@ -1 +1\n", {"found": "@@ -1 +1"}),
        ("diff, line 6: BadHunk", head + b"@@ -1 +1 @@\n-x\n", {"found": "nothing"}),
        ("diff, line 3: BadHeader", head[:-10] + b'+++ "\x1b' + b"b" * 100, {"found": '+++ " ' + "b" * 74 + "..."}),
    ):
        if "line" in fault:
            told["line"] = fault.split()[2].rstrip(":")
        yield explained(f"{fault} of {diff[-20:]!r}", {"d": diff}, fault, words, file="d", wanted=True, **told)
    fault = "diff: ReadFailed (d)"
    yield explained("a diff that isn't there", {}, fault, words, file="d", system=NO_FILE, advice=True)
    fault = "diff: ReadFailed (.)"
    words = ["--diff", ".", "--out", "o", "a"]
    yield explained("a folder as a diff", {}, fault, words, file=".", found="a folder")


def explained_policies():
    """Errors of a policy, with the value that has them."""
    words = ["--policy", "p", "--out", "o", "a"]
    c = {"name": "c"}
    for fault, given, told in (
        ("policy: NotJson", b"", {"line": "1", "column": "0", "found": "an empty file"}),
        ("policy: NotPolicy", [], {"where": "", "found": "[]"}),
        ("policy: NotPolicy", {"suppressions": []}, {"where": "/suppressions", "advice": "this is a suppression file; pass it with --suppress"}),
        ("policy: WrongVersion", {"conditions": [c]}, {"where": "", "found": "nothing", "advice": 'add "version": 1 to the file'}),
        ("policy: NoCondition", [[]], {"where": "/conditions", "found": "[]", "wanted": "at least one condition"}),
        ("policy: TooMany", [[c] * 101], {"where": "/conditions", "wanted": "at most 100 conditions"}),
        ("policy, condition 1: BadCondition", [[c, {"name": "d", "max": -1}]], {"where": "/conditions/1/max", "found": "-1"}),
        ("policy, condition 0, only 1: BadFilter", [[{**c, "only": [{"tool": "t"}, {"level": "note"}]}]], {"where": "/conditions/0/only/1/level", "found": '"note"'}),
        ("policy, condition 0, except 0: EmptyFilter", [[{**c, "except": [{}]}]], {"where": "/conditions/0/except/0", "found": "{}"}),
        ("policy, condition 1: SameName", [[c, c]], {"where": "/conditions/1/name", "found": '"c"'}),
        ("policy, condition 0: NeedsDiff", [[{**c, "diff": "lines"}]], {"where": "/conditions/0/diff", "found": '"lines"'}),
    ):
        if isinstance(given, list) and given:
            given = {"version": 1, "conditions": given[0]}
        given = given if isinstance(given, bytes) else text(given)
        yield explained(f"{fault} of {given[:60]!r}", {"p": given}, fault, words, **{"file": "p", "wanted": True, "advice": True, **told})
    fault = "policy: ReadFailed (p)"
    yield explained("a policy that isn't there", {}, fault, words, file="p", system=NO_FILE, advice=True)
    fault = "policy: ReadFailed (.)"
    words = ["--policy", ".", "--out", "o", "a"]
    yield explained("a folder as a policy", {}, fault, words, file=".", found="a folder")


def explained_choices():
    """Places and rules that fit no hit that is accepted."""
    hit = log(run("lint", ruled(level="error")))
    for option, name in (("at", "a.c:3"), ("rule", "r1"), ("rule", ""), ("at", "x" * 81)):
        words = ["--suppress-out", "n", "--accept", f"--{option}={name}", "--out", "o", "a"]
        found = name if len(name) <= 80 else "x" * 80 + "..."
        told = {"found": found, "wanted": True, "advice": True}
        yield explained(f"--{option} {name[:9]} fits no hit", {"a": hit}, f"--{option} 0: NoHit", words, **told)


def explained_inputs(bad):
    """Errors of a baseline and of an entry of the suppression file: their bytes are kept for explanations, too."""
    where = {"where": "/runs/0/results/7/correlationGuid", "found": '"x"'}
    fault = "baseline 0, run 0, result 7: BadGuid"
    words = ["--baseline", "b", "--out", "o", "a"]
    yield explained("a bad guid of a baseline", {"b": bad}, fault, words, file="b", **where)
    where = {"where": "/suppressions/1", "found": "{}"}
    words = ["--suppress", "s", "--out", "o", "a"]
    files = {"s": rules({"uri": "b"}, {})}
    yield explained("an entry without a condition", files, "suppressions, entry 1: EmptyMatch", words, file="s", **where)


def explained_forms():
    """Files that are not what a merge expects: a merged log, other JSON, a folder, and what isn't JSON."""
    absent = merged(gate(absent=[1, 0, 0, 0]), written("lint", marked("absent", **plain())))
    told = {"file": "a", "advice": "this is a merged log; pass the logs of the analysers"}
    yield explained("a merged log as a log", {"a": absent}, "log 0, run 0, result 0: AbsentInput", **told)
    told["advice"] = "this is a suppression file; pass it with --suppress"
    yield explained("a suppression file as a log", {"a": rules()}, "log 0: NotLog", **told)
    told["advice"] = (
        "this is JSON, but not a SARIF log: check that you passed the right file, and that the analyser writes "
        "SARIF 2.1.0"
    )
    yield explained("a status file as a log", {"a": b'{"status":"completed"}'}, "log 0: NotLog", **told)
    told["advice"] = "pass the file itself, not the folder that it is in"
    told.update(file=".", found="a folder", system="Is a directory (os error 21)")
    yield explained("a folder as a log", {}, "log 0: ReadFailed (.)", ["--out", "o", "."], **told)
    words = ["--baseline", ".", "--out", "o", "a"]
    yield explained("a folder as a baseline", {}, "baseline 0: ReadFailed (.)", words, **told)
    for found, given in FORMS:
        told = {"file": "a", "line": True, "column": True, "found": found, "advice": True}
        yield explained(f"{found} as a log", {"a": given}, "log 0: NotJson", **told)


# What isn't JSON, as --explain names it.
FORMS = [
    ("an empty file", b""),
    ("an empty file", b"\r\n"),
    ("a gzip file", gzip.compress(ONE)),
    ("a ZIP file", b"PK\x03\x04\x14\x00\x00\x00"),
    ("UTF-16 or UTF-32", ONE.decode().encode("utf-16")),
    ("UTF-16 or UTF-32", ONE.decode().encode("utf-16-be")),
    ("HTML or XML", b"<!doctype html>\n<title>Sign in</title>\n"),
    ("HTML or XML", b"<?xml version='1.0'?>\n<checkstyle/>\n"),
    ("several JSON values, one per line", b'{"ruleId":"a"}\n{"ruleId":"b"}\n'),
]


def happened():
    """What is said of an accepted merge: its runs without results, the entries that match nothing, and the expired ones."""
    without = {"tool": {"driver": {"name": "lint"}}}
    runs = "sarif_gate: 2 runs without results: nothing is known of what they looked for.\n"
    entries = "sarif_gate: 3 suppression entries match nothing.\n"
    files = {"a": log(without, without), "s": rules(*({"ruleId": it} for it in "ABC"))}
    words = ["--suppress", "s", "--out", "o", "a"]
    given = {"group": "explain", "files": files}
    yield one("what happened", ["--explain", *words], stderr=(runs + entries).encode(), **given)
    yield one("what happened, without explanations", words, stderr=b"", **given)
    known = "sarif_gate: 0 known, 0 left out, 0 kept\n"
    told = (known + runs + entries).encode()
    yield one("what happened, after the known log", ["--explain", "--known", "k", *words], stderr=told, **given)
    one_of_each = {"a": log(without), "s": rules({"ruleId": "A"})}
    runs = "sarif_gate: 1 run without results: nothing is known of what it looked for.\n"
    told = (runs + "sarif_gate: 1 suppression entry matches nothing.\n").encode()
    yield one("one run and one entry", ["--explain", *words], group="explain", files=one_of_each, stderr=told)
    yield one("nothing happened", ["--explain", "--out", "o", "a"], group="explain", stderr=b"")
    yield from expired_entries(runs=log(without, without), words=words)
    bad = {"a": log(without, run("lint", plain(correlationGuid="x"))), "s": rules(PAST, version=2)}
    words = [*words, "--today", "20250201"]
    yield explained("nothing of a rejected merge", bad, "log 0, run 1, result 0: BadGuid", words)


# An entry that expired on 2025-02-01, and would match a result of lint before.
PAST = {"tool": "lint", "expires": 20250131}


def expired_entries(runs, words):
    """What is said of the expired entries of a file, on 2025-02-01 or on the last day of an entry."""

    def told(name, entries, *lines, log=None, day="20250201", explain=("--explain",)):
        files = {"s": rules(*entries, version=2)} | ({"a": log} if log else {})
        wanted = "".join(f"sarif_gate: {it}\n" for it in lines).encode()
        return one(name, [*explain, "--today", day, *words], group="explain", files=files, stderr=wanted)

    unmatched = {"ruleId": "A"}
    without = "2 runs without results: nothing is known of what they looked for."
    three = "3 suppression entries match nothing."
    given = [unmatched, PAST, unmatched]
    yield told("one expired entry of three", given, without, three, "1 suppression entry has expired.", log=runs)
    yield told("the same, without explanations", given, log=runs, explain=())
    given = [PAST, unmatched, PAST]
    yield told("two expired entries of three", given, without, three, "2 suppression entries have expired.", log=runs)
    alone = "1 suppression entry matches nothing.", "1 suppression entry has expired."
    yield told("an expired entry matches nothing", [PAST], *alone)
    yield told("an entry on its last day", [PAST], day="20250131")
    yield told("an unused entry on its last day", [{**PAST, "ruleId": "A"}], alone[0], day="20250131")
    yield told("a used entry beside an expired one", [{"tool": "lint"}, PAST], *alone)


def explanations():
    eight = [plain() for _ in range(7)] + [plain(correlationGuid="x")]
    bad = log(run("lint", *eight))
    place = "log 0, run 0, result 7: BadGuid"
    lines = [
        f"sarif_gate: {place}",
        "  file: found.sarif",
        "  where: /runs/0/results/7/correlationGuid",
        '  found: "x"',
        "  wanted: a GUID, for example 0f14d0ab-9605-4a62-a9e4-5ed26688389b",
        "  advice: report it to the developers of the analyser, or fix or drop the member before the merge",
        "",
    ]
    given = {"group": "explain", "files": {"found.sarif": bad}, "status": 2, "stdout": b""}
    words = ["--out", "o", "found.sarif"]
    told = "\n".join(lines).encode()
    yield one("a bad guid", ["--explain", *words], stderr=told, **given)
    yield one("the same, not explained", words, stderr=line(place), **given)
    yield from happened()
    yield from explained_outputs()
    yield from explained_choices()
    yield from explained_diffs()
    yield from explained_policies()
    yield from explained_inputs(bad)
    yield from explained_forms()
    evil = plain(correlationGuid="x\n\x1b[31m##\u202e")
    yield explained(
        "a value that tries to write lines",
        {"a": log(run("lint", evil))},
        "log 0, run 0, result 0: BadGuid",
        found='"x\\n\\u001b[31m# # "',
    )
    yield explained(
        "a long value",
        {"a": log(run("lint", plain(correlationGuid="x" * 200)))},
        "log 0, run 0, result 0: BadGuid",
        found='"' + "x" * 79 + "...",
    )
    yield explained(
        "a member that is wanting",
        {"a": log({})},
        "log 0, run 0: BadRun",
        file="a",
        where="/runs/0",
        found="nothing",
        wanted=True,
        advice=True,
    )
    where = {"line": "2", "column": True, "file": "a", "wanted": True, "advice": True}
    yield explained("text that isn't JSON", {"a": b'{"a":\n [1, 2 3]}'}, "log 0: NotJson", **where)
    named = ["--out", "o", "a", "b\nb"]
    yield explained(
        "a file that isn't there",
        {},
        "log 1: ReadFailed (b b)",
        named,
        file="b b",
        system=NO_FILE,
        advice=True,
    )
    yield explained(
        "an output that can't be written",
        {},
        "output: WriteFailed",
        ["--out", "none/o", "a"],
        file="none/o",
        system=NO_FILE,
    )
    yield explained(
        "an output that can't get its name",
        {},
        "output: WriteFailed",
        ["--out", "o/", "a"],
        file="o/",
        system="Not a directory (os error 20)",
    )
    yield explained(
        "a report that can't be written",
        {},
        "text report: WriteFailed",
        ["--text", "none/t", "--out", "o", "a"],
        file="none/t",
        system=NO_FILE,
    )
    words = ["--explain", "--out", "o", "a"]
    given = {"out": ONE_MERGED, "stdout": ONE_SUMMARY, "stderr": b""}
    yield one("nothing to explain", words, group="explain", **given)


def cases():
    for part in (streams, terminals, clashes, versions, failures, refusals, empty, kept_modes, explanations):
        yield from part()
