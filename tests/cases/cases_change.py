"""Cases of a gate that looks at one change: what a diff changes, which results are inside, and bad diffs."""

import re
from dataclasses import replace

from cases import *
from cases_life import FINDING, entries, pretty

H = b"@@ -1,3 +1,4 @@\n x\n+y\n z\n z\n"


def section(name, hunk=H, old="a/", new="b/"):
    """A section that changes a file in the lines of a hunk."""
    one, two = (old + name).encode(), (new + name).encode()
    return b"diff --git %b %b\n--- %b\n+++ %b\n" % (one, two, one, two) + hunk


D = section("a.c")
LINE_2 = "a.c:2"


def place(uri, start=None, end=None, **region):
    """A location at a URI, with these lines of its region."""
    region = {**region, **{k: v for k, v in (("startLine", start), ("endLine", end)) if v is not None}}
    return {"physicalLocation": {"artifactLocation": {"uri": uri}, **({"region": region} if region else {})}}


def found(*locations, **members):
    """An error with these locations."""
    return {"ruleId": "R1", "level": "error", "locations": list(locations), **members}


def spots(uri, *lines):
    return [found(place(uri, line)) for line in lines]


def told(text):
    """The numbers of the results that the report has, in order."""
    return [int(it) for it in re.findall(r": error: m(\d+) \[", text)]


def change(name, results, inside, diff=D, words=(), **wanted):
    """A gate that looks at a change: the results `inside` are told, and are the hits."""
    results = [{**it, "message": {"text": f"m{number}"}} for number, it in enumerate(results)]
    run_members = wanted.pop("run_members", {})
    files = {"a.sarif": log(run("lint", *results, **run_members)), **wanted.pop("files", {})}
    if diff is not None:
        files["d"] = diff
    inside, outside = list(inside), wanted.pop("outside", len(results) - len(inside))

    def look(folder, kept):
        said = told((folder / "t").read_text()) if (folder / "t").is_file() else None
        return [f"inside are {said}, and not {inside}"] * (said != inside)

    def check(answer):
        summary = answer.stdout.decode().splitlines()
        if len(summary) < 7 or not re.fullmatch(rf"diff: files \d+, lines \d+, outside {outside}", summary[-2]):
            return [f"the summary ends with {summary[-2:]}, and not with outside {outside}"]
        return []

    wanted.setdefault("status", 1 if inside else 0)
    base = ["--out", "o", "--text", "t", "--diff", "d"]
    return Case("change", name, [*base, *words, "a.sarif"], files=files, check=check, look=look, **wanted)


# ---- The change alone


FOUR = [*spots("a.c", 1, 2, 3), found(place("b.c", 2))]


def shown(out=None, text=None, last=()):
    """Checks parts of the merged log, the text report and the last lines of the summary."""

    def check(answer):
        written = (answer.out or b"").decode()
        wrong = [f"o doesn't hold {it}" for it in out or () if it not in written]
        summary = answer.stdout.decode().splitlines()
        return wrong + [f"the summary ends with {summary[-2:]}, and not {last}"] * (summary[-len(last) :] != list(last))

    def look(folder, kept):
        found = (folder / "t").read_bytes() if (folder / "t").is_file() else None
        return [f"t: {difference(text, found)}"] if text is not None and found != text else []

    return {"check": check, "look": look}


def alone():
    four = [{**it, "message": {"text": "m"}} for it in FOUR]
    given = log(run("lint", *four))
    words = ["--out", "o", "--text", "t", "--diff", "d", "a.sarif"]
    said = shown(
        ['"diff":{"files":1,"lines":1,"outside":3,"scope":"lines"},"failOn":"error","hits":1', '"new":{"active":[4,0,0,0]'],
        b"a.c:2: error: m [R1] (lint, new)\n",
        ("diff: files 1, lines 1, outside 3", "gate: fail, hits 1, max 0"),
    )
    yield Case("change", "one result is inside", words, files={"a.sarif": given, "d": D}, status=1, **said)
    streamed = [*words[:5], "-", words[6]]
    yield Case("change", "the diff on standard input", streamed, stdin=D, files={"a.sarif": given}, status=1, **said)
    yield change("all of the file", FOUR, [0, 1, 2], words=["--diff-scope", "files"])
    yield change("the first and the last alone", [FOUR[0], FOUR[3]], [])
    weak = {**FOUR[1], "level": "none", "kind": "pass"}
    quiet = {**FOUR[1], "suppressions": [{"kind": "external", "status": "accepted"}]}
    three = [{**it, "message": {"text": "m"}} for it in (FOUR[1], weak, quiet)]
    said = shown(last=("diff: files 1, lines 1, outside 0", "gate: pass, hits 1, max 1"))
    words = ["--out", "o", "--text", "t", "--diff", "d", "--fail-on", "note", "--max", "1", "a.sarif"]
    files = {"a.sarif": log(run("lint", *three)), "d": D}
    yield Case("change", "a level and a suppression", words, files=files, **said)


# ---- Lines and places


def lines():
    region = lambda **members: found({"physicalLocation": {"artifactLocation": {"uri": "a.c"}, "region": members}})
    inside = [
        region(startLine=1, endLine=2),
        region(startLine=2, endLine=9),
        region(startLine=1, endLine=9),
        found(place("a.c")),
        region(startLine=0),
        region(startLine="2"),
        region(startLine=9, endLine=8),
        region(startLine=9, endLine="9"),
        region(startLine=9, endLine=4294967296),
        region(charOffset=5),
        found({"physicalLocation": {"artifactLocation": {"uri": "a.c"}, "region": 5}}),
    ]
    outside = [
        region(startLine=3, endLine=9),
        region(startLine=1, endLine=1),
        region(startLine=4294967295),
        region(startLine=9, endLine=None),
        region(startLine=9, endLine=9.5),
        found(place("b.c")),
    ]
    yield change("lines", [*inside, *outside], range(len(inside)))


def places():
    bare = {"ruleId": "R1", "level": "error"}
    none = [
        bare,
        {**bare, "locations": []},
        {**bare, "locations": None},
        found({}),
        found({"logicalLocations": [{"name": "f"}]}),
        found({"physicalLocation": {"artifactLocation": {"uriBaseId": "S"}}}),
        *[found(place(uri)) for uri in ("", ".", "src/", "..", "src/..")],
    ]
    yield change("no place", none, range(len(none)))
    first = place("b.c", 1)
    seconds = [None, 5, {}, place("a.c", 2), place("a.c")]
    rest = [place("a.c", 3), place("b.c")]
    yield change("a second location", [found(first, it) for it in [*seconds, *rest]], range(5))
    at_index = lambda index, line: {"physicalLocation": {"artifactLocation": {"index": index}, "region": {"startLine": line}}}
    artifacts = {"run_members": {"artifacts": [{"location": {"uri": "b.c"}}, {"location": {"uri": "a.c"}}, {}]}}
    results = [found(at_index(*it)) for it in ((1, 2), (2, 3), (0, 2), (1, 3))]
    yield change("places by index", results, [0, 1], **artifacts)
    results = [found(at_index(0, 2), at_index(*it)) for it in ((3, 1), (-1, 1), ("0", 1), (0.5, 1), (0, 1))]
    yield change("second places by index", results, range(4), **artifacts)


def flows():
    step = lambda it: {"codeFlows": [{"threadFlows": [{"locations": [it]}]}]}
    inside = [
        {"relatedLocations": [place("a.c", 2)]},
        {"relatedLocations": [place("a.c")]},
        step({"location": place("a.c", 2)}),
        step({"index": 0}),
    ]
    outside = [
        {"relatedLocations": [place("a.c", 3)]},
        {"relatedLocations": [{}]},
        {"relatedLocations": [None]},
        {"relatedLocations": [place("b.c", 2)]},
        step({"location": place("a.c", 3)}),
        step({"index": -1}),
        step({}),
        step({"location": {"message": {"text": "m"}}}),
        step(5),
        {"relatedLocations": 5},
        {"codeFlows": {}},
        {"stacks": [{"frames": [{"location": place("a.c", 2)}]}]},
    ]
    results = [found(place("b.c", 1), **it) for it in [*inside, *outside]]
    yield change("related locations and steps", results, range(len(inside)))


# ---- Changed lines


def removals():
    for hunk, inside in [
        (b"@@ -2,4 +2,2 @@\n w\n-x\n-y\n z\n", [2, 3]),
        (b"@@ -3,2 +2,0 @@\n-x\n-y\n", [2, 3]),
        (b"@@ -1,2 +0,0 @@\n-x\n-y\n", [1]),
        (b"@@ -2,3 +2,2 @@\n w\n-x\n-y\n+z\n", [3]),
        (b"@@ -1,4 +1,4 @@\n-x\n y\n z\n+w\n a\n", [1, 3]),
        (b"@@ -2,3 +2,3 @@\n w\n+z\n-x\n a\n", [3]),
    ]:
        results = spots("a.c", 1, 2, 3, 4)
        yield change(f"changed lines of {hunk!r}", results, [it - 1 for it in inside], section("a.c", hunk))


def forms():
    mail = b"From 1 Mon Sep 17\nSubject: x\n\n---\n a.c | 1 +\n 1 file changed\n\n" + D + b"-- \n2.1\n"
    shown = b"commit 1\n\n    diff --git a/b.c b/b.c\n    --- a/b.c\n    +++ b/b.c\n    @@ -1 +1,2 @@\n\n" + D
    rows = [
        ("carriage returns", D.replace(b"\n", b"\r\n")),
        ("an order mark", MARK + D),
        ("no last line feed", D[:-1]),
        ("a mail", mail),
        ("a commit and its message", shown),
        ("names and no hunk before", b"--- x\n+++ y\nz\n" + D),
        ("a header of no hunk before", b"@@ x\n" + D),
        ("lines after the hunk", D + b"-x\n+x\n"),
        ("a plain diff", b"--- a.c\t2025-01-01\n+++ a.c\t2025-01-02\n" + H),
        ("remarks", D.replace(b"+y\n", b"+y\n\\ No newline at end of file\n") + b"\\ No newline at end of file\n"),
    ]
    for name, diff in rows:
        yield change(f"line 2 alone: {name}", spots("a.c", 1, 2, 3), [1], diff)
    yield change("a line that looks like a name", spots("a.c", 1, 2), [0], section("a.c", b"@@ -1 +1 @@\n--- x\n+++ y\n"))


def names():
    four = [*spots("src/a.c", 2, 3), found(place("lib/a.c", 2)), found(place("src/b.c", 2))]
    for old, new in (("a/", "b/"), ("i/", "w/"), ("c/", "i/"), ("o/", "w/"), ("1/", "2/"), ("", ""), ("old/", "new/")):
        yield change(f"prefixes {old} and {new}", four, [0], section("src/a.c", H, old, new))
    for quoted in (b'"b/src/a.c"', b'"b/s\\162c/\\141.c"'):
        diff = section("src/a.c").replace(b"+++ b/src/a.c", b"+++ " + quoted)
        yield change(f"the name {quoted!r}", four, [0], diff)
    for written, uri in [
        (b"b/x y.c\t", "x%20y.c"),
        (b'"b/\\303\\251\\t\\"\\\\.c"', "%C3%A9%09%22%5C.c"),
        (b'"b/\\351.c"', "%E9.c"),
    ]:
        diff = b"diff --git x y\n--- /dev/null\n+++ " + written + b"\n" + H
        yield change(f"the name {written!r}", [*spots(uri, 2, 3), found(place("z.c", 2))], [0], diff)
    diff = b"diff --git a/x y b/x y\nold mode 100644\nnew mode 100755\n"
    yield change("a name with a space", [found(place(it, 9)) for it in ("x%20y", "x", "y")], [0], diff)
    diff = b"diff --git a/a/x.c b/a/y.c\nsimilarity index 90%\nrename from a/x.c\nrename to a/y.c\n" + H
    yield change("a name of a rename", [found(place(it, 2)) for it in ("a/y.c", "y/y.c")], [0], diff)


def whole():
    rename = b"diff --git a/x.c b/y.c\nsimilarity index 100%\nrename from x.c\nrename to y.c\n"
    three = [found(place("y.c")), found(place("y.c", 9)), found(place("x.c", 9)), found(place("x.c"))]
    yield change("a rename", three, [0], rename)
    yield change("a rename, all of the file", three, [0, 1], rename, ["--diff-scope", "files"])
    head = b"diff --git a/x b/x\n"
    rows = [
        ("a copy", b"diff --git a/w b/x\nsimilarity index 100%\ncopy from w\ncopy to x\n"),
        ("a mode", head + b"old mode 100644\nnew mode 100755\n"),
        ("a binary file", head + b"index 1..2 100644\nBinary files a/x and b/x differ\n"),
        ("a binary patch", head + b"index 1..2 100644\nGIT binary patch\nliteral 0\nHcmV?d00001\n"),
        ("a link", head + b"new file mode 120000\n--- /dev/null\n+++ b/x\n@@ -0,0 +1 @@\n+y\n"),
        ("a pointer", head + b"--- a/x\n+++ b/x\n@@ -1 +1 @@\n-o\n+oid sha256:" + b"0" * 64 + b"\n"),
    ]
    for name, diff in rows:
        inside = [0, 1, 2] if name == "a link" else [0]
        yield change(f"{name} is whole", [found(place(it, 9)) for it in ("x", "x/a.c", "z/x/a.c", "w")], inside, diff)
    for name, diff in [
        ("an empty new file", head + b"new file mode 100644\nindex 0000000..e69de29\n"),
        ("a removed file", head + b"deleted file mode 100644\n--- a/x\n+++ /dev/null\n@@ -1 +0,0 @@\n-y\n"),
    ]:
        yield change(name, [found(place("x")), found(place("x", 9))], [0], diff)


def several():
    top = b"@@ -1,3 +1,8 @@\n" + b"+v\n" * 5 + b" x\n y\n z\n"
    yield change("two commits", spots("a.c", 7, 99), [0, 1], D + section("a.c", top))
    rename = b"diff --git a/a.c b/b.c\nsimilarity index 100%\nrename from a.c\nrename to b.c\n"
    results = [*spots("a.c", 7), *spots("b.c", 7), *spots("c.c", 2)]
    yield change("a change and then a rename", results, [0, 1], D + rename)
    copy = b"diff --git a/a.c b/b.c\nsimilarity index 100%\ncopy from a.c\ncopy to b.c\n"
    results = [found(place("b.c", 9)), *spots("a.c", 2, 9)]
    yield change("a copy and then a change", results, [0, 1], copy + D)


# ---- Paths


def paths():
    diff = section("src/a.c")
    inside = "src/a.c ./src/a.c src//a.c src/./a.c x/../src/a.c ../src/a.c a.c ../a.c lib/../a.c w/src/a.c SRC/A.C".split()
    inside += ["src\\a.c", "src%2Fa.c", "src/%61.c", "src/a.c#L3", "src/a.c?plain=1", "file:///w/src/a.c", "file:///w/lib/a.c"]
    inside += ["/lib/a.c", "https://h/lib/a.c", "C:/w/lib/a.c", "c:a.c", "\\\\h\\a.c"]
    outside = "lib/a.c ../lib/a.c rc/a.c src/aa.c xsrc/a.c src/a%2 file:///w/src/b.c file:///src/a.c/b.c".split()
    yield change("paths", [found(place(it, 2)) for it in [*inside, *outside]], range(len(inside)), diff)
    rooted = ["file:///w/src/a.c", "file:///w/a.c", "file:///v/lib/a.c", "file:///w/lib/a.c"]
    results = [found(place(it, 2)) for it in rooted]
    yield change("paths without their root", results, [0, 1, 2], diff, ["--root", "file:///w/"])
    results = [found(place(it, 2)) for it in ("x#y/a%41.c", "x%23y/a%2541.c", "z.c")]
    yield change("a name with marks of a URI", results, [0, 1], section("x#y/a%41.c"))
    yield change("a name with a number sign", [found(place("a%23b.c#L3", 2))], [0], section("a#b.c"))


# ---- Bad diffs, and their place among the errors


def bad(name, diff, fault, **wanted):
    """A diff that is rejected."""
    files = {"a.sarif": log(run("lint")), "d": diff, **wanted.pop("files", {})}
    words = ["--out", "o", *wanted.pop("words", []), "--diff", "d", "a.sarif"]
    look = lambda folder, kept: ["o was written"] * (folder / "o").exists()
    return Case("change", name, words, files=files, look=look, **refused(fault), **wanted)


def faults():
    head = b"diff --git a/a.c b/a.c\n--- a/a.c\n+++ b/a.c\n"
    for name, diff in [
        ("nothing", b""),
        ("a line feed", b"\n"),
        ("statistics", b"a.c | 1 +\n"),
        ("colours", b"".join(b"\x1b[1m" + it + b"\x1b[m\n" for it in D.splitlines())),
        ("a diff that is indented", b"".join(b" " + it + b"\n" for it in D.splitlines())),
        ("UTF-16", D.decode().encode("utf-16")),
    ]:
        yield bad(f"no change: {name}", diff, "diff: NoChange")
    for diff, number, cause in [
        (b"diff --cc a.c\n", 1, "Combined"),
        (b"* Unmerged path a.c\n", 1, "Combined"),
        (b"diff --git a/s b/s\nindex 1..2 160000\n", 2, "Submodule"),
        (D + b"Submodule s f8e52d2..e137edc:\n  > 2\n", 9, "Submodule"),
        (b"diff --git a/a.c b/b.c\n", 1, "BadHeader"),
        (b'diff --git "a/a.c b/a.c\n', 1, "BadHeader"),
        (b"diff --git a/a.c b/a.c\n--- /dev/null\n+++ /dev/null\n" + H, 1, "BadHeader"),
        (b'diff --git a/a.c b/a.c\n--- a/a.c\n+++ "b/a.c\n', 3, "BadHeader"),
        (b'diff --git a/a.c b/a.c\n--- a/a.c\n+++ "b/a\\400.c"\n', 3, "BadHeader"),
        (head + b"@@ -1 +1\n", 4, "BadHunk"),
        (head + b"@@ -1 +4294967296 @@\n", 4, "BadHunk"),
        (head + b"@@ -1 +0 @@\n", 4, "BadHunk"),
        (head + b"@@ -0,0 +0,0 @@\n", 4, "BadHunk"),
        (head + b"@@ -1 +1 @@\n x\n", 4, "BadHunk"),
        (head + b"@@ -1 +1 @@\n-x\n", 6, "BadHunk"),
        (head + b"@@ -1 +1 @@\n-x\n*y\n", 6, "BadHunk"),
        (head + b"@@ -1 +1 @@\n-x\n-y\n", 6, "BadHunk"),
        (b"".join(D.splitlines(keepends=True)[:-1]), 8, "BadHunk"),
        (b"diff --git a/a b/a\n" * 1_000_001, 1_000_001, "TooMany"),
        (head + b"@@ -1 +1 @@\n-x\n+y\n" * 1_000_001, 3_000_004, "TooMany"),
    ]:
        seconds = 600 if cause == "TooMany" else 60
        yield bad(f"{cause} at line {number}: {diff[-40:]!r}", diff, f"diff, line {number}: {cause}", seconds=seconds)


def streams():
    """A diff from a pipe that ends early, or that has nothing."""
    words = ["--out", "o", "--diff", "-", "a.sarif"]
    files = {"a.sarif": log(run("lint"))}
    for name, given, fault in [
        ("ends within a hunk", D[: D.index(b" z")], "diff, line 7: BadHunk"),
        ("ends within a line", D[: D.index(b",4 @@")], "diff, line 4: BadHunk"),
        ("has nothing", b"", "diff: NoChange"),
    ]:
        yield Case("change", f"the diff on standard input {name}", words, stdin=given, files=files, **refused(fault))
    logs = {"b.sarif": log(run("lint", found(place("a.c", 2)))), "d": D}
    words = ["--out", "o", "--diff", "d", "-", "b.sarif"]
    said = shown(last=("diff: files 1, lines 1, outside 1", "gate: fail, hits 1, max 0"))
    given = log(run("lint", found(place("b.c", 2))))
    yield Case("change", "a log on standard input", words, stdin=given, files=logs, status=1, **said)


def order():
    files = {"a.sarif": log(run("lint", {"kind": "x"})), "b": b"{", "s": rules({})}
    suppress, baseline = ["--suppress", "s"], ["--baseline", "b"]
    yield bad("first the baseline", b"", "baseline 0: NotJson", files=files, words=[*baseline, *suppress])
    yield bad("then the suppression file", b"", "suppressions, entry 0: EmptyMatch", files=files, words=suppress)
    yield bad("then the diff", b"", "diff: NoChange", files=files)
    yield bad("then the runs", D, "log 0, run 0, result 0: BadKind", files=files)
    words = ["--out", "o", "--diff", "none", "a.sarif"]
    files = {"a.sarif": log(run("lint"))}
    yield Case("change", "a diff that isn't there", words, files=files, **refused("diff: ReadFailed"))


# ---- With baselines, accepting, and what is known


def life():
    m, n, o = [
        {**found(place(uri, 2)), "message": {"text": it}} for uri, it in (("a.c", "m"), ("a.c", "n"), ("b.c", "o"))
    ]
    before = {**found(place("a.c", 5)), "message": {"text": "m"}}
    files = {"a.sarif": log(run("lint", m, n, o)), "b": log(run("lint", before)), "d": D}
    said = shown(text=b"a.c:2: error: n [R1] (lint, new)\n", last=("diff: files 1, lines 1, outside 1", "gate: fail, hits 1, max 0"))
    words = ["--out", "o", "--text", "t", "--diff", "d", "--baseline", "b", "a.sarif"]
    yield Case("change", "new and inside", words, files=files, status=1, **said)
    first, last = [{**found(place(uri, 2)), "message": {"text": "m"}} for uri in ("a.c", "b.c")]
    entry = {"message": "m", "ruleId": "R1", "tool": "lint", "uri": "a.c"}

    def made(folder, kept):
        wanted, found = pretty(entries(entry)), (folder / "n").read_bytes()
        return [difference(wanted, found)] if found != wanted else []

    yield Case(
        "change",
        "what is inside is accepted",
        ["--out", "o", "--accept", "--suppress-out", "n", "--diff", "d", "a.sarif"],
        files={"a.sarif": log(run("lint", first, last)), "d": D},
        status=1,
        stderr=b"sarif_gate: 1 accepted, 0 stay, 0 pruned, 1 entries\n",
        look=made,
    )
    note = {**last, "level": "note", "message": {"text": "n"}}
    given = log(run("lint", first, last, note))
    for words in ([], ["--diff", "d"]):
        yield Case(
            "change",
            f"what is known {' '.join(words)}",
            ["--out", "o", "--known", "k", *words, "a.sarif"],
            files={"a.sarif": given, "d": D},
            status=1,
            stderr=b"sarif_gate: 1 known, 2 left out, 0 kept\n",
        )


def choosing():
    """What is accepted by its place is inside, and so is what is counted as alike or as staying."""
    two = section("a.c", H.replace(b"+1,4", b"+1,5").replace(b"+y\n", b"+y\n+w\n"))
    texts = (("a.c", 2, "m"), ("a.c", 2, "n"), ("a.c", 3, "m"), ("a.c", 9, "m"), ("b.c", 2, "m"))
    results = [{**found(place(uri, line)), "message": {"text": text}} for uri, line, text in texts]
    files = {"a.sarif": log(run("lint", *results)), "d": two}
    for words, counts in [
        ("", "3 accepted, 0 stay, 0 pruned, 2 entries"),
        ("--at a.c", "3 accepted, 0 alike, 0 stay, 0 pruned, 2 entries"),
        ("--at a.c:3", "1 accepted, 1 alike, 1 stay, 0 pruned, 1 entries"),
        ("--rule R1 --at a.c:2", "2 accepted, 1 alike, 0 stay, 0 pruned, 2 entries"),
        ("--diff-scope files --at a.c:9", "1 accepted, 2 alike, 1 stay, 0 pruned, 1 entries"),
    ]:
        said = b"sarif_gate: %b\n" % counts.encode()
        given = ["--out", "o", "--accept", "--suppress-out", "n", "--diff", "d", *words.split(), "a.sarif"]
        yield Case("change", f"accepting {words}", given, files=files, status=1, stderr=said)
    for words, fault in [
        ("--at a.c:9", "--at 0: NoHit"),
        ("--at a.c:2 --at b.c", "--at 1: NoHit"),
        ("--diff-scope files --rule R1 --at b.c:2", "--at 0: NoHit"),
    ]:
        given = ["--out", "o", "--accept", "--suppress-out", "n", "--diff", "d", *words.split(), "a.sarif"]
        look = lambda folder, kept: ["n was written"] * (folder / "n").exists()
        yield Case("change", f"accepting what is outside: {words}", given, files=files, look=look, **refused(fault))


def arguments():
    """Arguments that don't fit together."""
    files = {"a.sarif": log(run("lint", found(place("a.c", 2)))), "d": D}
    for words in [
        "--out o --diff-scope lines a.sarif",
        "--out o --diff d --diff-scope line a.sarif",
        "--out o --diff d --diff d a.sarif",
        "--out o --diff d --states new,absent a.sarif",
        "--out o --diff - a.sarif -",
        "--out d --diff d a.sarif",
        "--out o --text d --diff d a.sarif",
    ]:

        def look(folder, kept):
            same = (folder / "d").read_bytes() == D
            return ["d changed"] * (not same) + ["o was written"] * (folder / "o").exists()

        yield Case("change", f"bad usage: {words}", words.split(), files=files, stdin=D, status=2, stdout=b"", look=look)
    yield Case("change", "a diff and an output on the standard streams", "--out - --diff - a.sarif".split(), files=files, stdin=D, status=1)


def copies():
    """With --once findings alone are counted and told."""
    results = [{**it, "message": {"text": "m0"}} for it in [*spots("a.c", 2) * 2, *spots("b.c", 2) * 3]]
    words = ["--out", "o", "--text", "t", "--diff", "d", "a.sarif"]
    files = {"a.sarif": log(run("lint", *results)), "d": D}
    row = b"a.c:2: error: m0 [R1] (lint, new)\n"
    said = shown(text=row, last=("diff: files 1, lines 1, outside 1", "gate: fail, hits 1, max 0"))
    yield Case("change", "copies", ["--once", *words], files=files, status=1, stderr=b"sarif_gate: 3 copies\n", **said)
    said = shown(text=row * 2, last=("diff: files 1, lines 1, outside 3", "gate: fail, hits 2, max 0"))
    yield Case("change", "copies that are counted", words, files=files, status=1, **said)


# ---- Reports

TOLD = '''\
## Gate: fail, 1 hit, 0 allowed

| | error | warning | note | none | suppressed |
|---|--:|--:|--:|--:|--:|
| new | 3 | 0 | 1 | 0 | 0 |
| unchanged | 0 | 0 | 0 | 0 | 0 |
| updated | 0 | 0 | 0 | 0 | 0 |
| absent | 0 | 0 | 0 | 0 | 0 |

2 results outside the change would be hits.

| hit | level | place | rule | message | tool | state |
|---|---|---|---|---|---|---|
| yes | error | <code>a&#46;c&#58;2</code> | <code>R1</code> | <code>m0</code> | <code>lint</code> | new |
|  | note | <code>a&#46;c&#58;2</code> | <code>R1</code> | <code>m3</code> | <code>lint</code> | new |

To accept this hit, run the same merge with `--accept --reason TEXT --suppress-out FILE`, review FILE, and pass `--suppress FILE` from then on; `--at PLACE` accepts one alone.
'''

TESTED = '''\
<?xml version="1.0" encoding="UTF-8"?>
<testsuites name="sarif_gate" tests="2" failures="1">
<testsuite name="lint" tests="2" failures="1" skipped="0">
<testcase name="a.c:2: R1" classname="a.c" file="a.c" line="2"><failure type="error" message="m0">a.c:2: error: m0 [R1] (lint, new)</failure></testcase>
<testcase name="a.c:2: R1 (2)" classname="a.c" file="a.c" line="2"/>
</testsuite>
</testsuites>
'''

COMMANDS = "::error file=a.c,line=2,title=R1 (lint)::m0\n::notice file=a.c,line=2,title=R1 (lint)::m3\n"


def reported(name, results, words, wanted, status=1, diff=D):
    """A merge of these results with these reports, which must have these texts."""
    results = [{**it, "message": {"text": f"m{number}"}} for number, it in enumerate(results)]

    def look(folder, kept):
        texts = {kind: (folder / kind).read_text() if (folder / kind).is_file() else None for kind in wanted}
        wrong = [(kind, wanted[kind](text or "")) for kind, text in texts.items() if callable(wanted[kind])]
        same = [(kind, text) for kind, text in texts.items() if not callable(wanted[kind])]
        wrong += [(kind, [difference(wanted[kind].encode(), text and text.encode())]) for kind, text in same if text != wanted[kind]]
        return [f"{kind}: {fault}" for kind, faults in wrong for fault in faults]

    words = ["--out", "o", *(it for kind in wanted for it in (f"--{kind}", kind)), "--diff", "d", *words, "a.sarif"]
    return Case("change", name, words, files={"a.sarif": log(run("lint", *results)), "d": diff}, status=status, look=look)


def holds(*pieces, without=()):
    """Checks that a report has each of these pieces, and none of the others."""
    return lambda text: [f"it has no {it!r}" for it in pieces if it not in text] + [f"it has {it!r}" for it in without if it in text]


def reports():
    note = {**FOUR[1], "level": "note"}
    four = [FOUR[1], FOUR[3], FOUR[3], note]
    inside = holds("a.c", without=["b.c", "m1", "m2"])
    wanted = {"markdown": TOLD, "junit": TESTED, "github": COMMANDS, "gitlab": inside, "azure": inside}
    yield reported("reports of what is inside", four, [], wanted)
    one = ["## Gate: pass, 0 hits, 0 allowed\n", "\n\n1 result outside the change would be a hit.\n"]
    wanted = {"markdown": holds(*one, "|  | note |"), "junit": holds('tests="1" failures="0"', "/>\n</testsuite>")}
    yield reported("reports without a hit inside", [FOUR[3], note], [], wanted, 0)
    wanted = {"markdown": holds("## Gate: fail, 1 hit, 0 allowed\n", without=["outside the change"])}
    yield reported("reports without a hit outside", [FOUR[1], {**FOUR[3], "level": "note"}], [], wanted)
    yield reported("a hit of a file of the change", [FOUR[0], FOUR[3]], ["--diff-scope", "files"], {"markdown": holds(one[1], "| yes |")})
    wanted = {"markdown": holds("## Gate: pass, 1 hit, 1 allowed\n", "2 results outside"), "junit": holds("<skipped ", without=["<failure "])}
    yield reported("a hit that is allowed", four, ["--max", "1"], wanted, 0)


def pages():
    """Pages and hits alone, which the second merger doesn't write."""
    four = [FOUR[1], FOUR[3], FOUR[3], {**FOUR[1], "level": "note"}]
    hit = "<p>A hit is a result that is new or updated, of level error, {}, and not suppressed.</p>"
    counts = '<th scope="row" align="left">new</th><td class="on"><b>3</b></td><td>0</td><td>1</td><td>0</td><td>0</td>'
    wanted = [
        "<title>Gate: fail, 1 hit, 0 allowed</title>",
        '<h1 class="fail">Gate: fail<span>, 1 hit, 0 allowed</span></h1>',
        hit.format("on a line of the change"),
        counts,
        '</table>\n<p class="mind">2 results outside the change would be hits.</p>\n</div>\n</header>',
        "1 hit stops this change",
        "1 other result<",
    ]
    yield reported("a page of what is inside", four, [], {"html": holds(*wanted, without=["b.c", "m1", "m2"])})
    files = [hit.format("in a file of the change"), '<p class="mind">2 results outside the change would be hits.</p>']
    yield reported("a page of files", four, ["--diff-scope", "files"], {"html": holds(*files)})
    wanted = [hit.format("on a line of the change"), '<h1 class="pass">Gate: pass<span>, 1 hit, 1 allowed</span></h1>', "1 hit, within the 1 allowed"]
    yield reported("a page of a gate that passes", four, ["--max", "1"], {"html": holds(*wanted)}, 0)
    unshown = ['<p class="mind">1 other result isn\'t shown.</p>', '<p class="mind">2 results outside the change would be hits.</p>']
    yield reported("a page of hits alone", four, ["--show", "hits"], {"html": holds(*unshown)})
    note, one = four[3], "\n\n1 result outside the change would be a hit.\n"
    others = [FOUR[1], note, note, FOUR[3], {**FOUR[3], "level": "note"}]
    wanted = {"markdown": holds("\n2 other results aren't shown.\n", one, without=["|  |"])}
    yield reported("results that aren't shown are inside", others, ["--show", "hits"], wanted)


def cases():
    shapes = (alone, lines, places, flows, removals, forms, names, whole, several, paths, faults, streams, order, life, choosing, arguments, copies, reports)
    for part in shapes:
        for case in part():
            yield replace(case, group="change")
