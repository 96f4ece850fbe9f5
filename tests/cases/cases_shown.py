"""Complete reports of small logs, worked out by hand."""

import json
from itertools import groupby

from cases import *
from cases_words import merging
from markdown_reader import faults_beside_log

GUID = "0f14d0ab-9605-4a62-a9e4-5ed26688389b"


def report(name, given, wanted, more=(), **others):
    """A merge of the log `given` with reports: `wanted` has for each its complete text, or a check of it."""

    def look(folder, kept):
        wrong = []
        for kind, report in wanted.items():
            found = (folder / kind).read_text() if (folder / kind).is_file() else None
            if isinstance(report, str):
                wrong += [f"{kind}: {difference(report.encode(), found and found.encode())}"] * (found != report)
            else:
                wrong += [f"{kind}: {it}" for it in report(found or "")]
        is_read = (folder / "markdown").is_file()
        return wrong + [f"markdown: {it}" for it in (faults_beside_log(folder, more) if is_read else [])]

    words = [it for kind in wanted for it in (f"--{kind}", kind)]
    return merging("rows", name, [given], more=[*words, *more], look=look, **others)


def has(*pieces, without=()):
    """Checks that a report has these pieces in this order, and none of the others."""

    def check(report):
        wrong, at = [f"it has {it!r}" for it in without if it in report], 0
        for piece in pieces:
            place = report.find(piece, at)
            if place < 0:
                return [*wrong, f"it has no {piece!r} after what comes before"]
            at = place + len(piece)
        return wrong

    return check


def both(*checks):
    return lambda report: [it for check in checks for it in check(report)]


def accepting(hits, command="`{}`"):
    """How to accept this number of hits, with each part of a command in a pattern."""
    them = "this hit" if hits == 1 else "these hits"
    make, use = command.format("--accept --reason TEXT --suppress-out FILE"), command.format("--suppress FILE")
    one = command.format("--at PLACE")
    use = f"{use} from then on; {one} accepts one alone."
    return f"To accept {them}, run the same merge with {make}, review FILE, and pass {use}"


def ends(piece, table=None, hits=0):
    """Checks the end of a report in Markdown on this number of hits, and the number of the rows of its table."""
    piece += f"\n{accepting(hits)}\n" * (hits > 0)

    def check(report):
        found = sum(it.startswith(("| yes | ", "|  | ")) for it in report.splitlines())
        wrong = [f"it has {found} rows, and not {table}"] * (table is not None and found != table)
        return wrong + [f"it ends with {report[-80:]!r}"] * (not report.endswith(piece))

    return check


def note(**members):
    return {"level": "note", **members}


def error(**members):
    return {"level": "error", **members}


def said(text, **more):
    return {"message": {"text": text, **more}}


def placed(uri, **region):
    place = {"artifactLocation": {"uri": uri}}
    return {"locations": [{"physicalLocation": {**place, "region": region} if region else place}]}


def bare(tool, rule, message="m", is_hit=False, **members):
    """A result with the name of its tool: an error if it is a hit, a note otherwise."""
    return tool, {"level": "error" if is_hit else "note", "ruleId": rule, **said(message), **members}


def log_of(results):
    """A log of these results: those of one tool that follow each other are one run."""
    return log(*(run(tool, *(it for _, it in some)) for tool, some in groupby(results, key=lambda it: it[0])))


# ---- The findings of a merge


def of_merges():
    results = [
        {"ruleId": "A", **error(**said("known"))},
        {"ruleId": "B", **error(**said("hidden")), "suppressions": [{"kind": "inSource"}]},
        {"ruleId": "C", **said("{0} is new", arguments=["this"]), **placed("file:///b/a.c", startLine=3)},
    ]
    before = [
        {"ruleId": "D", **note(**said("long gone")), "baselineState": "absent"},
        results[0],
        {"ruleId": "E", **note(**said("gone"))},
    ]
    strict = ["--fail-on", "warning", "--states", "absent,new,updated", "--root", "file:///b/"]
    counted = gate(
        "fail",
        1,
        fail_on="warning",
        states=("absent", "new", "updated"),
        absent=[0, 0, 1, 0],
        new=[0, 1, 0, 0],
        unchanged=[1, 0, 0, 0],
        suppressed={"new": [1, 0, 0, 0]},
    )
    yield report(
        "active results of listed states are reported",
        log(run("T", *results)),
        {"text": "a.c:3: warning: this is new [C] (T, new)\n-: note: gone [E] (T, absent)\n"},
        strict,
        baselines=[log(run("T", *before))],
        status=1,
        check=tells(counted, ["unchanged", "new", "new", "absent"]),
    )
    results = [{**said(str(it)), "suppressions": [{"kind": "external"}] * (it % 3 == 0)} for it in range(500)]
    lines = "".join(f"-: warning: {it} (T, new)\n" for it in range(500) if it % 3)
    for workers in range(1, 8):
        title = f"the order of 333 reported results with {workers} workers"
        more = [*strict, "--workers", str(workers)]
        yield report(title, log(run("T", *results)), {"text": lines}, more, baselines=[log()], status=1)


# ---- What is shown of a result

MESSAGES = [
    # Links to places of the log.
    ([], "This [user-provided value](1) flows to [a sink](2).", "This user-provided value flows to a sink."),
    ([], "a[i](1)", "ai"),
    ([], "[](1)", "(no message)"),
    ([], "[a](007)(2)", "a(2)"),
    ([], "[[a](1)](2)", "[a](2)"),
    ([], "[x[a](1)", "[xa"),
    # A backslash before a bracket or a backslash takes its meaning.
    ([], "[para\\[0\\]\\\\spans\\[2\\]](1)", "para[0]\\spans[2]"),
    ([], "f\\[x](1)", "f\\[x](1)"),
    ([], "[x\\](1)", "[x\\](1)"),
    ([], "a\\[0\\] \\\\ \\x", "a\\[0\\] \\\\ \\x"),
    ([], "f\\\\[x](1)", "f\\\\x"),
    ([], "[C:\\dir\\f.c](1)", "C:\\dir\\f.c"),
    # Other brackets stay.
    *(
        ([], it, it)
        for it in ("[a]()", "[b](-1)", "[c](1.0)", "[d]( 1)", "[e](https://example.org/1)", "[f](\u0663)", "[g](2")
    ),
    # Links are read before placeholders.
    (["3", "[x](2)"], "see [here]({0}) {1}", "see here [x](2)"),
    (["p"], "[{0}](1)", "p"),
    ([], "[{0}](1)", "{0}"),
    (["3a"], "[here]({0})", "[here](3a)"),
    ([], "[here]({0})", "[here]({0})"),
    (["z"], "[{](1){0}}", "{0}"),
    ([""], "[here]({0})", "[here]()"),
    (["1"], "[here]({0}) [there]({1})", "here [there]({1})"),
    (["1"], "[here]({00})", "[here]({00})"),
    (["1"], "[here]({0}", "[here](1"),
    # They are read before a message is cut.
    ([], "y" * 995 + "[link](123)z", "y" * 995 + "linkz"),
    ([], "#[#](1)[error]x", "# #[error]x"),
    # Codes that are no characters in XML are spaces.
    ([], "a\ufffeb\uffffc\U0010ffffd", "a b c\U0010ffffd"),
    # A placeholder without its argument stays.
    (["a"], "{9}}", "{9}}"),
    (["a"], "{0}}", "a}"),
    (["a"], "{{0}}", "{0}"),
    (["a"], "{1}", "{1}"),
    (["a"], "{-1}}", "{-1}"),
    (["a"], "{01}", "{01}"),
    # A thousand characters are kept.
    ([], "\u00e9" * 1000, "\u00e9" * 1000),
    ([], "\u00e9" * 1000 + "z", "\u00e9" * 1000 + "\u2026"),
]

# The name of a tool, and how it is shown on one line.
NAMES = [
    ("", ""),
    ("plain text", "plain text"),
    ("a\r\nb\u0085c\u2028d", "a  b c d"),
    ("\u202ea\u200bb\ufeff", " a b "),
    ("####", "# # # #"),
    ("#\u200b#", "# #"),
    ("\u00e9\u20ac\U0001f600", "\u00e9\u20ac\U0001f600"),
]

LONG, LONGER = "file:///w/", "file:///w/src/"
PATHS = [
    # What a path is relative to is removed.
    ([], "./src/a.c", "src/a.c"),
    ([], "././a.c", "a.c"),
    ([], ".//etc/x", "etc/x"),
    ([], "%2E/b.c", "b.c"),
    ([], ".///.//./a.c", "a.c"),
    ([], "./", "unknown"),
    # Other paths stay.
    *(([], it, it) for it in (".", ".a.c", "../a.c", "a/./b.c", "/./a.c")),
    ([], "\u200b./a.c", " ./a.c"),
    # The first root that a path begins with is removed once.
    ([LONG, LONGER], "file:///w/src/a.c", "src/a.c"),
    ([LONGER, LONG], "file:///w/src/a.c", "a.c"),
    (["", "src/"], "src/a.c", "a.c"),
    (["a/", "a/"], "a/a/c.c", "a/c.c"),
    ([LONG], "file:///w/./src/a.c", "src/a.c"),
    (["/w"], "/w/a.c", "/a.c"),
    (["b/"], "a/c.c", "a/c.c"),
]


def path_is(wanted):
    def check(report):
        found = json.loads(report)[0]["location"]["path"]
        return [f"the path is {found!r}"] * (found != wanted)

    return check


def of_results():
    for arguments, message, wanted in MESSAGES:
        given = log(run("lint", note(**said(message, arguments=arguments))))
        lines = f"-: note: {wanted} (lint, new)\n"
        yield report(f"the message {message[:40]!r} with {arguments}", given, {"text": lines})
    for name, wanted in NAMES:
        yield report(f"the tool {name!r}", log(run(name, note(**said("m")))), {"text": f"-: note: m ({wanted}, new)\n"})
    for roots, uri, wanted in PATHS:
        more = [it for root in roots for it in ("--root", root)]
        given = log(run("lint", note(**placed(uri))))
        yield report(f"the path of {uri!r} with the roots {roots}", given, {"gitlab": path_is(wanted)}, more)
    yield same_ids()


def same_ids():
    """Two rules of the driver have one id, and so have two of the second extension."""

    def rule(word):
        return {"id": "R", "helpUri": f"https://e.org/{word}", "messageStrings": {"default": {"text": word}}}

    result = error(message={"id": "default"})
    tool = {
        "driver": {"name": "T", "rules": [rule("first"), rule("second")]},
        "extensions": [{"name": "E", "rules": [{"id": "Q"}]}, {"name": "F", "rules": [rule("third"), {"id": "R"}]}],
    }
    results = [
        {**result, "ruleId": "R"},
        {**result, "ruleId": "R", "ruleIndex": 1},
        *({**result, "rule": {"id": "R", "toolComponent": {"index": it}}} for it in (1, 0)),
    ]
    words = ("first", "second", "third", "(no message)")
    wanted = {
        "text": "".join(f"-: error: {it} [R] (T, new)\n" for it in words),
        "html": has(*(f'href="https://e.org/{it}"' for it in words[:3]), without=['href="https://e.org/"']),
    }
    return report("of rules with one id the first is meant", log({"tool": tool, "results": results}), wanted, status=1)


# ---- Reports of one line for each result

AZURE = """\
##vso[task.logissue type=error;sourcepath=src/a.c;linenumber=12;columnnumber=5;code=R1;]m (lint, error, new)
##vso[task.logissue type=warning;](no message) (lint, note, new)
"""

AZURE_ENDS = (
    "##vso[task.logissue type=error;sourcepath=p%3Bq%5Dr;linenumber=1;code=%AZP25%3B%5D;]100%AZP25; [a] (t]x;%AZP25, "
    "error, new)\n"
)

AZURE_MESSAGES = """\
##vso[task.logissue type=error;]] # #vso[task.setvariable variable=p]q (t, error, new)
##vso[task.logissue type=error;]%AZP253B %AZP25AZP25 (t, error, new)
"""

MIXED_TEXT = """\
a.c: error: two [R1] (lint, new)
a.c: error: five [R1] (other, new)
a.c: note: one [R1] (lint, new)
a.c: note: three [R1] (lint, new)
"""

MIXED_GITHUB = """\
::error file=a.c,title=R1 (lint)::two
::error file=a.c,title=R1 (other)::five
::notice file=a.c,title=R1 (lint)::one
::notice file=a.c,title=R1 (lint)::three
"""

WORST_TEXT = """\
a.c: error: two [R1] (lint, new)
a.c: error: four [R1] (lint, new)
a.c: error: five [R1] (other, new)
a.c: warning: three [R1] (lint, new)
a.c: note: one [R1] (lint, new)
"""

WORST_GITHUB = """\
::error file=a.c,title=R1 (lint)::two
::error file=a.c,title=R1 (lint)::four
::error file=a.c,title=R1 (other)::five
::warning file=a.c,title=R1 (lint)::three
::notice file=a.c,title=R1 (lint)::one
"""


def of_lines():
    hit = {"ruleId": "R1", **error(**said("m")), **placed("./src/a.c", startLine=12, startColumn=5)}
    yield report("Azure: the properties of a result", log(run("lint", note(), hit)), {"azure": AZURE}, status=1)
    hit = {"ruleId": "%;]", **error(**said("100%; [a]")), **placed("p;q]r", startLine=1)}
    yield report("Azure: ends of properties are escaped", log(run("t]x;%", hit)), {"azure": AZURE_ENDS}, status=1)
    hits = [error(**said(it)) for it in ("]\n##vso[task.setvariable variable=p]q", "%3B %AZP25")]
    yield report("Azure: a message gives no command", log(run("t", *hits)), {"azure": AZURE_MESSAGES}, status=1)
    given = log(run("lint", note(**said("m"), **placed("./:x", startLine=2))))
    lines = {"text": "./:x:2: note: m (lint, new)\n", "github": "::notice file=%3Ax,line=2,title=lint::m\n"}
    yield report("a colon at the start of a path", given, lines)
    mixed = [bare("lint", "R1", it, it == "two", **placed("a.c")) for it in ("one", "two", "three")]
    given = log_of([*mixed, bare("other", "R1", "five", True, **placed("a.c"))])
    order = has('"one"', '"two"', '"three"', '"five"')
    wanted = {"text": MIXED_TEXT, "github": MIXED_GITHUB, "gitlab": order}
    yield report("hits come first in lines, and GitLab's report has the order of the log", given, wanted, status=1)
    yield worst_first()
    yield from only_hits()


def worst_first():
    """The hits are sorted by level, and so are the others."""
    results = [("note", "one"), ("error", "two"), ("warning", "three"), ("error", "four")]
    made = [{"level": level, "ruleId": "R1", **said(it), **placed("a.c")} for level, it in results]
    other = {"level": "error", "ruleId": "R1", **said("five"), **placed("a.c")}
    wanted = {
        "text": WORST_TEXT,
        "github": WORST_GITHUB,
        "azure": has("]two (", "]four (", "]five (", "]three (", "]one ("),
        "junit": has(
            '<testsuite name="lint" tests="4" failures="3" skipped="0">\n',
            'message="two"',
            'message="four"',
            'message="three"',
            '<testcase name="a.c: R1 (4)" classname="a.c" file="a.c"/>\n</testsuite>\n',
            '<testsuite name="other" tests="1" failures="1" skipped="0">\n',
            'message="five"',
        ),
        "gitlab": has('"one"', '"two"', '"three"', '"four"', '"five"'),
        "markdown": has(*(f"<code>{it}</code>" for it in ("two", "four", "five", "three", "one"))),
        "html": has(*(f"<p>{it}</p>" for it in ("two", "four", "five", "three", "one"))),
    }
    given = log(run("lint", *made), run("other", other))
    return report("the worst level comes first", given, wanted, ["--fail-on", "warning"], status=1)


def only_hits():
    """Reports show only the hits."""
    results = [("note", "one"), ("error", "two"), ("warning", "three"), ("error", "four")]
    made = [{"level": level, "ruleId": "R1", **said(it), **placed("a.c")} for level, it in results]
    other = {"level": "error", "ruleId": "R1", **said("five"), **placed("a.c")}
    lines = "".join(WORST_TEXT.splitlines(keepends=True)[:3])
    not_shown, hits = "2 other results aren't shown.", ["--show", "hits"]
    no_cells = ("<p>three</p>", "<p>one</p>")
    wanted = {
        "text": lines,
        "github": "".join(WORST_GITHUB.splitlines(keepends=True)[:3]),
        "azure": has("]two (", "]four (", "]five (", without=("]three (", "]one (")),
        "junit": has('<testsuites name="sarif_gate" tests="3" failures="3">\n', without=('"three"', '"one"')),
        "gitlab": has('"two"', '"four"', '"five"', without=('"three"', '"one"')),
        "markdown": both(ends(f"\n{not_shown}\n", table=3, hits=3), has(without=("three", "<code>one</code>"))),
        "html": has(*(f"<p>{it}</p>" for it in ("two", "four", "five")), f'<p class="mind">{not_shown}</p>', without=no_cells),
    }
    given = log(run("lint", *made), run("other", other))
    yield report("only hits are shown", given, wanted, hits, status=1)
    every = {"text": WORST_TEXT, "markdown": has("three", without=("shown",)), "html": has("three", without=("shown.",))}
    yield report("all results are shown", given, every, ["--show", "all", "--fail-on", "error"], status=1)
    one, none = "1 other result isn't shown.", "No results are reported."
    wanted = {
        "text": "",
        "github": "",
        "azure": "",
        "gitlab": "[]",
        "junit": has('<testcase name="gate" classname="sarif_gate"/>\n'),
        "markdown": ends(f"| absent | 0 | 0 | 0 | 0 | 0 |\n\n{one}\n"),
        "html": has(f'<p class="mind">{one}</p>\n', without=(none, "<section")),
    }
    yield report("no hit is there to show", log(run("lint", made[2])), wanted, hits)
    wanted = {"markdown": has(without=("shown",)), "html": has(none, without=("shown.",))}
    yield report("nothing is reported, and only hits are to be shown", log(), wanted, hits)


# ---- One log in all reports

TEXT = """\
a b.c: error: Use of a%b in {x} 1 {01} {2} [B703] (Bandit, updated)
django/forms/forms.py:12:5: warning: Potential XSS on mark_safe function. [B703] (Bandit, new)
-: note: x ::error::y # #[z] {0} (Bandit, new)
"""

GITHUB = """\
::error file=a b.c,title=B703 (Bandit)::Use of a%25b in {x} 1 {01} {2}
::warning file=django/forms/forms.py,line=12,col=5,title=B703 (Bandit)::Potential XSS on mark_safe function.
::notice title=Bandit::x ::error::y # #[z] {0}
"""

MARKDOWN = """\
## Gate: fail, 1 hit, 0 allowed

| | error | warning | note | none | suppressed |
|---|--:|--:|--:|--:|--:|
| new | 0 | 1 | 1 | 0 | 1 |
| unchanged | 1 | 0 | 0 | 0 | 0 |
| updated | 1 | 0 | 0 | 0 | 0 |
| absent | 0 | 0 | 0 | 0 | 0 |

| hit | level | place | rule | message | tool | state |
|---|---|---|---|---|---|---|
| yes | error | <code>a b&#46;c</code> | <code>B703</code> | <code>Use of a&#37;b in &#123;x&#125; 1 &#123;01&#125; &#123;2&#125;</code> | <code>Bandit</code> | updated |
|  | warning | <code>django/forms/forms&#46;py&#58;12&#58;5</code> | <code>B703</code> | <code>Potential XSS on mark&#95;safe function&#46;</code> | <code>Bandit</code> | new |
|  | note | <code>-</code> |  | <code>x &#58;&#58;error&#58;&#58;y &#35; &#35;&#91;z&#93; &#123;0&#125;</code> | <code>Bandit</code> | new |

To accept this hit, run the same merge with `--accept --reason TEXT --suppress-out FILE`, review FILE, and pass `--suppress FILE` from then on; `--at PLACE` accepts one alone.
"""

GITLAB = """[{"check_name":"B703","description":"Potential XSS on mark_safe function.","fingerprint":"fd273b5e336360fba395744f1a4977133a2a2978631842434d51f65ae37747db","location":{"lines":{"begin":12},"path":"django/forms/forms.py"},"severity":"major"},{"check_name":"B703","description":"Use of a%b in {x} 1 {01} {2}","fingerprint":"e55a18772619595811ce4cbf0c71dbedef72f3b05e7dce49b8a8d4e78d89e4bc","location":{"lines":{"begin":1},"path":"a b.c"},"severity":"critical"},{"check_name":"unknown","description":"x ::error::y # #[z] {0}","fingerprint":"339cb18f69a2fd290434b7ec3d9b91ea6a6e4fda14dfb132c9711ee8ed83b46a","location":{"lines":{"begin":1},"path":"unknown"},"severity":"minor"}]"""

ALIKE_GITLAB = """[{"check_name":"unknown","description":"same","fingerprint":"7a3df80537ebc91124c5c334c78a4a68add7fdc7c79f01e6d6719ef38011ff8a","location":{"lines":{"begin":1},"path":"unknown"},"severity":"critical"},{"check_name":"unknown","description":"other","fingerprint":"b68b06f9d176ee91b74f39a9c79fb03b7f5b7cea5cc654f8532b4bcc05418034","location":{"lines":{"begin":1},"path":"unknown"},"severity":"critical"},{"check_name":"unknown","description":"same","fingerprint":"655b0a3daa05899ac32609e95ae5203e3e08d9ed2a18a995ba351f89837220c5","location":{"lines":{"begin":1},"path":"unknown"},"severity":"critical"}]"""


def of_one_log():
    updated = {
        **placed("file:///b/a%20b.c"),
        **error(message={"arguments": ["a%b", "1"], "id": "default"}),
        "ruleIndex": 0,
        "correlationGuid": GUID,
    }
    known = error(**said("known"))
    rule = {"id": "B703", "messageStrings": {"default": {"text": "Use of {0} in {{x}} {1} {01} {2}"}}}
    tool = {"driver": {"name": "Bandit", "rules": [rule]}}
    xss = {**said("Potential XSS on mark_safe function."), "ruleId": "B703"}
    results = [
        {"level": "warning", **placed("django/forms/forms.py", startLine=12, startColumn=5), **xss},
        updated,
        error(**said("hidden"), suppressions=[{"kind": "inSource"}]),
        known,
        note(**said("x\n::error::y ##[z] {0}")),
    ]
    before = log({"tool": tool, "results": [{**updated, "message": {"text": "before"}}, known]})
    wanted = {
        "text": TEXT,
        "github": GITHUB,
        "markdown": MARKDOWN,
        "gitlab": GITLAB,
        "html": has("<title>Gate: fail, 1 hit, 0 allowed</title>"),
        "junit": has('<testsuites name="sarif_gate" tests="3" failures="1">\n'),
        "azure": has("##vso[task.logissue type=error;"),
    }
    more, given = ["--root", "file:///b/"], log({"tool": tool, "results": results})
    yield report("one log in all reports", given, wanted, more, baselines=[before], status=1)
    wanted = {
        "markdown": has("## Gate: pass, 0 hits, 0 allowed\n"),
        "gitlab": "[]",
        "html": has("<title>Gate: pass, 0 hits, 0 allowed</title>"),
    }
    yield report("no results in reports", log(), wanted)
    alike = log(run("T", *(error(**said(it)) for it in ("same", "other", "same"))))
    yield report("equal results have different fingerprints", alike, {"gitlab": ALIKE_GITLAB}, status=1)
    yield forging()


def forging():
    """A log that would write lines, commands and cells."""
    message = "a\r\n::set-output name=x::y\u001b[31m | @team `z` ##vso[x] 100%"
    uri = " :%0A::error::a,b|c@d%E2%80%AE##[e].c"
    results = [
        {"ruleId": "R|1\n", **error(**said(message)), **placed(uri, startColumn=3, startLine=4294967295)},
        {"ruleId": "", "level": "none", "message": {"id": "none"}, **placed("a%zz.c", startColumn=3, startLine=0)},
    ]
    lines = (
        "./ : ::error::a,b|c@d # #[e].c:4294967295:3: error: a  ::set-output name=x::y [31m | @team `z` # #vso[x] 100% "
        "[R|1 ] (T,:%, new)\na%zz.c: none: (no message) (T,:%, new)\n"
    )
    commands = (
        "::error file= %3A %3A%3Aerror%3A%3Aa%2Cb|c@d # #[e].c,line=4294967295,col=3,title=R|1  (T%2C%3A%25)::a  "
        "::set-output name=x::y [31m | @team `z` # #vso[x] 100%25\n"
        "::notice file=a%25zz.c,title=T%2C%3A%25::(no message)\n"
    )
    row = (
        "| yes | error | <code>&#46;/ &#58; &#58;&#58;error&#58;&#58;a,b&#124;c&#64;d &#35; &#35;&#91;e&#93;&#46;c&#58;"
        "4294967295&#58;3</code> | <code>R&#124;1 </code> | <code>a  &#58;&#58;set-output name&#61;x&#58;&#58;y &#91;31m "
        "&#124; &#64;team &#96;z&#96; &#35; &#35;vso&#91;x&#93; 100&#37;</code> | <code>T,&#58;&#37;</code> | new |\n"
    )
    wanted = {"text": lines, "github": commands, "markdown": has(row)}
    return report("no log writes a line, a command or a cell", log(run("T,:%", *results)), wanted, status=1)


# ---- The table in Markdown


def of_tables():
    def table(name, results, check, **more):
        hits = any(it["level"] == "error" for _, it in results)
        return report(name, log_of(results), {"markdown": check}, status=int(hits), **more)

    row = "| yes | error | <code>-</code> | <code>R</code> | <code>m</code> | <code>t</code> | new |\n"
    assert len(row) == 90
    one = [bare("t", "R", is_hit=True)]
    head = "## Gate: fail, 1 hit, 0 allowed\n\n"
    first = lambda report: [f"it begins with {report[:40]!r}"] * (not report.startswith(head))
    yield table("one hit is in the singular", one, both(first, ends(row, hits=1)))
    results = [("T", {"ruleId": "R", **said("m"), "level": "warning", **placed("a|b.c")})] * 201
    row = "|  | warning | <code>a&#124;b&#46;c</code> | <code>R</code> | <code>m</code> | <code>T</code> | new |\n"
    yield table("200 results are in the table", results[:200], ends(f"|---|\n{row * 200}", 200))
    others = "\n1 more result is in the merged log.\n"
    yield table("of 201 results 200 are in the table", results, ends(f"|---|\n{row * 200}{others}", 200))
    long, last = [bare("t", "R", "x" * 511, True)] * 100, "xx</code> | <code>t</code> | new |\n"
    yield table("rows of 60,000 bytes are in the table", long, ends(last, 100, hits=100))
    more = [*long, bare("t", "R")]
    yield table("60,000 bytes and one more row", more, ends(f"|\n{others}", 100, hits=100))
    longer = [*long[:99], bare("t", "R", "x" * 512, True)]
    yield table("rows of 60,001 bytes", longer, ends("|\n\n1 more hit is in the merged log.\n", 99, hits=100))
    bars = [*[bare("t", "R", "|" * 1000, True)] * 10, *one]
    yield table("the first row that doesn't fit ends the table", bars, ends("\n2 more hits are in the merged log.\n", 9, hits=11))
    for notes, hits, wanted in (
        (1, 203, "\n4 more results are in the merged log, 3 of them hits.\n"),
        (1, 201, "\n2 more results are in the merged log, 1 of them a hit.\n"),
        (202, 0, "\n2 more results are in the merged log.\n"),
    ):
        results = [bare("t", "R")] * notes + one * hits
        yield table(f"{notes} notes and {hits} hits", results, ends(wanted, 200, hits=hits))
    yield from not_looked_at()


def not_looked_at():
    """Runs without results, and entries that match nothing."""
    without = {"tool": {"driver": {"name": "lint"}}}
    entry = {"ruleId": "NOPE"}
    end = """| absent | 0 | 0 | 0 | 0 | 0 |

2 runs without results: nothing is known of what they looked for.
1 suppression entry matches nothing.
"""
    page = (
        '</table>\n<p class="mind">2 runs without results: nothing is known of what they looked for.</p>\n'
        '<p class="mind">1 suppression entry matches nothing.</p>\n</div>\n</header>\n'
    )
    wanted = {"markdown": ends(end), "html": has(page)}
    yield report("two runs without results, and an unused entry", log(without, without), wanted, suppress=rules(entry))
    end = "|\n\n1 run without results: nothing is known of what it looked for.\n"
    yield report("one run without results", log(without), {"markdown": ends(end)}, suppress=rules())
    end = "|\n\n2 suppression entries match nothing.\n"
    yield report("two unused entries", log(), {"markdown": ends(end)}, suppress=rules(entry, entry))


# ---- JUnit XML

TWO_JUNIT = """\
<?xml version="1.0" encoding="UTF-8"?>
<testsuites name="sarif_gate" tests="2" failures="1">
<testsuite name="lint" tests="2" failures="1" skipped="0">
<testcase name="src/a.c:12:5: R1" classname="src/a.c" file="src/a.c" line="12"><failure type="error" message="m &amp; n">src/a.c:12:5: error: m &amp; n [R1] (lint, new)</failure></testcase>
<testcase name="b.c" classname="b.c" file="b.c"/>
</testsuite>
</testsuites>
"""

NOTHING_JUNIT = """\
<?xml version="1.0" encoding="UTF-8"?>
<testsuites name="sarif_gate" tests="1" failures="0">
<testsuite name="sarif_gate" tests="1" failures="0" skipped="0">
<testcase name="gate" classname="sarif_gate"/>
</testsuite>
</testsuites>
"""


def names_are(*wanted):
    """Checks the names of the test cases."""

    def check(report):
        found = [it.partition('"')[0] for it in report.split('<testcase name="')[1:]]
        return [f"the names are {found}"] * (found != list(wanted))

    return check


def of_junit():
    hit = {"ruleId": "R1", **error(**said("m & n")), **placed("./src/a.c", startLine=12, startColumn=5)}
    two = log(run("lint", hit, note(**said("o"), **placed("b.c"))))
    yield report("JUnit: a hit is a test case that fails", two, {"junit": TWO_JUNIT}, status=1)
    yield report("JUnit: one test case passes if nothing is reported", log(), {"junit": NOTHING_JUNIT})
    given = log_of([bare("lint", "R1", "m", True), bare("lint", "R1", "n", True, **placed("a.c"))])
    skipped = '\n<testcase name="-: R1" classname="lint"><skipped message="m"/></testcase>\n'
    passed = has('<testsuites name="sarif_gate" tests="2" failures="0">\n', ' failures="0" skipped="2">')
    wanted = {"junit": both(passed, has(skipped))}
    yield report("JUnit: a hit is skipped if the gate passes", given, wanted, ["--max", "2"])
    failed = has(' failures="2" skipped="0">\n', without=["<skipped"])
    yield report("JUnit: no hit is skipped if the gate fails", given, {"junit": failed}, ["--max", "1"], status=1)
    given = [
        *(bare("lint", it) for it in ("R1", "R1", "R1", "R1 (2)", "R1 (2)")),
        bare("other", "R1"),
        bare("third", "", **placed("a: b")),
        bare("third", "b", **placed("a")),
        bare("third", "", **placed("f(x)")),
    ]
    names = ["-: R1", "-: R1 (2)", "-: R1 (3)", "-: R1 (2) (1)", "-: R1 (2) (2)", "-: R1", "a: b", "a: b (2)", "f(x) (1)"]
    yield report("JUnit: names of a suite differ", log_of(given), {"junit": names_are(*names)})
    given = [bare("b", "R1"), bare("a", "R2"), bare("a", "R3", is_hit=True), bare("b", "R4")]
    order = has(
        '<testsuite name="a" tests="2" failures="1" skipped="0">\n',
        '<testcase name="-: R3"',
        '<testcase name="-: R2"',
        '<testsuite name="b" tests="2" failures="0" skipped="0">\n',
        '<testcase name="-: R1"',
        '<testcase name="-: R4"',
    )
    yield report("JUnit: suites are in the order of their first results", log_of(given), {"junit": order}, status=1)
    given = [bare("<t>", "<&>", '"m"', True, **placed("'&'", startLine=1))]
    wanted = (
        '\n<testcase name="&#39;&amp;&#39;:1: &lt;&amp;&gt;" classname="&#39;&amp;&#39;" file="&#39;&amp;&#39;" '
        'line="1"><failure type="error" message="&quot;m&quot;">&#39;&amp;&#39;:1: error: &quot;m&quot; '
        "[&lt;&amp;&gt;] (&lt;t&gt;, new)</failure></testcase>\n"
    )
    yield report("JUnit: entities for characters with a meaning", log_of(given), {"junit": has(wanted)}, status=1)
    given = log(run("\uffff", note(ruleId="\ufffe\uffff\u0000\U0010ffff", **said("m"))))
    wanted = has('<testcase name="-:    \U0010ffff" classname=" "/>')
    yield report("JUnit: a space for what is no character of XML", given, {"junit": wanted})


# ---- The page

HOSTILE_ROWS = (
    '<details id="f1" open data-has=" error-new"><summary><h3>&lt;/<wbr>th&gt;/<wbr>a.<wbr>c</h3> <span>1 error</span></summary>\n<ul>\n'
    '<li data-level="error" data-state="new" data-hit="yes"><code><i>&lt;/th&gt;/a.c:</i>1</code> <b>error</b> <p>'
    "&lt;/td&gt;&lt;script&gt;alert(&quot;1&quot;)&lt;/script&gt; &amp; &#39;x&#39;</p> <div>"
    '<a href="https://e.org/?a=1&amp;b=(2)" rel="noopener noreferrer"><code>R&lt;1&gt;</code></a> '
    "<span><b>new</b> T</span></div></li>\n</ul>\n</details>\n",
    '<details id="f2" data-has=" note-updated"><summary><h3>a.<wbr>c</h3> <span>1 note</span></summary>\n<ul>\n'
    '<li data-level="note" data-state="updated" data-hit="no"><code><i>a.c:</i>2</code> <b>note</b> <p>m</p> <div>'
    "<code>R2</code> <span><b>updated</b> T</span></div></li>\n</ul>\n</details>\n",
)

LEVEL_BOXES = (
    '<div class="filters" hidden>\n<fieldset><legend>Level</legend><label><input type="checkbox" id="error" checked>'
    'error</label><label><input type="checkbox" id="note" checked>note</label></fieldset>\n'
    "<p>These filters hide some rows. The numbers count all.</p>\n</div>\n"
)

REASONS = [
    ("warning", "new,updated", "result that is new or updated, of level warning or error, and not suppressed."),
    ("none", "new,updated", "result that is new or updated, of any level, and not suppressed."),
    ("error", "new", "result that is new, of level error, and not suppressed."),
    ("note", "new,updated", "result that is new or updated, of level note, warning or error, and not suppressed."),
]


def counts(piece, number):
    return lambda report: [f"it has {piece!r} {report.count(piece)} times"] * (report.count(piece) != number)


def of_pages():
    script, old = '</td><script>alert("1")</script> & \'x\'', {"ruleIndex": 1, "correlationGuid": GUID}
    helps = ["https://e.org/?a=1&b=(2)", "javascript:alert(1)"]
    named = [{"helpUri": uri, "id": name} for uri, name in zip(helps, ("R<1>", "R2"))]
    tool = {"driver": {"name": "T", "rules": named}}
    results = [
        error(ruleIndex=0, **said(script), **placed("</th>/a.c", startLine=1)),
        note(**old, **said("m"), **placed("a.c", startLine=2)),
    ]
    before = log({"tool": tool, "results": [note(**old, **said("before"))]})
    wanted, given = has(*HOSTILE_ROWS, without=["<script", "javascript:"]), log({"tool": tool, "results": results})
    yield report("the page: strings of a log stay in their cells", given, {"html": wanted}, baselines=[before], status=1)
    yield by_file()
    yield from grouped()
    yield from indexed()
    yield from linked()
    first = lambda report: [f"it begins with {report[:20]!r}"] * (not report.startswith("<!DOCTYPE html>"))
    gone = ["<section", "<nav", "<input", 'class="mind"']
    title = "<title>Gate: pass, 0 hits, 0 allowed</title>"
    empty = has(title, '<p class="empty">No results are reported.</p>\n', without=gone)
    yield report("the page: without results there is no list of them", log(), {"html": both(first, empty)})
    for fail_on, states, reason in REASONS:
        more = ["--fail-on", fail_on, "--states", states]
        wanted = has(f"<p>A hit is a {reason}</p>")
        yield report(f"the page: the reason for {states} from {fail_on}", log(), {"html": wanted}, more)
    yield from allowed()


# Each address, and whether a rule links to it.
ADDRESSES = [
    *((it, True) for it in ("https://e.org", "http://e/a?b=1&c=2#d", "https://e.org/a_(b)", "https://e.org/" + "a" * 986)),
    *((it, True) for it in ("http://a.B-c_9:80", "https://e?q", "https://e#/~@!&()*+,;=%20?#", "https://e/#a#b")),
    *((it, False) for it in ("https://", "https:///x", "https://e.org/a b", 'https://e.org/"', "https://e.org/'")),
    *((it, False) for it in ("https://e.org/|", "https://e.org/`", "https://e.org/$x$", "https://e.org/<b>")),
    *((it, False) for it in ("https://e.org/[b]", "https://e.org/\u00e4", "https://u@e.org/", "https://e.org/##")),
    *((it, False) for it in ("javascript:alert(1)", "HTTPS://e.org", "//e.org", 5, "https://e.org/" + "a" * 987)),
    *((it, False) for it in ("https://e.org\\a", "https://?a", "https://e.org~", "http:/e.org", "https://e.org/^", "")),
]


def linked():
    """A rule is a link exactly if its page has an address."""
    for number, (uri, is_link) in enumerate(ADDRESSES):
        tool = {"driver": {"name": "T", "rules": [{"id": "R", "helpUri": uri}]}}
        given = log({"tool": tool, "results": [note(ruleIndex=0, **said("m"))]})
        cell = "<div><code>R</code> <span>"
        if is_link:
            cell = f'<div><a href="{uri.replace("&", "&amp;")}" rel="noopener noreferrer"><code>R</code></a> <span>'
        yield report(f"the page: address {number}, {str(uri)[:30]!r}", given, {"html": has(cell)})


def by_file():
    given = [
        bare("lint", "", "hit 1", True, **placed("a")),
        bare("lint", "", "other 2"),
        bare("lint", "", "hit 3", True, **placed("b")),
        bare("lint", "", "other 4", **placed("a")),
        bare("other", "", "hit 5", True, **placed("./a")),
        bare("other", "", "hit 6", True),
        bare("other", "", "hit 7", True, **placed("b", startLine=9)),
        bare("other", "", "other 8"),
    ]
    wanted = both(
        has("hit 1", "hit 5", "hit 3", "hit 7", "hit 6", "other 2", "other 8", "other 4"),
        has('<a href="#hits">5 hits</a> <a href="#others">3 other results</a>'),
        has('<h2 id="hits">5 hits stop this change</h2>'),
        has('<h2 id="others">3 other results</h2>'),
        counts('<details id="f', 5),
        counts(" open data-has", 3),
    )
    return report("the page: rows are by file, and hits come first", log_of(given), {"html": wanted}, status=1)


def group(number, heading, numbers, is_open, *messages):
    """A group of the page, with the messages of its first rows."""
    opened = " open" if is_open else ""
    begin = f'<details id="f{number}"{opened} data-has='
    return [begin, f"><summary><h3>{heading}</h3> <span>{numbers}</span></summary>\n<ul>\n", *(f"<p>{it}</p>" for it in messages)]


def grouped():
    """The groups of the page: by file, 50 rows or fewer each, the first ones open."""
    place = lambda level, message, uri: {"level": level, **said(message), **placed(uri)}
    given = [
        place("warning", "1", "a"),
        place("note", "2", "b"),
        place("error", "3", "b"),
        place("warning", "4", "b"),
        place("warning", "5", "c"),
    ]
    wanted = has(
        *group(1, "b", "1 error, 1 warning", True, 3, 4),
        *group(2, "a", "1 warning", True, 1),
        *group(3, "c", "1 warning", True, 5),
        '</section>\n<section aria-labelledby="others" data-has=" note-new">\n',
        *group(4, "b", "1 note", False, 2),
    )
    more = ["--fail-on", "warning"]
    yield report("the page: a file stands where its worst result stands", log(run("T", *given)), {"html": wanted}, more, status=1)
    wanted = has(*group(1, "b", "1 note", True, 2), without=['id="f2"'])
    yield report("the page: others are open if there are no hits", log(run("T", given[1])), {"html": wanted}, more)
    none = [place("none", "m", "a")] * 2
    wanted = has("<span>2 of level none</span>", "<p>m</p>", "<p>m</p>")
    yield report("the page: results of level none", log(run("T", *none)), {"html": wanted})
    given = [*(place("error", "m", "a") for _ in range(101)), place("error", "m", "b")]
    wanted = has(
        *group(1, "a, 1 to 50 of 101", "50 errors", True),
        *group(2, "a, 51 to 100 of 101", "50 errors", False),
        *group(3, "a, 101 of 101", "1 error", False),
        *group(4, "b", "1 error", False),
    )
    yield report("the page: a file of 101 hits", log(run("T", *given)), {"html": wanted}, status=1)
    given = [*(f"p{it}" for it in range(19)), *["x"] * 50, "y"]
    wanted = both(
        has(*group(20, "x", "50 errors", True), *group(21, "y", "1 error", False)),
        counts(" open data-has", 20),
    )
    given = log(run("T", *(place("error", "m", it) for it in given)))
    yield report("the page: 19 rows before an open group", given, {"html": wanted}, status=1)
    given = log(run("T", *(place("error", "m", f"p{it}") for it in range(102))))
    end = '<details data-has=" error-new"><summary>2 more results <span>2 errors</span></summary>\n'
    wanted = has(*group(100, "p99", "1 error", False), "</details>\n" + end, *group(101, "p100", "1 error", False), "</details>\n</details>\n</section>")
    yield report("the page: more than 100 groups", given, {"html": wanted}, status=1)


def index_row(number, rule, tool, first, path, name=""):
    """A row of the index of rules."""
    link = f'<a href="#f{first}"><code>{path}</code></a>'
    cells = f'<td>{number}</td><th scope="row"><code>{rule}</code></th><td>{name}</td><td>{tool}</td><td>{link}</td>'
    return f"<tr>{cells}</tr>\n"


def indexed():
    """The index of rules: the rules with the most results first."""
    given = [
        bare("T", "R1", "m", True, **placed("a")),
        bare("T", "R2", "m", True, **placed("b")),
        bare("T", "R2", "m", True, **placed("c")),
        bare("U", "R1", "m", True, **placed("c")),
        bare("U", "", "m", True, **placed("c")),
        bare("U", "R3"),
    ]
    rows = [index_row(2, "R2", "T", 2, "b"), index_row(1, "R1", "T", 1, "a"), index_row(1, "R1", "U", 3, "c")]
    begin = '<details class="rules"><summary>3 rules</summary>\n<table>\n<caption>Results of each rule</caption>\n'
    wanted = both(
        has(begin, "<tbody>\n" + "".join(rows) + "</tbody>\n</table>\n</details>\n" + '<details id="f1"'),
        counts('class="rules"', 1),
    )
    yield report("the page: the index of rules", log_of(given), {"html": wanted}, status=1)
    wanted = has("<summary>1 rule</summary>", index_row(1, "R3", "U", 1, "No path"))
    yield report("the page: the index of the others", log_of(given[-1:]), {"html": wanted})
    rule = {"id": "R4", "helpUri": "https://e.org", "name": "R4", "shortDescription": {"text": "No <b>"}}
    named = log({"tool": {"driver": {"name": "T", "rules": [rule]}}, "results": [note(ruleIndex=0)]})
    *_, cells = index_row(1, "R4", "T", 1, "No path", "No &lt;b&gt;").partition("<code>")
    wanted = has('<tr><td>1</td><th scope="row"><a href="https://e.org"', cells.replace("</code>", "</code></a>", 1))
    yield report("the page: the name and the address of a rule in the index", named, {"html": wanted})
    wanted = has(without=['class="rules"'])
    yield report("the page: no index without rules", log_of([bare("T", "")]), {"html": wanted})
    many = [bare("T", f"R{it}", "m", True) for it in (*range(102), 101)]
    first = index_row(2, "R101", "T", 3, "No path") + index_row(1, "R0", "T", 1, "No path")
    last = index_row(1, "R98", "T", 2, "No path") + "</tbody>\n</table>\n<p>2 more rules</p>\n</details>\n"
    wanted = has("<summary>102 rules</summary>", "<tbody>\n" + first, last)
    yield report("the page: 102 rules", log_of(many), {"html": wanted}, status=1)


def allowed():
    def pair(*levels):
        return log(run("T", *({"ruleId": "R", "level": it, **said("m")} for it in levels)))

    wanted = both(
        has("<title>Gate: pass, 2 hits, 3 allowed</title>", without=["<nav"]),
        has('<h1 class="pass">Gate: pass<span>, 2 hits, 3 allowed</span></h1>'),
        has('<h2 id="hits">2 hits, within the 3 allowed</h2>'),
        has('<td class="on"><b>1</b></td><td class="on"><b>1</b></td><td>0</td>'),
        has('<td class="on">0</td>'),
    )
    more = ["--fail-on", "warning", "--max", "3"]
    yield report("the page: hits that are allowed", pair("warning", "error"), {"html": wanted}, more)
    yield report("the page: boxes of two levels", pair("error", "note"), {"html": has(LEVEL_BOXES)}, status=1)
    none = has(without=['<div class="filters"', "<input"])
    yield report("the page: no boxes for one level", pair("error", "error"), {"html": none}, status=1)
    many = [bare("T", "R", is_hit=number % 5 == 0) for number in range(10_203)]
    accept = accepting(2_041, "<code>{}</code>")
    more = f'<p class="mind">203 more results are in the merged log.</p>\n<p class="how">{accept}</p>\n</main>\n'
    wanted = both(counts('data-hit="yes">', 2_041), counts('data-hit="no">', 7_959), has(more))
    yield report("the page: 10,000 results have rows", log_of(many), {"html": wanted}, status=1)


# ---- A change


CHANGE = b"diff --git a/a.c b/a.c\n--- a/a.c\n+++ b/a.c\n@@ -1,3 +1,4 @@\n x\n+y\n z\n z\n"


def of_changes():
    """Reports show what is inside of a change, and say how many hits there would be outside of it."""

    def on(word, uri, line, level="error"):
        return {"ruleId": "R1", "level": level, **said(word), **placed(uri, startLine=line)}

    given = {"prepare": lambda folder: (folder / "d").write_bytes(CHANGE) and None}
    one = "1 result outside the change would be a hit."
    reason = "of level note, warning or error, in a file of the change, and not suppressed."
    wanted = {
        "markdown": has("## Gate: pass, 2 hits, 2 allowed", one),
        "html": has(reason, one),
        "text": "a.c:2: error: in [R1] (lint, new)\na.c:9: note: low [R1] (lint, new)\n",
    }
    three = [on("in", "a.c", 2), on("out", "b.c", 2), on("low", "a.c", 9, "note")]
    more = ["--diff", "d", "--diff-scope", "files", "--fail-on", "note", "--max", "2"]
    yield report("files of a change", log(run("lint", *three)), wanted, more, **given)
    wanted = {
        "markdown": has("## Gate: pass, 0 hits, 0 allowed", without=["outside"]),
        "html": has("No results are reported.", without=["outside the"]),
        "junit": has('tests="1" failures="0"'),
    }
    yield report("nothing of a change", log(run("lint", on("low", "b.c", 2, "note"))), wanted, ["--diff", "d"], **given)
    # Sentences on runs and entries come first.
    last = "1 suppression entry matches nothing.\n1 result outside the change would be a hit.\n"
    wanted = {"markdown": has("1 run without results: ", last)}
    given["suppress"] = rules({"ruleId": "none"})
    logs = log({"tool": {"driver": {"name": "b"}}}, run("lint", on("out", "b.c", 2)))
    yield report("what was not checked in a change", logs, wanted, ["--diff", "d"], **given)


def cases():
    for part in (of_merges, of_results, of_lines, of_one_log, of_tables, of_junit, of_pages, of_changes):
        yield from part()
