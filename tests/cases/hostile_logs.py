"""Logs whose strings try to break out of a report: lines, commands, tags, cells, invisible characters."""

from cases import log, run
from reference_reports import HIDDEN

LINES = [
    "first\nsecond",
    "first\r\nsecond\rthird",
    "\n::error ::owned",
    "a\u2028b\u2029c",
    "\x0b\x0c\x85",
    "\t",
]
COMMANDS = [
    "::error ::owned",
    "::set-output name=x::y",
    "::stop-commands::x",
    "##[error]owned",
    "##vso[task.setvariable variable=a]b",
    "]##vso[task.setvariable variable=a]b",
    "x;code=R;]y",
    "#",
    "##",
    "###",
    "a##b###c####",
    "#\u200b#",
    "#\n#",
]
TERMINAL = ["\x1b[31mred\x1b[0m", "\x1b]0;title\x07", "\x00\x01\x1f\x7f\x80\x9f", "\b\b\b"]
TAGS = [
    "<script>alert(1)</script>",
    "</td></tr></table><h1>owned</h1>",
    "<!-- ",
    " -->",
    "<style>*{display:none}</style>",
    "<img src=x onerror=alert(1)>",
    "]]>",
    "&lt;&amp;&quot;&#60;&bogus;&",
    "\"'`<>&",
    "' onclick='alert(1)",
    '" onclick="alert(1)',
]
MARKUP = [
    "| a | b |",
    "\\| \\",
    "@everyone #1 !1 GH-1 owner/repo#1",
    "[x](http://example.org) ![x](http://example.org/x.png)",
    "**b** _i_ ~~s~~ `c` ``",
    "</code><code>",
    "$x$ $$y$$",
    "- [ ] task",
    ":tada:",
    "https://example.org www.example.org",
]
DIRECTIONS = ["\u202eabc\u202c", "a\u2066b\u2069c", "\u200f\u061ca", "\ufeffa\u200b\u00ad"]
ESCAPES = ["%AZP25", "%3B%5D", "%AZP253B"]
ESCAPES += ["%", "%%", "100%", "%0A%0D%25%3A%2C", "a%2", "%zz", "file=a,line=1", ":,", "a:b,c%"]
BRACES = ["{", "}", "{{", "}}", "{{0}}", "{{{0}}}", "{0}", "{1}", "{00}", "{01}", "{ 0}", "{0"]
BRACES += ["0}", "{-1}", "{9}}", "{{9}", "}{0}{", "{0}{1}{2}", "{4294967296}", "{\u0660}", "{}"]
BRACES += ["{18446744073709551616}", "{0}}", "{{{9}}}"]
BRACKETS = [
    "This [user-provided value](1) flows to [a sink](2).",
    "[](1)",
    "[a](007)(2)",
    "[para\\[0\\]\\\\spans\\[2\\]](1)",
    "f\\[x](1)",
    "[x\\](1)",
    "f\\\\[x](1)",
    "[C:\\dir\\f.c](1)",
    "[a]() [b](-1) [c](1.0) [d]( 1) [e](https://example.org/1) [f](\u0663) [g](2",
    "[[a](1)](2) [x[a](1) ]a](1) [a](1",
    "see [here]({0}) {1} [there]({1}) [it]({00}) [more]({9})",
    "[{0}](1) [{](1){0}} {[0](1)} [a](1){{",
    "#[#](1)[error]x",
    "y" * 995 + "[link](123)z",
    "[" * 2_000 + "a](1)",
    "[](1)" * 2_000 + "a",
]
EDGES = ["", " ", ":", " :a", "./:a", "-", "\\", "\u00e9", "\U0001f600", "e\u0301", "\uffff", "/"]
XML = ["a (2)", "a (2) (2)", "a)", "\ufffe\uffff\x00", "\ufffd\U0010ffff\ue000", "<![CDATA[", "&#0;"]
XML += ["<?xml version='1.1'?>", "</testcase></testsuite>", '"/><failure message="', "&amp;lt;"]
LONG = [
    "a" * 999,
    "a" * 1_000,
    "a" * 1_001,
    "\u00e9" * 1_000,
    "\U0001f600" * 1_001,
    "#" * 500,
    "#" * 501,
    "a" * 998 + "##",
    "a" * 999 + "##",
    "a" * 1_000 + "##",
    "\n" * 1_001,
    "&" * 1_001,
    "%" * 5_000,
]
ENDS = ["[" + "".join(map(chr, sorted({max(0, a - 1), a, b, b + 1}))) + "]" for a, b in HIDDEN]
TEXTS = LINES + COMMANDS + TERMINAL + TAGS + MARKUP + DIRECTIONS
TEXTS += ESCAPES + BRACES + BRACKETS + EDGES + XML + LONG + ENDS
# Files that some of the URIs below may be.
FILES = ["a.c", "a b.c", "\u00e9.c", ":a.c", "src/a.c", "b.c"]
URIS = [
    "a.c",
    "a%20b.c",
    "a%0Ab.c",
    "a%0ab%23%23c",
    "%c3%a9.c",
    "%C3%A9.c",
    "%c3.c",
    "%ff%fe",
    "a%00b",
    "%e2%80%ae.c",
    "%f0%9f%98%80",
    "%ed%a0%80",
    "a%2",
    "a%",
    "%%20",
    "%zz%20",
    "a%25%20",
    ":a.c",
    "  :a.c",
    "%3Aa.c",
    "%20:a.c",
    "%0a:a.c",
    "./:a.c",
    "::error ::owned",
    "file:///src/a.c",
    "file:///src/",
    "file:///src/:a.c",
    "file:///src",
    "file:///SRC/a.c",
    "file:///sr%63/a.c",
    "FILE:///src/a.c",
    "src/../a.c",
    "./src/a.c",
    "././a.c",
    ".//etc/x",
    "./",
    "%2E/b.c",
    ".",
    ".a.c",
    "../a.c",
    "a/./b.c",
    "/./a.c",
    "\u200b./a.c",
    "file:///src/./a.c",
    "C:\\a.c",
    "C:/a.c",
    "/etc/a.c",
    "src//a.c",
    "src/",
    "src/..",
    "..",
    "a:b/c",
    "src/b:c",
    "src/a~b-c_d.e+f(g)",
    "src/%C3%A4%25%22.c",
    "src/%2e%2e/a.c",
    "src%2Fa.c",
    "{line}.c",
    "%7Bpath%7D/{path}",
    "a'b\"<c>&d.c",
    "src/" + "a" * 996,
    "src/" + "a" * 997,
    " ",
    "",
]
LINKS = [
    "https://example.org/R1",
    "http://example.org/R1?a=1&b='2'",
    'https://example.org/"onclick="x',
    "https://",
    "http://",
    "HTTPS://example.org",
    "https:/example.org",
    "ftp://example.org",
    "javascript:alert(1)//https://",
    "//example.org",
    " https://example.org",
    "https://example.org/a\nb",
    "https://example.org/\u202e",
    "https://example.org/##a",
    "https://example.org/<b>",
    "https://example.org/" + "a" * 980,
    "https://example.org/" + "a" * 981,
    "",
    None,
    1,
    ["https://example.org"],
]
TEMPLATES = [
    "https://example.org/o/blob/S/{path}#L{line}",
    "http://example.org:8/{path}",
    "https://example.org/p/_git/r?path=/{path}&line={line}&lineEnd={line}",
]
NUMBERS = [0, 1, -1, 4_294_967_295, 4_294_967_296, 2**64 - 1, -(2**63), True, None, "1", [1], {}]
OTHERS = [None, True, 0, "", "text", [], {}, [None], {"text": 1}, {"text": None}, {"text": ["a"]}]
NAMES = ["R", "No <b>", "\nx", "\u200b", " ", "#" * 60, "x" * 99 + "##"]
NAMES += ["n" * 99, "n" * 100, "n" * 101, "\U0001f600" * 101, "<" * 101, "a" * 5_000, *OTHERS]
CODES = [
    "\tf(a|b);",
    "x\n",
    "x\n\ty",
    "\tx\r\n\t\ty\r\n",
    "a\r\n\r\n  b\r\n",
    "\n\n  b\n\n",
    "    a\n\n  b\n\tc",
    "a\rb\r\r\nc\r",
    "<b>\n&amp;\n\"'\n##\n#",
    "</code></pre><script>\n<mark>\n-->\n]]>",
    "| a | b |\n`c` ``\n<br>",
    "##vso[task.setvariable variable=a]b\n::error ::owned\n#\u200b#",
    "\x1b[31m\x00x\n\x7f\x80\n\u202eabc",
    "a\u2028b\x0bc\x85d\x0ce\n\u00ad\ufeff\ne\u0301",
    " \t\n \u200b",
    "1\n2\n3\n4\n5\n6\n7",
    "\n\n\n\n\n6\n7",
    "\u00a0a\n\u3000b\n\u2003\n c",
    "x" * 119 + "\n" + "y" * 120 + "\n" + "z" * 121,
    " " * 200 + "y" * 121 + "\n" + " " * 199 + "y" * 121,
    "\t" * 40 + "y\n" + " " * 160 + "z",
    "\U0001f600" * 121 + "\n" + " " * 121,
    "a" * 118 + "##\n" + "a" * 119 + "##",
    "&" * 5_000,
    "\n".join(map(str, range(2_000))),
    "\n",
    "\r\n\r\n",
    "\r",
    "",
]


def named(text, uri="a.c", **members):
    """A result with this message at a URI."""
    place = {"artifactLocation": {"uri": uri}, "region": {"startLine": 3, "startColumn": 5}}
    return {"message": {"text": text}, "locations": [{"physicalLocation": place}], **members}


def snippet(line, text):
    """A region that begins at this line, or without a line, with this code."""
    region = {"snippet": {"text": text}}
    return region if line is None else {"startLine": line, **region}


def coded(region, around=None, uri="a.c", **members):
    """An error with this region and the one around it."""
    place = {"artifactLocation": {"uri": uri}, "region": region}
    place |= {} if around is None else {"contextRegion": around}
    return {"message": {"text": "m"}, "level": "error", "locations": [{"physicalLocation": place}], **members}


def everywhere(text):
    """A log with this string in each place that a report reads."""
    strings = {text: {"text": text}}
    rules = [{"id": text, "helpUri": f"https://example.org/{text}", "messageStrings": strings}]
    rules.append({"id": "N", "helpUri": LINKS[1], "name": text})
    rules.append({"id": "S", "helpUri": LINKS[1], "name": "", "shortDescription": {"text": text}})
    around = snippet(2, f"  before\n\t{text}\n  {text}\n")
    results = [
        named(text, text, ruleIndex=0),
        named(text, text, ruleId=text, level="error"),
        {"message": {"id": text, "arguments": [text, text]}, "ruleIndex": 0},
        {"message": {"text": "{0} and {1}", "arguments": [text, text]}, "level": "note"},
        {"message": {"text": text, "arguments": [text]}, "kind": "pass"},
        coded(snippet(3, text), uri=text, ruleIndex=1),
        coded(snippet(3, f"q\n{text}"), around, ruleIndex=2, level="note"),
    ]
    driver = {"name": text, "rules": rules}
    return log({"tool": {"driver": driver}, "results": results})


def placed():
    """A log with each URI, directly and through an artifact."""
    artifacts = [{"location": {"uri": uri}} for uri in URIS]
    places = [{"artifactLocation": {"index": number}} for number in range(len(URIS))]
    by_index = [{"locations": [{"physicalLocation": it}]} for it in places]
    return log(run("lint", *[named("m", uri) for uri in URIS], *by_index, artifacts=artifacts))


def linked():
    """A log with each address of a rule's help page."""
    rules = [{"id": f"R{number}", "helpUri": link} for number, link in enumerate(LINKS)]
    rules += [{"id": "", "helpUri": LINKS[0]}, {"id": "R", "name": "no page"}]
    rules += [{"id": "R", "helpUri": LINKS[0], "name": it} for it in NAMES]
    given = [{"shortDescription": it} for it in OTHERS] + [{"shortDescription": {"text": it}} for it in NAMES]
    rules += [{"id": "R", "helpUri": LINKS[1], "name": it, **more} for it in ("", 5, "R") for more in given]
    results = [named("m", ruleIndex=number) for number in range(len(rules))]
    return log({"tool": {"driver": {"name": "lint", "rules": rules}}, "results": results})


def with_code(turn):
    """A log with each code as a snippet, around one, and in both, and snippets of other types; as many of the last results
    as `turn` come first."""
    results = [coded(snippet(3, it)) for it in CODES]
    results += [coded(snippet(3, "q"), snippet(line, it)) for it in CODES for line in (1, 3, None)]
    results += [coded(snippet(None, it), snippet(2, it)) for it in CODES]
    results += [coded({"startLine": 9}, snippet(5, it)) for it in CODES]
    lines = [(3, 4), (3, 2), (9, 3), (10, 3), (7, 1), (1, 1), (2**32 - 1, 2**32 - 2), (2**32 - 2, 2**32 - 2)]
    lines += [(3, it) for it in NUMBERS] + [(it, 3) for it in NUMBERS]
    results += [coded(snippet(line, "q"), snippet(begin, "a\n\tb\n\t\tc\nd\ne\nf\ng")) for line, begin in lines]
    odd = [it for other in OTHERS for it in (other, {"startLine": 3, "snippet": other})]
    results += [coded(snippet(3, "q"), it) for it in odd] + [coded(it, snippet(3, "a\nb")) for it in odd]
    results += [coded(snippet(3, "a\n\tb"), uri=it) for it in ("", "\u200b", "a/../b")]
    return log(run("lint", *results[-turn:], *results[:-turn]) if turn else run("lint", *results))


def numbered():
    """A log with each line and column."""
    regions = [{"startLine": line, "startColumn": 5} for line in NUMBERS]
    regions += [{"startLine": 3, "startColumn": column} for column in NUMBERS]
    regions += [{"startColumn": 5}, {"startLine": 3}, {}, None, [], "3"]
    places = [{"artifactLocation": {"uri": "a.c"}, "region": it} for it in regions]
    places += [{"region": {"startLine": 3}}]
    places += [{"artifactLocation": {"uri": ""}, "region": {"startLine": 3}}]
    return log(run("lint", *[{"locations": [{"physicalLocation": it}]} for it in places]))


def spoken():
    """A log whose messages are looked up in each way, with members of other types before them."""
    strings = {"own": {"text": "own {0}"}, "both": {"text": "rule's"}, "": {"text": "empty"}}
    strings |= {"odd": 1, "deep": {"text": [1]}}
    shared = {"both": {"text": "component's"}, "global": {"text": "global {0} {{"}}
    shared |= {"odd": {"text": "odd"}, "deep": {}}
    other = {"global": {"text": "extension's"}, "far": {"text": "far"}}
    rules = [{"id": "R1", "messageStrings": strings}, {"id": "R2", "messageStrings": 1}]
    rules.append({"id": "R3"})
    driver = {"name": "lint", "rules": rules, "globalMessageStrings": shared}
    extensions = [
        {"name": "more", "rules": [{"id": "R1"}], "globalMessageStrings": other},
        {"name": "none", "globalMessageStrings": []},
    ]
    references = [{}, {"ruleIndex": 0}, {"ruleIndex": 1}, {"ruleId": "R3"}, {"ruleId": "R1/a"}]
    references += [{"rule": {"index": 0, "toolComponent": {"index": number}}} for number in (0, -1)]
    references += [{"rule": {"id": "R1", "toolComponent": {"index": number}}} for number in (0, 1)]
    messages = [{"id": it} for it in ("own", "both", "odd", "deep", "global", "far", "", "nowhere")]
    messages += [{"id": "own", "text": it} for it in ("", None, "both")] + [{}]
    messages += [{**it, "arguments": ["x"]} for it in messages]
    messages.append({"id": "own", "arguments": []})
    results = [{"message": it, **reference} for reference in references for it in messages]
    results += [{}, {"message": None}]
    return log({"tool": {"driver": driver, "extensions": extensions}, "results": results})


def bracketed():
    """A log whose messages have links, with different arguments."""
    arguments = [[], ["3"], ["3a"], [""], ["\u0663", "1"], ["0", "x", "[a](1)"]]
    messages = [{"text": text, "arguments": given} for text in BRACKETS for given in arguments]
    return log(run("lint", *[{"message": it} for it in messages]))


def alike():
    """A log with results that look the same in a report, some of them only there."""
    texts = ["a", "a", "a\n", "a ", "a", "b", "a" * 1_001, "a" * 1_002, "", "(no message)"]
    results = [named(text, uri) for text in texts for uri in ("a.c", "a.c", "%61.c", "", "a\nc")]
    messages = [{"text": text} for text in texts]
    results += [{"message": it, "ruleId": rule} for it in messages for rule in ("", "R", "R")]
    return log(run("lint", *results), run("lint", *results[:5]), run("flint", *results[:5]))


def called():
    """A log whose results have equal names, and names that look like numbered ones."""
    paths = ["a", "a", "a: b", "a: b (2)", "a (2)", "a (2)", "f(x)", "f(x) (1)", "", ""]
    rules = ["", "b", "b (2)", "R (2)", "R", "(1)", ")"]
    results = [named("m", path, ruleId=rule) for rule in rules for path in paths * 2]
    return log(run("lint", *results), run("flint", *results[:9]), run("lint)", *results[:9]))


def levelled():
    """A log with each level and kind, some suppressed."""
    results = []
    for level in ("error", "warning", "note", "none", None):
        for kind in ("fail", "pass", "open", "informational", "notApplicable", "review"):
            held = [{"kind": "inSource"}] if kind == "review" else []
            held += [{"kind": "external", "status": "rejected"}] if level == "note" else []
            given = {"level": level, "kind": kind, "suppressions": held}
            results.append(named(f"{level} {kind}", f"{kind}.c", **given))
    return log(run("lint", *results))


def many(count):
    """A log with this number of results in a few files."""
    levels = ("error", "warning", "note", "none")
    results = [named(f"m{it}", f"{it // 3}.c", level=levels[it % 4]) for it in range(count)]
    return log(run("lint", *results))


def scattered(count):
    """A log with this number of results whose files take turns; each fifth is an error, and some have no place."""
    levels = ("error", "note", "warning", "none", "note")
    files = ("b/c.c", "a.c", "b/a.c", "/", "a/b/../c.c", "<wbr>/c.c", "\u200b/c.c")
    results = [
        named(f"m{it}", files[it * it % 7], level=levels[it % 5], ruleId=f"R{it % 3}")
        for it in range(count)
    ]
    for it in results[7::11]:
        del it["locations"]
    return log(run("lint", *results[::2]), run("flint", *results[1::2]))


# ---- Random logs


class Drawn:
    """Makes random logs that a merge accepts, with the generator `rng`."""

    def __init__(self, rng):
        self.rng = rng

    def chance(self, part):
        return self.rng.random() < part

    def text(self):
        """One of the strings, or several in a row."""
        if self.chance(0.5):
            return self.rng.choice(TEXTS)
        return "".join(self.rng.choice(TEXTS)[:60] for _ in range(self.rng.randint(1, 5)))

    def members(self, *given):
        return {name: made() for name, part, made in given if self.chance(part)}

    def any(self, values):
        return lambda: self.rng.choice(values)

    def strings(self):
        if self.chance(0.1):
            return self.rng.choice(OTHERS)
        names = ("i", "j", "")
        odd = lambda: self.rng.choice(OTHERS)
        return {
            name: {"text": self.text()} if self.chance(0.8) else odd()
            for name in names
            if self.chance(0.6)
        }

    def rule(self):
        return {
            "id": self.rng.choice(["R1", "R2", "", self.text()]),
            **self.members(
                ("helpUri", 0.6, self.any([*LINKS, *LINKS[:2] * 10, "https://example.org/" + self.text()])),
                ("name", 0.3, self.word),
                ("shortDescription", 0.3, lambda: {"text": self.word()}),
                ("messageStrings", 0.6, self.strings),
                ("defaultConfiguration", 0.3, self.any([{"level": "error"}, {"level": "note"}])),
            ),
        }

    def word(self):
        return self.rng.choice(["R1", self.text(), self.text(), *self.rng.sample(NAMES, 2)])

    def snippet(self):
        """A snippet that is mostly of some lines, with or without an end."""
        if self.chance(0.1):
            return self.rng.choice(OTHERS)
        if self.chance(0.4):
            return {"text": self.rng.choice(CODES)}
        lines = [self.any(["", " ", "\t", "  "])() + self.text() for _ in range(self.rng.randint(1, 6))]
        return {"text": self.rng.choice(["\n", "\n", "\r\n"]).join([*lines, *[""] * self.chance(0.5)])}

    def around(self):
        numbers = self.any([*NUMBERS, *[1, 2, 3, 75, 76, 77, 78] * 5])
        region = self.members(("startLine", 0.8, numbers), ("snippet", 0.9, self.snippet))
        return self.rng.choice(OTHERS) if self.chance(0.1) else region

    def component(self):
        rules = [self.rule() for _ in range(self.rng.randint(0, 3))]
        shared = self.members(("globalMessageStrings", 0.5, self.strings))
        return {"name": self.rng.choice(["lint", self.text()]), "rules": rules, **shared}

    def message(self):
        return self.members(
            ("text", 0.6, self.text),
            ("id", 0.5, self.any(["i", "j", "", "k"])),
            ("arguments", 0.5, lambda: [self.text() for _ in range(self.rng.randint(0, 3))]),
        )

    def place(self, artifacts):
        uri = lambda: self.rng.choice([*URIS, self.text()])
        index = [("index", 0.4, lambda: self.rng.randrange(-1, artifacts))]
        artifact = self.members(("uri", 0.7, uri), ("uriBaseId", 0.1, lambda: "S"), *index)
        numbers = self.any([*NUMBERS, *[1, 2, 77] * 3])
        given = [("startLine", 0.9, numbers), ("startColumn", 0.8, numbers), ("snippet", 0.6, self.snippet)]
        region = self.members(*given)
        region = self.rng.choice(OTHERS) if self.chance(0.05) else region
        physical = {"artifactLocation": artifact, "region": region, **self.members(("contextRegion", 0.4, self.around))}
        return [{"physicalLocation": physical}] if self.chance(0.95) else []

    def reference(self, components):
        number = self.rng.randrange(len(components))
        rules = components[number]["rules"]
        index = lambda: self.rng.randrange(-1, len(rules))
        rule = self.members(("id", 0.4, self.any(["R1", "R2"])), ("index", 0.5, index))
        if number:
            rule["toolComponent"] = {"index": number - 1}
        else:
            rule |= self.members(("toolComponent", 0.1, lambda: {"index": -1}))
        return {"rule": rule, **self.members(("ruleId", 0.3, self.any(["R1", "", self.text()])))}

    def result(self, components, artifacts):
        held = [{"kind": "inSource", "status": self.rng.choice(["accepted", "rejected"])}]
        return {
            **self.members(
                ("message", 0.9, self.message),
                ("locations", 0.8, lambda: self.place(artifacts)),
                ("level", 0.5, self.any(["error", "warning", "note", "none"])),
                ("kind", 0.1, self.any(["pass", "fail"])),
                ("suppressions", 0.2, lambda: held),
            ),
            **self.reference(components),
        }

    def run(self):
        components = [self.component() for _ in range(self.rng.randint(1, 3))]
        artifacts = [{"location": {"uri": self.text()}} for _ in range(self.rng.randint(0, 3))]
        size = self.rng.choice([0, 1, 3, 8])
        results = [self.result(components, len(artifacts)) for _ in range(size)]
        tool = {"driver": components[0], "extensions": components[1:]}
        results = results * self.rng.choice([1, 1, 2])
        return {"tool": tool, "artifacts": artifacts, "results": results}

    def log(self):
        return log(*[self.run() for _ in range(self.rng.randint(1, 3))])
