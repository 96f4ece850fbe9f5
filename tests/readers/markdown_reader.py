"""Reads a report in Markdown with GitHub's own parser, and compares the elements of its HTML.

cmark-gfm must make just the elements that the reference has, with the same strings: the verdict, the counts, the
sentences, and a table whose rows are in order. It is called with tables alone, and with all of its extensions, as
GitHub does. These make a link of an address of electronic mail in any text, even one whose `@` is written `&#64;`: such
links are read as their texts. cmark-gfm is Debian's program of this name.
"""

import json
import re
import subprocess
from functools import cache
from html.parser import HTMLParser

from cases import example
from debian import had
from reference_change import Change
from reference_reports import Policy, Reports

SECONDS = 300
TABLES = ("-e", "table")
MORE = ("autolink", "footnotes", "strikethrough", "tagfilter", "tasklist")
ALL = (*TABLES, *(word for it in MORE for word in ("-e", it)))
COUNTED = ("", "error", "warning", "note", "none", "suppressed")
COLUMNS = ("hit", "level", "place", "rule", "message", "tool", "state")
VOID = {"br", "hr", "img", "input", "wbr"}
MAIL = re.compile('<a href="(?:mailto|xmpp):[^"<>]*">([^<>]*)</a>')
# Between the parts of these there are only the ends of lines.
OUTER = {"", "table", "thead", "tbody", "tr"}


def markdown_faults(document, reports):
    """What is wrong with a report, a bytes object, beside the reference."""
    if not has_parser():
        return []
    wanted, faults = elements_of(reports), []
    for name, extensions in (("tables", TABLES), ("all extensions", ALL)):
        found = read_by_cmark(document, extensions)
        faults += [] if found == wanted else [f"cmark-gfm with {name}: {first_difference(wanted, found)}"]
    return faults


def faults_beside_log(folder, words):
    """What is wrong with the report `markdown` of a folder beside the merged log `o` of a call with these arguments."""
    log = json.loads((folder / "o").read_bytes())
    gate = log["properties"]["gate"]
    given = lambda name, default: [it for last, it in zip(words, words[1:]) if last == name] or default
    roots, show, link = given("--root", []), given("--show", ["all"]), given("--link", [None])
    policy = Policy(gate["failOn"], gate["max"], tuple(gate["states"]), tuple(roots), *show, *link)
    change = Change((folder / "d").read_bytes(), gate["diff"]["scope"], roots) if "diff" in gate else None
    return markdown_faults((folder / "markdown").read_bytes(), Reports(log, policy, change))


@cache
def has_parser():
    """Whether there is a cmark-gfm. If there is none, this is said once."""
    if had("cmark-gfm") is None:
        print("skipped, there is no cmark-gfm: the parser of Markdown")
        return False
    return True


def first_difference(wanted, found):
    if isinstance(found, str):
        return found
    for number, (one, other) in enumerate(zip(wanted, found)):
        if one == other:
            continue
        if one[:2] == other[:2] and one[0] in OUTER:
            return f"{one[0]} {number}: {first_difference(one[2], other[2])}"
        return f"part {number}: wanted {one!r:.400}, found {other!r:.400}"
    return f"wanted {len(wanted)} parts, found {len(found)}: {[*wanted, *found][len(wanted):][-1:]!r:.300}"


# ---- What the reference has: an element is its name, its attributes and its parts; a part is a string or an element


def elements_of(reports):
    """The elements of a report."""
    counts = [[state, *map(str, numbers)] for state, numbers in reports.counts().items()]
    numbers = table(COUNTED, [[[it] if it else [] for it in row] for row in counts], {"align": "right"})
    found = [element("h2", reports.gate()), numbers]
    if reports.notes():
        found.append(element("p", "\n".join(reports.notes())))
    if reports.results:
        shown = reports.listed()[: len(reports.markdown_rows())]
        coded = {id(it) for it in [it for it in shown if it.is_hit][:20]}
        found.append(table(COLUMNS, [cells(it, id(it) in coded) for it in shown]))
    return found + [sentence(it) for it in reports.ends()]


def element(name, *parts, **attributes):
    return name, attributes, list(parts)


def sentence(text):
    """A paragraph, whose parts between backquotes are code."""
    return element("p", *(element("code", it) if number % 2 else it for number, it in enumerate(text.split("`"))))


def table(columns, rows, later=None):
    """A table whose cells have no attributes, or those of `later` from the second column on."""
    of = lambda name, texts: [(name, dict(number and later or {}), it) for number, it in enumerate(texts)]
    heads = element("tr", *of("th", [[it] if it else [] for it in columns]))
    body = [element("tr", *of("td", row)) for row in rows]
    return element("table", element("thead", heads), element("tbody", *body))


def cells(it, has_code):
    """The cells of a row, each with its parts."""
    place = linked(it.address, None, coded(it.place()))
    rule = linked(it.link, it.name, coded(it.rule))
    code = [element("br"), *coded(it.code)] if has_code and it.code else []
    return [["yes"] if it.is_hit else [], [it.level], place, rule, coded(it.message) + code, coded(it.tool), [it.state]]


def coded(text):
    return [element("code", text)] if text else []


def linked(address, title, parts):
    if address is None:
        return parts
    return [element("a", *parts, href=address, **({} if title is None else {"title": title}))]


# ---- cmark-gfm


def read_by_cmark(document, extensions):
    """The elements as cmark-gfm makes them, or what is wrong with them as a string."""
    command = ["cmark-gfm", *extensions, "--unsafe"]
    ran = subprocess.run(command, input=document, capture_output=True, timeout=SECONDS)
    if ran.returncode:
        return f"status {ran.returncode}: {ran.stderr.decode(errors='replace'):.300}"
    html = ran.stdout.decode()
    reader = Reader()
    reader.feed(MAIL.sub(r"\1", html) if extensions == ALL else html)
    reader.close()
    wrong = reader.wrong + [f"<{it[0]}> isn't ended" for it in reader.open[1:]]
    return "; ".join(wrong[:3]) or reader.open[0][2]


class Reader(HTMLParser):
    """The elements of a document. Parts of text that follow each other are one."""

    def __init__(self):
        super().__init__(convert_charrefs=True)
        self.wrong, self.open = [], [element("")]

    def handle_starttag(self, name, attributes):
        made = element(name, **dict(attributes))
        self.wrong += [f"<{name}> has an attribute twice"] * (len(made[1]) != len(attributes))
        self.open[-1][2].append(made)
        if name not in VOID:
            self.open.append(made)

    def handle_startendtag(self, name, attributes):
        self.handle_starttag(name, attributes)
        if name not in VOID:
            self.open.pop()

    def handle_endtag(self, name):
        if self.open[-1][0] == name:
            self.open.pop()
        else:
            self.wrong.append(f"</{name}> stands where <{self.open[-1][0]}> is open")

    def handle_data(self, text):
        parts = self.open[-1][2]
        if self.open[-1][0] in OUTER and not text.strip("\n"):
            return
        if parts and isinstance(parts[-1], str):
            text = parts.pop() + text
        parts.append(text)

    def handle_comment(self, text):
        self.wrong.append(f"the comment {text[:60]!r}")

    def handle_decl(self, text):
        self.wrong.append(f"the declaration {text[:60]!r}")

    unknown_decl = handle_pi = handle_decl


# ---- Damaged reports

EXAMPLE = "bandit-django-forms"
# What is changed in the report of the example, each once.
DAMAGES = (
    ("text becomes markup", "Potential XSS", "Potential *XSS*"),
    ("text becomes an address", "Potential XSS", "https://example.org"),
    ("text becomes an image", "Potential XSS", "<img src=x>"),
    ("text is struck out", "Potential XSS", "Potential ~~XSS~~"),
    ("text ends its element", "Potential XSS", "Potential</code> XSS<code>"),
    ("a character is another", "&#46;", "&#44;"),
    ("a cell is divided", "mark&#95;safe&#40;", "mark | safe&#40;"),
    ("a name is another", "django&#95;mark&#95;safe", "django&#95;safe"),
    ("an address is another", "https://bandit", "http://bandit"),
    ("a link is lost", re.compile('<a href="[^"]*" title="[^"]*">(.*?)</a>'), r"\1"),
    ("a line of code is lost", re.compile("<br><code>[^<]*</code>"), ""),
    ("a row is lost", re.compile("^[|] yes .*\n", re.M), ""),
    ("two rows change places", re.compile("^([|] yes .*\n)([|] yes .*\n)", re.M), r"\2\1"),
    ("a row follows the table", re.compile("^([|] yes .*\n)\n", re.M), r"\n\1\n"),
    ("a row begins with a space too much", re.compile("^[|] yes", re.M), "||  yes"),
    ("a count is another", "| new | 0 |", "| new | 1 |"),
    ("a heading is added", "\nTo accept", "\n# To accept"),
    ("a sentence is lost", re.compile("^To accept.*\n", re.M), ""),
)


def checks():
    """For each damaged report its name and what is wrong if the damage isn't seen, or None if there is no parser."""
    log = json.loads(example(f"expected/{EXAMPLE}.merged.sarif"))
    reports, report = Reports(log, Policy("warning")), example(f"reports/{EXAMPLE}.md")
    yield "Markdown as it is kept", markdown_faults(report, reports) if has_parser() else None
    for name, old, new in DAMAGES:
        pattern = re.compile(re.escape(old)) if isinstance(old, str) else old
        damaged = pattern.sub(new, report.decode(), count=1).encode()
        is_seen = damaged != report and bool(markdown_faults(damaged, reports))
        yield f"Markdown in which {name}", ["nothing is found"] * (not is_seen) if has_parser() else None
