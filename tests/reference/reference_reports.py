#!/usr/bin/env python3
"""The reports of a merged log, in plain Python, for tests/program/reports.

tests/reference/reference_reports.py text|github|markdown|gitlab|junit|azure [--fail-on L] [--max N] [--states LIST]
    [--root PREFIX].. [--show hits|all] [--link TEMPLATE] LOG

It follows the chapter on reports in docs/formats.md and crates/sarif_reports/README.md sentence by sentence. Its
only inputs are the finished merged log and the policy. It shares no code with the program, so that a mistake in either shows as a difference.
"""

import argparse
import hashlib
import json
import re
import sys
from dataclasses import dataclass, field, replace
from typing import Optional

from reference_json import compact
from reference_links import anchor, is_address, place_address
from reference_policy import OTHER, STOPS

LEVELS = ("none", "note", "warning", "error")
STATES = ("new", "unchanged", "updated", "absent")
MOST_CHARACTERS = 1_000
CUT = "\N{HORIZONTAL ELLIPSIS}"
MOST_MARKDOWN_ROWS = 200
MOST_MARKDOWN_BYTES = 60_000
MOST_CODED_ROWS = 20
MOST_NAME_CHARACTERS = 100
MOST_CODE_LINES = 5
MOST_CODE_CHARACTERS = 120
MOST_PAGE_ROWS = 10_000
LARGEST = 2**32 - 1


@dataclass
class Policy:
    """The policy of the gate, the prefixes to strip from paths (one, or several in a tuple), what reports show, and the
    template of links."""

    fail_on: str = "error"
    max: int = 0
    states: tuple = ("new", "updated")
    root: object = ""
    show: str = "all"
    link: Optional[str] = None

    def roots(self):
        return (self.root,) if isinstance(self.root, str) else tuple(self.root)


# ---- Members by type: a member of another type is treated as missing


def an_object(value):
    return value if isinstance(value, dict) else {}


def a_list(value):
    return value if isinstance(value, list) else []


def a_text(value):
    return value if isinstance(value, str) else None


def a_number(value, least, most):
    is_whole = isinstance(value, int) and not isinstance(value, bool)
    return value if is_whole and least <= value <= most else None


def at(value, *names):
    """The member at this path of names, or None."""
    for name in names:
        value = an_object(value).get(name)
    return value


def first(values):
    """The first value that is not None, or None."""
    return next((it for it in values if it is not None), None)


def element(values, index):
    return values[index] if index is not None and index < len(values) else None


# ---- Shown strings

HIDDEN = (
    (0x0000, 0x001F),
    (0x007F, 0x009F),
    (0x2028, 0x2029),
    (0x00AD, 0x00AD),
    (0x034F, 0x034F),
    (0x061C, 0x061C),
    (0x115F, 0x1160),
    (0x17B4, 0x17B5),
    (0x180B, 0x180F),
    (0x200B, 0x200F),
    (0x202A, 0x202E),
    (0x2060, 0x206F),
    (0x3164, 0x3164),
    (0xFE00, 0xFE0F),
    (0xFEFF, 0xFEFF),
    (0xFFA0, 0xFFA0),
    (0xFFF9, 0xFFFB),
    (0xFFFE, 0xFFFF),
    (0x1D173, 0x1D17A),
    (0xE0000, 0xE0FFF),
)


def is_hidden(character):
    return any(least <= ord(character) <= most for least, most in HIDDEN)


def cut(text, most):
    return text if len(text) <= most else text[:most] + CUT


def shown(text, most=MOST_CHARACTERS):
    """A string of the log as reports show it: no commands, no invisible characters, limited length."""
    seen = "".join(" " if is_hidden(it) else it for it in text)
    while "##" in seen:
        seen = seen.replace("##", "# #")
    return cut(seen, most)


def as_path(uri):
    """A URI as a path. Its escapes become bytes if all are valid and the result is UTF-8."""
    pieces = uri.split("%")
    if not all(re.match("[0-9A-Fa-f]{2}", piece) for piece in pieces[1:]):
        return uri
    found = pieces[0].encode()
    for piece in pieces[1:]:
        found += bytes([int(piece[:2], 16)]) + piece[2:].encode()
    try:
        return found.decode()
    except UnicodeDecodeError:
        return uri


def without_root(path, roots):
    """The path without the first root that it begins with, and without the `./` that it begins with then."""
    root = next((it for it in roots if it and path.startswith(it)), "")
    path = path[len(root) :]
    while path.startswith("./"):
        path = path[2:].lstrip("/")
    return path


# ---- A result of the merged log

PAIR = re.compile(r"\\([\[\]\\])")
TEXT = r"(?:\\[\[\]\\]|\\(?![\[\]\\])|[^\[\]\\])*"
LINK = re.compile(rf"\[({TEXT})\]\((?:([0-9]+)|\{{(0|[1-9][0-9]*)\}})\)")
DIGITS = re.compile("[0-9]+")


def unlinked(text, words):
    """The string with its links to places of the log read as their texts, from left to right."""
    found, at_ = [], 0
    while at_ < len(text):
        pair, link = PAIR.match(text, at_), LINK.match(text, at_)
        if pair:
            found.append(pair.group())
            at_ = pair.end()
        elif link and is_target(link, words):
            found.append(PAIR.sub(r"\1", link.group(1)))
            at_ = link.end()
        else:
            found.append(text[at_])
            at_ += 1
    return "".join(found)


def is_target(link, words):
    """Whether a link has a number, or a placeholder of an argument that is a number."""
    if link.group(2) is not None:
        return True
    number = int(link.group(3))
    word = words[number] if number < len(words) else None
    return isinstance(word, str) and bool(DIGITS.fullmatch(word))


MARK = re.compile(r"\{\{|\}\}|\{(0|[1-9][0-9]*)\}")


def filled(text, words):
    """The string with its placeholders filled in from left to right."""

    def one(found):
        if found.group() in ("{{", "}}"):
            return found.group()[0]
        number = int(found.group(1))
        return words[number] if number < len(words) else found.group()

    return MARK.sub(one, text) if words else text


class Found:
    """A result in its written run."""

    def __init__(self, run, result):
        self.run, self.result = run, result
        driver = an_object(at(run, "tool", "driver"))
        extensions = a_list(at(run, "tool", "extensions"))
        self.tool = a_text(driver.get("name")) or ""
        self.level, self.state = result["level"], result["baselineState"]
        self.own = first([a_text(result.get("ruleId")), a_text(at(result, "rule", "id"))])
        number = a_number(at(result, "rule", "toolComponent", "index"), 0, LARGEST)
        self.component = driver if number is None else an_object(element(extensions, number))
        self.descriptor = self.described()
        self.component = driver if self.descriptor is None else self.component

    def described(self):
        """The result's descriptor, or None."""
        rules = a_list(self.component.get("rules"))
        named = (at(self.result, "rule", "index"), self.result.get("ruleIndex"))
        index = first(a_number(it, 0, LARGEST) for it in named)
        if index is not None:
            return element(rules, index)
        return next((it for it in rules if self.own is not None and it.get("id") == self.own), None)

    def rule(self):
        return first([self.own, a_text(at(self.descriptor, "id")), ""])

    def is_active(self):
        held = a_list(self.result.get("suppressions"))
        stops = [it for it in held if at(it, "status") in ("rejected", "underReview")]
        return not held or bool(stops)

    def message(self):
        message = an_object(self.result.get("message"))
        identity = a_text(message.get("id"))
        texts = [message.get("text")]
        if identity is not None:
            texts.append(at(self.descriptor, "messageStrings", identity, "text"))
            texts.append(at(self.component, "globalMessageStrings", identity, "text"))
        found = first([a_text(it) for it in texts] + [""])
        words = a_list(message.get("arguments"))
        return filled(unlinked(found, words), words)

    def physical(self):
        return at(element(a_list(self.result.get("locations")), 0), "physicalLocation")

    def uri(self):
        """The URI of the place: the result's own, or the one of the artifact that it names."""
        own = a_text(at(self.physical(), "artifactLocation", "uri"))
        index = a_number(at(self.physical(), "artifactLocation", "index"), 0, LARGEST)
        artifact = element(a_list(self.run.get("artifacts")), index)
        return own if own is not None else a_text(at(artifact, "location", "uri"))

    def number(self, name):
        return a_number(at(self.physical(), "region", name), 1, LARGEST)

    def name(self):
        """The name of the rule, if it has one besides its id."""
        described = at(self.descriptor, "name"), at(self.descriptor, "shortDescription", "text")
        texts = [a_text(it) for it in described]
        return first(it for it in texts if it and it != self.rule())

    def snippet(self, region):
        """The lines of a snippet of the place. A carriage return at the end of the text ends no line."""
        text = a_text(at(self.physical(), region, "snippet", "text")) or ""
        *ended, last = text.split("\n")
        return [it.removesuffix("\r") for it in ended] + [last] * bool(last)

    def code(self, line):
        """Some lines of the code, the index of the hit line among them or None, and the number of the first or None."""
        own, around = self.snippet("region"), self.snippet("contextRegion")
        begin = a_number(at(self.physical(), "contextRegion", "startLine"), 1, LARGEST)
        hit = None if begin is None or line is None else line - begin
        if hit is not None and 0 <= hit < len(around):
            lines, number = around, begin
        elif own:
            lines, hit, number = own, None if line is None else 0, line
        else:
            lines, hit, number = around, None, begin
        start = max(0, (hit or 0) - 2)
        lines = [code_line(it) for it in lines[start : start + MOST_CODE_LINES]]
        return lines, None if hit is None else hit - start, None if number is None else number + start


# ---- Reported results


@dataclass
class Reported:
    """What reports show for a result. The path, the line and the column may be None."""

    tool: str
    rule: str
    level: str
    state: str
    message: str
    path: Optional[str]
    line: Optional[int]
    column: Optional[int]
    is_hit: bool
    stops: bool
    link: Optional[str]
    name: Optional[str] = None
    address: Optional[str] = None
    code: Optional[str] = None
    code_rows: tuple = ()

    def place(self):
        if self.path is None:
            return "-"
        guard = "./" if self.path.lstrip(" ").startswith(":") else ""
        numbers = [f":{it}" for it in (self.line, self.column) if it is not None]
        return guard + self.path + "".join(numbers)


def reported(found, policy):
    uri = found.uri()
    path = None if uri is None else shown(without_root(as_path(uri), policy.roots())) or None
    line = None if path is None else found.number("startLine")
    is_exact = path is not None and path == without_root(as_path(uri), policy.roots())
    name, code = found.name(), found.code(line)
    return Reported(
        tool=shown(found.tool),
        rule=shown(found.rule()),
        level=found.level,
        state=found.state,
        message=shown(found.message()) or "(no message)",
        path=path,
        line=line,
        column=None if line is None else found.number("startColumn"),
        is_hit=LEVELS.index(found.level) >= LEVELS.index(policy.fail_on),
        stops=False,
        link=link_of(found),
        name=None if name is None else shown(name, MOST_NAME_CHARACTERS),
        address=place_address(policy.link, path, line) if policy.link and is_exact else None,
        code=one_line(*code),
        code_rows=code_rows(*code),
    )


def code_line(line):
    """A line of code with its characters as they are shown."""
    return "".join("    " if it == "\t" else " " if is_hidden(it) else it for it in line)


def indent_of(written):
    """How many spaces each of these lines begins with."""
    return min(len(it) - len(it.lstrip(" ")) for it in written)


def code_rows(lines, hit, number):
    """The rows of some code, each with whether it is the hit line's: with numbers only if there are several."""
    written = [index for index, it in enumerate(lines) if it.strip(" ")]
    if not written:
        return ()
    indent, start = indent_of([lines[it] for it in written]), written[0]
    lines = [cut(it[indent:], MOST_CODE_CHARACTERS) if it.strip(" ") else "" for it in lines[start : written[-1] + 1]]
    if len(lines) == 1 or number is None:
        return tuple((it, False) for it in lines)
    width = len(str(number + start + len(lines) - 1))
    rows = []
    for index, it in enumerate(lines, start):
        mark = ">" if index == hit else " "
        rows.append((f"{mark} {number + index:>{width}} |{' ' * bool(it)}{it}", index == hit))
    return tuple(rows)


def one_line(lines, hit, _number):
    """The hit line of some code unless it is blank, otherwise the first that isn't, as long as it is shown; None if there
    is none."""
    written = [it for it in lines if it.strip(" ")]
    if not written:
        return None
    indent = indent_of(written)
    line = first([it for it in [lines[hit] if hit is not None else ""] if it.strip(" ")] + written)
    return cut(line[indent:], MOST_CODE_CHARACTERS).lstrip(" ")


def link_of(found):
    """The help page of the rule, if there is a rule and its page has an address."""
    uri = a_text(at(found.descriptor, "helpUri")) or ""
    return uri if is_address(uri) and found.rule() else None


@dataclass
class Reports:
    """The reports of a merged log under a policy. With a change, only what is inside of it is reported. With a policy file,
    `standings` has for each result of the log what it does to the gate: it stops it, is a hit, or is another that is
    reported; or None, if it isn't reported."""

    log: dict
    policy: Policy
    change: object = None
    standings: Optional[list] = None
    found: list = field(init=False)
    results: list = field(init=False)
    unshown: int = field(init=False)

    def __post_init__(self):
        self.found = [
            Found(run, result) for run in self.log["runs"] for result in run.get("results", [])
        ]
        every = self.by_options() if self.standings is None else self.by_standings()
        self.results = [it for it in every if it.is_hit or self.policy.show == "all"]
        self.unshown = len(every) - len(self.results)

    def by_options(self):
        """The reported results. If the gate fails, each hit stops the change."""
        every = [
            reported(it, self.policy)
            for it in self.found
            if it.is_active() and it.state in self.policy.states and self.is_inside(it)
        ]
        fails = sum(it.is_hit for it in every) > self.policy.max
        return [replace(it, stops=it.is_hit and fails) for it in every]

    def by_standings(self):
        """The reported results of a policy file."""
        pairs = [(reported(it, self.policy), standing) for it, standing in zip(self.found, self.standings, strict=True) if standing]
        return [replace(it, is_hit=standing != OTHER, stops=standing == STOPS) for it, standing in pairs]

    def is_inside(self, found):
        return self.change is None or self.change.is_inside(found.run, found.result, found.state)

    def hits(self):
        return sum(it.is_hit for it in self.results)

    def verdict(self):
        return "fail" if any(it.stops for it in self.results) else "pass"

    def conditions(self):
        """The conditions of the gate object; None without a policy file."""
        return at(self.log, "properties", "gate", "conditions")

    def counts(self):
        """For each state the numbers of active errors, warnings, notes and others, and of suppressed results."""
        counted = {state: [0] * 5 for state in STATES}
        for it in self.found:
            column = 3 - LEVELS.index(it.level) if it.is_active() else 4
            counted[it.state][column] += 1
        return counted

    def listed(self):
        """The shown results in the order of reports: first what stops the change, then the other hits, and of each the
        worst level first."""
        return sorted(self.results, key=lambda it: (not it.stops, not it.is_hit, -LEVELS.index(it.level)))

    def text(self):
        return "".join(text_line(it) for it in self.listed()).encode()

    def github(self):
        return "".join(github_line(it) for it in self.listed()).encode()

    def markdown(self):
        lines = [f"## {self.gate()}", ""]
        lines += ["| | error | warning | note | none | suppressed |", "|---|--:|--:|--:|--:|--:|"]
        lines += [markdown_row(state, *numbers) for state, numbers in self.counts().items()]
        lines += [""] * bool(self.notes()) + self.notes()
        if self.conditions():
            lines += ["", markdown_row(*OF_CONDITIONS), "|---|---|--:|--:|--:|", *self.condition_rows()]
        rows = self.markdown_rows()
        if rows:
            lines += ["", markdown_row("hit", "level", *SHOWN, "state"), "|---" * 7 + "|", *rows]
        lines += [it for end in self.ends() for it in ("", end)]
        return "".join(f"{line}\n" for line in lines).encode()

    def gate(self):
        """The verdict, the hits and the maximum or the number of failed conditions, in one line."""
        conditions, last = self.conditions(), f"{self.policy.max} allowed"
        if conditions:
            failed = sum(it["verdict"] == "fail" for it in conditions)
            last = f"{failed} of {counted(len(conditions), 'condition')} failed"
        return f"Gate: {self.verdict()}, {counted(self.hits(), 'hit')}, {last}"

    def condition_rows(self):
        """A row for each condition; none without a policy file."""
        return [markdown_row(coded(name), *cells) for name, *cells in self.condition_cells()]

    def condition_cells(self):
        """The texts of the row of each condition."""
        names = ("name", "verdict", "hits", "limit", "outside")
        return [[str(it.get(name, "")) for name in names] for it in self.conditions() or []]

    def notes(self):
        """Sentences on what wasn't checked."""
        gate = at(self.log, "properties", "gate")
        without, unused = at(gate, "runsWithoutResults"), at(gate, "unusedSuppressions")
        runs = "runs without results: nothing is known of what they looked for."
        if without == 1:
            runs = "run without results: nothing is known of what it looked for."
        entries = "suppression entries match nothing."
        if unused == 1:
            entries = "suppression entry matches nothing."
        outside = at(gate, "diff", "outside") or 0
        others = "results outside the change would be hits."
        if outside == 1:
            others = "result outside the change would be a hit."
        filters, unchecked = at(gate, "unusedFilters") or 0, at(gate, "unchecked") or 0
        of_filters = "filters of the policy match nothing."
        if filters == 1:
            of_filters = "filter of the policy matches nothing."
        said = (without, runs), (unused, entries), (filters, of_filters), (outside, others)
        found = [f"{number} {sentence}" for number, sentence in said if number]
        return found + [f"No condition checks {counted(unchecked, 'active result')}."] * (unchecked > 0)

    def ends(self):
        """The sentences after the table: on results without a row, on those that aren't shown, and on accepting hits."""
        others = self.listed()[len(self.markdown_rows()) :]
        said = (others, more_line), (self.unshown, unshown_line), (self.hits(), accept_line)
        return [line(it) for it, line in said if it]

    def markdown_rows(self):
        """The rows of the first listed results, as many as fit."""
        rows, left = [], MOST_CODED_ROWS
        room = MOST_MARKDOWN_BYTES - sum(len(it.encode()) + 1 for it in self.condition_rows())
        for it in self.listed()[:MOST_MARKDOWN_ROWS]:
            place = anchor(it.address, None, coded(it.place()))
            rule = anchor(it.link, None if it.name is None else marked(it.name), coded(it.rule))
            left -= it.is_hit
            line = f"<br>{coded(it.code)}" if it.is_hit and left >= 0 and it.code else ""
            texts = place, rule, coded(it.message) + line, coded(it.tool)
            row = markdown_row("yes" if it.is_hit else "", it.level, *texts, it.state)
            room -= len(row.encode()) + 1
            if room < 0:
                break
            rows.append(row)
        return rows

    def gitlab(self):
        before, found = {}, []
        for it in self.results:
            four = (it.tool, it.rule, it.path, it.message)
            found.append(quality(it, [*four, before.get(four, 0)]))
            before[four] = before.get(four, 0) + 1
        return compact(found).encode()

    def junit(self):
        return junit_text(self.suites()).encode()

    def suites(self):
        """The suites of the JUnit report, each with its test cases."""
        tools, found = {}, []
        for it in self.listed():
            tools.setdefault(it.tool, []).append(it)
        for tool, results in tools.items():
            names = unique_names([f"{it.place()}{': ' * bool(it.rule)}{it.rule}" for it in results])
            cases = [self.case(name, it) for name, it in zip(names, results)]
            found.append(Suite(tool, cases))
        return found or [Suite("sarif_gate", [TestCase("gate", "sarif_gate")])]

    def case(self, name, it):
        """A result as a test case: a hit that stops the change fails, and another hit is skipped."""
        case = TestCase(name, it.tool if it.path is None else it.path, it.path, it.line)
        if it.stops:
            case.failure = (it.level, it.message, text_line(it).removesuffix("\n"))
        elif it.is_hit:
            case.skipped = it.message
        return case

    def azure(self):
        return "".join(azure_line(it) for it in self.listed()).encode()

    def rows(self):
        """The rows of the page, each with the text of its cells and its link or None."""
        return [
            (
                ["yes" if it.is_hit else "no", it.level, it.place()]
                + [it.rule, it.message, it.tool, it.state],
                it.link,
            )
            for it in self.results[:MOST_PAGE_ROWS]
        ]

    def others(self):
        """The number of shown results that the page leaves out."""
        return max(0, len(self.results) - MOST_PAGE_ROWS)


SHOWN = ("place", "rule", "message", "tool")
OF_CONDITIONS = ("condition", "verdict", "hits", "limit", "outside")
COMMANDS = {"error": "error", "warning": "warning", "note": "notice", "none": "notice"}
SEVERITIES = {"error": "critical", "warning": "major", "note": "minor", "none": "info"}


def counted(number, noun):
    return f"{number} {noun}" + "s" * (number != 1)


def more_line(others):
    """The line on results that have no row."""
    number, hits = len(others), sum(it.is_hit for it in others)
    if hits in (0, number):
        noun = counted(number, "more hit" if hits else "more result")
        return f"{noun} {'is' if number == 1 else 'are'} in the merged log."
    them = "1 of them a hit." if hits == 1 else f"{hits} of them hits."
    return f"{number} more results are in the merged log, {them}"


def unshown_line(number):
    """The line on reported results that are not shown."""
    return "1 other result isn't shown." if number == 1 else f"{number} other results aren't shown."


def accept_line(hits, command="`{}`"):
    """How to accept the hits, with each part of a command in a pattern."""
    make, use = command.format("--accept --reason TEXT --suppress-out FILE"), command.format("--suppress FILE")
    one = command.format("--at PLACE")
    them = "this hit" if hits == 1 else "these hits"
    use = f"{use} from then on; {one} accepts one alone."
    return f"To accept {them}, run the same merge with {make}, review FILE, and pass {use}"


def text_line(it):
    rule = f" [{it.rule}]" if it.rule else ""
    return f"{it.place()}: {it.level}: {it.message}{rule} ({it.tool}, {it.state})\n"


def github_line(it):
    title = f"{it.rule} ({it.tool})" if it.rule else it.tool
    given = {"file": it.path, "line": it.line, "col": it.column, "title": title}
    pairs = [f"{name}={escaped(value)}" for name, value in given.items() if value is not None]
    message = it.message.replace("%", "%25")
    return f"::{COMMANDS[it.level]} {','.join(pairs)}::{message}\n"


def escaped(value):
    """A value as a property of a workflow command."""
    return str(value).replace("%", "%25").replace(":", "%3A").replace(",", "%2C")


MARKS = set("!\"#$%&'()*+.:;<=>?@[\\]^_`{|}~")


def marked(text):
    return "".join(f"&#{ord(it)};" if it in MARKS else it for it in text)


def coded(text):
    return f"<code>{marked(text)}</code>" if text else ""


def markdown_row(*cells):
    return "| " + " | ".join(map(str, cells)) + " |"


def quality(it, identity):
    """An entry of the code quality report."""
    return {
        "check_name": it.rule or "unknown",
        "description": it.message,
        "fingerprint": hashlib.sha256(compact(identity).encode()).hexdigest(),
        "location": {
            "lines": {"begin": 1 if it.line is None else it.line},
            "path": "unknown" if it.path is None else it.path,
        },
        "severity": SEVERITIES[it.level],
    }


# ---- JUnit XML


@dataclass
class TestCase:
    """A test case. A failure has the level, the message and the text."""

    name: str
    of_class: str
    file: Optional[str] = None
    line: Optional[int] = None
    failure: Optional[tuple] = None
    skipped: Optional[str] = None


@dataclass
class Suite:
    """The test cases of a tool."""

    name: str
    cases: list

    def failures(self):
        return sum(it.failure is not None for it in self.cases)

    def skipped(self):
        return sum(it.skipped is not None for it in self.cases)


def unique_names(names):
    """The names with numbers, so that no two are equal."""
    counted, found = {}, []
    for name in names:
        counted[name] = counted.get(name, 0) + 1
        is_numbered = counted[name] > 1 or name.endswith(")")
        found.append(f"{name} ({counted[name]})" if is_numbered else name)
    return found


ENTITIES = {"&": "&amp;", "<": "&lt;", ">": "&gt;", '"': "&quot;", "'": "&#39;"}


def in_xml(text):
    return "".join(ENTITIES.get(it, it) for it in str(text))


def tag(element, **attributes):
    """The beginning of an element. Attributes that are None are left out."""
    given = {"classname" if key == "of_class" else key: it for key, it in attributes.items()}
    return f"<{element}" + "".join(
        f' {key}="{in_xml(it)}"' for key, it in given.items() if it is not None
    )


def junit_text(suites):
    tests = sum(len(suite.cases) for suite in suites)
    failures = sum(suite.failures() for suite in suites)
    lines = ['<?xml version="1.0" encoding="UTF-8"?>']
    lines.append(tag("testsuites", name="sarif_gate", tests=tests, failures=failures) + ">")
    for suite in suites:
        counts = {"tests": len(suite.cases), "failures": suite.failures()}
        lines.append(tag("testsuite", name=suite.name, **counts, skipped=suite.skipped()) + ">")
        lines += [case_line(case) for case in suite.cases]
        lines.append("</testsuite>")
    return "".join(f"{line}\n" for line in [*lines, "</testsuites>"])


def case_line(case):
    begin = tag("testcase", name=case.name, of_class=case.of_class, file=case.file, line=case.line)
    if case.failure is not None:
        level, message, text = case.failure
        inner = tag("failure", type=level, message=message) + f">{in_xml(text)}</failure>"
    elif case.skipped is not None:
        inner = tag("skipped", message=case.skipped) + "/>"
    else:
        return f"{begin}/>"
    return f"{begin}>{inner}</testcase>"


# ---- Azure Pipelines


def azure_line(it):
    kind = "error" if it.level == "error" else "warning"
    given = {"type": kind, "sourcepath": it.path, "linenumber": it.line}
    given |= {"columnnumber": it.column, "code": it.rule or None}
    pairs = [f"{name}={of_azure(value)};" for name, value in given.items() if value is not None]
    message = f"{it.message} ({it.tool}, {it.level}, {it.state})".replace("%", "%AZP25")
    return f"##vso[task.logissue {''.join(pairs)}]{message}\n"


def of_azure(value):
    """A value as a property of a logging command."""
    return str(value).replace("%", "%AZP25").replace(";", "%3B").replace("]", "%5D")


CHOICES = ("text", "github", "markdown", "gitlab", "junit", "azure")


def main(words):
    about = argparse.ArgumentParser(
        description=__doc__, formatter_class=argparse.RawTextHelpFormatter
    )
    about.add_argument("report", choices=CHOICES)
    about.add_argument("log")
    about.add_argument("--fail-on", choices=LEVELS, default="error")
    about.add_argument("--max", type=int, default=0)
    about.add_argument("--states", default="new,updated")
    about.add_argument("--root", action="append", default=[])
    about.add_argument("--show", choices=("hits", "all"), default="all")
    about.add_argument("--link")
    given = about.parse_args(words)
    states = tuple(given.states.split(","))
    policy = Policy(given.fail_on, given.max, states, tuple(given.root), given.show, given.link)
    with open(given.log, "rb") as source:
        reports = Reports(json.load(source), policy)
    sys.stdout.buffer.write(getattr(reports, given.report)())
    return 0


if __name__ == "__main__":
    sys.exit(main(sys.argv[1:]))
