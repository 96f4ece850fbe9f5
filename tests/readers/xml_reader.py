"""Reads a report in JUnit XML with two parsers, expat and libxml2, and compares the fields.

Each parser must find the suites and the test cases that the reference has, with the same strings. libxml2 also
checks the schema of tests/readers/junit.xsd. It is used through Debian's program xmllint.
"""

import subprocess
import xml.parsers.expat
from functools import cache
from pathlib import Path

from debian import had

SCHEMA = Path(__file__).resolve().parent / "junit.xsd"
SECONDS = 300


def xml_faults(document, reports):
    """What is wrong with a report, a bytes object, beside the reference."""
    suites = reports.suites()
    wanted = elements_of(suites)
    found = read_by_expat(document)
    faults = [] if found == wanted else [f"expat: {first_difference(wanted, found)}"]
    return faults + (faults_of_xmllint(document, wanted) if has_xmllint() else [])


@cache
def has_xmllint():
    """Whether there is an xmllint. If there is none, this is said once."""
    if had("xmllint", "libxml2-utils") is None:
        print("skipped, there is no xmllint: the schema and the second parser of JUnit XML")
        return False
    return True


def elements_of(suites):
    """The elements of a report in the order of their starts, each with its attributes and its text."""
    tests = sum(len(suite.cases) for suite in suites)
    failures = sum(suite.failures() for suite in suites)
    counts = {"tests": str(tests), "failures": str(failures)}
    found = [("testsuites", {"name": "sarif_gate", **counts}, "")]
    for suite in suites:
        numbers = {"tests": len(suite.cases), "failures": suite.failures()}
        numbers = {name: str(it) for name, it in {**numbers, "skipped": suite.skipped()}.items()}
        found.append(("testsuite", {"name": suite.name, **numbers}, ""))
        for case in suite.cases:
            found += elements_of_case(case)
    return found


def elements_of_case(case):
    given = {"name": case.name, "classname": case.of_class, "file": case.file, "line": case.line}
    given = {name: str(it) for name, it in given.items() if it is not None}
    yield ("testcase", given, "")
    if case.failure is not None:
        level, message, text = case.failure
        yield ("failure", {"type": level, "message": message}, text)
    if case.skipped is not None:
        yield ("skipped", {"message": case.skipped}, "")


def first_difference(wanted, found):
    if isinstance(found, str):
        return found
    for number, (one, other) in enumerate(zip(wanted, found)):
        if one != other:
            return f"element {number}: wanted {one!r:.300}, found {other!r:.300}"
    return f"wanted {len(wanted)} elements, found {len(found)}"


# ---- expat


def read_by_expat(document):
    """The elements as expat reads them, or its error as a string."""
    found, open_ones = [], []

    def begins(name, attributes):
        found.append([name, attributes, ""])
        open_ones.append(found[-1])

    def says(text):
        # between elements there are only the ends of lines
        if text != "\n":
            open_ones[-1][2] += text

    parser = xml.parsers.expat.ParserCreate()
    parser.buffer_text = True
    parser.StartElementHandler = begins
    parser.EndElementHandler = lambda name: open_ones.pop()
    parser.CharacterDataHandler = says
    try:
        parser.Parse(document, True)
    except xml.parsers.expat.ExpatError as error:
        return str(error)
    return [tuple(it) for it in found]


# ---- libxml2


def faults_of_xmllint(document, wanted):
    """What libxml2 finds: the schema, and the canonical form of the document (Canonical XML 1.0)."""
    checked = xmllint("--noout", "--huge", "--schema", str(SCHEMA), given=document)
    if checked.returncode:
        return [f"xmllint: the schema: {checked.stderr.decode(errors='replace'):.600}"]
    read = xmllint("--c14n", "--huge", given=document)
    if read.returncode:
        return [f"xmllint: {read.stderr.decode(errors='replace'):.600}"]
    form = canonical(wanted).encode()
    if read.stdout != form:
        at = next((i for i, (a, b) in enumerate(zip(form, read.stdout)) if a != b), -1)
        begin = max(0, at - 40)
        shown = f"{form[begin : at + 80]!r} wanted, {read.stdout[begin : at + 80]!r} found"
        return [f"xmllint: at byte {at} of the canonical form: {shown}"]
    return []


def xmllint(*words, given):
    command = ["xmllint", "--nonet", *words, "-"]
    return subprocess.run(command, input=given, capture_output=True, timeout=SECONDS)


def canonical(elements):
    """The canonical form of a document with these elements, a line each."""
    lines, open_suites = [], 0
    for number, (name, attributes, text) in enumerate(elements):
        if name in ("testsuites", "testsuite"):
            lines += ["</testsuite>\n"] * (open_suites > 1) + [f"{begin(name, attributes)}>\n"]
            open_suites = min(open_suites + 1, 2)
            continue
        lines.append(f"{begin(name, attributes)}>{in_text(text)}")
        follows = elements[number + 1][0] if number + 1 < len(elements) else ""
        if name == "testcase" and follows in ("failure", "skipped"):
            continue
        inner = f"</{name}>" if name != "testcase" else ""
        lines.append(f"{inner}</testcase>\n")
    return "".join(lines) + "</testsuite>\n</testsuites>"


def begin(name, attributes):
    given = sorted(attributes.items())
    return f"<{name}" + "".join(f' {key}="{in_attribute(it)}"' for key, it in given)


def in_text(text):
    return text.replace("&", "&amp;").replace("<", "&lt;").replace(">", "&gt;")


def in_attribute(text):
    return text.replace("&", "&amp;").replace("<", "&lt;").replace('"', "&quot;")
