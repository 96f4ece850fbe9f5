"""The links of reports in plain Python, for tests/program/reports: addresses, and the addresses of places.

It follows the chapter on reports in docs/formats.md, and shares no code with the program.
"""

import re
from urllib.parse import quote

MOST_CHARACTERS = 1_000
HOST = "[A-Za-z0-9.:_-]+"
LATER = "[A-Za-z0-9.:_/?#~@!&()*+,;=%-]"
ADDRESS = re.compile(rf"https?://{HOST}(?:[/?#]{LATER}*)?")
TEMPLATE = re.compile(rf"https?://{HOST}/(?:{LATER}|\{{line\}}|\{{path\}})*")


def has_form(text, form):
    return len(text) <= MOST_CHARACTERS and "##" not in text and bool(form.fullmatch(text))


def is_address(text):
    return has_form(text, ADDRESS)


def is_template(text):
    return has_form(text, TEMPLATE) and text.count("{path}") == 1


def place_address(template, path, line):
    """The address of a line of a path that is shown as it is, or None."""
    segments = path.split("/")
    if ":" in segments[0] or any(it in ("", ".", "..") for it in segments):
        return None
    given = {"path": quote(path, safe="/"), "line": str(line or 1)}
    return re.sub(r"\{(path|line)\}", lambda found: given[found.group(1)], template)


def anchor(address, title, inner):
    """A link in Markdown; without an address what would be in it."""
    if address is None:
        return inner
    named = "" if title is None else f' title="{title}"'
    return f'<a href="{address.replace("&", "&amp;")}"{named}>{inner}</a>'
