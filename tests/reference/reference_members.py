"""Members of JSON objects by their types, for the second merger. Null is treated as missing."""

import re

from reference_json import Fault

LEVELS = ("none", "note", "warning", "error")
KINDS = ("pass", "open", "informational", "notApplicable", "review", "fail")
STATES = ("absent", "new", "unchanged", "updated")
STATUSES = ("accepted", "underReview", "rejected")


def is_whole(value):
    return isinstance(value, int) and not isinstance(value, bool)


def of_kind(holder, name, kind, cause):
    """Returns the member `name` if it has this type, or None if it is missing. Otherwise raises the error."""
    value = holder.get(name)
    if value is not None and not isinstance(value, kind):
        raise Fault(cause)
    return value


def one_of(holder, name, texts, cause):
    value = holder.get(name)
    if value is not None and (not isinstance(value, str) or value not in texts):
        raise Fault(cause)
    return value


def objects(holder, name, cause):
    values = of_kind(holder, name, list, cause) or []
    if not all(isinstance(value, dict) for value in values):
        raise Fault(cause)
    return values


def index(holder, name):
    """An integer from -1, which means missing, to 2^32 - 1."""
    value = holder.get(name)
    if value is None:
        return None
    if not is_whole(value) or not -1 <= value < 2**32:
        raise Fault("BadIndex")
    return None if value == -1 else value


def texts(holder, name, cause):
    """An object whose values are strings or null. Null values are treated as missing."""
    found = of_kind(holder, name, dict, cause) or {}
    pairs = {key: text for key, text in found.items() if text is not None}
    if not all(isinstance(text, str) for text in pairs.values()):
        raise Fault(cause)
    return pairs


HEX = "[0-9a-fA-F]"
HYPHENATED = f"{HEX}{{8}}-{HEX}{{4}}-{HEX}{{4}}-{HEX}{{4}}-{HEX}{{12}}"
GUID = re.compile(rf"{HEX}{{32}}|{HYPHENATED}|\{{{HYPHENATED}\}}|(?i:urn:uuid:){HYPHENATED}")


def guid(holder, name, cause):
    """A GUID as a number, from its simple, hyphenated, braced or URN form."""
    text = of_kind(holder, name, str, cause)
    if text is None:
        return None
    if not GUID.fullmatch(text):
        raise Fault(cause)
    return int(re.sub("^(?i:urn:uuid:)|[{}-]", "", text), 16)
