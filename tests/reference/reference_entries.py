"""The suppression file of the second merger: which files and entries are rejected, and which results an entry
matches. It follows the rules sentence by sentence and shares no code with the program."""

from reference_json import Fault, read_json
from reference_matching import packed
from reference_members import STATUSES, guid, is_whole, of_kind, one_of, texts

MOST_ENTRIES = 10_000

TABLE = (
    "tool",
    "ruleId",
    "uri",
    "guid",
    "fingerprints",
    "partialFingerprints",
    "status",
    "justification",
)
DATED = ("uriPrefix", "expires")
WORDED = ("message", "messageId", "messageArguments")
SHOWN = ("snippet", "max")
KNOWN = {1: TABLE, 2: (*TABLE, *DATED), 4: (*TABLE, *DATED, *WORDED), 5: (*TABLE, *DATED, *WORDED, *SHOWN)}


class Entry:
    """An entry of the suppression file."""

    def __init__(self, entry, version, today):
        if not isinstance(entry, dict) or not set(entry) <= set(KNOWN[version]):
            raise Fault("BadEntry")
        names = ("tool", "ruleId", "uri", "uriPrefix")
        self.tool, self.rule, self.uri, self.prefix = (
            of_kind(entry, it, str, "BadEntry") for it in names
        )
        self.guid = guid(entry, "guid", "BadEntry")
        self.full = texts(entry, "fingerprints", "BadEntry")
        self.partial = texts(entry, "partialFingerprints", "BadEntry")
        self.message = of_kind(entry, "message", str, "BadEntry")
        self.message_id = of_kind(entry, "messageId", str, "BadEntry")
        self.arguments = of_kind(entry, "messageArguments", list, "BadEntry") or []
        if not all(isinstance(it, str) for it in self.arguments):
            raise Fault("BadEntry")
        self.snippet = of_kind(entry, "snippet", str, "BadEntry")
        self.status = one_of(entry, "status", STATUSES, "BadEntry") or "accepted"
        self.justification = of_kind(entry, "justification", str, "BadEntry")
        self.expires = self.day(entry.get("expires"))
        self.max = self.limit(entry.get("max"))
        named = (self.tool, self.rule, self.uri, self.prefix, self.guid, self.message, self.message_id, self.snippet)
        lists = (self.full, self.partial, self.arguments)
        if all(it is None for it in named) and not any(lists):
            raise Fault("EmptyMatch")
        if self.expires is not None and today is None:
            raise Fault("NeedsToday")
        self.is_expired = self.expires is not None and today > self.expires

    def day(self, value):
        if value is None:
            return None
        if not is_whole(value) or not 10000101 <= value <= 99991231:
            raise Fault("BadEntry")
        if not 1 <= value // 100 % 100 <= 12 or not 1 <= value % 100 <= 31:
            raise Fault("BadEntry")
        return value

    def limit(self, value):
        if value is None:
            return None
        if not is_whole(value) or not 1 <= value < 2**32:
            raise Fault("BadEntry")
        return value

    def is_met(self, record):
        """Whether the entry isn't expired and its conditions hold, regardless of `max`."""
        return not self.is_expired and self.has_met_conditions(record)

    def has_met_conditions(self, record):
        """Whether the conditions of the entry hold, even if it is expired."""
        uri = record.place[0]
        text, name, arguments = record.message
        wanted = (
            (self.tool, record.tool),
            (self.rule, record.rule),
            (self.uri, uri),
            (self.guid, record.guid),
            (self.message, text),
            (self.message_id, name),
            (self.arguments or None, list(arguments)),
        )
        return (
            all(value is None or value == has for value, has in wanted)
            and (self.prefix is None or uri is not None and uri.startswith(self.prefix))
            and all(record.full.get(name) == text for name, text in self.full.items())
            and all(record.partial.get(name) == text for name, text in self.partial.items())
            and (self.snippet is None or is_same_snippet(self.snippet, record.snippet))
        )

    def object(self):
        reason = {} if self.justification is None else {"justification": self.justification}
        return {"kind": "external", "status": self.status, **reason}


def is_same_snippet(condition, snippet):
    """Whether a result has a snippet, and it is that of a condition. A blank condition holds for no result."""
    return snippet is not None and packed(condition) == packed(snippet)


def read_rules(source, today):
    file = read_json(source)
    if not isinstance(file, dict) or not isinstance(file.get("suppressions"), list):
        raise Fault("NotList")
    version = file.get("version")
    if not is_whole(version) or version not in KNOWN:
        raise Fault("WrongVersion")
    if len(file["suppressions"]) > MOST_ENTRIES:
        raise Fault("TooMany")
    entries = []
    for number, entry in enumerate(file["suppressions"]):
        try:
            entries.append(Entry(entry, version, today))
        except Fault as fault:
            raise Fault(fault.cause, entry=number) from None
    return entries
