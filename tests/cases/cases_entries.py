"""Cases of the suppression file: which files and entries are rejected, which entries match a result, and what is
written of them."""

import json
import re

from cases import *
from cases_words import merging

TODAY = "20250131"
GUID = "0f14d0ab-9605-4a62-a9e4-5ed26688389b"


def file_of(version, entries):
    """A file with these entries, which are JSON with commas between them."""
    return f'{{"version":{version},"suppressions":[{entries}]}}'.encode()


def read(name, file, fault=None, today=None):
    """A file that is accepted, or rejected with this error."""
    more = [] if today is None else ["--today", today]
    wanted = refused(f"suppressions{fault}") if fault else {}
    shown = file if len(file) < 200 else file[:200]
    return merging("entries", f"{name}: {shown!r} for {today}", [log(run("b"))], suppress=file, more=more, **wanted)


# ---- Files

ACCEPTED = [
    '{"version":1,"suppressions":[]}',
    '{"version":2,"suppressions":[]}',
    ' {"suppressions" : [], "note" : [1.5], "version" : 1 } ',
]

REJECTED = {
    "WrongVersion": [
        '{"version":0,"suppressions":[]}',
        '{"version":3,"suppressions":[]}',
        '{"version":1.0,"suppressions":[]}',
        '{"version":1e0,"suppressions":[]}',
        '{"version":-1,"suppressions":[]}',
        '{"version":"1","suppressions":[]}',
        '{"version":null,"suppressions":[]}',
        '{"version":4294967297,"suppressions":[]}',
        '{"suppressions":[{}]}',
    ],
    "NotList": [
        '{"version":1}',
        '{"version":3}',
        '{"version":1,"suppressions":null}',
        '{"version":1,"suppressions":{}}',
        '{"version":1,"suppressions":1.5}',
        "{}",
        "[]",
        "null",
    ],
    "NotJson": ["", "{", '{"version":1,"suppressions":[]}}', "{'version':1}", "[" * 128],
}


def files():
    for file in ACCEPTED:
        yield read("a file without entries", file.encode())
    for cause, some in REJECTED.items():
        for file in some:
            yield read(cause, file.encode(), f": {cause}")
    yield read("a string that isn't UTF-8", b'{"version":1,"suppressions":["\xff"]}', ": NotJson")
    empty = ACCEPTED[0].encode()
    yield read("one order mark is dropped", MARK + empty)
    yield read("two order marks", MARK + MARK + empty, ": NotJson")
    yield read("10,000 entries are the most", file_of(1, ",".join("0" * 10_000)), ", entry 0: BadEntry")
    yield read("one entry more", file_of(1, ",".join("0" * 10_001)), ": TooMany")
    last = '{"tool":"t"},' * 9_999 + '{"tool":"t","expires":20250131}'
    yield read("an error names its entry", file_of(2, last), ", entry 9999: NeedsToday")


# ---- Entries that are rejected

# The members of an entry of version 2, with the JSON type of each.
MEMBERS = {
    "tool": "string",
    "ruleId": "string",
    "uri": "string",
    "guid": "string",
    "fingerprints": "object",
    "partialFingerprints": "object",
    "uriPrefix": "string",
    "expires": "number",
    "status": "string",
    "justification": "string",
}
VALUES = {
    "bool": "true",
    "number": "20250131",
    "fraction": "1.5",
    "string": '"accepted"',
    "array": "[]",
    "object": "{}",
}

BAD = [
    "null",
    "0",
    '"tool"',
    "[]",
    '{"rule":"x"}',
    '{"ruleId":"x","":null}',
    '{"ruleId":"x","RuleId":"x"}',
    '{"fingerprints":{"a":1}}',
    '{"partialFingerprints":{"a":"x","b":[]}}',
    '{"guid":"x"}',
    '{"ruleId":"x","status":"Accepted"}',
]

EMPTY = [
    "{}",
    '{"fingerprints":{}}',
    '{"partialFingerprints":{}}',
    '{"fingerprints":{"a":null}}',
    '{"status":"accepted","justification":"j"}',
    '{"expires":20250131}',
]

GOOD = [
    '{"tool":""}',
    '{"ruleId":"R1"}',
    '{"uri":"a.c"}',
    '{"uriPrefix":""}',
    '{"fingerprints":{"a":""}}',
    '{"partialFingerprints":{"a":"x","b":null}}',
    '{"guid":"0f14d0ab-9605-4a62-a9e4-5ed26688389b"}',
    '{"guid":"0F14D0AB96054A62A9E45ED26688389B"}',
    '{"guid":"{0f14d0ab-9605-4a62-a9e4-5ed26688389b}"}',
    '{"guid":"urn:uuid:0f14d0ab-9605-4a62-a9e4-5ed26688389b"}',
]

SECOND = [
    '{"ruleId":"x","uriPrefix":"gen/"}',
    '{"ruleId":"x","uriPrefix":null}',
    '{"ruleId":"x","expires":20250131}',
]

WRONG_DATES = [
    "20251301",
    "20250132",
    "20250100",
    "20250001",
    "9991231",
    "100000101",
    '"20250131"',
    "20250131.0",
    "-20250131",
    "4315217427",
]

FOURTH = [
    '{"tool":"lint","message":"m"}',
    '{"tool":"lint","message":null}',
    '{"tool":"lint","messageId":"m"}',
    '{"tool":"lint","messageArguments":[]}',
]

WRONG_MESSAGES = [
    '{"message":1}',
    '{"message":["m"]}',
    '{"message":{"text":"m"}}',
    '{"messageId":["m"]}',
    '{"messageArguments":"m"}',
    '{"messageArguments":["m",null]}',
]

NO_MESSAGES = [
    '{"messageArguments":[],"fingerprints":{}}',
    '{"message":null,"messageId":null,"messageArguments":null}',
]


def entry(name, version, entries, cause=None, number=0, today=None):
    fault = f", entry {number}: {cause}" if cause else None
    return read(name, file_of(version, entries), fault, today)


def entries():
    for member, wanted in MEMBERS.items():
        for kind, value in VALUES.items():
            if kind != wanted:
                yield entry("another type", 2, f'{{"{member}":{value}}}', "BadEntry", today=TODAY)
        yield entry("a null member is treated as missing", 2, f'{{"{member}":null}}', "EmptyMatch", today=TODAY)
    for given in BAD:
        yield entry("no object of known members", 2, given, "BadEntry")
    for given in EMPTY:
        yield entry("no condition", 2, given, "EmptyMatch")
        yield entry("no condition", 2, given, "EmptyMatch", today=TODAY)
    for given in GOOD:
        yield entry("each condition", 2, given)
    for given in SECOND:
        yield entry("members of version 2", 1, given, "BadEntry", today=TODAY)
        yield entry("members of version 2", 2, given, today=TODAY)
    for day in WRONG_DATES:
        yield entry("an invalid date", 2, f'{{"uriPrefix":"gen/","expires":{day}}}', "BadEntry", today=TODAY)
    for day in ("20250231", "10000101", "99991231"):
        yield entry("a date", 2, f'{{"uriPrefix":"gen/","expires":{day}}}', today=TODAY)
    dated = '{"uriPrefix":"gen/","expires":20250131}'
    yield entry("an expiry date needs today's", 2, dated, "NeedsToday")
    yield entry("the first error is reported", 2, '{},{"rule":"x"}', "EmptyMatch")
    yield entry("the first error is reported", 2, '{"tool":"t"},{},{"rule":1}', "EmptyMatch", 1)
    yield entry("the first error is reported", 2, '{"tool":"t","expires":20250131},0', "NeedsToday")
    for given in FOURTH:
        for version in (1, 2):
            yield entry("members of version 4", version, given, "BadEntry")
        yield entry("members of version 4", 4, given)
    for given in WRONG_MESSAGES:
        yield entry("a condition on the message of another type", 4, given, "BadEntry")
    for given in NO_MESSAGES:
        yield entry("no condition on the message", 4, given, "EmptyMatch")


# ---- Which entries match a result


def result_at(rule, uri=None, **members):
    return {"ruleId": rule, **members, **({} if uri is None else at(uri))}


def matches(name, result, version, entries, wanted, today=None):
    """The entries of a file that match a result, by their numbers: the others are listed as unused."""

    def look(folder, kept):
        unused = [int(it) for it in re.findall(r"^entry (\d+): ", (folder / "u").read_text(), re.M)]
        found = [it for it in range(len(json.loads(f"[{entries}]"))) if it not in unused]
        return [f"these entries match: {found}, and not {wanted}"] * (found != wanted)

    is_active = not wanted
    unused = len(json.loads(f"[{entries}]")) - len(wanted)
    counted = gate(new=[0, 1, 0, 0], unused=unused) if is_active else gate(unused=unused, suppressed={"new": [0, 1, 0, 0]})
    more = ["--unused", "u", *([] if today is None else ["--today", today])]
    title = f"{name}: {json.dumps(result)} and {entries[:300]}"
    given, file = [log(run("lint", result))], file_of(version, entries)
    return merging("entries", title, given, suppress=file, more=more, look=look, check=tells(counted, ["new"]))


def each_alone(name, result, version, matching, others, today=None):
    """Entries that match a result, and others that don't, each alone in a file."""
    for given in matching:
        yield matches(name, result, version, given, [0], today)
    for given in others:
        yield matches(name, result, version, given, [], today)


PLACED = [
    '{"tool":"lint"}',
    '{"ruleId":"R1"}',
    '{"uri":"gen/a.c"}',
    '{"uriPrefix":"gen/"}',
    '{"uriPrefix":"gen/a.c"}',
    '{"uriPrefix":""}',
    '{"ruleId":"R1","tool":"lint","uri":"gen/a.c"}',
]

NOT_PLACED = [
    '{"tool":"Lint"}',
    '{"tool":""}',
    '{"ruleId":"R"}',
    '{"ruleId":"R1/a"}',
    '{"uri":"gen/A.c"}',
    '{"uri":"gen/a"}',
    '{"uriPrefix":"a.c"}',
    '{"uriPrefix":"gen/a.cc"}',
    '{"ruleId":"R1","tool":"other","uri":"gen/a.c"}',
    '{"ruleId":"R2","tool":"lint","uri":"gen/a.c"}',
    '{"ruleId":"R1","tool":"lint","uri":"b.c"}',
]

PRINTED = [
    '{"fingerprints":{"a/v2":"y"}}',
    '{"fingerprints":{"a/v1":"x","a/v2":"y","b":null}}',
    '{"partialFingerprints":{"p/v1":"z"}}',
]

NOT_PRINTED = [
    '{"fingerprints":{"a/v1":"x","a/v2":"x"}}',
    '{"fingerprints":{"a/v3":"x"}}',
    '{"fingerprints":{"p/v1":"z"}}',
    '{"partialFingerprints":{"p/v1":""}}',
    '{"partialFingerprints":{"a/v1":"x"}}',
]


def conditions():
    yield from each_alone("bytes are compared", result_at("R1", "gen/a.c"), 2, PLACED, NOT_PLACED, TODAY)
    none = ['{"uri":""}', '{"uriPrefix":""}']
    yield from each_alone("no URI", result_at(""), 2, ['{"ruleId":""}'], none, TODAY)
    upper = f'{{"guid":"{GUID.upper()}"}}'
    yield from each_alone("no GUID", result_at("R1"), 2, [], [upper], TODAY)
    given = result_at("R1", correlationGuid=GUID)
    yield from each_alone("a GUID is a number", given, 2, [upper], [upper.replace("9B", "9C")], TODAY)
    given = result_at("R1", fingerprints={"a/v1": "x", "a/v2": "y"}, partialFingerprints={"p/v1": "z"})
    yield from each_alone("fingerprints", given, 2, PRINTED, NOT_PRINTED, TODAY)
    for word, is_match in (("m", True), ("M", False), ("", False), ("mm", False)):
        given = result_at("R1", message={"text": word})
        yield matches("the text of a message", given, 4, '{"message":"m"}', [0] * is_match)
    given = result_at("R1", message={"id": "m"})
    yield matches("the id of a message is no text", given, 4, '{"message":"m"}', [])
    both = '{"messageId":"i","messageArguments":["u","v"]}'
    three = (both, '{"messageId":"i"}', '{"messageArguments":["u","v"]}')
    for name, arguments, wanted in (
        ("i", ["u", "v"], [True, True, True]),
        ("i", ["v", "u"], [False, True, False]),
        ("i", ["u"], [False, True, False]),
        ("i", ["u", "v", "w"], [False, True, False]),
        ("j", ["u", "v"], [False, False, True]),
    ):
        given = result_at("R1", message={"id": name, "arguments": arguments})
        for condition, is_match in zip(three, wanted):
            yield matches("an id and arguments", given, 4, condition, [0] * is_match)


TEN, ELEVEN = ("00000000-0000-4000-8000-00000000000" + it for it in "ab")
BY_GUID = f'{{"ruleId":"R1"}},{{"guid":"{TEN}"}},{{"uri":"a.c"}},{{"guid":"{TEN}","ruleId":"R1"}}'

BY_ALL = (
    '{"tool":"lint"},{"uriPrefix":"src/"},{"uri":"src/a.c","ruleId":"R2"},{"fingerprints":{"f/v1":"x","f/v2":"y"}},'
    '{"partialFingerprints":{"p/v1":"z"},"uri":"src/a.c"},{"uri":"src/a.c"},{"tool":"other"},'
    '{"fingerprints":{"f/v2":"y"},"tool":"lint"}'
)

BY_MESSAGE = (
    '{"message":"m","uri":"a.c"},{"message":"m"},{"uri":"a.c"},{"message":"m","uri":"b.c"},{"message":"n","uri":"a.c"},'
    '{"message":"m","uriPrefix":"a"},{"messageId":"i"},{"message":"m","uri":"a.c","ruleId":"R2"}'
)

# Nested and repeated prefixes, an empty one, and two with the tool.
PREFIXES = (
    '{"uriPrefix":"src/"},{"uriPrefix":"src/gen/"},{"uriPrefix":"lib/"},{"uriPrefix":"src/","tool":"lint"},'
    '{"uriPrefix":"","tool":"other"},{"uriPrefix":"src/"}'
)

# Prefixes of one URI, the longest first.
FALLING = '{"uriPrefix":"src/gen/a.c"},{"uriPrefix":"src/gen"},{"uriPrefix":"s"},{"uriPrefix":""}'

BYTES = (
    '{"uriPrefix":"\u00e9"},{"uriPrefix":"\\u00e9"},{"uriPrefix":"e"},{"uriPrefix":"\u00c9"},{"uriPrefix":"ab"},'
    '{"uriPrefix":"ba"}'
)

AMONG = (
    '{"uriPrefix":"src/","ruleId":"R1"},{"uriPrefix":"src/","ruleId":"R2"},{"uriPrefix":"src/","uri":"src/a.c"},'
    '{"uriPrefix":"lib/","uri":"src/a.c"},{"uriPrefix":"src/","fingerprints":{"f":"x"}},{"uriPrefix":"","tool":"lint"},'
    '{"uriPrefix":"src/","tool":"other"}'
)

AT = [
    (PREFIXES, [("src/gen/a.c", [0, 1, 3, 5]), ("lib/", [2]), ("src", [])]),
    (
        FALLING,
        [
            ("src/gen/a.c", [0, 1, 2, 3]),
            ("src/gen/a.cc", [0, 1, 2, 3]),
            ("src/gen/a.", [1, 2, 3]),
            ("src/gen/b.c", [1, 2, 3]),
            ("src/gen", [1, 2, 3]),
            ("src/ge", [2, 3]),
            ("s", [2, 3]),
            ("lib/src/gen/a.c", [3]),
            ("", [3]),
            (None, []),
        ],
    ),
    (
        BYTES,
        [
            ("\u00e9cole", [0, 1]),
            ("\u00e8", []),
            ("ecole", [2]),
            ("\u00c9COLE", [3]),
            ("abba", [4]),
            ("baab", [5]),
        ],
    ),
    (AMONG, [("src/a.c", [0, 2, 5]), ("src/b.c", [0, 5]), ("lib/a.c", [5])]),
]


def lookups():
    for rule, guid, wanted in (
        ("R1", TEN, [0, 1, 2, 3]),
        ("R2", TEN, [1, 2]),
        ("R1", ELEVEN, [0, 2]),
        ("R1", None, [0, 2]),
        ("R2", None, [2]),
    ):
        given = result_at(rule, "a.c", correlationGuid=guid)
        yield matches("by GUID, by rule and by neither", given, 1, BY_GUID, wanted)
    for uri, prints, wanted in (
        ("src/a.c", {"f/v1": "x", "f/v2": "y"}, [0, 1, 3, 5, 7]),
        ("src/a.c", {"f/v1": "y", "f/v2": "y"}, [0, 1, 5, 7]),
        ("src/b.c", {"f/v1": "x"}, [0, 1]),
        ("lib/src/a.c", {}, [0]),
    ):
        yield matches("by all conditions", result_at("R1", uri, fingerprints=prints), 2, BY_ALL, wanted)
    for uri, wanted in (("a.c", [0, 1, 2, 5]), ("b.c", [1, 3]), ("ab.c", [1, 5]), (None, [1])):
        given = result_at("R1", uri, message={"text": "m"})
        yield matches("by a text and a URI, together and alone", given, 4, BY_MESSAGE, wanted)
    for given, places in AT:
        for uri, wanted in places:
            yield matches("by prefixes", result_at("R1", uri), 2, given, wanted)


# ---- The suppressions that are written

REVIEW = '{"kind":"external","status":"underReview"}'
PLAIN = '{"kind":"external","status":"accepted"}'
NO = '{"kind":"external","status":"rejected"}'
INSIDE = '{"kind":"inSource"}'


def reason(word, status="accepted"):
    return f'{{"justification":"{word}","kind":"external","status":"{status}"}}'


def writes(name, rule, entries, own, wanted, is_suppressed, tool="lint", version=1, today=None, unused=None, uri=None):
    """The suppressions of a result with these own ones, and whether it is suppressed."""
    result = result_at(rule, uri, suppressions=json.loads(f"[{own}]"))
    listed = json.loads(f"[{wanted}]")

    def check(answer):
        found = json.loads(answer.out)
        of_result, of_gate = found["runs"][0]["results"][0]["suppressions"], found["properties"]["gate"]
        side = "suppressed" if is_suppressed else "active"
        wrong = [f"it is not {side}"] * (of_gate["counts"]["new"][side] != [0, 1, 0, 0])
        if unused is not None and of_gate["unusedSuppressions"] != unused:
            wrong.append(f"{of_gate['unusedSuppressions']} entries are unused, and not {unused}")
        return wrong + [f"its suppressions are {of_result}, and not {listed}"] * (of_result != listed)

    more = [] if today is None else ["--today", today]
    title, file = f"{name}: {own} with {entries[:200]}", file_of(version, entries)
    return merging("entries", title, [log(run(tool, result))], suppress=file, more=more, check=check)


# Own suppressions, none of which equals the object of an entry with the reason j.
OTHERS = [
    f"{INSIDE},{INSIDE}",
    '{"justification":null,"kind":"external","status":"accepted"}',
    '{"justification":"j","kind":"external"}',
    '{"justification":"j","kind":"inSource","status":"accepted"}',
    reason("k"),
    '{"guid":"g","justification":"j","kind":"external","status":"accepted"}',
    '{"justification":"j","kind":"external","status":"accepted","z":1}',
]

ONE_J = '{"ruleId":"R1","justification":"j"}'
FIVE = ",".join([ONE_J, '{"tool":"lint","justification":"j"}', ONE_J, '{"tool":"lint","justification":"j"}', ONE_J])

# All match a result of R1; two pairs have equal objects.
SEVEN = (
    '{"ruleId":"R1","justification":"a"},{"ruleId":"R1"},{"ruleId":"R1","justification":"b"},'
    '{"tool":"lint","justification":"a"},{"tool":"lint","status":"underReview","justification":"a"},{"tool":"lint"},'
    '{"tool":"lint","justification":""}'
)
A, B, J = reason("a"), reason("b"), reason("j")
LAST = f'{reason("a", "underReview")},{reason("")}'

FOUR = (
    '{"ruleId":"R1"},{"ruleId":"R1","justification":"a"},{"tool":"lint"},{"tool":"lint","justification":"a"}'
)


def joined(*parts):
    return ",".join(it for it in parts if it)


def written_lists():
    entry = '{"ruleId":"R2","status":"rejected"}'
    own = f"{INSIDE},{REVIEW}"
    yield writes("one under review keeps a result active", "", entry, own, own, False)
    yield writes("a rejected entry keeps a result active", "R2", entry, INSIDE, f"{INSIDE},{NO}", False)
    yield writes("an entry of another rule", "R3", entry, INSIDE, INSIDE, True)
    yield writes("without a suppression a result is active", "", '{"ruleId":"NOPE"}', "", "", False, unused=1)
    entry = (
        '{"tool":"lint","justification":"c"},{"ruleId":"R2"},{"ruleId":"R1","justification":"a"},'
        '{"tool":"lint","status":"underReview"}'
    )
    yield writes("entries in the order of the file", "R1", entry, "", joined(reason("c"), A, REVIEW), False, unused=1)
    entry = '{"uriPrefix":"gen/","expires":20250131}'
    for uri, today, is_held in (
        ("gen/a.c", "20250131", True),
        ("gen/a.c", "20250201", False),
        ("src/gen/a.c", "20250131", False),
    ):
        wanted, how = PLAIN if is_held else "", {"version": 2, "today": today, "unused": int(not is_held), "uri": uri}
        yield writes(f"an expiry date, for {uri} on {today}", "R1", entry, "", wanted, is_held, **how)
    entry = '{"tool":"a","status":"underReview","justification":""}'
    yield writes("a justification that is empty", "", entry, "", reason("", "underReview"), False, tool="a", unused=0)
    entry = '{"ruleId":"R1"},{"tool":"lint","status":"rejected"}'
    yield writes("two statuses", "R1", entry, "", f"{PLAIN},{NO}", False)
    entry = '{"ruleId":"R1"},{"tool":"lint"}'
    yield writes("equal objects are written once", "R1", entry, "", PLAIN, True, unused=0)
    yield writes("equal objects are written once", "R1", entry, PLAIN, PLAIN, True, unused=0)
    yield from own_lists()


def own_lists():
    every = joined(A, PLAIN, B, LAST)
    for own in OTHERS:
        yield writes("own suppressions stay", "R1", ONE_J, own, joined(own, J), True)
        yield writes("own suppressions stay before many entries", "R1", FIVE, own, joined(own, J), True)
        yield writes("each object of many is written once", "R1", SEVEN, own, joined(own, every), False)
    yield writes("an own object of five entries", "R1", FIVE, J, J, True)
    yield writes("each object of many is written once", "R1", SEVEN, INSIDE, joined(INSIDE, every), False)
    yield writes("each object of many is written once", "R1", SEVEN, "", every, False)
    own = joined(A, INSIDE, A, PLAIN, PLAIN)
    yield writes("own objects of entries are not written again", "R1", SEVEN, own, joined(own, B, LAST), False)
    own = joined(LAST, B, PLAIN, A)
    yield writes("own objects of entries are not written again", "R1", SEVEN, own, own, False)
    two = joined(PLAIN, A)
    for entry in (FOUR, f'{FOUR},{{"ruleId":"R1"}}'):
        for own, added in (("", two), (B, two), (A, PLAIN), (PLAIN, A), (two, "")):
            yield writes("four entries and five are alike", "R1", entry, own, joined(own, added), True)


def cases():
    for part in (files, entries, conditions, lookups, written_lists):
        yield from part()
