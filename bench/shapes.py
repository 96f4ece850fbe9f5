"""Inputs that could cost more than their bytes, each with a harmless twin of the same size.

A shape makes two inputs for a number: the costly one and its twin, which has the same number of results and
nearly the same length. What many results share in the costly input is in a member of the twin that isn't read.
What causes much work in the costly input causes little in the twin.
"""

from dataclasses import replace

from shape_parts import LONG, MEGABYTE, OTHER_HASH, SAME_HASH, Input
from shape_parts import at, entries, hashed, in_region, log, logs_of, message, placed, run
from shapes_change import SHAPES as OF_CHANGES
from shapes_fifth import accepted_by_snippet, entries_and_long_snippet, entries_of_one_snippet, entries_of_snippets
from shapes_fifth import an_entry_that_admits_all, entries_used_up_in_turn, entries_with_max, long_entry_and_used_up_ones
from shapes_fifth import message_entries_and_long_snippet, of_message, of_print
from shapes_policy import SHAPES as OF_POLICIES
from shapes_shown import told_files, told_long_snippets, told_names, told_snippets

# ---- A long string that many results share


def tool_name(count):
    for driver in ({"name": LONG}, {"fullName": LONG}):
        yield Input([log(run([{}] * count, driver))])


def rule_id(count):
    for rule in ({"id": LONG}, {"id": "R", "name": LONG}):
        yield Input([log(run([{"ruleIndex": 0}] * count, {"rules": [rule]}))])


def artifact_uri(count):
    for location in ({"uri": LONG}, {"uri": "u", "x": LONG}):
        artifacts = [{"location": location}]
        yield Input([log(run([placed(index=0)] * count, artifacts=artifacts))])


def artifact_base(count):
    for location in ({"uri": "u", "uriBaseId": LONG}, {"uri": "u", "x": LONG}):
        artifacts = [{"location": location}]
        yield Input([log(run([placed(index=0)] * count, artifacts=artifacts))])


def shared_texts(count):
    """The three at once, in a log and a baseline."""
    for name, other in (("id", "name"), ("name", "id")):
        rule = {name: LONG, other: "R"}
        driver = {"name": LONG if name == "id" else "t", "rules": [rule]}
        driver["x"] = "t" if name == "id" else LONG
        text = log(run([{"ruleIndex": 0}] * count, driver))
        yield Input([text], [text])


def tool_and_names(count):
    for driver in ({"name": LONG}, {"fullName": LONG}):
        names = [{f"f{i}/v1": f"{side}{i}" for i in range(count)} for side in "ab"]
        now, before = (log(run([message(fingerprints=it)], driver)) for it in names)
        yield Input([now], [before])


# ---- Names that collide


def colliding_names(count):
    for parts in (SAME_HASH, OTHER_HASH):
        names = [hashed(i, parts) for i in range(count)]
        results = [message(fingerprints={it: "x"}) for it in names]
        yield Input([log(run(results))], [log(run(results[::-1]))])


def colliding_rules(count):
    for parts in (SAME_HASH, OTHER_HASH):
        names = [hashed(i, parts) for i in range(count)]
        rules = [{"id": it} for it in names]
        yield Input([log(run([{"ruleId": it} for it in names], {"rules": rules}))])


def colliding_entries(count):
    for parts in (SAME_HASH, OTHER_HASH):
        names = [hashed(i, parts) for i in range(count)]
        found = entries([{"ruleId": it} for it in names])
        yield Input([log(run([{"ruleId": it} for it in names]))], suppress=found)


# ---- Entries and suppressions


def entry_of_names(count):
    names = {f"f{i}/v1": f"{i}" for i in range(count)}
    for member in ("fingerprints", "other_prints"):
        result = message(**{member: names})
        yield Input([log(run([result]))], suppress=entries([{"fingerprints": names}]))


def own_suppressions(count):
    own = [{"kind": "inSource"}] * count
    for rule in "RX":
        found = [{"ruleId": rule, "justification": f"{i}"} for i in range(count // 100)]
        yield Input([log(run([message(ruleId="R", suppressions=own)]))], suppress=entries(found))


def equal_objects(count):
    for justification in (lambda i: "same", lambda i: f"{i:04}"):
        found = [{"ruleId": "R", "justification": justification(i)} for i in range(count // 100)]
        yield Input([log(run([{"ruleId": "R"}] * (count // 100)))], suppress=entries(found))


def entries_by(condition, guid="00000000-0000-0000-0000-{:012}"):
    """Five results per entry, with entries that match no result by this condition, compared with as many by GUID."""

    def make(count):
        results = [
            message(
                ruleId=f"R{i % 50}",
                fingerprints={"f/v1": f"{i}"},
                partialFingerprints={"p/v1": f"{i}"},
                **at(f"src/{i}.c"),
            )
            for i in range(count * 5)
        ]
        text = log(run(results))
        yield Input([text], suppress=entries([condition(i) for i in range(count)]))
        found = [{"guid": guid.format(i)} for i in range(count)]
        yield Input([text], suppress=entries(found))

    return make


def accepted(text, uri):
    """Results of one rule, with a twentieth as many entries that name the rule, a text and a URI of other results,
    compared with as many by GUID. Text and URI are made from a number; one of them may be the same for all."""

    def make(count):
        results = [message(text(f"{i}"), ruleId="R", **at(uri(f"{i}"))) for i in range(count)]
        merged, many = log(run(results)), range(count // 20)
        conditions = [
            {"tool": "t", "ruleId": "R", "message": text(f"x{i}"), "uri": uri(f"x{i}")}
            for i in many
        ]
        yield Input([merged], suppress=entries(conditions, 4))
        guid = "00000000-0000-0000-0000-{:012}"
        found = [{"tool": "t", "ruleId": "R", "guid": guid.format(i)} for i in many]
        yield Input([merged], suppress=entries(found, 4))

    return make


def accepted_by_id(name, arguments):
    """The same for messages without a text: results of one rule in one file, with a twentieth as many entries that
    name an id and arguments of other results. Both are made from a number; one of them may be the same for all."""

    def make(count):
        results = [
            {"ruleId": "R", "message": {"id": name(f"{i}"), "arguments": arguments(f"{i}")}}
            | at("src/a.c")
            for i in range(count)
        ]
        merged, many = log(run(results)), range(count // 20)
        conditions = [
            {
                "tool": "t",
                "ruleId": "R",
                "messageId": name(f"x{i}"),
                "messageArguments": arguments(f"x{i}"),
                "uri": "src/a.c",
            }
            for i in many
        ]
        yield Input([merged], suppress=entries(conditions, 4))
        guid = "00000000-0000-0000-0000-{:012}"
        found = [{"tool": "t", "ruleId": "R", "guid": guid.format(i)} for i in many]
        yield Input([merged], suppress=entries(found, 4))

    return make


def entries_beginning(count):
    """Results at one long URI, with entries that nearly name its prefixes, compared with as many by GUID."""
    results = [placed(index=0)] * count
    text = log(run(results, artifacts=[{"location": {"uri": LONG}}]))
    lengths = range(10, 3_000, 10)
    yield Input([text], suppress=entries([{"uriPrefix": LONG[:it] + "!"} for it in lengths]))
    guid = "00000000-0000-0000-0000-{:012}"
    found = [{"guid": guid.format(it), "justification": LONG[:it]} for it in lengths]
    yield Input([text], suppress=entries(found))


# ---- Parts of a run


def overrides_of_nothing(count):
    """Overrides of rules that don't exist, compared with overrides of the rules."""
    rules = [{"id": f"R{i}"} for i in range(count)]
    results = [{"ruleIndex": i, "provenance": {"invocationIndex": 0}} for i in range(count)]
    for letter in "XR":
        overrides = [
            {"descriptor": {"id": f"{letter}{i}"}, "configuration": {"level": "note"}}
            for i in range(count)
        ]
        invocations = [{"executionSuccessful": True, "ruleConfigurationOverrides": overrides}]
        yield Input([log(run(results, {"rules": rules}, invocations=invocations))])


def overrides_of_one(count):
    """Overrides of one rule, of which only the first applies, compared with one override per rule."""
    rules = [{"id": f"R{i}"} for i in range(count)]
    for is_one in (True, False):
        results = [
            {"ruleIndex": 0 if is_one else i, "provenance": {"invocationIndex": 0}}
            for i in range(count)
        ]
        overrides = [
            {"descriptor": {"index": 0 if is_one else i}, "configuration": {"level": "note"}}
            for i in range(count)
        ]
        invocations = [{"executionSuccessful": True, "ruleConfigurationOverrides": overrides}]
        yield Input([log(run(results, {"rules": rules}, invocations=invocations))])


def invocations(count):
    """One invocation per result, compared with one for all."""
    found = [{"executionSuccessful": True}] * count
    for is_one in (False, True):
        results = [{"provenance": {"invocationIndex": 0 if is_one else i}} for i in range(count)]
        yield Input([log(run(results, invocations=found))])


def extensions(count):
    """One component per result, compared with one for all."""
    driver = {"name": "t", "rules": []}
    found = [{"name": f"e{i}", "rules": [{"id": "R"}]} for i in range(count)]
    for is_one in (False, True):
        results = [
            {"rule": {"index": 0, "toolComponent": {"index": 0 if is_one else i}}}
            for i in range(count)
        ]
        given = {"tool": {"driver": driver, "extensions": found}, "results": results}
        yield Input([log(given)])


def equal_rules(count):
    """Rules with one id, of which the first is found, compared with rules with different ids."""
    for is_one in (True, False):
        names = ["R00000" if is_one else f"R{i:05}" for i in range(count)]
        rules = [{"id": it} for it in names]
        yield Input([log(run([{"ruleId": it} for it in names], {"rules": rules}))])


# ---- Matching


def equal_results(count):
    """Equal results on both sides, compared with different ones."""
    for is_one in (True, False):
        text = log(run([message(f"{0 if is_one else i:06}", ruleId="R") for i in range(count)]))
        yield Input([text], [text])


def equal_prints(count):
    """Results with one fingerprint and different messages, compared with one fingerprint per result."""
    for is_one in (True, False):
        sides = [
            log(
                run(
                    [
                        message(
                            f"{side}{i:06}",
                            partialFingerprints={"p/v1": f"{0 if is_one else i:06}"},
                            **at(f"{side}{i}.c"),
                        )
                        for i in range(count)
                    ]
                )
            )
            for side in "ab"
        ]
        yield Input(sides[:1], sides[1:])


def many_names(count):
    """Fingerprints that are all in conflict, compared with ones that agree."""
    for other in "ba":
        sides = [
            log(
                run(
                    [
                        message(
                            fingerprints={f"f{i % 300}/v1": f"{side}{i}", "g/v1": f"{i // 300}"}
                        )
                        for i in range(count)
                    ]
                )
            )
            for side in ("a", other)
        ]
        yield Input(sides[:1], sides[1:])


def arguments(count):
    """A message with many arguments on both sides, compared with a list that isn't read."""
    words = [f"{i}" for i in range(count)]
    for result in (
        {"message": {"id": "m", "arguments": words}},
        {"message": {"id": "m", "argumentx": words}},
    ):
        text = log(run([result]))
        yield Input([text], [text])


# ---- Reports


def told_rule(count):
    """Results that name the last of as many rules by its id, compared with ones that name the first."""
    rules = [{"id": f"R{i:06}"} for i in range(count)]
    for number in (count - 1, 0):
        results = [{"ruleId": f"R{number:06}"}] * count
        yield Input([log(run(results, {"rules": rules}))], are_reported=True)


def told_path(count):
    """Results at one artifact with a long URI, compared with a URI of the length that is shown."""
    for location in ({"uri": LONG}, {"uri": LONG[:1001], "x": LONG}):
        results = [placed(index=0)] * count
        text = log(run(results, artifacts=[{"location": location}]))
        yield Input([text], are_reported=True)


def told_message(count, texts=(LONG + "{0}", LONG[:1001] + "{0}"), argument="a"):
    """Results with one long message of their rule, compared with a message of the length that is shown."""
    for text, other in (texts, texts[::-1]):
        rule = {"id": "R", "messageStrings": {"m": {"text": text, "x": other}}}
        result = {"ruleIndex": 0, "message": {"id": "m", "arguments": [argument]}}
        yield Input([log(run([result] * count, {"rules": [rule]}))], are_reported=True)


def told_nothing(count):
    """Results with a message of placeholders that become empty, compared with placeholders that stay."""
    yield from told_message(count, ("{0}" * 33_000, "{1}" * 33_000), "")


def told_brackets(count):
    """A message of brackets, compared with one of letters."""
    for text in ("[" * count, "a" * count):
        yield Input([log(run([message(text)]))], are_reported=True)


def told_links(count):
    """A message of links without text, compared with one of letters."""
    for text in ("[](1)", "aaaaa"):
        yield Input([log(run([message(text * count)]))], are_reported=True)


def told_open_links(count):
    """A long message of a rule that begins with `[`, compared with one that does not."""
    yield from told_message(count, ("[" + LONG, "a" + LONG))


# ---- JSON


def fractions(count):
    """Numbers with a fraction, which are dropped with their members, compared with integers."""
    for number in (1.5, 125):
        yield Input([log(run([message(properties={f"m{i}": number for i in range(count)})]))])


def fractions_in_lists(count):
    """Numbers with a fraction in lists, compared with integers."""
    for number in (1.5, 125):
        yield Input([log(run([message(properties={"m": [[number]] * count})]))])


def reversed_members(count):
    """Members in the reverse order of their names, compared with members in order."""
    for order in (-1, 1):
        members = {f"m{i:06}": i for i in range(count)[::order]}
        yield Input([log(run([message(properties=members)]))])


def repeated_members(count):
    """Members with one name, of which the last counts, compared with members with different names."""
    for is_one in (True, False):
        members = ",".join(f'"m{0 if is_one else i:06}":{i}' for i in range(count))
        text = log(run([message(properties={"x": 0})]))
        yield Input([text.replace('"x":0', members)])


def depth(count):
    """Values nested 115 deep, compared with lists with the same number of brackets."""
    for value in ("[" * 115 + "]" * 115, "[" + "[]," * 76 + "]"):
        value = value.replace(",]", "]")
        text = log(run([message(properties={"x": 0})] * (count // 115)))
        yield Input([text.replace('"x":0', f'"x":{value}')])


def escapes(count):
    """A string of escapes, compared with one of plain characters."""
    for text in ("\\u0001", "\\\\\\n\\t"):
        whole = log(run([message("TEXT")])).replace("TEXT", text * count)
        yield Input([whole])


# ---- Runs and sources


def runs_by_64(count):
    """Many runs with one result each, with 64 workers, compared with one worker."""
    text = log(*[run([{}]) for _ in range(count)])
    for workers in (64, 1):
        yield Input([text], workers=workers)


def sources(count):
    """Logs with one run each, compared with one log with as many runs."""
    yield Input([log(run([{}] * 20))] * count)
    yield Input([log(*[run([{}] * 20)] * count)])


# ---- What is written for later merges


def accepted_alike(count):
    """Hits that one entry accepts. The twin has no hits."""
    for level in ("error", "note"):
        results = [message(level=level, ruleId="R1") for _ in range(count)]
        yield Input([log(run(results))], kept="accept")


def chosen_places(count):
    """Hits of one file, rule and message, of which 1,000 are accepted by their places. The twin accepts all of them."""
    results = [message(level="error", ruleId="R1", **in_region(startLine=n + 1)) for n in range(count)]
    for places in (range(1, 1_001), ()):
        yield Input([log(run(results))], kept="accept", places=tuple(f"a.c:{n}" for n in places))


def accepted_of_long_tool(count):
    """Hits whose entries are too long together, since each has the long name of their tool."""
    for name in (LONG, "t"):
        results = [message(f"m{n}", level="error", ruleId="R1") for n in range(count)]
        made = log(run(results, {"name": name, "fullName": LONG if name == "t" else ""}))
        yield Input([made], kept="accept", is_too_long=name == LONG)


def deep_file(count):
    """A suppression file with numbers in 120 arrays, so that the new file would be too long: each number is on its own
    line. The twin has them in one array."""
    for depth in (120, 1):
        value = "[" * depth + ",".join(["1"] * count) + "]" * depth
        file = entries([]).replace('"version"', f'"x":{value},"version"', 1)
        made = log(run([message(level="error")]))
        yield Input([made], suppress=file, kept="accept", is_too_long=depth > 1)


def known_tools(count):
    """Runs of as many tools. The twin has one tool."""
    for name in ("t{}", "t"):
        runs = [run([message(ruleId="R1")], {"name": name.format(n)}) for n in range(count)]
        yield Input([log(*runs)], kept="known")


def known_long_rule(count):
    """Known results that are too long together, since each has the long id of their rule."""
    for identity in (LONG, "R"):
        rule = {"id": identity, "name": LONG if identity == "R" else ""}
        results = [message(f"m{n}", ruleIndex=0) for n in range(count)]
        yield Input([log(run(results, {"rules": [rule]}))], kept="known", is_too_long=identity == LONG)


# ---- Matching by snippets and lines: version 3


def shared_snippet(count):
    """Results with one snippet of a megabyte, in logs of 50 results each."""
    for name, other in (("text", "x"), ("x", "text")):
        snippet = {name: MEGABYTE, other: "s"}
        results = [message(**in_region(startLine=1, snippet=snippet))] * 50
        yield Input(logs_of(results, 50) * (count // 50), logs_of(results[:1], 1), matching=3)


def long_snippets(costly, harmless):
    """Results with a snippet of about 60 kB, which is made from a number, on other lines than in the baseline."""

    def make(count):
        for text in (costly, harmless):
            sides = [
                [message(**in_region(startLine=line + i, snippet={"text": text(i)})) for i in range(count)]
                for line in (1, 1_000_001)
            ]
            now, before = (logs_of(it, 1_000) for it in (sides[0], sides[1][::-1]))
            yield Input(now, before, matching=3)

    return make


def in_one_group(members):
    """Results on both sides, which are made from a number that is the same for all, compared with different ones."""

    def make(count):
        for is_one in (True, False):
            text = log(run([members(f"{0 if is_one else i:06}") for i in range(count)]))
            yield Input([text], [text], matching=3)

    return make


def copies(count):
    """Copies of one result on both sides, compared with different results."""
    for is_one in (True, False):
        lines = [1_000_000 + (0 if is_one else i) for i in range(count)]
        text = log(run([message(**in_region(startLine=it)) for it in lines]))
        yield Input([text], [text], matching=3, once=True)


def names_of_one_value(value):
    """A name of a fingerprint for each result, all with one value, compared with one name."""

    def make(count):
        for is_one in (False, True):
            names = [f"f{0 if is_one else i:06}/v1" for i in range(count)]
            results = [message(fingerprints={it: value}) for it in names]
            yield Input([log(run(results))], [log(run(results[::-1]))], matching=3)

    return make


def names_and_message(count):
    """20 results that all have many names of fingerprints and one message of a megabyte."""
    for name, other in (("text", "x"), ("x", "text")):
        told = {name: MEGABYTE, other: "m"}
        sides = [{f"f{i}/v1": side for i in range(count)} for side in "ab"]
        now, before = ([{"message": told, "fingerprints": it}] * 20 for it in sides)
        yield Input(logs_of(now, 20), logs_of(before, 20), matching=3)


def contexts(count):
    """Results whose bytes are nearly all in `contextRegion`, compared with a member that isn't read."""
    for name in ("contextRegion", "regionContext"):
        region = {"startLine": 7, "endLine": 7, "properties": {f"p{i:03}": "n" * 60 for i in range(12)}}
        context = {name: {**region, "snippet": {"text": "s" * 50}}}
        results = [message(**in_region(context, startLine=7))] * count
        yield Input([log(run(results))], [log(run(results[:1]))], matching=3)


def repeated_contexts(count):
    """A result with many members of the name `contextRegion`, compared with a name that isn't read."""
    for name in ("contextRegion", "regionContext"):
        text = log(run([message(**in_region({"x": 0}, startLine=7))]))
        members = [f'"{name}":{{"startLine":7}}'] * count
        yield Input([text.replace('"x":0', ",".join(members))], [text], matching=3)


def colliding_snippets(count):
    for parts in (SAME_HASH, OTHER_HASH):
        texts = [hashed(i, parts) for i in range(count)]
        results = [message(**in_region(startLine=1, snippet={"text": it})) for it in texts]
        yield Input([log(run(results))], [log(run(results[::-1]))], matching=3)


def in_version_2(make):
    return lambda count: (replace(it, matching=2) for it in make(count))


# The function that makes a costly input and its twin, and the size at which they are measured.
SHAPES = {
    # Tool names, rule ids, URIs and their bases of 100,000 bytes, which many results share.
    "tool_name": (tool_name, 20_000),
    "rule_id": (rule_id, 20_000),
    "artifact_uri": (artifact_uri, 20_000),
    "artifact_base": (artifact_base, 20_000),
    "shared_texts": (shared_texts, 20_000),
    "tool_and_names": (tool_and_names, 20_000),
    # Names with the same hash.
    "colliding_names": (colliding_names, 20_000),
    "colliding_rules": (colliding_rules, 20_000),
    "colliding_entries": (colliding_entries, 10_000),
    # Entries, by their only condition.
    "entry_of_names": (entry_of_names, 20_000),
    "own_suppressions": (own_suppressions, 100_000),
    "equal_objects": (equal_objects, 50_000),
    "entries_uri": (entries_by(lambda i: {"uri": f"srx/{i}.c"}), 10_000),
    "entries_prefix": (entries_by(lambda i: {"uriPrefix": f"src/{i}.cc"}), 10_000),
    "entries_beginning": (entries_beginning, 20_000),
    "entries_fingerprint": (entries_by(lambda i: {"fingerprints": {"f/v1": f"x{i}"}}), 10_000),
    "entries_partial": (entries_by(lambda i: {"partialFingerprints": {"p/v1": f"x{i}"}}), 10_000),
    "entries_tool": (entries_by(lambda i: {"tool": f"u{i}"}), 10_000),
    "entries_rule_and_uri": (
        entries_by(lambda i: {"ruleId": f"R{i % 50}", "uri": f"srx/{i}.c"}),
        10_000,
    ),
    # Accepted results without fingerprints: one text in many files, and many texts in one file.
    "accepted_of_one_text": (accepted(lambda n: "m", lambda n: f"src/{n}.c"), 200_000),
    "accepted_of_one_file": (accepted(lambda n: f"m{n}", lambda n: "src/a.c"), 200_000),
    # The same for messages without a text: many ids, and one id with many arguments.
    "accepted_of_one_argument": (accepted_by_id(lambda n: f"m{n}", lambda n: ["a"]), 200_000),
    "accepted_of_one_id": (accepted_by_id(lambda n: "m", lambda n: ["a", n]), 200_000),
    # Accepted results of one fingerprint: many snippets in one file, and one snippet in many files.
    "accepted_of_snippets": (accepted_by_snippet(lambda n: f"x{n}", lambda n: "src/a.c"), 200_000),
    "accepted_of_one_snippet": (accepted_by_snippet(lambda n: "REDACTED", lambda n: f"src/{n}.c"), 200_000),
    "overrides_of_nothing": (overrides_of_nothing, 20_000),
    "overrides_of_one": (overrides_of_one, 20_000),
    "invocations": (invocations, 20_000),
    "extensions": (extensions, 20_000),
    "equal_rules": (equal_rules, 20_000),
    "equal_results": (equal_results, 20_000),
    "equal_prints": (equal_prints, 20_000),
    "many_names": (many_names, 20_000),
    "arguments": (arguments, 100_000),
    # Long strings that reports show for many results.
    "told_rule": (told_rule, 20_000),
    "told_path": (told_path, 20_000),
    "told_message": (told_message, 20_000),
    "told_nothing": (told_nothing, 2_000),
    "told_brackets": (told_brackets, 1_000_000),
    "told_links": (told_links, 200_000),
    "told_open_links": (told_open_links, 2_000),
    # Code and names of rules that reports show, and files with a group each.
    "told_long_snippets": (told_long_snippets, 6_000),
    "told_snippets": (told_snippets, 100_000),
    "told_names": (told_names, 20_000),
    "told_files": (told_files, 100_000),
    "fractions": (fractions, 100_000),
    "fractions_in_lists": (fractions_in_lists, 200_000),
    "reversed_members": (reversed_members, 100_000),
    "repeated_members": (repeated_members, 100_000),
    "depth": (depth, 1_000_000),
    "escapes": (escapes, 500_000),
    "runs_by_64": (runs_by_64, 10_000),
    "sources": (sources, 1_000),
    # The new suppression file and the known log.
    "accepted_alike": (accepted_alike, 200_000),
    "chosen_places": (chosen_places, 100_000),
    "accepted_of_long_tool": (accepted_of_long_tool, 9_000),
    "deep_file": (deep_file, 2_000_000),
    "known_tools": (known_tools, 10_000),
    "known_long_rule": (known_long_rule, 20_000),
    # Version 3 of matching: snippets of a megabyte, and of 60 kB that differ only at the end or in white space.
    "shared_snippet": (shared_snippet, 1_000),
    "snippets_by_end": (
        long_snippets(lambda i: "n" * 60_000 + f"{i:04}", lambda i: f"{i:04}" + "n" * 60_000),
        1_000,
    ),
    "snippets_by_space": (
        long_snippets(lambda i: "n " * i + " n" * (30_000 - i), lambda i: "n" * 60_000),
        1_000,
    ),
    "colliding_snippets": (colliding_snippets, 20_000),
    # Results of one group: with nothing else, with one region, with one fingerprint. A merge has at most 1,000,000.
    "one_group": (in_one_group(message), 500_000),
    "one_group_region": (in_one_group(lambda n: in_region(startLine=int(f"1{n}"))), 500_000),
    "one_group_print": (in_one_group(lambda n: {"fingerprints": {"f/v1": n}}), 500_000),
    "copies": (copies, 500_000),
    # Names of fingerprints, also with the empty value, and next to a message of a megabyte.
    "names_of_one_value": (names_of_one_value("x"), 20_000),
    "names_of_no_value": (names_of_one_value(""), 20_000),
    "names_and_message": (names_and_message, 1_000),
    # Logs of 64 MiB that are nearly all `contextRegion`.
    "contexts": (contexts, 60_000),
    "repeated_contexts": (repeated_contexts, 1_900_000),
    # Entries that differ only in the snippet: it is their only condition, or they are as --accept writes them.
    "entries_snippet": (entries_of_snippets({}), 10_000),
    "entries_rule_and_snippet": (
        entries_of_snippets({"tool": "t", "ruleId": "R", "message": "m", "uri": "a.c"}),
        10_000,
    ),
    # Entries of one snippet and one file, which differ in a fingerprint or in the message.
    "entries_snippet_print": (entries_of_one_snippet(of_print), 10_000),
    "entries_snippet_message": (entries_of_one_snippet(of_message), 10_000),
    # Results with a snippet of a megabyte, and an entry that is filed under its message or another long snippet.
    "long_snippet_message": (message_entries_and_long_snippet, 1_000),
    "long_snippet_entry": (entries_and_long_snippet, 1_000),
    # Entries with `max` 1 and a condition that is true for all results.
    "entries_max": (entries_with_max({"tool": "t"}, {"tool": "u"}), 10_000),
    # Entries with `max` that are used up one after the other, also beside one with a long snippet, and one that admits all.
    "entries_max_in_turn": (entries_used_up_in_turn, 10_000),
    "entries_max_long": (long_entry_and_used_up_ones, 200),
    "entry_max_of_all": (an_entry_that_admits_all, 100_000),
    **OF_CHANGES,
    **OF_POLICIES,
}
# The same in version 2.
BOTH_VERSIONS = (
    "shared_snippet",
    "snippets_by_end",
    "snippets_by_space",
    "colliding_snippets",
    "one_group",
    "one_group_region",
    "one_group_print",
    "copies",
    "names_of_one_value",
    "names_of_no_value",
    "names_and_message",
    "contexts",
    "repeated_contexts",
    "entries_snippet",
    "entries_rule_and_snippet",
    "entries_snippet_print",
    "entries_snippet_message",
    "long_snippet_message",
    "long_snippet_entry",
)
SHAPES |= {f"{name}_2": (in_version_2(SHAPES[name][0]), SHAPES[name][1]) for name in BOTH_VERSIONS}
