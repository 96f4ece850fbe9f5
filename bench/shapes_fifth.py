"""Costly inputs with suppression files of version 5, each with its twin."""

from shape_parts import MEGABYTE, Input, at, entries, in_region, log, logs_of, message, run


def entries_of_snippets(condition):
    """Ten results per entry, each with its own snippet. The entries differ only in the snippet, and match no result.
    They are compared with as many by GUID."""

    def make(count):
        results = [
            message(ruleId="R", **in_region(startLine=i + 1, snippet={"text": f"s{i}"})) for i in range(count * 10)
        ]
        text = log(run(results))
        found = [{**condition, "snippet": f"x{i}"} for i in range(count)]
        yield Input([text], suppress=entries(found, 5), matching=3)
        guid = "00000000-0000-0000-0000-{:012}"
        found = [{**condition, "guid": guid.format(i)} for i in range(count)]
        yield Input([text], suppress=entries(found, 5), matching=3)

    return make


def entries_of_one_snippet(member):
    """Ten results per entry, all with one snippet, as redacted ones are, and in one file. Results and entries differ in
    what `member` makes from a number, and no entry matches. The entries are compared with as many by GUID."""

    def make(count):
        region = in_region(startLine=1, snippet={"text": "REDACTED"})
        results = [{**message(ruleId="R"), **member(f"{i}", False), **region} for i in range(count * 10)]
        text = log(run(results))
        accepted = {"tool": "t", "ruleId": "R", "uri": "a.c", "snippet": "REDACTED"}
        found = [{**accepted, **member(f"x{i}", True)} for i in range(count)]
        yield Input([text], suppress=entries(found, 5), matching=3)
        guid = "00000000-0000-0000-0000-{:012}"
        found = [{**accepted, "guid": guid.format(i)} for i in range(count)]
        yield Input([text], suppress=entries(found, 5), matching=3)

    return make


def of_print(word, is_entry):
    return {"fingerprints": {"f/v1": word}}


def of_message(word, is_entry):
    return {"message": word if is_entry else {"text": word}}


def entries_with_max(condition, harmless):
    """Ten results per entry, and entries with `max` 1 and a condition that is true for all results. Each entry is used up
    by the first result. The twin's condition is true for none."""

    def make(count):
        text = log(run([message(ruleId="R", **in_region(startLine=i + 1)) for i in range(count * 10)]))
        for it in (condition, harmless):
            yield Input([text], suppress=entries([{**it, "max": 1}] * count, 5))

    return make


def entries_used_up_in_turn(count):
    """Entries with `max` 1, 100 for each file, and 103 results in each file, one file after the other. So entries are used
    up again and again. They are compared with entries without `max`."""
    uris = [f"{i}.c" for i in range(count // 100)]
    text = log(run([message(f"m{i}", ruleId="R", **at(uri)) for uri in uris for i in range(103)]))
    for limit in ({"max": 1}, {}):
        yield Input([text], suppress=entries([{"uri": uri, **limit} for uri in uris] * 100, 5))


def long_entry_and_used_up_ones(count):
    """An entry with a snippet of 10 megabytes and a `max` that is never reached, and entries with `max` 1, one for each
    file, whose results come one file after the other. They are compared with entries without `max`."""
    uris = [f"{i}.c" for i in range(count)]
    text = log(run([message(f"m{i}", ruleId="R", **at(uri)) for uri in uris for i in range(count)]))
    for limit in ({"max": 1}, {}):
        many = [{"snippet": MEGABYTE * 10, **limit}, *({"uri": uri, **limit} for uri in uris)]
        yield Input([text], suppress=entries(many, 5))


def an_entry_that_admits_all(count):
    """An entry with a `max` that is never reached and a condition that is true for all results, compared with the same
    entry without `max`."""
    text = log(run([message(ruleId="R", **in_region(startLine=i + 1)) for i in range(count)]))
    for limit in ({"max": 4_000_000_000}, {}):
        yield Input([text], suppress=entries([{"tool": "t", **limit}], 5))


def message_entries_and_long_snippet(count):
    """Results with one snippet of a megabyte, in logs of 50 results each, with an entry by message, so that no entry is
    filed under a snippet. They are compared with results whose snippet isn't read."""
    found = entries([{"message": "x", "uri": "a.c"}], 5)
    for name, other in (("text", "x"), ("x", "text")):
        results = [message(**in_region(startLine=1, snippet={name: MEGABYTE, other: "s"}))] * 50
        yield Input(logs_of(results, 50) * (count // 50), suppress=found, matching=3)


def entries_and_long_snippet(count):
    """The same with an entry of another snippet of a megabyte, which is compared with an entry of a GUID."""
    results = [message(**in_region(startLine=1, snippet={"text": MEGABYTE}))] * 50
    for it in ({"snippet": MEGABYTE[1:] + "x"}, {"guid": "00000000-0000-0000-0000-000000000000"}):
        yield Input(logs_of(results, 50) * (count // 50), suppress=entries([it], 5), matching=3)


def accepted_by_snippet(text, uri):
    """Results of one rule, message and fingerprint, with a twentieth as many entries, which name these and a snippet
    of no result, compared with as many by GUID. Snippet and URI are made from a number; one may be the same for all."""

    def make(count):
        print_ = {"fingerprints": {"f/v1": "x"}}
        results = [
            message("m", ruleId="R", locations=[placed_snippet(text(f"{i}"), uri(f"{i}"))], **print_)
            for i in range(count)
        ]
        merged, many = log(run(results)), range(count // 20)
        conditions = [
            {"tool": "t", "ruleId": "R", "snippet": text(f"x{i}"), "uri": uri(f"x{i}"), **print_}
            for i in many
        ]
        yield Input([merged], suppress=entries(conditions, 5), matching=3)
        guid = "00000000-0000-0000-0000-{:012}"
        found = [{"tool": "t", "ruleId": "R", "guid": guid.format(i)} for i in many]
        yield Input([merged], suppress=entries(found, 5), matching=3)

    return make


def placed_snippet(text, uri):
    """A location with a snippet."""
    region = {"startLine": 1, "snippet": {"text": text}}
    return {"physicalLocation": {"artifactLocation": {"uri": uri}, "region": region}}
