"""Costly inputs whose reports show code, names of rules or many files, each with its twin."""

from shape_parts import LONG, Input, at, in_region, log, logs_of, message, run

LINE = "n" * 79 + "\n"


def told(results):
    """An input whose results are hits, so that reports tell all that they tell of a hit."""
    return Input(logs_of([{**it, "level": "error"} for it in results], 50_000), are_reported=True)


def told_long_snippets(count):
    """A result for each hundred, each with a snippet of a megabyte that ends with its line, compared with a member that
    isn't read."""
    lines = 1_000_000 // len(LINE)
    for name in ("snippet", "snippets"):
        context = {"contextRegion": {"startLine": 1, "endLine": lines, name: {"text": LINE * lines}}}
        yield told([message(f"m{i}", **in_region(context, startLine=lines)) for i in range(count // 100)])


def told_snippets(count):
    """Results with a snippet of 600 bytes, compared with a member that isn't read."""
    for name in ("snippet", "snippets"):
        yield told([message(**in_region(startLine=i + 1, **{name: {"text": LINE * 7 + "n" * 40}})) for i in range(count)])


def told_files(count):
    """Results in as many files, compared with results in one."""
    for is_one in (False, True):
        yield told([message(f"{i:06}", **at(f"src/{0 if is_one else i:06}.c")) for i in range(count)])


def told_names(count):
    """Results of a rule for each hundred of them, whose name is its long id, and whose description differs only at the end,
    compared with members that aren't read."""
    for name, description in (("name", "shortDescription"), ("names", "shortDescriptions")):
        ids = [f"{LONG[5:]}{i:05}" for i in range(count // 100)]
        described = lambda it: {name: it, description: {"text": it[:-1] + "n"}, "helpUri": "https://example.org/"}
        rules = [{"id": it, **described(it)} for it in ids]
        results = [message(level="error", ruleIndex=i % len(rules)) for i in range(count)]
        yield Input([log(run(results, {"rules": rules}))], are_reported=True)
