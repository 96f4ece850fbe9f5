"""Costly inputs with a diff, each with its twin. The twin's diff is as long, and its log has as many results."""

from shape_parts import LONG, Input, log, logs_of, message, placed, run

MOST_BYTES = 67_108_864
# Results that are hits if they are inside: their places are read.
ERROR = {"level": "error"}


def section(name, *hunks):
    return f"diff --git a/{name} b/{name}\n--- a/{name}\n+++ b/{name}\n" + "".join(hunks)


def one_line(line, text="y"):
    """A hunk that replaces one line."""
    return f"@@ -{line} +{line} @@\n-x\n+{text}\n"


def filled(diff, size):
    """The diff after so many lines of text that it has this size."""
    return ("t" * 99 + "\n") * (max(0, size - len(diff)) // 100) + diff


def on_line(uri, line):
    """An error on a line of a file."""
    place = {"physicalLocation": {"artifactLocation": {"uri": uri}, "region": {"startLine": line}}}
    return {**ERROR, "locations": [place]}


def lines_of(uri, lines):
    """Logs with a result on each of these lines of a file."""
    return logs_of([on_line(uri, line) for line in lines], 500_000)


def hunks_of_files(files):
    """Hunks of one line, in so many files, up to the largest diff. The twin has one of them after text that is ignored."""

    def make(count):
        room = MOST_BYTES // count - 40
        hunks = [one_line(2 * i + 1, "y" * room) for i in range(count)]
        part = count // min(files, count)
        names = range(0, count, part)
        diff = "".join(section(f"{i}.c", *hunks[i : i + part]) for i in names)[:MOST_BYTES]
        diff = diff[: diff.rindex("@@ -")]
        given = lines_of("0.c", range(2, 2_002, 2))
        yield Input(given, diff=diff)
        yield Input(given, diff=filled(section("0.c", hunks[0]), len(diff)))

    return make


def sections(count):
    """Sections without hunks. The twin has one of them after text that is ignored."""
    name = lambda i: f"diff --git a/{i:07} b/{i:07}\n"
    diff = "".join(name(i) for i in range(count))
    given = lines_of("0000000", range(1, 1_001))
    yield Input(given, diff=diff)
    yield Input(given, diff=filled(name(0), len(diff)))


def one_last_part(count):
    """Files of one last part, each with a changed line, and ten times as many results at that part alone, each on a line
    that didn't change. The twin's results are in a file that the diff doesn't have."""
    hunks = [one_line(2 * i + 1) for i in range(count)]
    diff = "".join(section(f"{i:06}/a.c", hunk) for i, hunk in enumerate(hunks))
    for uri in ("a.c", "b.c"):
        yield Input(lines_of(uri, range(2, 20 * count + 2, 2)), diff=diff)


def long_paths(part, plain):
    """Results with paths of 100,000 bytes of the same part again and again, in a change of a file with such a path. The
    twin's paths are one long name."""

    def make(count):
        for it in (part, plain):
            path = it * (100_000 // len(it))
            results = [on_line(f"{i:06}/{path}x", 5) for i in range(count)]
            name = path.replace("%2F", "/").replace("../", "aa/")
            yield Input([log(run(results))], diff=section(f"{name}x", one_line(1)))

    return make


def shared_path(count):
    """Results of one artifact with a long URI, compared with a URI that isn't read."""
    for location in ({"uri": LONG}, {"uri": "u", "x": LONG}):
        artifacts = [{"location": location}]
        results = [{**ERROR, **placed(index=0)}] * count
        yield Input([log(run(results, artifacts=artifacts))], diff=section("a.c", one_line(1)))


def many_places(count):
    """A result with so many locations, compared with a member that isn't read. A first location is in both."""
    place = {"physicalLocation": {"artifactLocation": {"uri": "b.c"}}}
    for name, other in (("locations", "places"), ("places", "locations")):
        results = [{**ERROR, name: [place] * count, other: [place]}]
        yield Input([log(run(results))], diff=section("a.c", one_line(1)))


def many_steps(count):
    """The same with steps of a code flow."""
    place = {"physicalLocation": {"artifactLocation": {"uri": "b.c"}}}
    for name in ("codeFlows", "flows"):
        flow = {"threadFlows": [{"locations": [{"location": place}] * count}]}
        yield Input([log(run([{**ERROR, "locations": [place], name: [flow]}]))], diff=section("a.c", one_line(1)))


def quoted_names(count):
    """Sections with a quoted name of 20,000 backslashes, compared with unquoted names of as many bytes."""
    for name in ('"{}/' + "\\\\" * 20_000 + '{:06}"', "{}/x" + "n" * 40_000 + "{:06}x"):
        one = lambda i: "diff --git " + name.format("a", i) + " " + name.format("b", i) + "\n"
        yield Input([log(run([message()]))], diff="".join(map(one, range(count))))


def whole_files(count):
    """Files of one last part that are changed whole, and results without lines in a file that is none of them."""
    mode = "old mode 100644\nnew mode 100755\n"
    diff = "".join(f"diff --git a/{i:06}/a.c b/{i:06}/a.c\n{mode}" for i in range(count))
    for uri in ("x/a.c", "x/b.c"):
        yield Input([log(run([{**ERROR, **placed(uri=uri)}] * count))], diff=diff)


SHAPES = {
    # Diffs of 64 MiB: hunks in one file and in many, sections without hunks.
    "diff_hunks": (hunks_of_files(1), 1_000_000),
    "diff_hunks_of_files": (hunks_of_files(100_000), 1_000_000),
    "diff_sections": (sections, 1_000_000),
    "diff_quoted_names": (quoted_names, 800),
    # Results in files that may be many changed ones.
    "diff_one_last_part": (one_last_part, 100_000),
    "diff_whole_files": (whole_files, 100_000),
    # Paths of 100,000 bytes, also one that all results share.
    "diff_letters": (long_paths("a/", "aa"), 600),
    "diff_dots": (long_paths("../", "aaa"), 600),
    "diff_escapes": (long_paths("a%2F", "a%61"), 600),
    "diff_shared_path": (shared_path, 20_000),
    # A result with many places.
    "diff_places": (many_places, 1_000_000),
    "diff_steps": (many_steps, 800_000),
}
