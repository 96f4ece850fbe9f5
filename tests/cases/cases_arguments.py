"""Cases of arguments from files."""

import json

from cases import *

BAD = log(run("lint", ruled(level="error", **at("a.c"))))
PASSES = gate("pass", 1, most=1, new=[1, 0, 0, 0])
WITHOUT_NUMBER = gate("fail", 1, new=[1, 0, 0, 0])


def given(name, words, g=None, **wanted):
    """Arguments for a log `a.sarif` with an error, and a file of arguments `g`."""
    words = words.split() if isinstance(words, str) else list(words)
    files = {"a.sarif": BAD, **({} if g is None else {"g": g}), **wanted.pop("files", {})}
    return Case("arguments", name, words, files=files, **wanted)


def passes(name, words, g, **wanted):
    """They allow one hit."""
    return given(name, words, g, check=tells(PASSES, ["new"]), **wanted)


def one_hit_is_allowed():
    base = "--out o @g a.sarif"
    for name, g in [
        ("one line", b"--max=1\n"),
        ("two lines", b"--max\n1\n"),
        ("a carriage return at each line's end", b"--max\r\n1\r\n"),
        ("an order mark", b"\xef\xbb\xbf--max=1\n"),
        ("no last line feed", b"--max\n1"),
        ("empty lines and comments", b"\n# a\n\r\n#@x\n\n--max=1\n#"),
        ("10,000 lines", b"--max=1\n" + b"\n" * 9_999),
        ("10,000 lines, the last without its end", b"\n" * 9_999 + b"--max=1"),
        ("1,048,576 bytes", b"--max=1\n#" + b"x" * 1_048_567),
        ("1,048,576 bytes with an order mark", b"\xef\xbb\xbf--max=1\n#" + b"x" * 1_048_564),
    ]:
        yield passes(name, base, g)
    yield passes("the file first", "@g --out o a.sarif", b"--max=1\n")
    yield passes("the file last", "--out o a.sarif @g", b"--max=1\n")
    yield passes("all arguments in the file", "@g", b"--out\no\n--max=1\na.sarif\n")
    yield passes("standard input in a file", "--out o @g", b"--max=1\n-\n", stdin=BAD)
    yield passes("another file's own arguments", "--out o @g @h a.sarif", b"--max\n", files={"h": b"1\n"})
    yield passes("a name with a space", ["--out", "o", "@g h", "a.sarif"], None, files={"g h": b"--max=1"})


def reasons():
    """What stands in a file or after `=` is the value, byte for byte."""
    accept = "--out o --suppress-out n --accept".split()
    for name, more, files, reason in [
        ("spaces, quotes and a number sign", ["@g"], {"g": b'--reason\n text  "words" # x\n'}, ' text  "words" # x'),
        ("one of two carriage returns", ["@g"], {"g": b"--reason=x\r\r\n"}, "x\r"),
        ("a carriage return without its line feed", ["@g"], {"g": b"--reason=x\r"}, "x\r"),
        ("the value of an option from a file", ["--reason", "@g"], {"g": b"x\n--max=1\n"}, "x"),
        ("a value that begins with an at sign", ["--reason=@g"], {}, "@g"),
        ("an at sign within a line", ["@g"], {"g": b"--reason=@g\n"}, "@g"),
    ]:
        def look(folder, kept, reason=reason):
            entry = json.loads((folder / "n").read_bytes())["suppressions"][0]
            return [f"the reason is {entry['justification']!r}"] * (entry["justification"] != reason)

        yield given(f"reason: {name}", [*accept, *more, "a.sarif"], files=files, look=look, status=1 - ("--max=1" in str(files)))


def names():
    log_at = {"@x": BAD}
    failed = tells(WITHOUT_NUMBER, ["new"])
    wanted = {"status": 1, "check": failed}
    yield given("a log after --", "--out o -- @x", files=log_at, **wanted)
    yield given("a log after -- in a file", "--out o @g @x", b"--\n", files=log_at, **wanted)
    yield given("a log with its folder", "--out o ./@x", files=log_at, **wanted)
    yield given("an at sign alone", "--out o @", files={"@": BAD}, **wanted)
    yield given("a line with a space is a log", ["--out", "o", "@g", "a.sarif"], b" \n", **refused("log 0: ReadFailed"))
    g = b"\xef\xbb\xbf\xef\xbb\xbf#\n"
    yield given("one order mark is dropped", ["--out", "o", "@g", "a.sarif"], g, **refused("log 0: ReadFailed"))
    four = {name: BAD for name in ("b.sarif", "c.sarif", "d.sarif")}
    g = b"--max=1\nb.sarif\nc.sarif\nd.sarif\n"
    counted = tells(gate("fail", 4, most=1, new=[4, 0, 0, 0]), ["new"] * 4)
    yield given("three logs in a file", "--out o @g a.sarif", g, files=four, status=1, check=counted)


def says_why(told):
    """What our program says; the second merger says only what it takes."""

    def check(answer):
        said = answer.stderr.startswith(b"Usage:") or told.encode() in answer.stderr
        wrong = [f"it says {answer.stderr!r}, and not {told!r}"] * (not said)
        return wrong + says_what_is_wrong(answer) + ["an output was written"] * (answer.out != b"old")

    return check


def usage():
    file = "the file of arguments g "
    nested = file + "has a line that begins with @, and files of arguments do not nest"
    for name, g, told in [
        ("an option and its value on one line", b"--max 1\n", "--max 1"),
        ("a file in a file", b"@h\n", nested),
        ("a file in a file after --", b"--\n@h\n", nested),
        ("an at sign alone in a file", b"@\n", nested),
        ("a byte that isn't UTF-8", b"\xff", file + "is not UTF-8"),
        ("such a byte in a comment", b"#\xff\n", file + "is not UTF-8"),
        ("a surrogate", b"\xed\xa0\x80", file + "is not UTF-8"),
        ("a surrogate in a comment", b"#\xed\xa0\x80\n", file + "is not UTF-8"),
        ("a NUL", b"\0", file + "has a NUL character"),
        ("a NUL in a comment", b"#\0\n", file + "has a NUL character"),
        ("an option twice", b"--max=1\n--max=1\n", "--max"),
        ("10,001 lines", b"--max=1\n" + b"\n" * 10_000, file + "has more than 10,000 lines"),
        ("1,048,577 bytes", b"--max=1\n#" + b"x" * 1_048_568, file + "has more than 1,048,576 bytes"),
    ]:
        old = {"o": b"old"}
        yield given(name, "--out o @g a.sarif", g, files=old, status=2, stdout=b"", check=says_why(told))
    for name, words, g in [
        ("an option in a file and beside it", "--out o @g --max 1 a.sarif", b"--max=1\n"),
        ("a file twice", "--out o @g @g a.sarif", b"--max=1\n"),
        ("a file without a log", "@g", b"--max=1\n"),
        ("an empty file alone", "@g", b""),
        ("a comment alone", "@g", b"#"),
        ("an order mark alone", "@g", b"\xef\xbb\xbf"),
        ("a bad file before --help", "@g --help", b"\0"),
        ("a bad file before one that isn't there", "--out o @g @none a.sarif", b"@h"),
    ]:
        old = {"o": b"old"}
        yield given(name, words, g, files=old, status=2, stdout=b"", stdin=BAD, check=says_why("error: "))


def unread():
    old = {"o": b"old"}
    failed = {"status": 3, "stdout": b"", "files": old, "out": b"old", "stdin": BAD}
    for words, name in [
        ("--out o @none a.sarif", "none"),
        ("@none", "none"),
        ("--bad @none", "none"),
        ("--help @none", "none"),
        ("--out o @none @g a.sarif", "none"),
        ("--out o none.sarif @none", "none"),
        ("--out o --explain @none a.sarif", "none"),
        ("--out o @- a.sarif", "-"),
        ("@-", "-"),
        ("--out o @. a.sarif", "."),
    ]:
        yield given(f"no file: {words}", words, b"@h", stderr=line(f"@{name}: ReadFailed"), **failed)
    yield given("a file that isn't there after --", "--out o -- @none", **refused("log 0: ReadFailed"))
    yield given(
        "a line that can't be written", "--out o @none a.sarif", status=3, streams={"stderr": FULL}
    )


def cases():
    for part in (one_hit_is_allowed, reasons, names, usage, unread):
        yield from part()
