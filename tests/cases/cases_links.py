"""Complete rows of Markdown and of the page with links and code, worked out by hand."""

from cases import *
from cases_shown import error, has, note, placed, report, said

LINK = "https://h/o/blob/S/{path}#L{line}"
BLOB = "https://h/o/blob/S/"
RULE = {"id": "R1", "helpUri": "https://e.org/?a=1&b=2", "name": 'No "f"'}
ROW = (
    '| yes | error | {} | <a href="https://e.org/?a=1&amp;b=2" title="No &#34;f&#34;"><code>R1</code></a> | '
    "<code>m</code><br><code>f&#40;a&#124;b&#41;&#59;</code> | <code>lint</code> | new |\n"
)
PLACE = "<code>src/a&#46;c&#58;12</code>"
PAGE_ROW = (
    '<li data-level="error" data-state="new" data-hit="yes">{} <b>error</b> <p>m</p><pre><code>f(a|b);</code></pre> <div>'
    '<a href="https://e.org/?a=1&amp;b=2" title="No &quot;f&quot;" rel="noopener noreferrer"><code>R1</code></a> '
    "<span><b>new</b> lint</span></div></li>\n"
)
PAGE_PLACE = "<code><i>src/a.c:</i>12</code>"


def lint(*results, rule=None):
    tool = {"driver": {"name": "lint", "rules": [rule or RULE]}}
    return log({"tool": tool, "results": list(results)})


def snippet(number=None, text="\tf(a|b);"):
    region = {"snippet": {"text": text}}
    return region if number is None else {"startLine": number, **region}


def one_row():
    hit = error(ruleId="R1", **said("m"), **placed("src/a.c", **snippet(12)))
    wanted = {"markdown": has(ROW.format(PLACE)), "html": has(PAGE_ROW.format(PAGE_PLACE))}
    yield report("a row links its rule and has a line of code", lint(hit), wanted, status=1)
    linked = f'<a href="{BLOB}src/a.c#L12">{PLACE}</a>'
    on_page = f'<a href="{BLOB}src/a.c#L12" rel="noopener noreferrer">{PAGE_PLACE}</a>'
    wanted = {
        "markdown": has(ROW.format(linked), "\nTo accept this hit, run the same merge with "),
        "html": has(PAGE_ROW.format(on_page)),
    }
    yield report("a row links its place", lint(hit), wanted, ["--link", LINK], status=1)
    wanted = {"markdown": has("<code>m</code> | <code>lint</code>", without=("<br>",))}
    yield report("a note has no code", lint(note(**{**hit, "level": "note"})), wanted)
    wanted = {"markdown": lambda text: [f"it has {text.count('<br>')} lines of code"] * (text.count("<br>") != 20)}
    yield report("twenty hits have their code", lint(*[hit] * 21), wanted, status=1)


ADDRESSES = [
    ("src/a b.c", 12, "src/a%20b.c#L12"),
    ("src/a b.c", None, "src/a%20b.c#L1"),
    ("%C3%A4%25%22.c", 3, "%C3%A4%25%22.c#L3"),
    ("a~b-c_d.e+f(g)", 1, "a~b-c_d.e%2Bf%28g%29#L1"),
    ("{line}.c", 3, "%7Bline%7D.c#L3"),
    ("./x/a.c", 1, "x/a.c#L1"),
    ("a/b:c", 1, "a/b%3Ac#L1"),
    ("a\\b", 1, "a%5Cb#L1"),
    *((it, 1, None) for it in ("/etc/x", "a//b", "a/", "../x", "a/../b", "a/./b", "..", "C:/x", "file:///x", "a:b/c")),
    *((it, 1, None) for it in ("a\u200bb", "a##b", "a" * 1001, None)),
]


def linked_to(address):
    """The place of a result links there, or has no link."""
    if address is None:
        return {kind: has(without=("<a ",)) for kind in ("markdown", "html")}
    begin = f'<a href="{BLOB}{address}"'
    return {"markdown": has(f"| {begin}><code>"), "html": has(f'{begin} rel="noopener noreferrer"><code')}


def addresses():
    for number, (uri, line, wanted) in enumerate(ADDRESSES):
        place = {} if uri is None else placed(uri, **({} if line is None else {"startLine": line}))
        given = log(run("lint", note(**said("m"), **place)))
        yield report(f"place {number}, {str(uri)[:20]!r}", given, linked_to(wanted), ["--link", LINK])
    rooted = ["--link", LINK, "--root", "file:///w/"]
    for uri, wanted in (("file:///w/../x", None), ("file:///w/x", "x#L1")):
        given = log(run("lint", note(**said("m"), **placed(uri))))
        yield report(f"a place with its root stripped, {uri}", given, linked_to(wanted), rooted)


def names():
    short = {"shortDescription": {"text": "No <b>"}}
    for number, (members, title, on_page) in enumerate([
        ({"name": "R1", **short}, ' title="No &#60;b&#62;"', ' title="No &lt;b&gt;"'),
        ({"name": 5, **short}, ' title="No &#60;b&#62;"', ' title="No &lt;b&gt;"'),
        ({"name": "", "shortDescription": {"text": ""}}, "", ""),
        ({"name": "n" * 101}, f' title="{"n" * 100}\u2026"', f' title="{"n" * 100}\u2026"'),
        ({"name": "\nx"}, ' title=" x"', ' title=" x"'),
    ]):
        rule = {"id": "R1", "helpUri": "https://e.org", **members}
        given = lint(note(ruleId="R1", **said("m")), rule=rule)
        wanted = {
            "markdown": has(f'| <a href="https://e.org"{title}><code>R1</code></a> |'),
            "html": has(f'<div><a href="https://e.org"{on_page} rel="noopener noreferrer"><code>R1</code></a> <span>'),
        }
        yield report(f"the name of a rule, {number}", given, wanted)


def own(number=None, text="q"):
    return {"region": snippet(number, text)}


def around(number=None, text="a\nb", **more):
    return {"contextRegion": snippet(number, text), **more}


SEVEN = "a\n\tb\n\t\tc\nd\ne\nf\ng"
# What a place has besides its URI, and the lines of its code; the hit line has its mark.
CODES = [
    (own(7, "\t\tf(x);\n"), ["f(x);"]),
    (own(7, "if (x)\n\ty();\n"), ["> 7 | if (x)", "  8 |     y();"]),
    (own(None, "x\n\ty"), ["x", "    y"]),
    (around(3, SEVEN, **own(6)), ["  4 |     b", "  5 |         c", "> 6 | d", "  7 | e", "  8 | f"]),
    (around(3, SEVEN, **own(3)), ["> 3 | a", "  4 |     b", "  5 |         c", "  6 | d", "  7 | e"]),
    (around(3, SEVEN, **own(9)), ["  7 | e", "  8 | f", "> 9 | g"]),
    (around(3, SEVEN, **own(10)), ["q"]),
    (around(3, SEVEN, **own(2)), ["q"]),
    (around(10, "a\r\n\r\n  b\r\n", **own(12)), ["  10 | a", "  11 |", "> 12 |   b"]),
    (around(10, "\n\n  b\n\n", **own(12)), ["b"]),
    (around(99, "x\ny", **own(100)), ["   99 | x", "> 100 | y"]),
    (around(**own(12)), ["q"]),
    (around(), ["a", "b"]),
    (around(3), ["  3 | a", "  4 | b"]),
    (around(3, **own(12, "")), ["  3 | a", "  4 | b"]),
    (own(12, 5), []),
    (own(1, "x" * 121), ["x" * 120 + "\u2026"]),
    (own(1, "a\rb"), ["a b"]),
    (own(1, " \t\n \u200b"), []),
    (own(1, "\u001b[31m\u0000x"), ["[31m x"]),
    (own(1, "a##b"), ["a##b"]),
    (own(1, "<&>\"'"), ["<&>\"'"]),
    (own(1, "1\n2\n3\n4\n5\n6"), ["> 1 | 1", "  2 | 2", "  3 | 3", "  4 | 4", "  5 | 5"]),
    (own(1, "    a\n\n  b\n\tc"), ["> 1 |   a", "  2 |", "  3 | b", "  4 |   c"]),
]
SIGNS = {"&": "&amp;", "#": "&#35;", "<": "&lt;", ">": "&gt;", '"': "&quot;", "'": "&#39;"}


def on_page(line, is_marked):
    """A line of code as the page has it."""
    text = "".join(SIGNS.get(it, it) for it in line)
    return f"<mark>{text}</mark>" if is_marked else text


def codes():
    for number, (place, lines) in enumerate(CODES):
        found = placed("a.c")
        found["locations"][0]["physicalLocation"] |= place
        several = len(lines) > 1
        code = "\n".join(on_page(it, several and it.startswith("> ")) for it in lines)
        piece = f"<p>m</p><pre><code>{code}</code></pre> <div>" if lines else "<p>m</p> <div>"
        given = log(run("lint", note(**said("m"), **found)))
        yield report(f"the code of a row, {number}", given, {"html": has(piece)})
    nowhere = {"locations": [{"physicalLocation": own(7, "x\n\ty")}]}
    wanted = {"html": has("<code>-</code> <b>note</b> <p>m</p><pre><code>x\n    y</code></pre> <div>")}
    yield report("the code of a result without a place", log(run("lint", note(**said("m"), **nowhere))), wanted)


def cases():
    for part in (one_row, addresses, names, codes):
        yield from part()
