"""Examples of both versions of matching, for tests/reference/matching and tests/program/run.

An example has the current and the baseline results. All are of the tool lint, the rule R1 and the message m:

  a                in the file a.c
  a"x"             with the snippet x, a JSON string
  a@3              with the region of startLine 3
  a[f:x,g:y]       with the fingerprints f and g; a[x] is a[f/v1:x]
  a(p:1)           with the partial fingerprint p
  a+G, a+H, a/n    with a GUID, with another one, with the message n

A version's answer is the match of each current result, their states (n new, = unchanged, ~ updated) and how many
baseline results are absent.
"""

import json
import re
from types import SimpleNamespace

EXAMPLES = [
    ("a[x] b[x]", "b[x] a[x]", "0 1 ~~ 0", "1 0 == 0"),
    ("a[y]", "a[x]", "- n 1", "0 ~ 0"),
    ("a[y] a", "a", "- 0 n= 0", "- 0 n= 0"),
    ("a[x]", "a[y] b[x]", "1 ~ 1", "1 ~ 1"),
    ("a(p:1)", "a(p:2) b(p:1)", "1 ~ 1", "1 ~ 1"),
    ("a[f:x,g:y]", "b[g:y] a[f:x]", "0 ~ 1", "1 = 1"),
    ("a[f:x](p:1)", "b[f:x] a(p:1)", "0 ~ 1", "1 = 1"),
    ("a(p:1,q:1)", "a(p:1,q:2)", "- n 1", "0 ~ 0"),
    ("a[3] a[1] a[4]", "a[1] a[2]", "- 0 - n=n 1", "- 0 1 n=~ 0"),
    ("a[x]/n", "a[x] a[x]/n", "0 ~ 1", "1 = 1"),
    ("a+G", "a", "- n 1", "- n 1"),
    ("a[x]+G", "a[x]+H", "0 = 0", "0 = 0"),
    ('a"x"', 'a"y"', "0 = 0", "0 ~ 0"),
    ('a"y" a"x"', 'a"x"', "0 - =n 0", "- 0 n= 0"),
    ("a@3 a@10 a@22", "a@3 a@20", "0 1 - ==n 0", "0 - 1 =n= 0"),
    ('a"x"@1 a"x"@5', 'a"x"@1', "0 - =n 0", "0 - =n 0"),
    ('a" x\\n=1"', 'a"x=1"', "0 = 0", "0 = 0"),
    ('a"x" a@4', 'a a"y"@4', "0 1 == 0", "0 1 == 0"),
    ('a[y]"x"', 'a[x]"x"', "- n 1", "0 = 0"),
    ('a[l]"x" a[l]"y"', 'a[l]"y"', "0 - =n 0", "- 0 n= 0"),
    ('a[l]"x"', 'a[l]"y"', "0 = 0", "0 ~ 0"),
    ('a"x"+G', 'a"y"+G', "0 = 0", "0 ~ 0"),
    ("b(p:)", "a(p:)", "0 ~ 0", "- n 1"),
    ('a[y]"x" a"z"', 'a"x"', "- 0 n= 0", "0 - =n 0"),
    ('a[y]"z" a"w"', 'a"x"', "- 0 n= 0", "- 0 n~ 0"),
    ("a[f/v1:x,f/v2:y]", "a[f/v1:x] a[f/v2:y]", "1 = 1", "1 = 1"),
]

WORD = re.compile(r'([a-z])|(\[.*?\])|(\(.*?\))|("(?:[^"\\]|\\.)*")|@(\d+)|\+([GH])|/(\w+)')


def members(text):
    pairs = (it.split(":") if ":" in it else ("f/v1", it) for it in text[1:-1].split(","))
    return dict(pairs)


def read(word):
    """What a word says of its result: file, full and partial fingerprints, snippet, line, GUID and message."""
    it = SimpleNamespace(file=None, full={}, partial={}, snippet=None, line=None, guid=None, message="m")
    assert "".join(found.group() for found in WORD.finditer(word)) == word, word
    for file, full, partial, snippet, line, guid, message in WORD.findall(word):
        it.file = f"{file}.c" if file else it.file
        it.full = members(full) if full else it.full
        it.partial = members(partial) if partial else it.partial
        it.snippet = json.loads(snippet) if snippet else it.snippet
        it.line = int(line) if line else it.line
        it.guid = guid or it.guid
        it.message = message or it.message
    return it


def listed(words):
    """What these words say, one after another. A snippet may hold a space."""
    return [read(it) for it in re.findall(r'(?:"(?:[^"\\]|\\.)*"|\S)+', words)]
