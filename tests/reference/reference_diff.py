#!/usr/bin/env python3
"""A second reader of unified diffs, for tests: what a diff changes, or its first error. It shares no code and no structure
with the program: it splits the bytes into lines and matches them with regular expressions.

python3 tests/reference/reference_diff.py FILE prints the changed files and lines, or the error."""

import re
import sys

LAST = 4294967295
MOST = 1000000
HEX = rb"[0-9a-fA-F]"
ESCAPES = {b"a": 7, b"b": 8, b"t": 9, b"n": 10, b"v": 11, b"f": 12, b"r": 13, b'"': 34, b"\\": 92}
QUOTED = re.compile(rb'"((?:[^"\\]|\\[abtnvfr"\\]|\\[0-3][0-7][0-7])*)"', re.S)
HEADER = re.compile(rb"@@ -([0-9]+)(?:,([0-9]+))? \+([0-9]+)(?:,([0-9]+))? @@")
LOG = re.compile(rb"Submodule .* " + HEX + rb"+\.\.\.?" + HEX + rb"+", re.S)
COMMIT = re.compile(rb"Subproject commit " + HEX + rb"{40,64}(-dirty)?")
POINTER = re.compile(rb"oid sha256:" + HEX + rb"{64}")
MEMBERS = re.compile(
    rb"(old mode|new mode|new file mode|deleted file mode|copy from|copy to|rename from|rename to|rename old"
    rb"|rename new|similarity index|dissimilarity index|index|---|\+\+\+|Binary files) (.*)|(GIT binary patch)",
    re.S,
)


class Fault(Exception):
    """The first error of a diff: its cause, and its line, or None."""

    def __init__(self, cause, line=None):
        super().__init__(cause, line)
        self.cause, self.line = cause, line

    def __str__(self):
        return self.cause if self.line is None else "line %d: %s" % (self.line, self.cause)


class Section:
    """A section that is read: `name` is known at its end."""

    def __init__(self, line):
        self.line = line
        self.git = self.moved = self.source = None
        self.sides = {}
        self.whole = self.link = self.headed = False
        self.lines = set()
        self.name = None

    def settle(self):
        """Finds the name, or fails at the first line."""
        if self.name is not None:
            return
        sides = [self.sides[side] for side in (b"+++", b"---") if self.sides.get(side) is not None]
        if self.moved is not None:
            self.name = self.moved
        elif self.sides:
            self.name = sides[0] if sides else None
        else:
            self.name = self.git
        if self.name is None:
            raise Fault("BadHeader", self.line)


def unescaped(body):
    """The bytes of a quoted name."""
    return re.sub(
        rb"\\([0-3][0-7][0-7]|.)",
        lambda found: bytes([int(found[1], 8) if len(found[1]) == 3 else ESCAPES[found[1]]]),
        body,
        flags=re.S,
    )


def named(text, number, tabbed=False):
    """The name that a text is."""
    if text.startswith(b'"'):
        found = QUOTED.match(text)
        if found is None:
            raise Fault("BadHeader", number)
        rest = text[found.end():]
        if rest and not (tabbed and rest.startswith(b"\t")):
            raise Fault("BadHeader", number)
        return unescaped(found[1])
    return text.split(b"\t")[0] if tabbed else text


def bare(name, number):
    """A name without git's prefix, which isn't empty."""
    name = re.sub(rb"\A[abciow12]/", b"", name)
    if not name:
        raise Fault("BadHeader", number)
    return name


def git_name(text, number):
    """The name of a line `diff --git `, if both names are one."""
    if text.startswith(b'"'):
        found = QUOTED.match(text)
        if found is None or text[found.end():found.end() + 1] != b" ":
            raise Fault("BadHeader", number)
        old, new = unescaped(found[1]), named(text[found.end() + 1:], number)
    else:
        half = len(text) // 2
        if len(text) % 2 == 0 or text[half:half + 1] != b" ":
            return None
        old, new = text[:half], text[half + 1:]
    old, new = bare(old, number), bare(new, number)
    return new if old == new else None


class Reader:
    """Reads the lines of a diff in order."""

    def __init__(self, data):
        if data.startswith(b"\xef\xbb\xbf"):
            data = data[3:]
        self.lines = data.split(b"\n")
        if self.lines[-1] == b"":
            self.lines.pop()
        self.at = 0
        self.sections = []
        self.now = None
        self.hunks = self.added = 0

    def line(self, ahead=0):
        """The line that many lines ahead, or an empty one."""
        return self.lines[self.at + ahead] if self.at + ahead < len(self.lines) else b""

    def close(self):
        """Ends the section."""
        if self.now is not None:
            self.now.settle()
            self.sections.append(self.now)
            self.now = None

    def begin(self, number):
        """Begins a section."""
        self.now = Section(number)
        if len(self.sections) == MOST:
            raise Fault("TooMany", number)

    def read(self):
        """Reads all lines."""
        while self.at < len(self.lines):
            line = re.sub(rb"\r\Z", b"", self.line())
            self.at += 1
            self.outside(line, self.at)
        self.close()
        if not self.sections:
            raise Fault("NoChange")
        return self

    def outside(self, line, number):
        """Reads a line that is in no hunk."""
        if line.startswith(b"diff --git "):
            self.close()
            git = git_name(line[11:], number)
            self.begin(number)
            self.now.git = git
        elif re.match(rb"diff --cc |diff --combined |@@@ |\* Unmerged path ", line):
            raise Fault("Combined", number)
        elif self.now is not None and line.startswith(b"@@ "):
            self.hunk(line, number)
        elif self.now is None or self.now.headed or not self.member(line, number):
            self.close()
            self.text(line, number)

    def text(self, line, number):
        """Reads a line of text."""
        if line.startswith(b"@@ -"):
            raise Fault("BadHunk", number)
        if line.startswith(b"--- ") and self.line().startswith(b"+++ ") and self.line(1).startswith(b"@@"):
            self.begin(number)
            self.side(b"---", line[4:], number)
        elif line.startswith(b"Binary files ") and line.endswith(b" differ"):
            raise Fault("BadHeader", number)
        elif line.startswith(b"Submodule ") and (line.endswith(b" contains modified content") or LOG.match(line)):
            follows = re.match(rb"diff --git |Submodule ", self.line()) or line.endswith(b"(submodule deleted)")
            if line.endswith(b"(commits not present)") or not follows:
                raise Fault("Submodule", number)

    def side(self, word, rest, number):
        """Reads the name of a line `--- ` or `+++ `."""
        name = named(rest, number, tabbed=True)
        self.now.sides[word] = None if name == b"/dev/null" else bare(name, number)

    def member(self, line, number):
        """Reads a line of a section before its first hunk, if it is one."""
        found = MEMBERS.match(line)
        if found is None or found[3] and found.end() != len(line):
            return False
        word, rest, now = found[1] or found[3], found[2], self.now
        if word in (b"---", b"+++"):
            if word in now.sides:
                return False
            self.side(word, rest, number)
        elif word.split()[0] in (b"copy", b"rename"):
            name = named(rest, number)
            if not name:
                raise Fault("BadHeader", number)
            if word in (b"copy to", b"rename to", b"rename new"):
                now.moved = now.moved or name
            elif word != b"copy from":
                now.source = name
            now.whole |= word == b"copy to"
        elif word in (b"index", b"new mode", b"new file mode"):
            if line.endswith(b" 160000"):
                raise Fault("Submodule", number)
            now.link |= line.endswith(b" 120000")
            now.whole |= word == b"new mode" or line.endswith(b" 120000")
        elif word in (b"old mode", b"Binary files", b"GIT binary patch"):
            now.whole = True
        return True

    def hunk(self, line, number):
        """Reads a hunk."""
        now = self.now
        now.settle()
        now.headed = True
        if self.hunks == MOST:
            raise Fault("TooMany", number)
        self.hunks += 1
        found = HEADER.match(line)
        if found is None:
            raise Fault("BadHunk", number)
        first, old, start, new = (1 if part is None else int(part) for part in found.groups())
        for begin, count in ((first, old), (start, new)):
            if begin > LAST or count > LAST or count and (begin == 0 or begin + count - 1 > LAST):
                raise Fault("BadHunk", number)
        if old == new == 0:
            raise Fault("BadHunk", number)
        single, place, signs = (start, new) == (1, 1), start + (new == 0), []
        while old or new:
            line, broken = self.line(), number if not set(signs) & set("-+") else self.at + 1
            if self.at == len(self.lines):
                raise Fault("BadHunk", broken)
            sign = " " if line in (b"", b"\r") else chr(line[0])
            taken = {"-": (1, 0), "+": (0, 1), " ": (1, 1), "\\": (0, 0)}.get(sign)
            if taken is None or taken[0] > old or taken[1] > new:
                raise Fault("BadHunk", broken)
            self.at += 1
            old, new = old - taken[0], new - taken[1]
            if sign == "\\":
                continue
            signs.append(sign)
            if sign == "+":
                self.added += 1
                text = re.sub(rb"\r\Z", b"", line[1:])
                if single and COMMIT.fullmatch(text):
                    raise Fault("Submodule", self.at)
                now.whole |= POINTER.fullmatch(text) is not None
        if not set(signs) & set("-+"):
            raise Fault("BadHunk", number)
        while self.line().startswith(b"\\"):
            self.at += 1
        for run in re.finditer(r"[-+]+| ", "".join(signs)):
            lines = run[0].count("+")
            if "+" in run[0]:
                now.lines.update(range(place, place + lines))
            elif "-" in run[0]:
                now.lines.update(line for line in (place - 1, place) if line)
            place += lines + run[0].count(" ")


def read(data):
    """What a diff changes: for each file whether it is changed whole, whether it is a link, and its changed lines; and
    how many lines the hunks add. Raises Fault."""
    reader = Reader(data).read()
    places = {}
    for index, section in enumerate(reader.sections):
        for name in (section.name, section.source):
            if name is not None:
                places.setdefault(name, set()).add(index)
    files = {}
    for section in reader.sections:
        shared = any(len(places.get(name, ())) > 1 for name in (section.name, section.source))
        whole, link, lines = files.get(section.name, (False, False, set()))
        files[section.name] = (whole or section.whole or shared, link or section.link, lines | section.lines)
    return files, reader.added


def main(words):
    """Prints what the diffs in these files change."""
    for word in words:
        with open(word, "rb") as source:
            data = source.read()
        try:
            files, added = read(data)
        except Fault as fault:
            print(fault)
            continue
        for name, (whole, link, lines) in sorted(files.items()):
            print(name, "whole" if whole else sorted(lines), "link" if link else "")
        print("added", added)


if __name__ == "__main__":
    main(sys.argv[1:])
