"""Random diffs of a change, as git writes them, valid and invalid."""

ODD = [b"#", b"?", b"%", b" ", b"\\"]
PREFIXES = [(b"a/", b"b/")] * 6 + [(b"i/", b"w/"), (b"", b""), (b"old/", b"new/"), (b"c/", b"i/")]
WHOLE = [
    [b"old mode 100644", b"new mode 100755"],
    [b"index 1..2 100644", b"Binary files differ"],
    [b"index 1..2 100644", b"GIT binary patch", b"literal 0", b"HcmV?d00001", b""],
    [b"new file mode 120000"],
    [b"new file mode 100644", b"index 0000000..e69de29"],
    [b"deleted file mode 100644"],
]
ENDS = [[], [], [], [b"\\ No newline at end of file"], [b"-- ", b"2.1"]]
REJECTED = [
    b"index 1..2 160000",
    b"diff --cc a.c",
    b"* Unmerged path a.c",
    b"Submodule s 1234567..89abcde:",
    b"Binary files a and b differ",
    b"@@ -1 +1 @@",
    b"diff --git a/a b/b",
]
TEXT = [b"", b"a.c | 2 +-", b"commit 1234", b"    diff --git a/a.c b/a.c", b"--- a", b"+++ b", b"@@ x", b"From: x"]


class Diffs:
    """Makes diffs of files with these names, with the generator `rng`. `wrong` is the chance that one has an error."""

    def __init__(self, rng, names, wrong=0.0):
        self.rng, self.names, self.wrong = rng, names, wrong

    def chance(self, part):
        return self.rng.random() < part

    def any(self, values):
        return self.rng.choice(values)

    def name(self):
        """The name of a file: one of the names, one like it, or one in another folder."""
        name = self.any(self.names).encode() or b"a.c"
        kind = self.rng.randrange(12)
        if kind == 0:
            name = self.any([b"src/", b"w/", b"a/", b"x y/"]) + name
        elif kind == 1:
            name = name.rpartition(b"/")[2] or name
        elif kind == 2:
            name = name.upper()
        elif kind == 3:
            name = name[:1] + self.any(ODD) + name[1:]
        elif kind == 4:
            name = name.rpartition(b"/")[0] or b"gen"
        return name

    def quoted(self, name):
        """The name as git writes it, or with more escapes."""
        is_plain = all(32 <= it < 127 and it not in b'"\\' for it in name)
        if is_plain and self.chance(0.85):
            return name
        marks = {9: b"\\t", 10: b"\\n", 34: b'\\"', 92: b"\\\\"}
        one = lambda it: marks.get(it) or (bytes([it]) if 32 <= it < 127 and self.chance(0.9) else b"\\%03o" % it)
        return b'"' + b"".join(map(one, name)) + b'"'

    def hunk(self, old, new):
        """The lines of a hunk that begins at these lines or later, and the lines after it."""
        gap = self.any([0, 0, 0, 1, 2, 5])
        old, new = old + gap, new + gap
        signs = [self.any("  -++") for _ in range(self.rng.randint(1, 7))]
        if not set(signs) & {"-", "+"}:
            signs[self.rng.randrange(len(signs))] = self.any("-+")
        texts = [b"x", b"y", b"", b"-- a", b"++ b", b"@ -1 +1 @@", b"\\ no"]
        lines = [it.encode() + self.any(texts) for it in signs]
        lines = [b"" if it == b" " and self.chance(0.3) else it for it in lines]
        removed, added = (sum(it in found for it in signs) for found in (" -", " +"))
        ranges = [self.span(old, removed), self.span(new, added)]
        head = b"@@ -%b +%b @@" % tuple(ranges) + self.any([b"", b" def f():"])
        return [head, *lines], old + removed, new + added

    def span(self, start, count):
        """A range of lines, as the header of a hunk has it."""
        if count == 1 and self.chance(0.5):
            return b"%d" % start
        return b"%d,%d" % (start if count else start - 1, count)

    def section(self):
        """The lines of a section."""
        name, (one, two) = self.name(), self.any(PREFIXES)
        source, lines, kind = name, [], self.rng.randrange(10)
        if kind == 0:
            lines = list(self.any(WHOLE))
        elif kind == 1:
            source, how = self.name(), self.any([b"rename", b"copy"])
            lines = [how + b" from " + self.quoted(source), how + b" to " + self.quoted(name)]
            lines = [b"similarity index 90%"] * self.chance(0.5) + lines
        sides = [self.quoted(one + source), self.quoted(two + name)]
        tabs = [b"\t" * (b" " in it) for it in sides]
        if kind == 2:
            sides[self.rng.randrange(2)] = b"/dev/null"
        if kind == 3:
            lines = [b"index 1..2 100644"]
        head = b"diff --git %b %b" % (self.quoted(one + source), self.quoted(two + name))
        if kind in (0, 1) and self.chance(0.5):
            return [head, *lines]
        lines += [b"--- " + sides[0] + tabs[0], b"+++ " + sides[1] + tabs[1]]
        old = new = self.any([1, 1, 1, 2, 3])
        for _ in range(self.any([1, 1, 1, 2, 3])):
            found, old, new = self.hunk(old, new)
            lines += found
        lines += self.any(ENDS)
        return lines if kind == 4 else [head, *lines]

    def diff(self):
        """The bytes of a diff."""
        lines = []
        for _ in range(self.any([1, 1, 1, 2, 2, 3, 5])):
            lines += [self.any(TEXT) for _ in range(self.any([0, 0, 0, 1, 2]))] + self.section()
        if self.chance(self.wrong):
            lines = self.broken_lines(lines)
        end = b"\r\n" if self.chance(0.05) else b"\n"
        found = b"\xef\xbb\xbf" * self.chance(0.05) + end.join(lines) + end * self.chance(0.9)
        return one_byte_other(self.rng, found) if self.chance(self.wrong) else found

    def broken_lines(self, lines):
        """The lines with one left out, said twice or added."""
        at = self.rng.randrange(len(lines))
        kind = self.rng.randrange(3)
        more = [[], [lines[at]] * 2, [self.any(REJECTED), lines[at]]][kind]
        return lines[:at] + more + lines[at + 1 :]


def one_byte_other(rng, data):
    """The bytes with one left out, added or replaced, or without their end."""
    at, byte = rng.randrange(len(data) + 1), bytes([rng.choice(b"\0\t\n\r \"+-,/0129@\\abdi\x80\xff")])
    return rng.choice([data[:at] + data[at + 1 :], data[:at] + byte + data[at:], data[:at] + byte + data[at + 1 :], data[:at]])
