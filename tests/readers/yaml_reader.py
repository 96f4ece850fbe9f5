"""Reads the part of YAML that the files for build services are written in.

That part has mappings, lists, comments on their own lines, plain and quoted strings, lists such as [a, b] and
the block strings `|` and `>-`. All values are strings.
"""

import re

KEY = re.compile(r"([.\w-]+):(?: (.*))?")


def width(line):
    return len(line) - len(line.lstrip(" "))


def scalar(text):
    """The value that is written on one line."""
    if text.startswith("[") and text.endswith("]"):
        return [scalar(it.strip()) for it in text[1:-1].split(",") if it.strip()]
    if len(text) > 1 and text[0] == text[-1] and text[0] in "'\"":
        return text[1:-1]
    return text


class Reader:
    def __init__(self, text):
        self.lines = text.split("\n")
        self.at = 0

    def skip(self):
        """Goes to the next line that has a value. Returns whether there is one."""
        while self.at < len(self.lines) and re.fullmatch(r" *(#.*)?", self.lines[self.at]):
            self.at += 1
        return self.at < len(self.lines)

    def value(self, indent):
        """The value whose lines are indented by at least `indent`."""
        if not self.skip() or width(self.lines[self.at]) < indent:
            return ""
        own = width(self.lines[self.at])
        is_list = self.lines[self.at].lstrip().startswith("- ")
        return self.items(own) if is_list else self.members(own)

    def items(self, own):
        found = []
        while self.skip() and width(self.lines[self.at]) == own and self.lines[self.at][own:].startswith("- "):
            text = self.lines[self.at][own + 2 :]
            if KEY.fullmatch(text):
                # A mapping in a list: its first member is on the line of the dash.
                self.lines[self.at] = " " * (own + 2) + text
                found.append(self.members(own + 2))
            else:
                self.at += 1
                found.append(self.written(text, own))
        return found

    def members(self, own):
        found = {}
        while self.skip() and width(self.lines[self.at]) == own:
            match = KEY.fullmatch(self.lines[self.at][own:])
            if not match:
                break
            self.at += 1
            found[match[1]] = self.written(match[2], own) if match[2] else self.value(own + 1)
        return found

    def written(self, text, own):
        """The value of a line, or of the block below it."""
        if text not in ("|", ">-"):
            return scalar(text)
        rows = []
        while self.at < len(self.lines) and (width(self.lines[self.at]) > own or not self.lines[self.at].strip()):
            rows.append(self.lines[self.at])
            self.at += 1
        least = min((width(it) for it in rows if it.strip()), default=0)
        rows = [it[least:] for it in rows]
        while rows and not rows[-1]:
            rows.pop()
        return "\n".join([*rows, ""]) if text == "|" else " ".join(rows)


def read(text):
    """The value of a whole file."""
    reader = Reader(text)
    found = reader.value(0)
    if reader.skip():
        raise ValueError(f"line {reader.at + 1} is not in the part of YAML that is read here")
    return found
