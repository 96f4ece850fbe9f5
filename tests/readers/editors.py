"""Checks that editors and problem matchers read the text report of the examples."""

import json
import re
import subprocess
import tempfile
from pathlib import Path

from cases import EXAMPLES, example
from cases_reports import KEPT, kept_name
from debian import had

MATCHER = "reports/problem-matcher.json"
LIST = 'map(getqflist(), {_, it -> [it.valid, bufname(it.bufnr), it.lnum, it.col, it.text]})'
SECONDS = 60
LINE = re.compile(r"(.+?):([0-9]+)(?::([0-9]+))?: (.*)")


def quickfix(file):
    """Vim's quickfix list for a file with the default errorformat, or None without Vim."""
    vim = had("vim")
    if vim is None:
        return None
    with tempfile.TemporaryDirectory() as folder:
        words = [vim, "-u", "NONE", "-i", "NONE", "-N", "-n", "-es"]
        for command in (f"cgetfile {file}", f"call writefile([json_encode({LIST})], 'l')", "qall!"):
            words += ["-c", command]
        quiet = {"stdin": subprocess.DEVNULL, "capture_output": True}
        subprocess.run(words, cwd=folder, timeout=SECONDS, **quiet)
        told = Path(folder, "l")
        return json.loads(told.read_bytes()) if told.is_file() else []


def in_vim(name, file):
    """What is wrong with Vim's list for a report, or None without Vim."""
    found = quickfix(file)
    if found is None:
        return None
    lines = file.read_text().splitlines()
    wanted = []
    for line in lines:
        path, number, column, text = LINE.fullmatch(line).groups()
        wanted.append([1, path, int(number), int(column or 0), " " + text])
    wrong = [f"{len(found)} entries, and not {len(wanted)}"] * (len(found) != len(wanted))
    return wrong + [f"{one}, and not {other}" for one, other in zip(found, wanted) if one != other]


def by_matcher(name, file):
    """What is wrong with what the problem matcher finds in a report."""
    pattern = json.loads(example(MATCHER))["problemMatcher"][0]["pattern"][0]
    names = ("file", "line", "column", "severity", "message", "code")
    wrong = []
    for line in file.read_text().splitlines():
        found = re.search(pattern["regexp"], line)
        if not found:
            wrong.append(f"{line!r} isn't taken")
            continue
        told = {it: found.group(pattern[it]) for it in names}
        path, number, column, rest = LINE.fullmatch(line).groups()
        again = f"{told['severity']}: {told['message']} [{told['code']}]"
        is_same = (told["file"], told["line"], told["column"]) == (path, number, column)
        if not is_same or not rest.startswith(again):
            wrong.append(f"{line!r} is taken as {told}")
    return wrong


def checks():
    """The name of each check and what is wrong, or None if the check can't run."""
    for name, _ in KEPT:
        file = EXAMPLES / "reports" / kept_name(name, "text")
        yield f"Vim's quickfix list of {name}", in_vim(name, file)
        yield f"the problem matcher on {name}", by_matcher(name, file)
