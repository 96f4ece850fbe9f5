"""Runs the program with failing calls, through the library of tests/program/refuse.c."""

import os
import shutil
import struct
import subprocess
from dataclasses import dataclass
from pathlib import Path
from typing import Optional

TESTS = Path(__file__).resolve().parent
SECONDS = 30
FLAGS = ["-shared", "-fPIC", "-O2", "-Wall", "-Wextra", "-Werror", "-ffreestanding", "-nostdlib"]
KITS_FLAGS = ["--target=x86_64-linux-gnu", "-fuse-ld=lld"]


@dataclass
class Refusal:
    """The calls of a kind of tests/program/refuse.c that fail. They are numbered from 1. If `first` is 0, none fails."""

    kind: str
    first: int = 0
    last: Optional[int] = None
    signal: int = 0
    is_short: bool = False

    def variables(self, note):
        found = {"KIND": self.kind, "FIRST": self.first, "SIGNAL": self.signal, "NOTE": note}
        found["SHORT"] = int(self.is_short)
        if self.last is not None:
            found["LAST"] = self.last
        return {f"REFUSE_{name}": str(it) for name, it in found.items()}


@dataclass
class Ran:
    """How a program ended, with the number of its calls of the kind and the number of failures."""

    status: int
    stdout: bytes
    stderr: bytes
    made: int
    refused: int


def compiler():
    """The command of a C compiler: the kit's clang if there is one, otherwise the system's."""
    rt = shutil.which("rt")
    if rt:
        page = subprocess.run([rt, "doc"], capture_output=True, text=True).stdout.strip()
        clang = Path(page).parent / "toolchain/bin/clang"
        if clang.is_file():
            return [str(clang), *KITS_FLAGS]
    return [shutil.which("clang") or "cc"]


def library(folder):
    """Builds the library into this folder."""
    made = Path(folder, "refuse.so")
    subprocess.run([*compiler(), *FLAGS, "-o", made, TESTS / "refuse.c"], check=True)
    return made


def run(command, case, folder, preloaded, refusal):
    """Runs a case in its folder with these failures. The status is None if it doesn't end."""
    note = Path(preloaded).with_name(f"note-{Path(folder).name}")
    note.write_bytes(bytes(16))
    variables = {**os.environ, "LD_PRELOAD": str(preloaded), **refusal.variables(note)}
    try:
        ran = subprocess.run(
            [*command, *case.words],
            cwd=folder,
            env=variables,
            input=case.stdin,
            capture_output=True,
            timeout=SECONDS,
        )
    except subprocess.TimeoutExpired as late:
        found = None, late.stdout or b"", late.stderr or b""
    else:
        found = ran.returncode, ran.stdout, ran.stderr
    return Ran(*found, *struct.unpack("qq", note.read_bytes()))


def state(folder):
    """The contents of a folder: each name with its link or its bytes."""
    found = {}
    for at in sorted(Path(folder).rglob("*")):
        name = str(at.relative_to(folder))
        if at.is_symlink():
            found[name] = os.readlink(at)
        elif at.is_file():
            found[name] = at.read_bytes()
    return found


class Room:
    """A folder with the files of a case. It is created again if a run changed it."""

    def __init__(self, case, folder):
        self.case, self.folder = case, Path(folder)
        self.folder.mkdir()
        for name, given in case.files.items():
            (self.folder / name).write_bytes(given)
        if case.prepare:
            case.prepare(self.folder)
        self.before = state(folder)

    def restore(self, after):
        for name in after.keys() - self.before.keys():
            (self.folder / name).unlink()
        for name, given in self.before.items():
            if after.get(name) != given and isinstance(given, bytes):
                (self.folder / name).write_bytes(given)
            elif after.get(name) != given:
                (self.folder / name).unlink(missing_ok=True)
                (self.folder / name).symlink_to(given)

    def run(self, command, preloaded, refusal):
        """The result of a program, and the files that it left."""
        ran = run(command, self.case, self.folder, preloaded, refusal)
        after = state(self.folder)
        self.restore(after)
        return ran, after
