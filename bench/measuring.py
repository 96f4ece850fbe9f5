"""Runs a program once and measures it."""

import os
import tempfile
import time
from dataclasses import dataclass
from pathlib import Path

WORK = Path(__file__).resolve().parent / "work"


@dataclass
class Run:
    """The costs of one run of a program."""

    wall: float
    processor: float
    peak: int
    user: float = 0.0
    system: float = 0.0
    faults: int = 0


def measure(words, given, out, statuses=(0, 1)):
    """Runs a command with the file `given` as standard input and the file `out` as output. It may end with these statuses."""
    with tempfile.TemporaryFile() as said:
        ran, status = spawned(words, given or os.devnull, out, said.fileno())
        if os.waitstatus_to_exitcode(status) not in statuses:
            said.seek(0)
            text = said.read(300).decode(errors="replace").strip()
            raise SystemExit(f"{' '.join(words)[:200]} ended badly: {text}")
    return ran


def spawned(words, given, out, said):
    """Runs a command with these standard streams. Returns its costs and how it ended."""
    flags = os.O_WRONLY | os.O_CREAT | os.O_TRUNC
    streams = [os.open(given, os.O_RDONLY), os.open(out, flags, 0o644)]
    actions = [
        (os.POSIX_SPAWN_DUP2, stream, number) for number, stream in enumerate([*streams, said])
    ]
    begin = time.monotonic()
    child = os.posix_spawn(words[0], words, os.environ, file_actions=actions)
    _, status, used = os.wait4(child, 0)
    wall = time.monotonic() - begin
    for stream in streams:
        os.close(stream)
    user, system = used.ru_utime, used.ru_stime
    faults = used.ru_minflt + used.ru_majflt
    return Run(wall, user + system, used.ru_maxrss * 1024, user, system, faults), status


def idle_seconds():
    """Returns how long all processors together have been idle since the machine was started."""
    numbers = Path("/proc/stat").read_text().split("\n", 1)[0].split()[1:]
    return (int(numbers[3]) + int(numbers[4])) / os.sysconf("SC_CLK_TCK")
