"""Runs the program that is tested."""

import os
import resource
import shlex
import signal
import subprocess
from pathlib import Path

from cases import Answer

ROOT = Path(__file__).resolve().parents[2]
PROGRAM = ROOT / "crates/sarif_gate/out/sarif_gate"
NOBODY = 65_534


def program(given=None):
    """The command to test: the argument, SARIF_GATE, or the program that rt ci left."""
    given = given or os.environ.get("SARIF_GATE")
    if given:
        return [str(Path(it).resolve()) if Path(it).is_file() else it for it in shlex.split(given)]
    if not PROGRAM.is_file():
        raise SystemExit(
            f"no program stands at {PROGRAM.relative_to(ROOT)}: rt ci at the top makes it, "
            "and rt run in crates/sarif_gate\n0 passed, 1 failed"
        )
    return [str(PROGRAM)]


def answer(command, case, folder):
    """Runs a case in its own folder."""
    if case.is_nobody:
        Path(folder).chmod(0o777)
    for name, given in case.files.items():
        Path(folder, name).write_bytes(given)
    kept = case.prepare(Path(folder)) if case.prepare else None
    others = [started(command, words, case, folder) for words in case.beside]
    found = ended(started(command, case.words, case, folder), case)
    looked = [other for it in others if (other := wrong_beside(it, case))]
    if case.look:
        looked += case.look(Path(folder), kept)
    out = Path(folder, case.out_name)
    written = out.read_bytes() if out.is_file() else None
    return Answer(*found, written, looked)


def started(command, words, case, folder):
    """The running program, with the streams that were opened for it."""
    streams = {name: subprocess.PIPE for name in ("stdin", "stdout", "stderr")}
    opened = {
        name: os.open(path, os.O_RDONLY if name == "stdin" else os.O_WRONLY)
        for name, path in case.streams.items()
    }
    limit = lambda: limited(case)
    ran = subprocess.Popen(
        [*command, *words], cwd=folder, preexec_fn=limit, **{**streams, **opened}
    )
    for stream in opened.values():
        os.close(stream)
    return ran


def limited(case):
    """Sets the limits and the user of a case. A write above the limit of a file's size only fails."""
    limits = {resource.RLIMIT_NOFILE: case.open_files, resource.RLIMIT_FSIZE: case.file_size}
    for name, most in limits.items():
        if most is not None:
            resource.setrlimit(name, (most, most))
    if case.is_nobody and os.geteuid() == 0:
        os.setgroups([])
        os.setgid(NOBODY)
        os.setuid(NOBODY)
    signal.signal(signal.SIGXFSZ, signal.SIG_IGN)


def ended(ran, case):
    """The exit status and the streams of a program that ended."""
    given = {} if "stdin" in case.streams else {"input": case.stdin}
    try:
        stdout, stderr = ran.communicate(timeout=case.seconds, **given)
    except subprocess.TimeoutExpired:
        ran.kill()
        ran.communicate()
        return -1, b"", f"no end after {case.seconds} seconds".encode()
    return ran.returncode, stdout or b"", stderr or b""


def wrong_beside(ran, case):
    """What is wrong with a program that ran at the same time."""
    status, _, stderr = ended(ran, case)
    if status == case.status:
        return None
    return f"beside: status {status}, and not {case.status}; it said: {stderr[:300]!r}"
