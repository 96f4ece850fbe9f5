"""Builds what bench/run measures.

The programs of bench/programs are not crates of the repository, so rt ci doesn't prove them. Each is a file
main.rattle, since rt ci requires that every .rt file is in a crate, with a file `libraries`, which has what
crates.txt would list for it. They are built in their own repository in a temporary folder, with copies of the
crates. The results stay in bench/work/bin, each with a checksum of everything that it was made from.
"""

import hashlib
import os
import shutil
import subprocess
import tempfile
from pathlib import Path

BENCH = Path(__file__).resolve().parent
ROOT, BIN = BENCH.parent, BENCH / "work/bin"


def sources(crate):
    """The files that a crate is made from."""
    parts = [crate / it for it in ("src", "specs", "proofs")]
    return sorted(it for part in parts for it in part.rglob("*") if it.is_file())


def run_crate(folder, name):
    """Proves and builds the program of a crate. If that fails, prints the reason and exits."""
    ran = subprocess.run(
        ["rt", "run"],
        cwd=folder,
        stdin=subprocess.DEVNULL,
        stdout=subprocess.DEVNULL,
        stderr=subprocess.PIPE,
        text=True,
        errors="replace",
    )
    if f"rt: running out/{name}" not in ran.stderr:
        raise SystemExit(f"{name} was not built:\n{ran.stderr[-3000:]}")


def gate_program():
    """The built sarif_gate. It is built again if one of its sources is newer."""
    if "SARIF_GATE" in os.environ:
        return str(Path(os.environ["SARIF_GATE"]).resolve())
    crate = ROOT / "crates/sarif_gate"
    program = crate / "out/sarif_gate"
    made = program.stat().st_mtime if program.is_file() else 0
    if any(it.stat().st_mtime > made for one in (ROOT / "crates").iterdir() for it in sources(one)):
        print("building sarif_gate", flush=True)
        run_crate(crate, "sarif_gate")
    return str(program)


def libraries_of(line, table):
    """The repository's crates that these libraries need."""
    found = set()
    for name in line.split():
        if name in table:
            found |= {name} | libraries_of(table[name], table)
    return found


def crates_table():
    lines = (ROOT / "crates.txt").read_text().splitlines()
    pairs = [line.partition(":") for line in lines if line.strip() and not line.startswith("#")]
    return {name.split()[0]: rest for name, _, rest in pairs}


def sum_of(folder, below):
    """A checksum of the kit, the program and the crates that it needs."""
    kit = subprocess.run(["rt", "version"], capture_output=True, check=True).stdout
    found = hashlib.sha256(kit)
    files = [folder / "main.rattle", folder / "libraries"]
    files += [it for name in sorted(below) for it in sources(ROOT / "crates" / name)]
    for file in files:
        found.update(f"{file.relative_to(ROOT)} ".encode() + file.read_bytes())
    return found.hexdigest()


def built(name):
    """The built program `name` of bench/programs."""
    folder, table = BENCH / "programs" / name, crates_table()
    line = (folder / "libraries").read_text()
    below = libraries_of(line, table)
    program, kept, now = BIN / name, BIN / f"{name}.sum", sum_of(folder, below)
    if not (program.is_file() and kept.is_file() and kept.read_text() == now):
        print(f"building {name}", flush=True)
        BIN.mkdir(parents=True, exist_ok=True)
        with tempfile.TemporaryDirectory(prefix="sarif_gate-bench-") as room:
            build(Path(room), name, {**{it: table[it] for it in below}, name: line})
            shutil.copy(Path(room, "crates", name, "out", name), program)
        kept.write_text(now)
    return str(program)


def build(room, name, table):
    """Lays out a repository of these crates and the program, and builds it."""
    subprocess.run(["git", "init", "-q", str(room)], check=True)
    (room / "HANDLES").write_text((ROOT / "HANDLES").read_text())
    lines = [f"{it}: {' '.join(line.split())}\n" for it, line in table.items()]
    (room / "crates.txt").write_text("".join(lines))
    for it in table:
        if it != name:
            shutil.copytree(ROOT / "crates" / it, room / "crates" / it)
    source = room / "crates" / name / "src"
    source.mkdir(parents=True)
    shutil.copy(BENCH / "programs" / name / "main.rattle", source / "main.rt")
    run_crate(source.parent, name)
