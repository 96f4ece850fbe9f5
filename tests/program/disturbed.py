"""Runs in which each call on files fails in turn, or a signal ends the program at that call.

Each run is checked for its result and for the files that it leaves: the old output or the complete merged
log, and no other file, unless the program was killed.
"""

import signal
import stat
import tempfile
from pathlib import Path

from cases import line, log, ruled, run
from cases_memory import BEFORE, DAY, DIFF, ENTRIES, NOW, OLD_OUTPUT, POLICY, memory
from cases_output import linked
from refusing import Refusal, Room, run as run_with, state

LOST = line("output: WriteFailed")
SOURCES = ("log 0", "log 1", "baseline 0", "suppressions", "policy", "diff")
UNREAD = [line(f"{part}: ReadFailed") for part in SOURCES]
SIGNALS = (signal.SIGTERM, signal.SIGKILL)
LARGE = log(run("lint", *[ruled()] * 300))


def rows():
    """A case, with the error lines that some of its runs must print."""
    parts = {"baselines": [BEFORE], "suppress": ENTRIES, "more": DAY, "status": 1}
    yield memory("a merge over an old output", [NOW, NOW], 4, **parts), [*UNREAD[:4], LOST]
    parts = {"more": ["--diff", "d"], "old": {**OLD_OUTPUT, "d": DIFF}, "status": 1}
    yield memory("a merge with a diff", [NOW], 1, **parts), [UNREAD[0], UNREAD[-1], LOST]
    parts = {"more": ["--policy", "p"], "old": {**OLD_OUTPUT, "p": POLICY}, "status": 1}
    yield memory("a merge with a policy", [NOW], 1, **parts), [UNREAD[0], UNREAD[-2], LOST]
    link = {"prepare": linked("there/p", folder="there"), "old": {}}
    yield memory("a new output through a link", [LARGE], 1, **link), [UNREAD[0], LOST]
    yield memory("a refused merge", [b"{"], 1, status=2), [UNREAD[0]]


def told(ran):
    return ran.status, ran.stdout, ran.stderr


def wrong(ran, after, calm, left, before):
    """What is wrong with a run in which a call failed, compared with the undisturbed run."""
    if after == left and told(ran) == told(calm):
        return None
    if after == before and ran.status == 3 and not ran.stdout and ran.stderr in [*UNREAD, LOST]:
        return None
    # The summary or the error line couldn't be written.
    is_lost = calm.stdout.startswith(ran.stdout) and calm.stderr.startswith(ran.stderr)
    if after == left and is_lost and ran.status == (3 if calm.stdout else calm.status):
        return None
    return f"status {ran.status}, it said {ran.stderr[:200]!r}, and left {sorted(after)}"


def each_call_fails(command, room, preloaded, wanted):
    """Runs in which only the first, only the second or only a further call fails."""
    calm, left = room.run(command, preloaded, Refusal("files"))
    faults, said = [], set()
    for first in range(1, calm.made + 1):
        ran, after = room.run(command, preloaded, Refusal("files", first))
        fault = wrong(ran, after, calm, left, room.before)
        faults += [f"where call {first} fails: {fault}"] * bool(fault)
        said.add(ran.stderr)
    faults += [f"no run said {it!r}" for it in wanted if it not in said]
    return faults + [f"undisturbed its status is {calm.status}"] * (calm.status != room.case.status)


def each_call_ends(command, room, preloaded, number):
    """Runs that this signal ends at the first, the second or a further call. Each new file has a name of random bytes."""
    calm, left = room.run(command, preloaded, Refusal("files"))
    faults, begun, names = [], 0, set()
    for first in range(1, calm.made + 1):
        ran, after = room.run(command, preloaded, Refusal("files", first, signal=number))
        new = [it for it in after if ".sarif_gate-" in it]
        begun += bool(new)
        names |= set(new)
        kept = {name: given for name, given in after.items() if name not in new}
        is_old = kept == room.before
        if ran.status != -number or len(new) > 1 or not (is_old or (kept == left and not new)):
            faults.append(f"ended at call {first}: status {ran.status}, and it left {sorted(after)}")
    is_begun = begun > 0 or left == room.before
    faults += ["all new files had one name"] * (begun > 1 and len(names) == 1)
    return faults + ["no run was ended while it wrote"] * (not is_begun)


def one_byte_a_call(command, room, preloaded):
    """A run whose reads and writes each move one byte."""
    calm, left = room.run(command, preloaded, Refusal("files"))
    ran, after = room.run(command, preloaded, Refusal("files", is_short=True))
    is_equal = told(ran) == told(calm) and after == left
    faults = [] if is_equal else [f"status {ran.status}, it said {ran.stderr[:200]!r}"]
    return faults + [f"it made {ran.made} calls"] * (ran.made < 2 * calm.made)


def each_new_file_is_synced(command, room, preloaded):
    """A run in which the sync of the new file fails: it is made, before the file gets its name."""
    calm, left = room.run(command, preloaded, Refusal("sync"))
    ran, after = room.run(command, preloaded, Refusal("sync", 1))
    faults = [f"{calm.made} files were synced, and not one"] * (calm.made != 1)
    fault = wrong(ran, after, calm, left, room.before)
    return faults + [fault] * bool(fault)


def no_random_bytes(command, room, preloaded):
    """Runs with random bytes that are zeros, and where each request for some fails: nothing else changes."""
    calm, left = room.run(command, preloaded, Refusal("sync"))
    faults, zeros = [], None
    for first in range(3):
        ran, after = room.run(command, preloaded, Refusal("chance", first))
        is_equal = told(ran) == told(calm) and after == left
        faults += [f"where request {first} fails: status {ran.status}"] * (not is_equal)
        zeros = zeros or ran
    # One for the seed of the tables, which no log may know, and one for the name of the new file.
    return faults + [f"random bytes were requested {zeros.made} times, and not twice"] * (zeros.made != 2)


TAKEN = ".sarif_gate-0000000000000000"


def a_name_that_is_taken(command, room, preloaded):
    """A run whose new file has a name that another file has: that file stays, and the old output too."""
    before = room.before
    (room.folder / TAKEN).write_bytes(b"of another program")
    room.before = state(room.folder)
    ran, after = room.run(command, preloaded, Refusal("chance"))
    is_refused = ran.status == 3 and ran.stderr == LOST and after == room.before
    (room.folder / TAKEN).unlink()
    room.before = before
    return [f"status {ran.status}, it said {ran.stderr[:200]!r}, and left {sorted(after)}"] * (not is_refused)


def opened_to_nobody_else(command, room, preloaded):
    """Runs over an old output that only its owner may read, ended at each call: the new file is open to nobody else."""
    (room.folder / "o").chmod(0o600)
    calm, _ = room.run(command, preloaded, Refusal("files"))
    seen = set()
    for first in range(1, calm.made + 1):
        run_with(command, room.case, room.folder, preloaded, Refusal("files", first, signal=signal.SIGKILL))
        seen |= {stat.S_IMODE(it.stat().st_mode) for it in room.folder.glob(".sarif_gate-*")}
        room.restore(state(room.folder))
    return [f"new files had the modes {[f'{it:o}' for it in sorted(seen)]}, and not 600"] * (seen != {0o600})


def ways(wanted):
    yield "each call on files fails in turn", lambda *its: each_call_fails(*its, wanted)
    for number in SIGNALS:
        title = f"ended at each call on files by {number.name}"
        yield title, lambda *its, number=number: each_call_ends(*its, number)
    yield "one byte a read and a write", one_byte_a_call


def ways_of_new_files():
    yield "the new file is synced", each_new_file_is_synced
    yield "random bytes are zeros, or there are none", no_random_bytes
    yield "the name of the new file exists already", a_name_that_is_taken
    yield "the new file opens to its owner only", opened_to_nobody_else


def checks(command, preloaded):
    """A name and the errors of each row in each way."""
    for number, (case, wanted) in enumerate(rows()):
        for name, way in [*ways(wanted), *ways_of_new_files()] if number == 0 else ways(wanted):
            with tempfile.TemporaryDirectory() as folder:
                room = Room(case, Path(folder, "room"))
                yield f"{case.name}, {name}", way(command, room, preloaded)
