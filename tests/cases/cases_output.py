"""Cases of how the merged log is written: completely, or not at all."""

import os
import stat

from cases import *
from cases_words import one

OLD = b"what stood there"
LIMITS = (0, 1, 100, 4_096, 100_000)
MANY = log(run("lint", *[ruled()] * 2_000))
LOST = refused("output: WriteFailed")


def output(name, words=("--out", "o", "a"), **wanted):
    return one(name, list(words), **wanted).into("output")


def alone(*names):
    """Checks that the folder has only these files and those that were there before."""

    def look(folder, kept):
        found = sorted(it.name for it in folder.iterdir())
        return [f"the folder has {found}"] * (found != sorted({"a", *names}))

    return look


def limits():
    for limit in LIMITS:
        for old in ({}, {"o": OLD}):
            stood = "an old file" if old else "no old file"
            yield output(
                f"no file may be longer than {limit} bytes, with {stood}",
                files={**old, "a": MANY},
                file_size=limit,
                out=old.get("o"),
                look=alone(*old),
                **LOST,
            )
    yield output("a file may be as long as the merged log", file_size=len(ONE_MERGED), out=ONE_MERGED)


def has_mode(name, wanted):
    def look(folder, kept):
        found = stat.S_IMODE((folder / name).stat().st_mode)
        return [f"the mode is {found:o}, and not {wanted:o}"] * (found != wanted)

    return look


def modes():
    for mode in (0o600, 0o640, 0o664, 0o755, 0o4755):
        yield output(
            f"the mode {mode:o} is kept, its lowest nine bits",
            files={"o": OLD},
            prepare=lambda folder, mode=mode: (folder / "o").chmod(mode),
            look=has_mode("o", mode & 0o777),
            out=ONE_MERGED,
        )
    umask = os.umask(0)
    os.umask(umask)
    yield output(
        "a new file has the mode that creating gives",
        look=has_mode("o", 0o666 & ~umask),
        out=ONE_MERGED,
    )


def linked(target, folder=None):
    """Prepares a link to this as the output, and a folder if one is named."""

    def prepare(at):
        if folder:
            (at / folder).mkdir()
        (at / "o").symlink_to(target)

    return prepare


def still_links(target, holds, whole=ONE_MERGED):
    """Checks that the link is unchanged, and that its target is the merged log."""

    def look(folder, kept):
        wrong = [] if os.readlink(folder / "o") == target else ["the link was replaced"]
        found = (folder / holds).read_bytes()
        wrong += ["the merged log isn't where the link leads"] * (found != whole)
        beside = [it.name for it in (folder / holds).parent.iterdir() if it.name[0] == "."]
        return wrong + [f"{beside} was left"] * bool(beside)

    return look


def links():
    yield output(
        "a link is followed",
        files={"p": OLD},
        prepare=linked("p"),
        look=still_links("p", "p"),
    )
    yield output("a dangling link is followed", prepare=linked("p"), look=still_links("p", "p"))
    yield output(
        "a link into another folder, where nothing stands yet",
        prepare=linked("there/p", folder="there"),
        look=still_links("there/p", "there/p"),
    )

    def two(folder):
        (folder / "there").mkdir()
        (folder / "there" / "q").symlink_to("../p")
        (folder / "o").symlink_to("there/q")

    yield output(
        "a link to a link, read from its own folder",
        files={"p": OLD},
        prepare=two,
        look=still_links("there/q", "p"),
    )
    yield output("a link to itself", prepare=linked("o"), **LOST)
    yield output(
        "a link into a folder that isn't there", prepare=linked("there/p"), look=alone("o"), **LOST
    )
    yield output(
        "what a link leads to stands where writing fails",
        files={"p": OLD, "a": MANY},
        prepare=linked("p"),
        look=still_links("p", "p", OLD),
        file_size=100,
        **LOST,
    )
    yield output(
        "a link to a device is written through",
        prepare=linked("/dev/null"),
        look=lambda folder, kept: ["the link was replaced"] * (not (folder / "o").is_symlink()),
        stdout=ONE_SUMMARY,
    )
    yield output(
        "a link to standard output",
        prepare=linked("/dev/stdout"),
        stdout=ONE_MERGED + ONE_SUMMARY,
    )


def pipe(folder):
    os.mkfifo(folder / "o")
    return os.open(folder / "o", os.O_RDONLY | os.O_NONBLOCK)


def through_pipe(folder, reader):
    found = os.read(reader, 65_536)
    os.close(reader)
    wrong = ["the pipe got another text"] * (found != ONE_MERGED)
    return wrong + ["the pipe was replaced"] * (not (folder / "o").is_fifo())


def as_they_are():
    yield output("a named pipe is written as it is", prepare=pipe, look=through_pipe)
    null = ["--out", "/dev/null", "a"]
    yield output("/dev/null stays a device", null, look=alone(), stdout=ONE_SUMMARY)
    yield output("/dev/full takes nothing", ["--out", "/dev/full", "a"], look=alone(), **LOST)


def unwritable(folder):
    (folder / "there").mkdir()
    (folder / "there" / "o").write_bytes(OLD)
    (folder / "there").chmod(0o555)


def stands(name, whole):
    def look(folder, kept):
        (folder / name).parent.chmod(0o755)
        return ["the old file was changed"] * ((folder / name).read_bytes() != whole)

    return look


def folders():
    words = ["--out", "there/o", "a"]
    # File modes don't apply to root.
    if os.geteuid() != 0:
        yield output(
            "a folder that can't be written",
            words,
            prepare=unwritable,
            look=stands("there/o", OLD),
            **LOST,
        )
        yield output(
            "an old file that can't be written",
            files={"o": OLD},
            prepare=lambda folder: (folder / "o").chmod(0o444),
            look=alone("o"),
            out=OLD,
            **LOST,
        )
    yield output(
        "nothing else is left in the folder", files={"o": OLD}, look=alone("o"), out=ONE_MERGED
    )
    yield output(
        "a name that no file can be renamed to",
        ["--out", "o/", "a"],
        look=alone(),
        **LOST,
    )
    yield output(
        "a refused merge leaves nothing",
        files={"a": b"{"},
        look=alone(),
        **refused("log 0: NotJson"),
    )


def whole_of_one(folder, kept):
    found = (folder / "o").read_bytes()
    names = [it.name for it in folder.iterdir() if it.name[0] == "."]
    given = [merged_by(number) for number in range(8)]
    wrong = ["the output is the whole text of none"] * (found not in given)
    return wrong + [f"{names} was left"] * bool(names)


def merged_by(number):
    count = 100 * number + 1
    written_run = written(f"t{number}", *[marked("new", **plain())] * count)
    return merged(gate(new=[0, count, 0, 0]), written_run)


def at_once():
    files = {
        f"t{number}": log(run(f"t{number}", *[plain()] * (100 * number + 1))) for number in range(8)
    }
    words = [["--out", "o", name] for name in files]
    for old in ({}, {"o": OLD}):
        yield output(
            f"eight programs at once, with {'an' if old else 'no'} old file",
            words[0],
            files={**files, **old},
            beside=words[1:],
            look=whole_of_one,
        )


def names():
    yield output(
        "the output with the name of the suppression file is bad usage",
        ["--out", "s", "--suppress", "s", "a"],
        files={"s": OLD},
        out_name="s",
        out=OLD,
        status=2,
        stdout=b"",
        check=says_what_is_wrong,
    )


def cases():
    for part in (limits, modes, links, as_they_are, folders, at_once, names):
        yield from part()
