"""The second merger's arguments from files."""

MOST_BYTES, MOST_LINES = 1_048_576, 10_000


class Unread(Exception):
    """A file of arguments can't be read."""


class NoArguments(Exception):
    """A file gives no arguments, or the program's arguments stand for none."""


def replaced(words):
    """The arguments that these stand for."""
    found, is_ended = [], False
    for word in words:
        is_file = not is_ended and word.startswith("@") and word != "@"
        given = arguments_in(word[1:]) if is_file else [word]
        is_ended = is_ended or "--" in given
        found += given
    if words and not found:
        raise NoArguments
    return found


def arguments_in(name):
    """The arguments in the file of this name."""
    try:
        with open(name, "rb") as file:
            read = file.read(MOST_BYTES + 1)
        text = read.decode().removeprefix("\ufeff")
    except OSError:
        raise Unread(f"@{name}: ReadFailed") from None
    except UnicodeDecodeError:
        raise NoArguments from None
    *ended, last = text.split("\n")
    lines = [line.removesuffix("\r") for line in ended] + [last] * (last != "")
    is_nested = any(line.startswith("@") for line in lines)
    if len(read) > MOST_BYTES or "\0" in text or len(lines) > MOST_LINES or is_nested:
        raise NoArguments
    return [line for line in lines if line and not line.startswith("#")]
