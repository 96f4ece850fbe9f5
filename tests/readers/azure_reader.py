"""Reads logging commands as the agent of Azure Pipelines does, from its published escapes.

A line is a command from `##vso[` up to the first `]`: an area and an event, a space, and properties with `;` between
them, each a name, `=` and a value. The rest of the line is the message. In values and in the message `%3B`, `%0D`,
`%0A` and `%5D` are `;`, the ends of lines and `]`, and then `%AZP25` is `%`.
"""

ESCAPES = (("%3B", ";"), ("%0D", "\r"), ("%0A", "\n"), ("%5D", "]"), ("%AZP25", "%"))
BEGIN = "##vso["


def unescaped(text):
    for written, character in ESCAPES:
        text = text.replace(written, character)
    return text


def command_of(line):
    """The event, the properties and the message of a line, or None if it is no command."""
    at = line.find(BEGIN)
    end = line.find("]", at)
    if at < 0 or end < 0:
        return None
    event, _, given = line[at + len(BEGIN) : end].partition(" ")
    pairs = [it.split("=", 1) for it in given.split(";") if it]
    properties = {it[0]: unescaped(it[1]) for it in pairs if len(it) == 2}
    return event, properties, unescaped(line[end + 1 :])


def azure_faults(document, reports):
    """What is wrong with a report, a bytes object, beside the reference."""
    lines = document.decode().splitlines()
    wanted = [issue_of(it) for it in reports.listed()]
    found = [command_of(line) for line in lines]
    faults = []
    for number, line in enumerate(lines, 1):
        faults += [f"line {number} begins with no command"] * (not line.startswith(BEGIN))
        faults += [f"line {number} has not one `##`"] * (line.count("##") != 1)
    for number, (one, other) in enumerate(zip(wanted, found), 1):
        if one != other:
            return [*faults, f"line {number}: wanted {one!r:.300}, found {other!r:.300}"]
    if len(wanted) != len(found):
        faults.append(f"wanted {len(wanted)} lines, found {len(found)}")
    return faults


def issue_of(it):
    """The command that the agent must read for a result."""
    given = {"type": "error" if it.level == "error" else "warning"}
    given |= {"sourcepath": it.path, "linenumber": it.line, "columnnumber": it.column}
    given |= {"code": it.rule or None}
    properties = {name: str(value) for name, value in given.items() if value is not None}
    return "task.logissue", properties, f"{it.message} ({it.tool}, {it.level}, {it.state})"
