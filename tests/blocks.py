"""The fenced blocks of a page, its commands, and what a shell prints for each."""
import collections
import re

# The word behind the fence, the number of the first line, and the lines.
Block = collections.namedtuple("Block", "kind place lines")
# A command of a transcript, and the lines that the text shows below it.
Step = collections.namedtuple("Step", "is_root command output")


def blocks(text):
    """The fenced blocks of a text."""
    found, kind = [], None
    for number, line in enumerate(text.splitlines(), 1):
        if not line.startswith("```"):
            if kind is not None:
                found[-1].lines.append(line)
        elif kind is None:
            kind = line.removeprefix("```")
            found.append(Block(kind, number + 1, []))
        else:
            kind = None
    return found


def outside(text):
    """The text without its fenced blocks."""
    return re.sub(r"^```.*?^```$", "", text, flags=re.M | re.S)


def steps(lines):
    """The commands of a transcript: behind `$` for a user, behind `#` for root, and behind `>` where they go on."""
    found = []
    for line in lines:
        if line.startswith(("$ ", "# ")):
            found.append(Step(line.startswith("#"), [line[2:]], []))
        elif line.startswith("> ") and found and not found[-1].output:
            found[-1].command.append(line[2:])
        elif found:
            found[-1].output.append(line)
    return [Step(it.is_root, "\n".join(it.command), "".join(f"{line}\n" for line in it.output)) for it in found]


def lines_of(text):
    """The lines of the blocks that are a shell's."""
    return [line for it in blocks(text) if it.kind == "sh" for line in it.lines]


def printed_after(script, log):
    """What stands in the log of a verbose shell behind each line of its script, up to the line where it ended."""
    found, lines, at = [], log.splitlines(keepends=True), 0
    for line in script.splitlines(keepends=True):
        try:
            place = lines.index(line, at)
        except ValueError:
            break
        if found:
            found[-1] = (found[-1][0], "".join(lines[at:place]))
        found.append((line.rstrip("\n"), ""))
        at = place + 1
    if found:
        found[-1] = (found[-1][0], "".join(lines[at:]))
    return found
