"""The commands of pages that say on which machine to type them: fenced blocks whose first line is ```sh MACHINE.., with
the names of one machine or several."""
import collections
import re

# The machine, the number of the first line, and the commands.
Block = collections.namedtuple("Block", "machine line commands")
FENCE = re.compile(r"^```sh (?P<machines>[a-z]+(?: [a-z]+)*)\n(?P<commands>.*?)^```$", re.M | re.S)
HEADING = re.compile(r"^## (.*)$", re.M)


def blocks(text):
    """The blocks of a text, in order, each for one machine."""
    return [Block(machine, text[:it.start("commands")].count("\n") + 1, it["commands"])
            for it in FENCE.finditer(text) for machine in it["machines"].split()]


def section(text, heading):
    """What is below a heading `## HEADING`, up to the next one."""
    found = [it for it in HEADING.finditer(text) if it[1] == heading]
    assert 1 == len(found), f"{len(found)} headings '## {heading}'"
    following = HEADING.search(text, found[0].end())
    return text[found[0].end():following.start() if following else len(text)]
