"""Help texts that fit a screen: folded, and without the notes that only the manual page has."""
import os
import re
import textwrap

WIDTH = 79
NOTES = "\nNotes:\n\n"
# Set while manual pages are made: then texts are as they are written, and whole.
FOR_MANUAL = "VETHLUMI_MANUAL"
# A line of a list: a name, two spaces or more, and what it means. Its following lines begin below the meaning.
ROW = re.compile(r" *\S+(?: \S+)*  +(?P<meaning>\S.*)")


def of_screen(text, name):
    """A help text as --help prints it, and what follows it: where its notes are."""
    shown, heading, notes = text.partition(NOTES)
    shown = f"{shown.rstrip()}\n"
    if os.environ.get(FOR_MANUAL):
        return shown, heading.lstrip() + notes
    return folded(shown, name), where_notes_are(name) if notes else ""


def where_notes_are(name):
    return f"The manual page has notes: man {name}\n"


def on_a_screen(text, name):
    shown, more = of_screen(text, name)
    return f"{shown}\n{more}" if more else shown


def folded(text, name):
    """A text whose lines have at most 79 letters: paragraphs, lists, and usages of the command of this name. Lines that
    are neither, such as examples, stay as they are."""
    return "".join(f"{line}\n" for part in parts(text.splitlines(), name) for line in of_part(*part))


def of_part(following, lines):
    first = lines[0]
    if len(lines) == 1 and len(first) <= WIDTH:
        return lines
    text = " ".join([first.strip(), *(it.strip() for it in lines[1:])])
    return textwrap.wrap(text, WIDTH, initial_indent=" " * (len(first) - len(first.lstrip())),
                         subsequent_indent=" " * following, break_on_hyphens=False, break_long_words=False)


def parts(lines, name):
    """The parts of a text: the lines of each, and how many spaces are before all but the first."""
    found, column = [], None
    for line in lines:
        spaces = len(line) - len(line.lstrip())
        is_usage, row = line.startswith(f"{name} "), ROW.fullmatch(line)
        if row and (spaces == 2 or is_usage):
            column = row.start("meaning")
            found.append((column, [line]))
        elif line and spaces == column:
            found[-1][1].append(line)
        else:
            column = 0 if line and not spaces and not is_usage else None
            found.append((len(name) + 1 if is_usage else spaces, [line]))
    return found
