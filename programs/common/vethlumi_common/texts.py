"""Texts that have come from elsewhere, as people may be shown them."""
import re


def plain(text):
    """A text without what steers a terminal."""
    text = str(text)
    return text if text.isprintable() else "".join(it if it.isprintable() or it in "\n\t" else "?" for it in text)


def ascii_of(text):
    """A text of one line, and of ASCII alone."""
    return re.sub("[^ -~]", "?", text)
