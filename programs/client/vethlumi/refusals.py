"""What an office's refusals mean, and what to do about each."""
import http
import importlib.resources
import re
import tomllib

# By number: the name, what it means, and what helps.
REFUSALS = {int(number): it for number, it in tomllib.loads(
    importlib.resources.files("vethlumi").joinpath("refusals.toml").read_text(encoding="utf-8")).items()}
LINE = re.compile(r"refused (\d{1,9}) ([A-Za-z]+)\n", re.ASCII)
REDIRECT = "this is a redirect, which isn't followed: check the URL in the settings"


class Refused(Exception):
    """The office, or the front before it, said no. Nothing changed."""

    def __init__(self, number, name, meaning, advice):
        super().__init__(f"refused {number} {name}: {meaning}\n  {advice}" if number else f"refused: {meaning}")
        self.number, self.name = number, name


def said_by(status, text):
    """What an answer of the front says: its first line, if that isn't of a page for browsers, or else its status."""
    line = text.strip().partition("\n")[0].strip()[:200]
    if line and not line.startswith("<") and not 300 <= status < 400:
        return line
    known = {it.value: f" {it.phrase}" for it in http.HTTPStatus}
    return f"HTTP status {status}{known.get(status, '')}{f': {REDIRECT}' if 300 <= status < 400 else ''}"


def refusal_of(status, text):
    """The refusal of a response: the office's, or else the front's, which is said as it came."""
    found = LINE.fullmatch(text)
    if found and 400 <= status < 500 and REFUSALS.get(int(found[1]), [""])[0] == found[2]:
        return Refused(int(found[1]), *REFUSALS[int(found[1])])
    return Refused(0, "", said_by(status, text), "")
