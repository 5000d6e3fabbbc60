"""The recording of a first session, docs/pictures/first-minutes.cast: its commands print now what it shows.

Times are left out, and so are digests, fingerprints and dates, which are others at each run. The picture of it is
compared with what docs/pictures/make draws by test_pages.py.
"""
import json
import re
import sys
import xml.etree.ElementTree

import pytest

from running import EXAMPLES, TOP, free_port

PICTURES = TOP / "docs/pictures"
sys.path.append(str(PICTURES))
import terminal

SESSION = (PICTURES / "first-minutes.session").read_text()
RECORDED = (PICTURES / "first-minutes.cast").read_text()
DRAWN = (PICTURES / "first-minutes.svg").read_text()
SVG = "{http://www.w3.org/2000/svg}"
# What is new at each run, and what stands for it when a text is compared.
VARYING = [
    (re.compile(r"\b[0-9a-f]{64}\b"), "DIGEST"),
    (re.compile(r"SHA256:[A-Za-z0-9+/]{43}"), "FINGERPRINT"),
    (re.compile(r"\b20\d\d-?\d\d-?\d\dT\d\d:?\d\d:?\d\d\b"), "DATE"),
    (re.compile(r"\b[12]\d{9}\b"), "SECONDS"),
]


def alike(text):
    """The text with a word in the place of each part that is new at each run."""
    for pattern, word in VARYING:
        text = pattern.sub(word, text)
    return text


@pytest.mark.slow
def test_the_session_prints_what_the_recording_shows(program, sshstation, room):
    (room / "examples").symlink_to(EXAMPLES)
    printed = terminal.outputs(SESSION, room, [program, sshstation], str(free_port()))
    assert alike(terminal.text_of(RECORDED)) == alike(terminal.text_of(terminal.cast(SESSION, printed)))


def test_the_recording_is_asciinemas():
    """As https://docs.asciinema.org/manual/asciicast/v2 has it: a head, and events of output in order."""
    head, *events = [json.loads(it) for it in RECORDED.splitlines()]
    assert (2, True, True) == (head["version"], 0 < head["width"] <= 100, 0 < head["height"] <= 30)
    times = [it[0] for it in events]
    assert times == sorted(times) and 20 < times[-1] < 120
    assert {("o", True)} == {(kind, text.endswith("\r\n")) for _, kind, text in events}


@pytest.mark.parametrize("line", [
    "issued 1", "office ready 1 99999", "department people", "alice-cert.pub serial 1", "revoked", "version 1",
    'Key ID: "people/alice"', "# KRL version 1", "serial: 1", "alice-cert.pub (people/alice): REVOKED"])
def test_it_shows_what_matters(line):
    assert line in [it.strip() for it in terminal.text_of(RECORDED).splitlines()]


def test_the_picture_is_small_and_has_no_script():
    picture = xml.etree.ElementTree.fromstring(DRAWN)
    assert len(DRAWN.encode()) < 100_000
    tags = {it.tag.removeprefix(SVG) for it in picture.iter()}
    assert {"svg", "style", "rect", "circle", "g", "text", "tspan"} == tags
    assert not re.search(r"\bon\w+=|href|url\(|@import", DRAWN)


def test_a_line_of_the_picture_fits_it_and_can_be_read():
    """A letter of these fonts is at most 0.61 of their size wide."""
    picture = xml.etree.ElementTree.fromstring(DRAWN)
    lines = ["".join(it.itertext()) for it in picture.iter(f"{SVG}text")]
    assert 830 == int(picture.get("width")) and terminal.FONT >= 12
    assert terminal.LEFT + 0.61 * terminal.FONT * max(map(len, lines)) <= 830
    assert terminal.text_of(RECORDED).splitlines() == lines


# ---- how a session is read and wrapped

def test_a_session_has_comments_commands_and_what_is_hidden():
    text = "# First.\n$ cat <<END\n> a line\n> END\n. sleep 1\n? false\n"
    shown = terminal.text_of(terminal.cast(text, ["a line\n", "hidden\n", ""]))
    assert "# First.\n$ cat <<END\n> a line\n> END\na line\n$ false\n" == shown


def test_a_long_line_is_wrapped_as_a_terminal_does():
    shown = terminal.text_of(terminal.cast("$ true\n", ["x" * 98 + "\n" + "y" * 99 + "\n"]))
    assert "$ true\n" + "x" * 98 + "\n" + "y" * 98 + "\ny\n" == shown


@pytest.mark.parametrize("session, failed", [("$ true\n$ false\n$ true\n", "false"),
                                             ("? false\n? true\n$ true\n", "if true; then exit 9; fi")])
def test_a_command_that_ends_otherwise_is_no_recording(room, session, failed):
    with pytest.raises(RuntimeError, match=f"^{failed}\n"):
        terminal.outputs(session, room, [])
