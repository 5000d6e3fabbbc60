"""Numbers that pages and help promise, beside those of units, configuration and code.

data/promises.toml has a row for each number: the places where it is promised, and those where it is set. Each pattern
has to fit, wherever it fits the number is the same, and so it is in all places of the row. So a page that changes its
number without the code fails here, and the other way round.
"""
import re

import pytest

from running import TOP, rows

ROWS = rows("promises")

UNITS = {"": 1, "s": 1, "second": 1, "min": 60, "m": 60, "minute": 60, "h": 3600, "hour": 3600, "d": 86400,
         "day": 86400, "KiB": 1 << 10, "MiB": 1 << 20, "M": 1 << 20, "GB": 1 << 30, "G": 1 << 30}
WORDS = {it: number for number, it in enumerate(
    "zero one two three four five six seven eight nine ten eleven twelve".split())} | {"a": 1, "an": 1}


def measure(text):
    """The number that a text means, in seconds or bytes: `two minutes`, `2min`, `1 << 25`, `32 MiB`, `16,384`."""
    if shifted := re.fullmatch(r"(\d+) << (\d+)", text):
        return int(shifted[1]) << int(shifted[2])
    number, unit = re.fullmatch(r"(\d[\d,]*|[a-z]+(?= |$)|) ?([A-Za-z]*)", text).groups()
    if number not in WORDS and not number[:1].isdigit():
        number, unit = "a", number
    return (WORDS[number] if number in WORDS else int(number.replace(",", ""))) * UNITS[unit.removesuffix("s") or unit]


def found(file, pattern):
    """What a pattern finds in a file: of a page, and of a text that a page quotes, lines may end anywhere."""
    text = (TOP / file).read_text()
    places = re.findall(pattern, text, re.M) or re.findall(pattern, re.sub(r"\s+(# +)?", " ", text), re.M)
    return ["".join(it) for it in places]


@pytest.mark.parametrize("row", ROWS.values(), ids=[*ROWS])
def test_a_promised_value_is_the_one_that_is_set(row):
    assert row["promised"] and row["set"]
    measured = {(file, pattern): {measure(it) for it in found(file, pattern)}
                for file, pattern in row["promised"] + row["set"]}
    assert [] == [place for place, values in measured.items() if len(values) != 1], "each place has one value"
    assert 1 == len(set().union(*measured.values())), measured


def test_a_unit_gives_its_programs_the_time_to_end():
    """systemd kills what takes longer: the station's guards, and the connections that nginx still has."""
    def one(file, pattern):
        [value] = {measure(it) for it in found(file, pattern)}
        return value
    limits = "programs/station/vethlumi_station/limits.py"
    stop, ending, lists = "^TimeoutStopSec=(.*)$", r"^LONGEST_JUDGING, LONGEST_ENDING = .*, (.*)$", \
        r"^LONGEST_REQUEST, .*LONGEST_STATING, LONGEST_READING = .*, (\d+), \d+$"
    assert one("programs/units/office-station@.service", stop) \
        > one(limits, ending) + one(limits, lists)
    assert one("programs/units/office-front.service", stop) \
        > one("programs/front/nginx.conf", r"^worker_shutdown_timeout (\w+);")


@pytest.mark.parametrize("text, due", [
    ("two minutes", 120), ("2min", 120), ("a minute", 60), ("minute", 60), ("hour", 3600), ("10s", 10), ("10m", 600),
    ("1h", 3600), ("16,384", 16384), ("1 << 25", 33554432), ("400 << 20", 419430400), ("32 MiB", 33554432),
    ("1G", 1 << 30), ("1 GB", 1 << 30),
    ("eight", 8), ("ten", 10), ("8", 8), ("20 seconds", 20), ("8 hours", 28800), ("30d", 2592000),
])
def test_a_text_is_measured(text, due):
    assert due == measure(text)


@pytest.mark.parametrize("text", ["soon", "some minutes", "10 parsecs"])
def test_a_text_without_a_number_is_none(text):
    with pytest.raises(KeyError):
        measure(text)
