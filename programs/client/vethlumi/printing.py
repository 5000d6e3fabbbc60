"""What is printed: tables for people, JSON for programs; colours on a terminal alone."""
import collections.abc
import itertools
import json
import sys

import click
from rich.console import Console
from rich.table import Table

from vethlumi_common.texts import plain

COLOURS = {"signed": "green", "pending": "yellow", "revoked": "red", "ok": "green", "warn": "yellow", "bad": "red"}


def batches(texts):
    """What an iterator of texts gives, some thousands at once, each time with a comma if there were some before."""
    comma = ""
    while batch := [*itertools.islice(texts, 4096)]:
        yield comma, batch
        comma = ", "


def json_pieces(value):
    """The pieces of a value's JSON. What an iterator of texts gives is never whole in memory."""
    if isinstance(value, collections.abc.Iterator):
        yield "["
        for comma, batch in batches(value):
            yield comma + json.dumps(batch)[1:-1]
        yield "]"
    elif isinstance(value, list):
        yield "["
        for number, it in enumerate(value):
            yield ", " * bool(number)
            yield from json_pieces(it)
        yield "]"
    elif isinstance(value, dict):
        yield "{"
        for number, (name, it) in enumerate(value.items()):
            yield f"{', ' * bool(number)}{json.dumps(name)}: "
            yield from json_pieces(it)
        yield "}"
    else:
        # Only ASCII: some letters beyond it steer a terminal.
        yield json.dumps(value)


def write(pieces):
    """Writes pieces of text to the output, without one whole text of them."""
    for it in pieces:
        sys.stdout.write(it)
    sys.stdout.flush()


def print_json(record):
    write(json_pieces(record))
    click.echo()


def print_text(text):
    """Prints a text that has come from elsewhere, and that was looked through."""
    write([text])


def print_table(columns, rows, empty):
    """Prints rows of texts under columns, or what is said where there is none."""
    if not rows:
        click.echo(empty)
        return
    made = Table(box=None, pad_edge=False, header_style="bold", show_edge=False)
    for name in columns:
        made.add_column(name, justify="right" if name in ("serial", "serials", "since") else "left", overflow="fold")
    for row in rows:
        made.add_row(*map(plain, row), style=next((COLOURS[it] for it in row if it in COLOURS), None))
    Console(highlight=False, markup=False, emoji=False, width=None if sys.stdout.isatty() else 200).print(made)


def field_pieces(record):
    """The pieces of a record's lines, a field on each."""
    width = max(map(len, record)) + 2
    for name, value in record.items():
        if isinstance(value, dict):
            value = [f"{key} {text}".strip() for key, text in value.items()]
        yield plain(name)
        texts = value if isinstance(value, list | collections.abc.Iterator) else [value]
        for comma, batch in batches(map(str, texts)):
            yield plain((comma or " " * (width - len(name))) + ", ".join(batch))
        yield "\n"


def print_fields(record):
    """Prints a record, a field on a line."""
    write(field_pieces(record))


def say(text):
    """Tells people something beside the output."""
    click.echo(f"vethlumi: {plain(text)}", err=True)
