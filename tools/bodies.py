"""The wrong bodies of a crate as they are written: the tables of its wrong-bodies.toml."""

import os
import re
import tomllib
from dataclasses import dataclass, field

from edits import Pair

TABLE = "wrong-bodies.toml"
NAME = re.compile(r"[a-z0-9-]+")
KEYS = {"file", "old", "new", "changes", "clause", "alone", "functions"}


@dataclass(eq=False)
class Body:
    """A wrong body: the pairs of texts that it changes. One that changes a statement names functions, whose checks
    decide. `clause` is what is to refuse it, as `bytes::Text::is_empty (empty)`; it may be unknown."""
    name: str
    pairs: list
    functions: list = field(default_factory=list)
    is_alone: bool = False
    clause: str = ""

    def applied(self, folder):
        """The texts of the files of the crate in this folder that it changes, as it changes them. Raises Mistake."""
        texts = {}
        for pair in self.pairs:
            inside = os.path.normpath(pair.path)
            if inside != pair.path or not inside.startswith(("src/", "specs/", "proofs/")):
                raise Mistake(f"{pair.path} is no file of src/, specs/ or proofs/")
            if not os.path.isfile(f"{folder}/{pair.path}"):
                raise Mistake(f"there is no file {pair.path}")
            if pair.path not in texts:
                with open(f"{folder}/{pair.path}", encoding="utf-8") as it:
                    texts[pair.path] = it.read()
            count = texts[pair.path].count(pair.old) if pair.old else 0
            if count != 1:
                raise Mistake(f"what it replaces is in {pair.path} {count} times, and not once")
            if pair.old == pair.new:
                raise Mistake("it changes nothing")
            texts[pair.path] = texts[pair.path].replace(pair.old, pair.new)
        if not texts:
            raise Mistake("it replaces nothing")
        return texts

    def as_edit(self):
        """Its text as a file of must-fail/, which the toolchain reads."""
        lines = [f"function: {it}" for it in self.functions]
        for pair in self.pairs:
            lines += [f"file: {pair.path}", f"old: {pair.old}", f"new: {pair.new}"]
        return "\n".join([*lines, ""])


class Mistake(Exception):
    """Why a crate's wrong bodies can't be read."""


def of_table(name, said):
    """The wrong body that a table of wrong-bodies.toml says."""
    unknown = sorted({*said} - KEYS) if isinstance(said, dict) else ["no table"]
    if unknown:
        raise Mistake(f"{name}: {unknown[0]} isn't known")
    if "changes" in said and {"file", "old", "new"} & {*said}:
        raise Mistake(f"{name}: it has either changes, or file, old and new")
    changes = said.get("changes", [{key: said.get(key) for key in ("file", "old", "new")}])
    for it in changes:
        if {*it} != {"file", "old", "new"} or not all(isinstance(text, str) for text in it.values()):
            raise Mistake(f"{name}: it has no file, old and new, each a text")
        if "\n" in it["old"] + it["new"]:
            raise Mistake(f"{name}: each of its texts is one line")
    pairs = [Pair(it["file"], it["old"], it["new"]) for it in changes]
    return Body(name, pairs, said.get("functions", []), said.get("alone", False), said.get("clause", ""))


def of_text(text):
    """The wrong bodies that a table says, by their names."""
    try:
        return {name: of_table(name, said) for name, said in tomllib.loads(text).items()}
    except tomllib.TOMLDecodeError as fault:
        raise Mistake(fault) from fault


def of_crate(folder):
    """The wrong bodies of the crate in this folder, by their names. Raises Mistake."""
    table = f"{folder}/{TABLE}"
    if not os.path.isfile(table):
        return {}
    with open(table, encoding="utf-8") as it:
        try:
            found = of_text(it.read())
        except Mistake as fault:
            raise Mistake(f"{table}: {fault}") from fault
    for name in found:
        if not NAME.fullmatch(name):
            raise Mistake(f"{table}: {name}: the name of a wrong body is of a-z, 0-9 and -")
    return found
