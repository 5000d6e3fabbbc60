"""Key revocation lists (KRLs), in the form that an office writes: OpenSSH's PROTOCOL.krl, docs/FORMATS.md.

A list may revoke millions of serials. So it stays bytes, and what it revokes is read from them each time.
"""
import heapq
import struct
from dataclasses import dataclass

from vethlumi.formats import BadFormat, date, fingerprint

HEAD = struct.Struct(">12sQQQ")
MAGIC = b"SSHKRL\n\0\0\0\0\1"
SERIALS, RANGE, KEY_IDS = 0x20, 0x21, 0x23
# A list has a section for each CA at most, and an office at most so many CAs.
MOST_CAS = 8


def string_at(data, at):
    """The bytes of the string (RFC 4251) that begins at a place, and the place after it."""
    begin = at + 4
    end = begin + int.from_bytes(data[at:begin])
    if end > len(data) or begin > len(data):
        raise BadFormat("the list is truncated")
    return data[begin:end], end


def strings_of(data):
    """The strings that bytes consist of."""
    at = 0
    while at < len(data):
        text, at = string_at(data, at)
        yield text


def parts_of(data):
    """The parts that bytes consist of, each with its type."""
    at = 0
    while at < len(data):
        kind = data[at]
        text, at = string_at(data, at + 1)
        yield kind, text


class Section:
    """What a list revokes under one CA: runs of serials, and key IDs."""

    def __init__(self, data):
        ca, at = string_at(data, 0)
        _, at = string_at(data, at)
        self.ca, self.parts = bytes(ca), data[at:]
        for kind, text in parts_of(self.parts):
            is_whole = {SERIALS: len(text) % 8 == 0, RANGE: len(text) == 16, KEY_IDS: True}.get(kind)
            if not is_whole or not text or (kind == KEY_IDS and not all(strings_of(text))):
                raise BadFormat("the list has an unexpected part")

    def each(self, kind):
        return (text for found, text in parts_of(self.parts) if found == kind)

    def runs(self):
        """The first and the last serial of each run, in ascending order."""
        single = ((it, it) for text in self.each(SERIALS) for (it,) in struct.iter_unpack(">Q", text))
        return heapq.merge(single, (struct.unpack(">QQ", text) for text in self.each(RANGE)))

    def key_ids(self):
        return (bytes(it).decode("latin-1") for text in self.each(KEY_IDS) for it in strings_of(text))

    def revokes(self, certificate):
        return self.ca == certificate.ca and (
            certificate.key_id in self.key_ids() or any(low <= certificate.serial <= high for low, high in self.runs()))

    def as_record(self):
        """What people and programs are shown of it. Serials and key IDs are read as they are printed."""
        return {"ca": fingerprint(self.ca), "keyids": self.key_ids(),
                "serials": (f"{low}" if low == high else f"{low}-{high}" for low, high in self.runs())}


@dataclass(frozen=True)
class RevocationList:
    version: int
    moment: int
    sections: tuple
    length: int

    @classmethod
    def of(cls, data):
        """The list of these bytes."""
        data = memoryview(data)
        if len(data) < HEAD.size or data[:len(MAGIC)] != MAGIC:
            raise BadFormat("not a key revocation list")
        _, version, moment, _ = HEAD.unpack(data[:HEAD.size])
        _, at = string_at(data, HEAD.size)
        _, at = string_at(data, at)
        sections = []
        for kind, text in parts_of(data[at:]):
            if kind != 1 or len(sections) == MOST_CAS:
                raise BadFormat("the list has an unexpected section")
            sections.append(Section(text))
        return cls(version, moment, tuple(sections), len(data))

    def revokes(self, certificate):
        """Whether it revokes a certificate, by its serial or its key ID under its CA."""
        return any(it.revokes(certificate) for it in self.sections)

    def as_record(self):
        return {"version": str(self.version), "date": date(self.moment), "bytes": self.length,
                "cas": [it.as_record() for it in self.sections]}
