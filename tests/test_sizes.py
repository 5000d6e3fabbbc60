"""With ample memory nothing is too long to be served: bodies of each size over sockets, and lists up to a megabyte.

Bodies that are no message are refused by what docs/FORMATS.md says of their length alone. The lists are read by
ssh-keygen.
"""
import re

import pytest

from asking import CA, department, post, revoke_keyid
from running import run

MOST = 16384
# Sizes at which a page, a buffer or a doubling may end, and those between them in steps.
BODIES = sorted({*range(0, MOST, 211), *(size + more for size in (256, 512, 1024, 2048, 4096, 8192, 12288, MOST)
                                         for more in (-2, -1, 0, 1, 2))})


def test_a_body_of_any_size_is_taken(make_office):
    with make_office(ca=CA).serving() as served:
        refused = {size: served.post("ana", "i1", b"a" * size).body for size in BODIES}
    assert {size: b"refused 5 TooLong\n" if size > MOST else b"refused 7 BadMessage\n" for size in BODIES} == refused


def key_id(number):
    return f"web/{number}".ljust(60, "x")


@pytest.mark.slow
def test_a_list_of_any_size_is_given(make_office, room):
    """Around 4096 bytes, 64 KiB and a megabyte: each key id takes 64 bytes."""
    office, count = make_office(ca=CA), 0
    office.apply([post("root", "web", department())])
    for wanted in (0, 1, 62, 63, 64, 1021, 1022, 1023, 1024, 2000, 9000, 16383, 16384, 16385, 16390):
        office.apply([post("root", f"r{number}", revoke_keyid(key_id(number))) for number in range(count, wanted)])
        count = wanted
        with office.serving(connections=1) as served:
            given = served.get("/v1/krl")
        assert 200 == given.status
        assert office.krl() == given.body
        (room / "list").write_bytes(given.body)
        listed = re.findall(r"^id: (\S+)$", run(["ssh-keygen", "-Qlf", "list"], check=True).stdout.decode(), re.M)
        assert sorted(key_id(number) for number in range(count)) == sorted(listed)
