"""`vethlumi-front-tls`: when the front's TLS certificate is renewed, and what it says of when each certificate ends. The
authority is the one of programs/front, and openssl reads what it has made."""
import argparse
import calendar
import os
import re
import time

import pytest

from running import PROGRAMS, loaded, run


class Renewing:
    """The command in a room of its own, with an authority, and a stand-in for systemctl."""

    def __init__(self, room, monkeypatch, days):
        self.room, self.folder = room, room / "authority"
        (room / "bin").mkdir()
        (room / "bin/systemctl").write_text(f'#!/bin/sh\necho "$@" >>{room}/said\n')
        (room / "bin/systemctl").chmod(0o755)
        monkeypatch.setenv("PATH", f"{room}/bin:{PROGRAMS}/front:{os.environ['PATH']}")
        monkeypatch.setattr(os, "getuid", lambda: 1000)
        self.script = it = loaded(PROGRAMS / "setup/vethlumi-front-tls")
        (room / "front").mkdir()
        monkeypatch.setattr(it, "FRONT", room / "front")
        monkeypatch.setattr(it, "STATE", room / "state")
        monkeypatch.setattr(it.setting_up, "UNREAD", room / "unread")
        environment = os.environ | {"DAYS": str(days)}
        run(["authority", "new", self.folder, "front.example.org", "192.0.2.7"], check=True, env=environment)
        run(["authority", "caller", self.folder, "ana"], check=True)

    def __call__(self, days=30):
        (self.room / "said").write_text("")
        self.script.do(argparse.Namespace(authority=str(self.folder), days=days), None)
        return (self.room / "said").read_text().splitlines()

    def shown(self, name):
        return (self.room / "front" / name).read_text()

    def end(self, name):
        told = run(["openssl", "x509", "-in", self.folder / name, "-noout", "-enddate"], check=True).stdout.decode()
        return calendar.timegm(time.strptime(told.strip(), "notAfter=%b %d %H:%M:%S %Y GMT"))

    def metrics(self):
        text = (self.room / "state/tls.prom").read_text()
        return {name: int(end) for name, end in re.findall(
            r'^office_issued_tls_ends_timestamp_seconds\{of="(.*)"\} ([0-9]+)$', text, re.M)}


@pytest.mark.parametrize("days, is_due", [(30, True), (31, False)])
def test_the_front_s_certificate_is_renewed_before_it_ends(room, monkeypatch, days, is_due):
    """For the same hosts, and with another key. The front reads it at once."""
    renewing = Renewing(room, monkeypatch, days)
    old = (renewing.folder / "server.crt").read_text(), (renewing.folder / "server.key").read_text()
    assert ["reload office-front"] == renewing()
    new = (renewing.folder / "server.crt").read_text(), (renewing.folder / "server.key").read_text()
    assert (is_due, is_due) == (new[0] != old[0], new[1] != old[1])
    assert new == (renewing.shown("server.crt"), renewing.shown("server.key"))
    assert 0o640 == (room / "front/server.key").stat().st_mode & 0o777
    told = run(["openssl", "x509", "-in", room / "front/server.crt", "-noout", "-ext", "subjectAltName"], check=True)
    assert b"DNS:front.example.org, IP Address:192.0.2.7" in told.stdout
    # Once is enough.
    assert [] == renewing() and new[0] == renewing.shown("server.crt")


def test_each_certificate_s_end_is_told(room, monkeypatch):
    """As openssl reads them, that of the authority and of its list, too."""
    renewing = Renewing(room, monkeypatch, 100)
    renewing()
    found = renewing.metrics()
    assert {"ca.crt", "crl.pem", "server.crt", "ana.pem"} == {*found}
    assert [renewing.end(it) for it in ("ca.crt", "server.crt", "ana.pem")] == [
        found[it] for it in ("ca.crt", "server.crt", "ana.pem")]
    assert 0o644 == (room / "state/tls.prom").stat().st_mode & 0o777
    # A client's isn't renewed: somebody has to take its key there.
    before = (renewing.folder / "ana.pem").read_text()
    renewing(364)
    assert before == (renewing.folder / "ana.pem").read_text()


def test_what_a_killed_run_has_made_is_copied_by_the_next(room, monkeypatch):
    renewing = Renewing(room, monkeypatch, 10)
    copy = renewing.script.copy
    monkeypatch.setattr(renewing.script, "copy", lambda folder: (_ for _ in ()).throw(KeyboardInterrupt))
    with pytest.raises(KeyboardInterrupt):
        renewing()
    made = (renewing.folder / "server.crt").read_text()
    monkeypatch.setattr(renewing.script, "copy", copy)
    assert ["reload office-front"] == renewing()
    assert made == renewing.shown("server.crt") == (renewing.folder / "server.crt").read_text()


def test_a_front_that_could_not_read_it_is_asked_again(room, monkeypatch):
    """The files are the same by then."""
    renewing = Renewing(room, monkeypatch, 10)
    systemctl = room / "bin/systemctl"
    works = systemctl.read_text()
    systemctl.write_text(works + "exit 1\n")
    with pytest.raises(renewing.script.Fault, match="systemctl reload office-front"):
        renewing()
    systemctl.write_text(works)
    assert ["reload office-front"] == renewing()
    assert [] == renewing()


def test_a_machine_without_the_authority_renews_nothing(room, monkeypatch):
    renewing = Renewing(room, monkeypatch, 10)
    (renewing.folder / "ca.key").unlink()
    with pytest.raises(renewing.script.Fault, match="authority has no authority: run this on the machine that has it"):
        renewing()
    assert [] == [*(room / "front").iterdir()]


def test_a_damaged_authority_is_told(room, monkeypatch):
    renewing = Renewing(room, monkeypatch, 10)
    (renewing.folder / "index").write_text("damaged\n")
    with pytest.raises(renewing.script.Fault, match="authority ends failed: authority: .*index: line 1 is damaged"):
        renewing()
