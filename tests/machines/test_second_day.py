"""docs/DAILY.md typed into machines that are booted, as INSTALLING leaves them: servers that enrol themselves. And
somebody's own laptop, which is lost."""
import contextlib
import re
import shutil

import pytest

import boxes
import pages
# With its fixtures, which boot the machines as the page leaves them.
from test_packages import ADMIN, MACHINES, Fleet, base, installed, is_up, marked, of, on_boxes, packages
from running import TOP

PAGE = (TOP / "docs/DAILY.md").read_text()
WEB, LAPTOP = "web", "laptop"
# What each side has, and the settings of the registrar.
STATE = {"station": "cat /etc/vethlumi/station/first.policy /etc/vethlumi/station/first.office",
         "office": "curl -sSf --unix-socket /run/office-door.sock http://office/v1/departments; "
                   "cat /etc/vethlumi/registrar/*; ls -l /etc/vethlumi/registrar"}
SHOWN = "ssh-keygen -L -f /etc/vethlumi/host-cert.pub 2>/dev/null || true"


class Site(Fleet):
    """The machines of the page, a bare one that gets its packages from an image, and bob's own."""
    FURTHER = (LAPTOP,)

    def section(self, heading):
        return pages.blocks(pages.section(PAGE, heading))

    def install(self, words):
        return self.shell(ADMIN).run(f"programs/setup/vethlumi-install {words} $both\n")


@pytest.fixture
def site(base, installed, packages, tmp_path):
    made = Site(tmp_path, base, packages, installed)
    with contextlib.closing(made):
        made.add(ADMIN, *MACHINES, WEB, LAPTOP)
        boxes.wait_until(lambda: is_up(made), "the office answers")
        made.type(pages.blocks(PAGE.partition("\n## ")[0]))
        assert "granted" in made.type(made.section("A second user"))
        for name in ("vethlumi-common", "vethlumi-client"):
            shutil.copy(of(packages, name), made.boxes[WEB].files / "root")
        made.boxes[WEB].run("apt-get update -qq && apt-get install -y -qq ./*.deb >/dev/null", timeout=400)
        yield made


def state(site):
    return {it: site.boxes[it].says(words) for it, words in STATE.items()}


def serial(site):
    """That of the certificate which sshd shows, once the timer's unit has run."""
    site.boxes[WEB].run("systemctl start vethlumi-host.service", False)
    return int((re.search(r"Serial: (\d+)", site.boxes[WEB].says(SHOWN)) or [0, 0])[1])


@marked(*on_boxes)
def test_servers_enrol_and_a_lost_laptop_is_replaced(site):
    """One test, since each of its steps needs what those before have left."""
    enrol(site)
    look_at_what_it_may(site)
    lose_a_laptop(site)


def enrol(site):
    key, prepare, token, set_up, login = site.section("Servers that enrol themselves")
    told = site.type([key, prepare])
    assert "  + admins host-{name},registrar" in "".join(f"{it}\n" for it in told), told
    before = state(site)
    assert 2 == sum(it.count("admins host-{name},registrar\n") for it in before["station"].split("[policy]"))
    again = site.install("enrolment enrol.jwks")
    assert 3 == again.count("everything is as it should be") and before == state(site), again
    # What cloud-init would bring. Nobody else logs in to this machine.
    site.type([token])
    admin, web = (site.boxes[it].files / "root" for it in (ADMIN, WEB))
    shutil.copy(admin / "vethlumi/server.bundle", web)
    (web / "web.token").write_text(site.boxes["client"].says("cat web.token") + "\n")
    site.type([set_up])
    boxes.wait_until(lambda: serial(site), "the server has a certificate")
    said = site.boxes[WEB].says(SHOWN)
    assert 'Key ID: "hosts/web/' in said and "web.example.org" in said
    assert "granted" in site.type([login])


def look_at_what_it_may(site):
    """It renews by its own key, a second key gets nothing by the token, and in the end its certificates are revoked."""
    first, web = serial(site), site.boxes[WEB]
    web.run("vethlumi-host --now")
    assert serial(site) > first
    other = site.boxes["client"].run("ssh-keygen -q -t ed25519 -N '' -f other && vethlumi workload other.pub "
                                     "--department hosts --token web.token", False)
    assert 0 != other.returncode and "KeyReused" in other.stdout, other.stdout
    told = site.install("remove-server web.example.org")
    assert re.search(r"revoke what can still be used: [23] of the office's certificates", told), told
    refused = web.run("vethlumi-host --now", False)
    assert 0 != refused.returncode and "Revoked" in refused.stdout, refused.stdout


OF_BOB = "add-user bob --client laptop.example.org --user bob --hosts '*.example.org'"
# What bob types on his laptop. ssh asks nobody.
HIS = """ssh-keygen -q -t ed25519 -N '' -C bob -f bob
vethlumi request people/bob/laptop bob.pub --principals bob@people --extensions permit-pty
"""
LOGIN = "ssh -o BatchMode=yes -o IdentitiesOnly=yes -i bob bob@server.example.org echo granted || true\n"


def lose_a_laptop(site):
    """bob has certificates of his own, by his own account; then nobody has them, and he gets others."""
    laptop = site.boxes[LAPTOP]
    laptop.run("useradd --create-home --shell /bin/bash bob")
    told = site.install(OF_BOB)
    assert "as bob: write /home/bob/.config/vethlumi/bob.pem" in told
    assert "everything is as it should be" in site.install(OF_BOB).rpartition("on laptop.example.org")[2]
    assert "" == laptop.says("ls -A /root/.config 2>/dev/null || true")
    bob = site.shells["bob"] = boxes.Shell(laptop, "bob")
    assert "granted" in bob.run(HIS + LOGIN)
    site.install("remove-user bob")
    boxes.wait_until(lambda: "granted" not in bob.run(LOGIN), "the lost key is refused")
    refused = bob.run("vethlumi request people/bob/thief bob.pub --principals bob@people --out thief || true\n")
    assert "was revoked" in refused, refused
    # He goes on, on another laptop, of which this one has the place.
    bob.run("rm -rf bob* .config\n")
    site.install(OF_BOB)
    assert "granted" in bob.run(HIS + LOGIN)
