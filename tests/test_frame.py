"""That the fixtures give what tests/README.md says, with an office, a front, a station and a browser."""
from asking import department, exchange, issue, lasting, post
from running import new_key, run


def test_an_office_in_a_file(office):
    asked = exchange(post("ana", "one", issue("web/one")), 1000, 0x33)
    given = office.apply([post("root", "web", department()), asked])
    assert [b"department web\n", 200] == [given[0].body, given[1].status]
    assert b"total 1 version 0\n" in office.table()


def test_an_office_that_serves(served):
    assert (200, "department web\n") == (lambda it: (it.status, it.text))(served.post("root", "web", department()))
    assert 44 == len(served.get("/v1/krl").body)


def test_a_certificate_through_the_front(front, station, room):
    ana, root = front.session("ana"), front.session("root")
    assert 200 == root.post(f"{front.url}/v1/requests/web", data=department()).status_code
    asked = issue("web/alice", key=new_key("alice"), **lasting(3600))
    assert 200 == ana.post(f"{front.url}/v1/requests/alice", data=asked).status_code
    assert 403 == front.session().get(f"{front.url}/v1/table").status_code
    assert [1] == station.sign()
    (room / "alice-cert.pub").write_bytes(ana.get(f"{front.url}/v1/certs/1").content)
    assert b'Key ID: "web/alice"' in run(["ssh-keygen", "-L", "-f", "alice-cert.pub"], check=True).stdout
    front.make("revoke", front.certificate("ana"))
    (front.conf / "crl.pem").write_bytes((front.authority / "crl.pem").read_bytes())
    front.reload()
    assert 403 == front.session("ana").get(f"{front.url}/v1/table").status_code


def test_a_page_in_the_browser(front, browser, make_relay):
    front.session("root").post(f"{front.url}/v1/requests/web", data=department())
    browser.get(make_relay(front, "watch").url + "/page/")
    assert "Vethlumi: SSH certificate office" == browser.title
