"""The settings of a registrar: a TOML file. Each bad setting is refused by a name, with its line and its key."""
import os
from dataclasses import dataclass

from vethlumi import formats
from vethlumi import settings as of_client
from vethlumi_common import files
from vethlumi_signon.settings import BadSettings, Table, read_departments, read_file

FILE = "/etc/vethlumi/registrar/registrar.toml"


@dataclass(frozen=True)
class Settings:
    office: str
    certificate: str
    cacert: str
    caller: str
    wait: int
    certificates: int
    requests: int
    departments: dict


def read_office(table):
    """Where the office is, and who asks it, as the client's settings say it."""
    given = of_client.Settings(office=table.text("office"), certificate=table.file("certificate", ""),
                               cacert=table.file("cacert", ""), caller=table.text("caller", ""))
    try:
        given.url()
    except of_client.BadSettings as fault:
        table.refuse("BadUrl", "office", str(fault))
    if given.caller and not formats.NAME.fullmatch(given.caller):
        table.refuse("BadCaller", "caller", "a caller's name has 1 to 32 of a-z 0-9 -")
    if bool(given.caller) == bool(given.certificate):
        table.refuse("NoCaller", "certificate", "the front knows a caller by its certificate; `caller` is for an "
                                                "office without a front")
    if given.certificate and is_open(given.certificate):
        table.refuse("ReadByOthers", "certificate", "users other than its owner can use the file with the key, or its "
                                                    "group if the file is root's")
    return given


def is_open(path):
    """Whether others may use a private key: other users, or those of its group unless root has given it to them."""
    found = os.stat(path)
    return bool(found.st_mode & (0o037 if found.st_uid == 0 else 0o077))


def settings_of(values):
    """The settings in the values of a file."""
    table = Table(values)
    office = read_office(table)
    departments = read_departments(table)
    limits = Table(table.take("limits", dict, {}), "limits")
    made = Settings(office.url(), office.certificate, office.cacert, office.caller, table.number("wait", 0, 8, 2),
                    limits.number("certificates", 1, 1000, 20), limits.number("requests", 1, 100000, 200), departments)
    for it in (limits, table):
        it.end()
    return made


def read_settings(path):
    if why := files.distrust(path):
        raise BadSettings("Distrusted", "", why)
    return read_file(path, settings_of)
