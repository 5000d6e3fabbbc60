#!/usr/bin/python3
"""Takes mends of what stands around the office out again, and sees that tests fail without them.

    tests/without_mends.py [--program FILE] [--sshstation FILE] [--together] [NAME..]

NAME is one of data/mends.toml, or the number of a row of README.md's table; all, if none is named. Each is tried in a
copy of the repository: without its mend each of its tests has to fail, in one of its cases at least. With --together
the mends are taken out of one copy, which is quicker for tests of machines. The last line counts."""
import argparse
import os
import pathlib
import shutil
import subprocess
import sys
import tempfile
import tomllib
import xml.etree.ElementTree

TOP = pathlib.Path(__file__).resolve().parent.parent
MENDS = TOP / "tests/data/mends.toml"
# What tests read beside the programs.
PARTS = "tests examples programs docs debian tools package repository crates.txt pytest.ini README.md".split()


def mends():
    return tomllib.loads(MENDS.read_text())


def edits(mend):
    """What stands in the mend's file, and what stood there before, for each of its edits."""
    return [(mend["old"], mend["new"]), *map(tuple, mend.get("more", []))] if "file" in mend else []


def take_out(mend, top, program):
    """Takes a mend out of a copy of the repository, and returns the program that tests run there."""
    for old, new in edits(mend):
        file = top / mend["file"]
        text = file.read_text()
        assert 1 == text.count(old), f"{mend['file']} hasn't once: {old}"
        file.write_text(text.replace(old, new))
    if "program" not in mend:
        return program
    stand_in = top / "sshoffice"
    stand_in.write_text(f"#!/bin/sh\nPROGRAM={program}\n{mend['program']}")
    stand_in.chmod(0o755)
    return stand_in


def failed_tests(top, tests, program, sshstation):
    """Those of the tests of which a case failed, by file and name, and what pytest printed."""
    report = top / "report.xml"
    words = ["/usr/bin/python3", "-B", "-m", "pytest", "-q", "-p", "no:cacheprovider", f"--basetemp={top}/room",
             f"--junitxml={report}", f"--program={program}", f"--sshstation={sshstation}"]
    done = subprocess.run([*words, *(f"tests/{it}" for it in tests)], cwd=top, capture_output=True, text=True,
                          errors="replace", stdin=subprocess.DEVNULL)
    failed = set()
    for case in xml.etree.ElementTree.parse(report).iter("testcase") if report.exists() else ():
        if case.find("failure") is not None:
            failed.add(f"{case.get('classname').rpartition('.')[2]}.py::{case.get('name').partition('[')[0]}")
    return failed, done.stdout


def without(names, chosen, given):
    """Takes the mends of these names out of one copy, and returns whether each test fails then."""
    with tempfile.TemporaryDirectory(prefix="mends-") as folder:
        top = pathlib.Path(folder)
        for part in PARTS:
            if (TOP / part).is_dir():
                shutil.copytree(TOP / part, top / part)
            else:
                shutil.copy(TOP / part, top / part)
        program = given.program
        for name in names:
            program = take_out(chosen[name], top, program)
        tests = [*dict.fromkeys(it for name in names for it in chosen[name]["tests"])]
        failed, said = failed_tests(top, tests, program, given.sshstation)
    passed = [it for it in tests if it.rpartition("/")[2] not in failed]
    print(f"{' '.join(names)}: " + (f"PASSED without the mend: {' '.join(passed)}\n{said[-2000:]}" if passed else
                                    f"{len(tests)} tests fail"), flush=True)
    return len(passed), len(tests) - len(passed)


def main():
    parser = argparse.ArgumentParser(usage=__doc__)
    for name in ("sshoffice", "sshstation"):
        parser.add_argument(f"--{'program' if name == 'sshoffice' else name}", type=pathlib.Path,
                            default=TOP / f"crates/{name}/out/{name}")
    parser.add_argument("--together", action="store_true")
    parser.add_argument("names", nargs="*")
    given = parser.parse_args()
    given.program, given.sshstation = given.program.resolve(), given.sshstation.resolve()
    chosen = {name: it for name, it in mends().items()
              if not given.names or {name, str(it["row"])} & {*given.names}}
    counts = [without(it, chosen, given) for it in ([[*chosen]] if given.together else [[it] for it in chosen])]
    passed, failed = map(sum, zip(*counts))
    print(f"{failed} tests fail without what they show, {passed} don't")
    return int(passed or not chosen)


if __name__ == "__main__":
    os.umask(0o022)
    sys.exit(main())
