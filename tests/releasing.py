"""What a release is made of: ./package, over the built programs or over files that stand for them."""
import pathlib
import shutil

from running import TOP, left_out, run

VERSION = "1.0.0"
COLLECTION = f"vethlumi-fleet-{VERSION}.tar.gz"
# What stands for a program: it explains itself as the real one does, and nothing more.
STAND_IN = """#!/bin/sh
cat <<'END'
Stands for a program

Usage: {name} <COMMAND>

Commands:
  init   Makes a file
  help   Print this message or the help of the given subcommand(s)

Options:
  -h, --help  Print help
END
"""
# What ./package takes from the repository.
SOURCES = ("package", "debian", "programs", "examples", "tools/collection", "tools/sbom", "crates.txt", "docs")


def stand_ins(folder):
    """Files that stand for sshoffice and sshstation, in a folder, which is made."""
    folder.mkdir()
    made = [folder / name for name in ("sshoffice", "sshstation")]
    for it in made:
        it.write_text(STAND_IN.format(name=it.name))
        it.chmod(0o755)
    return made


def copy_sources(folder):
    """The sources in another folder, with other times."""
    for name in SOURCES:
        (folder / name).parent.mkdir(parents=True, exist_ok=True)
        if (TOP / name).is_dir():
            shutil.copytree(TOP / name, folder / name, copy_function=shutil.copy, symlinks=True)
        else:
            shutil.copy(TOP / name, folder / name)
    return folder


def packed(out, sshoffice, sshstation, top=TOP, before=(), **how):
    """The files that ./package makes, by their names. `before` are words before its own."""
    for program, package in (("dh", "debhelper"), ("ansible-galaxy", "ansible-core")):
        if not shutil.which(program):
            left_out(f"{package} isn't installed")
    words = [*before, top / "package", "--out", out, "--sshoffice", sshoffice, "--sshstation", sshstation]
    made = run(words, timeout=800, **how)
    assert 0 == made.returncode, made.stderr.decode()
    return {it.name: it for it in map(pathlib.Path, made.stdout.decode().splitlines())}
