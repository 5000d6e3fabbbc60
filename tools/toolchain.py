"""What the scripts of this folder take from the toolchain: the crates, the words of a check, and its order of tasks.

The command `rt` is a Python program. Its own code decides how a crate is proved and how an edit is applied, so these
scripts load that code and call it. They add only what is tried, and what counts as an answer, and they replace nothing
of it. CALLED, VALUES and OF_A_CRATE are all that they take: if a toolchain lacks one of these, or wants other
arguments, the scripts say so at once, and do nothing. How the prover words a refusal is read by tools/wrong-bodies, and
tools/test-wrong-bodies shows whether it reads it well.
"""

import importlib.machinery
import importlib.util
import inspect
import os
import re
import shutil
import subprocess
import sys
import tempfile

from remembered import environment, without_course

TOP = os.path.dirname(os.path.dirname(os.path.realpath(__file__)))
KITS = "rattle-kit-13b and rattle-kit-13f"

# What the scripts take from `rt`: functions and methods, each with the arguments that they are called with, and values.
# A method's first argument is the crate. `share_work`, `kit_sum()` and `STORE`, which older toolchains don't have, are
# taken only if they are there.
CALLED = """need(crate) free() processors() must_fail(crate, edit, flags, kept) rtlib.guarded() rtlib.blanked(folder)
rtlib.crates_below(top) rtlib.files_of(folder) rtlib.sum_of(file) rtlib.text_of(file) rtlib.lock(crates)
rtlib.Crate.stamp(crate) rtlib.Crate.below(crate) rtlib.Crate.count(crate, pattern) rtlib.Crate.call(crate, word, word)
rtlib.Crate.words(crate, flags, keeps=) rtlib.Crate.build_rlib(crate, flags, anew=) rtlib.Crate.is_built(crate)
rtlib.Crate.has_kept(crate) rtlib.Crate.has_tests(crate) rtlib.Crate.compile(crate, flags, to)
rtlib.Crate.run(crate, flags, words, tests=)"""
VALUES = "rtlib.KIT rtlib.RATTLE rtlib.PARTS".split()
# What each crate has besides.
OF_A_CRATE = "name folder rlib out is_program".split()


def stop(why):
    """Ends the script with one sentence."""
    print(f"{os.path.basename(sys.argv[0])}: {why}", file=sys.stderr)
    sys.exit(2)


def named(module, name):
    """What a toolchain has under this name, or None."""
    for part in name.split("."):
        module = getattr(module, part, None)
    return module


def lacking(module):
    """What the scripts take, and a toolchain doesn't have so."""
    yield from (it for it in VALUES if named(module, it) is None)
    for name, words in re.findall(r"([\w.]+)\(([^)]*)\)", CALLED):
        given = [it for it in words.split(", ") if it]
        try:
            by_name = {it[:-1]: None for it in given if it.endswith("=")}
            inspect.signature(named(module, name)).bind(*[it for it in given if not it.endswith("=")], **by_name)
        except TypeError:
            yield f"{name}({words})"


def must_have(missing):
    """Ends the script if something is missing."""
    names = ", no ".join(missing)
    if names:
        stop(f"this toolchain's rt has no {names}: these scripts were written for {KITS}")


def load():
    """The code of `rt`, as a module."""
    found = shutil.which("rt")
    if not found:
        stop("the toolchain's command rt isn't on the PATH, and the crates are proved by it")
    sys.dont_write_bytecode = True
    loader = importlib.machinery.SourceFileLoader("rt", os.path.realpath(found))
    module = importlib.util.module_from_spec(importlib.util.spec_from_loader("rt", loader))
    sys.modules["rt"] = module
    loader.exec_module(module)
    must_have(lacking(module))
    # Its first call sets a signal's handler, which only the main thread may do.
    module.rtlib.guarded()
    return module


def copy_of(rt, crate, texts):
    """The files of a copy of the crate, by their paths, with these texts in place of its own or beside them. A file
    whose text is None isn't in the copy."""
    files = {}
    for file in rt.rtlib.files_of(crate.folder):
        with open(file, "rb") as it:
            files[os.path.relpath(file, crate.folder)] = it.read()
    files |= {path: text.encode() for path, text in texts.items() if text is not None}
    return {path: data for path, data in files.items() if texts.get(path, "") is not None}


def checked(rt, crate, texts, flags, work, outputs):
    """The output and the status of a check of a copy of the crate with these texts: what is kept of the same check, or
    else what it prints now, over what earlier checks kept in a folder: that of `with work()`. The copy has the bytes by
    which the output is kept, also if a file of the crate changes meanwhile."""
    files, words = copy_of(rt, crate, texts), [rt.rtlib.RATTLE, "check", *crate.words(flags, keeps=False)]
    key = outputs.key(crate, files, words)
    ran = outputs.find(key)
    if ran:
        return ran
    with work() as kept, tempfile.TemporaryDirectory(prefix=f"wrong-{os.getpid()}-") as room:
        for path, data in files.items():
            os.makedirs(os.path.dirname(f"{room}/{path}"), exist_ok=True)
            with open(f"{room}/{path}", "wb") as it:
                it.write(data)
        how = {"cwd": room, "stdin": subprocess.DEVNULL, "stdout": subprocess.PIPE, "stderr": subprocess.STDOUT}
        how |= {"encoding": "utf-8", "errors": "replace", "env": environment()}
        ran = subprocess.run([*rt.rtlib.guarded(), *words, "--incremental", kept], **how)
    ran.stdout = without_course(ran.stdout)
    outputs.keep(key, ran, crate.name)
    return ran


def crates_of(rt, names=()):
    """The repository's crates by name, lowest first, or just those named."""
    found = rt.rtlib.crates_below(TOP)
    must_have(f"crate.{it}" for it in OF_A_CRATE if not hasattr(found[0], it))
    crates = {crate.name: crate for crate in found}
    for name in names:
        if name not in crates:
            stop(f"crates.txt has no crate {name}")
    return crates


def standing_on(crates, names):
    """The crates of these names and each that stands on one of them, lowest first."""
    chosen = {*names}
    return [crate for crate in crates.values() if chosen & {crate.name, *(it.name for it in crate.below())}]

