"""What changed since a commit: the files, and of a crate its functions and what other crates read of it."""

import io
import os
import re
import subprocess
import tarfile

import bodies
import edits
import toolchain

# The sources of a crate, and its mutants.
OF_CRATES = re.compile(r"crates/(\w+)/(?:(?:src|specs|proofs)/|wrong-bodies\.toml$)")


def git(*words, **how):
    return subprocess.run(["git", "-C", toolchain.TOP, *words], check=True, capture_output=True, **how).stdout


def base_of(since=None):
    """The commit with which the files are compared: the one that is named, or else HEAD if a file differs from it, or
    else the last one that origin/main has too, or else the one before HEAD."""
    if since or git("status", "--porcelain"):
        return git("rev-parse", "--verify", f"{since or 'HEAD'}^{{commit}}", text=True).strip()
    for words in (("merge-base", "origin/main", "HEAD"), ("rev-parse", "HEAD^")):
        try:
            found = git(*words, text=True).strip()
        except subprocess.CalledProcessError:
            continue
        if found != git("rev-parse", "HEAD", text=True).strip():
            return found
    return git("rev-parse", "HEAD", text=True).strip()


def files_since(base):
    """The paths of the files that differ from those of a commit, also of new ones and of those that are gone."""
    changed = git("diff", "--name-only", "--no-renames", "-z", base)
    new = git("ls-files", "-z", "--others", "--exclude-standard")
    return sorted({it.decode() for it in (changed + new).split(b"\0") if it})


def crates_in(files):
    """The crates of which one of these files is a source, with those files."""
    found = {}
    for path in files:
        of = OF_CRATES.match(path)
        if of:
            found.setdefault(of[1], []).append(path.removeprefix(f"crates/{of[1]}/"))
    return found


def unpack(base, name, room):
    """Puts the files of a crate as a commit has them into a folder, and returns the crate's folder there, or None."""
    try:
        packed = git("archive", base, f"crates/{name}")
    except subprocess.CalledProcessError:
        return None
    with tarfile.open(fileobj=io.BytesIO(packed)) as it:
        it.extractall(room)
    return f"{room}/crates/{name}"


class Texts:
    """The texts of a crate in a folder: its functions, and what other crates read of it."""

    def __init__(self, rt, folder):
        blanked = rt.rtlib.blanked(folder) if folder else {}
        self.sources = edits.Sources(folder, blanked)
        self.mutants = bodies.of_crate(folder) if folder else {}
        self.specs = {os.path.relpath(file, folder): text.split() for file, text in blanked.items()
                      if not file.endswith(".rt")}

    def functions(self):
        """The text of each function with its head, by its name."""
        items = ((path, it) for path, some in self.sources.items.items() for it in some if not it.is_constant)
        return {it.name: self.sources.texts[path].encode()[it.head:it.end + 1] for path, it in items}

    def interface(self):
        """What isn't the body of a function, without comments and layout: signatures, contracts, types, constants and
        definitions."""
        found = dict(self.specs)
        for path, items in self.sources.items.items():
            blank, at, kept = self.sources.blank[path], 0, []
            for it in sorted((it for it in items if not it.is_constant), key=lambda it: it.start):
                if it.start >= at:
                    kept.append(blank[at:it.start])
                    at = it.end
            raw = self.sources.texts[path].encode()
            constants = [raw[it.start:it.end] for it in items if it.is_constant]
            found[path] = "".join([*kept, blank[at:]]).split(), constants
        return found


class Difference:
    """What changed in a crate since a commit: `functions` have another text or other proof files, `is_above` says
    whether the crates above read another text of it, and `mutants` are those to be tried."""

    def __init__(self, rt, crate, base, files, room):
        now, was = Texts(rt, crate.folder), Texts(rt, unpack(base, crate.name, room))
        before, after = was.functions(), now.functions()
        of_proofs = {re.sub(r"^proofs/|/[^/]+$", "", it).replace("/", "::") for it in files if it.startswith("proofs/")}
        self.functions = {it for it in after if after[it] != before.get(it) or it in of_proofs}
        self.is_above = now.interface() != was.interface()
        self.mutants = [name for name, it in now.mutants.items() if self.concerns(it, now.sources, files)
                        or it.as_edit() != (was.mutants[name].as_edit() if name in was.mutants else "")]

    def concerns(self, edit, sources, files):
        """Whether an edit changes a function that changed, or names one, or changes a file that did and that isn't one
        of functions."""
        named = {*sources.changed(edit), *edit.functions}
        return bool(named & self.functions) or any(
            it.path in files and not it.path.startswith("src/") for it in edit.pairs)
