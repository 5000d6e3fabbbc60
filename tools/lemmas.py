"""Which lemma a proof failed for, where an edit changes a constant that lemmas speak of."""

import os
import re

ERROR = re.compile(r"^(?:\./)?proofs/(\S+?\.antt):\d+:\d+: error: (.*)$", re.M)
STANDS_ON = re.compile(r"it stands on ((?:`[^`]+`,? ?)+)which antt refuses")
DEPENDS = re.compile(r"declarations? that depends? on `([^`]+)`, which was [^:]*: (.*)$")


class Lemmas:
    """The proof files of a crate, and what a check says of them."""

    def __init__(self, crate, said):
        self.name, self.folder, self.errors = crate.name, f"{crate.folder}/proofs", {}
        for file, text in ERROR.findall(said):
            self.errors.setdefault(file, []).append(text)

    def text(self, file):
        path = f"{self.folder}/{file}"
        if not os.path.isfile(path):
            return ""
        with open(path, encoding="utf-8") as it:
            return it.read()

    def file_of(self, name, citing):
        """The proof file that declares a name which the file `citing` uses: that file itself, or one that it imports."""
        text = self.text(citing)
        for module, names in re.findall(rf"(?m)^use Rattle\.{self.name}\.proofs\.(\S+)\.\{{([^}}]*)\}}", text):
            if name in re.split(r"[\s,]+", names):
                return module.replace(".", "/") + ".antt"
        return citing

    def cause(self, name, citing):
        """The file, the name and the complaint of the lemma that failed by itself, on which this name depends."""
        file = self.file_of(name, citing)
        for text in self.errors.get(file, []):
            found = DEPENDS.search(text)
            # A name that depends on it by way of another is written `name (via other)`.
            names = re.sub(r" \(via [^)]*\)", "", found[2]).split(", ") if found else []
            if name in names and found[1] != name:
                return self.cause(found[1], file)
            if text.startswith(f"`{name}`: "):
                return file, name, text
        return None

    def speaks_of(self, file, name):
        """The words of a declaration, with the constants for which its file has names of its own."""
        text = self.text(file)
        found = re.search(rf"(?ms)^(?:abbrev |pub )*{re.escape(name)} :.*?(?=\n\n|\Z)", text)
        words = set(re.findall(r"\w+", found[0])) if found else set()
        own = re.findall(r"(?m)^(\w+) = (\w+)\.now$", text)
        return words | {constant for alias, constant in own if alias in words}

    def stood_on(self, line, constant, others):
        """The lemma that a function's line names as refused, and that speaks of this constant and of no other that was
        changed."""
        found = STANDS_ON.search(line)
        for name in re.findall(r"`([^`]+)`", found[1]) if found else []:
            *module, lemma = name.removeprefix(f"Rattle.{self.name}.proofs.").split(".")
            words = self.speaks_of("/".join(module) + ".antt", lemma)
            if constant in words and not words & others:
                return f"it stands on `{name}`, which antt refuses"
        return None

    def failed_for(self, folder, constant, others):
        """The complaint of a lemma that speaks of this constant and of no other that was changed, and on which a proof in
        this folder depends."""
        for file, texts in self.errors.items():
            if not file.startswith(folder):
                continue
            for name in [found[1] for found in map(DEPENDS.search, texts) if found]:
                cause = self.cause(name, file)
                words = self.speaks_of(*cause[:2]) if cause else set()
                if constant in words and not words & others:
                    return cause[2]
        return None
