"""Edits of sources: which function of a crate an edit changes, under the name that a check prints."""

import itertools
import os
import re

CLAUSE = re.compile(r"(?:requires|ensures)(?:\s*\*)?(?:\s+\w+)?\s*\{|ghost\s+\w+\s*:\s*\{")
HOLE = """use Rattle.{crate}.proofs.{path}.Statement.{{statement}}

pub {name}_spec : {{M : Type 1}} → statement M
{name}_spec = ?
"""
# A clause that a call owes, with its name, where it has one.
OWED = re.compile(r"\bensures(?:\s*\*)?(?:\s+(\w+))?\s*\{")
# A function, and the clauses of it that an edit's table names.
NAMED = re.compile(r"([\w:]+) \(([\w, ]+)\)")
# A clause that says nothing.
BESIDE = "ensures beside { Unit {0} }"
# A contract with fewer clauses is tried whole.
FEWEST = 4
# What stands in place of a body of at least so many bytes. A shorter one is no dearer.
STUB, SHORTEST = "{{ loop {{}} {}}}", 80
OF_CONSTANTS = re.compile(r"\bconst\s+fn\b")
TYPE = re.compile(r"\b(?:struct|enum|union)\s+(\w+)")
ITEM = re.compile(r"\b(?:fn\s+(?P<fn>\w+)|impl\b(?P<impl>[^{;]*)|trait\s+(?P<trait>\w+)[^{;]*"
                  r"|const\s+(?P<const>\w+)\s*:)")


class Item:
    """A function or a constant of a source file: its name as a check prints it, and where its text lies. For a function
    `start` is the brace before its body, and `head` is where its first attribute or its own first word stands."""

    def __init__(self, name, start, end, head=None):
        self.name, self.start, self.end, self.head = name, start, end, head
        self.is_constant, self.can_have_twins = head is None, False

    def holds(self, start, end):
        return self.start < start and end <= self.end

    def meets(self, other):
        """Whether the bodies of both have a place in common."""
        return self.start <= other.end and other.start <= self.end


class Pair:
    """An old text of an edit, where it lies in its file, and the new text."""

    def __init__(self, path, old, new):
        self.path, self.old, self.new = path, old, new

    def place(self, sources):
        """Where the old text lies, or None unless it is in its file once."""
        text = sources.get(self.path, "")
        return text.index(self.old) if self.old and text.count(self.old) == 1 else None

    def change(self):
        """The places in the old text between which the new one differs."""
        front = len(os.path.commonprefix([self.old, self.new]))
        back = len(os.path.commonprefix([self.old[front:][::-1], self.new[front:][::-1]]))
        return front, len(self.old) - back


def closing(text, at):
    """The place of the brace that closes the one at this place."""
    depth = 0
    for found in re.finditer(r"[{}]", text[at:]):
        depth += 1 if found[0] == "{" else -1
        if depth == 0:
            return at + found.start()
    return len(text)


def body_of(text, at):
    """The places of the braces around the body of the function whose name ends here, or None where it has no body."""
    depth = 0
    while at < len(text):
        clause = CLAUSE.match(text, at) if depth == 0 and not re.match(r"\w", text[at - 1]) else None
        if clause:
            at = closing(text, clause.end() - 1) + 1
            continue
        depth += (text[at] in "([") - (text[at] in ")]")
        if depth == 0 and text[at] == ";":
            return None
        if depth == 0 and text[at] == "{":
            return at, closing(text, at)
        at += 1
    return None


def without_clauses(text, names):
    """Files of answers without those for the clauses of these names, or None where another part of it names one."""
    goal, kept = rf"[^\s:]*clause-(?:{'|'.join(names)})(?![^\s:.)])", []
    for part in text.split("\n\n"):
        if not re.match(rf"(?:--.*\n)*(?:pub )?{goal}\s*:", part):
            kept.append(part)
    return None if re.search(goal, "\n\n".join(kept)) else "\n\n".join(kept)


def last_name(path):
    """`Display` for `fmt::Display`, `Vec` for `Vec<u8>`."""
    bare = re.sub(r"<.*>", "", path, flags=re.S)
    return re.sub(r"\W", "", bare.split("::")[-1])


def without_parameters(head):
    """The head of an impl behind its type parameters."""
    head, depth = head.strip(), 0
    if not head.startswith("<"):
        return head
    for at, letter in enumerate(head):
        depth += (letter == "<") - (letter == ">" and head[at - 1] != "-")
        if depth == 0:
            return head[at + 1 :]
    return head


def impl_name(head, module, types):
    """What a check calls an impl: `bytes::Text` for `impl Text`, by the module that declares the type, and
    `memory::NoMemoryFromAllocError` for `impl From<AllocError> for NoMemory`, by the module of the impl."""
    head = re.split(r"\bwhere\b", without_parameters(head))[0]
    trait, found, of = head.rpartition(" for ")
    if not found:
        return "::".join([*types.get(last_name(head), module), last_name(head)])
    given = re.search(r"<(.*)>", trait, re.S)
    arguments = [it for it in given[1].split(",") if not it.strip().startswith("'")] if given else []
    return "::".join([*module, last_name(of) + last_name(trait) + "".join(map(last_name, arguments))])


def module_of(path):
    """The names of a source file's module, below the crate."""
    module = os.path.splitext(path)[0].split("/")[1:]
    return [] if module in (["lib"], ["main"]) else module


def head_of(text, at):
    """Where the text of a function begins whose word `fn` stands here: at its first attribute, or else its line."""
    start = text.rfind("\n", 0, at) + 1
    while (above := text.rfind("\n", 0, max(start - 1, 0)) + 1) < start and text[above:start].strip().startswith("#["):
        start = above
    return start


def items_in(path, text, types):
    """The functions and constants of a source file, whose comments and literals have been made blank. The module that
    declares a type of the crate is in `types`."""
    module, impls, found = module_of(path), [], []
    for item in ITEM.finditer(text):
        within = [it for it in impls if it[0] < item.start() < it[1]]
        if item["const"]:
            found.append(Item(item["const"], item.start(), text.find(";", item.end())))
        elif item["fn"]:
            body = body_of(text, item.end())
            if body:
                name = "::".join([*([it[2] for it in within[-1:]] or module), item["fn"]])
                found.append(Item(name, *body, head_of(text, item.start())))
                # The functions of a trait are those that the trait names, and a cycle of calls has one proof.
                found[-1].can_have_twins = not (within and within[-1][3]) and "#[cycle" not in text
        elif item["trait"]:
            # A trait's function may have a body, by which a check names the trait.
            impls.append((item.end(), closing(text, item.end()), "::".join([*module, item["trait"]]), True))
        elif text[item.end() : item.end() + 1] == "{" and not re.search(r"[(,&=:>]\s*$", text[: item.start()]):
            is_of_trait = " for " in item["impl"]
            impls.append((item.end(), closing(text, item.end()), impl_name(item["impl"], module, types), is_of_trait))
    return found


class Sources:
    """The sources of a crate, and the functions and constants in them."""

    def __init__(self, folder, blanked):
        self.folder, self.texts, self.blank = folder, {}, {}
        for file, text in blanked.items():
            if not file.endswith(".rt"):
                continue
            path = os.path.relpath(file, folder)
            with open(file, encoding="utf-8") as it:
                self.texts[path] = it.read()
            # The blank text has a space for each byte, so that both are compared as bytes.
            self.blank[path] = text.encode().decode("latin-1")
        types = {it: module_of(path) for path, text in self.blank.items() for it in TYPE.findall(text)}
        self.items = {path: items_in(path, text, types) for path, text in self.blank.items()}

    def item_of(self, pair):
        """The innermost function or constant that holds what a pair changes, or None."""
        at = pair.place(self.texts)
        if at is None:
            return None
        start, end = (len(self.texts[pair.path][: at + it].encode()) for it in pair.change())
        around = [it for it in self.items[pair.path] if it.holds(start, end)]
        return min(around, key=lambda it: it.end - it.start) if around else None

    def lines_of_head(self, function):
        """The file of a function, and the numbers of its lines from its first attribute to the brace of its body."""
        for path, items in self.items.items():
            for it in items:
                if it.name == function and not it.is_constant:
                    first, last = (self.blank[path].count("\n", 0, at) + 1 for at in (it.head, it.start))
                    return path, range(first, last + 1)
        return None, range(0)

    def changed(self, edit):
        """The names of the functions whose bodies an edit changes, of which each that names a changed constant is one.
        There are none where it changes something else."""
        items = [self.item_of(it) if it.path.startswith("src/") else None for it in edit.pairs]
        if None in items:
            return []
        names = [[it.name] if not it.is_constant else self.users(it.name) for it in items]
        return sorted({it for some in names for it in some}) if all(names) else []

    def constant(self, edit):
        """The name of the one constant that an edit changes, or None: it changes something else."""
        items = [self.item_of(it) if it.path.startswith("src/") else None for it in edit.pairs]
        names = {it.name if it and it.is_constant else None for it in items}
        return names.pop() if len(names) == 1 else None

    def can_have_twins(self, edit):
        """Whether an edit changes one function, of which a copy of the crate can hold several."""
        items = {self.item_of(it) for it in edit.pairs}
        return len(items) == 1 and items.pop().can_have_twins

    def clauses(self, item, path):
        """The clauses that a function owes: the name of each, or an empty one, and where it lies in the blank text."""
        found, text = [], self.blank[path]
        for it in OWED.finditer(text, item.head, item.start):
            found.append((it[1] or "", it.start(), closing(text, it.end() - 1) + 1))
        return found

    def left_out(self, edit):
        """The names of the clauses that the function which an edit changes needn't have for its trial: where there are
        many, all but those that the edit's table names. There are none where its proof files can't do without them."""
        named = NAMED.fullmatch(edit.clause)
        if not named or self.constant(edit) or len(self.changed(edit)) != 1 or not self.can_have_twins(edit):
            return ()
        item, path = self.item_of(edit.pairs[0]), edit.pairs[0].path
        names, wanted = [it for it, *_ in self.clauses(item, path)], named[2].split(", ")
        if named[1] != item.name or len(names) < FEWEST or "" in names or not {*wanted} < {*names}:
            return ()
        left = tuple(it for it in names if it not in wanted)
        return () if self.proofs_of_twin(item.name, "", left) is None else left

    def users(self, constant):
        """The names of the functions whose bodies name a constant."""
        users = []
        for path, text in self.blank.items():
            functions = [it for it in self.items[path] if not it.is_constant]
            users += [it.name for it in functions if re.search(rf"\b{constant}\b", text[it.start : it.end])]
        return users

    def holes(self, crate, functions):
        """The proof files of all other functions than these, with a hole in place of each proof, and None for each file
        that has to go. A check that allows holes takes such a function by its contract, and doesn't prove it."""
        texts = {}
        for path, text in self.blank.items():
            # A cycle of calls has one proof, which stands elsewhere.
            for item in self.items[path] if "#[cycle" not in text else []:
                if item.is_constant or item.name in functions:
                    continue
                names = item.name.split("::")
                folder = f"proofs/{'/'.join(names)}"
                texts |= dict.fromkeys((f"{folder}/Answers.antt", f"{folder}/Invariants.antt"))
                texts[f"{folder}/Proof.antt"] = HOLE.format(crate=crate, path=".".join(names), name=names[-1])
        return texts

    def stubs(self, texts, functions):
        """The source files among these texts, or of the crate, in which other functions than these have stubs for
        their bodies, as `holes` has for their proofs. Each stub has as many lines as the body."""
        found = {}
        for path, items in self.items.items():
            text = before = texts.get(path, self.texts[path])
            checked = [it for it in items if it.name in functions]
            for it in items if "#[cycle" not in self.blank[path] else []:
                if it.is_constant or it.end - it.start < SHORTEST or any(map(it.meets, checked)):
                    continue
                places = (len(self.texts[path].encode()[:at].decode()) for at in (it.head, it.start, it.end + 1))
                head, body = (self.texts[path][at:to] for at, to in itertools.pairwise(places))
                if text.count(head + body) == 1 and not OF_CONSTANTS.search(head):
                    text = text.replace(head + body, head + STUB.format("\n" * body.count("\n")))
            if text != before:
                found[path] = text
        return found

    def edited(self, edits, are_controls=False):
        """A copy of the crate in which these edits are: the texts of its files, the functions that each edit changes
        there, and for each edit of a twin the one that no edit changes. Controls leave the bodies of twins as they are.

        Where several edits change one function, each behind the first is put into a twin of the function, which has
        the function's contract and proof files under a name of its own. One more twin is as the function was: as long
        as that one is proved, what refuses the others is what was changed in them. An edit that is tried by some
        clauses of a contract alone has a twin too, which lacks the others: their goals are as they were."""
        places, texts, changed, unchanged, plain, twins = {}, {}, {}, {}, {}, {}

        def add(item, path, pairs, left=()):
            twins[item.name] = twins.get(item.name, 0) + 1
            twin = f"_twin{twins[item.name]}"
            places.setdefault(path, []).append(self.twin(item, path, pairs, twin, left))
            texts.update(self.proofs_of_twin(item.name, twin, left))
            return item.name + twin

        for edit in edits:
            changed[edit], left = self.changed(edit), self.left_out(edit)
            function = tuple(changed[edit])
            if function not in plain and not left:
                plain[function] = None
                for pair in edit.pairs:
                    places.setdefault(pair.path, []).append((pair.place(self.texts), len(pair.old), pair.new))
                continue
            item, path = self.item_of(edit.pairs[0]), edit.pairs[0].path
            if not left:
                unchanged[edit] = plain[function] = plain[function] or add(item, path, [])
            changed[edit] = [add(item, path, () if are_controls else edit.pairs, left)]
        for path, found in places.items():
            text = self.texts[path]
            for at, length, new in sorted(found, key=lambda it: -it[0]):
                text = text[:at] + new + text[at + length :]
            texts[path] = text
        return texts, changed, unchanged

    def twin(self, item, path, pairs, twin, left=()):
        """Where a twin is put into the function's file, the length that it replaces, and its text with these pairs and
        without the clauses that are left out."""
        start, end = (len(self.texts[path].encode()[:at].decode()) for at in (item.head, item.end + 1))
        text = self.texts[path][start:end]
        for pair in sorted(pairs, key=lambda it: -it.place(self.texts)):
            at = pair.place(self.texts) - start
            text = text[:at] + pair.new + text[at + len(pair.old) :]
        for name, *places in reversed(self.clauses(item, path)):
            if name in left:
                first, last = (len(self.texts[path].encode()[:at].decode()) - start for at in places)
                # One of them stays, and says nothing: goals have the name of their clause if there are several.
                text = text[:first] + BESIDE * (name == left[0]) + text[last:]
        name = item.name.split("::")[-1]
        return end, 0, "\n\n" + re.sub(rf"\bfn {name}\b", f"fn {name}{twin}", text, count=1)

    def proofs_of_twin(self, name, twin, left=()):
        """The proof files of a twin: those of the function, in which the function's name is the twin's, without answers
        for the clauses that are left out. Or None where they can't be without these."""
        folder, texts = f"proofs/{name.replace('::', '/')}", {}
        at, own = f"{self.folder}/{folder}", re.escape("." + name.replace("::", "."))
        for file in sorted(os.listdir(at)) if os.path.isdir(at) else []:
            if not file.endswith(".antt"):
                continue
            with open(f"{at}/{file}", encoding="utf-8") as it:
                text = it.read()
            if left:
                text = without_clauses(text, left) if file in ("Answers.antt", "Invariants.antt") else None
                if text is None:
                    return None
                if not re.search(r"^[^\s:]+ .*=", text, re.M):
                    continue
            texts[f"{folder}{twin}/{file}"] = re.sub(rf"({own})(?=[.\s]|$)", rf"\1{twin}", text)
        return texts
