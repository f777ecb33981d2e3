"""The wrong edits of bodies, crates/NAME/must-fail/*.edit: what each changes, in which functions, and on what its refusal stands.

An edit is written as `rt` reads it: a line `file: PATH` of the crate, and below it pairs of lines `old: TEXT` and `new: TEXT`; each old text is once
in its file. A line `# fn: PATH` names the function that becomes wrong, as a check prints it, if the changed text is in no body, or if the type
or the trait has arguments."""
import hashlib
import os
import re
import shutil

from sources import ALL, CRATES, FUNCTIONS, TOP, files_of, read

# The sums of the edits that were refused, as tools/wrong_edits --write leaves them.
REFUSED = os.path.join(TOP, "tools", "refused_edits.txt")


class Edit:
    """A wrong edit. `fault` says why it can't be tried, if it can't. An edit of a text in no body is `alone`: it may touch every function."""

    def __init__(self, crate, path):
        self.crate, self.path = crate, path
        self.name = crate + "/" + os.path.basename(path).removesuffix(".edit")
        self.text = read(os.path.join(CRATES, path))
        self.pairs, self.functions, self.alone, self.fault = [], [], False, None
        named = re.findall(r"^# fn: (\S+)$", self.text, re.M)
        self.read_pairs()
        found = [self.function_at(file, old) for file, old, _ in self.pairs]
        self.alone = None in found
        self.functions = [it for it in dict.fromkeys(found) if it]
        self.names = named or [it.name_in_checks() for it in self.functions]
        if not self.fault and not self.names:
            self.fault = "it is in no body: a line `# fn: PATH` names the function that becomes wrong"

    def read_pairs(self):
        file = old = None
        for line in self.text.split("\n"):
            if line.startswith("file: "):
                file = line[6:].strip()
            elif line.startswith("old: "):
                old = line[5:]
            elif line.startswith("new:"):
                self.pairs.append((file, old, line[4:].removeprefix(" ")))

    def function_at(self, file, old):
        """The function in whose body an old text is, if it is in one."""
        path = os.path.join(self.crate, file)
        text = read(os.path.join(CRATES, path)) if os.path.exists(os.path.join(CRATES, path)) else ""
        if text.count(old) != 1:
            self.fault = f"an old text is in {file} {text.count(old)} times"
            return None
        begin = text.index(old)
        inside = [it for it in FUNCTIONS[self.crate] if it.file == path and it.body and it.body[0] < begin and begin + len(old) <= it.body[1]]
        return inside[0] if inside else None

    def apply(self, texts):
        """These texts of files, by their paths in the crate, with the edit; or None if another has taken an old text away."""
        made = dict(texts)
        for file, old, new in self.pairs:
            text = made.get(file) or read(os.path.join(CRATES, self.crate, file))
            if text.count(old) != 1:
                return None
            made[file] = text.replace(old, new)
        return made


def edits_of(crate):
    return [Edit(crate, path) for path in files_of(crate, "must-fail", ".edit")]


def logic():
    """The logic in which the toolchain proves: releases of the toolchain that have one logic have the same rules and the same library."""
    line = read(os.path.join(os.path.dirname(os.path.dirname(os.path.realpath(shutil.which("rt")))), "KIT-ID")).strip()
    return line.partition(" logic ")[2] or line


def uncommented(text, mark):
    """The text without comments, and with single spaces."""
    return re.sub(r"\s+", " ", re.sub(mark + r"[^\n]*", "", text))


def statements(crate):
    """What the crates above see of a crate: its definitions, and its sources without the bodies of functions."""
    for path in files_of(crate, "specs", ".antt"):
        yield path, uncommented(read(os.path.join(CRATES, path)), r"(?m)(?:^|\s)--(?=\s)")
    for path in files_of(crate, "src", ".rt"):
        text, end, parts = read(os.path.join(CRATES, path)), 0, []
        for it in FUNCTIONS[crate]:
            # (the body of a `const fn` may be the value of a constant)
            if it.file == path and it.body and not it.is_const and it.body[0] >= end:
                parts.append(text[end:it.body[0]])
                end = it.body[1]
        yield path, uncommented("".join(parts) + text[end:], r"//")


def whole(crate):
    """All that the proof of a crate reads of its own."""
    for part, ending in (("src", ".rt"), ("specs", ".antt"), ("proofs", ".antt")):
        for path in files_of(crate, part, ending):
            yield path, read(os.path.join(CRATES, path))


def sum_of(parts):
    return hashlib.sha256(repr(list(parts)).encode()).hexdigest()


class Sums:
    """Of each edit the sum of what its refusal stands on: the edit, its crate, the statements of the crates below, and the toolchain's logic."""

    def __init__(self, below):
        """below: of each crate those below it."""
        self.below, self.logic = below, logic()
        self.seen = {}

    def once(self, kind, crate):
        if (kind, crate) not in self.seen:
            self.seen[kind, crate] = sum_of(kind(crate))
        return self.seen[kind, crate]

    def of(self, edit):
        below = [(it, self.once(statements, it)) for it in ALL if it in self.below[edit.crate]]
        return sum_of([self.logic, edit.text, self.once(whole, edit.crate), below])[:24]


def refused_before():
    """The sums of the edits that were refused, by their names."""
    if not os.path.exists(REFUSED):
        return {}
    return dict(line.split() for line in read(REFUSED).split("\n") if line and not line.startswith("#"))


def write_refused(sums):
    with open(REFUSED, "w", encoding="utf-8") as file:
        file.write("# Made by tools/wrong_edits --write: of each wrong edit that was refused the sum of what that stands on.\n")
        file.writelines(f"{name} {sums[name]}\n" for name in sorted(sums))
