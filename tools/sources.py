"""What the pages that are made from the sources read of them: crates.txt, the functions of crates/*/src with their clauses, and the
definitions of crates/*/specs.

It goes by the text of the sources. What a clause cites are the names in it that its file imports from a file of specs/.
"""
import os
import re
from collections import namedtuple

TOP = os.path.dirname(os.path.dirname(os.path.abspath(__file__)))
CRATES = os.path.join(TOP, "crates")


def read(path):
    with open(path, encoding="utf-8") as file:
        return file.read()


def crates_listed():
    """The crates of crates.txt, in its order: (ring, name, the crates that it uses)."""
    rows, ring = [], ""
    for line in read(os.path.join(TOP, "crates.txt")).split("\n"):
        comment = re.match(r"# (\w+): ", line)
        if comment:
            ring = comment.group(1)
        row = re.match(r"(\w+)[^:#]*:\s*(.*)", line)
        if row and not line.startswith("#"):
            rows.append((ring, row.group(1), row.group(2).split()))
    return rows


def files_of(crate, folder, ending):
    """The files of a crate's folder, without its tests, by their paths in crates/."""
    found = []
    for at, folders, names in os.walk(os.path.join(CRATES, crate, folder)):
        folders[:] = sorted(f for f in folders if f not in ("out", "tests"))
        found += [os.path.relpath(os.path.join(at, name), CRATES) for name in sorted(names)
                  if name.endswith(ending) and name != "tests.rt"]
    return sorted(found)


# The code: functions and their clauses.

def bare(text):
    """The text with comments and the insides of strings blanked, each character in its place."""
    parts = re.compile(r'//[^\n]*|"(?:\\.|[^"\\])*"|\'(?:\\.|[^\\\'\n])\'', re.S)
    return parts.sub(lambda found: re.sub(r"[^\n]", " ", found.group()), text)


def block_end(text, at):
    """The index behind the brace that closes the one at this index."""
    depth = 0
    for found in re.compile(r"[{}]").finditer(text, at):
        depth += 1 if found.group() == "{" else -1
        if depth == 0:
            return found.end()
    return len(text)


class Function:
    """A function of the sources: its name with its crate and type, whether it is public, its clauses, and where it and its body stand."""

    def __init__(self, file, owner, name, head, clauses, span, body):
        self.crate = file.split("/")[0]
        self.file, self.clauses, self.span, self.body = file, clauses, span, body
        self.public = not (owner and owner.trait) and (head.startswith("pub ") or bool(owner and owner.is_public))
        self.is_const = "const " in head
        of_type = [owner.name] if owner else []
        self.name = "::".join([*of_type, name])
        self.path = "::".join([self.crate, *of_type, name])
        self.module_path = "::".join([self.crate, *([] if owner else [os.path.basename(file)[:-3]]), name])
        self.owner, self.own_name = owner, name

    def name_in_checks(self):
        """The name that a check prints, below its crate: the path, of a method that of its type, with a trait's name behind the type's."""
        file = TYPES[self.crate].get(self.owner.name, self.file) if self.owner else self.file
        return "::".join([*modules_of(file), *([self.owner.name + self.owner.trait] if self.owner else []), self.own_name])


def modules_of(file):
    """The path of the module that is this file."""
    return [it for it in file.split("/src/")[1].removesuffix(".rt").split("/") if it not in ("lib", "main")]


def types_in(file):
    """The types and traits that a file declares."""
    return re.findall(r"^(?:pub(?:\([^)]*\))? )?(?:struct|enum|union|trait) (\w+)", bare(read(os.path.join(CRATES, file))), re.M)


# A block of `impl` or `trait`: where it is, the names of the type and of the trait that it is for, and whether its functions are public by themselves.
Owner = namedtuple("Owner", "begin end name trait is_public")


def owners_in(text):
    found = []
    for at in re.finditer(r"^(pub )?(?:unsafe )?(impl|trait)\b([^{;]*)\{", text, re.M):
        head = re.sub(r"<[^<>]*>", "", re.sub(r"<[^<>]*>", "", at.group(3))).split(" where ")[0]
        trait, _, of = head.rpartition(" for ")
        name, trait = [(re.findall(r"\w+", words.replace("dyn ", "").split(":")[0 if at.group(2) == "trait" else -1]) or [""])[-1] for words in (of, trait)]
        found.append(Owner(at.start(), block_end(text, at.end() - 1), name, trait, at.group(2) == "trait" and bool(at.group(1))))
    return found


def functions_in(file):
    text = read(os.path.join(CRATES, file))
    plain = re.sub(r"\[([^\[\];{}]*);([^\[\];{}]*)\]", r"[\1,\2]", bare(text))  # `[u8; 4]` has no end of a signature
    owners = owners_in(plain)
    imports = imports_of_code(text)
    found = []
    for at in re.finditer(r"^[ \t]*((?:pub(?:\([^)]*\))? )?(?:const )?(?:unsafe )?(?:extern +)?)fn (\w+)", plain, re.M):
        owner = next((o for o in owners if o.begin < at.start() < o.end), None)
        clauses, end, body = [], at.end(), None
        while True:
            part = re.compile(r"\b(requires|ensures|ghost)\b\*?\s*(\w*:?)\s*\{|[{;]").search(plain, end)
            if not part:
                break
            if not part.group(1):
                end = block_end(plain, part.start()) if part.group() == "{" else part.end()
                body = (part.start(), end) if part.group() == "{" else None
                break
            end = block_end(plain, part.end() - 1)
            words = [word for word in dict.fromkeys(re.findall(r"[^\W\d][\w'-]*", plain[part.end():end])) if word in imports]
            clauses.append((part.group(1), part.group(2), [(imports[word], word) for word in words]))
        found.append(Function(file, owner, at.group(2), at.group(1), clauses, (at.start(), end), body))
    return found


def imports_of_code(text):
    """Which definitions a source imports for its clauses: the name there, and the file of specs/."""
    found = {}
    for at in re.finditer(r"ghost use Rattle\.(\w+)\.specs\.([\w.]+)\.\{([^}]*)\}", text):
        if at.group(1) in ALL and not at.group(2).startswith("declared"):
            for name in names_in(at.group(3)):
                found[name] = at.group(1) + "/specs/" + at.group(2).replace(".", "/") + ".antt"
    return found


def names_in(listed):
    return [name.split(" as ")[-1].strip() for name in listed.split(",") if name.strip()]


# The definitions.

class Specs:
    """A file of specs/: its sentences, its definitions with their lines, and what each of them cites."""

    def __init__(self, file):
        self.file = file
        self.lines = read(os.path.join(CRATES, file)).split("\n")
        self.title, self.sentences = self.heading()
        self.passes_on = {}   # names of other files that this one passes on
        self.imports = {}
        self.definitions = {}  # name: (lines, words)
        self.places = {}       # name: (its line, the line of the module that it is in)
        self.read_imports()
        self.read_definitions()

    def heading(self):
        """The first comment: its title, and a sentence for each definition."""
        title, sentences, names = [], {}, []
        for line in self.lines:
            if not line.startswith("--"):
                break
            row = re.match(r"--     ((?:[\w'-]+, )*[\w'-]+)(?: +(\S.*))?$", line)
            more = re.match(r"--      +(\S.*)$", line)
            if row:
                names = row.group(1).split(", ")
                for name in names:
                    sentences[name] = row.group(2) or ""
            elif more and names:
                for name in names:
                    sentences[name] += " " + more.group(1)
            elif line[2:].strip():
                title.append(line[2:].strip())
        return " ".join(title), sentences

    def read_imports(self):
        for line in self.lines:
            at = re.match(r"(pub )?use Rattle\.(\w+)\.specs\.([\w.]+)\.\{(.*)\}", line)
            if at and at.group(2) in ALL and not at.group(3).startswith("declared"):
                for name in names_in(at.group(4)):
                    self.imports[name] = at.group(2) + "/specs/" + at.group(3).replace(".", "/") + ".antt"
                    if at.group(1):
                        self.passes_on[name] = self.imports[name]

    def read_definitions(self):
        name, inner, module = None, False, None  # inner: in a `module`, whose definitions are indented
        for number, line in enumerate(self.lines):
            if line and not line[0].isspace():
                inner = line.startswith("module") if not line.startswith("--") else inner
                if line.startswith("module"):
                    module = number
            if re.match(r"(pub )?(use|mod|module)\b", line):
                name = None
                continue
            kind = r"(?:abbrev|unfoldable|opaque|record|data)"
            head = re.match(r"(?:(?:pub|%s)\s+)+([^\W\d][\w'-]*)" % kind, line) or \
                inner and re.match(r"  (?:pub )?%s\s+(?:pub )?([^\W\d][\w'-]*)" % kind, line)
            if head and not re.fullmatch("pub|" + kind, head.group(1)):
                name = head.group(1)
                self.definitions.setdefault(name, [0, set()])
                self.places.setdefault(name, (number, module if inner else None))
            code = line.split("  --")[0].strip()
            if name and code and not code.startswith("--"):
                self.definitions[name][0] += 1
                self.definitions[name][1].update(re.findall(r"[^\W\d][\w'-]*", code))

    def text_of(self, name):
        """A definition word for word, behind the head of the module that it is in, if it is in one."""
        start, module = self.places[name]
        ends = [at for at, _module in self.places.values() if at > start] + [len(self.lines)]
        lines = self.lines[start:min(ends)]
        for number, line in enumerate(lines[1:], 1):
            if re.match(r"--|(pub )?(use|mod|module)\b", line) or module is not None and line.startswith("  --"):
                lines = lines[:number]
                break
        first = start
        while first and self.lines[first - 1].strip().startswith("-- ") and not re.match(r"-- \d+\. ", self.lines[first - 1]) \
                and first > 1 and not self.lines[first - 2].startswith("use"):
            first -= 1
        lines = self.lines[first:start] + lines
        if module is not None:
            last = next(at for at in range(module, len(self.lines)) if self.lines[at].rstrip().endswith("where"))
            lines = self.lines[module:last + 1] + lines
        return "\n".join(lines).rstrip()


def home_of(file, name):
    """Where a definition stands: the file that has it, if this one only passes it on."""
    for _ in range(9):
        if file not in SPECS or name in SPECS[file].definitions:
            return file
        if name not in SPECS[file].passes_on:
            return file
        file = SPECS[file].passes_on[name]
    return file


def reached_from(functions):
    """All definitions that these functions' clauses cite, and those that they cite, and so on."""
    todo = [(home_of(file, name), name) for function in functions for clause in function.clauses for file, name in clause[2]]
    seen = set()
    while todo:
        at = todo.pop()
        file, name = at
        if at in seen or file not in SPECS or name not in SPECS[file].definitions:
            continue
        seen.add(at)
        for word in SPECS[file].definitions[name][1]:
            if word in SPECS[file].definitions:
                todo.append((file, word))
            elif word in SPECS[file].imports:
                todo.append((home_of(SPECS[file].imports[word], word), word))
    return seen


def lines_of(definitions):
    return sum(SPECS[file].definitions[name][0] for file, name in definitions)


def cell(text):
    """The text as one cell of a table."""
    return re.sub(r"\s+", " ", text).replace("|", "\\|").strip()


def main_file(crate):
    """The first file of a crate's sources, by its path in crates/."""
    return next((file for file in (crate + "/src/lib.rt", crate + "/src/main.rt") if os.path.exists(os.path.join(CRATES, file))), None)


def own_comment(text):
    """The lines of a file's own comment, `//!`."""
    lines = []
    for line in text.split("\n"):
        if not line.startswith("//!"):
            break
        lines.append(line[4:])
    return lines


def about(crate):
    """The first sentence of a crate's own comment."""
    file = main_file(crate)
    if not file:
        return ""
    lines = own_comment(read(os.path.join(CRATES, file)))
    first = lines[:lines.index("")] if "" in lines else lines
    return re.split(r"(?<=\.) ", re.sub(r"\[(`[^`]*`)\]", r"\1", " ".join(first)))[0]


LISTED = crates_listed()
ALL = [crate for _ring, crate, _uses in LISTED]
SPECS = {file: Specs(file) for crate in ALL for file in files_of(crate, "specs", ".antt")}
TYPES = {crate: {name: file for file in files_of(crate, "src", ".rt") for name in types_in(file)} for crate in ALL}
FUNCTIONS = {crate: [function for file in files_of(crate, "src", ".rt") for function in functions_in(file)] for crate in ALL}
