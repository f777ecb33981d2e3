"""The public items of a crate, from its sources: their signatures, doc comments and contracts, word for word.

It rests on how the formatter lays a source out: an item begins at the first column, a member of a block at the fifth.
"""
import os
import re

from sources import CRATES, bare, block_end, files_of, imports_of_code, own_comment, read

ITEM = re.compile(r"^(pub )?(?:unsafe )?(?:(struct|enum|trait|impl|type|fn)|const(?! fn)|const fn|static)\b", re.M)
MEMBER = re.compile(r"^    (pub )?(?:(?:const )?(?:unsafe )?(fn)|type|const) (\w+)", re.M)


class Source:
    """A file of sources: its text, the same without comments and strings, and what it imports."""

    def __init__(self, crate, file):
        self.crate, self.file = crate, file
        self.text = read(os.path.join(CRATES, file))
        # `[u8; 4]` has no end of a signature
        self.plain = re.sub(r"\[([^\[\];{}]*);([^\[\];{}]*)\]", r"[\1,\2]", bare(self.text))
        self.module = re.sub(r"/mod$", "", file.split("/src/")[1][:-3]).replace("/", "::")
        if self.module in ("lib", "main"):
            self.module = ""
        self.comment = own_comment(self.text)
        self.definitions = imports_of_code(self.text)
        self.imports, self.passed_on = {}, []  # a name: its path; the names that `pub use` passes on
        for at in re.finditer(r"^(pub )?use ([^;]+);", self.plain, re.M):
            for path, name in paths_in(re.sub(r"\s+", " ", at.group(2))):
                self.imports[name] = path
                if at.group(1):
                    self.passed_on.append((path, name))

    def line_of(self, at):
        return self.text.count("\n", 0, at) + 1


def paths_in(listed):
    """The paths of a `use`, each with the name that it has here."""
    listed = listed.strip()
    group = re.match(r"(.*?)\{(.*)\}$", listed)
    if not group:
        path, _, name = listed.partition(" as ")
        return [(path.strip(), name.strip() or path.strip().split("::")[-1])]
    found = []
    for part in split_list(group.group(2)):
        for path, name in paths_in(part):
            whole = group.group(1) + path
            found.append((whole[:-6] if path == "self" else whole, whole.split("::")[-2] if path == "self" else name))
    return found


def split_list(text):
    """The parts of a list, at the commas that are in no brackets. `->` and `=>` close none."""
    parts, depth, start = [], 0, 0
    for at, sign in enumerate(text):
        if sign in "([{<":
            depth += 1
        elif sign in ")]}" or sign == ">" and text[at - 1] not in "-=":
            depth -= 1
        elif sign == "," and depth == 0:
            parts.append(text[start:at])
            start = at + 1
    return [part for part in parts + [text[start:]] if part.strip()]


class Item:
    """An item, or a member of one: a method, a field, a variant."""

    def __init__(self, source, kind, name, at):
        self.source, self.kind, self.name = source, kind, name
        self.crate, self.module, self.line = source.crate, source.module, source.line_of(at)
        self.doc, attributes = doc_before(source.text, at)
        derived = ",".join(re.findall(r"#\[derive\(([^)]*)\)\]", attributes))
        self.derives = [name.strip() for name in derived.split(",") if name.strip()]
        text = re.search(r'#\[error\("((?:\\.|[^"\\])*)"', attributes)
        self.error = text.group(1) if text else ""  # the text that `Display` of `thiserror` writes
        self.has_default = False                    # of a method of a trait
        self.signature = ""
        self.contract = ""   # the clauses, or the ghost lines, word for word
        self.cited = []      # (file of specs/, name): the definitions that these cite
        self.members = []    # fields, variants, methods of a trait
        self.groups = []     # of a type: (the comment of their file, methods), file by file
        self.impls = []      # of a type: implementations of traits
        self.module_shown = False  # whether its name on the page begins with its module


class Impl:
    """An implementation of a trait for a type."""

    def __init__(self, source, at, head):
        self.source, self.line = source, source.line_of(at)
        self.doc, _attributes = doc_before(source.text, at)
        self.trait, self.target = head
        self.contract, self.cited = "", []


def doc_before(text, at):
    """The doc comment above an item that begins at this index, and its attributes."""
    lines = text[:at].split("\n")[:-1]
    doc, attributes = [], ""
    while lines:
        line = lines.pop()
        bare_line = line.strip()
        if bare_line.endswith("]") and not bare_line.startswith("//"):
            attribute = bare_line
            while not attribute.startswith("#["):
                attribute = lines.pop().strip() + " " + attribute
            attributes = attribute + " " + attributes
        elif bare_line.startswith("///"):
            doc.insert(0, bare_line[4:])
        elif not bare_line.startswith("//") or bare_line.startswith("//!"):
            break
    return doc, attributes


def dedented(text):
    """The text with the common indentation of its lines behind the first taken away; the first begins at the first column."""
    lines = text.strip().split("\n")
    depth = min((len(line) - len(line.lstrip()) for line in lines[1:] if line.strip()), default=0)
    first = len(lines[0]) - len(lines[0].lstrip())
    return "\n".join([lines[0][first:]] + [line[depth:].rstrip() for line in lines[1:]])


def cites(source, text):
    """The definitions that a piece of the contract cites, in its order."""
    words = dict.fromkeys(re.findall(r"[^\W\d][\w'-]*", bare(text)))
    return [(source.definitions[word], word) for word in words if word in source.definitions]


def read_function(item, start, name_end):
    """Signature and clauses of the function that begins at `start` and whose name ends at `name_end`. Says whether it has a body."""
    source = item.source
    first, end = None, name_end
    while True:
        part = re.compile(r"\b(requires|ensures)\b\s*\w*\s*\{|[{;]").search(source.plain, end)
        if not part or not part.group(1):
            break
        first = part.start() if first is None else first
        end = block_end(source.plain, part.end() - 1)
    head_end = first if first is not None else part.start()
    between = source.text.rfind("//", start, head_end)  # a comment before the first clause belongs to it
    if first is not None and between != -1 and not source.plain[between:head_end].strip():
        head_end = first = source.text.rfind("\n", start, between)
    signature = source.text[start:head_end].strip()
    depth = len(source.text[:start].split("\n")[-1])
    item.signature = "\n".join(line[depth:] if not line[:depth].strip() else line for line in signature.split("\n"))
    if first is not None:
        line = source.text.rfind("\n", 0, first) + 1
        item.contract = clauses_text(source.text[line if not source.text[line:first].strip() else first:end])
        item.cited = cites(source, item.contract)
    return part.group() == "{"


def clauses_text(text):
    """Clauses, the first at the first column and the others below it."""
    lines = text.strip("\n").rstrip().split("\n")
    depth = min((len(line) - len(line.lstrip()) for line in lines if re.match(r"\s*(requires|ensures|//)", line)), default=0)
    return "\n".join(line[depth:] if not line[:depth].strip() else line for line in lines).strip("\n")


def methods_in(source, start, end, of_trait):
    """The public methods of a block, and its types and constants. Those of a trait are public by themselves."""
    found = []
    for at in MEMBER.finditer(source.plain, start, end):
        if at.group(1) or of_trait:
            begin = at.start() + 4
            member = Item(source, "method" if at.group(2) else "associated", at.group(3), begin)
            if at.group(2):
                member.has_default = read_function(member, begin, at.end()) and of_trait
            else:
                member.signature = dedented(source.text[begin:end_of_line(source, begin)])
            found.append(member)
    return found


def end_of_line(source, start):
    """The index of the semicolon that ends what begins here."""
    stop, depth = start, 0
    while source.plain[stop] != ";" or depth:
        depth += {"{": 1, "}": -1}.get(source.plain[stop], 0)
        stop += 1
    return stop


def ghost_lines(source, start, end, names=None):
    """The ghost lines of a block, word for word, with the comments above them: all but imports, or those of these names."""
    found = []
    for at in re.finditer(r"^    ghost (\w+)", source.plain[:end], re.M):
        if at.start() < start or at.group(1) == "use" or names and at.group(1) not in names:
            continue
        comments = []
        for line in reversed(source.text[:at.start()].split("\n")[:-1]):
            if not line.strip().startswith("//"):
                break
            comments.insert(0, line.strip())
        body = source.text[at.start():end_of_line(source, at.start()) + 1].split("\n")
        found.append("\n".join(comments + [line[4:] for line in body]))
    return "\n".join(found)


def parts_of(source, start, end):
    """The parts of a block of fields or variants: (from, to), without the comments and attributes before each."""
    depth, begin, found = 0, None, []
    at = start
    while at < end:
        sign = source.plain[at]
        if depth == 0 and sign == "#" and source.plain[at + 1] == "[":
            at = source.plain.index("]", at) + 1
            continue
        if sign in "([{" or sign == "<" and source.plain[at - 1] != " ":
            depth += 1
        elif sign in ")]}" or sign == ">" and source.plain[at - 1] not in "-= ":
            depth -= 1
        if sign == "," and depth == 0:
            if begin is not None:
                found.append((begin, at))
            begin = None
        elif begin is None and not sign.isspace():
            begin = at
        at += 1
    if begin is not None:
        found.append((begin, end))
    return found


def read_fields(item, start, end):
    """The public fields of a struct, and the ghost ones, which are part of its contract. Says whether there are others."""
    source, hidden, ghosts = item.source, False, []
    for begin, stop in parts_of(source, start, end):
        text = dedented(source.text[begin:stop])
        if text.startswith("pub ghost "):
            ghosts.append(text)
        elif text.startswith("pub "):
            field = Item(source, "field", re.match(r"pub (\w+)", text).group(1), begin)
            field.signature = re.sub(r"\s+", " ", text[4:])
            item.members.append(field)
        else:
            hidden = True
    if ghosts:
        item.contract = ",\n".join(ghosts)
        item.cited = cites(source, item.contract)
    return hidden


def read_variants(item, start, end):
    """The variants of an enum, and their fields."""
    source = item.source
    for begin, stop in parts_of(source, start, end):
        text = source.text[begin:stop]
        variant = Item(source, "variant", re.match(r"\w+", text).group(), begin)
        brace = re.match(r"\w+\s*\{", text)
        if brace:
            for first, last in parts_of(source, begin + brace.end(), stop - 1):
                field = Item(source, "field", re.match(r"\w+", source.text[first:last]).group(), first)
                field.signature = re.sub(r"\s+", " ", source.text[first:last].strip())
                variant.members.append(field)
            fields = ", ".join(field.signature for field in variant.members)
            variant.signature = "%s { %s }" % (variant.name, fields)
        else:
            variant.signature = re.sub(r"\s+", " ", text.strip())
        item.members.append(variant)


def head_of(source, start):
    """The head of a struct, enum or trait, up to its block or its end."""
    stop = re.compile(r"[{;]").search(source.plain, start).start()
    return source.text[start:stop].strip(), stop


def read_item(source, at):
    """The item that begins at this match, whatever it is, if it is public; else none."""
    start, keyword = at.start(), at.group(2)
    if not at.group(1):
        return None
    if keyword in ("struct", "enum", "trait"):
        name = re.compile(keyword + r" (\w+)").search(source.plain, start).group(1)
        item = Item(source, keyword, name, start)
        item.signature, stop = head_of(source, start)
        if source.plain[stop] == "{":
            end = block_end(source.plain, stop)
            if keyword == "struct":
                item.signature += " { .. }" if read_fields(item, stop + 1, end - 1) else ""
            elif keyword == "enum":
                read_variants(item, stop + 1, end - 1)
            else:
                item.members = methods_in(source, stop, end, of_trait=True)
                item.contract = ghost_lines(source, stop, end)
                item.cited = cites(source, item.contract)
        return item
    if keyword == "fn" or re.match(r"pub (?:unsafe |const )*fn", source.plain[start:start + 40]):
        name = re.compile(r"fn (\w+)").search(source.plain, start)
        item = Item(source, "fn", name.group(1), start)
        read_function(item, start, name.end())
        return item
    name = re.compile(r"(?:const|static|type) (\w+)").search(source.plain, start)
    item = Item(source, "type" if keyword == "type" else "const", name.group(1), start)
    item.signature = source.text[start:source.plain.index(";", start)]
    return item


def impl_head(head):
    """Of the head of an `impl`: the trait, or none, and the name of the type."""
    head = head.strip()
    if head.startswith("<"):
        depth = 0
        for at, sign in enumerate(head):
            depth += sign == "<"
            depth -= sign == ">" and head[at - 1] not in "-="
            if depth == 0:
                head = head[at + 1:].strip()
                break
    trait, found, target = head.partition(" for ")
    target = target if found else head
    name = re.search(r"&?(?:[\w:]*::)?(\w+)", target.strip())
    return (re.sub(r"\s+", " ", trait.strip()) if found else None), name.group(1) if name else "?"


class Crate:
    """A crate: its files, its items by name, and which of them it passes on."""

    def __init__(self, name):
        self.name = name
        self.sources = [Source(name, file) for file in files_of(name, "src", ".rt")]
        self.root = next((source for source in self.sources if source.module == ""), None)
        self.module_names = {part for source in self.sources for part in source.module.split("::") if part}
        self.public_modules = self.find_public_modules()
        self.items = []
        methods, impls = [], []
        for source in self.in_order():
            for at in ITEM.finditer(source.plain):
                if at.group(2) == "impl":
                    self.read_impl(source, at, methods, impls)
                else:
                    item = read_item(source, at)
                    if item:
                        self.items.append(item)
        self.by_name = {}
        for item in self.items:
            self.by_name.setdefault(item.name, []).append(item)
        self.give_out(methods, impls)

    def in_order(self):
        """The sources, each file behind the one that has it as a module, in the order of their names."""
        return sorted(self.sources, key=lambda source: source.module.split("::"))

    def find_public_modules(self):
        """The modules that a crate above can name."""
        found = set()
        for source in self.in_order():
            if source.module == "" or source.module in found:
                for name in re.findall(r"^pub mod (\w+);", source.plain, re.M):
                    found.add((source.module + "::" if source.module else "") + name)
        return found

    def read_impl(self, source, at, methods, impls):
        """An `impl`: its public methods, or what it implements."""
        stop = source.plain.index("{", at.end())
        head, end = source.text[at.end():stop], block_end(source.plain, stop)
        trait, target = impl_head(head)
        if trait is None:
            methods.append((target, source, methods_in(source, stop, end, of_trait=False)))
            return
        impl = Impl(source, at.start(), (trait, target))
        last = re.sub(r"<.*", "", trait).split("::")[-1]
        names = {"Model": ("Value", "view", "invariant", "also_owns")}.get(last)
        path = source.imports.get(last, last)
        if last == "Model" or path.startswith(("jc_", "crate::")) or trait.startswith("jc_"):
            impl.contract = ghost_lines(source, stop, end, names)
            impl.cited = cites(source, impl.contract)
        impls.append(impl)

    def give_out(self, methods, impls):
        """Gives methods and implementations to their types."""
        for target, source, found in methods:
            item = self.type_in(target, source)
            if item and found:
                comment = source.comment if source is not item.source else []
                if item.groups and item.groups[-1][2] is source:
                    item.groups[-1][1].extend(found)
                else:
                    item.groups.append((comment, found, source))
        for impl in impls:
            item = self.type_in(impl.target, impl.source)
            if item:
                item.impls.append(impl)

    def type_in(self, name, source):
        """The type that a source of this crate means by a name, if it is one of this crate's public items."""
        found = [item for item in self.by_name.get(name, []) if item.kind in ("struct", "enum", "trait", "type")]
        path = source.imports.get(name, "")
        return self.best(found, path.split("::")[1:-1] if path.startswith("crate::") else source.module.split("::"))

    @staticmethod
    def best(found, module):
        """Of several items of one name the one in this module, or nearest to it."""
        def common(item):
            return len(os.path.commonprefix([item.module.split("::"), list(module)]))
        return max(found, key=common) if found else None

    def item_at(self, path):
        """The item at a path of this crate, as `client::Client`."""
        parts = path.split("::")
        return self.best(self.by_name.get(parts[-1], []), parts[:-1])
