"""The pages of the reference: NAME.md of each crate, an index, and the definitions that contracts cite.

`reference_pages()` makes those of docs/reference, which has the crates of a service's author and no definitions, and `whole_reference()` those of
all crates. `write_reference()` writes the former, `write_apart()` the latter into a folder.
"""
import os
import re

from items import Crate
from sources import ALL, LISTED, SPECS, TOP, about, bare, cell, home_of

# Why a crate has a page in docs/reference: docs/EMBEDDING.md has its reader list it, or jc_client passes on of it what an author of a service names.
LISTED_BY_GUIDE = ["jc_types", "jc_plain", "jc_store", "jc_sqlite", "jc_client", "jc_bulk", "jc_invoke", "jc_loadall"]
PASSED_ON = ["jc_outside", "jc_mutentry", "jc_cache"]
FOR_SERVICES = LISTED_BY_GUIDE + PASSED_ON

# Which public modules are on the page, beside what a crate's root passes on: the others are for the crates above.
MODULES = {"jc_text": ["fault", "lines"], "jc_script": ["run"], "jc_litmus": ["run"], "jc_record": ["run"], "jc_sqlite": ["code", "table"], "jc_cache": ["laws"]}

# The macros and attributes of the toolchain that the guide's programs and the crates use.
MACROS = [
    ("println!(rt; \"{page:?}\")?", "prints a line to standard output, by an `rt` with `Print`. It is a `Result`, since writing may fail"),
    ("format!(in alloc; \"{n}\")?", "makes a `String`; its error is `AllocError`"),
    ("vec![in alloc; 0u64; 8]?", "makes a `Vec`; its error is `AllocError`"),
    ("unreachable!()", "an arm that the prover shows to be unreachable; no assertion at run time"),
    ("assert!(rt; ..)`, `assert_eq!(rt; ..)`, `panic!(rt; ..)`, `.expect(&rt, ..)", "in tests alone: they end the program, by an `rt` with `Abort`"),
    ("#[derive(Drop)]", "lets values of a type be dropped, which isn't so by itself"),
    ("#![tactic(auto)]", "at the head of a crate: the prover tries its tactics on every goal"),
    ("requires`, `ensures`, `ghost", "for the prover alone; `requires { Unit {0} }` is a condition that always holds"),
]
# The types and traits of the toolchain that signatures name.
TOOLCHAIN = [
    ("`HostRuntime`", "the prelude", "all that a program may do; `main` alone is given it, as its `rt`"),
    ("`Print`, `Eprint`", "the prelude", "who has it may print, to standard output or to standard error"),
    ("`Wait`", "`std::sync`", "who has it may wait, as for a lock. A call that may wait takes an `rt` with it"),
    ("`Threads`", "`std::thread`", "who has it may start threads"),
    ("`Send`, `Sync`, `Drop`", "the prelude", "of a type: it may go to another thread, be shared with one, be dropped"),
    ("`Global`", "`std::alloc`", "takes memory: `rt.alloc()`, which `main` hands on. It is `Copy`"),
    ("`AllocError`", "`std::alloc`", "an allocation failed"),
    ("`IndexMap`, `IndexSet`", "`indexmap`", "a map and a set in the order of insertion. `insert` and `clone` are a `Result`"),
    ("`Read`, `Write`", "`std::io`", "streams of bytes"),
    ("`Duration`", "`std::time`", "a span of time"),
    ("`Connection`, `Alter`, `Error`", "`sqlite`", "a SQLite file that is open, the right to change one, and why a statement failed"),
]

KINDS = [("Traits", ("trait",)), ("Types", ("struct", "enum", "type")), ("Functions", ("fn",)), ("Constants", ("const",))]
FOLDER = "docs/reference/"


def slug(text, taken):
    """The anchor that a page gives to a heading."""
    base = re.sub(r"[^\w\- ]", "", text.lower()).replace(" ", "-")
    count = taken.get(base, 0)
    taken[base] = count + 1
    return base + ("-%d" % count if count else "")


class Library:
    """All crates, which of them have a page, and where each item has its place."""

    def __init__(self, with_page):
        self.crates = {name: Crate(name) for name in ALL}
        self.with_page = with_page
        self.shown = {name: self.own_items(name) for name in ALL if name in with_page}
        self.passed_on = {name: self.passed(name) for name in self.shown}
        self.adopted = {name: [] for name in self.shown}
        self.places = {}   # id of an item, or (file of specs/, name): (page, anchor)
        self.home = {id(item): name for name, items in self.shown.items() for item in items}
        for name in self.shown:
            self.adopt(name)

    def own_items(self, name):
        """The public items of a crate: those that its root passes on, and those of the modules that have a page."""
        crate = self.crates[name]
        modules = [module for module in MODULES.get(name, []) if module in crate.public_modules]
        root = {id(self.named(crate, path)) for path, _as in crate.root.passed_on}
        return [item for item in crate.items if id(item) in root or item.module in modules or item.module == ""]

    def passed(self, name):
        """What the root of a crate passes on of other crates, in its order."""
        crate = self.crates[name]
        found = [self.named(crate, path) for path, _as in crate.root.passed_on]
        return [item for item in found if item and item.crate != name]

    def named(self, crate, path, depth=0):
        """The item at a path in a source of this crate, through whatever passes it on; or none."""
        first = path.split("::")[0]
        if depth > 4:
            return None
        if first in self.crates:
            other, rest = self.crates[first], path.partition("::")[2]
            return other.root and rest and self.exported(other, rest, depth) or None
        item = crate.item_at(re.sub(r"^(crate|self|super)::", "", path))
        if item:
            return item
        passed = crate.root.imports.get(path.split("::")[-1]) if crate.root else None
        return self.named(crate, passed, depth + 1) if passed and passed != path else None

    def exported(self, crate, path, depth):
        """The item that a path behind a crate's name means."""
        if "::" not in path and path in crate.root.imports:
            return self.named(crate, crate.root.imports[path], depth + 1)
        return crate.item_at(path)

    def resolve(self, source, name):
        """The item that a name means in a source; none if it is of no crate here."""
        crate, path = self.crates[source.crate], source.imports.get(name)
        if path is None:
            here = [item for item in crate.by_name.get(name, []) if item.module == source.module]
            return here[0] if here else crate.best(crate.by_name.get(name, []), source.module.split("::"))
        first = path.split("::")[0]
        is_ours = first in self.crates or first in crate.module_names or first in ("crate", "self", "super")
        return self.named(crate, path) if is_ours else None

    def adopt(self, name):
        """Gives items of crates without a page to the first page that passes them on, or whose signatures name them."""
        todo = list(self.passed_on[name]) + [item for shown in self.shown[name] for item in self.named_by(shown)]
        while todo:
            item = todo.pop(0)
            if id(item) in self.home:
                continue
            owner = item.crate if item.crate in self.with_page else name
            self.home[id(item)] = owner
            (self.adopted[owner] if item.crate != owner else self.shown[owner]).append(item)
            todo += self.named_by(item)

    def named_by(self, item):
        """The items that the signatures of this one and of its members name."""
        found = []
        for part in all_parts(item):
            found += self.types_of(part)
        return found

    def types_of(self, part):
        """The items that a signature names."""
        found = []
        text = bare(part.signature)
        text = text[len(part.name):] if part.kind == "variant" else text
        for name in dict.fromkeys(re.findall(r"(?<![\w:])(?:\w+::)*([A-Z]\w+)", text)):
            item = self.resolve(part.source, name)
            if item and item.kind != "const" and item not in found:
                found.append(item)
        return found


def all_parts(item):
    """An item, its members and theirs."""
    yield item
    for member in item.members + [method for _comment, methods, _source in item.groups for method in methods]:
        yield from all_parts(member)


class Page:
    """A page that is being made: its path, its lines, and the anchors that its headings have taken."""

    def __init__(self, library, path):
        self.library, self.path = library, path
        self.lines, self.taken = [], {}
        self.cited = []  # the definitions that its contracts cite

    def put(self, *lines):
        self.lines += lines

    def heading(self, level, text, key=None):
        """A heading, and from now on the place of whatever has this key."""
        anchor = slug(text, self.taken)
        if key is not None:
            self.library.places[key] = (self.path, anchor)
        self.put("", "#" * level + " " + text, "")

    def link(self, text, key):
        """The text as a link to whatever has this key; the text alone if nothing has."""
        place = self.library.places.get(key)
        if place is None:
            return text
        path, anchor = place
        if path == self.path:
            return "[%s](#%s)" % (text, anchor)
        here, there = self.path.split("/")[:-1], path.split("/")
        while here and there and here[0] == there[0]:
            here, there = here[1:], there[1:]
        return "[%s](%s#%s)" % (text, "/".join([".."] * len(here) + there), anchor)

    def text(self):
        return re.sub(r"\n{3,}", "\n\n", "\n".join(self.lines).strip()) + "\n"


# Doc comments.

def paragraphs(doc):
    """A doc comment with each paragraph and each item of a list on one line. Code and tables stay."""
    out, code = [], False
    for line in doc:
        if line.startswith("```"):
            code = not code
            out.append("```rust" if code else "```")
            continue
        joins = out and not code and line.strip() and out[-1].strip() and not re.match(r"\s*([-*|#]|\d+\. )", line) \
            and not out[-1].startswith(("|", "#", "```"))
        if joins:
            out[-1] += " " + line.strip()
        else:
            out.append(re.sub(r"^#+ (.*)", r"**\1**", line) if not code else line)
    return out


def linked(page, source, text, item=None):
    """A line of a doc comment, with its links to items made links of the page."""
    def target(path):
        parts = re.sub(r"\(.*$", "", path.strip("`")).split("::")
        if parts[0] == "Self" and item is not None:
            parts[0] = item.name
        return find(page.library, source, parts)

    def plain(found):
        key = target(found.group(2) or found.group(1))
        return page.link(found.group(1), key) if key is not None else found.group(1)

    return re.sub(r"\[(`?[^\]\[`]+`?)\](?:\(([\w:]+)\))?(?!\()", plain, text)


def find(library, source, parts):
    """The key of the item, the member or the module that a path in a doc comment means."""
    crate = library.crates.get(source.crate)
    if parts[0] == "crate":
        parts = parts[1:]
    elif parts[0] in library.crates:
        crate, parts = library.crates[parts[0]], parts[1:]
        source = crate.root
    if len(parts) == 1 and (crate.name, parts[0]) in library.places:
        return (crate.name, parts[0])
    item = library.resolve(source, parts[-1]) if parts else None
    if len(parts) > 1:
        owner = library.resolve(source, parts[-2])
        if owner and owner.kind in ("struct", "enum", "trait"):
            member = next((part for part in all_parts(owner) if part.name == parts[-1] and part is not owner), None)
            if member is not None:
                return id(member) if id(member) in library.places else id(owner)
    return id(item) if item and id(item) in library.places else None


def put_doc(page, source, doc, item=None):
    """A doc comment, with its links."""
    code = False
    for line in paragraphs(doc):
        code = not code if line.startswith("```") else code
        page.put(line if code else linked(page, source, line, item))
    page.put("")


def in_line(page, source, doc, item=None):
    """A doc comment on one line, as behind a field."""
    return re.sub(r"\s+", " ", " ".join(linked(page, source, line, item) for line in paragraphs(doc))).strip()


# Items.

def put_contract(page, title, text, cited):
    """A part of a contract, folded, with the definitions that it cites."""
    if not text:
        return
    page.put("<details><summary>%s</summary>" % title, "", "```text", text, "```", "")
    links = []
    for file, name in cited:
        home = home_of(file, name)
        if home in SPECS and name in SPECS[home].definitions:
            page.cited.append((home, name))
            link = definition_link(page, home, name)
            links += [link] if link not in links else []
    if links:
        page.put("Definitions: " + ", ".join(links) + ".", "")
    page.put("</details>", "")


def put_types(page, part, apart_from=None):
    """A line with the types that a signature names, each a link."""
    links = [page.link("`%s`" % item.name, id(item)) for item in page.library.types_of(part) if item is not apart_from]
    if links:
        page.put("Types: " + ", ".join(links) + ".", "")


def title_of(item):
    """An item's name on its page."""
    return "::".join(([item.module] if item.module_shown else []) + [item.name])


def put_method(page, owner, method):
    """A method of a type or a trait."""
    page.heading(4, "%s::%s" % (title_of(owner), method.name), id(method))
    page.put("```rust", method.signature, "```", "")
    put_doc(page, method.source, method.doc, owner)
    if method.has_default:
        page.put("It has a default.", "")
    put_types(page, method, owner)
    put_contract(page, "contract", method.contract, method.cited)


def put_members(page, item):
    """The fields of a struct, or the variants of an enum with theirs."""
    members = [member for member in item.members if member.kind in ("field", "variant")]
    if not members:
        return
    page.put("Fields:" if members[0].kind == "field" else "Variants:", "")
    for member in members:
        page.put(member_line(page, member, item, ""))
        for field in member.members:
            page.put(member_line(page, field, item, "  "))
    page.put("")
    others = [item_ for item_ in page.library.named_by(item) if item_ is not item]
    own = {id(other) for member in members for part in all_parts(member) for other in page.library.types_of(part)}
    links = dict.fromkeys(page.link("`%s`" % other.name, id(other)) for other in others if id(other) in own)
    if links:
        page.put("Types: " + ", ".join(links) + ".", "")


def member_line(page, member, item, indent):
    """A field or a variant, as an entry of a list."""
    text = in_line(page, member.source, member.doc, item)
    if re.search(r"\w\w", member.error):  # `{0}` says nothing: it is the text of what is in it
        text += " Its text is \"%s\"." % member.error
    return "%s- `%s`%s" % (indent, member.signature, ": " + text if text else "")


def put_traits(page, item):
    """The traits that a type implements, on one line, and what is said or promised of an implementation."""
    names = [(name, None) for name in item.derives] + [(impl.trait, impl) for impl in item.impls if not impl.trait.startswith("Model")]
    if names:
        page.put("Implements " + ", ".join(sorted(trait_link(page, item, name) for name, _impl in names)) + ".", "")
    for impl in item.impls:
        if impl.doc and impl.trait != "Model":
            page.put("- `%s`: %s" % (impl.trait, in_line(page, impl.source, impl.doc, item)), "")
    for impl in item.impls:
        title = "what contracts see" if impl.trait == "Model" else "contract as `%s`" % re.sub(r"<.*", "", impl.trait)
        put_contract(page, title.replace("`", ""), impl.contract, impl.cited)


def trait_link(page, item, name):
    """The name of a trait, as a link to it if it has a place here."""
    library, path = page.library, re.sub(r"<.*", "", name)
    source = next((impl.source for impl in item.impls if impl.trait == name), item.source)
    found = library.named(library.crates[item.crate], path) if "::" in path else library.resolve(source, path)
    shown = "`%s`" % re.sub(r"^(?:\w+::)+", "", name)
    return page.link(shown, id(found)) if found is not None and found.kind == "trait" else shown


def put_item(page, item):
    """An item with its members, its traits, its contract and its methods."""
    page.heading(3, title_of(item), id(item))
    page.put("```rust", item.signature, "```", "")
    put_doc(page, item.source, item.doc, item)
    if item.kind in ("fn", "trait", "type"):
        put_types(page, item, item)
    put_members(page, item)
    put_traits(page, item)
    title = {"trait": "relations", "struct": "ghost fields"}.get(item.kind, "contract")
    put_contract(page, title, item.contract, item.cited)
    methods = [member for member in item.members if member.kind in ("method", "associated")]
    groups = sorted(item.groups, key=lambda group: group[2] is not item.source)
    names = methods + [method for _comment, found, _source in groups for method in found]
    if len(names) > 3:
        page.put("It has " + ", ".join(page.link("`%s`" % method.name, id(method)) for method in names) + ".", "")
    for method in methods:
        put_method(page, item, method)
    for comment, found, source in groups:
        if comment and len(comment) > 2:
            page.put("---", "")
            put_doc(page, source, without_reasons(comment), item)
        for method in found:
            put_method(page, item, method)


def put_constants(page, items):
    """Constants, as a table."""
    page.put("| Constant | What it is |", "|---|---|")
    for item in items:
        anchor = slug(title_of(item), page.taken)
        page.library.places[id(item)] = (page.path, anchor)
        page.put("| <a id=\"%s\"></a>`%s` | %s |" % (anchor, cell(re.sub(r"^pub const ", "", item.signature)),
                                                  cell(in_line(page, item.source, item.doc, item))))
    page.put("")


def without_reasons(comment):
    """A crate's own comment without its reasons, which are for those who change it."""
    return comment[:comment.index("Why it is so:")] if "Why it is so:" in comment else comment


def put_kinds(page, items, level):
    """Items, kind by kind, each in the order of the names; constants in their own."""
    for title, kinds in KINDS:
        found = [item for item in items if item.kind in kinds]
        if not found:
            continue
        page.heading(level, title)
        if kinds == ("const",):
            put_constants(page, found)
        else:
            for item in sorted(found, key=lambda item: item.name.lower()):
                put_item(page, item)


def crate_page(library, name):
    """The page of a crate."""
    page, crate = Page(library, FOLDER + name + ".md"), library.crates[name]
    shown, modules = library.shown[name], MODULES.get(name, [])
    for item in shown + library.adopted[name]:
        item.module_shown = item.crate == name and item.module in modules and item not in passed_by_root(library, crate)
    page.heading(1, name)
    page.put("Made by `tools/reference` of [its sources](../../crates/%s/src). [All crates](README.md)." % name, "")
    put_doc(page, crate.root, without_reasons(crate.root.comment))
    put_contents(page, name)
    root = [item for item in shown if not item.module_shown]
    put_kinds(page, root, 2)
    for module in modules:
        found = [item for item in shown if item.module_shown and item.module == module]
        source = next(source for source in crate.sources if source.module == module)
        if found:
            page.heading(2, "Module %s" % module, (name, module))
            put_doc(page, source, without_reasons(source.comment))
            constants = [item for item in found if item.kind == "const"]
            if constants:
                put_constants(page, constants)
            for item in found:
                if item.kind != "const":
                    put_item(page, item)
    if library.adopted[name]:
        page.heading(2, "Of crates without a page")
        for item in sorted(library.adopted[name], key=lambda item: item.name.lower()):
            put_item(page, item)
    return page


def passed_by_root(library, crate):
    """The items that the root of a crate passes on, its own and others."""
    return [library.named(crate, path) for path, _as in crate.root.passed_on]


def put_contents(page, name):
    """The items of a page at its head."""
    library = page.library
    rows = []
    shown = library.shown[name]
    for title, kinds in KINDS:
        found = [item for item in shown if item.kind in kinds]
        found = sorted(found, key=lambda item: item.name.lower()) if title != "Constants" else found
        if found:
            rows.append((title, ", ".join(page.link("`%s`" % title_of(item), id(item)) for item in found)))
    passed = [item for item in library.passed_on[name] if item not in library.adopted[name]]
    if passed:
        rows.append(("Re-exports", ", ".join(page.link("`%s`" % item.name, id(item)) for item in passed)))
    if library.adopted[name]:
        rows.append(("Of crates without a page", ", ".join(page.link("`%s`" % item.name, id(item)) for item in library.adopted[name])))
    if len(rows) + len(shown) > 2:
        page.put("| | |", "|---|---|", *["| %s | %s |" % row for row in rows])
        page.put("")


# Definitions.

def cited_by(at):
    """The definitions that a definition cites, in the order of their files."""
    file, name = at
    found = []
    for word in sorted(SPECS[file].definitions[name][1]):
        home = file if word in SPECS[file].definitions else home_of(SPECS[file].imports.get(word, ""), word)
        if home in SPECS and word in SPECS[home].definitions and (home, word) != at:
            found.append((home, word))
    return found


def definitions_page(library, crate, wanted):
    """The definitions of a crate that contracts of public items cite, file by file, and the sentences of the others beside them."""
    page = Page(library, FOLDER + "definitions/" + crate + ".md")
    page.heading(1, "Definitions of " + crate)
    page.put("Made by `tools/reference` of [its definitions](../../../crates/%s/specs). Those that contracts of the [reference](../README.md) cite "
             "have their text; the others of their files have the sentence alone, since *the same* speaks of the one before. What a "
             "text cites is linked: to a page as this one, or to the file that has it." % crate, "")
    for file in sorted({file for file, _name in wanted}):
        specs = SPECS[file]
        page.heading(2, file.split("/specs/")[1])
        page.put("[The file](../../../crates/%s). %s" % (file, escaped(specs.title)), "")
        for name in dict.fromkeys(list(specs.sentences) + list(specs.definitions)):
            if (file, name) in wanted:
                put_definition(page, file, name)
            elif specs.sentences.get(name):
                page.put("`%s`: %s" % (name, escaped(specs.sentences[name])), "")
    return page


def escaped(sentence):
    """A sentence of a file of specs/, in which signs stand for themselves."""
    return re.sub(r"([<*_|])", r"\\\1", re.sub(r"\s+", " ", sentence).strip())


def put_definition(page, file, name):
    """A definition: its sentence, and its text folded behind it."""
    page.heading(3, name, (file, name))
    page.put(escaped(SPECS[file].sentences.get(name, "")), "")
    page.put("<details><summary>definition</summary>", "", "```text", SPECS[file].text_of(name), "```", "")
    links = [definition_link(page, home, word) for home, word in cited_by((file, name))]
    if links:
        page.put("It cites " + ", ".join(links) + ".", "")
    page.put("</details>", "")


def definition_link(page, file, name):
    """A definition as a link to its text: on a page, if it has a place on one, and else its file."""
    link = page.link("`%s`" % name, (file, name))
    return link if link.startswith("[") else "[`%s`](%scrates/%s)" % (name, "../" * page.path.count("/"), file)


# The index.

def index_page(library, with_definitions):
    """The page with which a reader begins."""
    page = Page(library, FOLDER + "README.md")
    page.heading(1, "Reference")
    page.put("One page for each crate that a service of yours may list or name, made by `tools/reference` of the sources. An item has its signature, "
             "and what its author says of it: what it is for, its limits, its errors, its conditions, what it may wait for. Behind *contract* are "
             "its clauses, word for word, which are proved; [PROOFS](../PROOFS.md) says how to read them. Begin with "
             "[EMBEDDING](../EMBEDDING.md).", "")
    put_rings(page)
    page.put("", "If a signature names a type of a crate without a page, it is on the page of the first crate that does. `tools/reference --all FOLDER` "
             "makes the pages of all crates, with the definitions that their contracts cite. What `jc_c` exports is in its "
             "[header](../../bindings/core/include/cadwrelch.h). All crates are in [crates](../matrix/crates.md).", "")
    page.heading(2, "All items")
    put_names(page)
    page.heading(2, "Of the toolchain")
    page.put("`rt doc` prints where its own guide is. Its macros and attributes, as programs here use them:", "",
             "| | What it does |", "|---|---|")
    page.put(*["| `%s` | %s |" % (cell(form), text) for form, text in MACROS])
    page.put("", "Signatures name these types and traits:", "", "| Name | From | What it is |", "|---|---|---|")
    page.put(*["| %s | %s | %s |" % row for row in TOOLCHAIN])
    if with_definitions:
        page.heading(2, "Definitions")
        page.put("What the names in contracts mean, crate by crate: " + ", ".join(
            "[%s](definitions/%s.md)" % (crate, crate) for crate in with_definitions) + ".")
    return page


def put_names(page):
    """All items by their names, letter by letter; the methods of a type are listed where it is."""
    library = page.library
    items = [item for name in library.shown for item in library.shown[name] + library.adopted[name]]
    count = {}
    for item in items:
        count[item.name] = count.get(item.name, 0) + 1
    letters = {}
    for item in sorted(items, key=lambda item: (item.name.lower(), library.home[id(item)])):
        link = page.link("`%s`" % item.name, id(item))
        letters.setdefault(item.name[0].upper(), []).append(link if count[item.name] == 1 else "%s of `%s`" % (link, library.home[id(item)]))
    for letter, links in letters.items():
        page.put("**%s** %s" % (letter, ", ".join(links)), "")


def put_rings(page):
    """The crates that have a page, ring by ring."""
    ring_before = None
    for ring, crate, _uses in LISTED:
        if crate not in page.library.with_page:
            continue
        if ring != ring_before:
            ring_before = ring
            page.heading(2, ring.capitalize())
            page.put("| Crate | What it is |", "|---|---|")
        page.put("| [`%s`](%s.md) | %s |" % (crate, crate, cell(about(crate))))


def made_once(library, with_definitions):
    """All pages, by the anchors that are known so far."""
    pages = [crate_page(library, crate) for crate in library.shown]
    wanted = {at for page in pages for at in page.cited} if with_definitions else set()
    crates = [crate for crate in ALL if any(file.startswith(crate + "/") for file, _name in wanted)]
    for crate in crates:
        pages.append(definitions_page(library, crate, {at for at in wanted if at[0].startswith(crate + "/")}))
    pages.append(index_page(library, crates))
    return pages


def pages_of(library, with_definitions):
    """All pages of these crates, {path: text}."""
    made_once(library, with_definitions)  # finds the anchors; the second time each link knows its own
    return {page.path: page.text() for page in made_once(library, with_definitions)}


def reference_pages():
    """The pages of docs/reference, {path: text}, and each item of them that has no comment, as `FILE:LINE: NAME`."""
    library = Library(FOR_SERVICES)
    pages = pages_of(library, False)
    items = [part for name in library.shown for item in library.shown[name] + library.adopted[name] for part in all_parts(item)]
    return pages, ["crates/%s:%d: %s" % (part.source.file, part.line, part.name) for part in items if not part.doc]


def whole_reference():
    """The pages of all crates that others use, with their definitions, {path: text}."""
    used = {name for _ring, _crate, uses in LISTED for name in uses}
    return pages_of(Library([name for name in ALL if name in used]), True)


def stray_pages(pages):
    """The files in the reference's folder that are none of these pages."""
    found = [os.path.relpath(os.path.join(at, name), TOP) for at, _folders, names in os.walk(os.path.join(TOP, FOLDER)) for name in names]
    return sorted(set(found) - set(pages))


def write_reference(pages):
    """Writes the pages, and removes what is no longer made."""
    for path, text in pages.items():
        os.makedirs(os.path.dirname(os.path.join(TOP, path)), exist_ok=True)
        with open(os.path.join(TOP, path), "w", encoding="utf-8") as file:
            file.write(text)
    for path in stray_pages(pages):
        os.remove(os.path.join(TOP, path))


def write_apart(pages, folder):
    """Writes pages into a folder, from which their links lead to the sources."""
    to_top = os.path.relpath(TOP, os.path.abspath(folder))
    for path, text in pages.items():
        below = path[len(FOLDER):]
        up = "../" * below.count("/") + to_top + "/"
        text = text.replace("](" + "../" * path.count("/"), "](" + up)
        if "/" not in below:
            text = re.sub(r"\]\(\.\./(?=[A-Z]|matrix/)", "](%sdocs/" % up, text)
        at = os.path.join(folder, below)
        os.makedirs(os.path.dirname(at), exist_ok=True)
        with open(at, "w", encoding="utf-8") as file:
            file.write(text)
