"""Finds which definitions the public clauses of the crates reach.

A public clause is a `requires` or `ensures` of a call that other crates or C can make, a ghost member of
a trait, type or impl that they can name, or the view of such a type. A type's invariant and inverse
(its representation) and the proofs that an impl gives are none. From the names in the clauses the
search goes through the `use` lines to the definitions in `specs/`, and from their text to further
ones, until nothing is new. Names of std and of the kit are passed over.
"""
import collections
import os
import re

# Ghost members that say nothing to a caller: the representation, and proofs.
UNSAID = re.compile(r"invariant|inverse|coded|laws|apart|total|\w+_ok|matches_\w+|respects_\w+")

Definition = collections.namedtuple("Definition", "home path name line is_public is_told count text")
NAME = r"[^\s(){}\[\],;:.λ\"◌]+"


def lines(path):
    with open(path, encoding="utf-8") as file:
        return file.read().splitlines()


def files(folder, ending):
    for path, _, names in os.walk(folder):
        for name in sorted(names):
            if name.endswith(ending):
                yield os.path.join(path, name)


# Names and where they come from.


class Scope:
    """The names that `use` lines bring into a text: each a pair of a module and its name there."""

    def __init__(self, above=None):
        self.names = dict(above.names) if above else {}
        self.modules = dict(above.modules) if above else {}
        self.whole = list(above.whole) if above else []

    def take(self, path, listed, renamed):
        """One import: `path.{listed}`, or `path as renamed`."""
        if listed is None:
            name = renamed or path.split(".")[-1]
            self.modules[name] = path
            self.whole += [] if renamed else [path]
            return
        for entry in filter(None, (part.strip() for part in listed.split(","))):
            name, _, other = (part.strip() for part in entry.partition(" as "))
            for word in words_of(other or name):
                self.names[word] = (path, name)


def words_of(name):
    """The words by which a text shows a name: an operator's parts, without its holes."""
    return [part for part in name.split("◌") if part] if "◌" in name else [name]


USE = re.compile(r"^[ ]*(?:pub )?(?:ghost )?use ([\w.'-]+?)(?:\.\{([^}]*)\})?(?: as ([\w'-]+))?[ ]*;?$", re.M)
OFFER = re.compile(USE.pattern.replace("(?:pub )?", "pub "), re.M)


def scope_of(text, above=None, pattern=USE):
    scope = Scope(above)
    for path, listed, renamed in pattern.findall(text):
        scope.take(path, listed or None, renamed)
    return scope


def mentioned(text, scope):
    """Each module and name that a text mentions."""
    text = re.sub(r'"[^"]*"', '""', text)
    if re.search(r"\bdo\b", text) and ">>=" in scope.names:
        yield scope.names[">>="]
    for match in re.finditer(rf"{NAME}(?:\.{NAME})*", text):
        first, *rest = match.group().split(".")
        if match.start() and text[match.start() - 1] == "." or is_label(text, match):
            continue
        if first in scope.modules and rest:
            yield scope.modules[first], rest[0]
        elif first in scope.names:
            yield scope.names[first]


def is_label(text, match):
    """A field's label, as in `record { name = .. }`."""
    return text[match.end():match.end() + 3] == " = " and text[:match.start()].rstrip()[-1:] in "{;"


# Definitions.


class Module:
    """A file of definitions: what it defines, imports, and offers again."""

    def __init__(self, path, name):
        self.path, self.name, self.found, self.owners = path, name, {}, {}
        told = lines(path)
        code = "\n".join(line for line in told if not line.lstrip().startswith("--"))
        self.scope, self.offered = scope_of(code), scope_of(code, pattern=OFFER)
        self.read(told)
        for name in self.found:
            for word in words_of(name):
                self.scope.names[word] = (self.name, name)
        for name, owner in self.owners.items():
            self.scope.names[name] = (self.name, owner)

    def read(self, told):
        """Cuts the file into its definitions. Those in a `module _` stand deeper, under its parameters,
        and so do those that name each other (`mutual`)."""
        self.under, self.begun = [], None
        for number, line in enumerate(told):
            text = line.strip()
            if not text or re.match(r"--|(pub )?(use|mod) |infix", text):
                continue
            depth = len(line) - len(line.lstrip())
            while self.under and depth < self.under[-1][0]:
                self.under.pop()
                self.end()
            at = self.under[-1][0] if self.under else 0
            if text.startswith("module "):
                self.end()
                self.under.append((depth + 2, text))
            elif re.fullmatch(r"(abbrev |unfoldable )?mutual", text):
                self.end()
                self.under.append((depth + 2, ""))
            elif depth == at and header(text):
                self.end()
                self.begin(number, line, told)
            elif self.begun:
                self.begun["body"].append(line)
        self.end()

    def begin(self, number, line, told):
        above = told[number - 1].strip() if number else ""
        while above.startswith("infix"):
            number -= 1
            above = told[number - 1].strip()
        self.begun = {"line": number + 1, "body": [line], "told": above.startswith("--"),
                      "under": [text for _, text in self.under]}

    def end(self):
        if not self.begun:
            return
        begun, self.begun = self.begun, None
        head = begun["body"][0].strip()
        name, is_public = header(head), bool(re.match(r"(\w+ )*?pub ", head))
        self.found[name] = Definition(self.name, self.path, name, begun["line"], is_public, begun["told"],
                                      len(begun["body"]), "\n".join(begun["under"] + begun["body"]))
        if re.match(r"(pub )?data ", head):
            for line in begun["body"][1:]:
                if re.match(rf"\s*{NAME} :", line):
                    self.owners[line.split()[0]] = name


def header(text):
    """The name that a line begins to define: `NAME :`, or `NAME (..) :` on a record or in a lemma."""
    marked = re.match(r"((?:(?:pub|abbrev|unfoldable|opaque|record|data) )+)(\S+)", text)
    if marked:
        return marked.group(2)
    name = re.match(r"([^\s(){}:=]+) ", text)
    rest = text[name.end():] if name else ""
    while rest[:1] in ("(", "{"):
        rest = rest[closing(rest, 0) + 1:].lstrip()
    return name.group(1) if name and rest.startswith(":") else None


def closing(text, at):
    """Where the bracket that opens at a place closes."""
    depth = 0
    for place in range(at, len(text)):
        if text[place] in "([{":
            depth += 1
        elif text[place] in ")]}":
            depth -= 1
            if depth == 0:
                return place
    return len(text) - 1


def modules_of(crates):
    """The modules of specs/ and proofs/ of every crate, by the path that imports name."""
    found = {}
    for crate in sorted(os.listdir(crates)):
        for folder in ("specs", "proofs"):
            top = os.path.join(crates, crate, folder)
            for path in files(top, ".antt"):
                inside = os.path.relpath(path, top)[:-len(".antt")].replace(os.sep, ".")
                name = f"Rattle.{crate}.{folder}.{inside}"
                found[name] = Module(path, name)
    for module in found.values():
        take_modules(module.scope, found)
    return found


def take_modules(scope, modules):
    """Lets a scope see the modules that a module which it imports from offers under a name."""
    for name, (path, there) in list(scope.names.items()):
        offered = modules[path].offered.modules if path in modules else {}
        if there in offered:
            scope.modules[name] = offered[there]


def find(modules, path, name, tried=()):
    """The definition of a name of a module, which may offer it from elsewhere."""
    module = modules.get(path)
    if module is None or path in tried:
        return None
    name = module.owners.get(name, name)
    if name in module.found:
        return module.found[name]
    places = [module.offered.names[name]] if name in module.offered.names else []
    places += [(whole, name) for whole in module.offered.whole]
    return next(filter(None, (find(modules, *place, (*tried, path)) for place in places)), None)


# Clauses.


def blanked(text):
    """The text of a source with its comments, strings and characters blank."""
    pattern = r'//[^\n]*|"(?:\\.|[^"\\])*"|(?<![\w\'])b?\'(?:\\.|[^\\\'\n])\''
    return re.sub(pattern, lambda match: '""'.ljust(len(match.group())), text)


class Source:
    """A crate's `src/`: the clauses that other crates can see, each with its scope. `calls` has those of
    each call, by their labels."""

    def __init__(self, folder):
        self.clauses, self.items, self.offered = [], [], set()
        self.calls = {}
        self.read(os.path.join(folder, "lib.rt"), folder, True)
        for item in self.items:
            item["is_public"] |= item["is_marked"] and item["name"] in self.offered
        self.types = {item["name"] for item in self.items if item["is_public"]}
        self.own = {item["name"] for item in self.items if item["kind"] in ("struct", "enum", "trait")}
        for item in self.items:
            self.take(item)

    def read(self, path, folder, is_public):
        if not os.path.isfile(path):
            return
        with open(path, encoding="utf-8") as file:
            text = blanked(file.read())
        self.walk(text, Scope(), folder, is_public)

    def walk(self, text, above, folder, is_public):
        items = list(items_of(text))
        scope = scope_of("\n".join(item["head"] for item in items if item["kind"] == "ghost use"), above)
        for item in items:
            if re.search(r"#\[(cfg\(test\)|test)\]", item["marks"]):
                continue
            item["scope"] = scope
            item["is_public"] = is_public and item["is_marked"] or "no_mangle" in item["marks"]
            self.items.append(item)
            if item["kind"] == "use" and item["is_public"]:
                self.offered |= set(re.findall(r"\w+", item["head"].partition("use ")[2]))
            elif item["kind"] == "mod":
                inside = os.path.join(folder, item["name"])
                if item["body"]:
                    self.walk(item["body"], scope, inside, item["is_public"])
                else:
                    self.read(inside + ".rt", inside, item["is_public"])

    def take(self, item):
        """Takes the public clauses of an item."""
        kind, scope = item["kind"], item["scope"]
        if kind == "fn" and item["is_public"]:
            self.take_call(item["name"], item, scope)
        elif kind in ("struct", "enum", "trait") and item["is_public"]:
            self.take_members(item, True)
        elif kind == "impl" and (item["owner"] in self.types or item["trait"] in self.types and item["owner"] not in self.own):
            self.take_members(item, item["trait"] is not None)

    def take_call(self, name, item, scope):
        found = self.calls.setdefault(name, [])
        for label, text in item["clauses"]:
            self.clauses.append((text, scope))
            found.append((label, text, scope))

    def take_members(self, item, are_public):
        members = list(items_of(item["body"]))
        uses = "\n".join(member["head"] for member in members if member["kind"] == "ghost use")
        scope = scope_of(uses, item["scope"])
        for member in members:
            if member["kind"] == "fn" and (are_public or member["is_marked"]):
                names = (item["owner"], item["trait"]) if item["kind"] == "impl" else (item["name"], None)
                self.take_call("::".join(filter(None, (*names, member["name"]))), member, scope)
        for name, text in ghosts(item["body"]):
            if not UNSAID.fullmatch(name):
                self.clauses.append((text, scope))


def ghosts(body):
    """The ghost members of an item's body, with their text."""
    for match in re.finditer(r"\bghost (\w+)\s*[:=]\s*\{", body):
        yield match.group(1), body[match.end() - 1:closing(body, match.end() - 1) + 1]


ITEM = re.compile(r"(?P<marks>(?:#!?\[[^\]]*\]\s*)*)(?P<pub>pub(?P<part>\([^)]*\))? )?(?:(?:const|unsafe|default|ghost) )*"
                  r"(?:extern\s*(?:\"[^\"]*\")?\s*)?(?P<kind>ghost use|use|fn|struct|enum|trait|impl|mod|const|static|type|ghost)\b")


def items_of(text):
    """The items of a module or a body, outermost alone."""
    at = 0
    while True:
        match = re.compile(r"\S").search(text, at)
        if not match:
            return
        at = match.start()
        begun = ITEM.match(text, at)
        if not begun:
            at = closing(text, at) + 1 if text[at] in "([{" else re.compile(r"\W|\w+").match(text, at).end()
            continue
        item, at = item_at(text, begun)
        yield item


def item_at(text, begun):
    kind, at = begun.group("kind"), begun.end()
    head = text[begun.start():at]
    kind = "ghost use" if re.search(r"\bghost use$", head) else kind
    item = {"kind": kind, "marks": begun.group("marks"), "is_marked": bool(begun.group("pub") and not begun.group("part")),
            "clauses": [], "body": "", "owner": None, "trait": None}
    if kind in ("ghost use", "use", "const", "static", "type", "ghost"):
        at = ends_at(text, at)
    elif kind == "fn":
        at = read_call(text, at, item)
    else:
        at = read_body(text, at, item)
    item["head"] = text[begun.start():at]
    named = re.match(r"\s*(\w+)", text[begun.end():])
    item["name"] = named.group(1) if named else ""
    return item, at


def ends_at(text, at):
    """Behind the semicolon or comma that ends an item, past all brackets."""
    while at < len(text) and text[at] not in ";,}":
        at = closing(text, at) + 1 if text[at] in "([{" else at + 1
    return at + 1


def read_call(text, at, item):
    """Reads a call's clauses, up to its body or its semicolon."""
    since = at
    while at < len(text) and text[at] != ";":
        if text[at] == "{":
            close = closing(text, at)
            begun = re.search(r"\b(requires|ensures|follows)\*?\s*(\w*)\s*$", text[since:at])
            if not begun and re.search(r"\bghost \w+\s*:\s*$", text[since:at]):
                at = since = close + 1
                continue
            if not begun:
                return close + 1
            kind, label = begun.groups()
            item["clauses"].append((label or kind if kind == "ensures" else kind, text[at:close + 1]))
            at = since = close + 1
        else:
            at = closing(text, at) + 1 if text[at] in "([" else at + 1
    return at + 1


def read_body(text, at, item):
    """Reads what an `impl`, a type, a trait or a module says of itself, and its body."""
    begun = at
    while at < len(text) and text[at] not in "{;":
        at = closing(text, at) + 1 if text[at] in "([" else at + 1
    if item["kind"] == "impl":
        item["trait"], item["owner"] = owner_of(text[begun:at])
    if text[at:at + 1] != "{":
        return at + 1
    close = closing(text, at)
    item["body"] = text[at + 1:close]
    return close + 1


def bare(path):
    """The last word of a type's path, without its type parameters."""
    return re.sub(r"<.*", "", path, flags=re.S).split("::")[-1].strip("& \n")


def owner_of(head):
    """The trait, if any, and the type of an `impl`, of which this is what stands behind that word."""
    head = re.sub(r"\bwhere\b.*", "", head, flags=re.S).strip()
    if head.startswith("<"):
        depth = 0
        for at, letter in enumerate(head):
            depth += {"<": 1, ">": -1}.get(letter, 0)
            if depth == 0:
                head = head[at + 1:].strip()
                break
    trait, found, owner = head.partition(" for ")
    return (bare(trait), bare(owner)) if found else (None, bare(head))


# The search.


def is_lost(modules, named, path, name):
    """Whether what an import names should stand in specs/ or proofs/ of a crate here, and does not."""
    if not {*path.split(".")[1:2]} & {*named} or re.search(r"\.specs\.(declared|contracts)\b", path):
        return False
    offered = modules[path].offered if path in modules else Scope()
    if name in offered.names:
        return is_lost(modules, named, *offered.names[name])
    return name not in offered.modules


def reached(crates, modules):
    """All definitions that the public clauses need; and what is imported and not found, as it is named."""
    texts, named = [], sorted(os.listdir(crates))
    for crate in named:
        texts += Source(os.path.join(crates, crate, "src")).clauses
    return needed(texts, modules, named)


def calls_of(crates, crate):
    """The public calls of a crate, each with its clauses: label, text, scope."""
    return Source(os.path.join(crates, crate, "src")).calls


def reached_by(crates, modules, crate, call, labels):
    """The definitions that the clauses of some labels of a call need, with all that it requires."""
    texts = [(text, scope) for label, text, scope in calls_of(crates, crate)[call] if label in (*labels, "requires")]
    return needed(texts, modules, sorted(os.listdir(crates)))[0]


def needed(texts, modules, named):
    """The definitions that some texts need, each with its scope; and what is imported and not found."""
    found, lost = set(), set()
    for _, scope in texts:
        take_modules(scope, modules)
    while texts:
        for path, name in mentioned(*texts.pop()):
            definition = find(modules, path, name)
            if definition and definition not in found:
                found.add(definition)
                texts.append((definition.text, modules[definition.home].scope))
            elif not definition and is_lost(modules, named, path, name):
                lost.add(f"{path}.{name}")
    return found, sorted(lost)
