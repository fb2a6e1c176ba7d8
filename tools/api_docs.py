#!/usr/bin/env python3
"""Makes static HTML of the public crates from their sources, with Python's standard library only.

    python3 tools/api_docs.py FOLDER     writes the pages; FOLDER/index.html is the first
    python3 tools/api_docs.py --check    makes them in a temporary folder and checks each link; the gate runs this

A page for each public crate has all that it exports, wherever it is declared: signatures, what the sources say of it, and the clauses of
its contract, folded under "What is proved". Words of clauses lead to their definitions, in pages of the sources. The pages need no
server, and their search no network.
"""
import functools
import html
import html.parser
import json
import pathlib
import re
import sys
import tempfile

ROOT = pathlib.Path(__file__).resolve().parent.parent
CRATES = ROOT / "crates"
PUBLIC = ["cache_service", "moka_sync", "moka", "moka_engine", "moka_policy", "moka_audit"]
ORDER = ["struct", "enum", "type", "trait", "fn", "const"]
TITLES = {"struct": "Structs", "enum": "Enums", "type": "Type aliases", "trait": "Traits", "fn": "Functions", "const": "Constants"}
WORD = re.compile(r"[A-Za-z_][A-Za-z_0-9]*")


# Reading sources.


class Item:
    """A declaration: its kind, name, documentation, lines of code, clauses, and what is declared within it."""

    def __init__(self, module, line, indent, docs, attributes, text):
        self.module, self.line, self.indent = module, line, indent
        self.docs, self.attributes, self.text = docs, attributes, text
        head = text[0].strip()
        found = re.match(r"(pub(?:\([a-z]+\))? )?(?:unsafe |const (?=fn))*(ghost use|ghost|struct|enum|trait|type|fn|const|static|impl|mod|use)\b", head)
        self.is_public = bool(found) and found.group(1) == "pub "
        self.kind = found.group(2) if found else "other"
        after = head[found.end() :] if found else ""
        self.name = WORD.search(after).group(0) if self.kind not in ("impl", "use", "ghost use", "other") and WORD.search(after) else ""
        self.inner = []

    def is_derived(self):
        return [name for text in self.attributes if text.startswith("#[derive(") for name in WORD.findall(text)[1:]]


def depth_of(line):
    """How many brackets a line leaves open; strings and comments have none that count."""
    bare = re.sub(r'"(?:\\.|[^"\\])*"|\'(?:\\.|[^\'\\])\'|//.*', "", line)
    return sum(bare.count(bracket) for bracket in "([{") - sum(bare.count(bracket) for bracket in ")]}")


def end_of(lines, start, indent):
    """The number after an item's last line, in the layout of `rt fmt`."""
    pad, head = " " * indent, lines[start]
    block = re.match(r"\s*(pub(\([a-z]+\))? )?(unsafe |const (?=fn))*(fn|impl|trait|struct|enum|mod) ?", head)
    if block:
        is_open = False
        for at in range(start, len(lines)):
            line = lines[at]
            is_clause = re.match(rf"{pad}    (ensures|requires)[* ]", line)
            if line == pad + "}" or (at == start or line.startswith(pad + "{")) and line.endswith("}") and depth_of(line) == 0 and "{" in line:
                return at + 1
            if line.startswith(pad + ")") and line.endswith("}") and not is_clause:
                return at + 1
            is_open = is_open or line == pad + "{" or line.endswith("{") and not is_clause
            if line.endswith(";") and not is_open:
                return at + 1
        raise SystemExit(f"no end: {head}")
    depth = 0
    for at in range(start, len(lines)):
        depth += depth_of(lines[at])
        if depth <= 0 and lines[at].endswith((";", "}", ")")):
            return at + 1
    raise SystemExit(f"no end: {head}")


def items_of(module, lines, first, last, indent):
    """The items of so many lines at an indentation."""
    pad, at, docs, attributes, items = " " * indent, first, [], [], []
    while at < last:
        line = lines[at]
        if line.startswith(pad + "///"):
            docs.append(line.strip()[3:].removeprefix(" "))
        elif line.startswith(pad + "#["):
            end = at
            while depth_of(" ".join(lines[at : end + 1])):
                end += 1
            attributes.append(" ".join(text.strip() for text in lines[at : end + 1]))
            at = end
        elif line.startswith(pad) and line[indent : indent + 1] not in (" ", "", "/", "}", "#", ")"):
            end = end_of(lines, at, indent)
            item = Item(module, at + 1, indent, docs, attributes, lines[at:end])
            docs, attributes = [], []
            if item.kind in ("trait", "impl") and end - at > 1 and lines[end - 1] == pad + "}":
                begin = next(number for number in range(at, end) if lines[number].endswith("{")) + 1
                item.inner = items_of(module, lines, begin, end - 1, indent + 4)
            if item.kind == "mod" and end - at > 1:
                item.inner = [module.crate.inline(module, item, lines, at + 1, end - 1)]
            items.append(item)
            at = end - 1
        at += 1
    return items


class Module:
    """A module: its file, its documentation, its items, and what its `use` lines name."""

    def __init__(self, crate, path, file):
        self.crate, self.path, self.file = crate, path, file
        self.docs, self.items = [], []
        self.names, self.exports, self.words = {}, {}, {}

    def take(self, items):
        self.items = items
        for item in items:
            if item.kind in ("use",):
                for name, path in used(re.sub(r"^\s*(pub(\([a-z]+\))? )?use ", "", " ".join(line.strip() for line in item.text)).rstrip(";")):
                    self.names[name] = path
                    if item.is_public:
                        self.exports[name] = path
            elif item.kind == "ghost use":
                self.words.update(ghost_words(item))


def used(text, before=()):
    """Pairs of a name and its path, of a `use`."""
    text = text.strip()
    found = re.match(r"((?:[A-Za-z_0-9]+::)*)\{(.*)\}$", text)
    if not found:
        path, _, alias = text.partition(" as ")
        words = [*before, *path.split("::")]
        if words[-1] == "self":
            words.pop()
        yield alias or words[-1], words
        return
    outer = [*before, *found.group(1).split("::")[:-1]]
    depth, piece = 0, ""
    for letter in found.group(2) + ",":
        depth += (letter == "{") - (letter == "}")
        if letter == "," and depth == 0:
            if piece.strip():
                yield from used(piece, outer)
            piece = ""
        else:
            piece += letter


def ghost_words(item):
    """What a `ghost use` brings into clauses: for each word its crate and the path of its definition."""
    found = re.match(r"ghost use Rattle\.([a-z_0-9]+)\.specs\.([A-Za-z_.]+?)(?:\.\{(.*)\})?(?: as ([a-z_]+))?;$", " ".join(line.strip() for line in item.text))
    if not found:
        return {}
    crate, path, names, _ = found.groups()
    return {name: (crate, path, name) for name in map(str.strip, (names or "").split(",")) if name}


class Crate:
    """A crate's modules by path."""

    def __init__(self, name):
        self.name, self.modules = name, {}
        self.is_program = not is_crate(name)
        self.read((), CRATES / name / ("src/main.rt" if self.is_program else "src/lib.rt"))

    def read(self, path, file):
        module = self.modules[path] = Module(self, path, file)
        lines = file.read_text(encoding="utf-8").split("\n")
        module.docs = [line[3:].removeprefix(" ") for line in lines if line.startswith("//!")]
        module.take(items_of(module, lines, 0, len(lines), 0))
        folder = file.parent if not path else file.with_suffix("")
        for item in module.items:
            if item.kind == "mod" and not item.inner and "#[cfg(test)]" not in item.attributes:
                self.read((*path, item.name), folder / f"{item.name}.rt")

    def inline(self, outer, item, lines, first, last):
        path = (*outer.path, item.name)
        module = self.modules[path] = Module(self, path, outer.file)
        module.docs = item.docs
        module.take(items_of(module, lines, first, last, item.indent + 4))
        return module

    def declared(self, path, name):
        return next((item for item in self.modules[path].items if item.name == name and item.kind in ORDER), None)


@functools.cache
def crate_of(name):
    return Crate(name)


def is_crate(name):
    return (CRATES / name / "src/lib.rt").exists()


def resolve(module, path, depth=0):
    """What a path means in a module: an item, or a module; None if it is not of this repository."""
    if depth > 30 or not path:
        return None
    head, rest = path[0], path[1:]
    if head == "crate":
        return within(module.crate.modules[()], rest, depth)
    if head == "self":
        return within(module, rest, depth)
    if head == "super":
        return within(module.crate.modules[module.path[:-1]], rest, depth)
    if (*module.path, head) in module.crate.modules or module.crate.declared(module.path, head):
        return within(module, path, depth)
    if head in module.names and module.names[head] != path:
        return resolve(module, [*module.names[head], *rest], depth + 1)
    if is_crate(head):
        return within(crate_of(head).modules[()], rest, depth)
    return None


def within(module, path, depth):
    if not path:
        return module
    inner = module.crate.modules.get((*module.path, path[0]))
    if inner and path[1:]:
        return within(inner, path[1:], depth + 1)
    found = module.crate.declared(module.path, path[0])
    if found or inner and not path[1:]:
        return found or inner
    if path[0] in module.names:
        return resolve(module, [*module.names[path[0]], *path[1:]], depth + 1)
    return None


# What is shown.


class Shown:
    """An item as a public crate exports it: under which name, in which of its modules."""

    def __init__(self, crate, module, name, item):
        self.crate, self.module, self.name, self.item = crate, module, name, item
        self.anchor = "::".join([*module.path, name])
        self.url = f"{crate}.html#{self.anchor}"


def exported(crate):
    """All that a crate exports, module by module; of a program, what its modules have for one another."""
    shown, lacking = [], []

    def take(module):
        for name, path in module.exports.items():
            found = resolve(module, path)
            if isinstance(found, Item):
                shown.append(Shown(crate.name, module, name, found))
            elif found is None:
                lacking.append(f"{crate.name}: {'::'.join(path)} is not declared anywhere")
        for item in module.items:
            if item.is_public and item.kind in ORDER and item.name not in module.exports:
                shown.append(Shown(crate.name, module, item.name, item))
        for item in module.items:
            if item.kind == "mod" and (item.is_public or crate.is_program):
                take(crate.modules[(*module.path, item.name)])

    take(crate.modules[()])
    if lacking:
        sys.exit("\n".join(lacking))
    return shown


def self_name(item):
    """The name of the type that an `impl` is about, and that of its trait, if any; then the first line of what it says."""
    head = []
    for line in item.text:
        head.append(line.strip())
        if line.endswith("{") or line.endswith("}"):
            break
    text = re.sub(r"\s*\{\}?$", "", " ".join(head))
    text = re.sub(r"([<(]) ", r"\1", text).replace(", >", ">").replace(" >", ">")
    bare = text[4:].strip()
    if bare.startswith("<"):
        depth = 0
        for at, letter in enumerate(bare):
            depth += (letter == "<") - (letter == ">" and bare[at - 1] != "-")
            if depth == 0:
                bare = bare[at + 1 :].strip()
                break
    trait, of, target = bare.partition(" for ")
    if not of:
        trait, target = "", bare
    word = WORD.search(target.lstrip("&").removeprefix("'a ").removeprefix("mut "))
    return word.group(0) if word else "", trait, text


def impls_of(item):
    """The `impl`s about a declared type, in its own crate."""
    for module in item.module.crate.modules.values():
        for impl in module.items:
            if impl.kind == "impl" and item.name in impl.text[0] + " ".join(impl.text[1:12]):
                name, trait, text = self_name(impl)
                if resolve(module, [name]) is item:
                    yield impl, trait, text


@functools.cache
def calls_of(item):
    """The names of a type's or a trait's own calls."""
    if item.kind == "trait":
        return {inner.name for inner in item.inner if inner.kind == "fn"}
    return {inner.name for impl, trait, _ in impls_of(item) if not trait for inner in impl.inner if inner.kind == "fn" and inner.is_public}


def parts_of(item):
    """The lines of a function's signature, and its clauses: each with its comment."""
    pad, signature, clauses, comment = " " * item.indent, [], [], []
    lines = [line[item.indent :] for line in item.text]
    for at, line in enumerate(lines):
        if re.match(r"    (ensures|requires)[* ]", line):
            clauses.append([*comment, line])
            comment = []
        elif clauses or comment:
            if line.startswith("    //"):
                comment.append(line)
            elif line.startswith("     "):
                clauses[-1].append(line)
            elif line:
                break
        elif line.startswith("    //") and at:
            comment.append(line)
        elif line == "{" or at and line.startswith("{ "):
            break
        else:
            signature.append(line)
            if line.endswith("{") or line.endswith(";") or re.search(r"\{.*\}$", line):
                break
    text = re.sub(r"\s*(\{\s*\}|\{ .* \}|\{|;)$", "", "\n".join(signature))
    text = re.sub(r"(?s)^pub ", "", text)
    return text, [re.sub(r"[;{]?\s*$", "", "\n".join(text[4:] for text in clause)) for clause in clauses]


def shape_of(item):
    """A struct's, enum's or alias's lines, without what is private or proved."""
    lines, kept, skips, is_hidden = [line[item.indent :] for line in item.text], [], False, False
    for at, line in enumerate(lines):
        is_field = line.startswith("    ") and line[4:5] not in (" ", "}", ")", "")
        if is_field and item.kind == "struct":
            is_private = not line.startswith(("    pub ", "    ///", "    //"))
            skips = is_private
            is_hidden = is_hidden or is_private and not line.startswith("    ghost ")
        elif is_field:
            skips = line.startswith("    ghost ")
        elif not line.startswith("    "):
            skips = False
        if not skips:
            kept.append(line)
    while is_hidden and kept and kept[-1].startswith("    ///"):
        kept.pop()
    if item.kind == "struct" and is_hidden:
        kept.insert(len(kept) - 1, "    /* private fields */")
    text = "\n".join(kept)
    return re.sub(r"^pub ", "", re.sub(r"pub\(crate\) [^,)]*", "_", text) if len(lines) == 1 else text)


# Pages.


class Pages:
    """The pages to be: what is shown where, and the sources that are linked."""

    def __init__(self):
        self.shown = {name: exported(crate_of(name)) for name in PUBLIC}
        self.home, self.sources, self.index = {}, {}, []
        self.here = None
        for name in PUBLIC:
            for one in self.shown[name]:
                self.home.setdefault(id(one.item), {})[name] = one

    def url_of(self, item, crate):
        """Where an item is shown, in this crate's page if it is there."""
        homes = self.home.get(id(item))
        return (homes.get(crate) or next(iter(homes.values()))).url if homes else None

    def source(self, file, line):
        """The page of a source, at a line."""
        name = str(file.relative_to(CRATES)).replace("/", "-") + ".html"
        self.sources[name] = file
        return f"source/{name}#L{line}"

    def code(self, text, module, crate):
        """Code as HTML, with links from names to what is shown."""

        def link(found):
            word = found.group(0)
            target = resolve(module, [word])
            url = self.url_of(target, crate) if isinstance(target, Item) else None
            return f'<a href="{url}">{word}</a>' if url else word

        pieces = re.split(r"(//[^\n]*)", text)
        return "".join(
            f"<i>{html.escape(piece)}</i>" if at % 2 else re.sub(r"\b[A-Z][A-Za-z0-9]*\b(?!&)", link, html.escape(piece, quote=False))
            for at, piece in enumerate(pieces)
        )

    def definition(self, crate, path, name):
        """Where a word of a clause is defined."""
        file = CRATES / crate / "specs" / (path.replace(".", "/") + ".antt")
        if not file.exists():
            return None
        lines = file.read_text(encoding="utf-8").split("\n")
        pattern = re.compile(rf"\s*(?:pub |unfoldable |behind |abbrev |record |data |sum |postulate )+{re.escape(name)}(?![A-Za-z0-9_'])")
        for number, line in enumerate(lines, 1):
            if pattern.match(line):
                return self.source(file, number)
        for line in lines:
            found = re.match(r"pub use Rattle\.([a-z_0-9]+)\.specs\.([A-Za-z_.]+?)\.\{(.*)\}", line)
            if found and name in [word.strip() for word in found.group(3).split(",")]:
                return self.definition(found.group(1), found.group(2), name)
        return None

    def clause(self, text, module, words=None):
        """A clause as HTML: its words lead to their definitions."""
        known = {**module.words, **(words or {})}

        def link(found):
            word = found.group(0)
            url = self.definition(*known[word]) if word in known else None
            return f'<a href="{url}">{word}</a>' if url else word

        pieces = re.split(r"(//[^\n]*)", text)
        return "".join(
            f"<i>{html.escape(piece)}</i>" if at % 2 else re.sub(r"[A-Za-z_][A-Za-z_0-9']*", link, html.escape(piece, quote=False))
            for at, piece in enumerate(pieces)
        )

    def proved(self, clauses, module, title="What is proved"):
        if not clauses:
            return ""
        told = "\n".join(self.clause(clause, module) for clause in clauses)
        count = f"{len(clauses)} clause{'s' if len(clauses) > 1 else ''}"
        return f'<details><summary>{title} <span>{count}</span></summary><pre class="clauses">{told}</pre></details>'

    def prose(self, docs, module, crate):
        """Documentation as HTML: paragraphs, lists, code."""
        parts, paragraph, listed, code = [], [], [], None

        def inline(text):
            def quoted(found):
                word = found.group(1)
                path = re.sub(r"\(\)$", "", word).split("::") if re.fullmatch(r"[A-Za-z_0-9:]+(\(\))?", word) else []
                target = (resolve(module, path) or within(crate_of(crate).modules[()], path, 0)) if path and all(path) else None
                url = self.url_of(target, crate) if isinstance(target, Item) else None
                if url and path[-1] in calls_of(target):
                    url += f".{path[-1]}"
                elif not url and self.here and len(path) == 1 and path[0] in calls_of(self.here.item):
                    url = f"{self.here.url}.{path[0]}"
                return f'<a href="{url}"><code>{word}</code></a>' if url else f"<code>{word}</code>"

            text = re.sub(r"`([^`]+)`", quoted, html.escape(text, quote=False))
            return re.sub(r"\*\*(.+?)\*\*", r"<b>\1</b>", text)

        def flush():
            if paragraph:
                parts.append(f"<p>{inline(' '.join(paragraph))}</p>")
                paragraph.clear()
            if listed:
                parts.append("<ul>" + "".join(f"<li>{inline(line)}</li>" for line in listed) + "</ul>")
                listed.clear()

        for line in docs:
            if line.startswith("```"):
                flush()
                if code is None:
                    code = []
                else:
                    parts.append(f"<pre>{self.code(chr(10).join(code), module, crate)}</pre>")
                    code = None
            elif code is not None:
                code.append(line)
            elif line.startswith("- "):
                if paragraph:
                    flush()
                listed.append(line[2:])
            elif listed and line.startswith("  "):
                listed[-1] += " " + line.strip()
            elif line:
                if listed:
                    flush()
                paragraph.append(line)
            else:
                flush()
        flush()
        return "".join(parts)

    def first_sentence(self, docs):
        text = " ".join(docs).split("```")[0].replace("`", "")
        return re.split(r"(?<=[.:!?]) ", text.strip() + " ")[0] if text.strip() else ""

    def function(self, item, crate, anchor, owner):
        """A call: its signature, documentation and clauses."""
        signature, clauses = parts_of(item)
        self.index.append([f"{owner}::{item.name}" if owner else item.name, "fn", crate, f"{crate}.html#{anchor}", self.first_sentence(item.docs)])
        source = self.source(item.module.file, item.line)
        return (
            f'<section class="call" id="{anchor}"><a class="source" href="{source}">source</a>'
            f"<pre class='sig'>{self.code(signature, item.module, crate)}</pre>"
            f"{self.prose(item.docs, item.module, crate)}{self.proved(clauses, item.module)}</section>"
        )

    def ghosts(self, items):
        """What a type or trait has for contracts alone."""
        found = [item for item in items if item.kind == "ghost"]
        if not found:
            return ""
        words = {name: path for item in items if item.kind == "ghost use" for name, path in ghost_words(item).items()}
        told = "\n".join(self.clause("\n".join(line[item.indent :] for line in item.text), item.module, words) for item in found)
        return f'<details><summary>For contracts <span>{len(found)}</span></summary><pre class="clauses">{told}</pre></details>'

    def calls(self, items, crate, anchor, owner, all_public):
        return "".join(
            self.function(item, crate, f"{anchor}.{item.name}", owner)
            for item in items
            if item.kind == "fn" and (item.is_public or all_public)
        )

    def entry(self, one):
        """All of one exported item."""
        item, crate = one.item, one.crate
        self.here = None if item.kind == "fn" else one
        if item.kind == "fn":
            return self.function(item, crate, one.anchor, "")
        self.index.append([one.name, item.kind, crate, one.url, self.first_sentence(item.docs)])
        head = [f'<h3><span>{item.kind}</span> {one.name}<a class="source" href="{self.source(item.module.file, item.line)}">source</a></h3>']
        if item.kind == "trait":
            shape = "\n".join(line[item.indent :] for line in item.text[: next(at for at, line in enumerate(item.text) if line.endswith(("{", "}"))) + 1])
            kept = [inner for inner in item.inner if inner.kind in ("type", "const")]
            shape = re.sub(r"\s*\{\}?$", "", shape).removeprefix("pub ")
            shape += "".join("\n    " + " ".join(line.strip() for line in inner.text) for inner in kept)
        else:
            shape = shape_of(item)
        head.append(f'<pre class="sig">{self.code(shape, item.module, crate)}</pre>')
        where = f"Declared in <code>{item.module.crate.name}</code>. " if item.module.crate.name != crate else ""
        derived = item.is_derived()
        derives = f"Derives {', '.join(derived)}." if derived else ""
        head.append(self.prose(item.docs, item.module, crate))
        if where or derives:
            head.append(f'<p class="small">{where}{derives}</p>')
        body = []
        if item.kind == "trait":
            body += [self.ghosts(item.inner), self.calls(item.inner, crate, one.anchor, one.name, True)]
        else:
            own = [inner for inner in item.text if inner.strip().startswith("ghost ")]
            if item.kind == "struct" and own:
                told = "\n".join(self.clause(line.strip(), item.module) for line in own)
                body.append(f'<details><summary>What is proved <span>of each value</span></summary><pre class="clauses">{told}</pre></details>')
            body += self.impls(one)
        return f'<section class="item" id="{one.anchor}">{"".join(head + body)}</section>'

    def impls(self, one):
        """The calls of a type, and what it implements."""
        used_anchors = set()
        for impl, trait, text in sorted(impls_of(one.item), key=lambda found: bool(found[1])):
            anchor = one.anchor
            if trait:
                anchor = f"{one.anchor}.{WORD.search(trait).group(0)}"
                while anchor in used_anchors:
                    anchor += "_"
                used_anchors.add(anchor)
            shown = [inner for inner in impl.inner if inner.kind == "fn" and (inner.is_public or trait)]
            ghosts = self.ghosts(impl.inner)
            if not shown and not ghosts:
                if trait:
                    yield f'<p class="impl"><code>{self.code(text, impl.module, one.crate)}</code></p>'
                continue
            docs = self.prose(impl.docs, impl.module, one.crate)
            if trait:
                calls = "".join(self.function(inner, one.crate, f"{anchor}.{inner.name}", one.name) for inner in shown)
                yield (
                    f'<details class="of"><summary><code>{self.code(text, impl.module, one.crate)}</code></summary>'
                    f"{docs}{ghosts}{calls}</details>"
                )
            else:
                calls = ""
                for inner in shown:
                    name = f"{anchor}.{inner.name}"
                    while name in used_anchors:
                        name += "_"
                    used_anchors.add(name)
                    calls += self.function(inner, one.crate, name, one.name)
                yield f'<p class="impl"><code>{self.code(text, impl.module, one.crate)}</code></p>{docs}{ghosts}{calls}'

    def crate(self, name):
        """The page of a public crate."""
        of, body, nav = crate_of(name), [], []
        modules = []
        for one in self.shown[name]:
            if one.module not in modules:
                modules.append(one.module)
        for module in modules:
            here = [one for one in self.shown[name] if one.module is module]
            path = "::".join([name, *module.path])
            if module.path:
                body.append(f'<h2 id="mod.{"::".join(module.path)}">Module {path}</h2>{self.prose(module.docs, module, name)}')
                nav.append(f'<h4><a href="#mod.{"::".join(module.path)}">{path}</a></h4>')
            for kind in ORDER:
                ones = sorted((one for one in here if one.item.kind == kind), key=lambda one: one.name)
                if ones:
                    body.append(f"<h2>{TITLES[kind]}</h2>")
                    nav.append(f"<h5>{TITLES[kind]}</h5>" + "".join(f'<a href="#{one.anchor}">{one.name}</a>' for one in ones))
                    body += [self.entry(one) for one in ones]
        self.here = None
        lead = self.prose(of.modules[()].docs, of.modules[()], name)
        return page(name, f"<h1>{name}</h1>{lead}{''.join(body)}", "".join(nav))

    def first(self):
        """The first page."""
        rows = []
        for name in PUBLIC:
            docs = crate_of(name).modules[()].docs
            count = len(self.shown[name])
            rows.append(f'<h3><a href="{name}.html">{name}</a> <span>{count} items</span></h3>{self.prose(docs, crate_of(name).modules[()], name)}')
        lead = "<p>The public crates, from their sources. Each call's contract is folded under <i>What is proved</i>; its words lead to their definitions.</p>"
        return page("Bivrang", f"<h1>Bivrang</h1>{lead}{''.join(rows)}", "".join(f'<a href="{name}.html">{name}</a>' for name in PUBLIC))

    def source_page(self, file):
        lines = file.read_text(encoding="utf-8").split("\n")
        body = "".join(f'<span id="L{number}"><b>{number:4}</b> {html.escape(line, quote=False)}</span>' for number, line in enumerate(lines, 1))
        title = str(file.relative_to(ROOT))
        return page(title, f'<h1 class="path">{title}</h1><pre class="file">{body}</pre>', "", "../")

    def write(self, folder):
        (folder / "source").mkdir(parents=True, exist_ok=True)
        pages = {f"{name}.html": self.crate(name) for name in PUBLIC}
        pages["index.html"] = self.first()
        pages.update({f"source/{name}": self.source_page(file) for name, file in sorted(self.sources.items())})
        pages["search.js"] = f"const INDEX = {json.dumps(self.index, ensure_ascii=False)};\n{SEARCH}"
        pages["style.css"] = STYLE
        for name, text in pages.items():
            (folder / name).write_text(text, encoding="utf-8")
        return len(pages)


def page(title, body, nav, up=""):
    return (
        f'<!DOCTYPE html>\n<html lang="en"><head><meta charset="utf-8"><meta name="viewport" content="width=device-width">'
        f'<title>{html.escape(title)}</title><link rel="stylesheet" href="{up}style.css"></head><body>'
        f'<header><a class="home" href="{up}index.html">Bivrang</a>'
        f'<input id="search" type="search" placeholder="Search: / " aria-label="Search" autocomplete="off"></header>'
        f'<ol id="found" hidden></ol><div class="page">{f"<nav>{nav}</nav>" if nav else ""}<main>{body}</main></div>'
        f'<script>const UP = "{up}";</script><script src="{up}search.js"></script></body></html>\n'
    )


SEARCH = """
const field = document.getElementById("search"), list = document.getElementById("found");
function score(name, words) {
  const low = name.toLowerCase(), last = low.split("::").pop();
  if (!words.every((word) => low.includes(word))) return -1;
  const word = words[words.length - 1];
  return (last === word ? 300 : last.startsWith(word) ? 200 : last.includes(word) ? 100 : 0) - low.length;
}
function search() {
  const words = field.value.toLowerCase().split(/[\\s:.]+/).filter(Boolean);
  list.replaceChildren();
  list.hidden = !words.length;
  if (!words.length) return;
  const found = INDEX.map((row) => [Math.max(score(row[0], words), score(row[2] + "::" + row[0], words)), row])
    .filter(([points]) => points > -1000 && points !== -1).sort((a, b) => b[0] - a[0]).slice(0, 40);
  for (const [, [name, kind, crate, url, about]] of found) {
    const row = document.createElement("li"), link = document.createElement("a"), rest = document.createElement("span");
    link.href = UP + url;
    link.textContent = name;
    rest.textContent = " " + kind + " in " + crate + ". " + about;
    row.append(link, rest);
    list.append(row);
  }
  if (!found.length) list.append("Nothing is called so.");
}
field.addEventListener("input", search);
list.addEventListener("click", () => { list.hidden = true; });
document.addEventListener("keydown", (event) => {
  if (event.key === "/" && document.activeElement !== field) { event.preventDefault(); field.focus(); }
  if (event.key === "Escape") { field.value = ""; search(); field.blur(); }
});
const asked = new URLSearchParams(location.search).get("q");
if (asked) { field.value = asked; search(); }
function unfold() {
  const target = location.hash && document.getElementById(decodeURIComponent(location.hash.slice(1)));
  for (let at = target; at; at = at.parentElement) if (at.tagName === "DETAILS") at.open = true;
  if (target) target.scrollIntoView();
}
addEventListener("hashchange", unfold);
unfold();
"""

STYLE = """
:root { color-scheme: light dark; --ink: #1c1c1c; --soft: #5f5f5f; --line: #dedede; --page: #fff; --block: #f5f5f2; --link: #00558c; }
@media (prefers-color-scheme: dark) {
  :root { --ink: #e6e6e6; --soft: #a3a3a3; --line: #3a3a3a; --page: #171717; --block: #222; --link: #7cc0f0; }
}
* { box-sizing: border-box; }
html { scroll-padding-top: 4rem; }
body { font: 16px/1.5 system-ui, sans-serif; color: var(--ink); background: var(--page); margin: 0; }
a { color: var(--link); text-decoration: none; }
a:hover { text-decoration: underline; }
header { position: sticky; top: 0; z-index: 2; display: flex; gap: 1rem; align-items: center; padding: .6rem 1rem;
  background: var(--page); border-bottom: 1px solid var(--line); }
.home { font-weight: 700; color: var(--ink); }
#search { flex: 1; max-width: 36rem; font: inherit; padding: .3rem .6rem; color: inherit; background: var(--block);
  border: 1px solid var(--line); border-radius: .3rem; }
#found { position: fixed; z-index: 3; top: 3.4rem; left: 0; right: 0; max-height: 70vh; overflow: auto; margin: 0; padding: .5rem 1rem 1rem;
  background: var(--page); border-bottom: 2px solid var(--line); list-style: none; }
#found li { padding: .2rem 0; } #found span { color: var(--soft); }
.page { display: flex; max-width: 84rem; margin: 0 auto; }
nav { flex: 0 0 15rem; padding: 1rem; font-size: .9rem; position: sticky; top: 3.4rem; align-self: flex-start;
  max-height: calc(100vh - 3.4rem); overflow: auto; }
nav a { display: block; overflow: hidden; text-overflow: ellipsis; }
nav h4, nav h5 { margin: 1rem 0 .2rem; }
main { flex: 1; min-width: 0; padding: 1rem 1.5rem 6rem; }
h1 { font-size: 1.7rem; margin: .5rem 0; } h1.path { font: 600 1rem ui-monospace, monospace; }
h2 { font-size: 1.25rem; margin: 2.5rem 0 .8rem; border-bottom: 1px solid var(--line); padding-bottom: .2rem; }
h3 { font-size: 1.1rem; margin: 1.8rem 0 .5rem; } h3 span, summary span { color: var(--soft); font-weight: 400; font-size: .9em; }
code, pre { font: .86rem/1.45 ui-monospace, "DejaVu Sans Mono", monospace; }
pre { background: var(--block); padding: .6rem .8rem; overflow-x: auto; border-radius: .3rem; margin: .4rem 0; }
pre i { color: var(--soft); } pre.sig { font-weight: 600; } pre.sig i { font-weight: 400; }
p, ul { margin: .4rem 0; max-width: 46rem; }
.small { color: var(--soft); font-size: .9rem; }
.impl { margin-top: 1.2rem; color: var(--soft); max-width: none; overflow-x: auto; }
.call { margin: .8rem 0 1.2rem 1rem; position: relative; }
.source { float: right; font-size: .8rem; font-weight: 400; margin-left: .5rem; }
summary { cursor: pointer; color: var(--soft); } details.of { margin: .5rem 0; }
:target > pre.sig, :target > h3 { outline: 2px solid var(--link); }
.file { background: none; padding: 0; } .file b { color: var(--soft); font-weight: 400; user-select: none; }
.file span { display: block; } .file :target { background: var(--block); }
@media (max-width: 50rem) { nav { display: none; } main { padding: 1rem; } .call { margin-left: 0; } }
"""


# The check.


class Links(html.parser.HTMLParser):
    """The anchors of a page, and what it links to."""

    def __init__(self, text):
        super().__init__()
        self.anchors, self.links, self.twice = set(), [], []
        self.feed(text)

    def handle_starttag(self, tag, attributes):
        words = dict(attributes)
        if "id" in words:
            if words["id"] in self.anchors:
                self.twice.append(words["id"])
            self.anchors.add(words["id"])
        for name in ("href", "src"):
            if name in words:
                self.links.append(words[name])


def faults_of(folder):
    """Links that lead nowhere, anchors that are there twice, and results of the search that lead nowhere."""
    pages = {str(file.relative_to(folder)): Links(file.read_text(encoding="utf-8")) for file in folder.rglob("*.html")}
    searched = re.match(r"const INDEX = (.*);\n", (folder / "search.js").read_text(encoding="utf-8")).group(1)
    wanted = [("search.js", "", row[3]) for row in json.loads(searched)]
    wanted += [(name, str(pathlib.PurePosixPath(name).parent), link) for name, found in pages.items() for link in found.links]
    for name, base, link in wanted:
        file, _, anchor = link.partition("#")
        target = str(pathlib.PurePosixPath(base) / file) if file else name
        target = target.replace("source/../", "")
        if not (folder / target).exists():
            yield f"{name}: {link} is not there"
        elif anchor and anchor not in pages[target].anchors:
            yield f"{name}: {link} has no such place"
    for name, found in pages.items():
        yield from (f"{name}: {anchor} stands for two places" for anchor in found.twice)


def check():
    with tempfile.TemporaryDirectory() as folder:
        pages = Pages()
        count = pages.write(pathlib.Path(folder))
        faults = list(faults_of(pathlib.Path(folder)))
    for fault in faults[:40]:
        print(f"api_docs: {fault}", file=sys.stderr)
    print(f"api_docs: {count} files, {len(pages.index)} names, {len(faults)} faults")
    sys.exit(bool(faults))


def main():
    if sys.argv[1:] == ["--check"]:
        check()
    elif len(sys.argv) == 2 and not sys.argv[1].startswith("-"):
        Pages().write(pathlib.Path(sys.argv[1]))
    else:
        sys.exit(__doc__)


if __name__ == "__main__":
    main()
