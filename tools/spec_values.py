"""Computes closed rows of specs, without the prover: equations of functions on lists, options, numbers and records become Python.

It knows what the definitions of audit_model and engine_reference and the rows over them are written with, and nothing of proofs, of
relations with premises, or of types. What it cannot read has no value. So it decides nothing by itself: tools/wrong_definitions.py asks
it only for rows that the prover proves, and it has to find each of them true of the definitions as they are.
"""

import functools
import os
import re

# A token: a text, a number, a name with its projections, a projection, an operator.
TOKEN = re.compile(
    r'\s*(?:("(?:[^"\\]|\\.)*")|(0x[0-9A-Fa-f_]+|\d+)|([A-Za-z_][\w\'-]*(?:\.[A-Za-z0-9_][\w\'-]*)*)|(\.[0-9a-z_]\w*)|(\+\+|&&|\|\||==|\S))'
)
WORDS = {"λ", "let", "in", "if", "then", "else", "record", "where", "elim"}
OPEN, SHUT = ("(", "[", "{"), (")", "]", "}")
# What binds how tightly, to which side, and what it is in Python.
OPERATORS = {
    "×": (1, "r", "({0} and {1})"), "||": (2, "r", "({0} or {1})"), "&&": (3, "r", "({0} and {1})"), "≡": (4, "n", "({0} == {1})"),
    "==": (5, "n", "({0} == {1})"), "∷": (6, "r", "(({0},) + {1})"), "++": (6, "r", "({0} + {1})"), "+": (7, "l", "({0} + {1})"),
    "-": (7, "l", "max(0, {0} - {1})"), "*": (8, "l", "({0} * {1})"), "/": (8, "l", "({0} // {1})"), "%": (8, "l", "({0} % {1})"),
    "^": (9, "r", "({0} ** {1})"),
}
NONE = ("None",)


class Function:
    """A function of so many arguments, which may get them one by one."""

    def __init__(self, count, call):
        self.count, self.call = count, call


def apply(function, *args):
    while args:
        if len(args) < function.count:
            it, given = function, args
            return Function(it.count - len(given), lambda *rest: it.call(*given, *rest))
        function, args = function.call(*args[:function.count]), args[function.count:]
    return function


def some(value):
    return ("Some", value)


def of_option(option, none, call):
    return none if option == NONE else call(option[1])


def fold(function, value, items):
    for it in items:
        value = apply(function, value, it)
    return value


def order(a, b):
    return (a > b) - (a < b)


# The words of std.
STD = {"true": True, "false": False, "zero": 0}
for words in (
    (1, {
        "Some": some, "Ok": lambda x: ("Ok", x), "Err": lambda x: ("Err", x), "suc": lambda n: n + 1, "not": lambda b: not b, "length": len,
        "is_some": lambda o: o != NONE, "is_none": lambda o: o == NONE, "codes": lambda s: tuple(s.encode()), "is_lt": lambda o: o < 0,
        "decimal": lambda n: tuple(str(n).encode()), "concat": lambda xs: sum(xs, ()), "option_to_list": lambda o: o[1:],
    }),
    (2, {
        "nat_le": lambda a, b: a <= b, "nat_lt": lambda a, b: a < b, "nat_eq": lambda a, b: a == b, "max": max, "min": min,
        "bytes_eq": lambda a, b: a == b, "beq": lambda a, b: a == b, "nat_cmp": order, "replicate": lambda n, x: (x,) * n,
        "take": lambda n, xs: xs[:n], "drop": lambda n, xs: xs[n:], "remove": lambda xs, n: xs[:n] + xs[n + 1:],
        "slice_get": lambda xs, n: some(xs[n]) if n < len(xs) else NONE, "slice_index": lambda xs, n: xs[n] if n < len(xs) else 0,
        "list_all": lambda f, xs: all(apply(f, it) for it in xs), "list_any": lambda f, xs: any(apply(f, it) for it in xs),
        "filter": lambda f, xs: tuple(it for it in xs if apply(f, it)), "map": lambda f, xs: tuple(apply(f, it) for it in xs),
        "find": lambda f, xs: next((some(it) for it in xs if apply(f, it)), NONE), "flat_map": lambda f, xs: sum((apply(f, it) for it in xs), ()),
        "filter_map": lambda f, xs: tuple(found[1] for it in xs if (found := apply(f, it)) != NONE),
        "sum_by": lambda f, xs: sum(apply(f, it) for it in xs), "count_by": lambda f, xs: sum(bool(apply(f, it)) for it in xs),
        "option_map": lambda f, o: of_option(o, NONE, lambda x: some(apply(f, x))), "option_and_then": lambda f, o: of_option(o, NONE, lambda x: apply(f, x)),
        "option_or": lambda a, b: b if a == NONE else a, "unwrap_or": lambda o, x: of_option(o, x, lambda y: y),
        "digits_value": lambda base, word: fold(Function(2, lambda n, d: n * base + d - 48), 0, word),
    }),
    (3, {
        "option_map_or": lambda f, o, x: of_option(o, x, lambda y: apply(f, y)), "fold": fold,
        "option_eq": lambda f, a, b: a == b == NONE or (NONE not in (a, b) and apply(f, a[1], b[1])),
        "starts_with": lambda eq, xs, front: xs[:len(front)] == front, "slice_cmp": lambda cmp, a, b: order(a, b),
        "pointwise": lambda f, xs, ys: len(xs) == len(ys) and all(apply(f, x, y) for x, y in zip(xs, ys)),
        "slice_set": lambda xs, n, x: xs[:n] + (x,) + xs[n + 1:] if n < len(xs) else xs,
    }),
):
    STD.update({name: Function(words[0], call) for name, call in words[1].items()})


class Token:
    def __init__(self, text, kind, line, column):
        self.text, self.kind, self.line, self.column = text, kind, line, column


@functools.cache
def tokens_of(text):
    text = re.sub(r"--[^\n]*", "", text)
    found, at, line = [], 0, 1
    while it := TOKEN.match(text, at):
        kind = it.lastindex
        start = it.start(kind)
        line += text.count("\n", at, start)
        found.append(Token(it[kind], "snip o".replace(" ", "")[kind - 1], line, start - text.rfind("\n", 0, start) - 1))
        at = it.end()
    return found


def at_top(tokens, texts):
    """The place of the first of these texts that is in no brackets, or the number of tokens."""
    depth = 0
    for place, it in enumerate(tokens):
        if depth == 0 and it.text in texts:
            return place
        depth += (it.text in OPEN) - (it.text in SHUT)
    return len(tokens)


def items_of(tokens, level):
    """Splits tokens where a line begins at this column or before, in no brackets."""
    items, line, depth = [], -1, 0
    for it in tokens:
        if not items or (it.line != line and it.column <= level and depth == 0):
            items.append([])
        depth += (it.text in OPEN) - (it.text in SHUT)
        items[-1].append(it)
        line = it.line
    return items


def mangled(name):
    return "v_" + name.replace("-", "_h_").replace("'", "_q_")


class Scope:
    """What names mean in a module: functions, constructors, short names of types, and the parameters of functions beside them."""

    def __init__(self):
        self.functions, self.makers, self.types, self.beside = {}, {name: name for name in ("None", "Some", "Ok", "Err")}, {}, {}


class Reader:
    """Reads tokens as expressions and as patterns."""

    def __init__(self, tokens, scope, local):
        self.tokens, self.at, self.scope, self.local = tokens, 0, scope, local

    def peek(self):
        return self.tokens[self.at] if self.at < len(self.tokens) else Token("", "", 0, 0)

    def next(self):
        self.at += 1
        return self.tokens[self.at - 1]

    def eat(self, text):
        if self.next().text != text:
            raise ValueError(f"not `{text}`")

    def whole(self):
        it = self.expression()
        if self.at < len(self.tokens):
            raise ValueError(f"`{self.peek().text}` is left")
        return it

    def within(self, names):
        before, self.local = self.local, self.local | set(names)
        body = self.expression()
        self.local = before
        return body

    def expression(self):
        word = self.peek().text
        if word == "λ":
            self.next()
            names = []
            while self.peek().text != ".":
                names.append(self.next().text)
            self.next()
            return f"Function({len(names)}, lambda {', '.join(map(mangled, names))}: {self.within(names)})"
        if word == "let":
            self.next()
            name = self.next().text
            self.eat("=")
            value = self.expression()
            self.eat("in")
            return f"(lambda {mangled(name)}: {self.within([name])})({value})"
        if word == "if":
            self.next()
            test = self.expression()
            self.eat("then")
            yes = self.expression()
            self.eat("else")
            return f"({yes} if {test} else {self.expression()})"
        return self.operation(0)

    def operation(self, least):
        left = self.application()
        while (it := OPERATORS.get(self.peek().text)) and it[0] >= least:
            self.next()
            right = self.expression() if self.peek().text in ("λ", "let", "if") else self.operation(it[0] + (it[1] != "r"))
            left = it[2].format(left, right)
        return left

    def is_atom(self):
        it = self.peek()
        return it.kind in ("s", "n") or it.text in ("(", "[") or (it.kind == "i" and (it.text not in WORDS or it.text in ("record", "elim")))

    def application(self):
        head, function, args = self.peek().text, self.atom(), []
        while self.is_atom():
            args.append(self.atom())
        if self.peek().text == "λ":
            args.append(self.expression())
        if head == "cond" and len(args) == 3:
            return f"({args[1]} if {args[0]} else {args[2]})"
        return f"apply({', '.join([function, *args])})" if args else function

    def fields(self):
        self.eat("{")
        found = []
        while self.peek().text != "}":
            name = self.next().text
            self.eat("=")
            found.append(f"{name!r}: {self.expression()}")
            if self.peek().text == ";":
                self.next()
        self.eat("}")
        return f"{{{', '.join(found)}}}"

    def projected(self, value):
        while self.peek().kind == "p":
            value = self.project(value, self.next().text[1:].split("."))
        return value

    @staticmethod
    def project(value, names):
        return value + "".join(f"[{it}]" if it.isdigit() else f"[{it!r}]" for it in names)

    def named(self, text):
        head, *rest = text.split(".")
        if head in self.local:
            value = mangled(head)
        elif head in self.scope.types and rest:
            value = f"maker({self.scope.types[head] + '.' + rest.pop(0)!r})"
        elif head in self.scope.makers:
            value = f"maker({self.scope.makers[head]!r})"
        elif head in self.scope.functions:
            value = self.scope.functions[head]
            if self.scope.beside.get(head):
                value = f"apply({', '.join([value, *map(mangled, self.scope.beside[head])])})"
        else:
            value = f"STD[{head!r}]"
        return self.project(value, rest)

    def atom(self):
        it = self.next()
        if it.text == "record":
            value = self.fields() if self.peek().text == "{" else f"{{**{self.atom()}, **{self.fields()}}}"
        elif it.text == "elim":
            test = self.atom()
            self.eat("[")
            cases = {}
            while self.peek().text != "]":
                if self.peek().text == "|":
                    self.next()
                name = self.next().text
                self.eat("↦")
                cases[name] = self.expression()
            self.eat("]")
            value = f"({cases['true']} if {test} else {cases['false']})"
        elif it.kind == "s":
            value = it.text
        elif it.kind == "n":
            value = str(int(it.text.replace("_", ""), 0))
        elif it.kind == "i":
            value = self.named(it.text)
        elif it.text == "(":
            parts = [self.expression()]
            while self.peek().text == ",":
                self.next()
                parts.append(self.expression())
            self.eat(")")
            value = parts.pop()
            for part in reversed(parts):
                value = f"({part}, {value})"
            value = f"({value})"
        elif it.text == "[":
            self.eat("]")
            value = "()"
        else:
            raise ValueError(f"`{it.text}`")
        return self.projected(value)

    # ---- patterns: what has to be true of a value, and which names it binds

    def sub(self, start, end, value):
        return Reader(self.tokens[start:end], self.scope, self.local).pattern(value)

    def skip(self):
        start = self.at
        depth = 0
        while True:
            text = self.next().text
            depth += (text in OPEN) - (text in SHUT)
            if depth == 0:
                return start, self.at

    def tag(self, text):
        head, _, rest = text.partition(".")
        return f"{self.scope.types[head]}.{rest}" if rest and head in self.scope.types else self.scope.makers.get(text)

    def pattern(self, value):
        """A pattern that takes all tokens that are left, outside of which no brackets stand."""
        cut = self.at + at_top(self.tokens[self.at:], ("∷", ","))
        if cut < len(self.tokens):
            first, rest = ("[0]", "[1:]") if self.tokens[cut].text == "∷" else ("[0]", "[1]")
            tests = [f"len({value}) > 0"] if self.tokens[cut].text == "∷" else []
            a, b = self.sub(self.at, cut, value + first), self.sub(cut + 1, len(self.tokens), value + rest)
            return tests + a[0] + b[0], a[1] + b[1]
        it = self.peek()
        if it.text == "(" and self.skip()[1] == len(self.tokens):
            return self.sub(1, len(self.tokens) - 1, value)
        self.at = 0
        it = self.next()
        if it.text == "[":
            return [f"len({value}) == 0"], []
        if it.kind == "n":
            return [f"{value} == {it.text}"], []
        if it.text == "_":
            return [], []
        if it.text in ("true", "false"):
            return [f"{value} is {it.text == 'true'}"], []
        if it.text == "zero":
            return [f"{value} == 0"], []
        if it.text == "suc":
            tests, names = self.sub(*self.skip(), f"({value} - 1)")
            return [f"{value} > 0", *tests], names
        tag = self.tag(it.text)
        if tag is None:
            return [], [(it.text, value)]
        tests, names, place = [f"{value}[0] == {tag!r}"], [], 0
        while self.at < len(self.tokens):
            place += 1
            more = self.sub(*self.skip(), f"{value}[{place}]")
            tests, names = tests + more[0], names + more[1]
        return tests, names


@functools.cache
def enums_of(folder):
    """How many values each constructor of a crate's enums has, by its name with that of its type."""
    found = {}
    for at, _, files in os.walk(folder):
        for name in files:
            with open(os.path.join(at, name), encoding="utf-8") as file:
                text = re.sub(r"//[^\n]*|#\[[^\]]*\]", "", file.read())
            for enum in re.finditer(r"pub enum (\w+)[^{]*\{((?:[^{}]|\{[^{}]*\})*)\}", text):
                for it in re.finditer(r"(\w+)\s*(?:\(((?:[^()]|\([^()]*\))*)\)|\{([^}]*)\})?\s*(?:,|$)", enum[2]):
                    parts = re.sub(r"<[^<>]*>|\([^()]*\)", "", it[2] or it[3] or "")
                    found[f"{enum[1]}.{it[1]}"] = len([part for part in parts.split(",") if part.strip()])
    return found


class Module:
    """What a module declares: what its names mean, the code of its functions, the fields of its records, and which modules it uses."""

    def __init__(self):
        self.scope, self.codes, self.records, self.counts, self.used = Scope(), {}, {}, {}, []


# The modules that were read, by their crate, path and text: the code of one depends on the names of others alone.
READ = {}


class Specs:
    """The modules of a crate, and what their closed expressions come to."""

    def __init__(self, crate, texts, enums, known=None):
        """`texts` has the modules of the crate by their paths, and those of crates below by paths that begin with the crate's name; `known`
        has functions in place of definitions that mean the same, but take long."""
        self.known = known or {}
        self.crate, self.texts, self.modules, self.made = crate, texts, {}, {}
        self.counts = {**enums, "None": 0, "Some": 1, "Ok": 1, "Err": 1}
        self.names = {"apply": apply, "Function": Function, "STD": STD, "maker": self.maker, "value": self.value}

    def maker(self, tag):
        count = self.counts[tag]
        return Function(count, lambda *args: (tag, *args)) if count else (tag,)

    def value(self, key):
        """What a definition is: a function, or the value of one without arguments."""
        if key not in self.made:
            codes = self.modules[key[0]].codes
            count, code = self.known.get(key) or codes[key[1]]
            if code is None:
                raise ValueError(f"{key} cannot be read")
            if isinstance(code, str):
                code = compile(code, str(key), "exec")
                codes[key[1]] = count, code
            if not isinstance(code, Function):
                local = {}
                exec(code, self.names, local)
                code = Function(count, local["it"]) if count else local["it"]()
            self.made[key] = code
        return self.made[key]

    def module(self, words):
        if words in self.modules:
            return self.modules[words].scope
        text = self.texts[words]
        kept = READ.get((self.crate, words, text))
        if kept:
            self.modules[words] = kept
            self.counts.update(kept.counts)
            for it in kept.used:
                self.module(it)
            return kept.scope
        module = self.modules[words] = Module()
        scope = module.scope
        for line in re.findall(r"^(?:pub )?use (.*)$", text, re.M):
            it = re.match(r"Rattle\.(\w+)\.specs\.([\w.]+?)(?:\.\{([^}]*)\}| as (\w+))$", line)
            if it:
                self.use(module, it[1], tuple(it[2].split(".")), [name.strip() for name in (it[3] or "").split(",")], it[4])
        self.read(words, tokens_of(re.sub(r"^(?:pub )?use .*$", "", text, flags=re.M)), 0, scope, [])
        READ[self.crate, words, text] = module
        return scope

    def use(self, module, crate, path, names, short):
        scope = module.scope
        if path[-1] == "TheVariants":
            if short:
                scope.types[short] = path[-2]
            scope.makers.update({name: f"{path[-2]}.{name}" for name in names if name})
            return
        key = path if crate == self.crate else (crate, *path)
        if key in self.texts:
            other = self.module(key)
            module.used.append(key)
            for name in names:
                if name in other.makers:
                    scope.makers[name] = other.makers[name]
                elif name in other.functions:
                    scope.functions[name] = other.functions[name]

    def read(self, module, tokens, level, scope, parameters):
        """Reads the declarations of a module, or of a part of it whose functions have parameters."""
        equations = {}
        for item in items_of(tokens, level):
            while item[0].text in ("pub", "abbrev", "unfoldable"):
                item = item[1:]
            texts = [it.text for it in item]
            inner = item[texts.index("where") + 1:] if "where" in texts else []
            if texts[0] == "module":
                more = [name for group in re.findall(r"\( ([^()]*?) : ", " ".join(texts[:texts.index("where")])) for name in group.split()]
                self.read(module, inner, inner[0].column if inner else 0, scope, parameters + more)
            elif texts[0] == "data":
                for it in items_of(inner, inner[0].column) if inner else []:
                    self.read_makers(it, self.modules[module])
            elif texts[0] == "record":
                self.modules[module].records[texts[1]] = items_of(inner, inner[0].column) if inner else []
            else:
                cut = at_top(item, (":", "="))
                if cut < len(item) and item[cut].text == ":":
                    equations[texts[0]] = []
                    scope.functions[texts[0]] = f"value({(module, texts[0])!r})"
                    scope.beside[texts[0]] = parameters
                elif cut < len(item):
                    equations.setdefault(texts[0], []).append(item)
        for name, those in equations.items():
            if those:
                try:
                    self.modules[module].codes[name] = self.function("it", those, scope, parameters, set(), 0)[::-1]
                except (ValueError, IndexError, KeyError):
                    self.modules[module].codes[name] = 0, None
        for name in equations:
            scope.beside.pop(name, None)

    def read_makers(self, item, module):
        """A line of constructors, with what each is made of."""
        cut = at_top(item, (":",))
        count, segment = 0, []
        for it in item[cut + 1:]:
            if it.text == "→" and at_top([*segment, it], ("→",)) == len(segment):
                groups = re.findall(r"\(([^()]*?) :", " ".join(part.text for part in segment).replace("( ", "("))
                count += sum(len(group.split()) for group in groups) or 1
                segment = []
            else:
                segment.append(it)
        for it in item[:cut]:
            module.scope.makers[it.text] = it.text
            module.counts[it.text] = self.counts[it.text] = count

    def function(self, name, equations, scope, parameters, local, depth):
        """The text of a Python function of these equations, and how many arguments it has."""
        lines, count = [], 0
        for item in equations:
            cut = at_top(item, ("=",))
            left, right = item[1:cut], item[cut + 1:]
            cut = at_top(right, ("where",))
            right, inner = right[:cut], right[cut + 1:]
            reader, tests, bound, count = Reader(left, scope, local), [], [], 0
            while reader.at < len(left):
                more = reader.sub(*reader.skip(), f"a{depth}_{count}")
                tests, bound, count = tests + more[0], bound + more[1], count + 1
            inside = local | set(parameters) | {it for it, _ in bound}
            lines.append(f"if {' and '.join(tests) or 'True'}:")
            lines += [f"    {mangled(it)} = {value}" for it, value in bound]
            helpers = {}
            for it in items_of(inner, inner[0].column) if inner else []:
                if it[at_top(it, (":", "="))].text == ":":
                    helpers[it[0].text] = []
                else:
                    helpers[it[0].text].append(it)
            inside |= set(helpers)
            for helper, those in helpers.items():
                code, many = self.function(f"of_{mangled(helper)}", those, scope, [], inside, depth + 1)
                lines += [f"    {line}" for line in code.split("\n")]
                lines.append(f"    {mangled(helper)} = " + (f"Function({many}, of_{mangled(helper)})" if many else f"of_{mangled(helper)}()"))
            lines.append(f"    return {Reader(right, scope, inside).whole()}")
        args = [*map(mangled, parameters), *(f"a{depth}_{it}" for it in range(count))]
        code = "\n".join([f"def {name}({', '.join(args)}):", *(f"    {line}" for line in lines), "    raise ValueError('no case')"])
        return code, len(args)

    def rows(self, module, record):
        """The fields of a record of rows, each with whether it is true, or None where that cannot be computed."""
        scope = self.module(module)
        for item in self.modules[module].records[record]:
            item = item[item[0].text == "pub":]
            try:
                yield item[0].text, bool(eval(Reader(item[2:], scope, set()).whole(), self.names))
            except (ValueError, IndexError, KeyError, TypeError, AttributeError):
                yield item[0].text, None
