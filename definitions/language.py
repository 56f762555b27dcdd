"""Runs the text of the definitions, crates/NAME/specs/FILE.antt, as it stands: no proof and no code of the store is between.

What is read of the language is what the definitions use: clauses over numbers, lists and constructors, `record`, `do`, `let`,
functions without names, modules with parameters. Types are skipped. Numbers are ints, lists Python lists, texts strings, records dicts
by field, constructors tuples that begin with their name. The kit's own functions, which the definitions are written in, are the
table LIBRARY: that, and this file, is what is believed here."""
import os
import re

CRATES = os.path.join(os.path.dirname(os.path.dirname(os.path.abspath(__file__))), "crates")

# ---- values


class Function:
    """A function of `arity` arguments, some of which may be given already."""

    __slots__ = ("arity", "body", "given")

    def __init__(self, arity, body, given=()):
        self.arity, self.body, self.given = arity, body, given


def apply(function, *arguments):
    for argument in arguments:
        given = function.given + (argument,)
        function = function.body(*given) if len(given) == function.arity else Function(function.arity, function.body, given)
    return function


def constructor(name, arity):
    return (name,) if arity == 0 else Function(arity, lambda *arguments: (name,) + arguments)


def replaced(items, place, item):
    return items[:place] + [item] + items[place + 1 :] if place < len(items) else items


# Rattle.std.specs.Prelude and Int.Bits, Prim.Native.Char
LIBRARY = {
    "true": True,
    "false": False,
    "tt": ("tt",),
    "zero": 0,
    "suc": Function(1, lambda n: n + 1),
    "not": Function(1, lambda b: not b),
    "leb": Function(2, lambda a, b: a <= b),
    "ltb": Function(2, lambda a, b: a < b),
    "eqb": Function(2, lambda a, b: a == b),
    "min": Function(2, min),
    "max": Function(2, max),
    "bit_xor": Function(2, lambda a, b: a ^ b),
    "differ": Function(2, lambda a, b: abs(a - b)),
    "length": Function(1, len),
    "take": Function(2, lambda n, items: items[:n]),
    "drop": Function(2, lambda n, items: items[n:]),
    "get_or": Function(3, lambda items, n, otherwise: items[n] if n < len(items) else otherwise),
    "set": Function(3, replaced),
    "replicate": Function(2, lambda n, item: [item] * n),
    "code": Function(1, ord),
    "map": Function(2, lambda f, items: [apply(f, item) for item in items]),
    "Some": constructor("Some", 1),
    "None": constructor("None", 0),
    "Ok": constructor("Ok", 1),
    "Err": constructor("Err", 1),
}
# those of them that a pattern may name
CASES = ("true", "false", "tt", "zero", "suc", "Some", "None", "Ok", "Err")
OPERATORS = {
    "+": lambda a, b: a + b,
    "-": lambda a, b: max(a - b, 0),
    "*": lambda a, b: a * b,
    "/": lambda a, b: a // b if b else 0,
    "%": lambda a, b: a % b if b else a,
    "^": lambda a, b: a**b,
    "++": lambda a, b: a + b,
    "∷": lambda a, b: [a] + b,
}
# how strongly each binds, and to which side
BINDING = {
    ">>=": (20, "left"),
    "||": (30, "right"),
    "&&": (35, "right"),
    "+": (65, "left"),
    "-": (65, "left"),
    "++": (65, "right"),
    "∷": (67, "right"),
    "*": (70, "left"),
    "/": (70, "left"),
    "%": (70, "left"),
    "^": (75, "right"),
}

# ---- words

WORD = re.compile(
    r"""(?P<space>[ \t]+) | (?P<line>\n) | (?P<comment>--[^\n]*)
    | (?P<text>"(?:[^"\\]|\\.)*")
    | (?P<number>0x[0-9A-Fa-f]+ | \d+(?!\w))
    | (?P<field>(?<=[\w')\]»])\.(?:«[^»]*»|\w[\w']*))
    | (?P<operator>>>=|\+\+|&&|\|\||∷|←|→|[-+*/%^=;{}(),:×λ.\[\]≡≤<])
    | (?P<name>«[^»]*»|◌>>=◌|[^\W\d][\w']*|_)""",
    re.X,
)


class Word:
    __slots__ = ("kind", "text", "column", "first")

    def __init__(self, kind, text, column, first):
        self.kind, self.text, self.column, self.first = kind, text, column, first


def words_of(text):
    words, at, line_start, first = [], 0, 0, True
    while at < len(text):
        match = WORD.match(text, at)
        if not match:
            raise SyntaxError(text[at : at + 60])
        kind, found = match.lastgroup, match.group()
        if kind == "line":
            line_start, first = match.end(), True
        elif kind not in ("space", "comment"):
            if kind == "number":
                found = int(found, 0)
            elif kind == "text":
                found = found[1:-1].replace("\\n", "\n")
            elif kind == "field":
                found = found[1:].strip("«»")
            elif kind == "name":
                found = found.strip("«»")
            words.append(Word(kind, found, at - line_start, first))
            first = False
        at = match.end()
    return words


# ---- expressions


class Reader:
    """Reads one clause. A word that begins a line at or left of `margin` ends the expression."""

    def __init__(self, words):
        self.words, self.at, self.margin = words, 0, [-1]

    def peek(self):
        if self.at == len(self.words):
            return None
        word = self.words[self.at]
        return None if word.first and word.column <= self.margin[-1] else word

    def next(self):
        self.at += 1
        return self.words[self.at - 1]

    def sees(self, text):
        word = self.peek()
        return word is not None and word.kind in ("operator", "name") and word.text == text

    def take(self, text):
        if not self.sees(text):
            raise SyntaxError(f"{text} expected, at {[w.text for w in self.words[self.at:self.at + 6]]}")
        return self.next()

    def expression(self, strength=0):
        left = self.application()
        while True:
            word = self.peek()
            if word is None or word.kind != "operator" or word.text not in BINDING or BINDING[word.text][0] < strength:
                return left
            own, side = BINDING[self.next().text]
            left = ("operator", word.text, left, self.expression(own + 1 if side == "left" else own))

    def begins_atom(self):
        word = self.peek()
        return word is not None and (
            word.kind in ("number", "text") or (word.kind == "name" and word.text != "in") or (word.kind == "operator" and word.text in "(λ[")
        )

    def application(self):
        left = self.projection()
        while self.begins_atom():
            left = ("apply", left, self.projection())
        return left

    def sees_field(self):
        word = self.peek()
        return word is not None and word.kind == "field"

    def projection(self):
        """An atom with the fields that are written to it: `r.f`, `(g x).f`; `Cases.Case` too."""
        left = self.atom()
        while self.sees_field():
            left = ("field", left, str(self.next().text))
        return left

    def atom(self):
        word = self.next()
        if word.kind in ("number", "text"):
            return ("value", word.text)
        if word.text == "(":
            self.margin.append(-1)
            parts = [self.expression()]
            while self.sees(","):
                self.next()
                parts.append(self.expression())
            self.margin.pop()
            self.take(")")
            return parts[0] if len(parts) == 1 else ("record", {str(i): part for i, part in enumerate(parts)})
        if word.text == "[":
            self.take("]")
            return ("value", [])
        if word.text == "λ":
            names = []
            while not self.sees("."):
                names.append(self.next().text)
            self.next()
            return ("function", names, self.expression())
        if word.text == "do":
            return self.steps()
        if word.text == "let":
            name = self.next().text
            while not self.sees("="):
                self.next()
            self.next()
            value = self.expression()
            self.take("in")
            return ("let", name, value, self.expression())
        if word.text == "record":
            return self.fields()
        if word.kind != "name":
            raise SyntaxError(str(word.text))
        return ("name", word.text)

    def fields(self):
        self.take("{")
        self.margin.append(-1)
        fields = {}
        while not self.sees("}"):
            name = str(self.next().text)
            self.take("=")
            fields[name] = self.expression()
            if self.sees(";"):
                self.next()
        self.margin.pop()
        self.take("}")
        return ("record", fields)

    def steps(self):
        """The lines of a `do`, all at one column, each bound to the next."""
        column, steps = self.words[self.at].column, []
        while self.at < len(self.words) and self.words[self.at].first and self.words[self.at].column == column:
            self.margin.append(column)
            self.words[self.at].first = False
            bound = None
            if self.at + 1 < len(self.words) and self.words[self.at + 1].text == "←":
                bound = self.next().text
                self.next()
            steps.append((bound, self.expression()))
            self.margin.pop()
        result = steps[-1][1]
        for bound, step in reversed(steps[:-1]):
            result = ("operator", ">>=", step, ("function", [bound], result))
        return result

    def pattern(self):
        word = self.next()
        if word.kind == "number":
            return ("value", word.text)
        if word.text == "[":
            self.take("]")
            return ("value", [])
        if word.text == "(":
            pattern = self.wide_pattern()
            self.take(")")
            return pattern
        name = word.text
        while self.sees_field():
            name += "." + self.next().text
        return ("name", name, [])

    def wide_pattern(self):
        left = self.pattern()
        if left[0] == "name":
            parts = []
            while not self.sees(")") and not self.sees("∷") and not self.sees("then"):
                parts.append(self.pattern())
            left = ("name", left[1], left[2] + parts)
        if self.sees("∷") or self.sees("then"):
            self.next()
            return ("cons", left, self.wide_pattern())
        return left


# ---- modules

MODULES = {}


class Module:
    def __init__(self, crate, name):
        self.crate, self.name = crate, name
        self.values, self.constructors, self.others = {}, set(), {}

    def find(self, name):
        if name in self.values:
            return self.values[name]
        if name in LIBRARY:
            return LIBRARY[name]
        raise NameError(f"{self.crate}/{self.name}: {name}")

    def constructor_named(self, name):
        if name in self.constructors or name in CASES:
            return name
        if "." in name:
            front, rest = name.split(".", 1)
            return rest if front in self.others else None
        return None


def variants(crate, enum):
    """The cases of an enum that a crate's source declares, with how many values each has."""
    folder = os.path.join(CRATES, crate, "src")
    for name in sorted(os.listdir(folder)):
        found = re.search(r"enum %s \{(.*?)\n\}" % enum, open(os.path.join(folder, name), encoding="utf-8").read(), re.S)
        if found:
            text = re.sub(r"//[^\n]*", "", found.group(1))
            return {case: len([v for v in values.split(",") if v.strip()]) for case, values in re.findall(r"(\w+)(?:\(([^)]*)\))?(?: = \d+)?,", text)}
    raise NameError(f"{crate} declares no enum {enum}")


def declarations(text):
    """The declarations of a file, each with the parameters of the module that it stands in."""
    parameters, column, found = [], 0, []
    for line in text.split("\n"):
        stripped = line.strip()
        if not stripped or stripped.startswith("--"):
            continue
        indent = len(line) - len(line.lstrip())
        if stripped.startswith("module _"):
            parameters, column = re.findall(r"\((\w+) :", line), indent + 2
        elif indent == column or indent == 0:
            if indent == 0:
                parameters, column = [], 0
            found.append((parameters, line))
        else:
            found[-1] = (found[-1][0], found[-1][1] + "\n" + line)
    return found


def load(crate, name):
    if (crate, name) in MODULES:
        return MODULES[crate, name]
    module = MODULES[crate, name] = Module(crate, name)
    clauses, types = {}, set()
    path = os.path.join(CRATES, crate, "specs", name + ".antt")
    for parameters, text in declarations(open(path, encoding="utf-8").read()):
        text = text if text[0] != " " else "\n".join(line[2:] for line in text.split("\n"))
        if re.match(r"(pub )?use ", text):
            take_up(module, text)
        elif text.startswith("pub data "):
            add_constructors(module, text)
        elif re.match(r"(abbrev |unfoldable )?(pub )?\S+ :", text):
            if re.search(r"Type \d$", text):
                types.add(re.match(r"(?:abbrev |unfoldable )?(?:pub )?(\S+) :", text).group(1))
        elif not text.startswith(("pub record ", "record ", "infix", "pub mod ")):
            defined = text.split(None, 1)[0].strip("«»")
            if defined not in types:
                clauses.setdefault(defined, (parameters, []))[1].append(text)
    inside = {defined for defined, (parameters, _) in clauses.items() if parameters}
    for defined, (parameters, texts) in clauses.items():
        define(module, defined, parameters, inside, [clause(text) for text in texts])
    return module


def take_up(module, text):
    path, names, alias = re.match(r"(?:pub )?use (\S+?)(?:\.\{(.*)\})?(?: as (\w+))?$", text, re.S).groups()
    found = re.match(r"Rattle\.(\w+)\.specs\.(.*)$", path)
    if not found or found[1] == "std":
        return
    crate, rest = found.groups()
    parts = rest.split(".")
    if parts[0] == "declared":
        if len(parts) < 3:
            return
        cases = variants(crate, parts[1])
        values, own = {case: constructor(case, arity) for case, arity in cases.items()}, set(cases)
    else:
        other = load(crate, rest)
        values, own = other.values, other.constructors
    if alias:
        module.others[alias] = values
    for name in [n.strip().strip("«»") for n in names.split(",")] if names else []:
        if name in values:
            module.values[name] = values[name]
            if name in own:
                module.constructors.add(name)


def add_constructors(module, text):
    for line in text.split("\n")[1:]:
        names, kind = line.strip().split(" : ", 1)
        arity = re.sub(r"\{[^}]*\} →", "", kind).count("→")
        for name in names.split():
            module.constructors.add(name)
            module.values[name] = constructor(name, arity)


# ---- clauses


def clause(text):
    reader = Reader(words_of(text))
    reader.words[0].first = False
    reader.next()
    patterns = []
    while not reader.sees("="):
        patterns.append(reader.pattern())
    reader.next()
    body = reader.expression()
    if reader.at != len(reader.words):
        raise SyntaxError(text)
    return patterns, body


def define(module, name, parameters, inside, clauses):
    compiled = [(patterns, meaning(module, body, parameters, inside)) for patterns, body in clauses]
    arity = len(parameters) + len(clauses[0][0])

    def run(*arguments):
        given = dict(zip(parameters, arguments))
        rest = arguments[len(parameters) :]
        for patterns, body in compiled:
            names = dict(given)
            if all(fits(module, pattern, value, names) for pattern, value in zip(patterns, rest)):
                return body(names)
        raise ValueError(f"{module.crate}/{module.name}: no clause of {name} fits")

    module.values[name] = Function(arity, run) if arity else run()


def fits(module, pattern, value, names):
    kind = pattern[0]
    if kind == "value":
        return value == pattern[1]
    if kind == "cons":
        return len(value) > 0 and fits(module, pattern[1], value[0], names) and fits(module, pattern[2], value[1:], names)
    if isinstance(value, str) and pattern[1] == "none":
        return value == ""
    name = module.constructor_named(pattern[1])
    if name is None:
        names[pattern[1]] = value
        return True
    if name == "zero":
        return value == 0
    if name == "suc":
        return value > 0 and fits(module, pattern[2][0], value - 1, names)
    if name in ("true", "false"):
        return value is (name == "true")
    return value[0] == name and all(fits(module, part, given, names) for part, given in zip(pattern[2], value[1:]))


def meaning(module, expression, parameters, inside):
    """An expression as a function of the names that are bound where it stands."""

    def of(part):
        return meaning(module, part, parameters, inside)

    kind = expression[0]
    if kind == "value":
        return lambda names: expression[1]
    if kind == "name":
        return named(module, expression[1], parameters, inside)
    if kind == "field" and expression[1][0] == "name" and expression[1][1] in module.others:
        value = module.others[expression[1][1]][expression[2]]
        return lambda names: value
    if kind == "field":
        whole, field = of(expression[1]), expression[2]
        return lambda names: whole(names)[field]
    if kind == "record":
        fields = {field: of(part) for field, part in expression[1].items()}
        return lambda names: {field: part(names) for field, part in fields.items()}
    if kind == "let":
        name, value, rest = expression[1], of(expression[2]), of(expression[3])
        return lambda names: rest({**names, name: value(names)})
    if kind == "function":
        bound, body = expression[1], of(expression[2])
        return lambda names: Function(len(bound), lambda *values: body({**names, **dict(zip(bound, values))}))
    if kind == "operator":
        return operation(module, expression[1], of(expression[2]), of(expression[3]))
    arguments = []
    while expression[0] == "apply":
        arguments.insert(0, expression[2])
        expression = expression[1]
    parts = [of(argument) for argument in arguments]
    if expression == ("name", "cond") and len(parts) == 3:
        test, then, otherwise = parts
        return lambda names: then(names) if test(names) else otherwise(names)
    function = of(expression)
    return lambda names: apply(function(names), *[part(names) for part in parts])


def named(module, name, parameters, inside):
    def find(names):
        if name in names:
            return names[name]
        if name in inside and parameters:
            return apply(module.values[name], *[names[parameter] for parameter in parameters])
        return module.find(name)

    return find


def operation(module, operator, left, right):
    if operator == "&&":
        return lambda names: left(names) and right(names)
    if operator == "||":
        return lambda names: left(names) or right(names)
    if operator == ">>=":
        return lambda names: apply(module.find("◌>>=◌"), left(names), right(names))
    work = OPERATORS[operator]
    return lambda names: work(left(names), right(names))
