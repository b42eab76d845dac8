"""The definitions of specs/ and the computed cases of proofs/, worked out by a second reading of their text: no prover
has a part in it. Used by tests/cases and tests/hand/turned.

A number is an int, of ℕ and of ℤ alike; a list is () or (first, rest); a record is a dict; a value of a type with
variants is an Is. What is handed over is worked out when it is asked for, as the prover does it."""
import collections
import re
import struct
import sys
import threading

TOKEN = re.compile(r"(?<=\))\.[^\s(){};,]+|[(){};,]|[^\s(){};,]+")
USE = re.compile(
    r"^(?:(?:unfoldable |abbrev )?pub )?use (?P<path>[^\s{]+?)(?:\.\{(?P<names>[^}]*)\}| as (?P<alias>\S+))?$", re.M)
RIGHT, LEFT = 0, 1
OPERATORS = {
    "→": (1, RIGHT), "×": (2, RIGHT), "⊎": (2, RIGHT), "≡": (4, LEFT), "≤": (50, LEFT), "<": (50, LEFT),
    "||": (30, RIGHT), "&&": (35, RIGHT), "==": (40, LEFT), "++": (60, RIGHT), "∷": (60, RIGHT), "+": (65, LEFT), "-": (65, LEFT),
    "*": (70, LEFT), "/": (70, LEFT), "%": (70, LEFT), "^": (75, RIGHT),
}  # fmt: skip


class Unread(Exception):
    """Text that this reading does not know."""


class Ill(Exception):
    """What no value of the type asked for has."""


class Tired(Exception):
    """More calls than were allowed."""


# ---- text to trees: ("num", n) ("var", name) ("app", f, x) ("get", e, field) ("op", o, a, b) ("lam", names, e)
# ("let", name, e, body) ("rec", ((field, e), ..)) ("pair", a, b, ..)
def tokens(text):
    found = []
    for token in TOKEN.findall(re.sub(r"(^|\s)--.*", "", text)):
        token = token.replace("«", "").replace("»", "")
        if len(token) > 1 and token[-1] == "." and token[-2] != ".":
            found += [token[:-1], "."]
        else:
            found.append(token)
    return found


class Reader:
    def __init__(self, words, infix, aliases=()):
        self.words, self.at, self.infix, self.aliases = words, 0, {**OPERATORS, **infix}, aliases

    def peek(self):
        return self.words[self.at] if self.at < len(self.words) else None

    def next(self, wanted=None):
        word = self.peek()
        if word is None or wanted not in (None, word):
            raise Unread(f"{word} for {wanted} in {' '.join(self.words[max(0, self.at - 8) : self.at + 4])}")
        self.at += 1
        return word

    def expression(self, least=0):
        left = self.application()
        while self.peek() in self.infix:
            binds, side = self.infix[self.peek()]
            if binds < least:
                break
            o = self.next()
            left = ("op", o, left, self.expression(binds + (side == LEFT)))
        return left

    def starts(self):
        word = self.peek()
        return word not in (None, ")", "}", ";", ",", "in", "=", ".", ":") and word not in self.infix

    def application(self):
        left = self.atom()
        while self.starts():
            if self.peek() == "{":
                self.braces()
            else:
                left = ("app", left, self.atom())
        return left

    def braces(self):
        self.next("{")
        while self.peek() != "}":
            self.braces() if self.peek() == "{" else self.next()
        self.next("}")

    def atom(self):
        """What binds before an application does: a word or brackets, with the fields that are asked of it."""
        left = self.bare()
        if left[0] == "var" and "." in left[1] and left[1][0].isalpha():
            first, *fields = left[1].split(".")
            if first not in self.aliases:
                left = with_fields(("var", first), fields)
        while (self.peek() or "")[:1] == "." and len(self.peek()) > 1:
            left = with_fields(left, self.next()[1:].split("."))
        return left

    def bare(self):
        word = self.next()
        if word == "(":
            inside = self.expression()
            if self.peek() == ":":
                self.next()
                self.expression()
            parts = [inside]
            while self.peek() == ",":
                self.next()
                parts.append(self.expression())
            self.next(")")
            return ("pair", *parts) if len(parts) > 1 else inside
        if word == "record":
            self.next("{")
            fields = []
            while self.peek() != "}":
                name = self.next()
                self.next("=")
                fields.append((name, self.expression()))
                if self.peek() == ";":
                    self.next()
            self.next("}")
            return ("rec", tuple(fields))
        if word == "λ":
            names = []
            while self.peek() != ".":
                if self.peek() == "(":
                    self.next()
                    while self.peek() != ":":
                        names.append(self.next())
                    while self.peek() != ")":
                        self.next()
                    self.next(")")
                else:
                    names.append(self.next())
            self.next(".")
            return ("lam", tuple(names), self.expression())
        if word == "let":
            name = self.next()
            if self.peek() == ":":
                self.next()
                while self.peek() != "=":
                    self.next()
            self.next("=")
            value = self.expression()
            self.next("in")
            return ("let", name, value, self.expression())
        if word.isdigit():
            return ("num", int(word))
        if word in (")", "}", ";", ",", "=", ":", "in"):
            raise Unread(f"{word} in {' '.join(self.words[max(0, self.at - 8) : self.at + 4])}")
        return ("var", word)


def with_fields(tree, fields):
    for field in fields:
        tree = ("get", tree, field)
    return tree


def spine(tree):
    """The head of an application, and what it is applied to."""
    given = []
    while tree[0] == "app":
        given.append(tree[2])
        tree = tree[1]
    return tree, given[::-1]


# ---- values
class Is:
    __slots__ = ("name", "given")

    def __init__(self, name, given=()):
        self.name, self.given = name, given


class Later:
    __slots__ = ("code", "env", "value")

    def __init__(self, code, env):
        self.code, self.env = code, env


def force(x):
    while x.__class__ is Later:
        if x.code is not None:
            x.value = force(x.code(x.env))
            x.code = x.env = None
        x = x.value
    return x


class Function:
    """Something that waits for so many arguments more."""

    __slots__ = ("arity", "run", "given")

    def __init__(self, arity, run, given=()):
        self.arity, self.run, self.given = arity, run, given


def apply(f, given):
    while given:
        f = force(f)
        if f.__class__ is Is:
            return Is(f.name, f.given + tuple(given))
        if f.__class__ is not Function:
            raise Ill("no function")
        wants = f.arity - len(f.given)
        if len(given) < wants:
            return Function(f.arity, f.run, f.given + tuple(given))
        f, given = f.run(*f.given, *given[:wants]), given[wants:]
    return f


def of_kind(kind, x):
    """A value of this kind; True is no number here."""
    x = force(x)
    if x.__class__ is not kind:
        raise Ill(f"no {kind.__name__}")
    return x


def number(x):
    return of_kind(int, x)


def truth(x):
    return of_kind(bool, x)


def natural(x):
    if number(x) < 0:
        raise Ill("below 0")
    return force(x)


def each(x):
    """The members of a list, each as it stands."""
    while (x := force(x)) != ():
        if x.__class__ is not tuple:
            raise Ill("no list")
        yield x[0]
        x = x[1]


def listed(members, end=()):
    for x in reversed(list(members)):
        end = (x, end)
    return end


def dropped(n, l):
    n = natural(n)
    while n and (l := force(l)) != ():
        l, n = l[1], n - 1
    return force(l)


def taken(n, l):
    n, members = natural(n), []
    for x in each(l):
        if len(members) == n:
            break
        members.append(x)
    return listed(members)


def nth(l, i, d):
    rest = dropped(i, l)
    return d if rest == () else rest[0]


def repeated(n, x):
    if natural(n) > 100_000:
        raise Tired
    return listed([x] * natural(n))


def put(l, i, x):
    members = list(each(l))
    if natural(i) < len(members):
        members[natural(i)] = x
    return listed(members)


def folded(f, a, l):
    for x in each(l):
        a = force(apply(f, [a, x]))
    return a


def divided(kind, a, b):
    a, b = force(a), force(b)
    if b == 0:
        return float("nan") if a == 0 or a != a else float("inf") if a > 0 else float("-inf")
    return a / b


def first_root(a, p, m, k):
    """`first_from` of crates/root, which goes up one by one, by halving."""
    a, p, low, high = natural(a), natural(p), natural(m), natural(m) + natural(k)
    while low < high:
        middle = (low + high) // 2
        if a <= middle * middle * p:
            high = middle
        else:
            low = middle + 1
    return low


def size_of(l):
    n = 0
    for _ in each(l):
        n += 1
    return n


def raised(a, b):
    if natural(a).bit_length() * natural(b) > 10_000_000:
        raise Tired
    return natural(a) ** natural(b)


BUILT = {
    "zero": 0, "true": True, "false": False, "[]": (), "binary64": Is("binary64"), "tt": Is("tt"),
    "suc": Function(1, lambda n: natural(n) + 1),
    "pos": Function(1, lambda n: natural(n)),
    "negsuc": Function(1, lambda n: -1 - natural(n)),
    "nat_abs": Function(1, lambda x: abs(number(x))),
    "neg_ℤ": Function(1, lambda x: -number(x)),
    "lt_z": Function(2, lambda x, y: number(x) < number(y)),
    "min": Function(2, lambda a, b: min(natural(a), natural(b))),
    "max": Function(2, lambda a, b: max(natural(a), natural(b))),
    "leb": Function(2, lambda a, b: natural(a) <= natural(b)),
    "ltb": Function(2, lambda a, b: natural(a) < natural(b)),
    "eqb": Function(2, lambda a, b: natural(a) == natural(b)),
    "nat_lt": Function(2, lambda a, b: natural(a) < natural(b)),
    "nat_eq": Function(2, lambda a, b: natural(a) == natural(b)),
    "not": Function(1, lambda a: not truth(a)),
    "cond": Function(3, lambda c, a, b: a if truth(c) else b),
    "length": Function(1, size_of),
    "get_or": Function(3, nth),
    "take": Function(2, taken),
    "drop": Function(2, dropped),
    "set": Function(3, put),
    "replicate": Function(2, repeated),
    "map": Function(2, lambda f, l: listed([Later(lambda x: apply(f, [x]), x) for x in each(l)])),
    "foldl": Function(3, folded),
    "drop_last": Function(1, lambda l: listed(list(each(l))[:-1])),
    "bit_and": Function(2, lambda a, b: natural(a) & natural(b)),
    "bit_xor": Function(2, lambda a, b: natural(a) ^ natural(b)),
    "of_int": Function(2, lambda kind, x: float(number(x))),
    "of_bits": Function(2, lambda kind, x: struct.unpack("<d", struct.pack("<Q", natural(x)))[0]),
    "div": Function(3, divided),
}  # fmt: skip
# the variants of the library's Option and Result
LIBRARYS = ("Some", "None", "Ok", "Err")
QUICKER = {"root/specs/Root first_from": first_root}
ARITHMETIC = {
    "+": lambda a, b: natural(a) + natural(b),
    "-": lambda a, b: max(natural(a) - natural(b), 0),
    "*": lambda a, b: natural(a) * natural(b),
    "/": lambda a, b: natural(a) // natural(b) if natural(b) else 0,
    "%": lambda a, b: natural(a) % natural(b) if natural(b) else natural(a),
    "^": raised,
    "==": lambda a, b: natural(a) == natural(b),
    "++": lambda a, b: listed(each(a), b),
    "∷": lambda a, b: (a, b),
    "&&": lambda a, b: truth(a) and truth(b),
    "||": lambda a, b: truth(a) or truth(b),
}


def same(a, b):
    a, b = force(a), force(b)
    while a.__class__ is tuple and b.__class__ is tuple and a and b:
        if not same(a[0], b[0]):
            return False
        a, b = force(a[1]), force(b[1])
    if a.__class__ is not b.__class__:
        return False
    if a.__class__ is Is:
        return a.name == b.name and len(a.given) == len(b.given) and all(map(same, a.given, b.given))
    if a.__class__ is dict:
        return a.keys() == b.keys() and all(same(a[k], b[k]) for k in a)
    if a.__class__ is float:
        return struct.pack("<d", a) == struct.pack("<d", b)
    return a == b


# ---- trees to what can be run: a function of the environment, which has what names stand for
def matches(pattern, x, env):
    kind = pattern[0]
    if kind == "any":
        env[pattern[1]] = x
        return True
    x = force(x)
    if kind == "lit":
        return x == pattern[1] and x.__class__ is pattern[1].__class__
    if kind == "suc":
        return natural(x) > 0 and matches(pattern[1], x - 1, env)
    if kind == "cons":
        return x != () and matches(pattern[1], x[0], env) and matches(pattern[2], x[1], env)
    if kind == "pos":
        return number(x) >= 0 and matches(pattern[1], x, env)
    if kind == "negsuc":
        return number(x) < 0 and matches(pattern[1], -1 - x, env)
    if x.__class__ is not Is:
        raise Ill("no variant")
    return x.name == pattern[1] and all(matches(p, y, env) for p, y in zip(pattern[2], x.given))


class Definition:
    """A definition: its clauses as trees, of which `code` is made; a turned clause is one put in their place."""

    def __init__(self, world, file, declared, params, clauses):
        self.world, self.file, self.declared, self.params = world, file, declared, params
        self.key = f"{file.crate}/{file.kind}/{file.name} {declared.name}"
        self.patterns = [[self.pattern(p) for p in ps] for ps, _ in clauses]
        self.bodies = [body for _, body in clauses]
        self.arity = len(params) + len(self.patterns[0])
        self.make()

    def pattern(self, tree):
        head, given = spine(tree)
        if tree[0] == "op" and tree[1] == "∷":
            return ("cons", self.pattern(tree[2]), self.pattern(tree[3]))
        if tree[0] == "pair":
            return ("is", ",", tuple(self.pattern(part) for part in tree[1:]))
        if head[0] == "num":
            return ("lit", head[1])
        name = head[1]
        if name in ("zero", "[]", "true", "false"):
            return ("lit", BUILT[name])
        if name in ("suc", "pos", "negsuc"):
            return (name, self.pattern(given[0]))
        if not given and not self.file.varies(name):
            return ("any", name)
        return ("is", self.file.variant(name), tuple(self.pattern(p) for p in given))

    def make(self):
        self.code = [(ps, self.file.compiled(body, self)) for ps, body in zip(self.patterns, self.bodies)]

    def run(self, *given):
        self.world.called(self)
        if self.key in QUICKER:
            return QUICKER[self.key](*given)
        own = dict(zip(self.params, given))
        for patterns, code in self.code:
            env = dict(own)
            if all(matches(p, x, env) for p, x in zip(patterns, given[len(own) :])):
                return code(env)
        raise Ill("no clause")

    @property
    def value(self):
        return Function(self.arity, self.run) if self.arity else self.run()


def bound(tree, names):
    """The names that a pattern's tree may bind."""
    if tree[0] == "any":
        names.add(tree[1])
    for part in tree[1:]:
        if isinstance(part, tuple):
            bound(part, names) if part and isinstance(part[0], str) else [bound(p, names) for p in part]
    return names


def place(path):
    """The crate, folder and file of a path."""
    return path[1], path[2], path[-1]


def is_ours(path):
    """It is of a crate of this repository, and not of the library."""
    return path[0] == "Rattle" and path[1] != "std"


class File:
    def __init__(self, world, crate, kind, name, text):
        self.world, self.crate, self.kind, self.name = world, crate, kind, name
        self.uses, self.opened, self.own, self.variants = {}, {}, {}, set()
        for m in USE.finditer(re.sub(r"\n +", " ", text)):
            path = m["path"].split(".")
            if m["names"] is not None:
                for item in m["names"].split(","):
                    said = item.split()
                    if said:
                        self.uses[said[-1]] = (path, said[0])
            else:
                self.opened[m["alias"] or path[-1]] = path

    def variant(self, name):
        """The variant that a name of a pattern stands for."""
        return self.uses[name][1] if name in self.uses else name.rsplit(".", 1)[-1]

    def varies(self, name):
        """Whether a name of a pattern is a variant, and not one that the pattern binds."""
        if name in self.variants or "." in name:
            return True
        path, said = self.uses.get(name, ((), None))
        if said in LIBRARYS and not is_ours(path):
            return True
        if path and path[-1] != "TheVariants" and is_ours(path):
            return "declared" not in path and name in self.world.file(*place(path)).variants
        return bool(path) and path[-1] == "TheVariants"

    def constant(self, path, name):
        """What a name of a module is."""
        if path[-1] == "TheVariants":
            return lambda: Is(name)
        if name in LIBRARYS and not is_ours(path):
            return lambda: Is(name)
        if is_ours(path):
            if name in self.world.file(*place(path)).variants:
                return lambda: Is(name)
            definition = self.world.definition(*place(path), name)
            return lambda: definition.value
        if name.strip("◌") in ARITHMETIC:
            run = ARITHMETIC[name.strip("◌")]
            return lambda: Function(2, run)
        if name in BUILT:
            return lambda: BUILT[name]
        raise Unread(f"{'.'.join(path)} {name}")

    def meaning(self, name, definition):
        if name in self.own:
            found = self.world.definition(self.crate, self.kind, self.name, name)
            params = definition.params if definition and definition.declared.inside == found.declared.inside else ()
            if found.params and params:
                return lambda env: apply(found.value, [env[p] for p in params])
            return lambda env: found.value
        if name in self.variants:
            return lambda env: Is(name)
        if name in self.uses:
            constant = self.constant(*self.uses[name])
        elif "." in name:
            alias, _, last = name.partition(".")
            if alias not in self.opened:
                raise Unread(name)
            path = self.opened[alias]
            while "." in last:
                part, _, last = last.partition(".")
                path = path + [part]
            constant = self.constant(path, last)
        elif name == "tt":  # in every file without an import
            constant = lambda: BUILT["tt"]
        else:
            raise Unread(f"{name} in {self.crate}/{self.name}")
        return lambda env: constant()

    def compiled(self, tree, definition, local=None):
        if local is None:
            local = set(definition.params) if definition else set()
            if definition:
                for patterns in definition.patterns:
                    for p in patterns:
                        bound(p, local)
        go = lambda t, more=(): self.compiled(t, definition, local | set(more))
        kind = tree[0]
        if kind == "num":
            n = tree[1]
            return lambda env: n
        if kind == "var":
            name = tree[1]
            if name in local:
                return lambda env: env[name]
            return self.meaning(name, definition)
        if kind == "app":
            head, given = spine(tree)
            code, parts = go(head), [lazily(go(x)) for x in given]
            return lambda env: apply(code(env), [part(env) for part in parts])
        if kind == "get":
            code, field = go(tree[1]), tree[2]

            def get(env):
                x = force(code(env))
                if x.__class__ is Is and x.name == "," and field.isdigit():
                    return x.given[int(field)]
                if x.__class__ is not dict or field not in x:
                    raise Ill(f"no {field}")
                return x[field]

            return get
        if kind == "op":
            o = tree[1]
            a, b = lazily(go(tree[2])), lazily(go(tree[3]))
            if o in ARITHMETIC:
                run = ARITHMETIC[o]
                return lambda env: run(a(env), b(env))
            code = self.meaning(f"◌{o}◌", definition)
            return lambda env: apply(code(env), [a(env), b(env)])
        if kind == "lam":
            names, code = tree[1], go(tree[2], tree[1])
            return lambda env: Function(len(names), lambda *given: code({**env, **dict(zip(names, given))}))
        if kind == "let":
            name, value, code = tree[1], lazily(go(tree[2])), go(tree[3], (tree[1],))
            return lambda env: code({**env, name: value(env)})
        if kind == "rec":
            fields = [(field, lazily(go(x))) for field, x in tree[1]]
            return lambda env: {field: x(env) for field, x in fields}
        if kind == "pair":
            parts = [lazily(go(part)) for part in tree[1:]]
            return lambda env: Is(",", tuple(part(env) for part in parts))
        raise Unread(kind)


def lazily(code):
    return lambda env: Later(code, env)


class World:
    """All of the tree's definitions, read when they are asked for."""

    def __init__(self, root, sources):
        self.root, self.sources = root, sources
        self.files, self.definitions = {}, {}
        self.left, self.seen = None, None

    def called(self, definition):
        if self.seen is not None:
            self.seen.add(definition)
        if self.left is not None:
            self.left -= 1
            if self.left < 0:
                raise Tired

    def file(self, crate, kind, name):
        if (crate, kind, name) not in self.files:
            path = self.root / "crates" / crate / kind / f"{name}.antt"
            if not path.exists():
                raise Unread(f"{crate}/{name}")
            text = path.read_text()
            file = File(self, crate, kind, name, text)
            file.infix = {o: (int(n), LEFT) for n, o in re.findall(r"^ *infix[lr]? (\d+) ◌(\S+)◌", text, re.M)}
            for item in self.sources.antt(crate, name, text):
                if not isinstance(item, tuple):
                    file.own[item.name] = item
                    if "data" in item.marks:
                        file.variants |= set(item.fields())
            self.files[crate, kind, name] = file
        return self.files[crate, kind, name]

    def infix(self, file):
        found = dict(file.infix)
        for name, (path, said) in file.uses.items():
            if re.fullmatch(r"◌\w+◌", said) and is_ours(path):
                found.update(self.file(*place(path)).infix)
        return found

    def tree(self, file, text):
        reader = Reader(tokens(text), self.infix(file), file.opened)
        tree = reader.expression()
        if reader.peek() is not None:
            raise Unread(f"{reader.peek()} after {text[:60]}")
        return tree

    def clauses(self, file, item):
        """[(patterns, body)] of a definition."""
        statement = len(item.statement())
        if item.name[0] == "◌":
            statement = next(i for i, line in enumerate(item.lines) if f" {item.name[1:-1]} " in line and " = " in line)
        floor = 2 if item.inside else 0
        parts = []
        for line in item.lines[statement:]:
            if line.strip().startswith(("--", "unfolding ")):
                continue
            if len(line) - len(line.lstrip()) == floor:
                parts.append(line)
            elif parts:
                parts[-1] += "\n" + line
        found = []
        for part in parts:
            words = tokens(part)
            at, deep = 0, 0
            while deep or words[at] != "=":
                deep += (words[at] in "({") - (words[at] in ")}")
                at += 1
            head = Reader(words[:at], self.infix(file), file.opened).expression()
            body = Reader(words[at + 1 :], self.infix(file), file.opened)
            tree = body.expression()
            if body.peek() is not None:
                raise Unread(f"{body.peek()} in {item.name}")
            if head[0] == "op":
                found.append(([head[2], head[3]], tree))
            else:
                found.append((spine(head)[1], tree))
        if not found:
            raise Unread(f"{item.name} has no clause")
        return found

    def definition(self, crate, kind, name, declared):
        key = (crate, kind, name, declared)
        if key not in self.definitions:
            file = self.file(crate, kind, name)
            if declared not in file.own:
                if declared in file.uses and is_ours(file.uses[declared][0]):
                    path, said = file.uses[declared]
                    return self.definition(*place(path), said)
                raise Unread(f"{declared} is not in {crate}/{kind}/{name}")
            item = file.own[declared]
            if {"record", "data"} & set(item.marks):
                raise Unread(f"{declared} is no definition")
            params = []
            if item.inside:
                for names in re.findall(r"\(([^:()]*):", item.inside):
                    params += names.split()
            self.definitions[key] = made = Definition.__new__(Definition)
            made.__init__(self, file, item, tuple(params), self.clauses(file, item))
        return self.definitions[key]


# ---- the cases
MOST = 3_000_000  # calls of a case


def equations(tree):
    """[(one side, the other, whether they are equal)] of the equations that a closed statement joins."""
    if tree[0] == "op" and tree[1] == "×":
        return equations(tree[2]) + equations(tree[3])
    if tree[0] == "op" and tree[1] == "≡":
        return [(tree[2], tree[3], True)]
    if tree[0] == "app" and tree[1] == ("var", "¬") and tree[2][:2] == ("op", "≡"):
        return [(*tree[2][2:], False)]
    raise Unread("no equation")


class Case:
    def __init__(self, world, file, name, said):
        self.name = f"{file.crate}/{file.name} {name}"
        parts = equations(world.tree(file, said))
        self.sides = [(file.compiled(a, None), file.compiled(b, None), equal) for a, b, equal in parts]

    def holds(self):
        return all(same(a({}), b({})) == equal for a, b, equal in self.sides)


def cases(world):
    """The cases that can be read, and why each other closed equation cannot."""
    found, unread = [], []
    for path in sorted(world.root.glob("crates/*/proofs/*.antt")):
        crate = path.parts[-3]
        file = world.file(crate, "proofs", path.stem)
        for item in file.own.values():
            for name, said in closed(item):
                try:
                    found.append(Case(world, file, name, said))
                except Unread as why:
                    unread.append(f"{crate}/{path.stem} {name}: {why}")
    return found, unread


def closed(item):
    """(name, statement) of what a declaration says of no input: a theorem, or fields of a record."""
    if item.inside:
        return
    if "record" in item.marks:
        stated = item.fields().items() if re.match(r"(pub )?record \S+ :", item.lines[0]) else ()
    else:
        stated = [] if item.defines else [(item.name, item.statement())]
    for name, lines in stated:
        said = " ".join(line for line in lines if not line.strip().startswith("--")).split(" : ", 1)[-1]
        if "≡" in said and "→" not in said and not re.match(r" *[({]\S+ :", said):
            yield name, said


def surveyed(world, found):
    """Which cases come past each definition, with the calls that each takes; and which do not hold."""
    past, wrong = collections.defaultdict(list), []
    for case in found:
        world.left, world.seen = MOST, set()
        try:
            fault = "" if case.holds() else "does not hold"
        except (Ill, Tired) as why:
            fault = f"{type(why).__name__} {why}"
        if fault:
            wrong.append(f"{case.name}: {fault}")
            continue
        for definition in world.seen:
            past[definition].append((case, MOST - world.left))
    world.seen = None
    return past, wrong


def deeply(run):
    """What it answers, on a thread that has room for long lists."""
    sys.setrecursionlimit(10**6)
    threading.stack_size(1 << 29)
    answers = []
    thread = threading.Thread(target=lambda: answers.append(run()))
    thread.start()
    thread.join()
    return answers[0]
