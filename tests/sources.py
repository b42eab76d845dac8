"""What the sources declare, read from their text: the definitions of specs/, the statements of proofs/, the public
types and functions of src/, and which of these each one cites. Used by tests/law and tests/promises.

A definition is known as (crate, file, name), a type of src/ as (crate, "src", name). A citation is a word of the text
that a `use` line or the file itself gives a meaning; a word that the definition binds itself is none."""
import re

HEAD = re.compile(r"^ *(?P<marks>(?:(?:abbrev|unfoldable|instance|pub|record|data) )*)(?P<name>[^\s:(){}]+)(?: .*|$)")
NOT_NAMES = set("use module infix infixl infixr unfolding let in mod ghost where → × --".split())
FUNCTION = re.compile(
    r"^impl (\w+) \{|^\}|((?:^ *//[^\n]*\n)*)(?:^ *#\[[^\n]*\n)*^( *)pub (?:extern \"C\" )?fn (\w+)(.*?)^\3\{",
    re.M | re.S,
)
USE = re.compile(
    r"^(?:ghost |(?:unfoldable |abbrev )?pub )?use (?P<path>[^\s{;]+?)(?:\.\{(?P<names>[^}]*)\}| as (?P<alias>\S+?))?;?$", re.M)
WORD = re.compile(r"[^\s(){};,]+")


class Declaration:
    """One declaration: its key, the comment over it, its lines, and of a record its fields."""

    def __init__(self, key, marks, comment, head, inside=None):
        self.key, self.marks, self.comment, self.lines = key, marks.split(), comment, [head]
        self.inside = inside  # the head of the `module _ ( .. ) where` that it stands in

    @property
    def name(self):
        return self.key[2]

    @property
    def public(self):
        return "pub" in self.marks

    @property
    def text(self):
        return "\n".join(self.lines)

    @property
    def code(self):
        """Its lines without comments."""
        return [line for line in self.lines if not line.strip().startswith(("--", "//"))]

    @property
    def size(self):
        """How many lines there are to believe, comments aside."""
        return len(self.code)

    @property
    def defines(self):
        """It is a definition, and no theorem."""
        return bool({"abbrev", "unfoldable", "record", "data"} & set(self.marks)) or self.key[1] == "src"

    def statement(self):
        """Its lines up to the first clause, `name .. =`."""
        own = re.compile(rf"^ *{re.escape(self.name)}(\s.*)? =|^ *unfolding ")
        kept = []
        for line in self.lines:
            if kept and own.match(line):
                break
            kept.append(line)
        return kept

    def fields(self):
        """field -> its lines, the comment over it with them."""
        found, comment, name = {}, [], None
        for line in self.lines[1:]:
            head = re.match(r"^ +(?:pub )?([^\s(]\S*) :(?: |$)", line)
            depth = len(line) - len(line.lstrip())
            if name is None or depth <= step:
                if line.strip().startswith("--"):
                    comment.append(line)
                    continue
                if head:
                    name, step = head.group(1), depth
                    found[name] = comment + [line]
                    comment = []
                    continue
            if name:
                found[name].append(line)
        return found


def declares(line):
    """A colon stands outside brackets, and no = before it."""
    deep = 0
    for i, c in enumerate(line):
        deep += (c in "({") - (c in ")}")
        if not deep and c in ":=" and line[i - 1] == " " and line[i + 1 : i + 2] in ("", " "):
            return c == ":"
    return False


def antt(crate, file, text):
    """The declarations of a file of specs/ or proofs/, in order."""
    found, comment, now, inside, infix = [], [], None, None, []
    for line in text.split("\n"):
        bare = line.strip()
        depth = len(line) - len(line.lstrip())
        floor = 2 if inside else 0
        if inside and bare and depth == 0:
            inside, floor, now, comment = None, 0, None, []
        if not bare:
            now, comment = None, []
            continue
        if depth == 0 and bare.startswith("module _ "):
            inside, now, comment = line, None, []
            continue
        if bare.startswith("--") and depth == floor:
            if bare.startswith("-- ----"):
                found.append(("section", bare))
                comment = []
            else:
                comment.append(line)
            now = None
            continue
        if depth == floor and re.match(r" *infix[lr]? ", line):
            infix = [line]
            continue
        # the head of a record may go on over more lines, and has its colon there
        head = HEAD.match(line) if depth == floor and (declares(line) or re.match(r" *(pub )?record ", line)) else None
        same = now and depth == floor and not head
        if head and head["name"] not in NOT_NAMES and not re.match(r"\s*(pub )?(use|mod|module)\b", line):
            now = Declaration((crate, file, head["name"]), head["marks"], comment, line, inside)
            if infix:
                now.lines = infix + now.lines
                infix = []
            found.append(now)
            comment = []
        elif now and (depth > floor or same):
            now.lines.append(line)
    return found


def types(crate, text):
    """The structs and enums of a source file."""
    lines = text.split("\n")
    found = []
    for i, line in enumerate(lines):
        head = re.match(r"^(?:pub )?(?:struct|enum) (\w+)", line)
        if not head:
            continue
        end = next(j for j in range(i, len(lines)) if lines[j].startswith("}"))
        start = i
        while start and lines[start - 1].startswith(("//", "#[")):
            start -= 1
        comment = [above for above in lines[start:i] if above.startswith("//")]
        item = Declaration((crate, "src", head.group(1)), "pub", comment, line)
        item.lines = lines[i : end + 1]
        found.append(item)
    return found


class Function:
    """A public function: its name (a method's is Type::name), the comment over it and its signature with contract."""

    def __init__(self, crate, name, comment, signature):
        self.crate, self.name, self.comment, self.signature = crate, name, comment, signature

    @property
    def contract(self):
        return " ".join(re.findall(r"^\s*ensures (?:\w+ )?\{(.*?)\}\s*$", self.signature, re.M | re.S))


def functions(crate, text):
    owner = None
    for m in FUNCTION.finditer(text):
        if m.group(1):
            owner = m.group(1)
        elif m.group(4):
            name = f"{owner}::{m.group(4)}" if m.group(3) and owner else m.group(4)
            comment = " ".join(line.strip().lstrip("/").strip() for line in m.group(2).splitlines())
            yield Function(crate, name, comment, m.group(5))
        else:
            owner = None


class Tree:
    """All of it. `at` has each declaration of specs/, src/ and (with the file's name after 'proofs/') proofs/."""

    def __init__(self, root):
        self.root, self.at, self.order, self.texts, self.functions = root, {}, [], {}, []
        self.parts = {}  # a constructor of a data type -> the type
        for path in sorted(root.glob("crates/*/specs/*.antt")):
            self._antt(path, path.parent.parent.name, path.stem)
        for path in sorted(root.glob("crates/*/src/**/*.rt")):
            crate, text = path.relative_to(root).parts[1], path.read_text()
            self.texts[crate, "src"] = self.texts.get((crate, "src"), "") + text
            for item in types(crate, text):
                self._keep(item)
            self.functions += functions(crate, text)
        self._uses = {}

    def _keep(self, item):
        self.at[item.key] = item
        self.order.append(item.key)
        if "data" in item.marks:
            for name in item.fields():
                self.parts[(*item.key[:2], name)] = item.key

    def _antt(self, path, crate, file):
        text = path.read_text()
        self.texts[crate, file] = text
        proof = False
        for item in antt(crate, file, text):
            if isinstance(item, tuple):
                proof = proof or item[1].startswith("-- ---- the proof")
                continue
            item.in_proof = proof
            if item.name in ("mod",) or (crate, file, item.name) in self.at:
                continue
            self._keep(item)

    def proofs(self, crate):
        """Takes in the files of a crate's proofs/ too, as (crate, 'proofs/File', name)."""
        for path in sorted(self.root.glob(f"crates/{crate}/proofs/*.antt")):
            self._antt(path, crate, f"proofs/{path.stem}")

    def uses(self, crate, file):
        """(word -> key, alias -> (crate, file)) by the use lines of a file."""
        if (crate, file) in self._uses:
            return self._uses[crate, file]
        words, aliases = {}, {}
        for m in USE.finditer(self.texts[crate, file]):
            parts = m["path"].split(".")
            if len(parts) < 4 or parts[0] != "Rattle" or parts[1] == "std":
                continue
            home = parts[1]
            if parts[2] == "specs" and parts[3] == "declared":
                key = (home, "src", parts[4])
                if m["alias"]:
                    aliases[m["alias"]] = key
                for name in (m["names"] or "").split(","):
                    if name.strip():
                        words[name.split(" as ")[-1].strip()] = key
                continue
            where = parts[3] if parts[2] == "specs" else f"proofs/{parts[3]}"
            if m["alias"]:
                aliases[m["alias"]] = (home, where)
            for name in (m["names"] or "").split(","):
                if name.strip():
                    first, last = (name.split(" as ") * 2)[:2]
                    words[last.strip()] = self.handed_on(home, where, first.strip())
        if file == "src":
            for home, names in re.findall(r"^use (\w+)::\{?([\w, ]+)\}?;", self.texts[crate, file], re.M):
                for name in names.split(", "):
                    words.setdefault(name, (home, "src", name))
        self._uses[crate, file] = words, aliases
        return words, aliases

    def handed_on(self, crate, file, name):
        """The key of a name that a file is asked for: it may hand on what another one declares."""
        for m in re.finditer(r"^(?:unfoldable |abbrev )?pub use .*$", self.texts.get((crate, file), ""), re.M):
            if re.search(rf"[{{ ]{re.escape(name)}[,}}]", m.group()):
                return self.uses(crate, file)[0].get(name, (crate, file, name))
        return crate, file, name

    def cites(self, crate, file, text, own=None):
        """The keys that a piece of a file's text cites, in the order of the text."""
        words, aliases = self.uses(crate, file)
        text = re.sub(r"--.*|//.*", "", text)
        bound = binders(text, own) if file != "src" else set()
        found = []
        for m in WORD.finditer(text):
            word = m.group().rstrip(".:") if len(m.group()) > 1 else m.group()
            if word.startswith(".") or word == own:
                continue
            if re.match(r"\s*=(?!=)", text[m.end() :]) and re.search(r"[{;]\s*$", text[: m.start()]):
                continue  # a field of a record that is written out
            key = None
            if "." in word and word.split(".")[0] in aliases:
                alias, name = word.split(".", 1)
                home = aliases[alias]
                key = home if len(home) == 3 else (*home, name.split(".")[0])
            elif word.startswith("Rattle."):
                key = written_out(word.split("."))
            elif "::" in word:
                parts = re.findall(r"\w+", word)
                key = (parts[-2], "src", parts[-1])
            else:
                word = word.split(".")[0] if re.match(r"\w", word) else word  # of `r.n` the fields cite nothing
                if word in bound or word == own:
                    continue
                key = self._own(crate, file, word) or words.get(word) or self._mixfix(crate, file, word, words)
            key = self.parts.get(key, key)
            if key in self.at and key not in found:
                found.append(key)
        return found

    def _own(self, crate, file, word):
        key = (crate, file, word)
        return key if key in self.at else None

    def _mixfix(self, crate, file, word, words):
        for form in (f"◌{word}◌", f"{word}◌"):
            if form in words:
                return words[form]
            if (crate, file, form) in self.at:
                return crate, file, form
        return None

    def of(self, key):
        """The keys that a declaration cites, itself aside."""
        item = self.at[key]
        crate, file, name = key
        text = item.text if item.defines or file.startswith("proofs/") is False else "\n".join(item.statement())
        if item.inside:
            text = item.inside + "\n" + text
        text = re.sub(rf"^( *)(?:(?:abbrev|unfoldable|pub|record|data) )+{re.escape(name)}(?=[\s:])", r"\1", text)
        if file == "src":
            return [k for k in self._types(crate, text) if k != key]
        return [k for k in self.cites(crate, file, text, name) if k != key]

    def _types(self, crate, text):
        words, _ = self.uses(crate, "src")
        found = []
        for word in re.findall(r"(?:\w+::)*\b[A-Z]\w*", re.sub(r"//.*", "", text)):
            parts = word.split("::")
            key = (parts[-2], "src", parts[-1]) if len(parts) > 1 else (crate, "src", word)
            if key not in self.at:
                key = words.get(parts[-1], key)
            if key in self.at and key not in found:
                found.append(key)
        return found

    def promised(self, function):
        """What the signature and the contract of a public function cite."""
        crate = function.crate
        signature = re.sub(r"ensures (?:\w+ )?\{.*", "", function.signature, flags=re.S)
        return self._types(crate, signature) + [k for k in self.cites(crate, "src", function.contract) if k]

    def closure(self, keys):
        """The keys with all that they rest on, each after what it cites."""
        met, order = set(), []

        def visit(key):
            if key not in met:
                met.add(key)
                for below in self.of(key):
                    visit(below)
                order.append(key)

        for key in keys:
            visit(key)
        return order


def written_out(parts):
    """The key of a whole path, `Rattle.text.specs.Write.written`."""
    _, home, kind, file, *names = parts
    if file == "declared":
        return home, "src", names[0]
    return home, file if kind == "specs" else f"proofs/{file}", names[0]


def binders(text, own):
    """The words that a declaration binds itself: parameters, patterns, λ and let."""
    found = set()
    for group in re.findall(r"[({]([^(){}:]+?) : ", text):
        found.update(group.split())
    for group in re.findall(r"λ ([^.(]*)\.", text):
        found.update(group.split())
    found.update(re.findall(r"\blet (\S+)", text))
    found.update(re.findall(r"^ +(?:pub )?(\S+) :(?= |$)", text, re.M))
    if own:
        for clause in re.findall(rf"^ *{re.escape(own)} (.*?) =(?= |$)", text, re.M):
            found.update(w for w in WORD.findall(clause) if not w[0].isupper() and "." not in w)
    return found
