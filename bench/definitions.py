"""What is defined in the crates, read as text: definitions of specs/, types, models and functions of src/, and what names what.

Reach follows the names of contracts through the definitions. bench/believe, bench/names and .ci/documents use it.
"""
import collections
import functools
import itertools
import os
import re

TOP = os.path.join(os.path.dirname(os.path.realpath(__file__)), "..", "crates")
# What every file may say without an import.
BUILT_IN = {"Type", "Unit", "tt", "record", "elim", "λ", "do", "_", "data", "where", "abbrev", "pub", "unfoldable", "infixl", "⊥"}
TOKEN = re.compile(
    r"""(?P<text>"(?:[^"\\]|\\.)*")|(?P<part>(?<=[\w')\]])\.[\w']+)|(?P<name>[^\W\d][\w']*(?:-[\w']+)*\??)|(?P<digits>\d[\w]*)"""
    r"""|(?P<mark>[()\[\]{};,])|(?P<sign>[^\s\w()\[\]{};,"]+)"""
)
USE = re.compile(r"^\s*(?:ghost )?use (?:Rattle\.)?([\w.]+?)(?:\.\{([^}]*)\}| as (\w+))?;?\s*$", re.M)

Target = collections.namedtuple("Target", "crate module name")  # module: its path behind `specs`; name: None for the module itself
Token = collections.namedtuple("Token", "kind text")


class Definition:
    """A declaration of specs/ or a type of the Rust code: where it is, its lines of code, and whom it names."""

    def __init__(self, crate, file, name, env, start=None):
        self.crate, self.file, self.name, self.env, self.start = crate, file, name, env, start
        self.lines, self.block, self.end = [], None, start

    def key(self):
        return self.crate, self.file, self.name


# ---- files


def read(*parts):
    with open(os.path.join(TOP, *parts), encoding="utf-8") as file:
        return file.read()


@functools.cache
def crates():
    return sorted(name for name in os.listdir(TOP) if os.path.isdir(os.path.join(TOP, name, "src")))


@functools.cache
def sources(crate):
    found = []
    for folder, _, names in os.walk(os.path.join(TOP, crate, "src")):
        found += [os.path.relpath(os.path.join(folder, name), os.path.join(TOP, crate)) for name in names if name.endswith(".rt")]
    return sorted(found)


def modules(crate):
    """The files of specs/ of a crate, as their paths behind `specs`."""
    top = os.path.join(TOP, crate, "specs")
    for folder, _, names in sorted(os.walk(top)):
        for name in sorted(it for it in names if it.endswith(".antt")):
            yield os.path.relpath(os.path.join(folder, name[:-5]), top)


def imports(text):
    """What each name that `use` lines bring means: a list of targets, since a name may be brought twice."""
    env = collections.defaultdict(list)
    for path, names, alias in USE.findall(text):
        crate, *module = path.split(".")
        module = module[1:] if module[:1] == ["specs"] else module
        if alias:
            env[alias].append(Target(crate, ".".join(module), None))
        elif not names:
            env[module[-1]].append(Target(crate, ".".join(module[:-1]), module[-1]))
        for name in filter(None, map(str.strip, names.split(","))):
            name, _, own = name.partition(" as ")
            for part in mixfix(own or name):
                env[part].append(Target(crate, ".".join(module), name))
    return env


def mixfix(name):
    """The words of an operator such as if◌then◌else◌; or the name."""
    return [part for part in name.split("◌") if part]


def without_comment(line):
    """A line of a .antt file up to its comment; a text may have two hyphens in it."""
    for found in re.finditer(r'"(?:[^"\\]|\\.)*"|--', line):
        if found.group() == "--":
            return line[: found.start()].rstrip()
    return line.rstrip()


# ---- definitions of specs/


@functools.cache
def spec(crate, module):
    """The definitions of a file of specs/, by name; a constructor means its type. None where there is no such file."""
    path = os.path.join(TOP, crate, "specs", module + ".antt")
    if not os.path.exists(path):
        return None
    text = read(crate, "specs", module + ".antt")
    env, found = imports(text), {}
    now, blocks, ahead = None, [], []
    for number, line in enumerate(text.split("\n"), 1):
        line = without_comment(line)
        indent, words = len(line) - len(line.lstrip()), line.split()
        if not words or (words[0] == "use" and indent == 0):
            continue
        while blocks and indent <= blocks[-1][0]:
            blocks.pop()
        block, inside = (blocks[-1][1], blocks[-1][0] + 2) if blocks else (None, 0)
        if indent == inside and (words[0] == "module" or words == ["abbrev", "mutual"]):
            blocks.append((indent, (block or []) + [line]))
            now = None
            continue
        if block and not now and " where" not in f" {block[-1]}" and block[0].startswith("module"):
            block.append(line)
            continue
        if indent != inside:
            now.lines.append(line)
            now.end = number
            if now.is_data:
                found[words[0]] = now
        elif words[0] == "infixl":
            ahead.append(line)
        elif declared_name(words, now):
            now = Definition(crate, module, declared_name(words, now), env, number)
            now.lines, now.block, now.indent, now.is_data = ahead + [line], block, indent, "data" in words[:3]
            found[now.name], ahead = now, []
        else:
            now.lines.append(line)
            now.end = number
    own = collections.defaultdict(list)
    for name, definition in found.items():
        for part in mixfix(name):
            own[part].append(Target(crate, module, name))
    for name in own:
        env[name] = own[name]
    return found


def declared_name(words, now):
    """The name that a line declares, or None for a clause of the one before."""
    rest = list(itertools.dropwhile(lambda word: word in ("abbrev", "pub", "unfoldable", "record", "data"), words))
    if len(rest) < len(words):
        return rest[0]
    return words[0] if len(words) > 1 and words[1] == ":" and (not now or now.name != words[0]) else None


# ---- types, models and functions of src/


def masked(text):
    """A source with its comments and the inside of its texts blank."""
    blank = lambda found: re.sub(r"[^\n]", " ", found.group())
    return re.sub(r"//[^\n]*|\"(?:\\.|[^\"\\])*\"|'(?:\\.|[^'\\])'", blank, text, flags=re.S)


def closing(text, at):
    """The place of the bracket that closes the one at a place."""
    depth = 0
    for place in range(at, len(text)):
        depth += (text[place] in "([{") - (text[place] in ")]}")
        if depth == 0:
            return place
    raise ValueError("no bracket closes")


def behind_generics(text, at):
    """The place behind <..>, if that begins here."""
    if text[at] != "<":
        return at
    depth = 0
    for place in range(at, len(text)):
        depth += (text[place] == "<") - (text[place] == ">" and text[place - 1] not in "-=")
        if depth == 0:
            return place + 1
    raise ValueError("no > closes")


def rust_uses(text, only=""):
    """What `use` lines of Rust bring: the crate and the name there of each name; crate and self stand for this one."""
    found = {}

    def take(path, rest):
        rest = rest.strip()
        if rest.startswith("{"):
            for part in filter(str.strip, at_commas(rest[1:-1])):
                take(path, part)
        elif "::" in rest:
            head, _, rest = rest.partition("::")
            take(path + [head.strip()], rest)
        else:
            name, _, own = rest.partition(" as ")
            found[(own or name).strip()] = ((path or [name])[0], name.strip())

    for path in re.findall(rf"^{only}use ([^;]+);", text, re.M):
        take([], re.sub(r"\s+", " ", path))
    return found


class Source:
    """A file of src/: its text, what it brings in, its types, its models and its functions."""

    def __init__(self, crate, file):
        self.crate, self.file = crate, file
        self.whole = read(crate, file)
        self.text = masked(self.whole)
        self.uses = rust_uses(re.sub(r"^pub ", "", self.text, flags=re.M))
        self.ghost = "\n".join(re.findall(r"^ghost use .*$", self.text, re.M))
        self.blocks = list(self.find_blocks())

    def find_blocks(self):
        """Each impl and each trait: its kind, the type or trait, where it begins and ends, and its own names."""
        for found in re.finditer(r"^(?:pub )?(impl|trait)\b", self.text, re.M):
            start = self.text.index("{", found.end())
            head = self.text[behind_generics(self.text, found.end()) : start]
            trait, _, name = head.rpartition(" for ")
            end = closing(self.text, start)
            kind = "trait" if found.group(1) == "trait" else trait.strip()
            ghost = "\n".join(re.findall(r"^    ghost use .*$", self.text[start:end], re.M))
            yield kind, re.match(r"[\s&]*(\w+)", name).group(1), found.start(), end, ghost

    def models(self):
        """Of each type with a model what its values are seen as, and how: the view and what they keep."""
        for kind, name, start, end, ghost in self.blocks:
            value = re.search(r"ghost Value = \{(.*?)\};", self.text[start:end], re.S)
            if kind == "Model" and value:
                members = self.members(f"view of {name}", start, end, "view|invariant")
                yield name, (value.group(1), imports(self.ghost + "\n" + ghost), members)

    def traits(self):
        """What each trait leaves to whoever implements it."""
        for kind, name, start, end, _ in self.blocks:
            if kind == "trait":
                yield name, self.members(f"trait {name}", start, end, r"\w+:")

    def members(self, name, start, end, begins):
        """The ghost members of a block that begin so, as one definition. The names in them are not followed."""
        definition = Definition(self.crate, self.file, name, None)
        for found in re.finditer(rf"^    ghost (?:{begins}) ", self.text[start:end], re.M):
            stop = closing(self.text, self.text.index("{", start + found.end()))
            definition.start = definition.start or self.text.count("\n", 0, start + found.start()) + 1
            definition.end = self.text.count("\n", 0, stop) + 1
            definition.lines += [line for line in self.whole[start + found.start() : stop + 1].split("\n") if line.strip()]
        return definition

    def types(self):
        for found in re.finditer(r"^(?:pub(?:\([a-z]+\))? )?(struct|enum) (\w+)", self.text, re.M):
            start = behind_generics(self.text, found.end())
            start += len(re.match(r"\s*", self.text[start:]).group())
            definition = Definition(self.crate, self.file, found.group(2), self, self.text.count("\n", 0, found.start()) + 1)
            stop = closing(self.text, start) if self.text[start] == "{" else self.text.index(";", start)
            inside = self.text[start + 1 : stop] if self.text[start] == "{" else self.text[found.start() : stop].strip()
            definition.end = self.text.count("\n", 0, stop) + 1
            definition.lines = [line for line in inside.split("\n") if re.search(r"\w", line) and not re.match(r"\s*(#\[|ghost )", line)]
            definition.types = field_types(inside if self.text[start] == "{" else inside.partition("(")[2], found.group(1))
            definition.variants = variants(inside) if found.group(1) == "enum" else []
            yield definition

    def constants(self):
        for found in re.finditer(r"^pub const (\w+): .*$", self.text, re.M):
            definition = Definition(self.crate, self.file, found.group(1), self, self.text.count("\n", 0, found.start()) + 1)
            definition.lines, definition.types = [found.group()], set()
            yield definition

    def owned(self):
        """The public constants of types, what types do for traits, and the ghost members of traits: the owner and the name."""
        for kind, owner, start, end, _ in self.blocks:
            member = {"": r"pub const (\w+):", "trait": r"ghost (\w+):"}.get(kind, r"fn (\w+)")
            for name in re.findall(rf"^    {member}", self.text[start:end], re.M):
                yield owner, name

    def functions(self):
        """The public functions, and those of public traits."""
        for found in re.finditer(r"^( *)(pub (?:const )?)?fn (\w+)", self.text, re.M):
            around = [block for block in self.blocks if block[2] < found.start() < block[3]]
            kind, owner, _, _, ghost = around[0] if around else ("", None, 0, 0, "")
            if (found.group(2) and len(found.group(1)) == (4 if around else 0)) or kind == "trait":
                yield Function(self, found, owner, imports(self.ghost + "\n" + ghost))


def field_types(inside, kind):
    """The names of types in the body of a type; the name of a variant is none."""
    text = re.sub(r"^\s*(#\[|ghost ).*$", "", inside, flags=re.M)
    if kind == "enum":
        text = ",".join(re.sub(r"^\s*\w+", "", part) for part in at_commas(text))
    return set(re.findall(r"\b[A-Z]\w*", text))


def variants(inside):
    """The names of the variants in the body of an enum."""
    text = re.sub(r"^\s*(#\[|ghost ).*$", "", inside, flags=re.M)
    return [found.group(1) for found in map(re.compile(r"\s*(\w+)").match, at_commas(text)) if found]


def at_commas(text):
    """The parts between the commas that stand in no bracket."""
    parts, depth = [""], 0
    for letter in text:
        depth += (letter in "([{<") - (letter in ")]}>")
        if letter == "," and depth == 0:
            parts.append("")
        else:
            parts[-1] += letter
    return parts


def parameters(generics):
    """The names of types that <..> binds."""
    return {found.group(1) for found in map(re.compile(r"\s*(\w+)").match, at_commas(generics[1:-1])) if found}


def bounds(generics):
    """The names of the traits that <..> asks for."""
    return {name for part in at_commas(generics[1:-1]) for name in re.findall(r"\b[A-Z]\w*", part.partition(":")[2])}


class Function:
    """A public function: its clauses, the types of its signature and the names that it binds."""

    def __init__(self, source, found, owner, env):
        text = source.text
        self.source, self.crate, self.name, self.owner, self.env = source, source.crate, found.group(3), owner, env
        self.line = self.end = text.count("\n", 0, found.start(3)) + 1
        at = text.index("(", behind_generics(text, found.end()))
        end = closing(text, at)
        head = re.compile(r"\b(?:requires|ensures)\b|[{;]").search(text, end)
        self.types = set(re.findall(r"\b[A-Z]\w*", text[at : head.start()])) - {"Self"} | ({owner} if owner else set())
        self.bound = set(re.findall(r"(\w+)\s*:(?!:)", text[at:end])) | {"result", "self", "Self"}
        self.bound |= parameters(text[found.end() : at])
        self.traits = bounds(text[found.end() : at])
        for kind, _, start, stop, _ in source.blocks:
            if start < found.start() < stop:
                opened = re.match(r"(?:pub )?\w+", text[start:]).end() + start
                self.bound |= parameters(text[opened : behind_generics(text, opened)])
                self.traits |= bounds(text[opened : behind_generics(text, opened)])
                self.bound |= set(re.findall(r"^    ghost (\w+):", text[start:stop], re.M)) if kind == "trait" else set()
        self.clauses, self.lines = [], 0
        clause = re.compile(r"\s*(?:requires|ensures)\b\s*\w*\s*\{")
        place = head.start()
        while found := clause.match(text, place):
            stop = closing(text, found.end() - 1)
            self.clauses.append(source.whole[found.end() : stop])
            self.lines += len([line for line in text[place:stop].split("\n") if line.strip()])
            place = stop + 1
            self.end = text.count("\n", 0, stop) + 1

    def label(self):
        return f"{self.owner}::{self.name}" if self.owner else self.name


@functools.cache
def source(crate, file):
    return Source(crate, file)


@functools.cache
def types(crate):
    return {it.name: it for file in sources(crate) for it in source(crate, file).types()}


@functools.cache
def models(crate):
    return {name: model for file in sources(crate) for name, model in source(crate, file).models()}


@functools.cache
def traits(crate):
    return {name: trait for file in sources(crate) for name, trait in source(crate, file).traits()}


@functools.cache
def exported(crate):
    """The names that a library gives to others."""
    if "src/lib.rt" not in sources(crate):
        return {}
    return rust_uses(source(crate, "src/lib.rt").text, only="pub ")


def module_of(file):
    return os.path.basename(file)[:-3]


@functools.cache
def public_modules(crate):
    return re.findall(r"^pub mod (\w+);", source(crate, "src/lib.rt").text, re.M) if "src/lib.rt" in sources(crate) else []


@functools.cache
def public_functions(crate):
    """The functions that a library gives to others, in the order of its files."""
    found = []
    for file in sources(crate):
        for function in source(crate, file).functions():
            if (function.owner or function.name) in exported(crate) or module_of(file) in public_modules(crate):
                found.append(function)
    return found


@functools.cache
def offered(crate):
    """Each name that a library gives to others, with the names inside it: of a type its calls, variants and constants."""
    found = {name: set() for name in [*exported(crate), *public_modules(crate)]}
    for file in sources(crate):
        here, module = source(crate, file), module_of(file)
        if module in public_modules(crate):
            found[module] |= {it.name for it in [*here.types(), *here.constants()]}
        for definition in here.types():
            if definition.name in exported(crate) or definition.name in found.get(module, ()):
                found.setdefault(definition.name, set()).update(definition.variants)
        for owner, name in here.owned():
            found.get(owner, set()).add(name)
    for function in public_functions(crate):
        found.get(function.owner or module_of(function.source.file), set()).add(function.name)
    for name, (home, own) in exported(crate).items():
        if home in crates():
            found[name] = offered(home).get(own, set())
    return found


# ---- names


def tokens(text):
    return [Token(found.lastgroup, found.group()) for found in TOKEN.finditer(text)]


class Names:
    """The names that a text uses and does not bind itself, as targets."""

    def __init__(self, env, where):
        self.env, self.where, self.targets, self.lost = env, where, [], []

    def see(self, name, part=None):
        if name in self.env:
            for target in self.env[name]:
                if target.name or part:
                    self.targets.append(target if target.name else target._replace(name=part))
        elif name not in BUILT_IN:
            self.lost.append((self.where, name))

    def clause(self, text, bound=()):
        """A clause `f x y = body`: the names of its patterns that are no constructors are bound in its body."""
        words, depth = tokens(text), 0
        for place, word in enumerate(words):
            depth += (word.text in "([{") - (word.text in ")]}") if word.kind == "mark" else 0
            if word == Token("sign", "=") and depth == 0:
                patterns, body = words[:place], words[place + 1 :]
                break
        else:
            return self.walk(words, bound)
        bound = set(bound)
        for place, word in enumerate(patterns):
            part = next_part(patterns, place)
            if word.kind in ("name", "sign") and self.is_constructor(word.text, part):
                self.see(word.text, part)
            elif word.kind == "name":
                bound.add(word.text)
        # The function's own name is no variable.
        if patterns and patterns[0].text in self.env:
            bound.discard(patterns[0].text)
        return self.walk(body, bound)

    def is_constructor(self, name, part):
        return any(is_constructor(target) for target in self.env.get(name, ()) if target.name or part)

    def walk(self, words, bound):
        """Names in order, with a scope for each bracket: what λ, (x : T) and x ← bind holds to the end of the bracket."""
        scopes, open_ifs, names_ahead = [set(bound)], 0, [None]
        place = 0
        while place < len(words):
            kind, text = words[place]
            if kind == "mark" and text in "([{":
                names = binder(words, place + 1)
                scopes.append(set())
                names_ahead.append(names)
                place += len(names)
            elif kind == "mark" and text in ")]}":
                scopes.pop()
                scopes[-1] |= set(names_ahead.pop())
            elif kind == "mark":
                scopes[-1] = set(bound) if len(scopes) == 1 else set()
            elif text == "λ":
                while words[place + 1].kind == "name":
                    place += 1
                    scopes[-1].add(words[place].text)
            elif kind == "name" and words[place + 1 : place + 2] == [Token("sign", "←")]:
                scopes[-1].add(text)
            elif kind == "name" and is_label(words, place):
                pass
            elif text == "if":
                open_ifs += 1
                self.see(text)
            elif text in ("then", "else") and open_ifs:
                open_ifs -= text == "else"
            elif text == "do":
                self.see(">>=")
            elif kind == "name" and not any(text in scope for scope in scopes):
                self.see(text, next_part(words, place))
            elif kind == "sign" and text in self.env:
                self.see(text)
            place += 1


def next_part(words, place):
    """The name behind a dot that follows at once."""
    if place + 1 < len(words) and words[place + 1].kind == "part":
        return words[place + 1].text[1:]
    return None


def binder(words, place):
    """The names before a colon, where a bracket begins with such."""
    names = []
    while place < len(words) and words[place].kind == "name":
        names.append(words[place].text)
        place += 1
    return names if names and place < len(words) and words[place] == Token("sign", ":") else []


def is_label(words, place):
    """The name of a field in `record { name = value }`, or of an implicit argument."""
    return place > 0 and words[place - 1].text in "{;" and place + 1 < len(words) and words[place + 1] == Token("sign", "=")


def is_constructor(target):
    if target.crate not in crates():
        return True
    if target.module.startswith("declared."):
        return target.module.endswith(".TheVariants")
    found = (spec(target.crate, target.module) or {}).get(target.name)
    return bool(found and found.name != target.name)


# ---- what a definition names


def rust_type(source, name, among=types):
    """The type of ours that a name means in a source, or None. Or what else is among those of a crate."""
    crate, name = source.uses.get(name, ("crate", name))
    crate = source.crate if crate in ("crate", "self", "super") else crate
    for _ in range(3):
        if crate not in crates() or name in among(crate):
            break
        crate, name = exported(crate).get(name, ("", name))
    return among(crate).get(name) if crate in crates() else None


def of_type(source, name):
    """What contracts see of a type: its view and its model's names, or the type itself; or nothing of ours. And the names that are lost."""
    found = rust_type(source, name)
    if found is None:
        return [], []
    if found.name not in models(found.crate):
        return [found], []
    value, env, view = models(found.crate)[found.name]
    names = Names(env, f"the model of {found.crate} {found.name}")
    names.walk(tokens(value), ())
    return names.targets + [view] * bool(view.lines), names.lost


def named_by(definition):
    """The targets and types that a definition names, and the names that nothing explains."""
    if of_members(definition):
        return [], []
    if isinstance(definition.env, Source):
        pairs = [of_type(definition.env, name) for name in sorted(definition.types)]
        return sum((pair[0] for pair in pairs), []), sum((pair[1] for pair in pairs), [])
    names = Names(definition.env, f"{definition.crate} {definition.file} {definition.name}")
    head = "\n".join(definition.block or [])
    bound = bound_by(head)
    names.walk(tokens(re.sub(r"^\s*module _|^abbrev mutual$| where$", "", head, flags=re.M)), ())
    for place, text in enumerate(clauses_of(definition)):
        if has_parts(definition):
            head = re.match(r"\s*(?:pub )?(?:record |data )?([\w'-]+)", text)
            names.walk(tokens(re.sub(r" where\s*$", "", text[head.end() :])), bound)
            bound |= {head.group(1)} if place else bound_by(text)
        else:
            names.clause(text, bound)
    return names.targets, names.lost


def bound_by(text):
    """The names of the parameters in a head such as `record R {A : Type 0} (x y : A)`."""
    return {name for names in re.findall(r"[({]((?:[\w']+ )+):", text) for name in names.split()}


def has_parts(definition):
    """Whether it is a record or a list of constructors."""
    return definition.is_data or bool(re.match(r"\s*(pub )?record\b", definition.lines[0]))


def clauses_of(definition):
    """The signature and the clauses of a definition, or the head and the fields of a type, each as one text."""
    parts, indent = [], definition.indent + (2 if has_parts(definition) else 0)
    for line in definition.lines:
        begins = len(line) - len(line.lstrip()) <= indent and line.strip()[0] not in ")}]"
        if not parts or begins:
            parts.append(line)
        else:
            parts[-1] += "\n" + line
    if not has_parts(definition):
        parts = [part for part in parts if not part.strip().startswith("infixl")]
        parts[0] = re.sub(r"^\s*(?:(?:abbrev|pub|unfoldable)\s+)*\S+ :", "", parts[0], count=1)
    return parts


def at_target(target):
    """The definition that a target means: of ours, or None; and whether it is of ours at all."""
    if target.crate not in crates():
        return None, False
    if not target.module.startswith("declared."):
        return (spec(target.crate, target.module) or {}).get(target.name), True
    parts = target.module.split(".")[1:]
    if parts[-1] == "TheConstants":
        constants = source(target.crate, os.path.join("src", *parts[:-1]) + ".rt").constants()
        return {it.name: it for it in constants}.get(target.name), True
    parts = parts if parts[-1][0].isupper() and not parts[-1].startswith("The") else parts[:-1]
    file = os.path.join("src", *parts[:-1]) + ".rt"
    return {it.name: it for it in source(target.crate, file).types()}.get(parts[-1]), True


def is_rows(file):
    """Worked examples: Rows, and MessageRowsLater beside MessageRows."""
    return "Rows" in file


class Reach:
    """All that is reached from functions: definitions in the order of the walk, modules of the toolchain, and what was lost."""

    def __init__(self, functions):
        self.found, self.trusted, self.lost = {}, collections.defaultdict(set), set()
        self.queue = collections.deque()
        for function in functions:
            names = Names(function.env, f"the contract of {function.crate} {function.label()}")
            for clause in function.clauses:
                names.walk(tokens(re.sub(r"//[^\n]*", "", clause)), function.bound)
            # A clause may also name a type as the code does.
            own = {name: rust_type(function.source, name) for _, name in names.lost}
            self.take(names.targets + list(filter(None, own.values())), [lost for lost in names.lost if not own[lost[1]]])
            for name in sorted(function.types):
                self.take(*of_type(function.source, name))
            asked = (rust_type(function.source, name, traits) for name in sorted(function.traits))
            self.take([trait for trait in asked if trait and trait.lines], [])
        while self.queue:
            self.take(*named_by(self.queue.popleft()))

    def take(self, targets, lost):
        self.lost |= set(lost)
        for target in targets:
            definition, is_ours = (target, True) if isinstance(target, Definition) else at_target(target)
            if not is_ours:
                self.trusted[target.crate].add(target.module.removesuffix(".TheVariants"))
            elif definition is None:
                self.lost.add((f"{target.crate} {target.module}", target.name))
            elif not is_rows(definition.file) and definition.key() not in self.found:
                self.found[definition.key()] = definition
                self.queue.append(definition)

    def in_turn(self):
        """All definitions, each after those that it names."""
        rest, ordered = dict(self.found), []

        def visit(definition):
            if rest.pop(definition.key(), None):
                for target in named_by(definition)[0]:
                    named = target if isinstance(target, Definition) else at_target(target)[0]
                    if named:
                        visit(named)
                ordered.append(definition)

        for definition in self.found.values():
            visit(definition)
        return ordered

    def by_file(self):
        """Crate, file and definitions, in the order of crates.txt and of specs/; the types of a crate come last, as its src."""
        files = collections.defaultdict(list)
        for definition in self.found.values():
            files[definition.crate, "src" if of_src(definition) else definition.file].append(definition)
        order = reading_order()
        for (crate, file), definitions in sorted(files.items(), key=lambda it: order(*it[0])):
            yield crate, file, sorted(definitions, key=lambda it: (it.file, it.start))


def of_members(definition):
    """Whether it is the view of a type, or what a trait leaves open."""
    return definition.env is None


def of_src(definition):
    """Whether it stands in src/."""
    return isinstance(definition.env, Source) or of_members(definition)


def lines_of(definitions):
    """Their lines of code; the head of a block counts once."""
    definitions = list(definitions)
    heads = {id(it.block): len(it.block) for it in definitions if it.block}
    return sum(len(it.lines) for it in definitions) + sum(heads.values())


@functools.cache
def reading_order():
    ranks = {line.split()[0].rstrip(":"): rank for rank, line in enumerate(filter(str.strip, read("..", "crates.txt").split("\n")))}

    def rank(crate, file):
        modules = re.findall(r"^pub mod (\w+)", read(crate, "specs", "Lib.antt"), re.M)
        return ranks.get(crate, 99), crate, modules.index(file) if file in modules else 99

    return rank
