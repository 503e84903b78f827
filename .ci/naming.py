"""Whether what a document names is there. .ci/documents asks it.

A unit is a row of a table or a sentence. A file that a unit names is in a crate that the unit names, if it names any.
"""
import collections
import functools
import os
import re

import repository as repo
from repository import CRATE, FOREIGN, NAME_OF_CRATE, OPTION, PROGRAM, TOOLCHAIN, definitions

BLOCK = re.compile(r"\n\s*\n|\n(?=\s*(?:[-*] |\d+\. |\||#))")
SENTENCE = re.compile(r"(?<=[\w`)\"*][.?!])\s+")
CODE = re.compile(r"`([^`]+)`")
TARGET = re.compile(r"\]\([^)]*\)")
FILE = re.compile(r"(?<![\w./*-])(?:[\w.-]+/)*[\w-][\w.-]*\.([a-z]+)\b(?![\w/*])")
TOPS = r"(?:\.ci|audit|bench|crates|dist|docs|examples|failover|feed|hdfs|src|specs|proofs|must-fail)"
PATH = re.compile(rf"(?<![\w./*<-])(?:\.\./)*({TOPS}/[\w./*-]*[\w*])/?(?![\w$/])")
OF_CRATE = re.compile(r"\b(?:src|specs|proofs|must-fail)/")
NAMES = re.compile(r"(?<!\w)((?:\w+::)+\w+)")
LIST = r"`\w+`(?:(?:,| and| or)\s+`\w+`)*"
# The files of specs/ behind a crate: CRATE/specs `Name` (`definition`), `Name`.
SPECS = re.compile(rf"\b({NAME_OF_CRATE})(/specs)?:?\s+((?:`[A-Z]\w*`(?:\s+\([^()]*\))?(?:,\s+|\s+and\s+|\s+or\s+)?)+)")
# What a file has: its name, and in brackets names of it.
INSIDE = re.compile(rf"(?:`([A-Z]\w*)`|([\w./]+\.(?:rt|antt)))\s+\(({LIST})\)")
OWNED = re.compile(rf"`([\w:]+)(?:\([^`]*\))?`\s+of\s+({NAME_OF_CRATE})\b")
# Calls in a list: behind `Type::call` the type is left out.
CALLS = re.compile(r"`\w+::\w+(?:\([^`]*\))?`(?:(?:,| and|, and|;)\s+`[\w:]+(?:\([^`]*\))?`)+")
ARGUMENT = re.compile(r'[A-Z]+|"TEXT"|\[N\]|\d+')
# Documents in which a word with an argument is one of the service or of its answers.
OF_SERVICE = {"README.md", "bench/RESULTS.md", *(f"docs/{it}.md" for it in "GUIDE LIVE FORMATS DECISIONS EMBEDDING".split())}

Unit = collections.namedtuple("Unit", "text block section")


def units(prose):
    for section in re.split(r"^(?=#+ )", prose, flags=re.M):
        for block in BLOCK.split(section):
            for text in [block] if block.strip().startswith("|") else SENTENCE.split(block):
                yield Unit(text, block, section)


def tables(prose):
    """Each table: the first cell of its head, and the first cells of its rows."""
    for table in re.findall(r"(?:^\|.*\n)+", prose, flags=re.M):
        cells = [re.split(r"(?<!\\)\|", row)[1].strip() for row in table.splitlines()]
        yield cells[0], cells[2:]


class Naming:
    """What is wrong with the names of a document: a list of texts."""

    def __init__(self, name, prose, fenced):
        self.name, self.here, self.faults = name, os.path.dirname(name), []
        self.prose = re.sub(r"<!--.*?-->", "", prose, flags=re.S)
        for unit in units(self.prose):
            self.look_at_unit(unit._replace(text=TARGET.sub("]", unit.text)))
        for line in fenced:
            self.look_at_command(line, None)
            self.look_at_paths(Unit(line, line, line))
        self.look_at_tables()

    def fault(self, what):
        if what not in self.faults:
            self.faults.append(what)

    def look_at_unit(self, unit):
        for span in CODE.findall(unit.text):
            self.look_at_span(span)
            self.look_at_words(span)
            self.look_at_command(span, unit)
        self.look_at_calls(unit)
        self.look_at_files(unit)
        self.look_at_paths(unit)
        self.look_at_specs(unit)
        for name in CRATE.findall(re.sub(r"`[^`]*`", " ", unit.text)):
            if name not in repo.crates() and name not in repo.names_of_code():
                self.fault(f"no crate {name}")

    # ---- names of the code

    def look_at_span(self, span):
        """A span that is a path, or one name."""
        name = span.partition("(")[0]
        if re.fullmatch(r"[\w.]+(?:/[\w.*-]+)+/?", span):
            if not self.is_path(span) and span not in repo.edits():
                self.fault(f"no file and no must-fail edit `{span}`")
        elif re.fullmatch(r"(?:[a-z]\w*_\w+|[A-Z]\w*[a-z]\w*)(?:\(.*\))?", span):
            is_foreign = self.name in repo.OF_HADOOP and name[0].isupper()
            if not is_foreign and name not in repo.names_of_code() and name not in repo.edits():
                self.fault(f"nothing is named {name}: `{span}`")
        elif re.fullmatch(r"[a-z]\w*-\w+-[a-z]+_\w+", span) and span not in repo.edits():
            self.fault(f"no must-fail edit `{span}`")

    def look_at_calls(self, unit):
        """Paths of names. A name in a list behind `Type::call` is one of that type too, or one that stands alone."""
        for span in CODE.finditer(unit.text):
            behind = re.match(rf"\s+of\s+({NAME_OF_CRATE}\b)", unit.text[span.end() :])
            home = behind[1] if behind and behind[1] in repo.crates() else None
            for path in NAMES.findall(span[1]):
                if not repo.is_path_of_names(path, [home] if home else sorted(repo.crates())):
                    self.fault(f"no public name {path}{f' in {home}' if home else ''}: `{span[1]}`")
        for run in CALLS.findall(unit.text):
            for span in CODE.findall(run):
                owner, _, name = span.partition("(")[0].rpartition("::")
                place = owner or place
                if not owner and place in repo.given() and name not in repo.given()[place] and name not in repo.given():
                    self.fault(f"no public name {place}::{name}: `{span}` in a list")

    # ---- files

    def is_path(self, span):
        """Whether it is a file or a folder from the top or from the document's folder, or what a build makes."""
        if "/out/" in f"/{span}/":
            return True
        parts = ["*" if re.fullmatch(r"[A-Z]{4,}", part) else part for part in span.rstrip("/").split("/")]
        name = "/".join(parts)
        if "*" not in name:
            return name in repo.paths() or f"{self.here}/{name}" in repo.paths()
        pattern = re.compile(rf"(?:{re.escape(self.here)}/)?" + re.escape(name).replace(r"\*", "[^/]*"))
        return any(map(pattern.fullmatch, repo.paths()))

    def homes_of(self, unit, start, end):
        """The crates in which a file may be whose name stands there: the one beside it, or those of its unit or block."""
        before = re.search(rf"\b({NAME_OF_CRATE}):?\s+`?$", unit.text[:start])
        behind = re.match(rf"`?\s+(?:of|in)\s+({NAME_OF_CRATE}\b)", unit.text[end:])
        beside = [it[1] for it in (before, behind) if it and it[1] in repo.crates()]
        return beside or crates_in(unit.text) or crates_in(unit.block) or sorted(repo.crates())

    def look_at_files(self, unit):
        """Files by their names, with a part of their paths before them or without."""
        for found in FILE.finditer(unit.text):
            name, kind, base = found[0], found[1], os.path.basename(found[0])
            if kind not in kinds() or name in repo.tracked() or name in repo.FOREIGN_FILES:
                continue
            if PATH.match(name) and not OF_CRATE.match(name):
                continue
            if kind in ("rt", "antt"):
                homes = self.homes_of(unit, found.start(), found.end())
                if not any(name in repo.files_of(crate) for crate in homes):
                    self.fault(f"no file {name} in {told(homes, 'any crate')}: {shown(unit)}")
            # NAME.out and such stand for any name.
            elif (base == base.lower() or kind == "md") and name not in repo.ends_of_files():
                self.fault(f"no file {name}: {shown(unit)}")

    def look_at_paths(self, unit):
        """Paths from the top, and those from the top of a crate."""
        for found in PATH.finditer(unit.text):
            path = found[1]
            if not OF_CRATE.match(path):
                if not self.is_path(path):
                    self.fault(f"nothing is at {path}: {shown(unit)}")
            elif not FILE.fullmatch(path):
                homes = self.homes_of(unit, found.start(), found.end())
                if not any(path in repo.files_of(crate) for crate in homes):
                    self.fault(f"nothing is at {path} in {told(homes, 'any crate')}: {shown(unit)}")

    def look_at_specs(self, unit):
        """Files of specs/, and what stands in brackets behind a file."""
        named = crates_in(unit.text)
        for crate, of_specs, names in SPECS.findall(unit.text):
            for name in CODE.findall(re.sub(r"\([^()]*\)", "", names)):
                if crate in repo.crates() and name not in (repo.specs_of(crate) if of_specs else repo.defined_in(crate)):
                    self.fault(f"no {name} in {crate}{of_specs}: {shown(unit)}")
        for name, crate in OWNED.findall(unit.text):
            if crate in repo.crates() and "::" not in name and name not in repo.defined_in(crate):
                self.fault(f"no {name} in {crate}: {shown(unit)}")
        for name in CODE.findall(unit.text):
            if named and name in repo.names_of_specs() and not any(name in repo.defined_in(crate) for crate in named):
                self.fault(f"no {name} in {told(named, 'any crate')}: {shown(unit)}")
        for spec, file, names in INSIDE.findall(unit.text):
            ends = (f"/specs/{spec}.antt",) if spec else (f"/{file}",)
            homes = tuple(f"crates/{crate}/" for crate in named or repo.crates())
            texts = [repo.read(it) for it in repo.tracked() if it.startswith(homes) and f"/{it}".endswith(ends)]
            for name in CODE.findall(names) if texts else ():
                if not any(re.search(rf"\b{name}\b", text) for text in texts):
                    self.fault(f"no {name} in {spec or file}: {shown(unit)}")

    # ---- commands, options, words

    def look_at_command(self, line, unit):
        """Each option of a command line is one of the command before it. Without a unit one that stands alone may be any."""
        owners = set()
        for word in line.split():
            owners = {PROGRAM} if word == "--" and TOOLCHAIN in owners else repo.owners_of(word, self.here, not owners) or owners
            for option in OPTION.findall(word):
                if owners and FOREIGN not in owners and not any(option in repo.options_of(it) for it in owners):
                    self.fault(f"no option {option} of {told(owners, 'any script')}: `{line}`")
                elif not owners and unit:
                    self.look_at_option(option, unit)

    def look_at_option(self, option, unit):
        """An option alone is one of the program, of the scripts of the heading, or of those that are named nearest to it.

        Where the document names no script, it may be one of the commands of audit/ and hdfs/. The toolchain's stand in a block that names it.
        """
        heading = unit.section.partition("\n")[0]
        nearby = (scripts_in(text, self.here) for text in (unit.text, unit.block, self.prose))
        near = next(filter(None, nearby), repo.of_clusters())
        near = near | scripts_in(heading, self.here) | {PROGRAM} | {TOOLCHAIN} & set(re.findall(r"`(rt) ", unit.block))
        if not any(option in repo.options_of(it) for it in near):
            self.fault(f"no option {option} of {told(near, 'the program and the commands of audit/ and hdfs/')}: {shown(unit)}")

    def look_at_words(self, span):
        """A word of the service before its argument, or a line of its answers."""
        words = span.split()
        if self.name not in OF_SERVICE or not all(ARGUMENT.fullmatch(it) or re.fullmatch("[a-z_]+", it) for it in words):
            return
        asking = {word for word, behind in repo.words_of_service() if behind} | {"lost"} | repo.words_of_answers()
        for word in words if any(map(ARGUMENT.fullmatch, words)) else ():
            if not ARGUMENT.fullmatch(word) and word not in asking:
                self.fault(f"no word and no answer {word}: `{span}`")

    def look_at_tables(self):
        """A table of scripts has scripts. The tables of words and of the program's options have all of them, and no others."""
        first = collections.defaultdict(list)
        for head, cells in tables(self.prose):
            first[head] += [span for cell in cells for span in CODE.findall(cell)]
        for span in first["Script"]:
            if not repo.owners_of(span.split()[0], self.here, True) & repo.scripts():
                self.fault(f"no script `{span}`")
        if self.name == "docs/LIVE.md":
            there = {f"{word} .." if behind else word for word, behind in repo.words_of_service()}
            self.compare("word", set().union(*map(ways, first["Word"])), there)
            if first["Word"] != repo.words_of_help():
                self.fault(f"`help` has other words than the table: {', '.join(repo.words_of_help())}")
        if self.name == "docs/GUIDE.md":
            self.compare("option", {span.split()[0] for span in first["Option"]}, repo.options_of(PROGRAM))

    def compare(self, kind, shown, there):
        for name in sorted(shown - there):
            self.fault(f"the program has no {kind} `{name}`")
        for name in sorted(there - shown):
            self.fault(f"the table lacks the {kind} `{name}`")


def ways(span):
    """How a word may stand: alone, before something (`WORD ..`), or both, where that is in square brackets."""
    word, _, rest = span.partition(" ")
    return {word, f"{word} .."} if rest.startswith("[") else {f"{word} .." if rest else word}


@functools.cache
def scripts_in(text, here):
    """The scripts that a text names, in its headings also without quotes."""
    words = [span.split()[0] for span in CODE.findall(text)] + re.findall(r"[\w.]+(?:/[\w.-]+)+", text)
    words += [word for line in text.splitlines() if line.startswith("#") for word in line.split()]
    return set().union(*(repo.owners_of(word, here, True) for word in words)) & repo.scripts()


def crates_in(text):
    return sorted(set(CRATE.findall(text)) & repo.crates())


@functools.cache
def kinds():
    """The endings of files."""
    return {name.rpartition(".")[2] for name in repo.tracked() if "." in os.path.basename(name)}


def told(names, all_of_them):
    return ", ".join(sorted(names)) if len(names) < 9 else all_of_them


def shown(unit):
    text = " ".join(unit.text.split())
    return text if len(text) < 80 else f"{text[:77]}.."
