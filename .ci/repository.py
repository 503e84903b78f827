"""What the repository has that a document may name: files, crates, calls, scripts and their options, words of `--live`."""
import functools
import os
import re
import subprocess
import sys

ROOT = os.path.dirname(os.path.dirname(os.path.realpath(__file__)))
sys.path.append(os.path.join(ROOT, "bench"))
import definitions

PROGRAM, TOOLCHAIN, FOREIGN = "nn_standby", "rt", "foreign"
# Options of the toolchain that documents may name.
OF_TOOLCHAIN = frozenset("--only --test --jobs --start --fix-imports --allow-holes --fail-alloc --list-axioms".split())
# Programs that are not ours. Their options are not looked up.
FOREIGN_PROGRAMS = {"cargo", "hdfs", "find", "ssh", "curl", "apt-get"}
# Paths of names that are not ours, or stand for any name.
FOREIGN_PATHS = {"serde_json::Value", "module::function"}
# Documents whose names with capitals may be Hadoop's.
OF_HADOOP = {"docs/HDFS.md"}
# Files that are not ours, or that a script makes.
FOREIGN_FILES = {"results.jsonl"}

OPTION = re.compile(r"(?<![\w-])--[a-z][a-z-]*")
NAME_OF_CRATE = r"(?:nn|test|example)_[a-z_]+"
CRATE = re.compile(rf"\b{NAME_OF_CRATE}\b")


# ---- files


def path_of(name):
    return os.path.join(ROOT, name)


def read(name):
    with open(path_of(name), encoding="utf-8") as file:
        return file.read()


@functools.cache
def tracked():
    """The files of the repository, with those that are new."""
    words = ["git", "ls-files", "-co", "--exclude-standard"]
    names = subprocess.run(words, cwd=ROOT, capture_output=True, text=True, check=True).stdout.splitlines()
    return {name for name in names if os.path.exists(path_of(name))}


@functools.cache
def folders():
    return {name[:at] for name in tracked() for at, sign in enumerate(name) if sign == "/"}


@functools.cache
def paths():
    """The files and the folders."""
    return tracked() | folders()


def ends(name):
    """Each end of a path."""
    return [name] + [name[at + 1 :] for at, sign in enumerate(name) if sign == "/"]


@functools.cache
def ends_of_files():
    return {end for name in tracked() for end in ends(name)}


@functools.cache
def crates():
    return {name.split("/")[1] for name in tracked() if name.startswith("crates/")}


@functools.cache
def files_of(crate):
    """The files and folders of a crate, by each end of their paths."""
    top = f"crates/{crate}/"
    return {end for name in paths() if name.startswith(top) for end in ends(name.removeprefix(top))}


@functools.cache
def edits():
    """Each must-fail edit as CRATE/BUG, and the names of the bugs alone."""
    found = set()
    for name in tracked():
        at = re.fullmatch(r"(?:crates/(\w+)/must-fail|bench/edits/(\w+))/(?:[^/]*-)?(\w+)\.edit", name)
        if at:
            found.update({f"{at[1] or at[2]}/{at[3]}", at[3], os.path.basename(name)[:-5]})
    return found


# ---- names of the code


@functools.cache
def names_of_code():
    """Each name that code, definitions, the feeder and the failover use, each crate of crates.txt, and each file by its name alone."""
    words = set(re.findall(r"[\w-]+", read("crates.txt")))
    for name in tracked():
        words.update(os.path.basename(name).split(".")[:1])
        if name.startswith("crates/") and name.endswith((".rt", ".antt")) and "/proofs/" not in name:
            words.update(re.findall(r"[^\W\d]\w*", read(name)))
        if name.startswith(("feed/", "failover/")) and name.endswith(".py"):
            words.update(re.findall(r"[^\W\d]\w*", read(name)))
    return words


@functools.cache
def specs_of(crate):
    """The names of the files of specs/ of a crate."""
    top = f"crates/{crate}/specs/"
    return {name[len(top) : -5] for name in tracked() if name.startswith(top) and name.endswith(".antt") and name.count("/") == 3}


@functools.cache
def defined_in(crate):
    """What a crate gives to others, its types, and its definitions with their files."""
    given = definitions.offered(crate)
    specs = [definitions.spec(crate, name) for name in specs_of(crate)]
    return set().union(specs_of(crate), definitions.types(crate), given, *given.values(), *specs)


@functools.cache
def given():
    """The names that libraries give to others, and those inside each, whichever library it is."""
    found = {}
    for crate in crates():
        for name, inside in definitions.offered(crate).items():
            found.setdefault(name, set()).update(inside)
    return found


@functools.cache
def names_of_specs():
    """The names that are a file of specs/ of a crate, and no type."""
    return set().union(*map(specs_of, crates())) - set().union(*map(definitions.types, crates()))


def is_offered(parts, crate):
    """Whether a library gives this to others: a name of its own, or one inside a type, a trait or a module."""
    here = definitions.offered(crate)
    if len(parts) == 1:
        return parts[0] in here
    return parts[1] in here.get(parts[0], ()) and (len(parts) == 2 or is_offered(parts[1:], crate))


def is_path_of_names(path, homes):
    """Whether a path such as `Type::call` or `nn_types::limits` is a name that one of these crates gives to others."""
    first, *rest = path.split("::")
    if first == "crate" or first in crates():
        homes = homes if first == "crate" else [first]
        if rest[0] == "specs":
            return any(rest[-1] in (definitions.spec(crate, "/".join(rest[1:-1])) or {}) for crate in homes)
        return any(is_offered(rest, crate) for crate in homes)
    return path in FOREIGN_PATHS or any(is_offered([first, *rest], crate) for crate in homes)


# ---- scripts, options, words


@functools.cache
def scripts():
    """The files that are run."""
    tops = (".ci/", "audit/", "bench/", "dist/", "examples/check", "examples/live/", "failover/", "feed/", "hdfs/")
    return {name for name in tracked() if name.startswith(tops) and os.access(path_of(name), os.X_OK)}


@functools.cache
def of_clusters():
    """The commands that judge a cluster."""
    return {name for name in scripts() if name.startswith(("audit/", "hdfs/"))}


@functools.cache
def owners_of(word, here, alone):
    """What a word of a command line means: scripts, the program, the toolchain; nothing where it is no command.

    A command that judges a cluster may be called by its name alone, such as `audit`, and so may a script in the document's folder.
    """
    word = word.strip("`$(),;:[]").rstrip(".").rpartition("=")[2]
    if word.rpartition("/")[2] == PROGRAM:
        return {PROGRAM}
    if alone and word == TOOLCHAIN:
        return {TOOLCHAIN}
    if alone and word in FOREIGN_PROGRAMS:
        return {FOREIGN}
    if "/" in word:
        return {it for it in scripts() if f"/{word}".endswith(f"/{it}") or it == f"{here}/{word}"}
    if not alone:
        return set()
    name = word.replace("_", "-").removeprefix("zulurowan-")
    return {f"{here}/{word}"} & scripts() or {it for it in of_clusters() if os.path.basename(it).removeprefix("zulurowan-") == name}


@functools.cache
def options_of(owner):
    """The options of a script, of the program or of the toolchain."""
    if owner == PROGRAM:
        named = re.findall(r'\b(?:flag|optional|valued)\(alloc, "([a-z-]+)"', read("crates/nn_command/src/options.rt"))
        return frozenset(f"--{word}" for word in [*named, "help", "version"])
    if owner == TOOLCHAIN:
        return OF_TOOLCHAIN
    text = read(owner)
    # A script without a parser says them where it says how it is called.
    named = re.findall(r'\badd_argument\(((?:\s*"-[\w-]+",?)+)', text)
    folder, name = os.path.split(owner)
    called = re.findall(rf'^(?:"""|# )?(?:{re.escape(folder)}/)?{name} (.*)$', text, re.M)
    return frozenset(OPTION.findall(" ".join(named or called))) | {"--help"}


@functools.cache
def words_of_service():
    """Each word that nn_live reads, and whether something stands behind it."""
    text = read("crates/nn_live/src/word.rt")
    alone = re.findall(r'^\s*"(\w+)" => Some\(Word::', text, re.M)
    return {(word, False) for word in alone} | {(word, True) for word in re.findall(r'strip_prefix\(b"(\w+) "\)', text)}


@functools.cache
def words_of_help():
    """The words as the service's `help` tells them, in its order."""
    text = read("crates/nn_live/specs/Help.antt")
    lines = re.search(r"^help_lines =(.*?)^$", text, re.M | re.S)[1]
    return [line.replace('\\"', '"') for line in re.findall(r'codes "((?:\\.|[^"\\])*)"', lines)]


@functools.cache
def words_of_answers():
    """The words in the texts of which the definitions of output are made, without the worked examples."""
    found = set()
    for crate in ("nn_live", "nn_listing", "nn_run", "nn_types"):
        for name in specs_of(crate):
            if not definitions.is_rows(name) and (crate, name) not in {("nn_live", "Words"), ("nn_live", "Help")}:
                for text in re.findall(r'\bcodes "([^"]*)"', read(f"crates/{crate}/specs/{name}.antt")):
                    found.update(text.split())
    return found
