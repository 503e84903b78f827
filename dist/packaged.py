"""Tries a package for Debian: what it installs runs from a folder, and its pages and completions say what --help does."""
import gzip
import os
import re
import shutil
import subprocess

from evidence import ROOT, read
from package import COMMANDS, SHELLS

STORY = "usr/lib/zulurowan/examples/story"
LONG = re.compile(r"(?<![\w-])--[a-z][a-z-]*")
FISH = re.compile(r" -l ([a-z-]+)")


class Packaged:
    """A package, unpacked in a folder."""

    def __init__(self, trials, archive):
        self.tally = trials.tally
        self.top = trials.path("package")
        self.archive = archive

    def path(self, name):
        return os.path.join(self.top, name)

    def call(self, *words, **how):
        return subprocess.run(words, capture_output=True, text=True, **how)

    def make(self):
        """Makes it twice. Answers its path, or None where there is no dpkg-deb."""
        made = []
        for _ in range(2):
            done = self.call(os.path.join(ROOT, "dist", "package.py"), self.archive)
            self.tally.holds("dist/package.py", done.returncode == 0, done)
            made.append(read(done.stdout.strip()))
        self.tally.holds("a package that is made twice", made[0] == made[1])
        if shutil.which("dpkg-deb"):
            return done.stdout.strip()
        print("there is no dpkg-deb, and no package was unpacked")
        return None

    def run(self):
        deb = self.make()
        if deb is None:
            return
        listed = self.call("dpkg-deb", "-c", deb).stdout
        for name in (*(f"usr/bin/{it}" for it in COMMANDS), *(f"lib/systemd/system/zulurowan-{it}" for it in ("watch.timer", "feed.service", "failover.service"))):
            self.tally.holds(f"{name} of the package", re.search(rf" \./{re.escape(name)}(?: ->|$)", listed, re.M), listed[:2000])
        self.call("dpkg-deb", "-x", deb, self.top, check=True)
        self.commands()
        for name in COMMANDS:
            self.pages(name)

    def commands(self):
        """The installed commands do what they do in the archive."""
        first, last, log = (f"{STORY}/{it}" for it in ("fsimage_18.xml", "fsimage_58.xml", "edits_1-58.xml"))
        for words, given, wanted in (
            (["nn_standby"], "early_report.jsonl", read(os.path.join(ROOT, "examples", "early_report.out")).decode()),
            (["zulurowan-audit", "--from", first, "--to", last, log], None, "the same in "),
        ):
            with open(os.path.join(ROOT, "examples", given) if given else os.devnull) as file:
                done = self.call(self.path(f"usr/bin/{words[0]}"), *words[1:], stdin=file, cwd=self.top)
            self.tally.holds(f"{words[0]} of the package", done.returncode == 0 and wanted in done.stdout, done)

    def pages(self, name):
        """The page and the completions of a command have the options of its --help, and no others."""
        wanted = set(LONG.findall(self.call(self.path(f"usr/bin/{name}"), "--help").stdout))
        page = gzip.decompress(read(self.path(f"usr/share/man/man1/{name}.1.gz"))).decode().replace("\\-", "-")
        told = {"the page": set(LONG.findall(page))}
        for shell, where in SHELLS.items():
            text = read(self.path(where.format(name))).decode()
            told[shell] = {f"--{it}" for it in FISH.findall(text)} if shell == "fish" else set(LONG.findall(re.sub(r"\[.*?\]", "", text)))
        for what, options in told.items():
            self.tally.holds(f"the options of {name} for {what}", options == wanted, (options, wanted))
        for shell, where in SHELLS.items():
            if shutil.which(shell):
                done = self.call(shell, "-n", self.path(where.format(name)))
                self.tally.holds(f"the completions of {name} for {shell}", done.returncode == 0, done)
        if shutil.which("man") and shutil.which("groff"):
            done = self.call("man", "--warnings", "-l", self.path(f"usr/share/man/man1/{name}.1.gz"), env={**os.environ, "MANWIDTH": "1000", "LC_ALL": "C.UTF-8"})
            self.tally.holds(f"how the page of {name} is set", (done.returncode, done.stderr) == (0, "") and "OPTIONS" in done.stdout, done)
