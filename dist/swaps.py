"""Tries .ci/releases on a release of a clone, and on archives that were changed with all their sums.

The clone's release is of a gate that never ran, and of a program that may be unproved: made-up folders stand for what the
gate proved, and `rt run` would fail there.
"""
import glob
import os
import re
import shutil
import subprocess

from evidence import OBJECT, PROGRAM, chain, read, sum_of
from packing import File, pack, unpacked

PLACE, LINK = "bin/nn_standby", "link/nn_standby.o"
SOMEBODY = ["-c", "user.name=nobody", "-c", "user.email=nobody@example.invalid"]
# What stands for the toolchain: it proves nothing.
STAND_IN = 'case "$1" in run) exit 1;; *) exec {rt} "$@";; esac'


class Swaps:
    """A clone with a release."""

    def __init__(self, trials, top):
        self.trials = trials
        self.tally = trials.tally
        self.top = top
        self.surroundings = trials.with_a_stand_in("rt", STAND_IN.format(rt=shutil.which("rt")))
        for place, name in ((PROGRAM, trials.program), (OBJECT, f"{trials.program}.o")):
            os.makedirs(os.path.dirname(os.path.join(top, place)), exist_ok=True)
            shutil.copy(name, os.path.join(top, place))
        for name in chain()[0]:
            library = os.path.join(top, "crates", name, "out", "rlib", f"{name}.rlib")
            os.makedirs(library)
            with open(os.path.join(library, "format"), "w") as file:
                file.write(name)

    def git(self, *words):
        return subprocess.run(["git", *SOMEBODY, *words], cwd=self.top, check=True, capture_output=True, text=True).stdout.strip()

    def make(self):
        """Makes the release and commits it, as whoever has one to make does."""
        version = subprocess.run(["rt", "version"], check=True, capture_output=True, text=True).stdout.strip()
        told = subprocess.run([os.path.join(self.top, "dist", "evidence.py")], check=True, capture_output=True, text=True).stdout
        sums = told.splitlines()
        self.tally.holds("the sums of what a gate made", len(sums) == 2 + len(chain()[0]), told)
        lines = [f"commit {self.git('rev-parse', 'HEAD')}", f"toolchain {version}", "1 passed, 0 failed", *sums, "the gate passed"]
        log = os.path.join(self.top, "out", "gate.log")
        os.makedirs(os.path.dirname(log), exist_ok=True)
        with open(log, "w") as file:
            file.write("".join(f"{line}\n" for line in lines))
        done = subprocess.run([os.path.join(self.top, "dist", "make"), "--release"], env=self.surroundings, capture_output=True, text=True)
        self.tally.holds("dist/make --release", done.returncode == 0, done)
        self.commit()

    def commit(self):
        self.git("add", "--all")
        self.git("commit", "--quiet", "--message", "A release")

    def says(self, name, status, words, *more):
        """What .ci/releases says of the release as it is."""
        done = subprocess.run([os.path.join(self.top, ".ci", "releases"), *more], env=self.surroundings, capture_output=True, text=True)
        self.tally.holds(name, done.returncode == status and words in done.stdout, done)

    def change(self, changed):
        """Changes files of the archive, and each sum that tells of them."""
        (path,) = glob.glob(os.path.join(self.top, "releases", "*.tar.gz"))
        folder, files = unpacked(path)
        for name, data in changed.items():
            old, new = sum_of(files[name].data), sum_of(data)
            files[name] = File(data, files[name].is_executable)
            for told in ("RELEASE", "HOW-TO-REBUILD", "gate.log"):
                files[told] = File(files[told].data.replace(old.encode(), new.encode()))
        pack(path, folder, files, 0)
        self.write_sum(path, sum_of(read(path)))

    def write_sum(self, path, its_sum):
        with open(os.path.join(self.top, "releases", "SHA256SUMS"), "w") as file:
            file.write(f"{its_sum}  {os.path.basename(path)}\n")

    def back(self):
        self.git("checkout", "--quiet", "--", "releases")

    def without(self):
        """The clone has no release, not even the one that is in the repository."""
        releases = os.path.join(self.top, "releases")
        if os.path.isdir(releases):
            shutil.rmtree(releases)
            self.commit()

    def run(self):
        self.without()
        self.says("no release", 0, "release: there is none in releases/", "--quick")
        self.make()
        (path,) = glob.glob(os.path.join(self.top, "releases", "*.tar.gz"))
        same = "its object and its program are those just built"
        self.says("a release", 0, same)
        _, files = unpacked(path)
        other, its_sum = files[PLACE].data + b"\0", sum_of(read(path))
        self.write_sum(path, its_sum.translate(str.maketrans("0123456789", "1234567890")))
        self.says("a sum that was changed", 1, "has not the sum that SHA256SUMS tells", "--quick")
        self.back()
        for name, data, words in (
            (PLACE, other, "its program is not what the linker makes of its object"),
            (LINK, files[LINK].data + b"\0", "its object is not the one that was just built"),
            ("RELEASE", re.sub(b"(?m)^commit: .*", b"commit: " + b"1" * 40, files["RELEASE"].data), "its gate.log is not of a gate"),
            ("audit/zulurowan-audit", b"#!/bin/sh\n", "audit/zulurowan-audit is not that of its commit"),
        ):
            self.change({name: data})
            self.says(f"{name} that was swapped, with its sums", 1, words, "--quick")
            self.back()
        self.of_another_commit(files)
        self.of_an_earlier_commit(other)

    def of_another_commit(self, files):
        """A commit that this history has not, in whatever the archive says."""
        ours = self.git("rev-parse", "HEAD~1").encode()
        self.change({name: files[name].data.replace(ours, b"1" * 40) for name in ("RELEASE", "gate.log")})
        self.says("a commit that is none", 1, f"{'1' * 40} is no commit of this history", "--quick")
        self.back()

    def of_an_earlier_commit(self, other):
        """Where the sources changed, a program that was swapped with its sums is not found, and the check says so."""
        crates = os.path.join(self.top, "crates", f"{chain()[0][0]}", "src", "lib.rt")
        with open(crates, "a") as file:
            file.write("// another line\n")
        self.commit()
        self.says("an earlier commit", 0, "of an earlier commit, its sums alone", "--quick")
        self.change({PLACE: other})
        self.says("a swap that is not found", 0, "of an earlier commit, its sums alone", "--quick")
        self.back()
