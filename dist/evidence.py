#!/usr/bin/env python3
"""Prints the SHA-256 of what a gate made: of the program, of its object, and of each proved library below them.

.ci/run puts these lines into out/gate.log, and dist/make compares them. The sum of a library is that of what this prints
in its folder, whose below/ has copies of other libraries:

    find . -type f ! -path './below/*' -print0 | LC_ALL=C sort -z | xargs -0 sha256sum
"""
import hashlib
import os
import re

ROOT = os.path.dirname(os.path.dirname(os.path.realpath(__file__)))
PROGRAM = "crates/nn_standby/out/nn_standby"
OBJECT = f"{PROGRAM}.o"
SUM = re.compile(r"([0-9a-f]{64})  (\S+)")


def sum_of(data):
    return hashlib.sha256(data).hexdigest()


def read(path):
    with open(path, "rb") as file:
        return file.read()


def depends():
    """Each crate of the repository, with what it stands on: crates of the repository and libraries of the toolchain."""
    lines = read(os.path.join(ROOT, "crates.txt")).decode().splitlines()
    rows = (line.partition(":") for line in lines if line and not line.startswith("#"))
    return {name.split()[0]: below.split() for name, _, below in rows}


def chain(crate="nn_standby"):
    """What a crate stands on, however deep: the crates of the repository, and the libraries of the toolchain."""
    known, ours, others = depends(), set(), set()
    ahead = list(known[crate])
    while ahead:
        name = ahead.pop()
        if name in known and name not in ours:
            ahead += known[name]
        (ours if name in known else others).add(name)
    return sorted(ours), sorted(others)


def sum_of_folder(top):
    """The sum of a library, as the head of this file defines it."""
    names = []
    for at, folders, files in os.walk(top):
        inside = os.path.relpath(at, top)
        folders[:] = [it for it in folders if (inside, it) != (".", "below")]
        names += [os.path.normpath(os.path.join(inside, it)) for it in files]
    lines = (f"{sum_of(read(os.path.join(top, name)))}  ./{name}\n" for name in sorted(names, key=os.fsencode))
    return sum_of("".join(lines).encode())


def libraries():
    """The sum of each library in out/ that a gate proved, by its place. One with a stamp is what an earlier check kept."""
    sums = {}
    for name in chain()[0]:
        folder, place = os.path.join(ROOT, "crates", name, "out", "rlib"), f"crates/{name}/out/rlib/{name}.rlib"
        if os.path.isdir(os.path.join(ROOT, place)) and not os.path.exists(os.path.join(folder, "stamp")):
            sums[place] = sum_of_folder(os.path.join(ROOT, place))
    return sums


def files():
    """The sums of the program and of its object. Where `rt ci` kept a program of an earlier run, it leaves no object."""
    places = [it for it in (PROGRAM, OBJECT) if it == PROGRAM or os.path.exists(os.path.join(ROOT, it))]
    return {name: sum_of(read(os.path.join(ROOT, name))) for name in places}


class GateLog:
    """What a gate said: of which commit, with which toolchain, how it ended, and the sums of what it made."""

    def __init__(self, path):
        self.text = read(path)
        self.lines = self.text.decode("utf-8", "replace").splitlines()
        self.commit = self.last_of(r"commit (\S+)")
        self.toolchain = self.last_of(r"toolchain (.+)") or "unknown"
        self.verdict = self.last_of(r"(\d+ passed, \d+ failed)") or "unknown"
        self.passed = self.verdict.endswith(" passed, 0 failed") and self.lines[-1:] == ["the gate passed"]
        found = [SUM.fullmatch(line) for line in self.lines]
        self.sums = {it[2]: it[1] for it in found if it}

    def last_of(self, form):
        """What the last line of this form says, or None."""
        found = [re.fullmatch(form, line) for line in self.lines]
        return next((it[1] for it in reversed(found) if it), None)

    def has_all(self, sums):
        """Whether it tells of each library of the program, and each one's sum is the one given."""
        wanted = {f"crates/{name}/out/rlib/{name}.rlib" for name in chain()[0]}
        return wanted <= set(sums) and all(self.sums.get(place) == sums[place] for place in wanted)


if __name__ == "__main__":
    for place, its_sum in {**files(), **libraries()}.items():
        print(f"{its_sum}  {place}")
