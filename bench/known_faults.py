"""The modules of a folder as one value, as they are or with a fault put back, and its known faults.

A fault stands in a file: a name (`== NAME`), a file, lines that stand there once (`-`), and what stands there with the
fault (`+`).
"""
import importlib
import os
import re
import sys
from types import ModuleType, SimpleNamespace
from typing import Iterator, NamedTuple


class Stale(Exception):
    """A fault whose lines do not stand in the sources once. The text says which."""


class Sources:
    """The modules of a folder, by their names in the order in which they import each other, and the file of their faults."""

    def __init__(self, folder, names, faults):
        self.folder = folder
        self.names = names
        self.file_of_faults = faults

    def path(self, name):
        return os.path.join(self.folder, f"{name}.py")

    def source(self, name):
        with open(self.path(name), encoding="utf-8") as file:
            return file.read()

    def loaded(self, changes=None):
        """The modules, loaded anew. `changes` has new sources by the name of their module."""
        sys.path.insert(0, self.folder)
        for name in self.names:
            sys.modules.pop(name, None)
        try:
            for name in self.names:
                if changes and name in changes:
                    module = ModuleType(name)
                    module.__file__ = self.path(name)
                    sys.modules[name] = module
                    exec(compile(changes[name], module.__file__, "exec"), module.__dict__)
                else:
                    importlib.import_module(name)
            return SimpleNamespace(**{name: sys.modules[name] for name in self.names})
        finally:
            sys.path.remove(self.folder)

    def faults(self) -> Iterator["Fault"]:
        with open(self.file_of_faults, encoding="utf-8") as file:
            blocks = re.split(r"^== ", file.read(), flags=re.M)[1:]
        for block in blocks:
            name, path, *rows = block.rstrip("\n").split("\n")
            old, new = ("".join(f"{row[1:]}\n" for row in rows if row.startswith(sign)) for sign in "-+")
            yield Fault(name, os.path.basename(path).partition(".")[0], old, new, self)


class Fault(NamedTuple):
    name: str
    module: str
    old: str
    new: str
    sources: Sources

    def changed(self):
        """The source of its module with the fault."""
        text = self.sources.source(self.module)
        if text.count(self.old) != 1:
            raise Stale(f"{self.name}: its lines stand {text.count(self.old)} times in {self.module}.py")
        return text.replace(self.old, self.new)
