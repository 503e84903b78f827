"""What an archive has beside the files of its commit: its README, and for who doubts it NOTICE and the licences,
HOW-TO-REBUILD, the gate's log and the object.
"""
import os
import re

from evidence import ROOT, read, sum_of
from packing import File

TEXTS = os.path.join(ROOT, "dist", "archive")
START_FILES = "Scrt1.o, crti.o, crtn.o and libc_nonshared.a of the GNU C Library"


def recipe():
    """How README.md makes dumps of a cluster and audits them."""
    section = read(os.path.join(ROOT, "README.md")).decode().partition("\n## Audit ")[2]
    return re.search(r"^```sh\n(.*?)^```$", section, re.M | re.S)[1]


def readme(version, needs):
    """The README of an archive."""
    text = read(os.path.join(TEXTS, "README")).decode()
    return File(text.format(version=version.split()[1], needs=needs, recipe=recipe()).encode())


def texts(source, kit, is_old):
    """What is for who doubts it, by its names in the archive."""
    toolchain = source.log.toolchain if source.log else "unknown"
    taken = {name: kit.licences(name) for name in kit.libraries()}
    rows = [f"- {name}: {', '.join(files) or 'the toolchain names no licence of it'}" for name, files in taken.items()]
    words = {"commit": source.commit, "toolchain": toolchain, "object": sum_of(source.object), "libraries": "\n".join(rows)}
    words["files"] = f"{START_FILES}, as {'Debian 11' if is_old else 'the toolchain'} has them"
    words["kit"] = sum_of(read(os.path.join(kit.folder, "WHAT")))
    made = {name: File(read(os.path.join(TEXTS, name)).decode().format(**words).encode()) for name in ("NOTICE", "HOW-TO-REBUILD")}
    for library, files in taken.items():
        for name in files:
            made[f"licences/{library}/{name}"] = File(read(os.path.join(kit.folder, "rattle", library, name)))
    made["link/nn_standby.o"] = File(source.object)
    if source.log is not None:
        made["gate.log"] = File(source.log.text)
    return made
