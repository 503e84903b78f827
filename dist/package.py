#!/usr/bin/env python3
"""Makes a package for Debian of a release: package.py ARCHIVE writes zulurowan_VERSION_amd64.deb beside it.

COMMANDS has what a package installs. Their man pages and their completions for bash, zsh and fish are made of what each
one's --help prints; dist/make puts these into the archive. One archive gives one package, the same bytes each time.
"""
import sys

sys.dont_write_bytecode = True

import argparse
import gzip
import io
import os
import re
import subprocess
import tarfile
from typing import NamedTuple, Optional

from packing import Broken, File, unpacked
from symbols import glibc_of

# Each command, and the file of the archive that it is.
COMMANDS = {
    "nn_standby": "bin/nn_standby",
    "zulurowan-audit": "audit/zulurowan-audit",
    "zulurowan-watch": "audit/zulurowan-watch",
    "zulurowan-replicas": "audit/zulurowan-replicas",
    "zulurowan-follow": "audit/zulurowan-follow",
    "zulurowan-from-oev": "hdfs/zulurowan-from-oev",
    "zulurowan-from-oiv": "hdfs/zulurowan-from-oiv",
    "zulurowan-feed": "feed/zulurowan-feed",
    "zulurowan-failover": "failover/zulurowan-failover",
}
OPTION = re.compile(r" +(?:(-\w), )?(--[\w-]+)(?: <?([^\s<>]+)>?)?(?: {2,}(.*))?")
ARGUMENT = re.compile(r"  ([A-Z]+)(?: {2,}(.*))?")
HEADINGS = {"options:", "Options:", "optional arguments:", "positional arguments:"}
# Where a package has the completions of each shell, and how a file of them is named.
SHELLS = {
    "bash": "usr/share/bash-completion/completions/{}",
    "zsh": "usr/share/zsh/vendor-completions/_{}",
    "fish": "usr/share/fish/vendor_completions.d/{}.fish",
}
CONTROL = """Package: zulurowan
Version: {version}
Architecture: amd64
Maintainer: Zulurowan maintainers <maintainers@users.noreply.zulurowan.example>
Installed-Size: {size}
Depends: libc6 (>= {glibc}), python3 (>= 3.8)
Recommends: python3-kazoo
Suggests: zookeeper
Section: admin
Priority: optional
Description: verified core of the standby NameNode of HDFS
 Audits a cluster's checkpoints, judges its replicas, follows its edit log, and keeps a standby in service.
 zulurowan-failover promotes one over ZooKeeper: it wants python3-kazoo, and python3 3.9 or later.
"""


class Option(NamedTuple):
    short: Optional[str]
    long: str
    value: Optional[str]
    about: str


class Help:
    """What a command says of itself."""

    def __init__(self, name, text):
        self.name = name
        lines = text.splitlines()
        usage = next(line for line in lines if line.lower().startswith("usage: "))
        self.usage = re.sub(r"^\S+ \S+", name, usage)
        rows = [OPTION.fullmatch(line) for line in lines]
        self.options = [Option(it[1], it[2], it[3], it[4] or "") for it in rows if it]
        self.arguments = [it.groups("") for it in map(ARGUMENT.fullmatch, lines) if it]
        # What it is for, and how it ends.
        self.about = [line for line in lines if line and not line.startswith(" ") and line not in HEADINGS and line != usage]


def help_of(name, path):
    """The help of a command, each option on one line."""
    how = {"capture_output": True, "text": True, "timeout": 60, "check": True}
    return Help(name, subprocess.run([path, "--help"], env={**os.environ, "COLUMNS": "100000"}, **how).stdout)


def roff(text):
    return re.sub(r"^([.'])", r"\\&\1", text.replace("\\", "\\e").replace("-", "\\-"))


def man_page(it):
    """The manual's page of a command."""
    rows = [f'.TH {it.name} 1 "" zulurowan', ".SH NAME", f"{roff(it.name)} \\- {roff(it.about[0])}"]
    rows += [".SH SYNOPSIS", roff(it.usage), ".SH DESCRIPTION", *map(roff, it.about)]
    for value, about in it.arguments:
        rows += [".TP", f".I {roff(value)}", roff(about)]
    rows += [".SH OPTIONS"]
    for option in it.options:
        names = ", ".join(filter(None, (option.short, option.long)))
        rows += [".TP", f".B {roff(names)}" + (f" \\fI{option.value}\\fR" if option.value else ""), roff(option.about)]
    return "\n".join([*rows, ""])


def for_bash(it):
    words = " ".join(option.long for option in it.options)
    return f'complete -o default -W "{words}" {it.name}\n'


def for_zsh(it):
    def row(option):
        about = re.sub(r"([\[\]:'\\])", "", option.about)
        return f"  '{option.long}[{about}]" + (f":{option.value}:_files'" if option.value else "'")

    return "\n".join([f"#compdef {it.name}", "_arguments \\", *(f"{row(option)} \\" for option in it.options), "  '*:file:_files'", ""])


def for_fish(it):
    def row(option):
        about = option.about.replace("\\", "").replace("'", "")
        return f"complete -c {it.name} -l {option.long[2:]}" + " -r" * bool(option.value) + f" -d '{about}'"

    return "\n".join([*map(row, it.options), ""])


WRITERS = {"bash": for_bash, "zsh": for_zsh, "fish": for_fish}


def pages(paths):
    """The man pages and completions of commands, by their names in an archive. `paths` has where each command is."""
    helps = [help_of(name, path) for name, path in paths.items()]
    made = {f"man/{it.name}.1": man_page(it) for it in helps}
    made.update({f"completions/{shell}/{it.name}": write(it) for it in helps for shell, write in WRITERS.items()})
    return {name: File(text.encode()) for name, text in made.items()}


def contents(files):
    """What a package of an archive's files installs, by place; a text in place of a file is where a link leads."""
    placed = {f"usr/lib/zulurowan/{name}": file for name, file in files.items() if not name.startswith(("man/", "completions/", "link/"))}
    for name, place in COMMANDS.items():
        placed[f"usr/bin/{name}"] = f"../lib/zulurowan/{place}"
        placed[f"usr/share/man/man1/{name}.1.gz"] = File(gzip.compress(files[f"man/{name}.1"].data, mtime=0))
        for shell, where in SHELLS.items():
            placed[where.format(name)] = files[f"completions/{shell}/{name}"]
    for name in (it for it in files if it.startswith("examples/systemd/")):
        placed[f"lib/systemd/system/{os.path.basename(name)}"] = files[name]
    placed["usr/share/doc/zulurowan/copyright"] = files["NOTICE"]
    return placed


def tar_of(placed):
    """These files and links as a tar, with the folders that they are in."""
    folders = {name[:at] for name in placed for at, sign in enumerate(name) if sign == "/"}
    output = io.BytesIO()
    with gzip.GzipFile("", "wb", 9, output, 0) as packed, tarfile.open(fileobj=packed, mode="w", format=tarfile.GNU_FORMAT) as tar:
        for name in sorted({*placed, *folders}):
            it, entry = placed.get(name), tarfile.TarInfo(f"./{name}")
            if it is None:
                entry.type, entry.mode = tarfile.DIRTYPE, 0o755
            elif isinstance(it, str):
                entry.type, entry.linkname, entry.mode = tarfile.SYMTYPE, it, 0o777
            else:
                entry.size, entry.mode = len(it.data), 0o755 if it.is_executable else 0o644
            tar.addfile(entry, io.BytesIO(it.data) if isinstance(it, File) else None)
    return output.getvalue()


def package(folder, files):
    """A package of an archive's files: the bytes of a .deb."""
    placed = contents(files)
    size = sum(len(it.data) for it in placed.values() if isinstance(it, File)) // 1024
    glibc = ".".join(map(str, glibc_of(files["bin/nn_standby"].data)))
    control = CONTROL.format(version=folder.split("-")[1], size=size, glibc=glibc)
    parts = {"debian-binary": b"2.0\n", "control.tar.gz": tar_of({"control": File(control.encode())}), "data.tar.gz": tar_of(placed)}
    rows = (f"{name:<16}{0:<12}{0:<6}{0:<6}{'100644':<8}{len(data):<10}`\n".encode() + data + b"\n" * (len(data) % 2) for name, data in parts.items())
    return b"!<arch>\n" + b"".join(rows)


def main():
    about, _, more = __doc__.partition("\n")
    parser = argparse.ArgumentParser(description=about, epilog=more.strip())
    parser.add_argument("archive", metavar="ARCHIVE", help="what dist/make made")
    path = parser.parse_args().archive
    try:
        folder, files = unpacked(path)
        made = os.path.join(os.path.dirname(path), f"zulurowan_{folder.split('-')[1]}_amd64.deb")
        with open(made, "wb") as output:
            output.write(package(folder, files))
    except (Broken, OSError, KeyError) as reason:
        sys.exit(f"package: {path}: {reason}")
    print(made)


if __name__ == "__main__":
    main()
