"""Links the object of a program once more, over the C library of an older system, so that the program runs there too.

The toolchain's own linker does it, with Debian 11's files in place of the toolchain's. They come by apt, from Debian's
archive, and only with these sums. They are kept in dist/out/packages. What the program's start asks of a newer glibc
is answered by cpuid_leaf.c, which the toolchain's clang compiles.
"""
import os
import shutil
import subprocess
import tempfile
from typing import NamedTuple

from evidence import ROOT, read, sum_of

KEPT = os.path.join(ROOT, "dist", "out", "packages")
STAND_IN = os.path.join(ROOT, "dist", "cpuid_leaf.c")
TARGET = "x86_64-unknown-linux-gnu"
MIRROR = "http://deb.debian.org/debian"
LIMITS = ["-o", "APT::Architecture=amd64", "-o", "Acquire::Retries=0", "-o", "Acquire::http::Timeout=20"]
KEYS = "/usr/share/keyrings/debian-archive-keyring.gpg"
SUITE = "bullseye"


class Package(NamedTuple):
    name: str
    version: str
    sum: str

    @property
    def file(self):
        return f"{self.name}_{self.version}_amd64.deb"


PACKAGES = (
    Package("libc6", "2.31-13+deb11u11", "05f7264da867b37f4c5ce49266b558ea1e81e05a9464f623152fca70f3550282"),
    Package("libc6-dev", "2.31-13+deb11u11", "e7f7b45d9c5cfcf37609f0b6efd3c645272c812144703af89dfd32218fcb0fd3"),
    Package("libgcc-s1", "10.2.1-6", "e478f2709d8474165bb664de42e16950c391f30eaa55bc9b3573281d83a29daf"),
)
# What the linker is given, by the name that it knows, and where it lies in the packages.
LIB, USR = "lib/x86_64-linux-gnu", "usr/lib/x86_64-linux-gnu"
FILES = {
    **{name: f"{USR}/{name}" for name in ("Scrt1.o", "crti.o", "crtn.o", "libc_nonshared.a")},
    **{name: f"{LIB}/{name}" for name in ("libc-2.31.so", "libpthread-2.31.so", "libgcc_s.so.1")},
    "libm.so.6": f"{LIB}/libm-2.31.so",
    "ld-linux-x86-64.so.2": f"{LIB}/ld-2.31.so",
}


class NoPackages(Exception):
    """Why the files of the older system are not at hand."""


def is_kept(package):
    path = os.path.join(KEPT, package.file)
    return os.path.exists(path) and sum_of(read(path)) == package.sum


def apt(folder, *words):
    """Runs apt-get on a state of its own, which knows the older system alone."""
    state = {
        "Dir::Etc::sourcelist": "sources.list",
        "Dir::Etc::sourceparts": "none",
        "Dir::State": "state",
        "Dir::State::status": "status",
        "Dir::Cache": "cache",
    }
    options = [word for name, it in state.items() for word in ("-o", f"{name}={os.path.join(folder, it)}")]
    how = {"cwd": folder, "stdout": subprocess.PIPE, "stderr": subprocess.STDOUT, "text": True, "timeout": 60}
    try:
        done = subprocess.run(["apt-get", "-q", *options, *LIMITS, *words], **how)
    except (OSError, subprocess.TimeoutExpired) as reason:
        raise NoPackages(str(reason)) from None
    if done.returncode != 0:
        raise NoPackages(f"apt-get {words[0]} ended with status {done.returncode}: {done.stdout.strip()[-300:]}")


def mirror():
    """Where this system's own apt has Debian from."""
    words = ["apt-get", "indextargets", "--format", "$(REPO_URI)", "Created-By: Packages", "Origin: Debian", "Component: main"]
    try:
        found = subprocess.run(words, capture_output=True, text=True, timeout=60).stdout.split()
    except (OSError, subprocess.TimeoutExpired):
        found = []
    return next((it for it in found if "security" not in it), MIRROR)


def fetch():
    """Has apt bring the packages that are not kept yet."""
    if all(map(is_kept, PACKAGES)):
        return
    with tempfile.TemporaryDirectory() as folder:
        for name in ("state/lists/partial", "cache/archives/partial"):
            os.makedirs(os.path.join(folder, name))
        # The sums below hold also where the keys are not there.
        trust = f"signed-by={KEYS}" if os.path.exists(KEYS) else "trusted=yes"
        with open(os.path.join(folder, "sources.list"), "w") as file:
            file.write(f"deb [{trust} check-valid-until=no] {mirror()} {SUITE} main\n")
        open(os.path.join(folder, "status"), "w").close()
        apt(folder, "update")
        apt(folder, "download", *(f"{it.name}={it.version}" for it in PACKAGES))
        os.makedirs(KEPT, exist_ok=True)
        for package in PACKAGES:
            shutil.copy(os.path.join(folder, package.file), KEPT)
            if not is_kept(package):
                raise NoPackages(f"{package.file} has not the sum that is wanted")


def unpack(folder):
    """Lays out what the packages have."""
    fetch()
    if not shutil.which("dpkg-deb"):
        raise NoPackages("there is no dpkg-deb")
    for package in PACKAGES:
        run("dpkg-deb", "-x", os.path.join(KEPT, package.file), folder)


class Linker:
    """Links objects of the toolchain's compiler over the older C library."""

    def __init__(self, kit, folder):
        self.kit = kit
        self.folder = folder
        self.system = os.path.join(folder, "system")
        unpack(self.system)
        self.lay_out()

    def path(self, name):
        return os.path.join(self.folder, name)

    def lay_out(self):
        """A toolchain folder: the kit's, with the older files in place of its own."""
        shutil.copytree(os.path.join(self.kit, "toolchain", "lib"), self.path("lib"))
        os.symlink(os.path.join(self.kit, "toolchain", "bin"), self.path("bin"))
        for name, place in FILES.items():
            shutil.copy(os.path.join(self.system, place), self.path(f"lib/{name}"))
        # Two libraries then, which are one today.
        with open(self.path("lib/libc.so.6"), "w") as file:
            file.write(f"GROUP ( {self.path('lib/libc-2.31.so')} {self.path('lib/libpthread-2.31.so')} )\n")

    def link(self, name, to):
        """Links an object, and answers the program."""
        clang = [os.path.join(self.kit, "toolchain", "bin", "clang"), f"--target={TARGET}", "-O2", "-fPIE", "-c"]
        run(*clang, STAND_IN, "-o", self.path("stand_in.o"))
        words = [os.path.join(self.kit, "bin", "rattle-link"), "--target", TARGET, "--toolchain", self.folder, "-o", to]
        run(*words, name, self.path("stand_in.o"), *(os.path.join(self.kit, "c", it) for it in ("libos_c.a", "liblibc_c.a")))
        return read(to)

    def on_old(self, program, *arguments):
        """The words that run a program on the older system's own loader and libraries."""
        loader, library = (os.path.join(self.system, LIB, it) for it in ("ld-2.31.so", ""))
        return [loader, "--library-path", library, program, *arguments]


def run(*words):
    done = subprocess.run(words, capture_output=True, text=True)
    if done.returncode != 0:
        raise subprocess.CalledProcessError(done.returncode, words[0], stderr=done.stderr)
